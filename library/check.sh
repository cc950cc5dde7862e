#!/bin/sh
# Tests libcapkit: builds it, its callers and its packages, and runs them over samples/. For whoever
# changes the library.
#
# usage: library/check.sh [ROUNDS [INPUTS]]
#
# It tries ROUNDS of random programs and packets (100000), and INPUTS damaged captures under each
# sanitizer (5000). It uses valgrind, a C++ compiler, cargo, go, python3, libpcap's headers and capkit
# itself, and prints which of them are missing. If nothing failed, the last line is 'all as it should
# be' and the status 0; else the status is 1.
set -eu
cd "$(dirname "$0")"
rounds=${1:-100000}
inputs=${2:-5000}
bad=0
have() { command -v "$1" >/dev/null 2>&1; }
for program in valgrind c++ python3 capkit; do
    have $program || echo "without $program"
done
make -s all examples
for name in big-endian.pcap cooked.pcap damaged.pcap day.pcap four.pcap mirror.pcap nanoseconds.pcap truncated.pcap \
    comments.pcapng two-sections.pcapng; do
    printf '== %s\n' "$name"
    out/filter tcp "../samples/$name" 2>&1 || true
done >out/filter.txt
cmp out/filter.txt tests/filter.txt || bad=1
# The names that are visible, with their version, are those of the package's symbols file.
nm -D --defined-only out/libcapkit.so.0 | sed 's/.* [AT] / /; s/@@.*//; s/$/@libcapkit.so.0/' | sort >out/symbols.txt
sed 1d ../packaging/libcapkit0.symbols | cut -d ' ' -f 1-2 | sort | cmp - out/symbols.txt ||
    { echo 'other names are visible'; bad=1; }
if have c++; then
    {
        echo '#include <capkit.h>'
        echo 'int main() { size_t most; return capkit_bound("tcp", 3, &most) != CAPKIT_OK; }'
    } >out/plus.cc
    c++ -std=c++11 -Wall -Wextra -pedantic -Werror -Iinclude -o out/plus out/plus.cc out/libcapkit.a &&
        out/plus || bad=1
fi
grep -q "CAPKIT_VERSION \"$(cat ../packaging/version)\"" include/capkit.h || { echo 'another version'; bad=1; }
# shellcheck disable=SC2046,SC2183  # three numbers
grep -q "CAPKIT_VERSION_NUMBER $(printf '0x%02x%02x%02x' $(tr . ' ' <../packaging/version))u" include/capkit.h ||
    { echo 'another number of the version'; bad=1; }

# The programs of the page: one counts, and one is a function of keep.c.
sed -n '/^    #include <capkit.h>/,/^    }/s/^    //p' ../docs/LIBRARY.md >out/count.c
cc -O2 -Wall -Wextra -Iinclude -o out/count out/count.c out/libcapkit.a || bad=1
test "$(out/count 'tcp port 80' <../samples/day.pcap)" = '9 packets match' || { echo 'the page: count'; bad=1; }
status=0 && out/count tcp <../samples/day.pcap >/dev/full || status=$?
test $status = 1 || { echo 'the page: a full output'; bad=1; }
test "$(out/count tcp 2>&1 >/dev/null </dev/null)" = 'count: not a capture file' ||
    { echo 'the page: no reason'; bad=1; }
sed -n '/^    static uint32_t keep(/,/^    }/s/^    //p' ../docs/LIBRARY.md >out/page.c
sed -n '/^static uint32_t keep(/,/^}/p' examples/keep.c | cmp - out/page.c || bad=1

# The examples of capkit(3): one counts the packets of a capture in memory, one reads a pipe.
example() { # NUMBER
    awk -v wanted="$1" '
        /^\.Sh EXAMPLES/ { on = 1 }
        /^\.Ed/ { inside = 0 }
        inside && n == wanted
        on && /^\.Bd/ { n++; inside = 1 }' man/capkit.3
}
{
    printf '#include <capkit.h>\n#include <string.h>\n#include <unistd.h>\n'
    printf 'static uint8_t buffer[2 * CAPKIT_MOST_UNIT];\nstatic int seen;\n'
    printf 'static void use(const uint8_t *data, uint32_t size) { seen += data && size; }\n'
    printf 'static int in_memory(const uint8_t *capture, size_t size) {\n%s\nreturn (int)matching; }\n' "$(example 1)"
    printf 'static int from_pipe(void) { static struct capkit_interface interfaces[CAPKIT_MOST_INTERFACES];\n'
    printf 'struct capkit_reader reader = {0}; struct capkit_packet packet; size_t have = 0; ssize_t got; uint32_t found;\n'
    printf '%s\nreturn found == CAPKIT_END ? seen : 0; }\n' "$(example 2)"
    printf 'int main(int count, char **words) { (void)words;\n'
    printf 'return count > 1 ? in_memory(buffer, (size_t)read(0, buffer, sizeof buffer)) : from_pipe(); }\n'
} >out/manual.c
cc -O2 -Wall -Wextra -Iinclude -o out/manual out/manual.c out/libcapkit.a || bad=1
status=0 && out/manual memory <../samples/day.pcap || status=$?
test $status = 9 || { echo 'capkit(3): a capture in memory'; bad=1; }
# shellcheck disable=SC2002  # for a pipe
status=0 && cat ../samples/day.pcap | out/manual || status=$?
test $status = 44 || { echo 'capkit(3): a pipe'; bad=1; }

for name in day.pcap two-sections.pcapng comments.pcapng damaged.pcap; do
    if have valgrind; then
        valgrind -q --error-exitcode=99 --leak-check=full --show-leak-kinds=definite \
            out/filter 'tcp or udp' "../samples/$name" >/dev/null 2>out/valgrind.txt ||
            test $? != 99 || { cat out/valgrind.txt; bad=1; }
    fi
done
# A stream is read through a buffer to the same packets.
for name in day.pcap nanoseconds.pcap two-sections.pcapng comments.pcapng; do
    want=$(out/filter tcp "../samples/$name" | sed -n 's/.* of \([0-9]*\) packets match/\1/p')
    test "$(out/stream <"../samples/$name" | wc -l)" = "$want" || { echo "stream: $name"; bad=1; }
done
# A live pipe gives a packet 0.2 s after its last byte came, or earlier. The header and the first packet have 100 bytes.
rm -f out/live && mkfifo out/live
out/stream <out/live >out/live.txt &
exec 3>out/live
head -c 90 ../samples/day.pcap >&3
sleep 0.2
test -s out/live.txt && { echo 'stream: a packet before its end'; bad=1; }
tail -c +91 ../samples/day.pcap | head -c 10 >&3
sleep 0.2
test "$(wc -l <out/live.txt)" = 1 || { echo 'stream: no packet of a live pipe'; bad=1; }
exec 3>&-
wait $! || bad=1
# A fault is reported at once, though more bytes may come.
{ cat ../samples/damaged.pcap && sleep 10; } | timeout 8 out/stream >/dev/null 2>out/stream.txt || true
test "$(cat out/stream.txt)" = 'stream: -: offset 2631: too long' || { echo 'stream: a fault after the end'; bad=1; }
# What can't be printed is an error.
for words in 'compile tcp 1' 'explain tcp' stream; do
    # shellcheck disable=SC2086  # words
    status=0 && out/$words <../samples/day.pcap >/dev/full 2>out/full.txt || status=$?
    { test $status = 1 && grep -q "^${words%% *}: No space left on device$" out/full.txt; } ||
        { echo "$words: a full output: $status"; bad=1; }
done
# What an expression means; and a refused one.
meaning='((tcp src or dst port 80) or (tcp src or dst port 443)) and (src or dst host 10.0.0.1)'
for text in 'tcp port 80 or 443 and host 10.0.0.1' "$meaning"; do
    test "$(out/explain "$text")" = "$meaning" || { echo "explain: $text"; bad=1; }
done
status=0
out/explain 'tcp prt 80' 2>out/explain.txt || status=$?
{ test $status = 2 && grep -q '^explain: unknown word (at byte 5)$' out/explain.txt; } ||
    { echo 'explain: no refusal'; bad=1; }
tests/two_versions.sh || bad=1
tests/fuzz.sh "$inputs" || bad=1
./check_packages.sh || bad=1
if [ -e /usr/include/pcap/pcap.h ]; then
    make -s tests out/pcap_filter
    # libpcap runs capkit's programs, on Ethernet, cooked and raw captures.
    for name in day.pcap cooked.pcap four.pcap truncated.pcap; do
        want=$(out/filter 'tcp or udp' "../samples/$name" 2>/dev/null | sed -n 's/^\([0-9]*\) of .*/\1 packets match/p')
        test "$(out/pcap_filter 'tcp or udp' "../samples/$name" 2>/dev/null)" = "$want" ||
            { echo "libpcap: $name"; bad=1; }
    done
    out/fuzz 1 "$rounds" ../samples/*.pcap ../samples/*.pcapng || bad=1
    out/writes 1 "$rounds" || bad=1
    out/lent tests/expressions.txt || bad=1
    out/compare tests/expressions.txt ../samples/*.pcap || bad=1
    if have python3; then
        python3 tests/random_capture.py "$rounds" >out/random.pcap
        for link in 1 101 113; do
            python3 tests/random_capture.py 2000 $link >out/few-$link.pcap
        done
        out/compare tests/expressions.txt out/random.pcap out/few-*.pcap || bad=1
        # What capkit_explain writes is what the expression says, here and in libpcap.
        { cat tests/expressions.txt && python3 tests/random_expressions.py 1; } |
            out/meanings "$rounds" ../samples/*.pcap out/few-*.pcap || bad=1
    fi
else
    echo "without libpcap's headers"
fi
# Linux runs capkit's programs, in a network of its own.
if unshare -rn ip link set lo up 2>/dev/null; then
    unshare -rn tests/kernel.sh || bad=1
else
    echo 'without a network of its own'
fi
[ $bad = 0 ] && echo 'all as it should be'
exit $bad
