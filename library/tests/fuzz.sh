#!/bin/sh
# Gives damaged captures, expressions and listings to every call (mutants.c), under the sanitizers of
# addresses and undefined behaviour, and then of threads; then all sizes of memory to the calls that
# take it (lent.c). It needs libcapkit.a (make).
#
# usage: library/tests/fuzz.sh [INPUTS]
#
# INPUTS is the number of damaged captures for each sanitizer (100000). The status is 1 if a run
# failed.
set -eu
cd "$(dirname "$0")/.."
inputs=${1:-100000}
bad=0
mkdir -p out
for sanitizer in address,undefined thread; do
    program=out/mutants-${sanitizer%,*}
    if ! ${CC:-cc} -g -O1 -Wall -Wextra -std=c11 -D_GNU_SOURCE -Iinclude -fsanitize="$sanitizer" \
        -fno-sanitize-recover=all -o "$program" tests/mutants.c out/libcapkit.a -lpthread; then
        echo "without -fsanitize=$sanitizer"
        continue
    fi
    "$program" 1 "$inputs" 4 ../samples/*.pcap* || bad=1
done
# The calls over memory that the caller lends.
if ${CC:-cc} -g -O1 -Wall -Wextra -std=c11 -D_GNU_SOURCE -Iinclude -fsanitize=address,undefined \
    -fno-sanitize-recover=all -o out/lent-address tests/lent.c out/libcapkit.a; then
    out/lent-address tests/expressions.txt >out/lent.txt || bad=1
    tail -n 1 out/lent.txt
else
    echo 'without -fsanitize=address,undefined'
fi
exit $bad
