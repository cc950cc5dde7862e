#!/bin/sh
# Tests libcapkit's packages for C, Python, Rust and Go as a user has them: builds them, installs
# them into out/packages, runs their tests, uses them from programs elsewhere, compares the examples
# of the four, runs the code of their READMEs, and removes them again. check.sh calls it.
#
# usage: library/check_packages.sh
#
# It needs no network, and reports missing compilers. The status is 1 if something is wrong.
#
# shellcheck disable=SC2317  # the functions of a language are called by names that are put together
set -eu
cd "$(dirname "$0")"
library=$PWD
samples=$library/../samples
packages=$library/out/packages
bad=0
languages=c
odd=$(printf 'odd\nname\377')
have() { command -v "$1" >/dev/null 2>&1; }
wrong() {
    printf '%s\n' "$*"
    bad=1
}
# The tools that build a wheel may be missing in the first Python in PATH; Debian's has them.
for python in python3 /usr/bin/python3 none; do
    "$python" -c 'import setuptools, wheel, venv, pip' 2>/dev/null && break
done
version=$(cat ../packaging/version)
grep -q "__version__ = \"$version\"" python/src/capkit/__init__.py || wrong 'Python: another version'
grep -q "^version = \"$version\"" rust/Cargo.toml || wrong 'Rust: another version'

make -s all examples
rm -rf "$packages"
mkdir -p "$packages"
make -s install PREFIX="$packages/prefix"
export PKG_CONFIG_PATH="$packages/prefix/lib/pkgconfig"
# What is linked to the shared library finds it here; the wheel has its own.
linked() { LD_LIBRARY_PATH=$packages/prefix/lib "$@"; }

# The code in an indented block of a package's README.
page_code() { # LANGUAGE NUMBER
    awk -v wanted="$2" '
        /^    / { count += !inside; inside = 1 }
        /^[^ ]/ { inside = 0 }
        inside && count == wanted { print substr($0, 5) }' "$1/README.md"
}

check_c() {
    # shellcheck disable=SC2046  # the flags are words
    for program in examples/filter examples/keep tests/packets; do
        cc -O2 -Wall -Wextra -o "$packages/c-${program#*/}" "$program.c" $(pkg-config --cflags --libs capkit)
    done
}

check_python() {
    make -s python PYTHON="$python"
    "$python" -m venv "$packages/venv"
    "$packages/venv/bin/pip" -q --disable-pip-version-check install --no-index out/python/capkit-*.whl
    (cd "$packages" &&
        CAPKIT_SAMPLES=$samples venv/bin/python -I -W error -m unittest discover -q -s "$library/python/tests") ||
        wrong 'Python: tests'
    # Only the source package, and a folder without a library.
    tar -C "$packages" -xzf out/python/capkit-"$version".tar.gz
    test -e "$packages/capkit-$version/libcapkit.so.0" || wrong 'Python: the source package has no library'
    rm "$packages/capkit-$version/libcapkit.so.0"
    "$python" -m pip -q wheel --no-index --no-deps --no-build-isolation -w "$packages" "$packages/capkit-$version" \
        >"$packages/python.txt" 2>&1 || grep -q 'there is no libcapkit.so.0: `make`' "$packages/python.txt" ||
        wrong 'Python: no word of what is missing'
    rm -rf "$packages/capkit-$version"
    for example in filter keep trace; do
        printf '#!/bin/sh\nunset LD_LIBRARY_PATH\nexec "%s/venv/bin/python" -I "%s/python/examples/%s.py" "$@"\n' \
            "$packages" "$library" "$example" >"$packages/python-$example"
        chmod +x "$packages/python-$example"
    done
    page_code python 1 >"$packages/page.py"
    printf '#!/bin/sh\nunset LD_LIBRARY_PATH\nexec "%s/venv/bin/python" -I page.py\n' "$packages" \
        >"$packages/python-page"
    chmod +x "$packages/python-page"
    if have mypy; then
        MYPYPATH=python/src mypy --cache-dir "$packages/mypy" --strict --no-error-summary \
            python/src/capkit python/tests/typed.py || wrong 'Python: types'
    fi
}
remove_python() {
    "$packages/venv/bin/pip" -q --disable-pip-version-check uninstall -y capkit
    (cd "$packages" && ! venv/bin/python -I -c 'import capkit' 2>/dev/null) || wrong 'Python: it is still there'
}

check_rust() {
    make -s rust
    (cd rust && linked cargo test -q --offline --target-dir "$library/out/cargo") >"$packages/rust.txt" 2>&1 ||
        { cat "$packages/rust.txt"; wrong 'Rust: tests'; }
    (cd rust && RUSTDOCFLAGS='-D warnings' cargo doc -q --no-deps --offline --target-dir "$library/out/cargo") ||
        wrong 'Rust: pages'
    if cargo clippy --version >/dev/null 2>&1; then
        (cd rust && cargo clippy -q --offline --all-targets --target-dir "$library/out/cargo" -- -D warnings) ||
            wrong 'Rust: clippy'
    fi
    mkdir -p "$packages/rust/src/bin"
    tar -C "$packages" -xzf out/rust/capkit-"$version".crate
    printf '[package]\nname = "user"\nversion = "0.0.0"\nedition = "2021"\n[dependencies]\ncapkit = { path = "%s" }\n' \
        "$packages/capkit-$version" >"$packages/rust/Cargo.toml"
    for example in filter keep; do
        cp "rust/examples/$example.rs" "$packages/rust/src/bin/"
        ln -s "rust/target/release/$example" "$packages/rust-$example"
    done
    {
        echo 'fn main() -> Result<(), Box<dyn std::error::Error>> {'
        page_code rust 1
        echo 'Ok(()) }'
    } >"$packages/rust/src/bin/page.rs"
    ln -s rust/target/release/page "$packages/rust-page"
    cp tests/packets.rs "$packages/rust/src/bin/"
    ln -s rust/target/release/packets "$packages/rust-packets"
    (cd "$packages/rust" && cargo build -q --offline --release && CAPKIT_STATIC=1 cargo build -q --offline)
    # The second one needs no shared library.
    "$packages/rust/target/debug/filter" tcp "$samples/day.pcap" >"$packages/static.txt" || wrong 'Rust: static'
}

check_go() {
    make -s go
    # A cache would keep the library's place of the last time.
    export GOFLAGS=-mod=mod GOPROXY=off CGO_ENABLED=1 GOCACHE="$packages/go-cache"
    test -z "$(gofmt -l go)" || wrong 'Go: layout'
    # With the race detector: goroutines share what may be shared.
    (cd go && go vet ./... && linked go test ./... && linked go test -race .) >"$packages/go.txt" 2>&1 ||
        { cat "$packages/go.txt"; wrong 'Go: tests'; }
    tar -C "$packages" -xzf out/go/capkit-"$version".tar.gz
    mkdir -p "$packages/go"
    printf 'module user\n\ngo 1.18\n\nrequire example.com/capkit v%s\n\nreplace example.com/capkit => %s\n' \
        "$version" "$packages/capkit@v$version" >"$packages/go/go.mod"
    mkdir "$packages/go/packets" "$packages/go/page"
    cp tests/packets.go "$packages/go/packets/main.go"
    {
        printf 'package main\nimport ("fmt"; "io"; "log"; "os"; "time"; "example.com/capkit")\n'
        printf 'func put(output io.Writer, packet capkit.Packet) {\n%s\n}\n' "$(page_code go 2)"
        printf 'func main() {\n'
        printf 'put(io.Discard, capkit.Packet{Time: time.Unix(1, 0), LinkType: 1, Data: make([]byte, 60)})\n'
        printf '%s\n}\n' "$(page_code go 1)"
    } >"$packages/go/page/main.go"
    cp -r go/examples/filter go/examples/keep "$packages/go/"
    for program in filter keep packets page; do
        (cd "$packages/go" && go build -o "$packages/go-$program" "./$program")
    done
}

# Runs an example in a language. Its output and messages are in two files afterwards, and its status
# in a variable.
run() { # LANGUAGE EXAMPLE WORD..
    program=$packages/$1-$2
    shift 2
    status=0
    linked "$program" "$@" >"$packages/out.txt" 2>"$packages/err.txt" || status=$?
}

# An example ends with a status, a message that has these words, and standard output whose last line is this.
expect() { # STATUS MESSAGE OUTPUT WORD..
    want=$1 message=$2 output=$3
    shift 3
    run "$language" "$@"
    test "$status" = "$want" || wrong "$language: $*: status $status, not $want"
    if [ "$message" ]; then
        grep -qF -- "$message" "$packages/err.txt" || wrong "$language: $*: no message with '$message'"
    elif [ -s "$packages/err.txt" ]; then
        wrong "$language: $*: $(cat "$packages/err.txt")"
    fi
    test "$(tail -n 1 "$packages/out.txt")" = "$output" || wrong "$language: $*: '$(tail -n 1 "$packages/out.txt")'"
}

check_filter() {
    for name in big-endian.pcap cooked.pcap day.pcap four.pcap mirror.pcap nanoseconds.pcap \
        comments.pcapng two-sections.pcapng; do
        counts=$(linked "$packages/c-filter" 'tcp or udp' "$samples/$name" | tail -n 1)
        expect 0 '' "$counts" filter 'tcp or udp' "$samples/$name"
    done
    expect 1 'too long' '22 of 30 packets match' filter tcp "$samples/damaged.pcap"
    expect 1 'truncated' '0 of 1 packets match' filter tcp "$samples/truncated.pcap"
    expect 0 '' '0 of 1 packets match' filter tcp "$packages/large.pcapng"
    expect 2 'unknown word (at byte 1)' '' filter prt "$samples/day.pcap"
    expect 2 'unknown character (at byte 5)' '' filter 'tcp ?' "$samples/day.pcap"
    expect 2 'not an expression' '' filter 'tcp port' "$samples/day.pcap"
    expect 2 'longer than 65536 bytes' '' filter "$(yes 'tcp ' | head -n 20000 | tr -d '\n')" "$samples/day.pcap"
    expect 1 'link type not filtered' '' filter arp "$samples/any.pcap"
    expect 0 '' '9 of 9 packets match' filter '' "$samples/any.pcap"
    expect 1 'o such file' '' filter tcp "$packages/missing.pcap"
    expect 1 'irectory' '' filter tcp "$samples"
    # What can't be printed is an error, and any bytes are a name.
    status=0
    linked "$packages/$language-filter" tcp "$samples/day.pcap" >/dev/full 2>"$packages/err.txt" || status=$?
    { test $status = 1 && grep -q 'o space left on device' "$packages/err.txt"; } ||
        wrong "$language: filter: a full output: $status"
    ln -f "$samples/day.pcap" "$packages/$odd" 2>/dev/null || cp "$samples/day.pcap" "$packages/$odd"
    expect 0 '' '34 of 44 packets match' filter tcp "$packages/$odd"
    # A file that is redirected, and a pipe.
    expect 0 '' '34 of 44 packets match' filter tcp /dev/stdin <"$samples/day.pcap"
    mkfifo "$packages/pipe"
    cat "$samples/day.pcap" >"$packages/pipe" &
    expect 0 '' '34 of 44 packets match' filter tcp "$packages/pipe"
    rm "$packages/pipe"
}

counts_of() { linked "$packages/c-filter" tcp "$1" 2>/dev/null | tail -n 1; }
check_keep() {
    kept=$packages/kept.pcapng
    for name in day.pcap mirror.pcap nanoseconds.pcap comments.pcapng two-sections.pcapng cooked.pcap any.pcap; do
        for text in 'tcp or udp' ''; do
            # Of another link type only the empty expression is one.
            if [ "$text" ] && [ $name = any.pcap ]; then continue; fi
            linked "$packages/c-keep" "$text" "$samples/$name" "$packages/c.pcapng"
            expect 0 '' '' keep "$text" "$samples/$name" "$kept"
            cmp "$packages/c.pcapng" "$kept" || bad=1
            if have capkit; then
                capkit print -w "$packages/printed.pcapng" "$samples/$name" "$text" >/dev/null
                cmp "$packages/printed.pcapng" "$kept" || bad=1
            fi
        done
        # What was kept of all packets reads back.
        test "$(counts_of "$kept")" = "$(counts_of "$samples/$name")" || wrong "$language: keep: $name"
    done
    expect 1 'too long' '' keep tcp "$samples/damaged.pcap" "$kept"
    test "$(linked "$packages/c-filter" '' "$kept" | tail -n 1)" = '22 of 22 packets match' ||
        wrong "$language: not all are kept"
    linked "$packages/c-keep" tcp "$samples/day.pcap" "$packages/c.pcapng"
    expect 0 '' '' keep tcp "$samples/day.pcap" "$packages/$odd.kept"
    cmp "$packages/c.pcapng" "$packages/$odd.kept" || bad=1
    expect 1 'o space left on device' '' keep tcp "$samples/day.pcap" /dev/full
    # A refused run doesn't change the output.
    cp "$samples/day.pcap" "$packages/self.pcap"
    printf 'some text\n' >"$packages/text"
    expect 2 'is the input too' '' keep tcp "$packages/self.pcap" "$packages/self.pcap"
    ln -f "$packages/self.pcap" "$packages/link.pcap"
    expect 2 'is the input too' '' keep tcp "$packages/self.pcap" "$packages/link.pcap"
    expect 2 'unknown word' '' keep prt "$packages/text" "$packages/self.pcap"
    expect 1 'link type not filtered' '' keep arp "$samples/any.pcap" "$packages/self.pcap"
    expect 1 'o such file' '' keep tcp "$packages/missing.pcap" "$packages/self.pcap"
    expect 1 'not a capture file' '' keep tcp "$packages/text" "$packages/self.pcap"
    cmp "$samples/day.pcap" "$packages/self.pcap" || wrong "$language: the output is gone"
    expect 1 'irectory' '' keep tcp "$samples/day.pcap" "$packages"
}

# Of captures that are damaged at random a package gives what the library's calls give, up to the
# same fault or past what is refused, in pieces of any length, and with few files open.
check_damaged() {
    for mode in all skip; do
        for text in '' 'tcp or len > 100'; do
            linked "$packages/c-packets" $mode "$text" "$packages"/damaged/* >"$packages/want.txt"
            for most in 1 7 100000000; do
                # shellcheck disable=SC3045  # every shell of Linux has it
                (ulimit -n 32 && linked "$packages/$language-packets" $mode "$text" $most "$packages"/damaged/*) \
                    >"$packages/got.txt" ||
                    wrong "$language: packets $mode '$text' $most"
                cmp "$packages/want.txt" "$packages/got.txt" || wrong "$language: damaged captures: $mode '$text' $most"
            done
        done
    done
}

check_usage() {
    for example in filter keep; do
        run "$language" "$example"
        { test "$status" = 2 && grep -q "^usage: $example" "$packages/err.txt"; } ||
            wrong "$language: $example: no usage"
    done
}

# The program of the README prints or writes the 9 packets of TCP port 80.
check_page() {
    cp "$samples/day.pcap" "$packages/"
    (cd "$packages" && linked "./$language-page" <day.pcap >page.txt) ||
        wrong "$language: the program of the README fails"
    if [ "$language" != python ]; then
        test "$(grep -c ': TCP, length' "$packages/page.txt")" = 9 ||
            wrong "$language: the program of the README prints something else"
    fi
    if [ "$language" != go ]; then
        test "$(linked "$packages/c-filter" '' "$packages/web.pcapng" | tail -n 1)" = '9 of 9 packets match' ||
            wrong "$language: the program of the README writes something else"
        rm -f "$packages/web.pcapng"
    fi
}

if have "$python"; then
    languages="$languages python"
else
    echo 'without a python3 with pip, setuptools, wheel and venv'
fi
if have cargo; then languages="$languages rust"; else echo 'without cargo'; fi
if have go; then languages="$languages go"; else echo 'without go'; fi
if have python3; then
    python3 tests/sparse_capture.py "$packages/large.pcapng" 3072
    mkdir "$packages/damaged"
    python3 tests/damaged_captures.py "$packages/damaged" 500 "$samples"/*.pcap "$samples"/*.pcapng
else
    cp "$samples/mirror.pcap" "$packages/large.pcapng"
fi
check_trace() {
    expect 0 '' 'it returns 262144' trace 'tcp port 80' "$samples/day.pcap" 7
    grep -q '^(010) jeq  *#0x50  *jt 18 jf 19  *A is 0x50, X is 0x14$' "$packages/out.txt" ||
        wrong 'Python: trace: A is something else'
    expect 0 '' 'it returns 0' trace 'tcp port 80' "$samples/day.pcap" 1
    expect 1 'no packet 99' '' trace tcp "$samples/day.pcap" 99
    expect 1 'too long' '' trace tcp "$samples/damaged.pcap" 40
    expect 2 'unknown word' '' trace prt "$samples/day.pcap" 1
    expect 2 'usage: trace' '' trace tcp "$samples/day.pcap" 0
}

# The lines of packets are those that capkit prints, up to a fault.
check_lines() {
    lines='import sys, capkit; [print(p.line(sys.argv[1] == "-e")) for p in capkit.packets(sys.argv[2])]'
    for name in big-endian.pcap cooked.pcap day.pcap four.pcap nanoseconds.pcap two-sections.pcapng damaged.pcap; do
        for link in '' -e; do
            # shellcheck disable=SC2086  # no word, or one
            capkit print $link "$samples/$name" >"$packages/out.txt" 2>/dev/null || true
            "$packages/venv/bin/python" -I -c "$lines" "$link" "$samples/$name" 2>/dev/null |
                cmp - "$packages/out.txt" || wrong "Python: lines $link: $name"
        done
    done
}

for language in $languages; do
    "check_$language"
    check_filter
    check_keep
    check_usage
    if [ "$language" != c ]; then check_page; fi
    if [ -e "$packages/$language-packets" ] && [ -d "$packages/damaged" ] && [ "$language" != c ]; then
        check_damaged
    fi
    if [ "$language" = python ]; then check_trace; fi
    if [ "$language" = python ] && have capkit; then check_lines; fi
done
case $languages in *python*) remove_python ;; esac
make -s uninstall PREFIX="$packages/prefix"
test -z "$(find "$packages/prefix" ! -type d)" || wrong 'make uninstall leaves files'
rm -rf "$packages"
[ $bad = 0 ] && echo "packages: $languages: all as they should be"
exit $bad
