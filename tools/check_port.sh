#!/bin/sh
# Makes the packages for ARM64 and for this machine, and compares them: random command lines by both
# programs, and calls of both libraries, every byte of every buffer. For whoever changes the
# toolchain or packaging/port/. ARM64 runs under emulation (qemu-user-static).
#
# usage: tools/check_port.sh [--cases]
#
# With --cases it also proves and builds the cases for ARM64, and runs them all: 6 CPU minutes more
# if they are proved for this machine (`rt all check`), since the proof for ARM64 continues from that
# work, else 20 to 30. The last line counts the comparisons that differ, which is also the status; it
# is 2 if qemu is missing.

set -eu

root=$(CDPATH='' cd -- "$(dirname -- "$0")/.." && pwd -P)
cross=$root/out/arm64/cross
qemu=$(command -v qemu-aarch64-static || command -v qemu-aarch64) || {
    echo "$0: qemu-aarch64 is not in PATH (Debian: qemu-user-static)" >&2
    exit 2
}
work=$(mktemp -d)
trap 'rm -rf "$work"' EXIT

for machine in own arm64; do
    option=
    [ "$machine" = own ] || option=$machine
    # shellcheck disable=SC2086  # no word for this machine
    for package in $("$root/packaging/make_deb.sh" $option) $("$root/packaging/make_library_deb.sh" $option); do
        dpkg-deb -x "$package" "$work/$machine"
    done
done
emulated="$qemu -L $cross/root/usr/aarch64-linux-gnu"
differ=0

echo 'command lines:'
python3 "$root/tools/port/compare.py" "$work/own/usr/bin/capkit" "$emulated $work/arm64/usr/bin/capkit" ||
    differ=$((differ + 1))

echo 'calls of the library:'
for seed in 11 12 13 14; do
    python3 "$root/tools/port/calls.py" "$(echo "$work"/own/usr/lib/*/libcapkit.so.0)" "$work/calls" "$seed"
    "$cross/bin/aarch64-linux-gnu-gcc" -O2 -o "$work/replay" "$root/tools/port/replay.c" \
        "$(echo "$work"/arm64/usr/lib/*/libcapkit.a)"
    $emulated "$work/replay" "$work/calls" || differ=$((differ + 1))
done

if [ "${1-}" = --cases ]; then
    echo 'cases:'
    python3 "$root/packaging/build.py" cap_cases "$root/out/arm64/cap_cases" \
        aarch64-unknown-linux-gnu "$cross/toolchain"
    # shellcheck disable=SC2046  # the arguments of the stored run are words
    (cd "$root/crates/cap_cases/data" && $emulated "$root/out/arm64/cap_cases" $(cat ../args)) >"$work/cases" ||
        differ=$((differ + 1))
    cmp "$work/cases" "$root/crates/cap_cases/stdout" || differ=$((differ + 1))
    tail -n 1 "$work/cases"
fi

echo "$differ comparisons differ"
exit "$differ"
