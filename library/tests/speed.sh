#!/bin/sh
# Prints the tables of docs/LIBRARY.md on speed: compilations and runs, reads of the next match
# (bench.c, on a made capture of 10,000 packets), whole programs in each language, and the lines of
# the examples (speed/speed.py).
#
# usage: library/tests/speed.sh [ROUNDS [OF_PROGRAMS]]
#
# ROUNDS is 400 by default, and OF_PROGRAMS, the rounds of whole programs, 7. It needs the library and
# its packages (make, make python), libpcap's headers, what speed.py names, and an idle machine.
set -eu
cd "$(dirname "$0")/.."
make -s out/bench
python3 ../bench/make_capture.py out/speed.pcap 10000
out/bench "${1:-400}" tests/expressions.txt out/speed.pcap
tests/speed/speed.py "${2:-7}"
