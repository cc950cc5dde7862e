#!/usr/bin/env python3
"""Measures what `edit -D 1000` costs at worst: over packets whose digests collide, and over others.

For whoever changes the window of duplicates.

usage: collide.py [--packets N] [--capkit PROGRAM]

A window of 1,000 packets finds a packet by the low ten bits of its MD5. It makes N packets (10,000)
whose digests agree in these bits, and as many whose digests don't, in about 25 seconds. Then it
prints the instructions per packet for both, which valgrind's callgrind counts.
"""
import argparse
import hashlib
import pathlib
import random
import struct
import tempfile

import run

# Packets of 60 bytes that differ in the last eight.
START = bytes(52)


def chosen(count):
    """Packets whose digests, little-endian, agree in the ten bits that choose a place among 1,024."""
    packets, number, begun = [], 0, hashlib.md5(START)
    while len(packets) < count:
        number += 1
        end = struct.pack("<Q", number)
        digest = begun.copy()
        digest.update(end)
        if int.from_bytes(digest.digest()[:2], "little") & 0x3FF == 0x107:
            packets.append(START + end)
    return packets


def others(count):
    """As many packets that nobody chose."""
    rng = random.Random(1)
    return [START + struct.pack("<Q", rng.getrandbits(64)) for _ in range(count)]


def main():
    parser = argparse.ArgumentParser(description=__doc__.split("\n")[0])
    parser.add_argument("--packets", type=int, default=10_000)
    parser.add_argument("--capkit", default=None)
    arguments = parser.parse_args()
    capkit = arguments.capkit or run.built_program()
    with tempfile.TemporaryDirectory() as temporary:
        for name, choose in (("others", others), ("chosen", chosen)):
            capture = str(pathlib.Path(temporary) / f"{name}.pcap")
            run.make_capture.write_capture(capture, enumerate(choose(arguments.packets)))
            words = [capkit, "edit", "-F", "pcap", "-D", "1000", capture, "OUT"]
            print(f"{name:8} {run.instructions_of(words) / arguments.packets:.0f} instructions a packet")


if __name__ == "__main__":
    main()
