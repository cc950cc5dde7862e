#!/usr/bin/env python3
"""Writes captures that are damaged at random to a folder, for check_packages.sh.

usage: damaged_captures.py FOLDER COUNT SAMPLE..

They are samples with some bytes changed, cut, left out or doubled, or with a number at a limit. The
same COUNT gives the same bytes every time.
"""
import pathlib
import random
import sys

LIMITS = [0, 1, 255, 256, 999_999, 1_000_000, 0x7FFF_FFFF, 0x8000_0000, 0xFFFF_FFFF, 65_535, 65_536, 262_144, 262_145]


def damage(rng, capture):
    """Changes a capture in one place."""
    at = rng.randrange(len(capture))
    kind = rng.randrange(8)
    if kind < 3:
        capture[at] = rng.choice([0, 1, 255, rng.randrange(256), capture[at] ^ 1 << rng.randrange(8)])
    elif kind < 6:
        at -= at % 4
        capture[at : at + 4] = rng.choice(LIMITS).to_bytes(4, rng.choice(["little", "big"]))
    elif kind == 6:
        del capture[at : at + rng.choice([1, 4, len(capture)])]
    else:
        capture[at:at] = capture[at : at + rng.randrange(1, 200)]


def main():
    if len(sys.argv) < 4:
        sys.exit(__doc__)
    folder, count, samples = pathlib.Path(sys.argv[1]), int(sys.argv[2]), sys.argv[3:]
    rng = random.Random(92)
    whole = [pathlib.Path(name).read_bytes() for name in samples]
    for number in range(count):
        capture = bytearray(rng.choice(whole))
        for _ in range(rng.choice([0, 1, 1, 2, 5])):
            if capture:
                damage(rng, capture)
        (folder / f"{number:04}").write_bytes(capture)


main()
