#!/usr/bin/env python3
"""Writes a sparse pcapng file of blocks without packets, 1 MiB each, with a packet at its end.

usage: sparse_capture.py FILE MEBIBYTES
"""
import struct
import sys

BLOCK = 1 << 20
SECTION = struct.pack("<IIIHHqI", 0x0A0D0D0A, 28, 0x1A2B3C4D, 1, 0, -1, 28)
INTERFACE = struct.pack("<IIHHII", 1, 20, 1, 0, 0, 20)
PACKET = struct.pack("<IIIIIII60sI", 6, 92, 0, 0, 0, 60, 60, bytes(60), 92)

if len(sys.argv) != 3:
    sys.exit(__doc__)
with open(sys.argv[1], "wb") as file:
    file.write(SECTION + INTERFACE)
    for _ in range(int(sys.argv[2])):
        file.write(struct.pack("<II", 0x0BAD, BLOCK))
        file.seek(BLOCK - 12, 1)
        file.write(struct.pack("<I", BLOCK))
    file.write(PACKET)
