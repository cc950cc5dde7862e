"""Reads, filters or copies a capture with the package for Python, for speed.py.

usage: capkit.py read|match|pcap|pcapng CAPTURE [EXPRESSION | OUTPUT]

It prints the number of packets, and 0, the time of compiling, which isn't measured.
"""
import sys

import capkit

if len(sys.argv) < 3:
    sys.exit(__doc__)
mode, name, *rest = sys.argv[1:]
count = 0
if mode in ("read", "match"):
    for count, packet in enumerate(capkit.packets(name, *rest), 1):
        pass
else:
    with capkit.Writer(rest[0], mode) as writer:
        for count, packet in enumerate(capkit.packets(name), 1):
            writer.write(packet)
print(count, 0)
