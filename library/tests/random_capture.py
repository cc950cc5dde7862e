"""Writes a pcap capture of COUNT packets to standard output, for check.sh.

usage: random_capture.py COUNT [LINK-TYPE (1, 101 or 113)]

Half of the packets are random past the fields that an expression tests first.
"""
import random
import struct
import sys

if len(sys.argv) < 2:
    sys.exit(__doc__)
COUNT = int(sys.argv[1])
LINK = int(sys.argv[2]) if len(sys.argv) > 2 else 1
PORTS = (22, 53, 80, 443, 1023, 65535)
# EtherTypes.
IPV4 = b"\x08\x00"
IPV6 = b"\x86\xdd"
ARP = b"\x08\x06"
RARP = b"\x80\x35"
VLAN = b"\x81\x00"
# The first bytes of all addresses; the last byte is random.
MAC = b"\2\0\0\0\0"
NET = b"\x0a\0\0"
NET6 = b"\x20\x01\x0d\xb8" + bytes(11)
# The start of a cooked link header.
COOKED = bytes.fromhex("0000000100060200000000010000")
chance = random.Random(1)


def address(start):
    """Returns one of the few addresses that expressions ask for."""
    return start + bytes([chance.randrange(3)])


def ports():
    return struct.pack(">HH", chance.choice(PORTS), chance.choice(PORTS))


def frame(size):
    """Returns an Ethernet packet of some bytes, with fields that expressions ask for as far as it reaches."""
    packet = bytearray(chance.randbytes(size))
    kind = chance.choice((IPV4, IPV4, IPV6, ARP, RARP, VLAN))
    if size >= 14:
        packet[:14] = address(MAC) + address(MAC) + kind
    if kind == IPV6 and size >= 60:
        packet[14], packet[20] = 0x60, chance.choice((6, 6, 17, 58, 132))
        packet[22:58] = address(NET6) + address(NET6) + ports()
    elif kind in (ARP, RARP) and size >= 54:
        packet[28:32], packet[38:42] = address(NET), address(NET)
    elif size >= 34:
        packet[14] = 0x40 + chance.choice((5, 5, 5, 6, 15))
        packet[20:22] = chance.choice((b"\x00\x00", b"\x00\x00", b"\x00\x10", b"\x20\x00"))
        packet[23] = chance.choice((1, 6, 6, 17, 132))
        packet[26:34] = address(NET) + address(NET)
        packet[34:38] = ports()[: size - 34]
    return bytes(packet)


out = sys.stdout.buffer
out.write(struct.pack("<IHHIIII", 0xA1B2C3D4, 2, 4, 0, 0, 262144, LINK))
for number in range(COUNT):
    packet = frame(chance.choice((0, 14, 20, 34, 38, 54, 60, 90)))
    packet = {1: packet, 101: packet[14:], 113: COOKED + packet[12:]}[LINK]
    original = len(packet) + chance.choice((0, 0, 100))
    out.write(struct.pack("<IIII", number, 0, len(packet), original) + packet)
