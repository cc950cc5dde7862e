#!/usr/bin/env python3
"""Writes a pcap file of made-up traffic, for measurements and tests.

usage: make_capture.py FILE [PACKETS]

It has PACKETS packets (1,000,000) of 60 to 200 bytes: TCP, UDP, ICMP, ARP and IPv6 on Ethernet. The
same number of packets gives the same bytes every time.
"""
import random
import struct
import sys

# Some ports and addresses come often, so that each expression that is measured matches something.
COMMON_PORTS = [80, 443, 53, 22, 25, 8080, 8443, 123, 5, 5353, 3306, 993]
COMMON_HOSTS = [bytes([10, 0, 0, k]) for k in range(1, 60)]
COMMON_HOSTS += [bytes([192, 168, 1, k]) for k in range(1, 40)] + [bytes([1, 2, 3, 4])] * 4

TCP, UDP, ICMP, GRE, ICMP6 = 6, 17, 1, 47, 58

# The shortest header of each protocol, in bytes.
HEADER = {TCP: 20, UDP: 8, ICMP: 8, GRE: 8, ICMP6: 8}

SEED = 20260101
rng = random.Random(SEED)


def address():
    """Returns an IPv4 address, half of the time a common one."""
    if rng.random() < 0.5:
        return rng.choice(COMMON_HOSTS)
    return bytes([rng.randrange(1, 224), rng.randrange(256), rng.randrange(256), rng.randrange(1, 255)])


def address6():
    """Returns an IPv6 address."""
    return bytes.fromhex("20010db8") + rng.randbytes(12)


def ports():
    """Returns a server's port and a client's, in either order."""
    server = rng.choice(COMMON_PORTS) if rng.random() < 0.4 else rng.randrange(1, 65536)
    both = [server, rng.randrange(1024, 65536)]
    rng.shuffle(both)
    return both


def transport(protocol, length):
    """Returns `length` bytes of a transport header and its payload."""
    source, destination = ports()
    if protocol == TCP:
        flags = rng.choice([0x10, 0x10, 0x10, 0x18, 0x02, 0x12, 0x11, 0x04])
        numbers = rng.randrange(2**32), rng.randrange(2**32)
        header = struct.pack(">HHIIBBHHH", source, destination, *numbers, 0x50, flags, 65535, 0, 0)
    elif protocol == UDP:
        header = struct.pack(">HHHH", source, destination, length, 0)
    else:
        header = struct.pack(">BBHHH", rng.choice([0, 8, 3, 11]), 0, 0, rng.randrange(65536), 1)
    return (header + bytes(length))[: max(length, len(header))]


def fragment_field():
    """Returns the field of a fragment: 2 % of the packets are one."""
    if rng.random() < 0.02:
        return 0x2000 | rng.randrange(1, 100)
    return 0x4000 if rng.random() < 0.5 else 0


def ipv4(length):
    """Returns an IPv4 packet of about this length."""
    protocol = rng.choices([TCP, UDP, ICMP, GRE], [62, 30, 5, 3])[0]
    # a third of the TCP packets have no payload
    is_empty = protocol == TCP and rng.random() < 0.35
    body = HEADER[protocol] if is_empty else max(HEADER[protocol], length - 20)
    header = 24 if rng.random() < 0.03 else 20
    fields = 0x40 | header // 4, 0, header + body, rng.randrange(65536), fragment_field(), 64, protocol, 0
    start = struct.pack(">BBHHHBBH", *fields)
    return start + address() + address() + bytes(header - 20) + transport(protocol, body)


def ipv6(length):
    """Returns an IPv6 packet of about this length."""
    protocol = rng.choices([TCP, UDP, ICMP6], [55, 35, 10])[0]
    body = max(HEADER[protocol], length - 40)
    start = struct.pack(">IHBB", 0x60000000, body, protocol, 64)
    return start + address6() + address6() + transport(protocol, body)


def arp():
    """Returns an ARP packet."""
    start = struct.pack(">HHBBH", 1, 0x800, 6, 4, rng.choice([1, 2]))
    return start + rng.randbytes(6) + address() + rng.randbytes(6) + address()


def packet():
    """Returns an Ethernet frame: IPv4 (78 %), IPv6 (16 %), ARP (4 %) or LLDP (2 %)."""
    length = rng.randrange(46, 187)
    kind = rng.random()
    if kind < 0.78:
        data = b"\x08\x00" + ipv4(length)
    elif kind < 0.94:
        data = b"\x86\xdd" + ipv6(length)
    elif kind < 0.98:
        data = b"\x08\x06" + arp()
    else:
        data = b"\x88\xcc" + rng.randbytes(length)
    return (rng.randbytes(12) + data).ljust(60, b"\0")


def traffic(count):
    """Yields `count` packets with their times, up to 200 microseconds apart: the same at each call."""
    rng.seed(SEED)
    micros = 1_700_000_000 * 1_000_000
    for _ in range(count):
        data = packet()
        micros += rng.randrange(1, 200)
        yield micros, data


def write_capture(path, packets):
    """Writes packets with their times in microseconds into the file at `path`."""
    with open(path, "wb", buffering=1 << 20) as out:
        out.write(struct.pack("<IHHiIII", 0xA1B2C3D4, 2, 4, 0, 0, 262144, 1))
        for micros, data in packets:
            out.write(struct.pack("<IIII", *divmod(micros, 1_000_000), len(data), len(data)) + data)


if __name__ == "__main__":
    if len(sys.argv) not in (2, 3) or sys.argv[1].startswith("-"):
        sys.exit(__doc__)
    write_capture(sys.argv[1], traffic(int(sys.argv[2]) if len(sys.argv) > 2 else 1_000_000))
