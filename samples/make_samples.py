#!/usr/bin/env python3
"""Writes the captures of this folder: small ones that show a format each, and a day of an office network. The addresses are those
of RFC 1918, RFC 3849 and RFC 5737.

usage: make_samples.py [FOLDER]
"""
import pathlib
import struct
import sys

PC, LAPTOP, NAMES, ROUTER = "10.0.0.5", "10.0.0.6", "10.0.0.53", "10.0.0.1"
WEB, STRANGER = "203.0.113.80", "198.51.100.9"
MAC = {PC: "020000000005", LAPTOP: "020000000006", NAMES: "020000000053"}
OUTSIDE = "020000000001"

# 2026-01-31 00:00:00 UTC, in microseconds.
DAY = 1_769_817_600_000_000

FIN, SYN, RST, PUSH, ACK = 1, 2, 4, 8, 16


def at(hour, minute, second, micros=0):
    return DAY + ((hour * 60 + minute) * 60 + second) * 1_000_000 + micros


def octets(address):
    return bytes(int(part) for part in address.split("."))


def checksum(data):
    """The Internet checksum (RFC 1071)."""
    data += b"\0" * (len(data) % 2)
    total = sum(struct.unpack(f">{len(data) // 2}H", data))
    while total >> 16:
        total = (total & 0xFFFF) + (total >> 16)
    return struct.pack(">H", total ^ 0xFFFF)


def with_checksum(data, place, pseudo=b""):
    return data[:place] + checksum(pseudo + data) + data[place + 2 :]


def ethernet(source, target, kind, body):
    macs = [bytes.fromhex(MAC.get(host, OUTSIDE)) for host in (target, source)]
    return macs[0] + macs[1] + struct.pack(">H", kind) + body


def ip(source, target, protocol, body, place):
    """IPv4; the checksum of the body lies at `place`."""
    ends = octets(source) + octets(target)
    pseudo = b"" if protocol == 1 else ends + struct.pack(">HH", protocol, len(body))
    body = with_checksum(body, place, pseudo)
    head = struct.pack(">BBHHHBBH", 0x45, 0, 20 + len(body), 0, 0x4000, 64, protocol, 0) + ends
    return ethernet(source, target, 0x0800, with_checksum(head, 10) + body)


def tcp(source, target, numbers, flags, data=b""):
    sender, port = source
    receiver, other = target
    head = struct.pack(">HHIIBBHHH", port, other, *numbers, 0x50, flags, 64240, 0, 0)
    return ip(sender, receiver, 6, head + data, 16)


def udp(source, target, data):
    head = struct.pack(">HHHH", source[1], target[1], 8 + len(data), 0)
    return ip(source[0], target[0], 17, head + data, 6)


def ping(source, target, kind, number):
    return ip(source, target, 1, struct.pack(">BBHHH", kind, 0, 0, 7, number) + bytes(range(16)), 2)


def arp(source, target, operation):
    macs = [bytes.fromhex(MAC[host]) for host in (source, target)]
    asked = b"\0" * 6 if operation == 1 else macs[1]
    body = struct.pack(">HHBBH", 1, 0x0800, 6, 4, operation)
    body += macs[0] + octets(source) + asked + octets(target)
    frame = ethernet(source, target, 0x0806, body)
    return (b"\xff" * 6 + frame[6:] if operation == 1 else frame) + b"\0" * 18


def query(number, is_answer):
    """A question for the address of www.example.com, or its answer."""
    name = b"".join(bytes([len(part)]) + part for part in (b"www", b"example", b"com")) + b"\0"
    flags, answers = (0x8180, 1) if is_answer else (0x0100, 0)
    text = struct.pack(">HHHHHH", number, flags, 1, answers, 0, 0) + name + struct.pack(">HH", 1, 1)
    if is_answer:
        text += struct.pack(">HHHIH", 0xC00C, 1, 1, 300, 4) + octets(WEB)
    return text


def query6(number, is_answer):
    ends = [bytes.fromhex("20010db8") + bytes(11) + bytes([host]) for host in (5, 53)]
    ports = [49170, 53]
    if is_answer:
        ends.reverse()
        ports.reverse()
    data = query(number, is_answer)
    body = struct.pack(">HHHH", *ports, 8 + len(data), 0) + data
    body = with_checksum(body, 6, b"".join(ends) + struct.pack(">II", len(body), 17))
    head = struct.pack(">IHBB", 0x60000000, len(body), 17, 64)
    hosts = (NAMES, PC) if is_answer else (PC, NAMES)
    return ethernet(*hosts, 0x86DD, head + b"".join(ends) + body)


def conversation(start, client, server, sent, received):
    """A TCP connection from its first SYN to its last ACK."""
    a, b = 1000, 9000
    turns = [
        (client, server, (a, 0), SYN, b""),
        (server, client, (b, a + 1), SYN | ACK, b""),
        (client, server, (a + 1, b + 1), ACK, b""),
        (client, server, (a + 1, b + 1), PUSH | ACK, sent),
        (server, client, (b + 1, a + 1 + len(sent)), PUSH | ACK, received),
        (client, server, (a + 1 + len(sent), b + 1 + len(received)), ACK, b""),
        (client, server, (a + 1 + len(sent), b + 1 + len(received)), FIN | ACK, b""),
        (server, client, (b + 1 + len(received), a + 2 + len(sent)), FIN | ACK, b""),
        (client, server, (a + 2 + len(sent), b + 2 + len(received)), ACK, b""),
    ]
    return [(start + 12_000 * turn, tcp(*words)) for turn, words in enumerate(turns)]


def web():
    asked = b"GET / HTTP/1.1\r\nHost: www.example.com\r\n\r\n"
    page = b"<p>It works.</p>\n" * 20
    answer = b"HTTP/1.1 200 OK\r\nContent-Length: %d\r\n\r\n" % len(page) + page
    return conversation(at(12, 10, 0, 250), (PC, 49152), (WEB, 80), asked, answer)


def scan():
    """A stranger knocks at eight ports of the PC, which refuses each."""
    for step, port in enumerate(range(20, 28)):
        time = at(12, 40, step)
        yield time, tcp((STRANGER, 40000), (PC, port), (77, 0), SYN)
        yield time + 90, tcp((PC, port), (STRANGER, 40000), (0, 78), RST | ACK)


def day():
    """The packets of a day, by time: when, and the bytes."""
    yield at(10, 15, 0), arp(PC, NAMES, 1)
    yield at(10, 15, 0, 400), arp(NAMES, PC, 2)
    yield at(10, 15, 1), udp((PC, 49160), (NAMES, 53), query(1, False))
    yield at(10, 15, 1, 20_000), udp((NAMES, 53), (PC, 49160), query(1, True))
    yield from web()
    for number in (1, 2):
        yield at(12, 30, number), ping(PC, ROUTER, 8, number)
        yield at(12, 30, number, 700), ping(ROUTER, PC, 0, number)
    yield from scan()
    yield at(12, 50, 0), query6(2, False)
    yield at(12, 50, 0, 15_000), query6(2, True)
    hello, answer = b"\x16\x03\x01" + bytes(200), b"\x16\x03\x03" + bytes(900)
    yield from conversation(at(14, 20, 0), (LAPTOP, 49200), (WEB, 443), hello, answer)


def tagged():
    """The page of the web in VLAN 7, a question for a name without a tag, and a chunk of SCTP, whose checksum is wrong."""
    for time, data in web():
        yield time, data[:12] + struct.pack(">HH", 0x8100, 7) + data[12:]
    yield at(12, 50, 0), udp((PC, 49160), (NAMES, 53), query(1, False))
    start = struct.pack(">HHIIBBHIIHHI", 49300, 3868, 0, 0, 1, 0, 20, 1, 65535, 10, 10, 1)
    yield at(12, 51, 0), ip(PC, WEB, 132, start, 8)


def on_any():
    """The page of the web as `tcpdump -i any` writes it: sent, or received, by the second device."""
    for time, data in web():
        is_sent = data[6:12] == bytes.fromhex(MAC[PC])
        head = struct.pack(">HHIHBB", 0x0800, 0, 2, 1, 4 if is_sent else 0, 6)
        yield time, head + data[6:12] + b"\0\0" + data[14:]


def write(path, packets, link=1):
    with open(path, "wb") as file:
        file.write(struct.pack("<IHHIIII", 0xA1B2C3D4, 2, 4, 0, 0, 262144, link))
        for time, data in packets:
            file.write(struct.pack("<IIII", time // 1_000_000, time % 1_000_000, len(data), len(data)))
            file.write(data)


MICROSECONDS, NANOSECONDS = 0xA1B2C3D4, 0xA1B23C4D
REQUEST = bytes.fromhex("ffffffffffff 001122334455 0806 0001 0800 06 04 0001 001122334455 0a000001 000000000000 0a000002")
REPLY = bytes.fromhex("001122334455 66778899aabb 0806 0001 0800 06 04 0002 66778899aabb 0a000002 001122334455 0a000001")
COOKED_SYN = bytes.fromhex("0000 0001 0006 001122334455 0000 0800 4500 0028 0001 0000 40 06 0000 0a000001 0a000002"
                           "0400 0050 00000001 00000000 50 02 1000 0000 0000")
COOKED_LLDP = bytes.fromhex("0000 0001 0006 001122334455 0000 88cc")


def pcap(order, magic, records, link=1):
    """A pcap file of records: seconds, fraction and bytes."""
    yield struct.pack(order + "IHHIIII", magic, 2, 4, 0, 0, 262144, link)
    for seconds, fraction, data in records:
        yield struct.pack(order + "IIII", seconds, fraction, len(data), len(data)) + data


def arp_pair(order, magic, fractions):
    return b"".join(pcap(order, magic, zip((1_700_000_000, 1_700_000_001), fractions, (REQUEST, REPLY))))


def block(order, kind, body):
    size = 12 + len(body)
    return struct.pack(order + "II", kind, size) + body + struct.pack(order + "I", size)


def section(order, link):
    """A section header of pcapng, and an interface."""
    header = block(order, 0x0A0D0D0A, struct.pack(order + "IHH", 0x1A2B3C4D, 1, 0) + b"\xff" * 8)
    return header + block(order, 1, struct.pack(order + "HHI", link, 0, 262144))


def packet_block(order, ticks, data, comments=()):
    """An enhanced packet with comments."""
    options = b"".join(struct.pack("<HH", 1, len(it)) + it + bytes(-len(it) % 4) for it in comments)
    return block(order, 6, struct.pack(order + "IIIII", 0, 0, ticks, 4, 4) + data + options + bytes(4 if comments else 0))


def write_small(folder):
    """The captures that show a format each."""
    numbers = bytes([1, 2, 3, 4])
    small = {
        "four.pcap": b"".join(pcap("<", MICROSECONDS, [(n, 0, bytes([n] * n)) for n in numbers])),
        "nanoseconds.pcap": arp_pair("<", NANOSECONDS, (999_999_999, 250_999)),
        "big-endian.pcap": arp_pair(">", NANOSECONDS, (999_999_999, 250_999)),
        "truncated.pcap": arp_pair("<", MICROSECONDS, (999_999, 250))[:-1],
        "two-sections.pcapng": section("<", 1) + packet_block("<", 5, numbers)
                               + section(">", 101) + packet_block(">", 6, bytes([5, 6, 7, 8])),
        "cooked.pcap": b"".join(pcap("<", MICROSECONDS, [(1, 0, COOKED_SYN), (2, 0, COOKED_LLDP)], 113)),
        "comments.pcapng": section("<", 1) + packet_block("<", 1, numbers, [b"a first look"]) + packet_block("<", 2, numbers)
                           + packet_block("<", 3, numbers, [b"of two", b"the first"]),
    }
    for name, data in small.items():
        (folder / name).write_bytes(data)


def main():
    folder = pathlib.Path(sys.argv[1] if len(sys.argv) > 1 else __file__).resolve()
    folder = folder if folder.is_dir() else folder.parent
    write_small(folder)
    packets = list(day())
    write(folder / "day.pcap", packets)
    # A mirror port sends each packet twice: as it comes in, and as it goes out.
    write(folder / "mirror.pcap", [(time + late, data) for time, data in web() for late in (0, 2)])
    # The third file was full, so the first one was begun again: it is the newest.
    for name, first, last in (("ring.pcap1", 0, 15), ("ring.pcap2", 15, 30), ("ring.pcap0", 30, None)):
        write(folder / name, packets[first:last])
    write(folder / "tagged.pcap", tagged())
    # Link type 276, LINUX_SLL2.
    write(folder / "any.pcap", on_any(), 276)
    # The captured length of the 31st record is overwritten.
    damaged = bytearray((folder / "day.pcap").read_bytes())
    place = 24 + sum(16 + len(data) for _, data in packets[:30]) + 8
    damaged[place : place + 4] = b"\xff" * 4
    (folder / "damaged.pcap").write_bytes(damaged)


if __name__ == "__main__":
    main()
