#!/usr/bin/env python3
"""Lists what capkit leaves out of a pcapng capture without a message.

usage: lost.py [-F FORMAT] FILE        (- is standard input)

FORMAT is pcapng, pcap or nsecpcap. What capkit refuses, it reports itself. The status is 0 if
nothing is left out, 1 if something is, and 2, with a message, if FILE isn't read to its end.
"""
import argparse
import collections
import os
import struct
import sys

# The types of blocks.
SECTION = 0x0A0D0D0A
INTERFACE = 1
SIMPLE = 3
ENHANCED = 6
# The byte orders of struct, by the byte-order magic.
ORDERS = {b"\x4d\x3c\x2b\x1a": "<", b"\x1a\x2b\x3c\x4d": ">"}
SHORTEST_BODY = {SECTION: 16, INTERFACE: 8, SIMPLE: 4, ENHANCED: 20}
# The most bytes of a block.
LONGEST_BLOCK = 1_048_576
# The snap length of pcap files that capkit writes.
SNAP = 262_144
# The most interfaces of a section that is read, and of a file that is written.
MOST_READ = 256
MOST_WRITTEN = 4_096
# What `edit` leaves out: blocks by their type, and options by their code, from 1.
BLOCKS = {4: "name", 5: "statistics", 10: "secrets", 0xBAD: "custom", 0x40000BAD: "custom"}
OPTIONS = {
    "section": "comment hardware os application",
    "interface": "comment name description IPv4 IPv6 MAC EUI speed tsresol tzone filter os",
    "packet": "comment flags hash dropcount packetid queue verdict",
}


def need(holds, reason):
    """Ends the reading with this reason, unless the condition is true."""
    if not holds:
        raise ValueError(reason)


def take(stream, size):
    """Returns the next bytes of a file, fewer only at its end."""
    data = b""
    while len(data) < size:
        more = stream.read(size - len(data))
        # A pipe that doesn't wait gives None while it has no bytes: it hasn't ended.
        need(more is not None, "no more bytes have come yet")
        if not more:
            break
        data += more
    return data


class Capture:
    """A pcapng file that is read block by block, with the counts of what is left out of it."""

    def __init__(self, form):
        self.form, self.is_pcap, self.at, self.order = form, form != "pcapng", 0, None
        self.lost, self.interfaces, self.used, self.seen = collections.Counter(), [], set(), set()

    def read(self, stream):
        """Reads the blocks of a file up to its end or the first fault."""
        while (head := take(stream, 12)) or not self.at:
            if head[:4] == b"\n\r\r\n":
                self.order = ORDERS.get(head[8:])
            need(self.order, "bad byte-order magic" if self.at else "not a pcapng file")
            need(len(head) == 12, "truncated")
            kind, size = struct.unpack_from(self.order + "II", head)
            need(size % 4 == 0 and size >= 12 + SHORTEST_BODY.get(kind, 0), "bad block length")
            need(size <= LONGEST_BLOCK, "too long")
            block = head + take(stream, size - 12)
            need(len(block) == size, "truncated")
            need(block[-4:] == block[4:8], "bad block length")
            self.look(kind, block[8:-4])
            self.at += size

    def look(self, kind, body):
        """Counts what `edit` would lose of a block."""
        if kind == SECTION:
            self.interfaces, self.used = [], set()
            self.options("section", body[16:])
        elif kind == INTERFACE:
            need(len(self.interfaces) < MOST_READ, "too many interfaces")
            options = self.options("interface", body[8:], [2, 9, 14])
            power = (options.get(9) or b"\6")[0]
            units = 10**power if power < 128 else 2 ** (power - 128)
            link_snap = struct.unpack_from(self.order + "HxxI", body)
            self.interfaces.append((*link_snap, options.get(2, b""), units))
            self.lost["interface without packets"] += 1
        elif kind == ENHANCED:
            number, high, low, captured = struct.unpack_from(self.order + "IIII", body)
            self.packet(number, high << 32 | low)
            self.options("packet", body[20 + (captured + 3 & ~3) :], [] if self.is_pcap else [1])
        elif kind == SIMPLE:
            self.packet(0, 0)
        else:
            self.lost[f"{BLOCKS.get(kind, 'other')} block"] += 1

    def options(self, of, body, kept=()):
        """Counts all options but the first of each kept code; returns the first of each code."""
        at, first, names = 0, {}, dict(enumerate(OPTIONS[of].split(), 1))
        while at < len(body):
            code, size = struct.unpack_from(self.order + "HH", body, at)
            if code == 0 or at + 4 + size > len(body):
                break
            self.lost[f"{of} option {names.get(code, 'other')}"] += code not in kept or code in first
            first.setdefault(code, body[at + 4 : at + 4 + size])
            at += 4 + (size + 3 & ~3)
        return first

    def packet(self, number, ticks):
        """Counts what `edit` would lose of a packet of this interface."""
        need(number < len(self.interfaces), "unknown interface")
        link, snap, name, units = self.interfaces[number]
        self.lost["time digits"] += ticks * 10**9 % (units * 1000 ** (self.form == "pcap")) != 0
        if number not in self.used:
            self.used.add(number)
            self.lost["interface without packets"] -= 1
            form = () if self.is_pcap else (link, snap, name)
            self.lost["interface made one with another"] += form in self.seen
            self.lost["interface snap length"] += self.is_pcap and snap != SNAP
            self.lost["interface option name"] += self.is_pcap and name != b""
            self.seen.add(form)
            need(len(self.seen) <= MOST_WRITTEN, "too many output interfaces")


def main():
    parser = argparse.ArgumentParser(usage="lost.py [-F FORMAT] FILE")
    parser.add_argument("-F", choices=["pcapng", "pcap", "nsecpcap"], default="pcapng")
    parser.add_argument("file")
    words = parser.parse_args()
    capture, fault = Capture(words.F), ""
    try:
        with open(0 if words.file == "-" else words.file, "rb") as stream:
            capture.read(stream)
    except (ValueError, OSError) as error:
        name = "".join(sign if sign.isprintable() else ascii(sign)[1:-1] for sign in words.file)
        fault = f"lost.py: {name}: offset {capture.at}: {getattr(error, 'strerror', error)}\n"
    lines = [f"{what}: {count}\n" for what, count in sorted(capture.lost.items()) if count]
    try:
        with open(1, "wb", closefd=False) as output:
            output.write("".join(lines).encode())
    except OSError as error:
        fault = f"lost.py: -: {error.strerror}\n"
    try:
        os.write(2, fault.encode(errors="surrogateescape"))
    except OSError:
        pass  # nobody reads messages
    return 2 if fault else 1 if lines else 0


if __name__ == "__main__":
    sys.exit(main())
