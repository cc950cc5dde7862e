#!/usr/bin/env python3
"""Filters random packets by random lists, and compares what capkit keeps with what it should.

usage: check_lists.py [--capkit PROGRAM] [COUNT [FIRST]]

For whoever changes how lists are compiled. Lists have hosts, networks, ports, protocols, MAC
addresses, bytes or flows. The script evaluates each list member by member, as docs/FILTER.md
defines it; `capkit print -w` must write the same packets. Packets have numbers of the list, numbers
next to them, or others; most are cut. COUNT lists (10,000) have the seeds FIRST (1) and up. The
status is 1 if anything differs.
"""
import argparse
import contextlib
import ipaddress
import random
import struct
import subprocess
import sys

from built import built_program

# The link types, with the start of the network header, from which other places count. The EtherType is in front of it.
LINKS = {1: 14, 113: 16, 101: 0}
ETHERTYPES = {"ip": 0x0800, "ip6": 0x86DD, "arp": 0x0806, "rarp": 0x8035}
# The field that identifies each kind of frame of a link: its place, size, mask and number. A field of no bytes always matches.
FRAMES = {link: {kind: (-2, 2, 0xFFFF, number) for kind, number in ETHERTYPES.items()} for link in LINKS}
FRAMES[1] |= {"ethernet": (-14, 0, 0, 0), "typed": (-14, 0, 0, 0)}
FRAMES[113] |= {"typed": (-16, 0, 0, 0)}
FRAMES[101] = {"ip": (0, 1, 0xF0, 0x40), "ip6": (0, 1, 0xF0, 0x60)}
# Kinds of members: the bytes of a number, the protocols before it, the types of members of one list, and in each kind of
# frame the places of the source and the destination, or of the only number. Ports and bytes count from the end of IPv4's header.
KINDS = {
    "ip4": (4, ["", "", "", "ip", "ip", "ip", "arp", "rarp"], ["host", "net", "host net", "host net mask"],
            {"ip": (12, 16), "arp": (14, 24), "rarp": (14, 24)}),
    "ip6": (16, ["", "ip6"], ["host", "net", "host net"], {"ip6": (8, 24)}),
    "mac": (6, ["ether"], ["host"], {"ethernet": (-8, -14)}),
    "port": (2, ["", "", "tcp", "udp"], ["port", "portrange", "port portrange"], {"ip": (0, 2), "ip6": (40, 42)}),
    "proto": (1, ["", "ip", "ip6"], ["proto"], {"ip": (9,), "ip6": (6,)}),
    "type": (2, ["ether"], ["proto"], {"typed": (-2,)}),
    "bytes": (2, ["tcp[0:2] =", "udp[0:2] ="], [""], {"ip": (0,)}),
}
# Members of several conditions, joined by and: their kinds, protocols, directions and types.
JOINS = {
    "flow": [("ip4", "", "src", "host"), ("ip4", "", "dst", "host")],
    "service": [("ip4", "", "dst", "host"), ("port", "tcp", "dst", "port")],
    "service of networks": [("ip4", "", "src", "net"), ("port", "udp", "dst", "portrange")],
    "connection": [("ip4", "", "src", "host"), ("ip4", "", "dst", "host"), ("port", "tcp", "dst", "port")],
    "both ports": [("port", "tcp", "src and dst", "port")],
    "both ports of any protocol": [("port", "", "src and dst", "port")],
}
DIRECTIONS = ["", "", "", "src or dst", "dst or src", "src", "dst", "src and dst"]


def is_in(data, at, size, mask, low, high):
    """Returns whether a field under a mask is in a range.

    Its words of 4 bytes are loaded one after another, as long as they are equal.
    """
    for end in [*range(4, size, 4), size]:
        rest = 8 * (size - end)
        if at + end > len(data):
            raise EOFError
        if not low >> rest <= int.from_bytes(data[at : at + end], "big") & mask >> rest <= high >> rest:
            return False
    return True


class Maker(random.Random):
    """Makes a list for a link, and packets.

    A condition is a text, a function that reads a packet, and a member's number.
    """

    def __init__(self, seed):
        super().__init__(seed)
        self.link, self.start = self.choice([*LINKS.items()])
        self.numbers = {kind: [] for kind in KINDS}

    def number(self, kind):
        """Returns a number, often one of the list or next to one."""
        bits = 8 * KINDS[kind][0]
        step = self.choice([0, 0, 0, 1, -1, self.randrange(-999, 999), 1 << self.randrange(bits)])
        near = (self.choice(self.numbers[kind] or [0]) + step) % (1 << bits)
        return near if self.random() < 0.7 else self.getrandbits(bits)

    def member(self, kind, protocol, direction, what):
        """Returns a member of the list. Some bits of a network or a range are arbitrary."""
        (size, _, _, places), bits = KINDS[kind], 8 * KINDS[kind][0]
        ones, free = (1 << bits) - 1, min(self.randint(0, bits) for _ in range(3))
        prefix = ones >> free << free
        mask = {"net": prefix, "mask": self.choice([prefix, self.getrandbits(bits)])}.get(what, ones)
        low = high = max(self.number(kind) & mask, 1536 if kind == "type" else 0)
        high = min(ones, low + self.getrandbits(free)) if what == "portrange" else high
        self.numbers[kind] += [low, high | ones - mask, self.randint(low, high) | self.getrandbits(bits) & ones - mask]
        text = low.to_bytes(6, "big").hex(":") if kind == "mac" else f"{low}"
        text = str(ipaddress.ip_address(low.to_bytes(size, "big"))) if kind in ("ip4", "ip6") else text
        text += {"net": f"/{bits - free}", "mask": f" mask {ipaddress.ip_address(mask)}", "portrange": f"-{high}"}.get(what, "")
        words = " ".join(filter(None, (protocol, direction, what.replace("mask", "net"), text)))
        frames = [frame for frame in places if frame in FRAMES[self.link] and (protocol not in places or protocol == frame)]
        carried = {"tcp": [6], "udp": [17]}.get(protocol[:3], [6, 17])

        def reads(data, frame):
            """Returns whether a packet in this frame has the member's field."""
            at, (place, *field) = self.start, FRAMES[self.link][frame]
            if not is_in(data, at + place, *field, field[-1]):
                return False
            if kind in ("port", "bytes"):
                has_ports = any(is_in(data, at + {"ip": 9, "ip6": 6}[frame], 1, 0xFF, number, number) for number in carried)
                if not has_ports or frame == "ip" and not is_in(data, at + 6, 2, 0x1FFF, 0, 0):
                    return False
                at += 4 * (data[at] & 15) if frame == "ip" else 0
            sides = {"src": places[frame][:1], "dst": places[frame][1:]}.get(direction, places[frame])
            return (all if "and" in direction else any)(is_in(data, at + side, size, mask, low, high) for side in sides)
        return words, lambda data: any(reads(data, frame) for frame in frames), low

    def joined(self, terms, joins, denials):
        """Conditions with some of these words between and before them; from the left, as they are of one level."""
        chain = [(self.choice(joins), self.choice(denials), *term) for term in terms]

        def reads(data):
            held = chain[0][0] == "and"
            for join, denial, _, term, _ in chain:
                held = term(data) != bool(denial) if held == (join == "and") else held
            return held
        words = " ".join(f"{join} {denial}{text}" for join, denial, text, _, _ in chain)
        return f"({words.partition(' ')[2]})", reads, 0

    def expression(self, size):
        """Lists of members with the same protocol and direction, in some order, in all of this size."""
        terms = []
        while len(terms) < size:
            kind, left = self.choice(["ip4"] * 6 + ["port"] * 4 + [*KINDS]), size - len(terms)
            _, protocols, types, _ = KINDS[kind]
            types, count = self.choice(types).split() or [""], self.choice([left, self.randint(1, left)])
            protocol, direction = self.choice(protocols), self.choice(DIRECTIONS) if kind not in ("proto", "type", "bytes") else ""
            made = [self.member(kind, protocol, direction, self.choice(types)) for _ in range(count)]
            if self.random() < 0.2:
                parts = self.choice([*JOINS.values()])
                made = [self.joined([self.member(*part) for part in parts], ["and"], [""]) for _ in range(count)]
            terms += self.choice([made, sorted(made, key=lambda it: it[2]), sorted(made, key=lambda it: -it[2])])
        terms = self.sample(terms, size) if self.random() < 0.3 else terms
        words = self.choice([(["or"], [""])] * 3 + [(["and"], ["not "]), (["or"] * 9 + ["and"], ["", "", "not "])])
        half = self.choice([size, size, self.randint(1, size)])
        lists = [self.joined(part, *words) for part in (terms[:half], terms[half:]) if part]
        return self.joined(lists, ["and", "or"], ["", "", "not "])

    def packet(self):
        """Returns the bytes of a packet of some kind, whole or cut.

        One in a VLAN, or with another EtherType, is like IPv4 otherwise.
        """
        frame, words = self.choice(["ip"] * 4 + ["ip6"] * 2 + ["arp", "rarp", "typed"]), self.choice([5, 5, 5, 6, self.randrange(16)])
        data, cuts = bytearray(self.randbytes(96)), [96, self.randint(16 - self.start, 96)]
        first, ethertype = {"ip6": 0x60, "arp": 0, "rarp": 0}.get(frame, 0x40 | words), self.choice([0x8100, self.number("type")])
        data[14:17] = struct.pack(">HB", ETHERTYPES.get(frame, ethertype), first)
        data[22:24] = self.choice([b"\0\0", b"\0\0", b"\x40\0", b"\x20\0", b"\0\1", b"\x1f\xff", b"\x30\1"])
        for kind, (size, _, _, places) in KINDS.items():
            for at in (*places.get(frame.replace("typed", "ip"), ()), *places.get("ethernet", ())):
                number = self.choice([6, 17, 1, 58]) if kind == "proto" and self.random() < 0.8 else self.number(kind)
                at += 16 + (4 * words if kind in ("port", "bytes") and frame == "ip" else 0)
                data[at : at + size] = number.to_bytes(size, "big")
                cuts.append(at + self.randint(0, size))
        return bytes(data[16 - self.start : self.choice([96, self.choice(cuts), self.choice(cuts)])])


def main():
    parser = argparse.ArgumentParser(description=__doc__.split("\n")[0])
    parser.add_argument("--capkit", default=None)
    parser.add_argument("count", type=int, nargs="?", default=10_000)
    parser.add_argument("first", type=int, nargs="?", default=1)
    arguments = parser.parse_args()
    command, wrong = [arguments.capkit or built_program(), "print", "-w", "-", "--format", "pcap", "-"], []
    for seed in range(arguments.first, arguments.first + arguments.count):
        maker = Maker(seed)
        text, reads, _ = maker.expression(int(2 ** maker.uniform(0, maker.choice([4, 6, 7, 8.5]))))
        capture = kept = struct.pack("<IHHiIII", 0xA1B2C3D4, 2, 4, 0, 0, 262144, maker.link)
        for number in range(100):
            data = maker.packet()
            record = struct.pack("<IIII", number, 0, len(data), len(data) + number) + data
            capture += record
            with contextlib.suppress(EOFError):
                kept += record if reads(data) else b""
        done = subprocess.run([*command, text], input=capture, capture_output=True)
        if (done.returncode, done.stdout, done.stderr) != (0, kept, b""):
            wrong.append(seed)
    print(f"{arguments.count} lists, {100 * arguments.count} packets, {len(wrong)} lists differ: {wrong}")
    sys.exit(1 if wrong or not arguments.count else 0)


if __name__ == "__main__":
    main()
