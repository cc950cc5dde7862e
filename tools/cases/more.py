"""Prints more cases for a random table.

usage: more.py random_captures|random_filters SEED COUNT

The cases are random commands on random, mostly damaged captures, or random expressions. Append what
it prints to the table; then check_cases.py --write TABLE computes the results.
"""
import pathlib
import random
import struct
import sys

import files
import random_filters
from notation import Table

DATA = pathlib.Path(__file__).resolve().parents[2] / "crates/cap_cases/data"
LINKS = {1: "traffic", 101: "traffic_raw", 113: "traffic_cooked"}
TIMES = ["0", "1", "2.5", "0.000000001", "3.999999999", "1970-01-01T00:00:02Z", "4294967296"]
# What a word in braces is replaced by.
RULES = {
    "expression": [
        "{term}", "{term}", "{term} and {term}", "{term} or {term}", "not {term}", "({expression}) or {term}",
        "{term} && ! {term}",
    ],
    "term": [
        "{check}", "{quals} {value}", "{number} {sign} {number}", "less {small}", "greater {small}", "({expression})",
    ],
    "check": [
        "ip", "ip6", "arp", "rarp", "tcp", "udp", "icmp", "icmp6", "broadcast", "ether multicast", "ip multicast",
        "ip6 multicast",
    ],
    "quals": ["{side}", "ip {side}", "arp {side}"],
    "side": ["src", "dst", "src or dst", "dst and src"],
    "value": ["host 127.0.0.2", "net 10", "net 127.0.0.0/8", "net 224.0.0.0/4", "net 10.0.0.0 mask 255.0.255.0"],
    "number": ["{field}", "{field}", "{small}", "len", "({number} {operator} {number})", "- {number}"],
    "field": ["{protocol}[{small}]", "{protocol}[{small}:2]", "{protocol}[{small}:4]", "ether[{number} & 15]"],
    "protocol": ["ether", "ip", "ip6", "arp", "rarp", "tcp", "udp", "icmp"],
    "operator": ["+", "-", "*", "/", "%", "&", "|", "^", "<<", ">>"],
    "sign": ["=", "!=", "<", "<=", ">", ">="],
    "small": ["1", "2", "3", "6", "9", "012", "0x11", "16", "40", "69"],
}


def text(choose, name):
    """Returns a random text by the rules."""
    parts = choose.choice(RULES[name]).split("{")
    return (
        parts[0] + "".join(text(choose, word) + rest for word, _, rest in (part.partition("}") for part in parts[1:]))
    )


def packets():
    """Yields the packets of the traffic, with their link types."""
    for link, table in LINKS.items():
        for name, record in Table((DATA / table).read_text()).names.items():
            if name not in ("HEAD", "ALL"):
                yield link, record[16:]


def pcap(choose, order, link, records):
    """Returns a pcap file with these records."""
    magic, units = choose.choice([(0xA1B2C3D4, 10**6), (0xA1B23C4D, 10**9)])
    data = struct.pack(order + "IHHIIII", magic, 2, 4, 0, 0, choose.choice([64, 65_535, 262_144]), link)
    for packet in records:
        fraction = choose.choice([0, 1, units // 2, units - 1])
        data += (
            struct.pack(
                order + "IIII", choose.randrange(6), fraction, len(packet), len(packet) + choose.choice([0, 0, 60])
            )
            + packet
        )
    return data


def pcapng(choose, order, link, records):
    """Returns a pcapng file with these records."""
    def block(kind, body):
        body += bytes(-len(body) % 4)
        size = struct.pack(order + "I", len(body) + 12)
        return struct.pack(order + "I", kind) + size + body + size

    option = choose.choice([b"", struct.pack(order + "HHB3x", 9, 1, choose.choice([0, 3, 9, 138])),
                            struct.pack(order + "HHq", 14, 8, choose.choice([-1, 2])),
                            struct.pack(order + "HH4s", 2, 4, b"eth0")])
    data = block(files.SECTION_TYPE, struct.pack(order + "IHHq", 0x1A2B3C4D, 1, choose.choice([0, 2]), -1))
    data += block(files.INTERFACE_TYPE, struct.pack(order + "HHI", link, 0, choose.choice([0, 40, 65_535])) + option)
    for packet in records:
        if choose.random() < 0.2:
            data += block(files.SIMPLE_TYPE, struct.pack(order + "I", len(packet)) + packet)
        else:
            front = struct.pack(order + "IIIII", 0, 0, choose.randrange(5_000_000), len(packet), len(packet))
            data += block(choose.choice([files.ENHANCED_TYPE] * 9 + [5]), front + packet)
    return data


def damaged(choose, data):
    """Returns the data, in two of three cases with some bytes changed, inserted, removed or copied, or cut."""
    data = bytearray(data)
    for _ in range(choose.choice([0, 1, 1, 1, 2, 3])):
        at, size = choose.randrange(len(data) + 1), choose.choice([1, 1, 2, 4, 16])
        new = choose.choice([bytes(size), b"\xff" * size, choose.randbytes(size), bytes(data[at - size:at])])
        data[at:at + choose.choice([0, size, size, size])] = choose.choice([new, new, b""])
    return bytes(data[:choose.randrange(len(data) + 1)] if choose.random() < 0.2 else data)


def line(choose):
    """Returns the words of a random command, and the names of its captures."""
    form = choose.choice(["pcap", "nsecpcap", "pcapng"])
    names = ["a", "b", "c"][:choose.randrange(1, 4)]
    options = [
        f"-A {choose.choice(TIMES)}",
        f"-B {choose.choice(TIMES)}",
        f"--chop-start {choose.randrange(50)}",
        f"--chop-end {choose.randrange(50)}",
        f"-s {choose.randrange(1, 60)}",
        f"--{choose.choice(['later', 'earlier'])} {choose.choice(TIMES[:5])}",
        f"-D {choose.randrange(2, 6)}",
        "-r",
    ]
    chosen = " ".join(choose.sample(options, choose.randrange(4)))
    prints = [
        f"print {choose.choice(['', '-e ', '-x ', '-e -x '])}{choose.choice(['', '-c 2 '])}a",
        f"print -w out --format {form} a",
    ]
    return choose.choice([
        (f"edit -F {form} {chosen} a out {choose.choice(['', '1-3', '2 4'])}", ["a"]),
        (f"infos {' '.join(names)}", names),
        (f"merge {choose.choice(['', '-a '])}-F {form} -w out {' '.join(names)}", names),
        (choose.choice(prints), ["a"]),
    ])


def captures(choose, count):
    """Prints cases of random commands on random captures."""
    known = list(packets())
    for _ in range(count):
        words, names = line(choose)
        print(f"\nrun {' '.join(words.split())}")
        for name in names:
            link = choose.choice([1, 1, 101, 113, 147])
            records = [
                packet[:choose.choice([len(packet)] * 3 + [choose.randrange(60)])]
                for of, packet in choose.choices(known, k=choose.randrange(5))
            ]
            capture = choose.choice([pcap, pcapng])(choose, choose.choice("<>"), link, records)
            print(f"in {name}: {damaged(choose, capture).hex()}")


def expressions(choose, count):
    """Prints cases of random expressions."""
    names = Table((DATA / "random_filters").read_text()).names
    for link in LINKS:
        print(f"\ngiven HEAD_{link} {' '.join(name for name in names if name.startswith(f'P{link}_'))}\n")
        for _ in range(count // len(LINKS)):
            expression = text(choose, "expression")
            # A word that begins with a dash would be an option.
            print(f"row {' ' * expression.startswith('-')}{expression} ; ")
        print("\n".join(random_filters.form(link)))


if __name__ == "__main__":
    if len(sys.argv) != 4 or sys.argv[1] not in ("random_captures", "random_filters"):
        sys.exit(__doc__)
    {"random_captures": captures, "random_filters": expressions}[sys.argv[1]](
        random.Random(int(sys.argv[2])), int(sys.argv[3])
    )
