"""Writes the table `lengths`: printed lines of packets that are cut.

The packets are those of the traffic tables, each cut at every captured length up to 60.
"""

import commands
from files import header
from notation import pairs, record, repeated

HEAD = """\
# Printed lines of the packets of the traffic tables, each cut at every captured length up to 60.
# `lines N TEXT` are N lines in a row that are equal: what is printed changes at few lengths. With -e a line has a link part
# more, of which a row has each in turn. tools/cases/lengths.py writes this table.
"""
MOST = 60
HEADS = {"traffic": "HEAD", "traffic_raw": "RAW", "traffic_cooked": "COOKED"}
# Records of these tables that are cut already, or no record.
LEFT_OUT = {"ALL", "SHORT_C", "NONE_C", "CUT_C"}
WITH_BYTES = [("HEAD", 1, "SYN"), ("RAW", 101, "UDP6_R"), ("COOKED", 113, "ARP_C"), ("OTHER", 147, "SYN")]


def printed(options, data):
    """Returns the lines of a print, without their ends."""
    return commands.run(["print", *options, "in"], lambda name: data).written.decode().split("\n")[:-1]


def both(data, options):
    """Returns a form for the lines that are printed without and with -e: the columns of its rows are the link parts."""
    parts, lines = [], []
    for plain, linked in zip(printed(options, data), printed(["-e", *options], data)):
        if plain.startswith("\t"):
            lines.append(plain)
            continue
        date, rest = plain[:29], plain[30:]
        part = linked[29:len(linked) - len(rest) - 1]
        parts += [part] * (part not in parts)
        lines.append(f"{date}{{{parts.index(part) + 2}}} {rest}")
    rows = [[" ".join(options), *[""] * len(parts)], [" ".join(["-e", *options]), *parts]]
    return [*(f"row {' ; '.join(row)}" for row in rows), "run print {1} in"], repeated(lines)


def of_packet(head, name, whole, known):
    """Yields the cases of a packet: its lines at each length, and its bytes."""
    yield from ["", f"packet {name} {whole[16:].hex()}", f"cuts {name}_CUTS {MOST} {name}"]
    front, lines = both(known[head] + cuts(whole), [])
    yield from [*front, f"in {head} {name}_CUTS", *lines, ""]
    yield from [f"case {name} with its link header and bytes", "run print -e -x in", f"in {head} {name}"]
    yield from repeated(printed(["-e", "-x"], known[head] + whole))


def cuts(whole):
    """Returns the packet of a record, cut at every length."""
    original = int.from_bytes(whole[12:16], "little")
    return b"".join(record(whole[16:16 + size], original) for size in range(min(MOST, len(whole) - 16) + 1))


def table(names_of):
    """Returns the table; `names_of` gives the names of another table's bytes."""
    known = {
        "HEAD": header("pcap", 1),
        "RAW": header("pcap", 101),
        "COOKED": header("pcap", 113),
        "OTHER": header("pcap", 147),
    }
    lines = [f"let {name} {pairs(data, {})}" for name, data in known.items()]
    for other, head in HEADS.items():
        for name, whole in names_of(other).items():
            if name not in LEFT_OUT | {"HEAD"}:
                known[name] = whole
                lines += of_packet(head, name, whole, known)
    for head, link, name in WITH_BYTES:
        front, texts = both(known[head] + cuts(known[name]), ["-x"])
        lines += ["", f"case {name} on link {link} at each length, {{1}}", *front, f"in {head} {name}_CUTS", *texts]
    return HEAD + "\n".join(lines) + "\n"
