"""Writes the table `crossed`: sizes and options crossed."""

import itertools

import commands
from files import SECTION, Writer, block, header, interface_block
from notation import Table, pairs, record

HEAD = """\
# Sizes and options crossed: each run succeeds, since there is memory for it. No contract states this for sizes far from any
# limit, so only these cases show code that gives up at one size of a list, or for one pair of options.
# tools/cases/crossed.py writes this table.
"""
# The data of three packets.
X = bytes(range(20))
Y = bytes(range(32, 48))
Z = bytes(range(64, 67))
DATA = [X, X, Y, Z, X]
FORMATS = ["-F pcap", "-F nsecpcap", ""]
# Each option of edit with two values: words before the names of the files, and words after them. A
# row here crosses a new option of edit with all others.
OPTIONS = [
    [("", "2"), ("", "1-3")],
    [("-r", "1-3"), ("-r", "2 4-5")],
    [("-A 2", ""), ("-A 1.5", "")],
    [("-B 4", ""), ("-B 5", "")],
    [("--chop-start 14", ""), ("--chop-start 4", "")],
    [("--chop-end 3", ""), ("--chop-end 1", "")],
    [("-s 15", ""), ("-s 6", "")],
    [("--later 10", ""), ("--later 0.000001", "")],
    [("--earlier 1", ""), ("--earlier 0.5", "")],
    [("-D 2", ""), ("-D 4", "")],
]
# Options that aren't given together: both are about numbers, or about shifts.
APART = [{0, 1}, {7, 8}]
LINKS = [0, 1, 101, 113, 147, 228, 276, 65_535]
MANY = range(1, 301)


def names():
    """Returns the bytes that the table gives names."""
    records = {f"R{second}": second.to_bytes(4, "little") + record(data)[4:] for second, data in enumerate(DATA, 1)}
    own = {
        "H": header("pcap", 1), "N": header("nsecpcap", 1), "SECTION": SECTION, "NANO": interface_block(1, 262_144, b"")
    }
    return {**own, "X": X, "Y": Y, "Z": Z, **records}


def edits():
    """Yields each option in each format, and each pair of options with each of their values, the
    formats taking turns.
    """
    for option in OPTIONS:
        for form in FORMATS:
            yield form, option[:1]
    forms = itertools.cycle(FORMATS)
    for one, other in itertools.combinations(range(len(OPTIONS)), 2):
        if {one, other} not in APART:
            for values in itertools.product(OPTIONS[one], OPTIONS[other]):
                yield next(forms), values


def same(values, outcome_of):
    """Values in a row of which all have one outcome, as the numbers of `each`."""
    for outcome, group in itertools.groupby(values, outcome_of):
        group = list(group)
        yield f"{group[0]} to {group[-1]}" if len(group) > 2 else " ".join(map(str, group)), outcome


def table():
    """Returns the table."""
    known = names()
    given = b"".join(known[name] for name in ["H", "R1", "R2", "R3", "R4", "R5"])
    lines = [f"let {name} {pairs(data, {})}" for name, data in known.items()]

    def out(words, listing=b"", data=given):
        return pairs(commands.run(words, lambda name: data, listing).written, known)

    def form(rows, *form_lines):
        lines.extend(["", *rows, *form_lines])

    lines += [
        "given H R1 R2 R3 R4 R5",
        "",
        "# Each option of edit in each format, and each pair of them, with two values each.",
    ]
    rows = []
    for chosen, values in edits():
        front, back = [
            " ".join(filter(None, words))
            for words in ([chosen, *(value[0] for value in values)], [value[1] for value in values])
        ]
        rows.append(f"row {front} ; {back} ; {out(f'edit {front} in out {back}'.split())}")
    lines += [*rows, "run edit {1} in out {2}", "out {3}"]
    interfaces(lines, form)
    windows = same(range(2, 301), lambda window: out(["edit", "-F", "pcap", "-D", str(window), "in", "out"]))
    for values, written in windows:
        form([f"each {values}"], "case a window of {} packets", "run edit -F pcap -D {} in out", f"out {written}")
    for values, written in same(MANY, lambda count: out(["edit", "-F", "pcap", "in", "out", *["3"] * count])):
        form(
            [f"each {values}"],
            "case {} ranges, each of the third packet",
            "run edit -F pcap in out",
            "words {} 3",
            f"out {written}",
        )
    for values, written in same(MANY, lambda count: out(PRINT + ["--code", "listing", "in"], listing(count))):
        form(
            [f"each {values}"],
            "case a listing of {} lines",
            "run print -w out --format pcap --code listing in",
            "code {}",
            "codes {-1} 5 0 0 0",
            "code 6 0 0 1",
            f"out {written}",
        )
    for values, written in same(MANY, lambda count: out([*PRINT, "in", "len > 3" + " or len > 3" * (count - 1)])):
        form(
            [f"each {values}"],
            "case an expression of {} terms",
            "filter len > 3",
            "more {-1}  or len > 3",
            f"out {written}",
        )
    for values, written in same(MANY, lambda count: out([*PRINT, "in", "len" + " + 1" * count + f" > {16 + count}"])):
        form(
            [f"each {values}"],
            "# Programs of each length: to a length of 16 the number is added by ones.",
            "case a sum of {} ones",
            "filter len",
            "more {}  + 1",
            "more 1  > {+16}",
            f"out {written}",
        )
    inputs(lines, form, known)
    return HEAD + "\n".join(lines) + "\n"


PRINT = ["print", "-w", "out", "--format", "pcap"]


def listing(count):
    """Returns a listing of this many instructions, which accepts all packets."""
    return b"%d\n" % count + b"5 0 0 0\n" * (count - 1) + b"6 0 0 1\n"


def interfaces(lines, form):
    """Adds cases of 256 interfaces in a section, and of 64 in an output."""
    lines += ["", "# 256 interfaces of one link type in a section, and a packet of the last of them."]
    packet = block(6, bytes.fromhex("ff000000 00000000 00000000 03000000 03000000") + Z + bytes(1))
    described = "01000000 14000000 {2} 00000400 14000000"
    data = SECTION + 256 * block(1, bytes.fromhex("01000000 00000400")) + packet
    assert commands.run("edit -F pcap in out".split(), lambda name: data).written == header("pcap", 1) + record(Z)
    lines += [f"row {link} ; {pairs(link.to_bytes(4, 'little'), {})}" for link in LINKS]
    lines += ["case 256 interfaces of link type {1}", "run edit -F pcap in out",
              f"in SECTION 256*{described.replace(' ', '')} {pairs(packet, {'Z': Z})}",
              f"out H[..20] {{2}} {pairs(record(Z), {'Z': Z})}"]
    lines += [
        "",
        "# 64 interfaces of an output, which differ in their snap length, and behind 41 of them one "
        "of another link type.",
    ]
    lines += [
        f"row {link} ; {pairs(link.to_bytes(4, 'little'), {})} ; {pairs(other.to_bytes(4, 'little'), {})}"
        for link, other in ((1, 113), (101, 1), (113, 1), (147, 1))
    ]
    kinds = [0xE1 if number == 41 or number >= 50 else 0xE2 for number in range(64)]
    writer, read = Writer("pcapng"), SECTION + b"".join(
        block(1, kind.to_bytes(4, "little") + (100 + number).to_bytes(4, "little")) for number, kind in enumerate(kinds)
    )
    read += b"".join(
        block(6, number.to_bytes(4, "little") + bytes(8) + bytes.fromhex("03000000 03000000") + Z + bytes(1))
        for number in range(64)
    )
    written = commands.run("edit in out".split(), lambda name: read).written
    lines += [
        "case 64 interfaces of an output, the 42nd of link type {1}",
        "run edit in out",
        f"in {marked(read)}",
        f"out {marked(written)}",
    ]


def marked(data):
    """Returns bytes as words, with columns instead of the two link types."""
    words = pairs(data, {"SECTION": SECTION})
    return words.replace("e1000000", "{2}").replace("e2000000", "{3}")


def inputs(lines, form, known):
    """Adds cases of 1 to 64 inputs for each command that takes several."""
    data = known["H"] + known["R4"]
    report = commands.run(["infos", "a"], lambda name: data).written
    lines += ["", "# Inputs of each command that takes several.", f"let REPORT {pairs(report, {})}"]
    for words, title in (
        (["merge", "-F", "pcap", "-w", "out"], "{} inputs"),
        (["merge", "-a", "-F", "pcap", "-w", "out"], "{} inputs in turn"),
        (["infos"], "{} reports"),
    ):
        for count in range(1, 65):
            written = commands.run([*words, *["a"] * count], lambda name: data).written
            assert written == (report * count if words == ["infos"] else known["H"] + known["R4"] * count)
        form(
            ["each 1 to 64"],
            f"case {title}",
            f"run {' '.join(words)}",
            "words {} a",
            "in H R4",
            "out {}*REPORT" if words == ["infos"] else "out H {}*R4",
        )
