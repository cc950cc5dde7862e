#!/usr/bin/env python3
"""Writes the numbers of capkit.h into the packages for Rust, Go and Python.

check_surface.py calls it, and lists the packages that have others.

usage: library_numbers.py --write
"""
import itertools
import re
import sys
import textwrap

from source_files import ROOT

LIBRARY = ROOT / "library"
# In a package the numbers are after a line with this text.
MARK = "tools/library_numbers.py writes these from capkit.h."
# The results of capkit_found and capkit_written that aren't checks.
OTHER_RESULTS = {0, *range(222, 229)}
# The statuses of buffers and texts, for which packages have errors of their own.
NO_ROOM, NOT_A_LISTING = 16, 17
# The names of Rust's that aren't those of capkit.h: each of its types has the numbers of one enum.
RUST_NAMES = {"UNIT_TOO_LONG": "TooLong", "DIVISION_BY_ZERO_CONSTANT": "DivisionByZero"}


def numbers(*enums):
    """Returns the names and numbers of enums of capkit.h, without successes."""
    text = (LIBRARY / "include/capkit.h").read_text()
    bodies = [re.search(rf"^enum capkit_{enum} {{$(.*?)^}};$", text, re.MULTILINE | re.DOTALL)[1] for enum in enums]
    found = re.findall(r"^ +CAPKIT_(\w+) = (\d+)", "".join(bodies), re.MULTILINE)
    return [(name, int(number)) for name, number in found if int(number)]


def tables():
    """Returns the statuses of a text, the rules of programs, and the checks of captures."""
    statuses = [it for it in numbers("status") if it[1] != NO_ROOM]
    return statuses, numbers("rule"), [it for it in numbers("found", "written") if it[1] not in OTHER_RESULTS]


def camel(name, whole=()):
    """Returns a name in the form of a type, with these words in capital letters."""
    return "".join(word if word in whole else word.capitalize() for word in name.split("_"))


def python(table):
    """Returns the members of an enum in Python."""
    return [f"    {name} = {number}" for name, number in table]


def rust(table):
    """Returns the variants of an enum in Rust."""
    variants = " ".join(f"{RUST_NAMES.get(name, camel(name))}@=@{number}," for name, number in table)
    return [8 * " " + line.replace("@", " ") for line in textwrap.wrap(variants, 90)]


def go(table):
    """Returns constants in Go, laid out as by gofmt."""
    names = ["Err" + camel(name, {"UTF8"}) for name, _ in table]
    width = max(map(len, names))
    return [f"\t{name:{width}} Code = {number}" for name, (_, number) in zip(names, table)]


def packages():
    """Yields each package's file, what it has after each mark, and the line at which that ends."""
    statuses, rules, checks = tables()
    of_texts = [it for it in statuses if it[1] != NOT_A_LISTING]
    yield "rust/src/errors.rs", [rust(it) for it in (of_texts, rules, checks)], "    }"
    yield "go/errors.go", [["", *go(statuses + rules), "", *go(checks)]], ")"
    yield "python/src/capkit/errors.py", [python(it) for it in (of_texts, rules, checks)], ""


def rewritten(text, parts, end):
    """Returns a text with these parts after its marks."""
    lines, parts = iter(text.splitlines()), iter(parts)
    result = []
    for line in lines:
        result.append(line)
        if MARK in line:
            result += [*next(parts), end]
            for _ in itertools.takewhile(end.__ne__, itertools.chain([next(lines)], lines)):
                pass
    return "\n".join([*result, ""])


def differing():
    """Yields the files of packages that have other numbers than capkit.h."""
    for name, parts, end in packages():
        text = (LIBRARY / name).read_text()
        if text.count(MARK) != len(parts) or rewritten(text, parts, end) != text:
            yield f"library/{name} has other numbers than capkit.h: tools/library_numbers.py --write"


def main():
    if sys.argv[1:] != ["--write"]:
        sys.exit(__doc__)
    for name, parts, end in packages():
        path = LIBRARY / name
        path.write_text(rewritten(path.read_text(), parts, end))


if __name__ == "__main__":
    main()
