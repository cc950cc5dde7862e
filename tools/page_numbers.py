"""Counts what pages state in numbers, and finds the pages that state another number.

check_cases.py calls it.

A page states a number exactly, or as `over N`, which holds for N up to a tenth more: so it needn't
change with each case or edit.
"""
import ast
import re
import sys

from affected import below, needs
from source_files import ROOT

sys.path.insert(0, str(ROOT / "tools/cases"))

import notation

CASES = ROOT / "crates/cap_cases"
# The table of cases that must fail.
WRONG = "wrong"
# How pages state what `counted` counts.
STATED = {
    "cases": r"([\d,]{3,}) cases\b|\| case \| over ([\d,]+)",
    "wrong cases": r"(\d+) that are\s+wrong",
    "must-fail edits in the gate": r"\| must-fail edit \| over (\d+)|over (\d+)\s+wrong versions",
    "edits that change a definition too": r"(\d+) of them also\s+change",
    "tests": r"\| test \| over (\d+)",
    "random rounds": r"\| random round \| (\d+)|rounds 1 to (\d+)",
    "runs in random rounds": r"([\d,]+) runs in\s+all",
    "crates below the library": r"the (\d+) crates below it",
    "crates of the library": r"only \d+ of the (\d+) are left",
    "crates of the library that the program hasn't": r"only (\d+) of the \d+ are left",
    "faults": r"Each of the (\d+) faults",
    "tips": r"(\d+) tips",
    "jobs closed after each step": r"(\d+) jobs, closed after each step",
    "kinds of damage": r"in (\d+) ways",
}
# What pages state more than once: all of them state the same.
SAME = {
    "the first build, by the clock": r"(?:once: |\()(\d+ to \d+) minutes on\s+four cores|(\d+ to "
    "\d+) min by the clock, \d+ to \d+ CPU",
    "the first build, in CPU minutes": r"(\d+ to \d+)\s+CPU\s+min(?:utes\s+\(|; the longest chain)",
    "the first build's disk": r"([\d.]+) GB (?:of disk(?:\.| in )|in all)",
    "the gate, by the clock": r"(\d+ to \d+) min(?:utes on four cores\n| by the clock \|)",
    "a call of the launcher": r"launcher[^.|]*?(\d+\s+to \d+) ms",
    "runs of salvage.py": r"([\d,]+) runs(?: of all kinds|\]\(inside)",
    "packets in runs of salvage.py": r"([\d,]{9,}) packets(?::|, salvage)",
}


def pages():
    """Returns the texts of the pages by name."""
    found = [it for pattern in ("*.md", "docs/**/*.md", "*/README.md", "*/*/README.md") for it in ROOT.glob(pattern)]
    return {str(it.relative_to(ROOT)): it.read_text() for it in sorted(set(found)) if "out" not in it.parts}


def keys_of(path, name):
    """Returns the number of keys of a dictionary in a script."""
    for node in ast.parse(path.read_text()).body:
        if isinstance(node, ast.Assign) and node.targets[0].id == name:
            return len(node.value.keys)
    raise KeyError(name)


def cases_in(name):
    """Returns the number of cases in a table."""
    return len(notation.Table((CASES / "data" / name).read_text()).cases)


def counted():
    """Returns everything that is counted, by name."""
    sizes = {name: cases_in(name) for name in (CASES / "data/tables").read_text().split()}
    crates = needs()
    library, program = (below(name, crates) for name in ("capkit_c", "capkit_main"))
    edits = list(ROOT.glob("crates/*/must-fail/*.edit"))
    hints = re.search(r'HINTS: &str = "\\\n(.*?)";', (ROOT / "crates/capkit/src/hints.rt").read_text(), re.DOTALL)[1]
    return {
        "cases": sum(sizes.values()) - sizes[WRONG],
        "wrong cases": sizes[WRONG],
        "must-fail edits in the gate": len(edits),
        "edits that change a definition too": sum("file: specs/" in edit.read_text() for edit in edits),
        "tests": sum(text.read_text().count("#[test]") for text in ROOT.glob("crates/*/src/**/*.rt")),
        "random rounds": int((CASES / "args").read_text().split()[1]),
        "runs in random rounds": int(
            re.search(r"^a run ends with .*: (\d+)$", (CASES / "stdout").read_text(), re.M)[1]
        ),
        "crates below the library": len(library),
        "crates of the library": len(library) + 1,
        "crates of the library that the program hasn't": len(library - program) + 1,
        "faults": len(re.findall(r"^    /// \d+: ", (ROOT / "crates/cap_octet/src/fault.rt").read_text(), re.M)),
        "tips": len(hints.splitlines()),
        "jobs closed after each step": sizes["steps"],
        "kinds of damage": keys_of(ROOT / "tools/check_salvage.py", "KINDS"),
    }


def stated_in(text):
    """Yields the numbers that a page states: their places in its text, and what they count."""
    for name, pattern in STATED.items():
        for match in re.finditer(pattern, text):
            yield match.span(match.lastindex), name


def is_stated(text, first, last, count):
    """Returns whether a page may state a count by the number at this place."""
    number = int(text[first:last].replace(",", ""))
    is_bound = re.search(r"\bover\s$", text[:first])
    return number < count <= number * 1.1 if is_bound else number == count


def differing(numbers):
    """Yields the numbers on pages and in the stored output that differ from what is counted."""
    stdout, texts = (CASES / "stdout").read_text(), pages()
    for line in (
        f"{numbers['cases']} cases, 0 failed",
        f"{numbers['wrong cases']} wrong cases, {numbers['wrong cases']} failed, as all are to",
    ):
        if line not in stdout.splitlines():
            yield f"crates/cap_cases/stdout has no line: {line}"
    missing = set(STATED)
    for page, text in texts.items():
        for (first, last), name in stated_in(text):
            missing.discard(name)
            if not is_stated(text, first, last, numbers[name]):
                yield f"{page}: {text[first:last]} {name}, but there are {numbers[name]:,}: check_cases.py --write"
    yield from (f"no page states how many {name} there are" for name in sorted(missing))
    for name, pattern in SAME.items():
        stated = {
            page: {re.sub(r"\s+", " ", it[it.lastindex]) for it in re.finditer(pattern, text)}
            for page, text in texts.items()
        }
        if len(set().union(*stated.values())) != 1 or sum(map(bool, stated.values())) < 2:
            yield f"{name}: " + ", ".join(f"{page} {' and '.join(sorted(it))}" for page, it in stated.items() if it)
    yield from differing_tables(texts)


def rows(text, section):
    """Returns the rows of the tables in a section, as lists of cells."""
    part = re.search(rf"^## {section}\n(.*?)(?=^## |\Z)", text, re.M | re.DOTALL)[1]
    return [[cell.strip() for cell in line[1:-1].split(" | ")] for line in part.splitlines() if line.startswith("| ")]


def differing_tables(texts):
    """Yields what differs in tables: README's times from TESTING's, sums from their rows, lines of
    examples from the files.
    """
    testing = texts["docs/inside/TESTING.md"]
    times = {row[0]: row[3] for row in rows(testing, "Speed") if re.fullmatch(r"0\.\d+", row[3])}
    for name, *_, ratio in rows(texts["README.md"], "Speed")[1:]:
        if times.get(name) != ratio:
            yield f"README.md: {name}: TESTING.md has no such ratio"
    least, most = (round(float(pick(times.values(), key=float)) * 100) for pick in (min, max))
    if f"{least} to {most} %" not in texts["README.md"]:
        yield f"README.md: the ratios in TESTING.md are {least} to {most} %"
    damage = [
        [list(map(int, re.findall(r"\d+", cell.replace(",", "")))) for cell in row[1:]]
        for row in rows(testing, "Damaged captures")[1:]
    ]
    if [[sum(parts) for parts in zip(*cells)] for cells in zip(*damage[:-1])] != damage[-1]:
        yield "docs/inside/TESTING.md: the last row of damaged captures isn't the sum of the others"
    for name, *lines in [row for row in rows(texts["docs/LIBRARY.md"], "Speed") if row[0] in ("`filter`", "`keep`")]:
        own = name.strip("`")
        files = [
            f"examples/{own}.c", f"python/examples/{own}.py", f"rust/examples/{own}.rs", f"go/examples/{own}/main.go"
        ]
        counts = [(ROOT / "library" / file).read_text().count("\n") for file in files]
        if lines != list(map(str, counts)):
            yield f"docs/LIBRARY.md: the lines of {own} are {counts}"


def write(numbers):
    """Writes what is counted on the pages that state another number."""
    for page, text in pages().items():
        for (first, last), name in sorted(stated_in(text), reverse=True):
            if not is_stated(text, first, last, numbers[name]):
                text = text[:first] + f"{numbers[name]:,}" + text[last:]
        (ROOT / page).write_text(text)
