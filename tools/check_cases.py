#!/usr/bin/env python3
"""Compares the tables of cap_cases with what tools/cases/ computes, and numbers on pages with counts.

tools/cases/ shares nothing with capkit's code. The gate runs this script.

usage: check_cases.py [--all] [TABLE..]
       check_cases.py --write [TABLE..]
       check_cases.py --numbers

Without --all the table `hostile`, with files of up to a million blocks, is left out: it takes
minutes. --write writes the tables that scripts write; without TABLE, also the numbers on pages.
--numbers prints what is counted.

The status is 1 if a table or a page differs.
"""
import multiprocessing
import sys

import page_numbers
from page_numbers import CASES, WRONG

import commands
import crossed
import lengths
import notation
import outcomes
import random_captures
import random_filters

DATA = CASES / "data"
# What writes a table: a function of its stored text, or of the names of other tables.
WRITERS = {
    "crossed": lambda stored: crossed.table(),
    "lengths": lambda stored: lengths.table(lambda name: notation.Table((DATA / name).read_text()).names),
    "random_captures": random_captures.table,
    "random_filters": random_filters.table,
    **dict.fromkeys(["altered", "captures", "damaged", "steps"], outcomes.table),
}
SLOW = {"hostile"}


def faults_of(name):
    """Returns the faults of a table, its number of cases, and how many of them are computed here."""
    stored = (DATA / name).read_text()
    cases = notation.Table(stored).cases
    decided = [case for case in cases if commands.is_decided(case)]
    if name in WRITERS:
        differs = WRITERS[name](stored) != stored
        faults = [f"{name}: tools/cases/ writes another table: check_cases.py --write {name}"] * differs
    else:
        faults = [f"{name}: {case.title}: {fault}" for case in decided if (fault := fault_of(case))]
    return faults, len(cases), len(decided)


def fault_of(case):
    """Returns how a case differs from what is computed; None if it doesn't."""
    outcome = commands.outcome_of(case)
    if (outcome.written, outcome.messages, outcome.status) == (case.written, case.messages, case.status):
        return None
    return (
        f"status {outcome.status} is computed, with {len(outcome.written)} bytes written, and: "
        f"{outcome.messages.strip()}"
    )


def write(names, numbers):
    """Writes tables; without names all that scripts write, and the numbers on pages."""
    for name in names or WRITERS:
        (DATA / name).write_text(WRITERS[name]((DATA / name).read_text()))
    if not names:
        page_numbers.write(numbers)


def main():
    options, names = [
        [word for word in sys.argv[1:] if word.startswith("--") == is_option] for is_option in (True, False)
    ]
    tables = (DATA / "tables").read_text().split()
    known = WRITERS if "--write" in options else tables
    if not set(options) <= {"--all", "--write", "--numbers"} or not set(names) <= set(known):
        sys.exit(__doc__)
    numbers = page_numbers.counted()
    if "--numbers" in options:
        print("\n".join(f"{number:,} {name}" for name, number in numbers.items()))
        return 0
    if "--write" in options:
        write(names, numbers)
        return 0
    chosen = names or [name for name in tables if name != WRONG and (name not in SLOW or "--all" in options)]
    with multiprocessing.Pool() as pool:
        results = pool.map(faults_of, chosen, chunksize=1)
    faults = [fault for found, _, _ in results for fault in found] + list(page_numbers.differing(numbers))
    cases, computed = [sum(result[place] for result in results) for place in (1, 2)]
    summary = f"{cases} cases of {len(chosen)} tables, {computed} of them computed, {len(faults)} differ"
    print("\n".join([*faults, summary]))
    return bool(faults)


if __name__ == "__main__":
    sys.exit(main())
