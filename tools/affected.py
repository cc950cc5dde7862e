#!/usr/bin/env python3
"""Prints what a change of crates needs before it is handed in.

These are the crates that are proved again, with their edits and tests.

usage: affected.py CRATE..

Each crate that depends on a changed one is proved again, since it uses its contracts. `rt ci CRATE`
proves a crate from nothing with those below it; `.ci/run` does all. The status is 1 if there is no such crate.
"""
import pathlib
import re
import sys

ROOT = pathlib.Path(__file__).resolve().parent.parent


def needs():
    """Returns the crates that each crate of crates.txt needs, in the order of the file: lowest first."""
    lines = re.findall(r"^(\w+)[^:#\n]*:(.*)$", (ROOT / "crates.txt").read_text(), re.M)
    return {name: named.split() for name, named in lines}


def below(name, crates):
    """Returns all crates that one needs."""
    return {it for need in crates[name] if need in crates for it in (need, *below(need, crates))}


def main():
    crates, changed = needs(), sys.argv[1:]
    if not changed or set(changed) - set(crates):
        sys.exit(__doc__ if not changed else f"no such crate: {' '.join(sorted(set(changed) - set(crates)))}")
    again = {name for name in crates if {name, *below(name, crates)} & set(changed)}
    print(f"{len(again)} of {len(crates)} crates are proved again:")
    edits = tests = 0
    for name in [it for it in crates if it in again]:
        folder = ROOT / "crates" / name
        its_edits = len([*folder.glob("must-fail/*.edit")])
        its_tests = sum(len(re.findall(r"^ *#\[test\]", it.read_text(), re.M)) for it in folder.rglob("src/**/*.rt"))
        print(f"  {name:14} {its_edits:3} edits {its_tests:3} tests{'  changed' if name in changed else ''}")
        edits, tests = edits + its_edits, tests + its_tests
    print(f"{edits} edits are tried and {tests} tests proved and run.")
    print("quick:  .ci/quick                       (all cases and tests, nothing proved)")
    print(f"proof:  rt check, in crates/{' and crates/'.join(changed)}")
    print(f"gate:   rt ci {' '.join(changed)}; then .ci/run")


if __name__ == "__main__":
    main()
