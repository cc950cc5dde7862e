#!/usr/bin/env python3
"""Lists the must-fail edits that don't apply: an old text must be in its file exactly once.

usage: check_edits.py      the status is 1 if any edit doesn't apply
"""
import pathlib
import sys

ROOT = pathlib.Path(__file__).resolve().parent.parent


def fault_of(crate, edit):
    """Returns why an edit of a crate doesn't apply; None if it does."""
    texts, path, old = {}, None, None
    for line in edit.read_text().splitlines():
        word, _, rest = line.partition(": ")
        if word == "file":
            path = crate / rest
            texts.setdefault(path, path.read_text() if path.exists() else "")
        elif word == "old":
            old = rest
            if texts[path].count(old) != 1:
                return f"{path.relative_to(crate)} has {texts[path].count(old)} times: {old.strip()}"
        elif word == "new":
            texts[path] = texts[path].replace(old, rest)
    return None


def main():
    edits = [(edit.parent.parent, edit) for edit in sorted(ROOT.glob("crates/*/must-fail/*.edit"))]
    faults = [f"{edit.relative_to(ROOT)}: {fault}" for crate, edit in edits if (fault := fault_of(crate, edit))]
    print("\n".join([*faults, f"{len(edits)} edits, {len(faults)} don't apply"]))
    return bool(faults)


sys.exit(main())
