#!/usr/bin/env python3
"""Lists the functions of a crate whose proofs cost most, in megabytes written and in seconds.

usage: proof_times.py CRATE [COUNT]

For whoever makes checks cheaper. It lists COUNT functions (25). It reads what the last check wrote
into the crate's out/incremental, and when. For true figures empty that folder first (else rt copies
another checkout's), and run `rt check --jobs 1` in the crate's folder. The megabytes are the same
each time; seconds depend on what else runs. For each function its most expensive parts follow: Lts
is the model of its steps, Kinds mostly loading. If Proof takes many seconds for its megabytes,
written answers make it cheaper. The status is 1 if the crate has no work of a check.
"""
import collections
import pathlib
import re
import sys

ROOT = pathlib.Path(__file__).resolve().parent.parent
PARTS = """Answers Carried Code Given Goals Instances Invariants Key Kinds Layout Lts Met Named Proof
    Reads Statement TheLaws TheLink Tie View""".split()
PROOF = re.compile(rf"\w+-proofs\.(.*)\.({'|'.join(PARTS)})\b")


def place_of(file):
    """Returns the function that a file belongs to, and the part of its proof."""
    name = re.sub(r"^Rattle-|\.decls|\.oantt$", "", file)
    found = PROOF.match(name)
    return found.groups() if found else (name.partition("-")[2] or name, "other")


def main():
    if len(sys.argv) < 2:
        sys.exit(__doc__)
    folder = ROOT / "crates" / sys.argv[1] / "out" / "incremental"
    files = sorted((it.stat().st_mtime, it.stat().st_size / 1e6, it.name) for it in folder.rglob("*.oantt"))
    if not files:
        sys.exit(f"{folder} has no work of a check")
    parts, seconds = (collections.defaultdict(collections.Counter) for _ in range(2))
    before = files[0][0]
    for written, size, name in files:
        function, part = place_of(name)
        parts[function][part] += size
        seconds[function][part] += written - before
        before = written
    dearest = sorted(parts, key=lambda it: -max(parts[it].total(), seconds[it].total()))
    for function in dearest[: int(sys.argv[2]) if len(sys.argv) > 2 else 25]:
        most = (
            f"{part} {parts[function][part]:.1f} MB {took:.1f} s" for part, took in seconds[function].most_common(3)
        )
        print(f"{parts[function].total():6.1f} MB {seconds[function].total():6.1f} s  {function}  ({', '.join(most)})")
    print(f"{sum(it.total() for it in parts.values()):6.1f} MB {before - files[0][0]:6.1f} s  in all")


main()
