"""Writes the table `random_filters`: random expressions on random packets.

Its expressions and packets were made at random once (seed 20261123) and are kept; which of them
match is computed.
"""

import filters
from files import Capture
from notation import Table, pairs

HEAD = """\
# Random expressions on random packets, once made of seed 20261123: the packets of the traffic tables, cut and altered.
# tools/cases/random_filters.py computes what matches: row by row an expression, and the packets that it keeps.
"""


def table(stored):
    """Returns the table with its expected results computed."""
    old, lines, by_link = Table(stored), [], {}
    for case in old.cases:
        by_link.setdefault(Capture(case.input).links[0], []).append(case)
    for link, cases in by_link.items():
        mine = {name: data for name, data in old.names.items() if name.startswith(f"P{link}_")}
        lines += ["", f"let HEAD_{link} {pairs(old.names[f'HEAD_{link}'], {})}"]
        lines += [f"let {name} {data[:16].hex()} {data[16:].hex()}" for name, data in mine.items()]
        lines += [f"given HEAD_{link} {' '.join(mine)}", ""]
        lines += [row(case, mine) for case in cases] + form(link)
    return HEAD + "\n".join(lines) + "\n"


def row(case, names):
    """Returns the row for a case: an expression, and the names of the packets that it keeps."""
    tree = filters.tree_of(case.words[0])
    kept = [name for name, packet in zip(names, Capture(case.input).packets) if filters.matches(tree, packet)]
    return f"row {case.words[0]} ; {' '.join(kept)}"


def form(link):
    return ["filter {1}", f"out HEAD_{link} {{2}}"]
