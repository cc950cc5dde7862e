"""Writes the table `random_captures`: random commands on random captures, most of them damaged.

Its words and captures were made at random once (seed 20261123) and are kept; their results are
computed.
"""

import commands
from notation import Table, expected

HEAD = """\
# Random captures, most of them damaged, once made of seed 20261123.
# tools/cases/random_captures.py computes what comes of them.
"""


def table(stored):
    """Returns the table with its expected results computed."""
    lines = []
    for case in Table(stored).cases:
        lines += ["", f"run {' '.join(case.words)}", *(f"in {name}: {data.hex()}" for name, data in case.files.items())]
        lines += expected(case.words, commands.run(case.words, case.files.get), {})
    return HEAD + "\n".join(lines) + "\n"
