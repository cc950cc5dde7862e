#!/usr/bin/env python3
"""Draws a listing, as `capkit compile` or `tcpdump -ddd` prints it: a picture (SVG) of its ways.

usage: draw.py [--dot] [LISTING] > ways.svg     (else standard input)

  capkit compile tcp port 80 | draw.py > ways.svg
  capkit compile tcp port 80 | draw.py --dot | dot -Tsvg > ways.svg

Solid arrows are for a test that holds, dashed ones for one that doesn't. The names are those of `tcpdump
-d`. No other program is needed; --dot is for those who have Graphviz. A listing that isn't one of
a valid program is refused with status 2.
"""
import argparse
import sys

import listing
import pictures

STYLE = """<style>
svg { background: #fff } rect { fill: #f4f6f8; stroke: #8a929c } text { font: 13px monospace }
path { fill: none; stroke: #565d66 } .no { stroke-dasharray: 4 3 }
.keeps rect { stroke: #146c2e; stroke-width: 2 } .drops rect { stroke: #a3261c; stroke-width: 2 }
</style>"""


def arguments_of(arguments):
    parser = argparse.ArgumentParser(prog="draw.py", description=__doc__.split("\n\n")[0])
    parser.add_argument("--dot", action="store_true", help="write a graph for Graphviz")
    parser.add_argument("listing", nargs="?", metavar="LISTING")
    return parser.parse_args(arguments)


def picture(program):
    """Returns the picture as a file of its own."""
    text = pictures.flow_picture(program, "The ways through a program")
    start = text.index(">") + 1
    return text[:start] + STYLE + text[start:] + "\n"


def graph(program):
    """Returns the graph in the language of Graphviz."""
    lines = ["digraph listing {", '  node [shape=box fontname="monospace"];']
    for place, (insn, text) in enumerate(zip(program.instructions, program.texts())):
        lines.append(f'  {place} [label="{pictures.short_text(text)}"];')
        for target, kind in pictures.ways_of(insn, place):
            lines.append(f"  {place} -> {target}{' [style=dashed]' if kind == 'no' else ''};")
    return "\n".join([*lines, "}", ""])


def main(arguments):
    arguments = arguments_of(arguments)
    program = listing.read_or_exit("draw.py", arguments.listing)
    text = graph(program) if arguments.dot else picture(program)
    return listing.write("draw.py", text.encode())


if __name__ == "__main__":
    sys.exit(main(sys.argv[1:]))
