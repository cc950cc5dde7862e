"""Shows which instructions of an expression's program run on a packet, with A and X before each.

The statuses are those of capkit: 1 after a fault, and 2 if the command line or the expression is
refused.
"""
import itertools
import sys

import capkit


def trace(program: capkit.Filter, packet: capkit.Packet) -> None:
    for step in program.trace(packet.data, packet.original_length):
        text = program.text(step.index).replace("\t", " ")
        print(f"{text:<44} A is {step.a:#x}, X is {step.x:#x}")
    print(f"it returns {program.run(packet.data, packet.original_length)}")


def main() -> int:
    if len(sys.argv) != 4 or not sys.argv[3].isdecimal() or int(sys.argv[3]) == 0:
        print("usage: trace.py EXPRESSION FILE NUMBER (from 1)", file=sys.stderr)
        return 2
    text, name, number = sys.argv[1], sys.argv[2], int(sys.argv[3])
    try:
        expression = capkit.Expression(text)
    except capkit.CompileError as error:
        print(f"trace.py: {error}", file=sys.stderr)
        return 2
    try:
        for packet in itertools.islice(capkit.packets(name), number - 1, number):
            trace(expression.filter(packet.link_type), packet)
            return 0
        print(f"trace.py: {name}: no packet {number}", file=sys.stderr)
    except (capkit.CaptureError, capkit.CompileError) as error:
        print(f"trace.py: {name}: {error}", file=sys.stderr)
    except OSError as error:
        print(f"trace.py: {error}", file=sys.stderr)
    return 1


sys.exit(main())
