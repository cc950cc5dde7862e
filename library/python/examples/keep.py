"""Writes the packets of a capture that match to a pcapng file.

The expression is checked, the capture opened and its first packet read before the output is
touched, which may not be the capture itself. The statuses are those of capkit: 1 after a fault,
before which the packets are written, and 2 if the command line or the expression is refused.
"""
import os
import sys

import capkit


def report(problem: object) -> None:
    print(f"keep.py: {problem}", file=sys.stderr)


def is_same_file(one: str, other: str) -> bool:
    return os.path.exists(one) and os.path.exists(other) and os.path.samefile(one, other)


def keep(expression: capkit.Expression, source: str, target: str) -> int:
    try:
        # The writer opens its file for the first packet.
        with capkit.Writer(target) as writer:
            for packet in capkit.packets(source, expression):
                writer.write(packet)
    except (capkit.CaptureError, capkit.CompileError, capkit.WriteError) as error:
        report(f"{source}: {error}")
        return 1
    except OSError as error:
        report(error)
        return 1
    return 0


def main() -> int:
    if len(sys.argv) != 4:
        print("usage: keep.py EXPRESSION IN OUT", file=sys.stderr)
        return 2
    text, source, target = sys.argv[1:]
    try:
        expression = capkit.Expression(text)
    except capkit.CompileError as error:
        report(error)
        return 2
    if is_same_file(source, target):
        report(f"{target}: is the input too")
        return 2
    return keep(expression, source, target)


sys.exit(main())
