"""Counts the packets of a capture that match, and prints their comments.

The statuses are those of capkit: 1 after a fault, which ends the capture, and 2 if the command
line or the expression is refused.
"""
import sys

import capkit


def report(problem: object) -> None:
    print(f"filter.py: {problem}", file=sys.stderr)


def count(expression: capkit.Expression, name: str) -> int:
    seen = matching = status = 0
    try:
        for packet in capkit.packets(name):
            matching += expression.matches(packet)
            seen += 1
            if packet.comment:
                print(f"packet {seen}: {packet.comment.decode(errors='replace')}")
    except capkit.CaptureError as fault:
        report(f"{name}: {fault}")
        status = 1
    print(f"{matching} of {seen} packets match")
    return status


def main() -> int:
    if len(sys.argv) != 3:
        print("usage: filter.py EXPRESSION FILE", file=sys.stderr)
        return 2
    try:
        expression = capkit.Expression(sys.argv[1])
    except capkit.CompileError as error:
        report(error)
        return 2
    try:
        with sys.stdout:  # closed: what can't be printed is an error
            return count(expression, sys.argv[2])
    except (capkit.CompileError, OSError) as error:
        report(error)
        return 1


sys.exit(main())
