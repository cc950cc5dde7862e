"""Computes the expected results of the cases of a table, and writes the lines that state them.

All other lines are kept: to add a case to such a table, write only its input: its words, its files and its sweep.
"""

import collections

import commands
from files import Capture
from notation import NAMING, Table, expected

STATED = ("out", "text", "lines", "reports", "status", "at", "end", "meets", "stops")


def table(stored):
    """Returns the table with its expected lines computed."""
    blocks, cases = stored.rstrip("\n").split("\n\n"), iter(Table(stored).cases)
    names = Table(stored).names
    return "\n\n".join(block_of(block.split("\n"), cases, names) for block in blocks) + "\n"


def block_of(lines, cases, names):
    """Returns a block: names, or a case with its own input and computed results."""
    if all(line.partition(" ")[0] in (*NAMING, "#", "given") for line in lines):
        return "\n".join(lines)
    case = next(cases)
    if not commands.is_decided(case):
        return "\n".join(lines)
    outcome = commands.outcome_of(case)
    kept = [line for line in lines if line.partition(" ")[0] not in STATED]
    sweeps = [line for line in kept if line.startswith("sweep ")]
    front = [line for line in kept if line not in sweeps]
    return "\n".join(
        front
        + expected(case.words, outcome, names)
        + sweeps
        + [line for sweep in sweeps for line in swept(case, outcome, sweep.split()[1:])]
    )


def swept(case, outcome, sweep):
    """Returns the lines that state the results of a sweep."""
    kind, *numbers = sweep
    if kind == "steps":
        return [" ".join(["stops", *map(str, outcome.stops())])]
    if kind == "reads":
        sizes = outcome.stops()
        return [f"at {offset} {sizes[before] if before else 0}" for offset, before in Capture(case.input).places]
    if kind == "prefixes":
        return prefixes(case)
    if kind in ("bits", "numbers"):
        return meets(case, flipped(case.input) if kind == "bits" else numbered(case.input, *map(int, numbers)))
    return []


def prefixes(case):
    """Returns the results for each prefix of the input: the offset of the fault, or a clean end,
    and how much was written.
    """
    places, ends = {}, []
    for size in range(len(case.input) + 1):
        outcome = commands.outcome_of(case, case.input[:size])
        if outcome.status:
            offset, text = outcome.messages.split(": ")[2:]
            assert text == ("truncated\n" if size >= 4 else "not a capture file\n")
            places[int(offset.removeprefix("offset "))] = len(outcome.written)
        else:
            ends.append(f"end {size}" + f" {len(outcome.written)}" * (case.words[0] != "infos"))
    return [f"at {offset} {size}" for offset, size in places.items()] + ends


def flipped(data):
    """Yields the data with each of its bits changed."""
    for bit in range(8 * len(data)):
        yield data[:bit // 8] + bytes([data[bit // 8] ^ 1 << bit % 8]) + data[bit // 8 + 1:]


def numbered(data, place, size):
    """Yields the data with each number near a power of two at an offset, as far as there are bytes."""
    for number in range(99):
        value = max(2 ** (number // 3) - 1 + number % 3, 0)
        yield data[:place] + value.to_bytes(8, "little")[:size] + data[place + size:]


def meets(case, inputs):
    """Returns the lines that state how many of the inputs are refused with each message."""

    def offset(item):
        return int(item[0].split(": ")[2].split()[1]), item[0]

    counts = collections.Counter(commands.outcome_of(case, data).messages for data in inputs)
    refused = [(message, count) for message, count in counts.items() if message]
    return [
        f"meets {count} {message.removeprefix('capkit: ').rstrip()}" for message, count in sorted(refused, key=offset)
    ]
