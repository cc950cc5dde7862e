#!/usr/bin/env python3
"""Filters captures on the workers of dask.distributed, and joins what they write.

usage: filter.py SCHEDULER OUT EXPRESSION FILE..

SCHEDULER is an address, such as tcp://127.0.0.1:8786. All workers see the files, and have capkit in
PATH. Each file is filtered by a process of its own; the results are joined in the order of the
files. What capkit reports goes to standard error, and the status is the greatest of its statuses.
At 1 a file has a fault: OUT has its packets before the fault, and those of all other files. At 2
the expression is refused, or OUT is one of the files, as in a second run over *.pcap. OUT is written
under a name of its own and renamed, so that it is the whole result or what it was before; it isn't
written if no file could be read, or if no scheduler answers within ten seconds.
"""
import logging
import os
import subprocess
import sys
import tempfile

try:
    import distributed
except ImportError:
    sys.exit("filter.py: this Python has no dask.distributed (Debian's package python3-distributed)")

# The most files that a merge takes.
MOST = 256


def keep(expression, file, out):
    """Writes the packets of a file that match; returns the status and what was reported."""
    words = ["capkit", "print", "-w", out, "--format", "pcap", file, expression]
    try:
        ran = subprocess.run(words, capture_output=True, text=True, errors="replace")
    except OSError as error:
        return 127, f"filter.py: capkit can't be run: {error.strerror}\n"
    said = "" if 0 <= ran.returncode <= 2 else f"filter.py: {file}: capkit ended with {ran.returncode}\n"
    return abs(ran.returncode), ran.stderr + said


def is_part(name, status):
    """Returns whether a capture was written; one of 0 bytes comes from a file that can't be read."""
    return status < 2 and os.path.isfile(name) and os.path.getsize(name) > 0


def join(out, parts):
    """Joins captures one after another, in a tree if they are too many for one merge; returns the
    greatest status."""
    worst = 0
    while len(parts) > MOST:
        groups = [parts[at:at + MOST] for at in range(0, len(parts), MOST)]
        parts = [f"{group[0]}.joined" for group in groups]
        worst = max([worst, *(join(part, group) for part, group in zip(parts, groups))])
    ran = subprocess.run(["capkit", "merge", "-a", "-F", "pcap", "-w", out, *parts])
    return max(worst, ran.returncode)


def refuse(text, status):
    """Reports why nothing is written, and returns the status; control characters are numbers."""
    text = "".join(it if it.isprintable() else ascii(it)[1:-1] for it in text)
    print(f"filter.py: {text}", file=sys.stderr)
    return status


def give_up(joined, statuses):
    """Removes what a failed merge wrote; returns the greatest status."""
    if os.path.exists(joined):
        os.remove(joined)
    return max(statuses)


def connected(scheduler):
    """Returns a client of the scheduler; None if none answers."""
    logging.getLogger("distributed").setLevel(logging.CRITICAL)
    try:
        return distributed.Client(scheduler, timeout=10)
    except (OSError, ValueError):
        return None


def main(scheduler, out, expression, *files):
    files = [os.path.abspath(file) for file in files]
    if any(os.path.realpath(file) == os.path.realpath(out) for file in files):
        return refuse(f"{out}: the output is an input too", 2)
    client = connected(scheduler)
    if client is None:
        return refuse(f"{scheduler}: no scheduler answers", 1)
    with client, tempfile.TemporaryDirectory(dir=os.getcwd()) as folder:
        parts = [f"{folder}/{number}.pcap" for number in range(len(files))]
        ends = client.map(keep, [expression] * len(files), files, parts, pure=False)
        ends = client.gather(ends)
        sys.stderr.writelines(reported for _, reported in ends)
        statuses = [status for status, _ in ends]
        parts = [part for part, status in zip(parts, statuses) if is_part(part, status)]
        if parts:
            joined = f"{out}.{os.getpid()}.part"
            statuses.append(join(joined, parts))
            if statuses[-1]:
                return refuse(f"{out}: not written, since the merge failed", give_up(joined, statuses))
            os.replace(joined, out)
    return max(statuses)


if __name__ == "__main__":
    sys.exit(main(*sys.argv[1:]) if len(sys.argv) > 4 else __doc__)
