#!/usr/bin/env python3
"""Checks the tables of docs/FROM_TCPDUMP.md, by running both lines of each row.

It compares what the other tool's line and capkit's line write, as the row's last cell claims. For
whoever changes that page or what capkit does.

usage: check_equivalents.py [--capkit PROGRAM]

Each line runs in its own folder with a copy of samples/, with TZ=UTC. What it writes is the file
OUT, or else its standard output. editcap compares times and lengths of packets. Both lines must end
with the same status, unless the claim names it: "the status is 1 here and 2 there", "both end with
status 1". The last line counts the rows that aren't true.
"""
import argparse
import pathlib
import re
import shutil
import struct
import subprocess
import sys
import tempfile

from built import ROOT, built_program, folder_with

TOOLS = ["tcpdump", "editcap", "mergecap", "capinfos"]
# Rows of these are left out if they aren't installed.
OTHER_TOOLS = ["captype", "reordercap", "text2pcap", "tcpslice", "pcapfix"]
# Packets that the samples lack: the bytes after the addresses of Ethernet, and the original length
# if it isn't the captured one.
ODD = [
    # SCTP to port 80.
    ("0800 45000020 00000000 40840000 c0a80101 c0a80102 00050050 12340000 00000000", None),
    # The first fragment of a UDP datagram over IPv6.
    (f"86dd 60000000 00142c40 20010db8{1:024x} 20010db8{2:024x} 11000001 00000001 00351000 000c0000 00000000", None),
    # AppleTalk in a SNAP frame.
    (f"002e aaaa0308 0007809b {0:076x}", None),
    # IPv4 from 0.1.2.3.
    ("0800 45000014 00000000 40060000 00010203 c0a80101", None),
    # IPv6 without a next header, to 2001:db8::.
    (f"86dd 60000000 00003b40 {0:032x} 20010db8{0:024x}", None),
    # IPv4 of 103 bytes; IPv4 of an original length below the captured one.
    (f"0800 45000059 00000000 40ff0000 c0a80101 c0a80102 {0:0138x}", None),
    ("0800 45000014 00000000 40ff0000 c0a80101 c0a80102", 16),
]
# A packet of a Linux cooked capture.
COOKED = ["0000 0001 0006 0200000000050000 0800 45000014 00000000 40ff0000 c0a80101 c0a80102"]
# Files that the page makes of the samples.
MADE = [
    "editcap -F pcap -s 20 day.pcap same-times.pcap",
    "mergecap -a -F pcap -w unsorted.pcap ring.pcap2 ring.pcap1",
    "tail -c +41 day.pcap | head -c 60 | od -Ax -tx1 > dump.txt",
]


def rows():
    """Yields the two lines and the claim of each row whose first cell is a line of code."""
    for line in (ROOT / "docs" / "FROM_TCPDUMP.md").read_text().split("\n"):
        cells = [cell.strip() for cell in re.split(r"(?<!\\)\|", line)[1:-1]]
        if len(cells) == 3 and cells[0].startswith("`") and re.match("`(capkit|.*; capkit)", cells[1]):
            yield [cell.strip("`").replace("\\|", "|") for cell in cells]


def write_capture(path, link, packets):
    """Writes a pcap file of packets with their original lengths, one per second."""
    records = (
        struct.pack("<IIII", second, 0, len(data), size or len(data)) + data
        for second, (data, size) in enumerate(packets, 1)
    )
    path.write_bytes(struct.pack("<IHHIIII", 0xA1B2C3D4, 2, 4, 0, 0, 262144, link) + b"".join(records))


def make_captures(folder):
    """Adds the captures to the samples that rows of the page name."""
    write_capture(folder / "odd.pcap", 1, [(bytes(12) + bytes.fromhex(data), size) for data, size in ODD])
    write_capture(folder / "odd-cooked.pcap", 113, [(bytes.fromhex(data), None) for data in COOKED])
    for command in MADE:
        subprocess.run(["sh", "-c", command], cwd=folder, check=True)


class Outcome:
    """What a line wrote, printed and ended with."""

    def __init__(self, line, capkit, parent):
        self.folder = pathlib.Path(tempfile.mkdtemp(dir=parent))
        variables = folder_with(self.folder, capkit)
        make_captures(self.folder)
        command = ["bash", "-o", "pipefail", "-c", line]
        done = subprocess.run(command, cwd=self.folder, env=variables, capture_output=True)
        self.printed, self.status = done.stdout, done.returncode
        out = self.folder / "OUT"
        self.written = out.read_bytes() if out.exists() else None

    def packets(self):
        """Returns the packets with their times and lengths: a pcap file in nanoseconds without its header."""
        name = self.folder / "compared"
        subprocess.run(
            ["editcap", "-F", "nsecpcap", "OUT", str(name)], cwd=self.folder, check=True, capture_output=True
        )
        return name.read_bytes()[24:]


def ends_as_told(claim, theirs, ours):
    """Returns whether the statuses are those that the claim names, or equal if it names none."""
    if found := re.search(r"status is (\d) here and (\d) there", claim):
        return (ours.status, theirs.status) == (int(found.group(1)), int(found.group(2)))
    if found := re.search(r"both end with status (\d)", claim):
        return ours.status == theirs.status == int(found.group(1))
    return claim.startswith("differs") or ours.status == theirs.status


def is_true(claim, theirs, ours, plain):
    """Returns whether a claim is true; `plain` is the result of the other line without `-O`, if the
    claim is about that.
    """
    if not ends_as_told(claim, theirs, ours):
        return False
    if claim.startswith("same file"):
        is_same = theirs.written is not None and theirs.written == ours.written
        return is_same and (plain is None or plain.written != ours.written)
    if claim.startswith("same packets"):
        return theirs.written is not None and theirs.packets() == ours.packets()
    if claim.startswith("as many lines"):
        return theirs.printed.count(b"\n") == ours.printed.count(b"\n") > 0
    return (theirs.written, theirs.printed, theirs.status) != (ours.written, ours.printed, ours.status)


def main():
    parser = argparse.ArgumentParser(description=__doc__.split("\n")[0])
    parser.add_argument("--capkit", default=None)
    capkit = parser.parse_args().capkit or built_program()
    missing = [tool for tool in TOOLS if shutil.which(tool) is None]
    if missing:
        sys.exit(f"not installed: {', '.join(missing)}")
    count = wrong = 0
    with tempfile.TemporaryDirectory() as parent:
        for line, own, claim in rows():
            if line.split()[0] in OTHER_TOOLS and shutil.which(line.split()[0]) is None:
                print(f"left out, not installed: {line}")
                continue
            theirs, ours = Outcome(line, capkit, parent), Outcome(own, capkit, parent)
            plain = Outcome(line.replace(" -O ", " "), capkit, parent) if "without `-O`" in claim else None
            count += 1
            if not is_true(claim, theirs, ours, plain):
                wrong += 1
                print(f"{line}\n{own}\n  isn't: {claim} (status {theirs.status} and {ours.status})")
    print(f"{count} rows, {wrong} not true")
    sys.exit(1 if wrong or not count else 0)


if __name__ == "__main__":
    main()
