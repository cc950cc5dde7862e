#!/usr/bin/env python3
"""Prints a table of the CPU time and memory of capkit, editcap, mergecap, capinfos and tcpdump.

For whoever changes code that runs once per packet, and for the figures on pages.

usage: run.py [--packets N] [--rounds N] [--seconds N] [--capkit PROGRAM] [--instructions | --page] [NAME..]

It makes a capture of N packets (1,000,000) in a temporary folder. The programs write their captures
there too: set TMPDIR to a folder on a disk. The programs run each job in turn, ROUNDS times (15),
or until it has taken SECONDS (60) in 3 rounds or more, and the best CPU time of each counts (user
and system, in seconds). Memory is the greatest resident size in MiB, if GNU time is installed.
First it compares what capkit and the other tool write (after the file header; for reports, the
number of packets). NAMEs choose jobs; without one, all run. Tools that aren't installed are left
out. --page prints rows as docs/inside/TESTING.md has them.

For some jobs it also measures floor.c, a C program that does only what such a job can't avoid, if
there is a C compiler. If valgrind is installed, callgrind counts the instructions per packet: the
difference between a capture of 30,000 packets and its first 10,000, which doesn't depend on the
load of the machine. --instructions does only this.
"""
import argparse
import ipaddress
import itertools
import math
import os
import pathlib
import random
import re
import shutil
import subprocess
import sys
import tempfile
import time

import make_capture

ROOT = pathlib.Path(__file__).resolve().parent.parent
sys.path.append(str(ROOT / "tools"))

from built import built_program

# 300 ports, six of them common, and 50 hosts, half of them common.
chooser = random.Random(7)
PORTS = sorted(chooser.sample(range(1, 65536), 294)) + [80, 443, 53, 22, 25, 8080]
HOSTS = (
    [f"10.0.0.{k}" for k in range(1, 26)]
    + [".".join(str(chooser.randrange(1, 224)) for _ in range(4)) for _ in range(25)]
)


def network(prefix):
    """Returns a random network with a prefix of this length."""
    return f"{ipaddress.IPv4Address(chooser.randrange(1 << 24, 224 << 24) >> 32 - prefix << 32 - prefix)}/{prefix}"


def flow():
    """Returns the expression for the packets from one host to another."""
    source, destination = (network(32)[:-3] for _ in range(2))
    return f"(src host {source} and dst host {destination})"


EXPRESSIONS = {
    "tcp": "tcp",
    "web": "tcp port 80 or 443",
    "web-not-net10": "tcp dst port 80 or 443 and not src net 10.0.0.0/8",
    "mixed": "ip6 or (udp port 53 or 443) or tcp portrange 8000-9000 or arp",
    "host-port": "host 1.2.3.4 and port 5",
    "payload": "tcp port 80 and (((ip[2:2] - ((ip[0]&0xf)<<2)) - ((tcp[12]&0xf0)>>2)) != 0)",
    "ports-6": " or ".join(f"port {port}" for port in (80, 443, 53, 22, 25, 8080)),
    "hosts-50": " or ".join(f"host {host}" for host in HOSTS),
    "ports-300": " or ".join(f"port {port}" for port in PORTS),
    "nets-100": " or ".join(f"net {network(chooser.randrange(8, 29))}" for _ in range(100)),
    "nets-600": " or ".join(f"net {network(24)}" for _ in range(600)),
    "portranges-20": " or ".join(f"portrange {port}-{port + 99}" for port in range(1000, 61000, 3000)),
    "nets-1800": " or ".join(f"ip net {network(24)}" for _ in range(1800)),
    "hosts-2730": "ip src host " + " or ".join(network(32)[:-3] for _ in range(2730)),
    "macs-40": " or ".join(
        "ether src 00" + "".join(f":{chooser.randrange(256):02x}" for _ in range(5)) for _ in range(40)
    ),
    "ip6-256": " or ".join(f"src host 2001:db8::{k:x}" for k in range(256)),
    "ip6-hosts-256": " or ".join(f"{side} host 2001:db8::{k:x}" for side in ("src", "dst") for k in range(256)),
    "ip6-hosts-64": " or ".join(f"{side} host 2001:db8::{k:x}:0:{k:x}" for side in ("src", "dst") for k in range(256)),
    "bytes-30": " or ".join(f"tcp[0:2] = {port}" for port in PORTS[::10]),
    "flows-32": " or ".join(flow() for _ in range(32)),
    "flows-100": " or ".join(flow() for _ in range(100)),
}


# The words of floor.c for a job; IN are the job's captures.
FLOOR = {
    "copy-pcap": ["copy", "OUT", "IN", "0", "0"],
    "to-pcapng": ["pcapng", "OUT", "IN", "0", "0"],
    "delete-ranges": ["copy", "OUT", "IN", "7000", "90000"],
    "merge-2": ["merge", "OUT", "IN"],
    "infos": ["infos", "IN"],
    "web": ["web", "OUT", "IN"],
}

# The numbers of packets of the two captures over which instructions are counted.
FEW = 10_000
MANY = 30_000


def parts_of(capture, count, folder):
    """Deals the packets of the capture out to `count` files in turn, so that each is in time order."""
    data, at = pathlib.Path(capture).read_bytes(), 24
    parts = {str(folder / f"part-{count}-{part}.pcap"): [data[:24]] for part in range(count)}
    turns = itertools.cycle(parts.values())
    while at < len(data):
        end = at + 16 + int.from_bytes(data[at + 8 : at + 12], "little")
        next(turns).append(data[at:end])
        at = end
    for name, pieces in parts.items():
        pathlib.Path(name).write_bytes(b"".join(pieces))
    return list(parts)


def jobs(capkit, floor, capture, folder):
    """Yields the jobs: their names, the other programs, and the words of each program by its name,
    with OUT for the output.
    """
    edits = {
        "copy-pcap": ["-F", "pcap", capture, "OUT"],
        "to-pcapng": ["-F", "pcapng", capture, "OUT"],
        "delete-ranges": ["-F", "pcap", capture, "OUT", "1-1000", "5000", "7000-90000"],
        "snap-64": ["-F", "pcap", "-s", "64", capture, "OUT"],
        "window-5": ["-F", "pcap", "-D", "5", capture, "OUT"],
        "window-1000": ["-F", "pcap", "-D", "1000", capture, "OUT"],
    }
    made = [(name, ["edit", *words], ["editcap", *words]) for name, words in edits.items()]
    for count in (2, 16):
        words = ["-F", "pcap", "-w", "OUT", *parts_of(capture, count, folder)]
        made.append((f"merge-{count}", ["merge", *words], ["mergecap", *words]))
    made.append(("infos", ["infos", capture], ["capinfos", "-cudsaeM", capture]))
    for name, expression in EXPRESSIONS.items():
        own = ["print", "-w", "OUT", "--format", "pcap", capture, expression]
        made.append((name, own, ["tcpdump", "-Z", "root", "-r", capture, "-w", "OUT", expression]))
    made.append(("lines", ["print", capture], ["tcpdump", "-nn", "-q", "-tttt", "-r", capture]))
    for name, own, peer in made:
        words = {"own": [capkit, *own], "peer": peer}
        if floor and name in FLOOR:
            captures = [word for word in own if word.endswith(".pcap")]
            words["floor"] = [floor, *(it for word in FLOOR[name] for it in (captures if word == "IN" else [word]))]
        yield name, words


def compiled_floor(folder):
    """Compiles floor.c, and returns the program; None without a C compiler."""
    compiler = shutil.which("cc") or shutil.which("gcc") or shutil.which("clang")
    if compiler is None:
        return None
    program = str(folder / "floor")
    subprocess.run([compiler, "-O2", "-o", program, ROOT / "bench" / "floor.c"], check=True)
    return program


def instructions_of(words):
    """Returns the number of instructions that a run of the words executes."""
    words = ["/dev/null" if word == "OUT" else word for word in words]
    callgrind = ["valgrind", "--tool=callgrind", "--callgrind-out-file=/dev/null"]
    done = subprocess.run([*callgrind, *words], stdout=subprocess.DEVNULL, stderr=subprocess.PIPE, text=True)
    if done.returncode:
        sys.exit(f"{words[0]}: {done.stderr[-300:]}")
    return int(re.search(r"Collected : (\d+)", done.stderr)[1])


def run(words, out):
    """Runs the words, and returns the processor time in seconds."""
    words = [out if word == "OUT" else word for word in words]
    with tempfile.TemporaryFile() as errors:
        child = subprocess.Popen(words, stdout=subprocess.DEVNULL, stderr=errors)
        _, status, usage = os.wait4(child.pid, 0)
        child.returncode = os.waitstatus_to_exitcode(status)
        if child.returncode:
            errors.seek(0)
            sys.exit(f"{words[0]}: {errors.read().decode()[:300]}")
    return usage.ru_utime + usage.ru_stime


def memory_of(words, folder):
    """Returns the resident memory of a run in MiB; wait4 would include this process, before the program starts."""
    if not os.path.exists("/usr/bin/time"):
        return math.nan
    report = folder / "memory"
    run(["/usr/bin/time", "-f", "%M", "-o", str(report), *words], "/dev/null")
    return int(report.read_text().split()[-1]) / 1024


def packets_of(path):
    """Returns the bytes after the header of a pcap file."""
    with open(path, "rb") as file:
        return file.read()[24:]


def counted(words):
    """Returns the number of packets in a report."""
    report = subprocess.run(words, capture_output=True, text=True, check=True).stdout
    counts = re.findall(r"^(?:Packets|Number of packets): *(?:= *)?(\d+)", report, re.MULTILINE)
    return counts[0] if counts else None


def compare(name, programs, folder):
    """Returns whether both write the same packets; only pcap files can be compared byte by byte."""
    if name in ("to-pcapng", "lines"):
        return ""
    if name == "infos":
        own, peer = (counted(programs[which]) for which in ("own", "peer"))
        return "same" if own is not None and own == peer else "DIFFERENT"
    for which in ("own", "peer"):
        run(programs[which], str(folder / which))
    same = packets_of(folder / "own") == packets_of(folder / "peer")
    return "same" if same else "DIFFERENT"


def measure(programs, arguments, folder):
    """Measures a job in turn by each of the programs: the best times, and the greatest memory of two."""
    times, out, end = {which: [] for which in programs}, folder / "out", time.monotonic() + arguments.seconds
    for turn in range(arguments.rounds):
        if turn >= 3 and time.monotonic() > end:
            break
        for which, words in programs.items():
            out.unlink(missing_ok=True)
            times[which].append(run(words, str(out)))
    best = [min(times.get(which, [math.nan])) for which in ("own", "peer", "floor")]
    return best, [memory_of(programs[which], folder) for which in ("own", "peer")]


def small_jobs(capkit, floor, folder):
    """Yields the words of each job by name, for both small captures."""
    for count in (FEW, MANY):
        place = folder / str(count)
        place.mkdir()
        make_capture.write_capture(place / "capture.pcap", make_capture.traffic(count))
        yield dict(jobs(capkit, floor, str(place / "capture.pcap"), place))


def counts_of(few, many):
    """Returns the instructions per packet of capkit and of floor.c, as texts; `few` and `many` are
    the words of a job for the two captures.
    """
    counts = {}
    for which in {"own", "floor"} & few.keys():
        counts[which] = str(round((instructions_of(many[which]) - instructions_of(few[which])) / (MANY - FEW)))
    return counts.get("own", ""), counts.get("floor", "")


def print_line(name, peer, cells):
    """Prints a line of the table; a cell is a text, or a number with its decimals."""
    shown = [cell if isinstance(cell, str) else f"{cell[0]:.{cell[1]}f}" for cell in cells]
    print(f"{name:14} {peer:8} " + " ".join(f"{'' if it == 'nan' else it:>8}" for it in shown), flush=True)


def measure_jobs(arguments, folder):
    """Prints a line for each job that was asked for, and returns the ratios to the other tools."""
    capkit, floor = arguments.capkit or str(built_program()), compiled_floor(folder)
    counts = shutil.which("valgrind") and not arguments.page
    small = list(small_jobs(capkit, floor, folder)) if counts else [{}, {}]
    capture = str(folder / "capture.pcap")
    count = 1000 if arguments.instructions else arguments.packets
    make_capture.write_capture(capture, make_capture.traffic(count))
    if not arguments.instructions:
        print(f"{arguments.packets} packets, {os.path.getsize(capture)} bytes; CPU seconds, MiB")
    print_line("job", "peer", ("capkit", "peer", "ratio", "C", "capkit/C", "MiB", "peer's", "insns", "C's"))
    ratios = []
    for name, programs in jobs(capkit, floor, capture, folder):
        peer = programs["peer"][0]
        if arguments.names and name not in arguments.names:
            continue
        note, best, memory = "", [math.nan] * 3, [math.nan] * 2
        if not arguments.instructions:
            if shutil.which(peer) is None:
                print(f"{name:14} {peer} is not installed")
                continue
            note = compare(name, programs, folder)
            best, memory = measure(programs, arguments, folder)
        own, other, least = best
        ratios.append(own / other)
        if arguments.page:
            shown = [f"{ratio:.2f}" if ratio == ratio else "" for ratio in (own / other, own / least)]
            print(
                "|", " | ".join([f"`{name}`", peer, *shown, *(f"{size:.0f}" for size in memory)]), "|", note, flush=True
            )
            continue
        cells = [(own, 3), (other, 3), (own / other, 2), (least, 3), (own / least, 2), *((size, 1) for size in memory)]
        print_line(name, peer, [*cells, *counts_of(*(words.get(name, {}) for words in small)), note])
    return ratios


def main():
    parser = argparse.ArgumentParser(description=__doc__.split("\n")[0])
    parser.add_argument("--packets", type=int, default=1_000_000)
    parser.add_argument("--rounds", type=int, default=15)
    parser.add_argument("--seconds", type=float, default=60)
    parser.add_argument("--capkit", default=None)
    how = parser.add_mutually_exclusive_group()
    how.add_argument("--instructions", action="store_true")
    how.add_argument("--page", action="store_true")
    parser.add_argument("names", nargs="*")
    arguments = parser.parse_args()
    with tempfile.TemporaryDirectory() as temporary:
        ratios = measure_jobs(arguments, pathlib.Path(temporary))
    if ratios and not arguments.instructions:
        mean = math.exp(sum(map(math.log, ratios)) / len(ratios))
        print(f"{'geometric mean':40} {mean:8.2f}")


if __name__ == "__main__":
    main()
