#!/usr/bin/env python3
"""Runs random command lines by two builds of the program, and compares statuses, output, messages and files.

usage: compare.py PROGRAM OTHER [COUNT [SEED]]

Each line runs in its own folder with the samples and forty damaged copies of them. PROGRAM and
OTHER are commands of one or more words (such as an emulator with its options and the program); both
files must have the same name, since messages have it. The last line counts the command lines that
differ; the status is 1 if there are any.
"""
import concurrent.futures
import os
import pathlib
import random
import shlex
import shutil
import subprocess
import sys
import tempfile

SAMPLES = pathlib.Path(__file__).resolve().parents[2] / "samples"
EXPRESSIONS = [
    "", "tcp port 80", "udp", "arp", "not tcp", "ip host 10.0.0.5", "net 10.0.0.0/8", "portrange 1-1024", "ip6",
    "icmp or icmp6",
    "ether broadcast", "greater 100", "less 60", "tcp[tcpflags] & (tcp-syn|tcp-fin) != 0", "ip[8] < "
    "64", "len > 70 and udp",
    "src port 53 or dst port 53", "host 10.0.0.5 and not port 22", "ether host 0:11:22:33:44:55", "proto 17",
    "ip6 multicast",
    "ether proto 0x806", "tcp port", "(tcp", "port 99999", "len / 0 = 1", "1+2*3-4 = 3", "ether[0:4] = 0xffffffff",
    "ip[0] & 0xf > 5", "net 10.0.0.1/8", "é", "tcp and " * 50 + "udp",
]
EDITS = [
    ["-r"], ["-A", "2026-01-31T12:00:00Z"], ["-A", "5.5"], ["-B", "2026-01-31T12:30:00Z"], ["-s", "0"],
    ["-s", "20"], ["-s", "64"],
    ["-D", "2"], ["-D", "1000"], ["--chop-start", "14"], ["--chop-end", "40"], ["--later", "0.000000001"],
    ["--later", "86400.5"],
    ["--earlier", "3.25"], ["-F", "pcap"], ["-F", "pcapng"], ["-F", "nsecpcap"], ["-F", "zip"],
]
RANGES = ["1-3", "5", "2-9", "7-7", "100-200", "0", "9-2"]
LINES = [["--help"], ["--version"], [], ["edit", "--help"], ["print", "--help"], ["bogus"], ["infos"]]


def damaged(chance, data):
    """Returns a damaged copy: one to three times a bit is flipped, the end cut off, or random bytes inserted."""
    data = bytearray(data)
    for _ in range(chance.randint(1, 3)):
        kind, at = chance.randrange(3), chance.randrange(len(data))
        if kind == 0:
            data[at] ^= 1 << chance.randrange(8)
        elif kind == 1:
            del data[max(at, 4) :]
        else:
            data[at:at] = chance.randbytes(chance.randint(1, 9))
    return bytes(data)


def random_line(chance, files):
    """Returns the words of a random command line over these files."""
    pick = chance.choice
    match pick(["edit"] * 3 + ["merge", "infos"] + ["print"] * 3 + ["compile"]):
        case "edit":
            options = [word for it in EDITS if chance.random() < 0.1 for word in it]
            return [
                "edit", *options, pick(files), pick(["out", "out", "-"]), *chance.sample(RANGES, pick([0, 0, 1, 2]))
            ]
        case "merge":
            options = [*pick([[], ["-a"]]), *pick([[], ["-F", "pcap"], ["-F", "pcapng"]])]
            return ["merge", *options, "-w", pick(["out", "-"]), *chance.choices(files, k=chance.randint(1, 4))]
        case "infos":
            return ["infos", *chance.choices(files, k=chance.randint(1, 3))]
        case "print":
            options = [
                *pick([[], ["-e"], ["-x"], ["-c", "2"]]),
                *pick([[], [], ["-w", "out"], ["-w", "out", "--format", "pcap"]]),
            ]
            expression = pick(EXPRESSIONS)
            return ["print", *options, pick(files), *pick([[expression], expression.split()])]
    return ["compile", *pick([[], ["--link", "raw"], ["--link", "ether"], ["--link", "7"]]), pick(EXPRESSIONS)]


def result(command, words, base, folder):
    """Returns the result of a program on a command line: status, output, messages and files."""
    shutil.copytree(base, folder)
    how = {
        "cwd": folder, "stdin": subprocess.DEVNULL, "stdout": subprocess.PIPE, "stderr": subprocess.PIPE, "timeout": 120
    }
    ran = subprocess.run([*command, *words], env={"TZ": "UTC", "PATH": os.defpath}, check=False, **how)
    files = {it.name: it.read_bytes() for it in folder.iterdir()}
    shutil.rmtree(folder)
    return ran.returncode, ran.stdout, ran.stderr, files


def main(one, other, count=800, seed=7):
    chance, commands = random.Random(int(seed)), [shlex.split(one), shlex.split(other)]
    with tempfile.TemporaryDirectory() as scratch:
        at = pathlib.Path(scratch)
        names = [it.name for it in sorted(SAMPLES.glob("*.pcap*"))]
        (at / "base").mkdir()
        for name in names:
            shutil.copy(SAMPLES / name, at / "base")
        for number in range(40):
            (at / f"base/bad{number}").write_bytes(damaged(chance, (at / "base" / chance.choice(names)).read_bytes()))
            names.append(f"bad{number}")
        lines = [random_line(chance, [*names, "nowhere", "."]) for _ in range(int(count))] + LINES

        def differs(number):
            results = [
                result(it, lines[number], at / "base", at / f"{number}-{side}") for side, it in enumerate(commands)
            ]
            if results[0] != results[1]:
                print("DIFFERS", shlex.join(lines[number]))
            return results[0] != results[1]

        with concurrent.futures.ThreadPoolExecutor(len(os.sched_getaffinity(0))) as pool:
            differ = sum(pool.map(differs, range(len(lines))))
    print(f"{len(lines)} command lines, {differ} differ")
    return differ > 0


if __name__ == "__main__":
    sys.exit(main(*sys.argv[1:]) if len(sys.argv) > 2 else __doc__)
