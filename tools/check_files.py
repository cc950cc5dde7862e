#!/usr/bin/env python3
"""Runs capkit in a shell over real files, devices, pipes and terminals, and compares the files
afterwards with what they must be. For whoever changes how files are opened, written or removed:
contracts can't see that.

usage: check_files.py [--capkit PROGRAM]

Each case runs in its own folder with a copy of samples/. It has a shell line, its status, its
standard error, and files with their contents: bytes, the name of a sample (unchanged), or None (no
such file). A case on a terminal has a line over an input that takes three seconds, the terminal's
name, and whether progress must be shown. Each mistake is tried with each kind of output, which must
be unchanged.
"""
import argparse
import fcntl
import os
import pathlib
import pty
import resource
import shlex
import subprocess
import sys
import tempfile
import termios

from built import ROOT, built_program, folder_with

SAMPLES = ROOT / "samples"

# A writer that gives a capture's packets and waits, and a reader that waits a second for a line.
WAITING = "(cat day.pcap; sleep 3)"
FIRST = "(read -t 1 -r line && echo 1)"
TWICE = "capkit: usage: name used twice\n"
CLOSED = ["", "<&-", ">&-", "2>&-", "<&- >&-", "<&- 2>&-", ">&- 2>&-", "<&- >&- 2>&-"]


def hasty(script, sample, size):
    """A line whose script reads a pipe without waiting. So far the pipe has the first bytes of a sample."""
    return (f"mkfifo ends; {{ head -c {size} {sample}; cat ends; }} | {{ "
            f"python3 -c 'import os; os.set_blocking(0, False)'; python3 {shlex.quote(str(ROOT))}/examples/{script}; "
            "s=$?; : > ends; exit $s; }")


CASES = [
    # What hasn't come yet isn't the end of an input.
    (hasty("salvage.py - out", "day.pcap", 1215), 1, "salvage.py: -: Resource temporarily unavailable\n", {"out": None}),
    *((hasty("lost.py -", "comments.pcapng", size), 2, "lost.py: -: offset 48: no more bytes have come yet\n", {})
      for size in (48, 50, 70)),
    # What an output held before stays until something is written, and goes then.
    ("printf keep > out; capkit print -w out day.pcap 'prot 80'", 2,
     "capkit: expression: unknown word at 1\n", {"out": b"keep"}),
    ("capkit print -w out day.pcap 'prot 80'", 2, "capkit: expression: unknown word at 1\n", {"out": None}),
    ("printf keep > out; echo text > code; capkit print -w out --code code day.pcap", 2,
     "capkit: code: not a listing at line 1\n", {"out": b"keep"}),
    ("printf keep > out; capkit edit nowhere out", 1, "capkit: nowhere: cannot open\n", {"out": b"keep"}),
    ("capkit edit nowhere out", 1, "capkit: nowhere: cannot open\n", {"out": None}),
    ("printf keep > out; echo text > in; capkit edit in out", 1,
     "capkit: in: offset 0: not a capture file\n", {"out": b"keep"}),
    ("printf keep > out; capkit edit -F pcap damaged.pcap whole 2> message; capkit edit -F pcap damaged.pcap out; "
     "s=$?; "
     "cmp whole out && exit $s", 1, "capkit: damaged.pcap: offset 2631: too long\n", {}),
    ("printf keep > out; capkit print -w out --format pcap -c 1 day.pcap 'len = 1'; wc -c < out > size",
     0, "", {"size": b"24\n"}),
    # What others do meanwhile with the file that a run created isn't undone.
    *[(f"mkfifo in; {{ until test -e out; do sleep 0.01; done; {others}; echo text; }} > in & capkit edit in out; "
       "s=$?; wait; "
       "exit $s", 1, "capkit: in: offset 0: not a capture file\n", files)
      for others, files in [("rm out; : > out", {"out": b""}), ("rm out", {"out": None}),
                            ("printf more > out", {"out": b"more"}),
                            ("mv out moved; ln -s moved out", {"moved": None}),
                            ("mv out moved; mkfifo out", {"moved": b""})]],
    ("cat day.pcap day.pcap > out; capkit edit -F pcap day.pcap out", 0, "", {"out": "day.pcap"}),
    ("printf keep > kept; ln -s kept out; capkit edit -F pcap day.pcap out", 0, "", {"kept": "day.pcap"}),
    ("mkfifo pipe; cat pipe > out & capkit edit -F pcap day.pcap pipe; s=$?; wait; exit $s",
     0, "", {"out": "day.pcap"}),
    ("capkit print -w /dev/null day.pcap", 0, "", {}),
    ("capkit print -w /dev/full day.pcap", 1, "capkit: /dev/full: write failed\n", {}),
    ("capkit print -w . day.pcap", 1, "capkit: .: cannot create\n", {}),
    # A file that is read can't be the output, under any name.
    ("capkit edit -F pcap day.pcap - >> day.pcap", 2, TWICE, {"day.pcap": "day.pcap"}),
    ("ln day.pcap hard.pcap; capkit edit day.pcap - >> hard.pcap", 2, TWICE, {"day.pcap": "day.pcap"}),
    ("ln -s day.pcap soft.pcap; capkit edit soft.pcap day.pcap", 2, TWICE, {"day.pcap": "day.pcap"}),
    ("capkit print - < day.pcap >> day.pcap", 2, TWICE, {"day.pcap": "day.pcap"}),
    ("capkit edit - day.pcap < day.pcap", 2, TWICE, {"day.pcap": "day.pcap"}),
    ("capkit infos mirror.pcap day.pcap >> day.pcap", 2, TWICE, {"day.pcap": "day.pcap"}),
    ("capkit merge -w - mirror.pcap day.pcap >> day.pcap", 2, TWICE, {"day.pcap": "day.pcap"}),
    ("capkit print day.pcap 1<> day.pcap", 2, TWICE, {"day.pcap": "day.pcap"}),
    ("capkit compile tcp > code; cp code before; capkit print --code code day.pcap >> code; s=$?; "
     "cmp code before && exit $s",
     2, TWICE, {}),
    ("capkit edit -F pcap day.pcap - > out", 0, "", {"out": "day.pcap", "day.pcap": "day.pcap"}),
    ("capkit edit -F pcap - - < day.pcap | cat > out", 0, "", {"out": "day.pcap"}),
    ("capkit print - < /dev/null > /dev/null", 1, "capkit: -: offset 0: not a capture file\n", {}),
    # What is known of a pipe is written to a pipe before more is waited for: lines, packets, and
    # reports of files before.
    (f"{WAITING} | capkit print - | {FIRST} > out", 0, "", {"out": b"1\n"}),
    (f"{WAITING} | capkit edit -F pcap - - | capkit print - | {FIRST} > out", 0, "", {"out": b"1\n"}),
    (f"mkfifo in; {WAITING} > in & capkit merge -F pcap -w - in | capkit print - | {FIRST} > out",
     0, "", {"out": b"1\n"}),
    (f"{WAITING} | capkit infos day.pcap - | {FIRST} > out", 0, "", {"out": b"1\n"}),
    ("(cat day.pcap; sleep 1; tail -c +25 day.pcap; sleep 1; tail -c +25 day.pcap) "
     "| capkit print - | head -n 1 | wc -l > out",
     0, "", {"out": b"1\n"}),
    # If a run is stopped while it waits, the output has all decided packets, complete, even in a file.
    *[(f"{WAITING} | timeout -s {signal} 1 capkit edit -F pcap - out", 124, "", {"out": "day.pcap"})
      for signal in ("INT", "TERM", "HUP")],
    # The shell reports what was killed.
    (f"exec 2> /dev/null; {WAITING} | timeout -s KILL 1 capkit edit -F pcap - out", 137, "", {"out": "day.pcap"}),
    ("head -c 3000 day.pcap > part; capkit edit -F pcap part whole 2> /dev/null; (cat part; sleep 3) "
     "| timeout -s TERM 1 capkit edit -F pcap - out; s=$?; cmp out whole && exit $s", 124, "", {}),
    (f"capkit print day.pcap > lines; {WAITING} | timeout 1 capkit print - > out; s=$?; cmp out lines && exit $s",
     124, "", {}),
    # What was asked for and can't be written is a fault.
    ("capkit --help > /dev/full", 1, "capkit: -: write failed\n", {}),
    ("capkit --version > /dev/full", 1, "capkit: -: write failed\n", {}),
    ("capkit edit --help > /dev/full", 1, "capkit: -: write failed\n", {}),
    ("capkit help > shown; capkit --help | cmp - shown", 0, "", {}),
    ("capkit help edit > shown; capkit edit --help | cmp - shown", 0, "", {}),
    # A name is shown without its control characters, and reported with them.
    ("capkit infos $'a\\nb\\e[31m'", 1, "capkit: a\\x0ab\\x1b[31m: cannot open\n", {}),
    ("echo text > $'a\\nb'; capkit infos $'a\\nb'", 1, "capkit: a\\x0ab: offset 0: not a capture file\n", {}),
    ("cp day.pcap $'a\\eb'; capkit infos $'a\\eb' | head -n 1 > out", 0, "", {"out": b"File: a\x1bb\n"}),
    ("capkit print $'-\\e' 2> out; s=$?; grep -q $'\\e' out || exit $s", 2, "", {}),
    ("capkit infos $'a\\u202eb'", 1, "capkit: a\\u{202e}b: cannot open\n", {}),
    # Standard streams that are closed, each combination: no file gets the number of one, so that no message goes into a
    # capture, and a refused expression keeps what the output held.
    *[(f"capkit edit -F pcap damaged.pcap whole 2> message; printf keep > kept; "
       f"capkit edit -F pcap damaged.pcap out {closed}; s=$?; "
       f"capkit print -w kept day.pcap 'prot 80' {closed}; cmp out whole; test $? = 0 && exit $s", 1,
       "" if "2>&-" in closed else (
           "capkit: damaged.pcap: offset 2631: too long\n"
           "capkit: expression: unknown word at 1\n"
       ),
       {"kept": b"keep"})
      for closed in CLOSED],
    # A stream that is closed stays so: what is written to it fails, and what is read of it too.
    ("capkit infos day.pcap >&-", 1, "capkit: -: write failed\n", {}),
    ("capkit infos - <&-", 1, "capkit: -: offset 0: read failed\n", {}),
]

NOT_A_CAPTURE = (1, "capkit: wrong: offset 0: not a capture file\n")
TRUNCATED = (1, "capkit: wrong: offset 24: truncated\n")
INPUT = ["edit wrong OUT", "merge -w OUT wrong day.pcap", "merge -w OUT day.pcap wrong",
         "merge -a -w OUT wrong day.pcap",
         "print -w OUT wrong", "print --code listing -w OUT wrong", "print -c 1 -w OUT wrong tcp port 80"]

# What makes the mistake, the status and the message, and the commands that make it.
MISTAKES = [
    ("echo text > wrong", *NOT_A_CAPTURE, INPUT),
    (": > wrong", *NOT_A_CAPTURE, INPUT),
    ("gzip -c day.pcap > wrong", *NOT_A_CAPTURE, INPUT),
    ("mkdir wrong", 1, "capkit: wrong: offset 0: read failed\n", INPUT),
    ("head -c 30 day.pcap > wrong", *TRUNCATED, INPUT),
    ("ln -s nowhere wrong", 1, "capkit: wrong: cannot open\n", INPUT),
    ("echo text > wrong", 2, "capkit: code: not a listing at line 1\n", ["print --code wrong -w OUT day.pcap"]),
    ("ln -s nowhere wrong", 1, "capkit: wrong: cannot open\n", ["print --code wrong -w OUT day.pcap"]),
    ("exec 0< /dev/null", 1, "capkit: -: offset 0: not a capture file\n",
     ["edit - OUT", "merge -w OUT -", "print -w OUT -"]),
    ("exec 0<&-", 1, "capkit: -: offset 0: read failed\n", ["edit - OUT", "merge -w OUT -", "print -w OUT -"]),
    ("(head -c 20 day.pcap; printf '\\24\\1\\0\\0'; tail -c +25 day.pcap) > wrong", 1,
     "capkit: wrong: offset 24: link type not filtered\n", ["print -w OUT wrong tcp"]),
    ("true", 1, "capkit: day.pcap: offset 24: time out of range\n", ["edit -F pcap --later 4294967295 day.pcap OUT"]),
    ("true", 1, "capkit: damaged.pcap: offset 2631: too long\n",
     ["edit -A 4000000000 damaged.pcap OUT", "print -w OUT damaged.pcap tcp port 9",
      "print -w OUT damaged.pcap len = 1"]),
    ("true", 2, "capkit: expression: unknown word at 1\n", ["print -w OUT day.pcap prot 80"]),
    ("true", 2, "capkit: usage: bad range\n", ["edit day.pcap OUT 1-x"]),
]

# The name of an output, what makes it, what shows that it is as it was, and whether it may be refused.
OUTPUTS = [
    ("out", "true", "! test -e out", False),
    ("./-", "true", "! test -e ./-", False),
    ("out", "printf keep > out", "grep -qx keep out", False),
    ("out", ": > out", "test -f out && ! test -s out", False),
    ("out", "printf keep > out; chmod 400 out", "grep -qx keep out", True),
    ("folder/out", "mkdir folder; chmod 500 folder", "! test -e folder/out", True),
    ("out", "printf keep > kept; ln -s kept out", "test -L out && grep -qx keep kept", False),
    ("out", "mkdir folder; ln -s folder/link out; ln -s ../kept folder/link",
     "test -L out && test -L folder/link && ! test -e kept", False),
    ("out", "printf keep > kept; ln kept out", "test kept -ef out && grep -qx keep out", False),
    ("out", "mkfifo out; exec 3<> out", "test -p out && ! read -t 0 -u 3", False),
    ("/dev/null", "true", "test -c /dev/null", False),
    ("/dev/stdout", "printf keep > kept; exec 1<> kept", "grep -qx keep kept", False),
    ("-", "printf keep > kept; exec 1<> kept", "grep -qx keep kept", False),
    ("/dev/stdout", "exec > kept; rm kept", "! test -e kept", False),
    ("-", "exec > kept", "! test -s kept", False),
]


def differences_after_mistake(program, make, status, message, command, output):
    """Yields the differences after a command that makes a mistake was run with an output."""
    name, make_output, as_it_was, may_be_refused = output
    command = command.replace("OUT", name)
    line = f"capkit compile tcp > listing; {make_output}; {make}; capkit {command}; s=$?; {as_it_was} || exit 99; exit $s"
    found = list(differences(program, line, status, message, {}))
    if found and may_be_refused:
        found = list(differences(program, line, 1, f"capkit: {name}: cannot create\n", {}))
    yield from [f"{line}: {difference}" for difference in found]


def differences_without_memory(program):
    """Yields the differences if memory runs out at any place of a run."""
    with tempfile.TemporaryDirectory() as folder:
        out = pathlib.Path(folder) / "out"
        ends = {}
        for limit in range(2_000_000, 8_000_000, 4096):
            run = subprocess.run([program, "edit", SAMPLES / "day.pcap", out], capture_output=True,
                                 preexec_fn=lambda: resource.setrlimit(resource.RLIMIT_AS, (limit, limit)))
            if run.returncode == 0:
                break
            if run.stderr == b"capkit: no memory\n":
                ends[limit] = out.exists()
        yield from [f"no memory with a limit of {limit}: a file is left" for limit, is_left in ends.items() if is_left]
        if len(ends) < 20:
            yield f"memory ran out with {len(ends)} limits"


SLOW = "(cat day.pcap; sleep 3; tail -c +25 day.pcap) |"
PROGRESS = b"\r\x1b[K0 MiB read, 0 MiB/s\r\x1b[K"

TERMINAL_CASES = [
    (f"{SLOW} capkit edit - out", "xterm", True),
    (f"{SLOW} capkit print -w out - tcp", "xterm", True),
    (f"{SLOW} capkit edit - out", "dumb", False),
    (f"{SLOW} capkit edit - - > out", "xterm", False),
    (f"{SLOW} capkit print - | wc -l > out", "xterm", False),
    (f"{SLOW} capkit edit - /dev/null", "xterm", False),
    (f"set -m; {SLOW} capkit edit - out & set +m; wait", "xterm", False),
]


def differences_on_terminal(program, line, name, is_shown):
    """Yields the differences on a terminal of that name, which is standard error and the controlling terminal."""
    with tempfile.TemporaryDirectory() as folder:
        here = pathlib.Path(folder)
        variables = folder_with(here, program)
        ours, theirs = pty.openpty()
        run = subprocess.run(["bash", "-c", line], cwd=here, env={**variables, "TERM": name}, stderr=theirs,
                             stdout=subprocess.DEVNULL, stdin=subprocess.DEVNULL, timeout=60, start_new_session=True,
                             preexec_fn=lambda: fcntl.ioctl(theirs, termios.TIOCSCTTY, 0))
        os.set_blocking(ours, False)
        try:
            shown = os.read(ours, 65536)
        except BlockingIOError:
            shown = b""
        os.close(ours)
        os.close(theirs)
        if run.returncode != 0:
            yield f"status {run.returncode}, not 0"
        if shown != (PROGRESS if is_shown else b""):
            yield f"{shown!r} is shown on {name}"


def differences(program, line, status, message, files):
    """Yields the differences between the files that a line wrote and those that it should write."""
    with tempfile.TemporaryDirectory() as folder:
        here = pathlib.Path(folder)
        variables = folder_with(here, program)
        run = subprocess.run(["bash", "-c", line], cwd=here, env=variables, capture_output=True,
                             stdin=subprocess.DEVNULL,
                             timeout=60)
        if run.returncode != status:
            yield f"status {run.returncode}, not {status}"
        if run.stderr != message.encode():
            yield f"standard error {run.stderr!r}, not {message!r}"
        for name, wanted in files.items():
            path = here / name
            held = path.read_bytes() if path.exists() else None
            if isinstance(wanted, str):
                wanted = (SAMPLES / wanted).read_bytes()
            if held != wanted:
                yield f"{name} is not as it must be"


def main():
    parser = argparse.ArgumentParser(usage=__doc__.split("usage: ")[1].split("\n")[0])
    parser.add_argument("--capkit", type=pathlib.Path)
    options = parser.parse_args()
    program = (options.capkit or built_program()).resolve()
    found = [(case[0], text) for case in CASES for text in differences(program, *case)]
    found += [(case[0], text) for case in TERMINAL_CASES for text in differences_on_terminal(program, *case)]
    mistakes = [(make, status, message, command, output) for make, status, message, commands in MISTAKES
                for command in commands for output in OUTPUTS]
    found += [(mistake[3], text) for mistake in mistakes for text in differences_after_mistake(program, *mistake)]
    found += [("ulimit -v", text) for text in differences_without_memory(program)]
    for line, difference in found:
        print(f"{line}\n    {difference}")
    print(f"{len(CASES) + len(TERMINAL_CASES) + len(mistakes)} cases, {len(found)} differences")
    return 1 if found else 0


if __name__ == "__main__":
    sys.exit(main())
