#!/usr/bin/env python3
"""Runs the examples of pages and manual pages, and compares their output with what the pages show.

For whoever changes a page, a sample or what capkit prints.

usage: check_examples.py [--capkit PROGRAM] [--update] [PAGE..]

- An example is a fenced block whose first line begins with "$ ". A line that begins with "> "
  continues the command above it. Standard output and standard error are shown together.
- The examples of one section run one after another in one shell, in their own folder, after the
  line of docs/RECIPES.md that sets up a checkout. Its line for a package must make the same files.
- The examples of the manual pages (if jinja2 is installed), and indented lines of pages that call
  capkit, must succeed on copies of samples/day.pcap.
- The expressions of the cookbook in docs/FILTER.md must compile.
- any.sh must write the IP packets, and only these, of frames of each kind that `tcpdump -i any`
  has.

A section whose programs aren't all installed, or that needs the library (`make -C library`), is
left out with a message. --update writes what is printed into the pages: read the changes before you
commit them. The status is 1 if an example differs or fails.
"""
import argparse
import os
import pathlib
import re
import shutil
import struct
import subprocess
import sys
import tempfile

from built import ROOT, built_program

PAGES = ["README.md", "docs/RECIPES.md", "docs/SCALE.md", "docs/TEACHING.md", "docs/TESTERS.md"]
OTHER_PROGRAMS = ["git", "tcpdump", "editcap", "mergecap", "capinfos", "parallel", "dot", "python3", "xxd"]
MARK = "==== next example ===="
# The title of a section, or a block of examples; an example: the lines that are typed, and those that are printed.
PART = re.compile(r"^#+ .*|^```.*\n\$ (?:.*\n)*?```$", re.MULTILINE)
EXAMPLE = re.compile(r"^(\$ .*\n(?:> .*\n)*)((?:(?!\$ |```).*\n)*)", re.MULTILINE)
# The folders that the set-up copies, and the folder of a package that has them.
FOLDERS = ["samples", "bench", "examples", "teach"]
INSTALLED = "/usr/share/doc/capkit"
LIBRARY = ROOT / "library" / "out" / "libcapkit_batch.so"
# The displays of examples in a manual page, and the captures that they name.
MANUAL_EXAMPLE = re.compile(r"^\.Bd -literal -offset indent\n((?:.*\n)*?)\.Ed$", re.MULTILINE)
LINE_WITHOUT_OUTPUT = re.compile(r"^    ((?:set -o pipefail; )?capkit .*[^\\])$", re.MULTILINE)
CAPTURE = re.compile(r"\b[\w-]+\.pcap(?:ng|\d)?(?:\.gz)?\b")
# What is called by examples that need the library.
NEEDS_LIBRARY = re.compile(r"\.\./teach/|import capkit")


def sections_of(page):
    """Returns the examples of each section by its title."""
    sections, heading = {}, ""
    for part in PART.finditer(page):
        if part[0].startswith("#"):
            heading = part[0]
        else:
            sections.setdefault(heading, []).extend(EXAMPLE.finditer(page, *part.span()))
    return sections


def set_up(where):
    """Returns the line of RECIPES that sets up the files, in a checkout or with an installed package."""
    found = re.search(rf"^\| {where} \| `(.*)` \|$", (ROOT / "docs" / "RECIPES.md").read_text(), re.MULTILINE)
    return found[1]


def checkout(folder, capkit):
    """Makes of the folder a checkout, as far as the set-up needs it, and returns what a shell there is called with."""
    for name in FOLDERS:
        shutil.copytree(ROOT / name, folder / name, ignore=shutil.ignore_patterns("__pycache__"))
    for name in ("capkit", "try"):
        (folder / name).symlink_to(pathlib.Path(capkit).resolve())
    kept = {"PATH": os.environ["PATH"], "TZ": "UTC", "LC_ALL": "C", "HOME": str(folder)}
    package = {"PYTHONPATH": str(ROOT / "library" / "python" / "src"), "CAPKIT_LIBRARY": str(LIBRARY)}
    kept.update(package, PYTHONDONTWRITEBYTECODE="1")
    pipes = {"stdin": subprocess.DEVNULL, "stdout": subprocess.PIPE, "stderr": subprocess.STDOUT}
    return {"cwd": folder, "env": kept, **pipes}


def run(commands, capkit):
    """Returns what each command prints. They run in one shell and a new folder."""
    script = set_up("in a checkout") + "\n"
    for command in commands:
        # What is called by ./ is called at the top.
        typed = f"(cd ../../.. && {command})" if command.startswith("./") else command
        script += f"__status=$?; printf '{MARK}\\n'; (exit $__status)\n{typed}\n"
    with tempfile.TemporaryDirectory() as temporary:
        done = subprocess.run(["bash", "-c", script], **checkout(pathlib.Path(temporary), capkit))
    printed = done.stdout.decode(errors="replace").split(MARK + "\n")[1:]
    return [text.rstrip("\n") for text in printed]


def same_set_up(capkit):
    """Returns whether both set-up lines make the same files; that of a package reads its own folder
    instead of /usr/share.
    """
    shown = []
    for where in ("in a checkout", "installed as a package"):
        with tempfile.TemporaryDirectory() as temporary:
            how = checkout(pathlib.Path(temporary), capkit)
            line = set_up(where).replace(INSTALLED, temporary)
            script = f"mkdir new; cd new; {line}" if where.startswith("installed") else line
            done = subprocess.run(
                ["bash", "-c", f"{script}\n test ${{PWD##*/}} = samples && cd .. && find . | sort"], **how
            )
            shown.append((done.returncode, done.stdout))
    return shown[0] == shown[1] and shown[0][0] == 0


IPV4 = bytes.fromhex("4500001c000040004011f4860a0000050a0000350009000900080000")
IPV6 = bytes.fromhex("6000000000083a40" + "20010db8000000000000000000000005" * 2 + "8000000000000000")
# The EtherTypes of Linux's cooked frames, and what follows: STP, ARP, LLDP, a VLAN tag, PPPoE,
# loopback, frames of 802.2.
FRAMES = [(0x0800, IPV4), (0x86DD, IPV6), (4, bytes.fromhex("424203000000000080010011223344550000000080010011")),
          (0x0806, bytes.fromhex("0001080006040001") + bytes(20)),
          (0x88CC, bytes.fromhex("0207040011223344550404050102")),
          (0x8100, bytes.fromhex("00070800") + IPV4), (0x8864, bytes.fromhex("11000001001e0021") + IPV4),
          (0x9000, IPV4), (0, b"")]


def only_ip(capkit):
    """Returns whether any.sh writes exactly the IP packets of a capture of `tcpdump -i any`, and
    nothing for another link type.
    """
    def capture(link, frames, chopped=0):
        records = (struct.pack("<IIII", 1, 0, len(it), len(it) + chopped) + it for it in frames)
        return struct.pack("<IHHIIII", 0xA1B2C3D4, 2, 4, 0, 0, 262144, link) + b"".join(records)

    frames = [struct.pack(">HHIHBB8x", kind, 0, 2, 1, 0, 6) + body for kind, body in FRAMES]
    with tempfile.TemporaryDirectory() as temporary:
        how = checkout(pathlib.Path(temporary), capkit)
        how.update(stderr=subprocess.DEVNULL, env={**how["env"], "PATH": f"{temporary}:{os.environ['PATH']}"})
        del how["stdin"]
        done = [
            subprocess.run(["bash", "examples/any.sh", "-"], input=capture(link, frames), **how) for link in (276, 1)
        ]
    shown = [(it.returncode, it.stdout) for it in done]
    return shown == [(0, capture(101, [IPV4, IPV6], 20)), (1, b"")]


def missing_program(commands):
    """Returns a program or the library that commands need and that isn't there, or None."""
    if NEEDS_LIBRARY.search("\n".join(commands)) and not LIBRARY.exists():
        return LIBRARY.name
    for program in OTHER_PROGRAMS:
        if re.search(rf"(^|[|;(]|\s){program}\s", "\n".join(commands)) and shutil.which(program) is None:
            return program
    return None


def check_section(name, heading, examples, capkit):
    """Runs the examples of a section, and yields those that print something else, each with what it prints."""
    commands = [re.sub("^[$>] ", "", example[1].rstrip("\n"), flags=re.MULTILINE) for example in examples]
    if missing := missing_program(commands):
        print(f"{name}: {heading}: left out, {missing} is not installed")
        return
    for example, command, printed in zip(examples, commands, run(commands, capkit), strict=True):
        shown = example[2].rstrip("\n")
        if printed != shown:
            print(f"{name}: {heading}: $ {command}\nshown:   {shown!r}\nprinted: {printed!r}")
            yield example, printed


def check_page(name, capkit, is_update):
    """Runs the examples of a page, and returns how many print something else; puts in what they print."""
    page = (ROOT / name).read_text()
    sections = sections_of(page)
    changes = [change for it in sections.items() for change in check_section(name, *it, capkit)]
    print(f"{name}: {sum(map(len, sections.values()))} examples, {len(changes)} print something else", flush=True)
    if is_update and changes:
        for example, printed in sorted(changes, key=lambda change: -change[0].start()):
            shown = example[2].rstrip("\n")
            blank = example[2][len(shown) + bool(shown) :]
            page = page[: example.start(2)] + printed + "\n" * bool(printed) + blank + page[example.end(2) :]
        (ROOT / name).write_text(page)
    return len(changes)


def commands_without_output():
    """Yields indented lines of pages that call capkit, and the examples of the manual pages if
    jinja2 can make them, each with its page.
    """
    for name in ["docs/RECIPES.md", "docs/RELIABILITY.md"]:
        for line in LINE_WITHOUT_OUTPUT.findall((ROOT / name).read_text()):
            yield name, line
    with tempfile.TemporaryDirectory() as temporary:
        made = subprocess.run(
            [sys.executable, ROOT / "packaging" / "pages.py", temporary], stderr=subprocess.PIPE, text=True
        )
        if made.returncode:
            print(f"manual pages: left out, packaging/pages.py fails: {made.stderr.strip().splitlines()[-1]}")
        for page in sorted(pathlib.Path(temporary).glob("*.[17]")):
            for display in MANUAL_EXAMPLE.findall(page.read_text().partition(".Sh EXAMPLES\n")[2]):
                yield page.name, display.replace(r"\(aq", "'").replace(r"\-", "-").replace(r"\e", "\\")


def check_successes(capkit):
    """Runs examples whose output isn't shown, over copies of day.pcap with the names that they use;
    returns how many fail.
    """
    count = failed = 0
    for name, example in commands_without_output():
        with tempfile.TemporaryDirectory() as temporary:
            how = checkout(pathlib.Path(temporary), capkit)
            names = " ".join(set(CAPTURE.findall(example)))
            script = (
                f"{set_up('in a checkout')}\n"
                f"for name in {names}; do test -e ${{name%.gz}} || cp day.pcap ${{name%.gz}}; done\n"
                "gzip -k day.pcap\n"
            )
            done = subprocess.run(["bash", "-e", "-c", script + example], **how)
        count, failed = count + 1, failed + bool(done.returncode)
        if done.returncode:
            print(f"{name}: {example}\nstatus {done.returncode}: {done.stdout.decode(errors='replace')}")
    print(f"manual pages and lines without output: {count} examples, {failed} fail")
    return failed


def check_cookbook(capkit):
    """Compiles the expressions of FILTER's cookbook; returns how many are refused."""
    page = (ROOT / "docs" / "FILTER.md").read_text()
    rows = re.findall(r"^\|.*?(?<!\\)\|(.*)\|$", page.partition("## Cookbook\n")[2].partition("\n## ")[0], re.MULTILINE)
    expressions = [
        it.replace(r"\|", "|")
        for row in rows
        for it in re.findall("`([^`]+)`", row)
        if not it.startswith(("tcpdump ", "print "))
    ]
    refused = [
        it for it in expressions if subprocess.run([capkit, "compile", it], stdout=subprocess.DEVNULL).returncode
    ]
    print(
        "\n".join([*refused, f"docs/FILTER.md: {len(expressions)} expressions of the cookbook, {len(refused)} refused"])
    )
    return len(refused)


def main():
    parser = argparse.ArgumentParser(description=__doc__.split("\n")[0])
    parser.add_argument("--capkit", default=None)
    parser.add_argument("--update", action="store_true")
    parser.add_argument("pages", nargs="*")
    arguments = parser.parse_args()
    capkit = arguments.capkit or built_program()
    names = arguments.pages or [page for page in PAGES if (ROOT / page).exists()]
    wrong = sum(check_page(name, capkit, arguments.update) for name in names)
    wrong += 0 if arguments.pages else check_successes(capkit) + check_cookbook(capkit)
    if not same_set_up(capkit):
        wrong += 1
        print("docs/RECIPES.md: the two lines of the set-up don't leave the same files")
    if not only_ip(capkit):
        wrong += 1
        print("examples/any.sh: it doesn't write the IP packets of a capture, and only these")
    sys.exit(1 if wrong else 0)


if __name__ == "__main__":
    main()
