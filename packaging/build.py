#!/usr/bin/env python3
"""Proves the crates that a program or a library for C needs, in parallel, and builds it.

The launcher, library/Makefile and make_page.sh call it.

usage: build.py CRATE PRODUCT [TARGET [TOOLCHAIN]]

TARGET is rattle's name for another processor than the kit's own: only the last crate is proved
again for it. For ARM64, TOOLCHAIN is what cross_arm64.sh makes. For a browser
(wasm64-unknown-unknown) it is the kit's, and the product is a module without C code, so without the
calls that use malloc.

The status is 0 if PRODUCT is built, 1 if a crate or the product failed (the last lines of its
output and the name of its log are printed), and 130 after an interrupt.

A crate is proved once those that it needs are; the crate with the longest chain of crates above it
has priority (`nice`). Each proof is one call of rattle, the prover of rt's kit, as `rt ci` makes
it. A library keeps only its statements, which halves the check of the program. A crate with work of
`rt check` (in out/incremental) continues from it. A library for C keeps such work there, so that it
is soon proved for another processor.
"""
import fcntl
import hashlib
import os
import pathlib
import re
import shlex
import shutil
import signal
import subprocess
import sys
import time

ROOT = pathlib.Path(__file__).resolve().parent.parent
OUT = ROOT / "out"
# The folder of the toolchain that `rt` belongs to.
KIT = pathlib.Path(shutil.which("rt") or "").resolve().parent.parent
RATTLE = KIT / "bin/rattle"
RLIBS = KIT / "rlibs"
# The target of the kit's own processor, and that of a browser.
OWN = "x86_64-unknown-linux-gnu"
WASM = "wasm64-unknown-unknown"
TARGET = sys.argv[3] if len(sys.argv) > 3 else OWN
TOOLCHAIN = pathlib.Path(sys.argv[4] if len(sys.argv) > 4 else KIT / "toolchain").absolute()
# The code in C that a program is linked with.
C_CODE = [KIT / "c/libos_c.a", KIT / "c/liblibc_c.a"] if TARGET == OWN else [TOOLCHAIN / "c/port.a"]
# The file of a library for C whose calls take their memory from malloc.
MALLOC = "allocating"
LOGIC = ["--antt-project", KIT / "rattle/logic/antt-project.json", "--logic-built", KIT / "logic_built"]
LINK = [KIT / "bin/rattle-link", "--target", TARGET, "--toolchain", TOOLCHAIN]
# The memory of a job, in bytes.
MEMORY = 2_000_000_000
# A byte of code costs as much to check as this many bytes of definitions and proofs.
CODE = 13
# A crate has at most one more job for this many bytes of definitions and proofs.
LARGE = 120_000
# The most jobs of a crate: each loads all crates below it.
MOST_JOBS = 3


def join(words):
    """Returns words as a command of the shell."""
    return shlex.join(map(str, words))


def say(text):
    """Prints a message to standard error."""
    print(f"capkit: {text}", file=sys.stderr, flush=True)


class Crate:
    """A crate of crates.txt: what it needs, and how it is proved and built.

    `needs` are the crates that it depends on, `below` these and those that they need, lowest first;
    `chain` is the size of the longest chain of crates above it.
    """

    def __init__(self, name, head, named, crates):
        self.name, self.home, self.log = name, ROOT / "crates" / name, OUT / f"build-{name}.log"
        self.needs = [crates[it] for it in named if it in crates]
        self.below = list(dict.fromkeys(it for need in self.needs for it in [*need.below, need]))
        self.of_kit = ["std", *(it for it in named if it not in crates)]
        self.is_static, self.is_program = " staticlib" in head, (self.home / "src/main.rt").exists()
        self.is_last = self.is_static or self.is_program
        self.is_module = name == sys.argv[1] and TARGET == WASM
        if self.is_module:
            self.home = self.without_malloc()
        if self.is_module:
            made = f"{name}.wasm"
        elif self.is_program:
            made = name
        elif self.is_static:
            made = f"lib{name}.a"
        else:
            made = f"rlib/{name}.rlib"
        self.made = self.home / "out" / (TARGET if self.is_last and TARGET != OWN else "") / made
        self.stamp, self.is_kept = self.made.parent / "built", any((self.home / "out/incremental").glob("*"))
        files = [it for part in ("src", "specs", "proofs") for it in (self.home / part).rglob("*") if it.is_file()]
        self.size = self.chain = sum(it.stat().st_size * (CODE if it.suffix == ".rt" else 1) for it in files)
        # Names within the checkout, so that a copied or moved one keeps what is proved.
        texts = [(str(it.relative_to(ROOT)), it.read_bytes()) for it in sorted(files)]
        made_of = [RATTLE, RATTLE.stat().st_mtime_ns, self.is_kept, named, [it.sum for it in self.needs], texts]
        self.sum, self.jobs = hashlib.sha256(repr(made_of).encode()).hexdigest(), 1

    def without_malloc(self):
        """Copies the crate and what is proved of it, except the file that calls malloc, and returns the copy."""
        copy = OUT / TARGET / self.name
        shutil.rmtree(copy, ignore_errors=True)
        for part in ("src", "specs", "proofs", "out/incremental"):
            if (self.home / part).exists():
                shutil.copytree(self.home / part, copy / part, ignore=shutil.ignore_patterns(f"{MALLOC}.rt"))
        root = copy / "src/lib.rt"
        root.write_text(root.read_text().replace(f"mod {MALLOC};\n", ""))
        return copy

    def command(self):
        """Returns the command that proves the crate and builds its product.

        It locks the crate's folder against other runs of rt.
        """
        words = ["nice", "-n", self.behind, *(word for it in self.below for word in ("flock", "-s", it.home))]
        words += ["flock", self.home, RATTLE, "build", "--crate-name", self.name]
        words += [
            "src/main.rt" if self.is_program else "src/lib.rt", *LOGIC, "--links", f"{self.name}=", "--jobs", self.jobs
        ]
        libraries = {it: RLIBS / f"{it}.rlib" for it in self.of_kit} | {it.name: it.made for it in self.needs}
        words += [word for name, at in libraries.items() for word in ("--extern", f"{name}={at}")]
        words += [word for it in (RLIBS, *(it.made.parent for it in self.below)) for word in ("-L", f"dependency={it}")]
        if self.is_kept or self.is_static:
            words += ["--incremental", "out/incremental"]
        elif not self.is_last:
            words += ["--statements"]
        words += ["--target", TARGET, "--toolchain", TOOLCHAIN] if self.is_last else []
        if self.is_program:
            parts = [f"{self.made}.o", *C_CODE]
            return f"{join([*words, '-o', parts[0]])} && {join([*LINK, '-o', self.made, *parts])}"
        if self.is_module:
            library = self.made.with_suffix(".a")
            words += ["--crate-type", "staticlib", "-o", library]
            return f"{join(words)} && {join([*LINK, '-o', self.made, library])}"
        return join([*words, *(["--crate-type", "staticlib"] if self.is_last else []), "-o", self.made])

    def begin(self, lock, longest):
        """Starts the proof of the crate, unless its library is up to date."""
        self.begun, self.process, self.behind = time.monotonic(), None, 8 - 8 * self.chain // longest
        self.stamp.parent.mkdir(parents=True, exist_ok=True)
        if not self.is_last and self.stamp.exists() and self.stamp.read_text() == self.sum:
            return
        # By a stamp of its own, rt would think that it had built the library itself.
        for stamp in (self.stamp, self.stamp.with_name("stamp")):
            stamp.unlink(missing_ok=True)
        # The process keeps the lock of the build: after a build that was killed, the next one waits for it too.
        how = {"cwd": self.home, "preexec_fn": os.setpgrp, "pass_fds": [lock.fileno()], "stdin": subprocess.DEVNULL}
        with self.log.open("w") as log:
            self.process = subprocess.Popen(self.command(), shell=True, stdout=log, stderr=log, **how)

    def has_ended(self):
        """Returns whether the proof has ended, and stamps the library; ends the build if the proof failed."""
        status = self.process.poll() if self.process else 0
        if status:
            print(*self.log.read_text(errors="replace").splitlines()[-20:], sep="\n", file=sys.stderr)
            sys.exit(f"capkit: {self.name} wasn't built; the whole output is in {self.log}")
        return status == 0 and self.stamp.write_text(self.sum)


def crates_below(top):
    """Returns the crates that one needs, and itself, last. In crates.txt each comes after those that it needs."""
    crates = {}
    for head, named in re.findall(r"^(\w[\w ]*):(.*)$", (ROOT / "crates.txt").read_text(), re.M):
        crates[head.split()[0]] = Crate(head.split()[0], head, named.split(), crates)
    found = [*crates[top].below, crates[top]]
    for crate in reversed(found):
        for need in crate.needs:
            need.chain = max(need.chain, need.size + crate.chain)
    return found


def jobs_for(crate, ready, waiting, running, room, beyond):
    """Returns the number of jobs for a crate; 0 if there is no room.

    They are enough that no other work waits for the longest chain, or as many as no other crate
    can use.
    """
    free = room + beyond - (taken := sum(it.jobs for it in running))
    # The work left for each processor: half of what runs, on average.
    share = (sum(it.size for it in waiting) + sum(it.size for it in running) / 2) / max(room - 1, 1)
    wanted = max(int(1.2 * crate.chain / max(share, 1)), room - len(ready) - taken)
    return max(min(wanted, free, MOST_JOBS, 1 + crate.size // LARGE), min(free, 1), not running)


def prove(crates, lock):
    """Proves all crates, as far as there is memory by one job more than there are processors.

    The longest chain may have a few more.
    """
    memory = 1024 * int(re.search(r"MemAvailable:\s+(\d+)", pathlib.Path("/proc/meminfo").read_text())[1]) // MEMORY
    room = min(len(os.sched_getaffinity(0)) + 1, memory)
    waiting, running, proved = sorted(crates, key=lambda it: -it.chain), [], []
    try:
        while waiting or running:
            longest = max(1, *(it.chain for it in [*waiting, *running]))
            for crate in (ready := [it for it in waiting if set(it.needs) <= set(proved)]):
                beyond = (crate.chain == longest) * min(MOST_JOBS, memory - room)
                crate.jobs = jobs_for(crate, ready, waiting, running, room, beyond)
                if crate.jobs:
                    crate.begin(lock, longest)
                    waiting.remove(crate)
                    running.append(crate)
            time.sleep(0.1)
            for crate in [it for it in running if it.has_ended()]:
                running.remove(crate)
                proved.append(crate)
                took = f"in {time.monotonic() - crate.begun:.0f} s" if crate.process else "earlier"
                say(f"proved {crate.name} {took}, {len(proved)} of {len(crates)} crates")
    finally:
        for crate in running:
            if crate.process and crate.process.poll() is None:
                os.killpg(crate.process.pid, signal.SIGTERM)
                crate.process.wait()


def build(top, made):
    """Proves and builds the program or the library, unless another build does so meanwhile."""
    if not os.access(OUT if OUT.exists() else ROOT, os.W_OK):
        sys.exit(
            f"capkit: it is not built yet, and {OUT} can't be written to: build it in a copy of this "
            "folder that is yours, or install a package (docs/INSTALL.md)"
        )
    OUT.mkdir(exist_ok=True)
    lock = (OUT / "build.lock").open("w")
    try:
        fcntl.flock(lock, fcntl.LOCK_EX | fcntl.LOCK_NB)
    except BlockingIOError:
        say("another capkit is proving and building the program; this one waits until it is done")
        fcntl.flock(lock, fcntl.LOCK_EX)
    if made.exists():
        return
    say(
        "proving and building: once, 30 to 70 minutes of processor time from nothing; ./try runs it "
        "unproved in two minutes"
    )
    prove(crates := crates_below(top), lock)
    made.parent.mkdir(parents=True, exist_ok=True)
    os.rename(shutil.copy2(crates[-1].made, f"{made}.new"), made)
    old = [it for it in OUT.glob("built-*") if it != made.parent and crates[-1].is_program and TARGET == OWN]
    subprocess.run(["rm", "-rf", *OUT.glob("build-*.log"), *old], check=True)


if len(sys.argv) < 3:
    sys.exit(__doc__)
for number in (signal.SIGTERM, signal.SIGHUP):
    signal.signal(number, signal.default_int_handler)
try:
    build(sys.argv[1], pathlib.Path(sys.argv[2]).absolute())
except OSError as error:
    sys.exit(f"capkit: {error}")
except KeyboardInterrupt:
    say("interrupted; what is proved is kept for the next build")
    sys.exit(130)
