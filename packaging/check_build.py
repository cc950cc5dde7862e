#!/usr/bin/env python3
"""Tests ./capkit and build.py on small crates, with a stub instead of the kit.

usage: check_build.py

It tests the order of proofs, changes, interrupts and failures. For whoever changes the launcher.
The last line counts the failures; the status is 1 if there is any.
"""
import os
import pathlib
import shutil
import signal
import subprocess
import sys
import tempfile
import time

ROOT = pathlib.Path(__file__).resolve().parent.parent
CRATES = "low_a: byteorder|low_b:|middle: low_a|capkit_main: middle low_b clap|only_c: low_a|capkit_c staticlib: only_c"
# rattle notes when it begins and ends, and wants the library of each crate below; as rattle-link
# does, it makes what -o names.
KIT = """#!/bin/sh
name=$3; [ "$1" != build ] || { echo "begin $name" >>"$NOTES"; sleep "${SLEEP-0.3}"; }
for word; do case $word in *=*/out/rlib/*.rlib) [ -d "${word#*=}" ] || exit 9 ;; esac; done
[ "$name" != "${FAILS-}" ] || { echo 'not proved: f'; exit 1; }
word=; for made; do [ "$word" != -o ] || break; word=$made; done
case $made in *.rlib) mkdir -p "$made" ;; *) printf '#!/bin/sh\\necho "runs $*"\\n' >"$made"; chmod +x "$made" ;; esac
[ "$name" = --toolchain ] || echo "end $name" >>"$NOTES"
"""


def begin(*command, user=None, **words):
    """Starts a command, by default the program, with these variables of the environment."""
    how = {"env": {**os.environ, "PATH": f"{at}/bin:{os.environ['PATH']}", "NOTES": str(notes), **words}, "text": True}
    how.update(stdout=subprocess.PIPE, stderr=subprocess.PIPE, user=user)
    return subprocess.Popen(command or [top / "capkit", "infos"], **how)


def end(process):
    """Waits for a process, and returns its status and output, its messages, and what was noted until then."""
    out, messages = process.communicate(timeout=60)
    noted = notes.read_text().splitlines() if notes.exists() else []
    notes.unlink(missing_ok=True)
    return (process.returncode, out), messages, noted


def changed(name, **words):
    """Changes a crate and calls the program; returns the call once something is being proved."""
    (top / "crates" / name / "src/lib.rt").write_text(f"// {time.monotonic()}\n")
    process = begin(**words)
    while process.poll() is None and not notes.exists():
        time.sleep(0.05)
    return process


def logs():
    """Returns the logs of failed proofs."""
    return [*top.glob("out/build-*.log")]


def tries():
    """Yields what is tested, each with whether it is true."""
    runs = (0, "runs infos\n")
    done, messages, noted = end(begin())
    yield "the program runs, of each crate that it needs", done == runs and len(noted) == 8
    yield "none begins before those that it needs", noted.index("end low_a") < noted.index("begin middle")
    yield "crates are proved side by side", noted[1].startswith("begin")
    yield "it says how far it is, and leaves no log", "4 of 4 crates" in messages and not logs()
    yield "it is built once", end(begin()) == (runs, "", [])
    library = sys.executable, top / "packaging/build.py", "capkit_c", top / "library/out/it.a"
    done, _, noted = end(begin(*library))
    yield (
        "the library is built, of its own crates", done == (0, "") and noted[::2] == ["begin only_c", "begin capkit_c"]
    )
    yield "it is built once too, and the program stays", end(begin(*library))[2] + end(begin())[2] == []
    module = *library[:3], top / "out/it.wasm", "wasm64-unknown-unknown"
    done, _, noted = end(begin(*module))
    yield (
        "a module is built of the same crates",
        done == (0, "") and noted[::2] == ["begin capkit_c"] and module[3].exists(),
    )
    copy = top / "out/wasm64-unknown-unknown/capkit_c/src"
    yield (
        "without the calls of malloc",
        [(it.name, it.read_text()) for it in copy.iterdir()] == [("lib.rt", "mod other;\n")],
    )
    first = changed("low_b", SLEEP="2")
    is_free = [
        not subprocess.run(["flock", "-n", top / "crates" / it, "true"]).returncode for it in ("low_b", "only_c")
    ]
    yield "runs of rt wait for what is proved, and for nothing else", is_free == [False, True]
    done, messages, noted = end(begin())
    yield "a second call waits, says so and runs", done == runs and "this one waits" in messages
    yield "what changed is proved once", noted[::2] == ["begin low_b", "begin capkit_main"]
    yield "one program is kept", end(first)[0] == runs and len([*top.glob("out/built-*")]) == 1
    build = changed("low_b", SLEEP="30")
    os.kill(int(pathlib.Path(f"/proc/{build.pid}/task/{build.pid}/children").read_text().split()[0]), signal.SIGTERM)
    done, messages, _ = end(build)
    yield "an interrupted build ends and says so", done == (130, "") and "interrupted" in messages
    done, messages, noted = end(changed("low_a", FAILS="middle"))
    yield "a crate that isn't proved is named with its output", "not proved: f\ncapkit: middle wasn't" in messages
    yield "and ends the build", done == (1, "") and "begin capkit_main" not in noted
    yield "then it is built", end(begin())[0] == runs and not logs()
    top.chmod(0o555), (top / "out").chmod(0o555)
    done, messages, _ = end(changed("low_b", user=65534 if os.geteuid() == 0 else None))  # root may write anywhere
    yield "a folder that can't be written to is named", done == (1, "") and "can't be written to" in messages
    top.chmod(0o755)


with tempfile.TemporaryDirectory() as scratch:
    at, top, notes = pathlib.Path(scratch), pathlib.Path(scratch, "checkout"), pathlib.Path(scratch, "notes")
    for crate in CRATES.split("|"):
        (top / "crates" / crate.split(":")[0].split()[0] / "src").mkdir(parents=True)
    (top / "crates/capkit_main/src/main.rt").touch()
    for name, text in (("lib", "mod allocating;\nmod other;\n"), ("allocating", "")):
        (top / "crates/capkit_c/src" / f"{name}.rt").write_text(text)
    for path in ("capkit", "HANDLES", "packaging/build.py"):
        (top / path).parent.mkdir(exist_ok=True)
        shutil.copy(ROOT / path, top / path)
    (top / "crates.txt").write_text(CRATES.replace("|", "\n"))
    (at / "bin").mkdir()
    for name in ("rt", "rattle", "rattle-link"):
        (at / "bin" / name).write_text(KIT)
        (at / "bin" / name).chmod(0o755)
    at.chmod(0o755)
    passed = failed = 0
    for what, is_true in tries():
        passed, failed = passed + is_true, failed + (not is_true)
        if not is_true:
            print(f"not so: {what}")
print(f"{passed} passed, {failed} failed")
sys.exit(failed > 0)
