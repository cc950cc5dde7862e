#!/usr/bin/env python3
"""Tests draw.py on listings, above all on bad ones: each must give a message.

usage: python3 -m unittest test_tools.py            (in this folder)
"""
import pathlib
import subprocess
import sys
import tempfile
import unittest

import library
import pictures

HERE = pathlib.Path(__file__).resolve().parent


class Listings(unittest.TestCase):
    """The tool is run in an empty folder, and what it writes is looked at."""

    def setUp(self):
        folder = tempfile.TemporaryDirectory()
        self.addCleanup(folder.cleanup)
        self.folder = pathlib.Path(folder.name)

    def run_tool(self, *arguments, given=b"", **more):
        return subprocess.run(
            [sys.executable, HERE / "draw.py", *arguments], input=given, capture_output=True,
            cwd=self.folder, check=False, timeout=60, **more,
        )  # fmt: skip

    def refused(self, *arguments, given=b"", told, status=2):
        """Checks a refused call: a message on standard error, no traceback, nothing written, a status."""
        done = self.run_tool(*arguments, given=given)
        said = done.stderr.decode()
        self.assertIn(told, said)
        self.assertNotIn("Traceback", said)
        self.assertEqual((done.returncode, done.stdout), (status, b""), said)
        return said

    # Texts that aren't listings, or not of valid programs.
    BAD = [
        (b"", "it is empty"),
        (b"\n\n", "it is empty"),
        (b"two\n", "line 1: 'two' is no number"),
        (b"1 2\n", "line 1: 2 numbers, not one"),
        (b"2\n6 0 0 0\n", "line 1 counts 2 instructions, and 1 lines follow"),
        (b"1\n6 0 0\n", "line 2: 3 numbers, not four"),
        (b"1\n6 0 256 0\n", "line 2: jf is 256, and at most 255"),
        (b"1\n6 0 0 4294967296\n", "line 2: k is 4294967296"),
        (b"1\n-6 0 0 0\n", "line 2: '-6' is no number"),
        (b"0\n", "empty; the program isn't valid"),
        (b"1\n48 0 0 0\n", "no return at the end"),
        (b"2\n5 0 0 7\n6 0 0 0\n", "line 2: instruction 0: jump out"),
        (b"2\n0 0 0 1\n200 0 0 0\n", "line 3: instruction 1: unknown code"),
        (b"2\n52 0 0 0\n6 0 0 0\n", "line 2: instruction 0: division by zero"),
        (b"(000) ldh [12]\n", "a listing is what `capkit compile` or `tcpdump -ddd` prints"),
        (b"\x7fELF\x00\xff", "is no ASCII"),
        (b"1\n" + b"6 0 0 0\n" * 200_000, "longer than 1048576 bytes"),
    ]

    def test_bad(self):
        for text, told in self.BAD:
            with self.subTest(told=told):
                self.refused(given=text, told=told)

    def test_ends(self):
        """Tests a reader that goes away, a full device and closed descriptors."""
        given = library.capkit.Filter(" or ".join(f"port {it}" for it in range(1, 900, 2)), 1).listing.encode()
        (self.folder / "listing").write_bytes(given)
        for option in ("", "--dot "):
            words = f"{sys.executable} {HERE}/draw.py {option}listing"
            for end, told in (("| head -c 1", ""), ("> /dev/full", "No space"), (">&-", "Bad file"), ("2>&- >&-", "")):
                done = subprocess.run(
                    ["bash", "-o", "pipefail", "-c", f"{words} {end}"], capture_output=True,
                    cwd=self.folder, check=False, timeout=60,
                )  # fmt: skip
                self.assertEqual(done.returncode, 1)
                self.assertIn(told, done.stderr.decode())
                self.assertNotIn(b"Traceback", done.stderr)
        done = subprocess.run(["sh", "-c", f"{sys.executable} {HERE}/draw.py <&-"], capture_output=True)
        self.assertEqual((done.returncode, done.stdout), (2, b""))
        self.assertIn(b"Bad file descriptor", done.stderr)

    def test_missing(self):
        self.refused("none", told="draw.py: none: No such file or directory")
        self.refused(".", told="Is a directory")

    def test_without_graphviz(self):
        """Tests that no other program is called."""
        listing = library.capkit.Filter("tcp port 80", 1).listing.encode()
        done = self.run_tool(given=listing, env={**library.os.environ, "PATH": ""})
        self.assertEqual((done.returncode, done.stderr), (0, b""))

    def test_every_code(self):
        """Tests that each valid instruction has a place in the picture."""
        for code in range(0, 256):
            try:
                made = library.capkit.Filter.from_instructions([(code, 0, 0, 1), (6, 0, 0, 0)])
            except library.capkit.ProgramError:
                continue
            self.assertEqual(pictures.flow_picture(library.Program(made), "x").count("<rect"), 2)

    def test_ways(self):
        """Tests that each way of a test is a line to its instruction: here yes leads to the next
        one, and no to the one after it.
        """
        made = library.capkit.Filter.from_instructions([(40, 0, 0, 12), (21, 0, 1, 2048), (6, 0, 0, 1), (6, 0, 0, 0)])
        picture = pictures.flow_picture(library.Program(made), "x")
        self.assertEqual([picture.count(f'class="{kind}"') for kind in ("yes", "no", "next")], [1, 2, 1])
        self.assertEqual([picture.count(kind) for kind in ("insn keeps", "insn drops")], [1, 1])


if __name__ == "__main__":
    unittest.main()
