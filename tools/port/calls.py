#!/usr/bin/env python3
"""Records calls of this machine's library with their results.

usage: calls.py LIBCAPKIT.SO OUT [SEED]

replay.c repeats them on another processor, and check_page.py in a browser.

Some expressions are refused or damaged, some programs are damaged, and captures are samples with
flipped bits, cuts and inserted bytes. Every buffer is recorded before and after the call, with its
padding. The record of a call: its name, whether its result has 64 bits, its number of arguments,
which of these are buffers (a bit each), the arguments (numbers, or length and bytes), the result,
and the buffers after it. Numbers have 64 bits.
"""
import ctypes
import itertools
import pathlib
import random
import struct
import subprocess
import sys

import compare

ROOT = pathlib.Path(__file__).resolve().parents[2]
LINKS = [1, 101, 113, 12, 7, 0]
# The sizes of the structs of capkit.h, in bytes.
INSN = 8
READER = 24
INTERFACE = 280
PACKET = 48
WRITER = 8
STEP = 76
# Statuses of capkit.h.
MORE_UNITS = 227
NO_PACKET = 223
ANOTHER_LINK_TYPE = 226


class Calls:
    """The library, and the file to which its calls are written."""

    def __init__(self, library, out):
        self.library, self.out, self.count = ctypes.CDLL(library), out, 0
        self.number(0)

    def number(self, value):
        """Writes a number."""
        self.out.write(struct.pack("<Q", value))

    def block(self, data):
        """Writes the length of some bytes, and the bytes."""
        self.number(len(data))
        self.out.write(data)

    def __call__(self, name, *given, wide=False):
        """Makes a call, with numbers by value and bytes in a buffer; returns the result and the buffers after it."""
        function = getattr(self.library, name)
        function.restype = ctypes.c_uint64 if wide else ctypes.c_uint32
        passed = [
            ctypes.c_uint64(it) if isinstance(it, int) else ctypes.create_string_buffer(bytes(it), max(len(it), 1))
            for it in given
        ]
        self.block(name.encode())
        for value in (wide, len(given), sum(not isinstance(it, int) and 1 << place for place, it in enumerate(given))):
            self.number(value)
        for argument in given:
            self.number(argument) if isinstance(argument, int) else self.block(bytes(argument))
        result = function(*passed)
        self.number(result)
        after = [buffer.raw[: len(it)] for buffer, it in zip(passed, given) if not isinstance(it, int)]
        for data in after:
            self.block(data)
        self.count += 1
        return result, after

    def end(self):
        """Writes the number of calls at the start of the file."""
        self.out.seek(0)
        self.number(self.count)


def expressions(chance, count):
    """Yields random expressions, one in five with a changed byte, and some that are refused for their size."""
    script = [sys.executable, ROOT / "library/tests/random_expressions.py", str(chance.randrange(1000))]
    with subprocess.Popen(script, stdout=subprocess.PIPE) as process:
        for line in itertools.islice(process.stdout, count):
            text = bytearray(line.rstrip(b"\n"))
            if text and chance.random() < 0.2:
                text[chance.randrange(len(text))] = chance.randrange(256)
            yield bytes(text)
        process.terminate()
    yield from (
        b"",
        b"tcp prot",
        "é".encode(),
        b"tcp port 80",
        b"ip[0:4] / ip[4] = 3",
        b"len << 3 > 100",
        b"9" * 30,
        b"(" * 200 + b"tcp" + b")" * 200,
    )


def call_compiler(calls, chance):
    """Calls on expressions. Returns the programs with their link types."""
    programs = []
    for text in expressions(chance, 500):
        for link in chance.sample(LINKS, 2):
            status, after = calls("capkit_compile", text, len(text), link, bytes(400 * INSN), 400, bytes(8))
            if status == 0:
                programs.append((link, after[1][: INSN * struct.unpack("<Q", after[2])[0]]))
        calls("capkit_bound", text, len(text), bytes(8))
        calls("capkit_explain", text, len(text), bytes(4000), 4000, bytes(8))
    return programs


def call_programs(calls, chance, programs):
    """Calls that take only programs."""
    for _, program in chance.sample(programs, min(200, len(programs))):
        count, other = len(program) // INSN, bytearray(program)
        if chance.random() < 0.5:
            other[chance.randrange(len(other))] ^= 1 << chance.randrange(8)
        calls("capkit_check", bytes(other), count, bytes(8))
        calls("capkit_portability", program, count)
        calls("capkit_is_portable", program, count)
        for place in range(0, count, 3):
            calls("capkit_insn_text", bytes(other[INSN * place : INSN * place + INSN]), place, bytes(90), 90, wide=True)
        listing = calls("capkit_write_listing", program, count, bytes(9000), 9000, bytes(8))[1][1].split(b"\0")[0]
        calls("capkit_read_listing", listing, len(listing), bytes(400 * INSN), 400, bytes(8))


def call_packet(calls, chance, programs, packet, data):
    """Calls on a packet that was found. Returns its parts for the writer."""
    time, at, _, captured, original, _, number, snap, link = struct.unpack("<QQQIIIIIH2x", packet)
    body = data[at : at + captured]
    calls("capkit_line", link, time, original, body, captured, chance.randrange(2), bytes(300), 300, wide=True)
    for _, program in chance.sample(programs, 2):
        run = program, len(program) // INSN, body, captured, original
        for name in ("capkit_matches", "capkit_matches_unchecked"):
            calls(name, *run)
        for name in ("capkit_run", "capkit_run_unchecked"):
            calls(name, *run, bytes(8))
        calls("capkit_trace", *run, bytes(40 * STEP), 40, wide=True)
    room = bytes(700), 700, bytes(8)
    calls("capkit_write_record", chance.randrange(2), time, original, body, captured, *room)
    calls("capkit_write_packet", number, time, original, body, captured, b"note", 4, *room)
    calls("capkit_write_interface", link, snap, b"eth0", 4, *room)
    return body, captured


def call_reader(calls, chance, programs, data):
    """Calls that read a capture, and put its packets to a writer."""
    reader, table, packet = bytes(READER), bytes(8 * INTERFACE), bytes(PACKET)
    writer, written = bytes(WRITER), bytes(8 * INTERFACE)
    while True:
        name = chance.choice(["capkit_next", "capkit_next", "capkit_next_unit"])
        status, (reader, table, _, packet) = calls(name, reader, table, 8, data, len(data), packet)
        if status == 0:
            calls("capkit_comment", reader, data, len(data), packet, bytes(300), 300, wide=True)
            body, captured = call_packet(calls, chance, programs, packet, data)
            put = UNIT_BEFORE
            while put == UNIT_BEFORE:
                rest = packet, b"eth0", 4, body, captured, b"hi", 2, bytes(700), 700, bytes(8)
                put, (writer, written, *_) = calls("capkit_writer_put", writer, written, 8, *rest)
        elif status != NO_PACKET:
            skipped, (reader, table, _) = calls("capkit_skip", reader, table, 8, data, len(data))
            if skipped != SKIPPED:
                return


def call_search(calls, chance, programs, data):
    """Calls that search a capture by a program, one of eight damaged."""
    link, program = chance.choice(programs)
    program = bytearray(program)
    if chance.random() < 0.125:
        program[chance.randrange(len(program))] ^= 1 << chance.randrange(8)
    reader, table, status = bytes(READER), bytes(8 * INTERFACE), 0
    while status in (0, ANOTHER_LINK_TYPE):
        search = data, len(data), bytes(program), len(program) // INSN, link, bytes(PACKET)
        status, (reader, table, *_) = calls("capkit_next_match", reader, table, 8, *search)


def main(library, out, seed=1):
    chance = random.Random(int(seed))
    samples = [it.read_bytes() for it in sorted((ROOT / "samples").glob("*.pcap*"))]
    with open(out, "wb") as file:
        calls = Calls(library, file)
        programs = call_compiler(calls, chance)
        call_programs(calls, chance, programs)
        for data in [*samples, *(compare.damaged(chance, chance.choice(samples)) for _ in range(130))]:
            call_reader(calls, chance, programs, data)
            call_search(calls, chance, programs, data)
        for number in range(300):
            calls("capkit_text", number, bytes(60), 60, wide=True)
        calls("capkit_version")
        calls("capkit_write_section", bytes(40), 40, bytes(8))
        calls("capkit_write_file_header", 1, 1, bytes(40), 40, bytes(8))
        calls.end()
    print(f"{calls.count} calls")


if len(sys.argv) < 3:
    sys.exit(__doc__)
main(*sys.argv[1:])
