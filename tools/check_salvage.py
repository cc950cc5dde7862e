#!/usr/bin/env python3
"""Damages captures, and counts what salvage.py, capkit, tcpdump and editcap read of them.

usage: check_salvage.py [--capkit PROGRAM] [--runs N] [--seed N] [--first N] [--kind NAME] [--jobs N]
                        [--keep FOLDER] [--captures FOLDER]

RUNS (300) damaged captures of 20 to 3,000 packets, in pcap of all four forms and pcapng in both byte
orders, of each kind of damage in turn; then, if all kinds run from the first on, each sample whole, and
its first 0 to 200 bytes. With --captures the packets are those of the captures in a folder that capkit
reads, if they have eight or more. What a program writes is compared with the packets of the capture, by
time, original length and bytes (if the damage is in times, by the last two):

  true     packets of the capture, each once, also  again    the same packet once more
           with another time, if its own bytes were damaged
  changed  packets that aren't true, but have one of these in common with one whose own bytes were
           damaged: a time that no other packet has, or a time and one of the lengths; the second and
           both lengths; all bytes; the captured length and the first or last 12 bytes; the first 24 bytes
  false    all others: they were made up            missed   undamaged packets that weren't read

The status is 1 if salvage.py wrote a false packet, fewer true ones than capkit, tcpdump or editcap,
another text than `capkit edit` of what that reads to its end, took over 10 s of CPU time, changed its input,
ended with another status than 0 or 1, or with a traceback. Such files are kept with --keep.
"""
import argparse
import collections
import concurrent.futures
import itertools
import multiprocessing
import os
import pathlib
import random
import re
import resource
import shutil
import struct
import subprocess
import sys
import tempfile
import time

ROOT = pathlib.Path(__file__).resolve().parent.parent
sys.path.append(str(ROOT / "bench"))
from built import built_program
import make_capture

FORMS = ["pcap <", "pcap >", "nsecpcap <", "nsecpcap >", "pcapng <", "pcapng >"]
PEERS = ["capkit", "tcpdump", "editcap"]
SCRIPT = "salvage.py"


class Capture:
    """A capture with its bytes and the places of its packets.

    A pcapng capture has two interfaces: one in microseconds and one in nanoseconds.
    """

    def __init__(self, packets, form, snap=262144):
        self.form, (self.kind, self.order) = form, form.split()
        self.data, self.units = bytearray(), []
        if self.kind == "pcapng":
            self.data += self.block(0x0A0D0D0A, struct.pack(self.order + "IHHq", 0x1A2B3C4D, 1, 0, -1))
            for exponent in (6, 9):
                options = struct.pack(self.order + "HHB3xHH", 9, 1, exponent, 0, 0)
                self.data += self.block(1, struct.pack(self.order + "HHI", 1, 0, snap) + options)
        else:
            magic = 0xA1B2C3D4 if self.kind == "pcap" else 0xA1B23C4D
            self.data += struct.pack(self.order + "IHHIIII", magic, 2, 4, 0, 0, snap, 1)
        self.first = len(self.data)
        for number, (when, original, data) in enumerate(packets):
            begin, is_exact = len(self.data), self.kind == "nsecpcap" or self.kind == "pcapng" and number % 2
            when = when if is_exact else when // 1000 * 1000
            if self.kind == "pcapng":
                ticks = when if is_exact else when // 1000
                fields = (number % 2, ticks >> 32, ticks & 0xFFFFFFFF, len(data), original)
                self.data += self.block(6, struct.pack(self.order + "IIIII", *fields) + data + bytes(-len(data) % 4))
            else:
                part = when % 10**9 // (1 if is_exact else 1000)
                self.data += struct.pack(self.order + "IIII", when // 10**9, part, len(data), original) + data
            self.units.append((begin, len(self.data), (when, original, data)))
        self.starts = {begin for begin, _, _ in self.units} | {len(self.data)}

    def block(self, kind, body):
        size = 12 + len(body)
        return struct.pack(self.order + "II", kind, size) + body + struct.pack(self.order + "I", size)

    def packets(self, ranges=()):
        """Returns the packets, each with whether one of its bytes, or of the bytes before the first
        packet, is in a range.
        """
        is_all = any(begin < self.first for begin, end in ranges)
        return [(packet, is_all or any(low < end and begin < high for low, high in ranges))
                for begin, end, packet in self.units]


def packets_of(path):
    """Returns the packets of a little-endian pcap file in nanoseconds."""
    data = path.read_bytes() if path.exists() else b""
    packets, at = [], 24
    while at + 16 <= len(data):
        seconds, part, captured, original = struct.unpack_from("<IIII", data, at)
        packets.append((seconds * 10**9 + part, original, data[at + 16 : at + 16 + captured]))
        at += 16 + captured
    return packets


# ---- captures

def plain(chance, pool):
    """Returns packets of a capture in a row."""
    packets = chance.choice(pool)
    begin = chance.randrange(max(1, len(packets) - 3000))
    return packets[begin : begin + chance.choice((20, 100, 500, 1000, 3000))]


def snapped(chance, pool):
    """Returns packets with a snap length of 96."""
    return [(when, original, data[:96]) for when, original, data in plain(chance, pool)]


def jumping(chance, pool):
    """Changes times as if the clock had been set: some times, each time, or once from 1970."""
    packets, odds, found = plain(chance, pool), chance.choice((0.01, 0.3, 1)), []
    shift = -packets[0][0]
    for when, *rest in packets:
        shift = chance.randrange(-10**18, 10**18) if chance.random() < odds else shift
        found.append((max(0, when + shift), *rest))
    return found


def merged(chance, pool):
    """Returns captures of several years, merged in turn."""
    packets, years = plain(chance, pool), [chance.randrange(10**9, 17 * 10**8) for _ in range(5)]
    return [(when % 10**15 + years[chance.randrange(5)] * 10**9, *rest) for when, *rest in packets]


def texts(chance, pool):
    """Packets with lines of text."""
    lines = [b"GET / HTTP/1.1\r\n", b"Host: a.example\r\n", b"\r\n", b"one line\n", bytes(40), b"{}\n"]
    return [(when, original + len(text), data + text) for when, original, data in plain(chance, pool)
            for text in [b"".join(chance.choices(lines, k=chance.randrange(8)))]]


def unset(chance, pool):
    """Changes times as if the clock had never been set: all are 0, or begin in 1970."""
    maker, begin = chance.choice((plain, snapped, numbers)), chance.choice((0, 0, chance.randrange(10**6)))
    packets, is_zero = maker(chance, pool), chance.random() < 0.5
    first = packets[0][0] - begin * 10**9
    return [(0 if is_zero else max(0, when - first), *rest) for when, *rest in packets]


def numbers(chance, pool):
    """Packets with small numbers of four bytes, lowest byte first, as many protocols have them."""
    packets = []
    for when, original, data in plain(chance, pool):
        most, step = chance.choice(((3, 1), (300, 1), (300, 4), (70_000, 1), (200_000, 4)))
        small = [chance.randrange(0, most, step) for _ in range(chance.randrange(200))]
        small = small if chance.random() < 0.7 else [number for number in small[:50] for _ in range(4)]
        text = b"".join(number.to_bytes(4, chance.choice(("little", "little", "big"))) for number in small)
        packets.append((when, original + len(text), data + text))
    return packets


ALL = (plain, plain, plain, snapped, jumping, merged, texts, unset, numbers)


def capture(chance, forms=FORMS, makers=ALL):
    return Capture(chance.choice(makers)(chance, pool), chance.choice(forms))


# ---- damages: each returns the bytes and the packets, with whether they are damaged

def replaced(one, begin, end, what):
    """Replaces a range of bytes; the packets in it are damaged."""
    return one.data[:begin] + what + one.data[end:], one.packets([(begin, max(end, begin + 1))])


def whole(one):
    """Returns a capture without damage."""
    return one.data, one.packets()


def place(chance, one):
    """Returns a random offset in a capture, for some inside a packet's header."""
    if chance.random() < 0.3:
        return chance.choice(one.units)[0] + chance.randrange(16)
    return chance.randrange(len(one.data))


def fractions(chance):
    """Fractions of a second or more: the first ten, each n-th, all, nanoseconds as microseconds, or any."""
    one, n, kind = capture(chance, FORMS[:2]), chance.randrange(1, 12), chance.randrange(5)
    for number, (begin, _, (when, _, _)) in enumerate(one.units):
        part = when % 10**9 // 1000
        if kind == 3:
            part = when % 10**9 // 1000 * 1000 + number % 1000
        elif (number < 10, number % n == 0, True, False, chance.random() < n / 12)[kind]:
            part += chance.choice((10**6, 4 * 10**6, 10**9))
        struct.pack_into(one.order + "I", one.data, begin + 4, part)
    return one.data, one.packets()


def to_crlf(chance):
    """Replaces each line feed by a carriage return and a line feed, as a transfer as text does."""
    one = capture(chance)
    packets = [(packet, b"\n" in one.data[begin:end]) for begin, end, packet in one.units]
    return one.data.replace(b"\n", b"\r\n"), packets


def to_lf(chance):
    """Removes the carriage returns before line feeds."""
    one = capture(chance)
    return one.data.replace(b"\r\n", b"\n"), one.packets([it.span() for it in re.finditer(b"\r\n", one.data)])


def zeros_at_end(chance):
    """Appends zeros to a capture, or to a prefix of it."""
    one = capture(chance)
    size = chance.randrange(1, len(one.data))
    end = chance.choice((size, len(one.data)))
    zeros = bytes(chance.choice((16, 1)) * chance.randrange(1, 5000))
    return one.data[:end] + zeros, one.packets([(end, len(one.data))])


def page(chance, one):
    """Returns the start and the end of a page of a capture."""
    size = chance.choice((512, 4096, 16384))
    begin = chance.randrange(len(one.data)) // size * size
    return begin, min(begin + size, len(one.data))


def paged(chance, new):
    """Replaces a page by other bytes."""
    one = capture(chance)
    begin, end = page(chance, one)
    return replaced(one, begin, end, new(end - begin))


def page_twice(chance):
    """Repeats a page."""
    one = capture(chance)
    begin, end = page(chance, one)
    return one.data[:end] + one.data[begin:], one.packets([(begin, begin + 1), (end, end + 1)])


def two_writers(chance):
    """Mixes the pages of two captures, as if two programs wrote one file."""
    form = [chance.choice(FORMS[:4])]
    ones, size, data = [capture(chance, form), capture(chance, form)], chance.choice((4096, 65536)), b""
    for begin in range(0, max(len(it.data) for it in ones), size):
        data += b"".join(it.data[begin : begin + size] for it in ones)
    cuts = [[(at, at + 1) for at in range(size, len(it.data), size)] for it in ones]
    cuts = [[(at - 1, end) for at, end in them] for them in cuts]
    return data, [it for one, them in zip(ones, cuts) for it in one.packets(them)]


def changed(chance, most, mask):
    """Changes bits in some bytes."""
    one, ranges = capture(chance), []
    for _ in range(chance.randrange(1, most)):
        at = place(chance, one)
        one.data[at] ^= mask()
        ranges.append((at, at + 1))
    return one.data, one.packets(ranges)


def truncated(chance):
    """Cuts off the end of a capture."""
    one = capture(chance)
    size = chance.randrange(4, len(one.data))
    return one.data[:size], one.packets([(size, len(one.data))])


def length_broken(chance):
    """Changes one of the length fields of one to three packets."""
    one, ranges = capture(chance), []
    for _ in range(chance.randrange(1, 4)):
        begin, end, _ = chance.choice(one.units)
        at = begin + chance.choice((8, 12)) if one.kind != "pcapng" else chance.choice((begin + 4, end - 4, begin + 20))
        right = struct.unpack_from(one.order + "I", one.data, at)[0]
        wrong = chance.choice((0, right + 1, right - 1, right + 4, right * 2, right // 2, 65535, 2**32 - 1, chance.randrange(2**18)))
        struct.pack_into(one.order + "I", one.data, at, max(0, min(wrong, 2**32 - 1)))
        ranges.append((at, at + 4))
    return one.data, one.packets(ranges)


def concatenated(chance):
    """Appends captures to each other, half of them cut."""
    data, packets = b"", []
    for _ in range(chance.randrange(2, 4)):
        one = capture(chance)
        size = len(one.data) if chance.random() < 0.5 else chance.randrange(24, len(one.data))
        data, packets = data + one.data[:size], packets + one.packets([(size, len(one.data))] if size < len(one.data) else [])
    return data, packets


def cut_out(chance):
    """Removes some bytes."""
    one = capture(chance)
    begin = place(chance, one)
    return replaced(one, begin, min(begin + chance.randrange(1, 3000), len(one.data)), b"")


def overwritten(chance, one=None):
    """Overwrites some bytes."""
    one = one or capture(chance)
    begin = place(chance, one)
    end = min(begin + chance.randrange(1, 5000), len(one.data))
    what = chance.choice((bytes(end - begin), b"\xff" * (end - begin), chance.randbytes(end - begin)))
    return replaced(one, begin, end, what)


def cuts_at(one, *places):
    """Returns what a cut damages: a packet, unless the cut is between two."""
    return [(place - 1, place + 1) for place in places if place < one.first or place not in one.starts]


def in_pieces(chance, change):
    """Changes one to four pieces of a capture: `change` returns the new bytes, and what is damaged."""
    one, data, damaged, at = capture(chance), b"", [], 0
    places = sorted(place(chance, one) for _ in range(2 * chance.randrange(1, 5)))
    for begin, end in zip(places[::2], places[1::2]):
        end = min(end, begin + chance.randrange(1, 3000))
        piece, ranges = change(one, begin, end)
        data, damaged, at = data + one.data[at:begin] + piece, damaged + ranges, end
    return data + one.data[at:], one.packets(damaged)


def lost(one, begin, end):
    return b"", [(begin, end)]


def repeated(one, begin, end):
    return one.data[begin:end] * 2, cuts_at(one, begin, end)


def inserted(chance):
    """Pieces of other captures, or random bytes."""
    guests = []

    def change(one, begin, end):
        other, size = capture(chance), chance.randrange(1, 3000)
        at = chance.randrange(len(other.data))
        piece = other.data[at : at + size]
        if chance.random() < 0.3:
            piece = chance.randbytes(size)
        else:
            within = [it for it in other.units if it[0] < at + size and at < it[1]]
            guests.extend((packet, begin < at or end > at + size or at < other.first or other.form != one.form) for begin, end, packet in within)
        return piece + one.data[begin:end], cuts_at(one, begin)

    data, packets = in_pieces(chance, change)
    return data, packets + guests


def exchanged(chance):
    """Pairs of pieces in the other order."""
    def change(one, begin, end):
        middle = chance.randrange(begin, end) if begin < end else end
        return one.data[middle:end] + one.data[begin:middle], cuts_at(one, begin, middle, end)

    return in_pieces(chance, change)


def start_gone(chance):
    """Overwrites or removes the first bytes, or puts others before them."""
    one, size = capture(chance), chance.randrange(1, 2000)
    size = min(size, len(one.data))
    new = chance.choice((b"", bytes(size), chance.randbytes(size), one.data[:size]))
    before = b"SSH-2.0-OpenSSH\r\n" if new == one.data[:size] else b""
    return before + new + one.data[size:], one.packets([] if before else [(0, size)])


def beginning_gone(chance):
    """Removes the first bytes; returns another capture too, with the same file header, for --like."""
    one, size = capture(chance), chance.randrange(1, 3000)
    other = Capture(plain(chance, pool)[: chance.choice((0, 1, 50))], one.form)
    return one.data[size:], one.packets([(one.first, max(size, one.first))]), other.data


def carried(chance):
    """Makes a capture whose packets carry another capture, up to a day older; damage is right
    before one of them, for some before one with the file header.
    """
    form = chance.choice(FORMS)
    own = [chance.choice(pool)]
    later = 0 if own[0][0][0] > 10**17 else 15 * 10**17  # a clock that wasn't set
    before, inner, after = ([(when + later, *rest) for when, *rest in plain(chance, own)] for _ in range(3))
    ago = chance.randrange(2, 80_000) * 10**9 + inner[-1][0] - before[-1][0]
    inner = inner[: chance.choice((5, 30, 300))]
    text = bytes(Capture([(when - ago, *rest) for when, *rest in inner], chance.choice((form, *FORMS))).data)
    parts = [bytes(54) + text[at : at + 1400] for at in range(0, len(text), 1400)]
    begin = len(before)
    packets = [*before, *[(before[-1][0] + 1000 * (number + 1), len(it), it) for number, it in enumerate(parts)], *after]
    one = Capture([(max(when, before[-1][0]) if number >= begin else when, *rest)
                   for number, (when, *rest) in enumerate(packets)], form)
    place = one.units[begin + chance.choice((0, chance.randrange(len(parts))))][0]
    low, high = max(one.first, place - chance.randrange(100)), place + chance.randrange(1, 90)
    return replaced(one, low, high, chance.randbytes(high - low))


KINDS = {
    "fractions": fractions,
    "clocks": lambda chance: whole(capture(chance, makers=[jumping])),
    "clocks_and_hole": lambda chance: overwritten(chance, capture(chance, makers=[jumping])),
    "merges": lambda chance: whole(capture(chance, makers=[merged])),
    "merges_and_hole": lambda chance: overwritten(chance, capture(chance, makers=[merged])),
    "to_crlf": to_crlf, "to_lf": to_lf, "zeros_at_end": zeros_at_end,
    "zero_page": lambda chance: paged(chance, bytes),
    "random_page": lambda chance: paged(chance, chance.randbytes),
    "page_twice": page_twice, "page_missing": lambda chance: paged(chance, lambda size: b""),
    "two_writers": two_writers,
    "bit_flips": lambda chance: changed(chance, 21, lambda: 1 << chance.randrange(8)),
    "bytes_changed": lambda chance: changed(chance, 9, lambda: chance.randrange(1, 256)),
    "truncated": truncated, "length_broken": length_broken, "concatenated": concatenated,
    "cut_out": cut_out, "overwritten": overwritten, "start_gone": start_gone, "carried": carried,
    "unset_and_hole": lambda chance: overwritten(chance, capture(chance, makers=[unset])),
    "numbers_and_hole": lambda chance: overwritten(chance, capture(chance, makers=[numbers])),
    "beginning_gone": beginning_gone,
    "pieces_lost": lambda chance: in_pieces(chance, lost),
    "pieces_inserted": inserted,
    "pieces_repeated": lambda chance: in_pieces(chance, repeated),
    "pieces_exchanged": exchanged,
}


# ---- comparison

def marks(packet, times):
    """Yields marks that identify a packet, even if some of its bytes were damaged."""
    when, original, data = packet
    size = len(data)
    yield "time", when, size if times[when] > 1 else None
    yield "original", when, original
    yield "lengths", when // 10**9, size, original
    if size:
        yield "data", data
        yield "front", size, data[:12]
        yield "back", size, data[-12:]
    if size >= 24:
        yield "begins", data[:24]


def counts(read, packets, is_timed):
    """Returns how many of the packets read are true, repeated, changed and false, and how many are missed."""
    key = (lambda it: it) if is_timed else (lambda it: it[1:])
    left = collections.Counter(key(packet) for packet, _ in packets)
    known = set(left)
    times = collections.Counter(when for (when, *_), _ in packets)
    like = {mark for packet, is_damaged in packets if is_damaged for mark in marks(packet, times)}
    damaged = collections.defaultdict(list)
    for packet, is_damaged in packets:
        damaged[packet[1:]] += [key(packet)] * is_damaged
    found = collections.Counter()
    for packet in read:
        it = key(packet)
        if left[it] > 0:
            left[it] -= 1
            found["true"] += 1
        elif packet[1:] in damaged and any(left[other] > 0 for other in damaged[packet[1:]]):
            left[next(other for other in damaged[packet[1:]] if left[other] > 0)] -= 1
            found["true"] += 1
        elif it in known:
            found["again"] += 1
        else:
            found["changed" if any(mark in like for mark in marks(packet, times)) else "false"] += 1
    whole = collections.Counter(key(packet) for packet, is_damaged in packets if not is_damaged)
    found["missed"] = sum(min(count, left[it]) for it, count in whole.items())
    return found


def commands():
    root = ["-Z", "root"] if os.geteuid() == 0 else []
    return {SCRIPT: [SCRIPT, "-F", "nsecpcap", "IN", "OUT"],
            "capkit": ["capkit", "edit", "-F", "nsecpcap", "IN", "OUT"],
            "tcpdump": ["tcpdump", "-r", "IN", "--nano", "-w", "OUT", *root],
            "editcap": ["editcap", "-F", "nsecpcap", "IN", "OUT"]}


def call(words, source, out):
    """Runs a program on a file: its status, what it said, and of the script the processor time that it
    took; that is run in a copy of this process, which begins at once."""
    words = [str({"IN": source, "OUT": out}.get(word, word)) for word in words]
    log, before = source.parent / "log", resource.getrusage(resource.RUSAGE_CHILDREN)
    with open(log, "wb") as said:
        if words[0] == SCRIPT:
            child = multiprocessing.Process(target=run_script, args=(words, said))
            child.start()
            child.join(120)
            child.kill()
            child.join()
            status = child.exitcode
        else:
            status = subprocess.run(words, stdout=said, stderr=said).returncode
    used = resource.getrusage(resource.RUSAGE_CHILDREN)
    took = used.ru_utime - before.ru_utime + used.ru_stime - before.ru_stime
    return status, log.read_text(errors="replace"), took


def run_script(words, said):
    """Runs the script in a child process."""
    sys.argv = words
    os.dup2(said.fileno(), 1)
    os.dup2(said.fileno(), 2)
    exec(script[0], {"__name__": "__main__", "__doc__": "no text"})


def try_file(data, packets, is_timed, like=b""):
    """Runs the programs on one file; returns their counts, and the faults of salvage.py.

    `like` is a capture with the same file header, which salvage.py gets by --like.
    """
    faults, results = [], {}
    with tempfile.TemporaryDirectory() as temporary:
        source = pathlib.Path(temporary) / "damaged"
        source.write_bytes(data)
        if like:
            (source.parent / "like").write_bytes(like)
        for name, words in commands().items():
            words[1:1] = ["--like", source.parent / "like"] if like and name == SCRIPT else []
            out = source.parent / f"{name}.out"
            status, said, took = call(words, source, out)
            results[name] = counts(packets_of(out), packets, is_timed)
            if name == SCRIPT:
                faults += [f"status {status}: {said}"] * (status not in (0, 1) or "Traceback" in said)
                faults += ["its input changed"] * (source.read_bytes() != data)
                faults += [f"{took:.0f} seconds"] * (took > 10)
                was = status
                last = said.strip().splitlines()[-1:]
            if name == "capkit":
                is_sound = status == 0
        own, edited = (source.parent / f"{name}.out" for name in (SCRIPT, "capkit"))
        if is_sound:
            is_same = own.exists() and own.read_bytes() == edited.read_bytes() and was == 0
            faults += ["a sound file changed"] * (not is_same)
            if is_same:
                results[SCRIPT]["false"] = 0
        elif was == 0:
            faults += ["status 0 of a damaged file"]
        faults += [f"a false packet: {last}"] * (results[SCRIPT]["false"] > 0)
        # editcap takes files that aren't captures for those of a format with a loose header.
        read = [name for name in PEERS if results[name]["false"] <= results[name]["true"]]
        short = [name for name in read if results[SCRIPT]["true"] < results[name]["true"]]
        faults += [f"fewer true packets than {short}"] * bool(short)
    return results, faults


def try_one(number, given):
    chance = random.Random(f"{given.seed} {number}")
    kinds = [it for it in KINDS if given.kind in (None, it)]
    kind = kinds[number % len(kinds)]
    data, packets, *like = KINDS[kind](chance)
    results, faults = try_file(bytes(data), packets, kind != "fractions", *like)
    keep(faults, given, f"{number}.{kind}", data)
    return number, kind, len(packets), sum(it for _, it in packets), results, faults


def keep(faults, given, name, data):
    """Writes the bytes of a run with faults to the folder of --keep."""
    if faults and given.keep:
        (pathlib.Path(given.keep) / name).write_bytes(data)


def try_sample(name, given):
    """Runs a sample whole in each format, as capkit's edit writes it, and without up to 200 of its first bytes."""
    data, faults = (ROOT / "samples" / name).read_bytes(), []
    with tempfile.TemporaryDirectory() as temporary:
        source, own, edited = (pathlib.Path(temporary) / it for it in ("in", "own", "edited"))
        for size in [*range(min(201, len(data))), len(data)]:
            source.write_bytes(data[:size])
            forms = ["pcap", "nsecpcap", "pcapng"] if size == len(data) else ["nsecpcap"]
            for form in forms:
                for it in (own, edited):
                    it.unlink(missing_ok=True)
                status, said, took = call([SCRIPT, "-F", form, "IN", "OUT"], source, own)
                edit = call(["capkit", "edit", "-F", form, "IN", "OUT"], source, edited)[0]
                whole = edited.read_bytes() if edited.exists() else b""
                text = own.read_bytes() if own.exists() else b""
                is_right = status in (0, 1) and "Traceback" not in said and took < 10
                if edit == 0:
                    is_right &= status == 0 and text == whole
                elif size < len(data):
                    is_right &= status == 1 and text == whole or not whole
                if not is_right:
                    faults.append(f"{size} bytes, {form}: status {status}, {said.strip()[-200:]}")
                    keep(faults, given, f"{name}.{size}", data[:size])
    return name, faults


def captures_in(folder, path):
    """Yields the packets of each capture in a folder that has eight or more, of various lengths."""
    for name in sorted(pathlib.Path(folder).iterdir()):
        done = subprocess.run(["capkit", "edit", "-F", "nsecpcap", name, path], capture_output=True)
        packets = packets_of(path) if done.returncode == 0 else []
        if len(packets) >= 8 and all(original for _, original, _ in packets):
            yield packets


def report(done, names):
    """Prints the sums of all runs of a kind of damage."""
    sums = collections.defaultdict(collections.Counter)
    for _, kind, of_packets, of_damaged, results, _ in done:
        for key in (kind, "all"):
            sums[key].update(runs=1, packets=of_packets, damaged=of_damaged)
            for name, found in results.items():
                sums[key].update({(name, what): count for what, count in found.items()})
    print(f"{'damage':16} {'runs':>5} {'packets':>8} {'damaged':>8}" + "".join(f" | {name + ': true':>16} false" for name in names)
          + f" | {SCRIPT}: again changed missed")
    for key in [*sorted(it for it in sums if it != "all"), "all"]:
        of = sums[key]
        print(f"{key:16} {of['runs']:5} {of['packets']:8} {of['damaged']:8}"
              + "".join(f" | {of[name, 'true']:16} {of[name, 'false']:5}" for name in names)
              + f" | {of[SCRIPT, 'again']:17} {of[SCRIPT, 'changed']:7} {of[SCRIPT, 'missed']:6}")


def main():
    parser = argparse.ArgumentParser(description=__doc__.split("\n")[0])
    parser.add_argument("--capkit", default=None)
    parser.add_argument("--runs", type=int, default=300)
    parser.add_argument("--jobs", type=int, default=1)
    parser.add_argument("--seed", type=int, default=1)
    parser.add_argument("--first", type=int, default=0, help="the number of the first run")
    parser.add_argument("--kind", default=None, choices=KINDS, help="only one kind of damage")
    parser.add_argument("--keep", default=None)
    parser.add_argument("--captures", default=None, help="damage those of a folder")
    given = parser.parse_args()
    program = pathlib.Path(given.capkit or built_program()).resolve()
    os.environ["PATH"] = f"{program.parent}:{os.environ['PATH']}"
    missing = [it for it in ("tcpdump", "editcap") if shutil.which(it) is None]
    if missing:
        sys.exit(f"not installed: {', '.join(missing)}")
    with tempfile.TemporaryDirectory() as temporary:
        path = pathlib.Path(temporary) / "made.pcap"
        if given.captures:
            pool.extend(captures_in(given.captures, path))
        else:
            make_capture.write_capture(path, make_capture.traffic(12_000))
            pool.append([(when // 10**9 * 10**9 + when % 10**9 * 1000 + number % 1000, original, data)
                         for number, (when, original, data) in enumerate(packets_of(path))])
    script.append(compile((ROOT / "examples" / SCRIPT).read_text(), SCRIPT, "exec"))
    begin = time.monotonic()
    samples = sorted(it.name for it in (ROOT / "samples").glob("*.pcap*")) if not (given.first or given.kind) else []
    with concurrent.futures.ProcessPoolExecutor(given.jobs) as workers:
        runs = range(given.first, given.first + given.runs)
        done = list(workers.map(try_one, runs, itertools.repeat(given)))
        of_samples = list(workers.map(try_sample, samples, itertools.repeat(given)))
    if done:
        report(done, commands())
    wrong = [it for it in done if it[-1]]
    for number, kind, _, _, results, faults in wrong:
        print(f"run {number}, {kind}: {'; '.join(faults)}: { {name: dict(it) for name, it in results.items()} }")
    bad = [it for it in of_samples if it[1]]
    for name, faults in bad:
        print(f"{name}: {len(faults)} faults: {'; '.join(faults[:3])}")
    print(f"seed {given.seed}: {len(done)} runs, {len(wrong)} not as they should be; {len(samples)} samples and their first 0 to 200 "
          f"bytes, {len(bad)} not; {time.monotonic() - begin:.0f} seconds")
    sys.exit(1 if wrong or bad else 0)


pool, script = [], []

if __name__ == "__main__":
    main()
