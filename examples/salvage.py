#!/usr/bin/env python3
"""Writes the packets of a damaged capture, even those after the damage, with capkit.

usage: salvage.py [-F FORMAT] [-n ROW] [--like FILE] IN OUT    (- is standard input or output)

A file that capkit reads to its end is written as `capkit edit` does. In another one the packets are
written up to the first damage, and from then on by the rules in docs/RELIABILITY.md. IN is copied
if it is a pipe or in text mode. OUT gets its name at the end. The status is 0 if IN was in order,
1 if not or if nothing was written, 2 if the command line is wrong. Needs Python 3.10.
"""
import argparse
import contextlib
import functools
import itertools
import os
import re
import signal
import struct
import tempfile
from subprocess import PIPE, Popen, run

MAGICS = {10**6: 0xA1B2C3D4, 10**9: 0xA1B23C4D}
FORMS = {struct.pack(it + "I", MAGICS[units]): (it, units) for it in "<>" for units in MAGICS}
SECTION, INTERFACE, OBSOLETE, SIMPLE, ENHANCED = 0x0A0D0D0A, 1, 2, 3, 6
LEAST = {SECTION: 28, INTERFACE: 20, OBSOLETE: 32, SIMPLE: 16, ENHANCED: 32}
SECTION_TYPE, ORDER_MAGIC = b"\n\r\r\n", 0x1A2B3C4D
SECTIONS = {struct.pack(it + "IHH", ORDER_MAGIC, 1, minor): it for it in "<>" for minor in (0, 2)}
HEADER = re.compile(b"|".join(map(re.escape, [*FORMS, SECTION_TYPE])))
LONGEST, LONGEST_BLOCK, MOST_INTERFACES, NO_TIME = 262_144, 1_048_576, 256, float("nan")
HELD, AHEAD, ZONE = 8 << 20, 3 << 20, 1 << 20  # of the file, held and looked through at once
INSIDE, UNITS, FAR = 65_552, 32, 2 << 20  # no payload has a chain over both the first, or the last
TICKS = {bytes([it]): 10**it for it in range(13)} | {bytes([it + 128]): 2**it for it in range(33)}
SHORT = {"<": b"\x14\0\0\0", ">": b"\0\0\0\x14"}  # of an interface without options
DOUBTED, FEW, KNOWN = 8, 4, 32  # records next to damage; least to compare with; most near it
NEAR, EARLIER, UNSET = 86_400, 1, 31_536_000  # seconds; the last of a clock that wasn't set
# Bytes before the version of IP or a type in usual packets, by link type; and such types.
SKIPS = {0: 4, 108: 4, 12: 0, 101: 0, 228: 0, 229: 0, 1: 12, 113: 14}
ETHER = (rb"(?:\x08\0[E-O]|\x86\xdd[`-o]|\x08\x06\0\x01|\x81\0..[\x08\x86\x88]"
         rb"|\x88[GHcd\x8e\xa8\xca\xcc]|[\0-\5].(?:BB|\xaa\xaa))")
USUAL = {link: re.compile(rb"(?s).{%d}%s" % (skip, ETHER if skip > 4 else b"[E-O`-o]"))
         for link, skip in SKIPS.items()}


def report(text):
    """Writes a line to standard error, with unprintable characters shown as numbers."""
    text = "".join(it if it.isprintable() else ascii(it)[1:-1] for it in text)
    with contextlib.suppress(OSError):
        os.write(2, text.encode(errors="surrogateescape") + b"\n")


class Job:
    """A file, of which some MiB are held; what is written of it; how much was tried."""
    def __init__(self, held, name, row, form, path):
        self.held, self.name, self.row, self.form = held, name, row, form
        self.size, self.data, self.base = os.fstat(held.fileno()).st_size, b"", 0
        self.tried, self.asked, self.header, self.time = 0, [0, 0], b"", NO_TIME
        self.words = ["capkit", "edit", "-F", form, "-", path]
        self.most = 2**63 if form == "pcapng" else 2**32 * 10**9
        self.final = self.piece = self.begun = None
        self.kept, self.packets, self.damages, self.left_out = (0, 0), 0, 0, 0

    def load(self, at, ahead=AHEAD):
        """Holds the bytes from a place on; returns these, which may begin before, and where."""
        if at < self.base or at + ahead > self.base + len(self.data) < self.size:
            self.data, self.base, self.tried = b"", at, self.tried + 2000
            self.data = self.get(at, HELD) + bytes(16 * (at + HELD >= self.size))
        return self.data, self.base

    def get(self, at, size): return os.pread(self.held.fileno(), size, at)
    @functools.lru_cache(128)
    def start(self, at): return self.get(at, 40).ljust(16, b"\0")  # header, and first bytes
    def may_try(self, at): return self.tried < 600_000 + at // 64  # bounds the time of a run

    def places(self, pattern, back, slow, begin, end):
        """Places between two, `back` bytes before a pattern; some if too much was tried."""
        data, base = self.load(begin, ZONE + AHEAD)
        at, stop, base = begin - base + back, end - base + back, base - back
        while at < stop:
            is_free = self.may_try(at + base)
            found = pattern.search(data, at, (stop if is_free else min(at + 256, stop)) + 5)
            after = found.start() if found else stop
            self.tried += 2 + data.count(slow, at, after if is_free else at + 256) // 16
            if after < stop:
                yield after + base
            at = after + 1 if is_free else at + 4096

    def begin(self, header):
        """Another capture begins, of pcap if it has a header, unless its header is the same."""
        if header != self.begun or not header:
            self.put()
            self.end(self.piece)
            self.piece, self.begun, self.tried = None, header, self.tried + 2000 * bool(header)

    def keep(self, begin, end, made=b""):
        """Writes bytes, then keeps a piece of the file, which is written later."""
        if made or begin < end and begin != self.kept[1]:
            self.put(made)
            self.kept = begin, end
        elif begin == self.kept[1]:
            self.kept = self.kept[0], end

    def put(self, data=b""):
        """Writes what was kept, then more. A capture of pcap becomes pcapng by its own capkit."""
        begin, end = self.kept
        self.kept = end, end
        kept = (self.get(it, min(end - it, ZONE)) for it in range(begin, end, ZONE))
        for part in itertools.chain(kept, [data] if data else []):
            self.final = self.final or Popen(self.words, stdin=PIPE, bufsize=ZONE)
            if self.begun and not self.piece:
                self.final.stdin.flush()
                words, out = [*self.words[:3], "pcapng", "-", "-"], self.final.stdin
                self.piece = Popen(words, stdin=PIPE, stdout=out, bufsize=ZONE)
                self.piece.stdin.write(self.begun)
            (self.piece or self.final).stdin.write(part)

    def end(self, process):
        """Waits for a capkit: if it fails, it has said why."""
        if process and process.communicate() and process.returncode:
            raise ChildProcessError("capkit doesn't write its packets")

    def note(self, at, text, size=0):
        """Notes a place of damage, and how many bytes are left out there."""
        self.damages, self.left_out = self.damages + 1, self.left_out + size
        if self.damages <= 20:
            report(f"{self.name}: offset {at}: {f'{size} bytes left out' if size else ''}{text}")

    def capture_at(self, at):
        """The reader of the capture whose header is at a place, and the start of its units."""
        header = self.get(at, 24)
        if header[:4] == SECTION_TYPE and header[8:16] in SECTIONS:
            return Blocks(self, SECTIONS[header[8:16]]), at
        if header[:4] not in FORMS or len(header) < 24:
            return None
        order, units = FORMS[header[:4]]
        major, minor, link = struct.unpack(order + "HH12xI", header[4:])
        reader = Records(self, order)
        reader.units, reader.link = units, link & 0xFFFF
        reader.usual = USUAL.get(reader.link, re.compile(b"(?!)"))
        is_right = (major, minor, link) == (2, 4, reader.link)
        if not at and not is_right:
            fields = f"version {major}.{minor} and a link type field of {link:#x}"
            self.note(at, f"{fields}, written as 2.4 and {reader.link}")
        return (reader, at + 24) if is_right or not at else None

    def like(self, name):
        """A reader that begins as that of another file: with its header, or its interfaces."""
        with open(name, "rb", buffering=0) as held:
            if not infos(held)[0]:
                raise OSError(0, "capkit doesn't read it to its end", name)
            reader, at = (other := Job(held, name, 1, self.form, "")).capture_at(0)
            reader.read_held(at, *other.load(0))
        reader.job, reader.last = self, []
        return reader

    def find(self, readers, begin, passes):
        """The next chain, or the header before one: its place, its reader, the reader's place."""
        while begin < self.size:
            if zeros := re.match(rb"\0{64,}", self.get(begin, INSIDE)):
                begin += zeros.end() - 16
                continue
            end = begin + (INSIDE if self.may_try(begin) else 4096)
            chains = [(bounds, it) for it in readers if (bounds := it.first(begin, end, passes))]
            bounds, reader = min(chains, key=lambda it: it[0][0], default=((end,), None))
            peers = [it for it in chains if it[0][0] < bounds[-1]]
            if len(peers) > 1:
                bounds, reader = max(peers, key=lambda it: (it[1].worth(it[0]), it[0][0] == passes))
            place = bounds[0]
            for at in self.places(HEADER, 0, b"\xa1", begin, place):
                self.tried += 8
                is_free = self.may_try(at) or self.header in (b"", self.get(at, 24))
                if not is_free or not (capture := self.capture_at(at)):
                    continue
                other, start = capture
                bounds, time = other.chain(start, True) or [0], self.time - EARLIER
                is_late = other.when(bounds[0]) >= time or self.get(place, 4) == SECTION_TYPE
                is_inside = reader and bounds[-1] <= place <= at + INSIDE and not is_late
                is_inside = is_inside or other.without_carried(bounds) is not bounds
                if at == passes or bounds[-1] > passes and not is_inside:
                    return at, other, start
            if reader:
                return place, reader, place
            begin = end
        return self.size, None, self.size

    def salvage(self, guessed):
        """Reads as capkit does up to a fault, finds where to go on, and so on."""
        capture = self.capture_at(0)
        place, other, at = (0, *capture) if capture else self.find(guessed, 0, 0)
        if place:
            self.note(0, "", place)
        seen, reader = {}, None
        while other:
            if other is not reader:
                other.begin(place)
                self.header = self.get(place, 24)
                if reader:
                    self.note(place, "another capture begins")
            reader = seen[type(other), other.order] = other
            fault = None
            while at != fault:
                fault, at = at, reader.read_held(at, *self.load(at))
            if fault == self.size:
                break
            doubted, self.tried = reader.last[-DOUBTED:], self.tried + 40
            last = list(itertools.takewhile(reader.steps, doubted))
            self.time = reader.when(last[-1]) if last else self.time
            passes = [*doubted, fault][len(last)] if last else fault  # or a damaged record before
            readers, begin = [*seen.values()], max(doubted[0] + 1 if doubted else fault, place + 1)
            if not self.may_try(fault):
                readers, begin = [reader], fault + 4096
            place, other, at = self.find(readers, begin, passes)
            if (end := reader.settle(fault, place)) < place:
                self.note(end, "", place - end)


class Reader:
    """What records of pcap and blocks of pcapng (units) have in common: how chains are found."""
    def __init__(self, job, order):
        self.job, self.order, self.last, self.after, self.rows = job, order, [], [], {}
        shapes = (struct.Struct(order + it).unpack_from for it in ("2H", "2I", "3I", "4I", "5I"))
        self.option, self.sizes, self.ends, self.unpack, self.packet = shapes

    def head(self, at): return self.unpack(self.job.start(at))
    def steps(self, at): return self.step(at, *self.job.load(at))
    def edge(self, places): return min(DOUBTED, (len(places) + 2) // 3)  # how many are doubted
    def sound(self, places): return places[: len(places) - self.edge(places)]
    def grounded(self, bounds, _): return bounds
    def worth(self, _): return 2**32  # lengths that stand twice
    def later(self): return NEAR if self.job.time > UNSET else 60 * (self.job.time > 0)
    def is_near(self, at): return -EARLIER <= self.when(at) - self.job.time <= self.later()

    def row(self, start, most=HELD):
        """The starts of units in a row, up to a number, and the end of the last; what follows."""
        bounds, end, size, held = [start], start, self.job.size, self.job.load(start)
        while (end and end <= size and len(bounds) <= most
               and end - start <= (FAR if len(bounds) <= UNITS else INSIDE)):
            end = self.step(end, *held)
            bounds += [end] if end and end <= size else []
            if end in self.rows:  # the rest was looked at before
                break
        self.job.tried += len(bounds)
        joined, number, after = self.rows.get(end, ([], 0, end))
        if not joined:
            self.rows.update((it, (bounds, number, end)) for number, it in enumerate(bounds))
        return bounds + joined[number + 1 :], after

    def chain(self, start, is_headed=False):
        """The units in a row from a place on, if they are believed."""
        job, (bounds, end) = self.job, self.row(start)
        if end and end <= job.size or bounds[1:] and job.capture_at(bounds[-1]):
            return bounds
        is_end = bounds[-1] == job.size or is_headed and end or self.is_sure and job.time is NO_TIME
        is_right = is_end or all(map(self.is_near, bounds[: self.TIMED]))
        return bounds if len(bounds) > job.row and is_right else None

    def first(self, begin, end, passes):
        """The first chain between two places."""
        found, self.rows = [], {}
        for place in self.job.places(*self.LIKELY[self.order], begin, end):
            if found and found[0] <= place:
                break
            bounds = self.chain(place)
            if bounds and (place >= passes or place not in self.last and bounds[-1] > passes):
                found = min(filter(None, (found, self.grounded(bounds, passes))), default=[])
        self.after = found[:-1][:KNOWN]
        return found and self.without_carried(found)

    def without_carried(self, bounds):
        """A chain without what a lost packet may have carried: its start, if it is too early."""
        least = self.job.time - EARLIER
        late = [*itertools.dropwhile(lambda it: self.when(it) < least, bounds[:-1])]
        is_carried = len(late) > 3 and 0 < late[0] - bounds[0] <= INSIDE
        return late + bounds[-1:] if is_carried and all(map(self.is_near, late[:3])) else bounds


class Records(Reader):
    """The records of pcap."""
    is_sure, TIMED, units, link, usual = False, 3, None, 1, USUAL[1]  # Ethernet
    # The lengths' high bytes, the captured one not being 0; and how far in a record they are.
    LIKELY = {"<": (re.compile(rb"(?s)\0(?<!\0{4})(?<=[\0-\4].)..[\0-\4]\0"), 11, b"\0"),
              ">": (re.compile(rb"(?s)\0[\0-\4](?!\0\0)..\0[\0-\4]"), 8, b"\0")}

    def begin(self, at):
        """The file header of what is written."""
        if self.units is None:
            self.units = 10**9 if max(self.head(it)[1] for it in self.after) >= 10**6 else 10**6
            self.job.note(at, f"no file header: read as pcap of link type {self.link}")
        fields = MAGICS[self.units], 2, 4, 0, 0, LONGEST, self.link
        self.job.begin(struct.pack(self.order + "I2H4I", *fields))

    def when(self, at): return self.head(at)[0]
    def end(self, at): return at + 16 + self.head(at)[2]
    def is_usual(self, at): return bool(self.usual.match(self.job.start(at), 16, self.end(at) - at))
    def worth(self, it): return sum(map(self.weigher([], it[:-1][:KNOWN]), it[:-1][:1000]))

    def step(self, at, data, base):
        """The end of a record; past the end of the file if it is cut; None if it isn't one."""
        if at + 16 > self.job.size:
            return self.job.size + 1
        _, _, captured, original = self.unpack(data, at - base)
        return at + 16 + captured if 0 < captured <= original <= LONGEST else None

    def weigher(self, before, after):
        """What weighs a record by those before and after damage, without those next to it."""
        places = self.sound(before)
        places += after[self.edge(after) :] if len(places) < DOUBTED else []
        heads = {it: self.head(it) for it in places}
        times, parts, sizes, _ = zip(*heads.values()) if heads else [()] * 4
        least, most = min((14, *sizes)) if sizes else 1, max((INSIDE, *sizes))  # 14: a link header
        snap = max((it[2] for it in heads.values() if it[2] < it[3]), default=None)
        known = sorted(it for it in times if it > UNSET)
        near = {it for two in itertools.pairwise(known) if two[1] - two[0] <= NEAR for it in two}
        is_steady = 16 * sum(it not in near for it in known) <= len(known) >= FEW
        is_set = is_steady or len(places) > len(known) == 0

        @functools.cache
        def are_usual(): return 4 * sum(map(self.is_usual, heads)) >= 3 * len(heads) >= 3 * FEW

        def fits(head):
            _, part, captured, original = head
            is_whole = captured == original or captured == snap < original
            return least <= captured <= most and is_whole and captured != part

        are_fit = 16 * sum(not fits(it) for it in heads.values()) <= len(places) >= FEW

        def weigh(at):
            """What is for a record, less what is against it: time, lengths, first bytes."""
            seconds, part, captured, original = head = self.head(at)
            close = [heads[it][0] for it in sorted(heads, key=lambda it: abs(it - at))[:2]]
            time = (not close or min(close) - EARLIER <= seconds <= max(close) + 3600) - 1
            if seconds > UNSET:
                time = any(abs(it - seconds) <= NEAR for it in known) or -is_set
            time = -1 if part >= max([self.units or 10**9, *(it + 1 for it in parts)]) else time
            is_odd = captured == part or not least <= captured <= original <= LONGEST
            length = fits(head) or -(are_fit or is_odd)
            signs = time, length, time + length > 1 or self.is_usual(at) or -are_usual()
            return sum(signs) - (min(signs) < 0) / 4
        return weigh

    def grounded(self, bounds, passes):
        """A chain from where least is lost, of it and of what was read there; None if too short."""
        last, least = self.last, min(len(bounds) - 1, self.job.row)
        ends = {passes, *map(self.end, last)}
        while len(bounds) > least:
            self.job.tried += 100
            places = bounds[:-1][:KNOWN]
            weigh, doubted = self.weigher(last, places), places[: self.edge(places)]
            lost = [weigh(it) + (it < passes) + (it in ends) - 0.5 for it in doubted]
            losses = [already + sum(max(0, weigh(it) + 0.5) for it in last if self.end(it) > place)
                      for already, place in zip(itertools.accumulate(lost, initial=0), bounds)]
            if not (cut := losses.index(min(losses))):
                return bounds
            if cut == len(lost) and len(bounds) > UNITS and set(lost) == {-0.5}:
                return bounds[1:]  # nothing is known of any
            bounds = bounds[cut:]
        return None

    def read_held(self, at, data, base):
        """Reads some of the records held, up to a fault."""
        job, units, unpack = self.job, self.units, self.unpack
        last, made, done, snap = [*self.last], bytearray(), at, None
        time, stop = self.when(last[-1] if last else at), min(at + ZONE, job.size - 16)
        while at <= stop:
            seconds, part, captured, original = unpack(data, at - base)
            if captured > LONGEST or (end := at + 16 + captured) > job.size:
                break
            is_right = captured == original or captured == snap < original
            is_right = is_right and 0 < original <= LONGEST and part < units
            if not is_right or not -NEAR <= seconds - time <= NEAR:
                if self.is_fault(at, last[-KNOWN:]):
                    break
                snap = captured if captured < original else snap
                if part >= units:
                    job.note(at, "a fraction of a second or more, written as 0")
                    made += data[done - base : at + 4 - base] + b"\0\0\0\0"
                    done = at + 8
            last.append(at)
            at, time = end, seconds
        job.packets, self.last = job.packets + len(last) - len(self.last), last[-KNOWN:]
        job.keep(done, at, made)
        return at

    def is_fault(self, at, last):
        """Whether this isn't a record after the last ones, as far as that may be asked."""
        asked, (_, part, captured, original) = self.job.asked, self.head(at)
        is_late = part >= self.units
        if not captured | original or is_late and not 0 < captured <= original <= LONGEST:
            return True
        is_odd = captured != original or is_late  # more than a time far from the last
        asked[is_odd] += 1
        if asked[is_odd] > (20 if is_odd else 1) * (1000 + at // INSIDE):
            return False
        after, end = self.row(at + 16 + captured, KNOWN)
        return self.weigher(last, after[:-1])(at) + bool(after[1:] or end) < (0.5 if last else -1.5)

    def settle(self, at, place):
        """Drops records before a fault, or puts one right; returns the end of those kept."""
        weigh = self.weigher(self.last, [it for it in self.after if it >= place])
        kept = sum(self.end(it) <= place for it in self.sound(self.last))
        is_near = weigh(at) > 0 or self.job.time > UNSET and self.is_near(at)
        goals = place, at if is_near and (self.steps(at) or 0) > self.job.size else place
        left = [it for it in self.last[kept:] if self.end(it) <= place]
        totals = itertools.accumulate(map(weigh, left))
        kept_by = [0, *(total + (self.end(it) in goals) for total, it in zip(totals, left))]
        kept += kept_by.index(max(kept_by))
        dropped = [it for it in self.last[kept:] if it >= self.job.kept[0]]
        at, self.last = min([at, *dropped]), self.last[:kept]
        self.job.kept = self.job.kept[0], min(self.job.kept[1], at)
        self.job.packets -= len(dropped)
        size = place - at - 16
        is_right = place < self.job.size and 0 < size <= LONGEST and size in self.head(at)[2:]
        if not is_right or weigh(at) <= -2:
            return at
        seconds, part, was, original = self.head(at)
        why = f"a captured length of {was}, written as {size}"
        self.job.note(at, why if size != was else f"a fraction of {part}, written as 0")
        head = struct.pack(self.order + "4I", seconds, part * (part < self.units), size, original)
        self.job.put(head + self.job.get(at + 16, size))
        self.job.packets += 1
        return place


class Blocks(Reader):
    """The blocks of pcapng."""
    is_sure, TIMED = True, 1
    LIKELY = {"<": (re.compile(rb"\0\0\0(?<=[\1-\3\6]\0\0\0)"), 1, b"\0"),
              ">": (re.compile(rb"\0\0\0[\1-\3\6]"), 0, b"\0")}
    # A section's interfaces: clocks, blocks, the first snap length, whether one is lost.
    faces, described, snap, is_torn = [], b"", 0, False

    def begin(self, at):
        """A section header, if there is none."""
        self.job.begin(b"")
        if self.job.get(at, 4) != SECTION_TYPE:
            self.job.note(at, "no section header")
            if len(self.described) > ZONE:
                self.faces, self.described, self.is_torn = [], b"", True
            header = struct.pack(self.order + "IIIHHqI", SECTION, 28, ORDER_MAGIC, 1, 0, -1, 28)
            self.job.put(header + self.described)

    def when(self, at):
        """The time of a packet; no number if it isn't known."""
        kind, _, face, high = self.head(at)
        is_known = kind == ENHANCED and face < len(self.faces)
        return (high << 32 | self.head(at + 16)[0]) / self.faces[face][0] if is_known else NO_TIME

    def step(self, at, data, base):
        """The end of a block; past the end of the file if it is cut; None if it isn't one."""
        size, place = self.job.size, at - base
        if at + 12 > size:
            return size + 1
        kind, length = self.sizes(data, place)
        is_right = LEAST.get(kind, 12) <= length <= LONGEST_BLOCK and not length & 3
        if at + length > size or not is_right:
            return at + length if is_right and kind <= 10 else None
        is_right = data[place + 4 : place + 8] == data[place + length - 4 : place + length]
        if is_right and kind == ENHANCED:
            is_right = 32 + self.sizes(data, place + 16)[1] <= length
        elif kind == SECTION:
            is_right &= SECTIONS.get(data[place + 8 : place + 16]) == self.order
        return at + length if is_right else None

    def read_held(self, at, data, base):
        """Reads blocks in the bytes held, up to one that is none or isn't held as a whole."""
        made, done, most, ends = bytearray(), at, base + len(data) - 16, self.ends
        kind, length = self.sizes(data, at - base)
        while length and (end := at + length) <= most:
            again, after, more = ends(data, end - base - 4)
            if again != length or length & 3 or not LEAST.get(kind, 12) <= length <= LONGEST_BLOCK:
                break
            block, why = self.right(kind, data[at - base : end - base])
            if block is None:
                break
            if why:
                made += data[done - base : at - base] + block
                done = end
                self.job.note(at, why, 0 if block else length)
            at, kind, length = end, after, more
        self.job.keep(done, at, made)
        return at

    def right(self, kind, block):
        """A block put right, and what is; no bytes if capkit refuses it, None if it isn't one."""
        if kind == ENHANCED or kind == INTERFACE:
            return (self.enhanced if kind == ENHANCED else self.interface)(block)
        if kind == OBSOLETE:
            fields = struct.pack(self.order + "3I", ENHANCED, len(block), self.option(block, 8)[0])
            block, why = self.enhanced(fields + block[12:])
            return block, why or "an obsolete packet block, written as an enhanced one"
        if kind == SECTION:
            if SECTIONS.get(block[8:16]) != self.order:
                return None, ""
            self.faces, self.described, self.is_torn = [], b"", False
        elif kind == SIMPLE:
            if not self.faces or self.snap > len(block) - 16 < self.ends(block)[2]:
                return b"", " (a simple packet block, cut or of no interface)"
            self.job.packets += 1
        return block, ""

    def interface(self, block):
        """An interface, without its options if capkit doesn't read them; none after damage."""
        if self.is_torn or len(self.faces) == MOST_INTERFACES:
            self.faces, self.described, self.is_torn = [], b"", True
            return b"", " (an interface whose number isn't known)"
        if not self.faces:
            self.described, self.snap = bytearray(), self.sizes(block, 8)[1] or 2**32
        clock = self.clock(block[16:-4])
        if not clock:
            block = block[:4] + SHORT[self.order] + block[8:16] + SHORT[self.order]
        self.faces.append(clock or self.clock(b""))
        self.described += block if len(self.described) <= ZONE else b""
        return block, "" if clock else "an interface, without its options"

    def options(self, data, place):
        """The options from a place on, the first of each code, and the end of the last."""
        found, code = {}, 1
        while place < len(data) and code:
            code, length = self.option(data, place)
            found.setdefault(code, data[place + 4 : place + 4 + length])
            place += 4 + (length + 3 & -4)
        return found, place

    @functools.lru_cache(2)
    def clock(self, options):
        """The ticks of a second, the least and the greatest, if capkit reads these options."""
        found, at = self.options(options, 0)
        second, given = TICKS.get(found.get(9, b"\6"), 0), found.get(14, bytes(8))
        offset = struct.unpack(self.order + "q", given)[0] if len(given) == 8 else 2**63
        least, end = max(0, -offset * second), self.job.most - offset * 10**9
        is_right = at <= len(options) and len(found.get(2, b"")) < 256 and least < 2**64 and end > 0
        return (second, least, -(-end * second // 10**9) - 1) if second and is_right else None

    def enhanced(self, block):
        """A packet, with the least time if its own is out of range."""
        face, high, low, captured, original = self.packet(block, 8)
        end = 28 + (captured + 3 & -4)
        if end > len(block) - 4:
            return None, ""
        if captured < original and self.options(block[:-4], end)[1] != len(block) - 4:
            return b"", " (a packet that doesn't fill its block)"
        if face >= len(self.faces):
            return b"", " (a packet whose interface isn't known)"
        if not captured | original:
            return b"", " (a packet without a length)"
        second, least, greatest = self.faces[face]
        self.job.time = (ticks := high << 32 | low) / second
        self.job.packets += 1
        if least <= ticks <= greatest:
            return block, ""
        time = struct.pack(self.order + "II", least >> 32, least % 2**32)
        return block[:12] + time + block[20:], "a time out of range, written as 0"

    def settle(self, at, place):
        """Keeps the block at a fault if one of its lengths leads to the chain that was found."""
        size = place - at
        if 12 <= size <= LONGEST_BLOCK and size % 4 == 0:
            block, length = self.job.get(at, size), struct.pack(self.order + "I", size)
            kind = self.sizes(block)[0]
            is_known = kind <= 10 and LEAST.get(kind, 12) <= size or block[8:16] in SECTIONS
            is_empty = kind == ENHANCED and block[20:28] == bytes(8)  # of both lengths
            if is_known and not is_empty and length in (block[4:8], block[-4:]):
                block = block[:4] + length + block[8:-4] + length
                block, why = self.right(kind, block)
                why = why or "a block with a damaged length, put right" if block else why
                self.job.note(at, why, 0 if block else size)
                self.job.put(block or b"")
                return place
        self.is_torn = True
        return at


def copied(held, is_text=False):
    """A copy of a file, without a name; after text mode, without what that has added."""
    copy = tempfile.TemporaryFile()
    while part := os.read(held.fileno(), ZONE):  # raises an error if a pipe that doesn't wait has no bytes
        if is_text and part.endswith(b"\r") and len(part) > 1:
            held.seek(-1, os.SEEK_CUR)
            part = part[:-1]
        copy.write(part.replace(b"\r\n", b"\n") if is_text else part)
    copy.flush()
    return copy


def infos(held):
    """Whether capkit reads a file to its end, and its number of packets or the fault's place."""
    held.seek(0)
    done = run(["capkit", "infos", "-"], stdin=held, capture_output=True)
    found = re.search(rb"(?m)^Packets: (\d+)$|^capkit:.*offset (\d+): ", done.stdout or done.stderr)
    return done.returncode == 0, int(found[1] or found[2]) if found else -1


def work(given, path):
    """Writes OUT by a path; returns how many packets, places, and bytes left out of how many."""
    held = open(0 if given.IN == "-" else given.IN, "rb", buffering=0)
    held = held if os.path.isfile(held.fileno()) else copied(held)
    job = Job(held, given.IN, max(given.row, 1), given.form, path)
    is_sound, number = infos(held)
    held.seek(0)
    if is_sound:
        if run(job.words, stdin=held).returncode == 0:
            return number, 0, 0, job.size
        if path == given.OUT:  # else a time that pcap hasn't is put right like damage
            raise ChildProcessError("capkit doesn't write its packets")
    elif 3 <= (start := job.get(0, ZONE)).count(b"\n") == start.count(b"\r\n"):
        text = copied(held, True)
        if infos(text) > (is_sound, number):
            job.note(0, "text mode is undone: places are those of the file as it was")
            job.held, job.size = text, os.fstat(text.fileno()).st_size
    guessed = [kind(job, order) for kind in (Records, Blocks) for order in "<>"]
    try:
        job.salvage([job.like(given.like)] if given.like else guessed)
        if not job.packets:
            raise OSError("no capture is found in it")
        job.begin(b"")
        job.end(job.final)
    finally:
        for process in filter(None, (job.piece, job.final)):
            process.kill()
            process.communicate()
    return job.packets, max(job.damages, 1), job.left_out, job.size


def main():
    parser = argparse.ArgumentParser(description=__doc__.split("\n")[0])
    parser.add_argument("-F", dest="form", default="pcapng", choices=["pcap", "nsecpcap", "pcapng"])
    parser.add_argument("-n", dest="row", type=int, default=3, help="records or blocks in a row")
    parser.add_argument("--like", metavar="FILE", help="whose beginning IN has lost")
    parser.add_argument("IN")
    parser.add_argument("OUT")
    given = parser.parse_args()
    while (number := os.open(os.devnull, os.O_RDONLY)) < 3:
        pass  # no file gets the number of a closed one
    os.close(number)
    for number in (signal.SIGTERM, signal.SIGHUP):
        signal.signal(number, lambda *_: parser.exit(1))
    part = path = given.OUT
    if path != "-" and (os.path.isfile(path) or not os.path.exists(path)):
        part = f"{(path := os.path.realpath(path))}.{os.getpid()}.part"
    try:
        out = 1 if path == "-" else path
        for name in (0 if given.IN == "-" else given.IN, given.like or given.IN):
            if os.path.isfile(name) and os.path.exists(out) and os.path.samefile(name, out):
                parser.error("OUT is an input too")
        packets, places, left_out, size = work(given, part)
        if part != path:
            os.replace(part, path)
    except OSError as error:
        if not isinstance(error, BrokenPipeError):  # capkit has reported it
            report(f"salvage.py: {error.filename or given.IN}: {error.strerror or error}")
        parser.exit(1)
    finally:
        if part != path and os.path.exists(part):
            os.remove(part)
    damage = f"{places} place{'s' * (places != 1)} of damage, {left_out} of {size} bytes left out"
    report(f"{given.OUT}: {packets} packets, {damage}")
    parser.exit(1 if places else 0)


if __name__ == "__main__":
    main()
