"""Samples that are damaged at random are read as the calls of capkit.h read them, from any source and in any pieces.

CAPKIT_ROUNDS is how many are made of each sample; CAPKIT_SEED what they are made of.
"""
import concurrent.futures
import ctypes
import io
import os
import pathlib
import pickle
import random
import tempfile
import unittest

import capkit
from capkit import native
from test_capkit import SAMPLES
from test_service import Parts, Pieces, Reads, again

ROUNDS, SEED = int(os.environ.get("CAPKIT_ROUNDS", 12)), int(os.environ.get("CAPKIT_SEED", 1))
END, SKIPPED, ODD = 222, 228, (208, 210, 212, 213)
_at, _size = ctypes.c_void_p, ctypes.c_size_t
NEXT = native.declare("capkit_next", ctypes.c_uint32, _at, _at, _size, _at, _size, _at)
COMMENT = native.declare("capkit_comment", _size, _at, _at, _size, _at, _at, _size)


def damaged(chance, data):
    """Data with bits, fields or pieces of it changed, or cut."""
    data = bytearray(data)
    for _ in range(chance.choice((1, 1, 1, 2, 5))):
        at = chance.randrange(len(data) or 1)
        kind = chance.randrange(6)
        if kind == 0:
            data[at : at + 1] = bytes(byte ^ 1 << chance.randrange(8) for byte in data[at : at + 1])
        elif kind == 1:
            number = chance.choice((0, 1, 4, 1000000, 262145, 1 << 20, 1 << 31, (1 << 32) - 1))
            data[at & ~3 : (at & ~3) + 4] = number.to_bytes(4, chance.choice(("little", "big")))
        elif kind == 2:
            del data[at : at + chance.randrange(1, 40)]
        elif kind == 3:
            other = chance.randrange(len(data) or 1)
            data[at:at] = data[other : other + chance.randrange(1, 300)]
        elif kind == 4:
            del data[max(at, 1) :]
        else:
            data[at : at + 1] = chance.randbytes(1)
    return bytes(data)


def by_the_calls(data, with_skip):
    """The packets by capkit_next, past odd units or not, how many were skipped, and what ended it."""
    reader, table = native.Reader(), (native.Interface * 256)()
    it, packets, skipped = native.PacketInfo(), [], 0
    place = ctypes.byref(reader), table, 256, data, len(data)
    while True:
        found = NEXT(*place, ctypes.byref(it))
        if found in ODD and with_skip:
            found = native.skip(*place)
        if found == SKIPPED:
            skipped += 1
        elif found:
            return packets, skipped, (found, reader.offset)
        else:
            comment = ctypes.create_string_buffer(it.options_length + 1)
            size = COMMENT(*place[:1], *place[3:], ctypes.byref(it), comment, len(comment))
            entry = table[it.interface] if it.interface < reader.interfaces else native.Interface()
            packets.append(capkit.Packet(
                it.time, it.link_type, data[it.at : it.at + it.captured], it.original,
                comment.raw[:size], bytes(entry.name[: entry.name_length]), it.snap,
            ))  # fmt: skip


def by_the_package(source, with_skip):
    """The same by the package, and the error."""
    packets, found = capkit.packets(source, skip=with_skip), []
    try:
        for each in packets:
            found.append(each)
    except capkit.CaptureError as error:
        return (found, packets.skipped, (error.fault, error.offset)), error
    return (found, packets.skipped, END), None


def pieces(chance, data):
    at = 0
    while at < len(data):
        size = chance.choice((1, 5, 24, 700, 100000))
        yield data[at : at + size]
        at += size


class DamageTest(unittest.TestCase):
    def setUp(self):
        folder = tempfile.TemporaryDirectory()
        self.addCleanup(folder.cleanup)
        self.path = pathlib.Path(folder.name, "a \n\udc80 name")

    def captures(self):
        chance = random.Random(SEED)
        for sample in sorted(SAMPLES.glob("*.pcap*")):
            data = sample.read_bytes()
            for _ in range(ROUNDS):
                yield chance, damaged(chance, data)

    def test_damaged_captures(self):
        with concurrent.futures.ThreadPoolExecutor(3) as pool:
            for chance, data in self.captures():
                for with_skip in (False, True):
                    packets, skipped, ending = by_the_calls(data, with_skip)
                    want = packets, skipped, END if ending[0] == END else ending
                    self.path.write_bytes(data)
                    raw = Pieces(pieces(chance, data))
                    buffered = io.BufferedReader(Pieces(pieces(chance, data)))
                    sources = [data, self.path, io.BytesIO(data), raw, buffered]
                    sources.append(Reads(Pieces(pieces(chance, data))))
                    results = pool.map(by_the_package, sources, [with_skip] * len(sources))
                    for (found, error), source in zip(results, sources):
                        self.assertEqual(found, want)
                        if error and (source is data or source is self.path):
                            before = pickle.loads(pickle.dumps(error)).packets
                            self.assertEqual(list(before), packets)
                            self.assertEqual(before.skipped, skipped)
                self.check_written(chance, packets)
                self.check_filtered(packets, data)

    def check_written(self, chance, packets):
        """What was read is written to an output that takes parts, and reads back."""
        output = Parts(chance, [3, 200, None, 5000, OSError()])
        writer = capkit.Writer(output)
        for each in packets:
            again(writer.write, each)
        again(writer.close)
        self.assertEqual(list(capkit.packets(output.bytes)), packets)

    def check_filtered(self, packets, data):
        tcp = capkit.Expression("tcp or len < 60")
        want = [it for it in packets if it.link_type in (1, 12, 101, 113) and tcp.matches(it)]
        found = capkit.packets(data, tcp, skip=True)
        try:
            for each in found:
                self.assertEqual(each, want.pop(0))
        except capkit.CaptureError:
            pass
        self.assertEqual(want, [])


if __name__ == "__main__":
    unittest.main()
