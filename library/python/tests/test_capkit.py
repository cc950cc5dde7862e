"""What the package adds to libcapkit: errors, lifetimes, formats, and the layout of the structs.

CAPKIT_SAMPLES names the folder of the samples, else it is that of the repository.
"""
import contextlib
import io
import multiprocessing
import os
import pathlib
import pickle
import random
import shutil
import subprocess
import tempfile
import threading
import time
import unittest

import capkit

SAMPLES = pathlib.Path(
    os.environ.get("CAPKIT_SAMPLES", pathlib.Path(__file__).resolve().parents[3] / "samples")
)
# An Ethernet packet of ARP, and one of IPv4 and UDP.
ARP = bytes(12) + b"\x08\x06" + bytes(28)
UDP = bytes(12) + b"\x08\x00\x45" + bytes(8) + b"\x11" + bytes(18)


def packet(data=ARP, **fields):
    values = {"time": 1_700_000_000_123_456_789, "link_type": capkit.LINK_ETHERNET, "data": data}
    return capkit.Packet(**{**values, **fields})


def count_of(text):
    """What a worker does: it takes an expression, and its error is given back."""
    return sum(1 for _ in capkit.packets(SAMPLES / "day.pcap", text))


def written(packets, format="pcapng"):
    file = io.BytesIO()
    with capkit.Writer(file, format) as writer:
        for each in packets:
            writer.write(each)
    return file.getvalue()


def some_packet(chance, format, link_type, name, snap_length):
    """A packet that any capture of a format holds; libpcap has times up to 2038 and a bit."""
    time, data = chance.randrange(2 * 10**18), chance.randbytes(chance.choice((0, 1, 60, 999)))
    comment = chance.randbytes(chance.choice((0, 0, 1, 70))) if format == "pcapng" else b""
    time = time // 1000 * 1000 if format == "pcap" else time
    return capkit.Packet(time, link_type, data, chance.getrandbits(32), comment, name, snap_length)


def by_libpcap(capture):
    """The packets that libpcap reads, as tcpdump writes them."""
    words = ["tcpdump", "-r", "-", "--nano", "-w", "-"]
    return list(capkit.packets(subprocess.run(words, input=capture, capture_output=True).stdout))


def kept_by_pcap(packet):
    return packet._replace(comment=b"", interface_name=b"", snap_length=262144)


class FilterTest(unittest.TestCase):
    def test_matches(self):
        arp = capkit.Filter("arp", capkit.LINK_ETHERNET)
        self.assertTrue(arp.matches(ARP))
        self.assertFalse(arp.matches(UDP))
        self.assertFalse(arp.matches(b""))
        for kind in (bytearray, memoryview):
            self.assertTrue(arp.matches(kind(ARP)))
        # Its length is that of its bytes, whatever its items are.
        self.assertTrue(capkit.Filter("len = 6", 1).matches(memoryview(b"abcdef").cast("H")))
        for wrong in (packet(), "text", 7):
            with self.assertRaisesRegex(TypeError, "data is bytes, not"):
                arp.matches(wrong)

    def test_original_length(self):
        long = capkit.Filter("greater 1000", capkit.LINK_ETHERNET)
        self.assertFalse(long.matches(ARP))
        self.assertTrue(long.matches(ARP, 1000))
        for wrong in (-1, 1 << 32):
            with self.assertRaises(ValueError):
                long.matches(ARP, wrong)

    def test_listing_is_that_of_tcpdump(self):
        # tcpdump -y EN10MB -ddd arp
        arp = capkit.Filter("arp", capkit.LINK_ETHERNET)
        self.assertEqual(arp.listing, "4\n40 0 0 12\n21 0 1 2054\n6 0 0 262144\n6 0 0 0\n")
        self.assertEqual(arp.instructions[1], capkit.Instruction(21, 0, 1, 2054))
        self.assertTrue(arp.is_portable)
        self.assertEqual(str(arp), arp.listing)
        self.assertEqual(capkit.Filter.from_listing(arp.listing), arp)
        for text, line in (("", 1), ("2\n6 0 0 0\n", 3), ("1\n6 0 0 \u0660\n", 2)):
            with self.assertRaises(capkit.ListingError) as caught:
                capkit.Filter.from_listing(text)
            self.assertEqual(str(caught.exception), f"not a listing (at line {line})")
        with self.assertRaisesRegex(capkit.ProgramError, "no return at the end"):
            capkit.Filter.from_listing("1\n128 0 0 0\n")
        with self.assertRaisesRegex(TypeError, "a listing is a str, not bytes"):
            capkit.Filter.from_listing(b"1\n6 0 0 0\n")

    def test_values(self):
        """Filters and expressions compare, are shown, and go to other processes, used or not."""
        arp, text = capkit.Filter("arp", 1), capkit.Expression("tcp")
        text.matches(packet())
        self.assertEqual(arp, capkit.Filter.from_instructions(arp.instructions))
        self.assertNotEqual(arp, capkit.Filter("udp", 1))
        shown = (repr(text), str(text), repr(arp))
        self.assertEqual(shown, ("Expression('tcp')", "tcp", "<Filter of 4 instructions>"))
        for value in (arp, text):
            self.assertEqual(pickle.loads(pickle.dumps(value)), value)
            self.assertEqual(len({value, pickle.loads(pickle.dumps(value))}), 1)
        self.assertNotEqual(text, "tcp")
        for call in (capkit.Expression, capkit.explain, lambda text: capkit.Filter(text, 1)):
            with self.assertRaisesRegex(TypeError, "an expression is a str, not bytes"):
                call(b"tcp")

    def test_errors_reach_other_processes(self):
        program, capture = capkit.ProgramError(108, 3), capkit.CaptureError(202, 7, None)
        for error in (capkit.CompileError(3, 5), program, capture, capkit.ListingError(2), capkit.WriteError("why")):
            again = pickle.loads(pickle.dumps(error))
            self.assertEqual((str(again), vars(again)), (str(error), vars(error)))
        with self.assertRaises(capkit.CaptureError) as caught:
            list(capkit.packets(SAMPLES / "damaged.pcap"))
        self.assertEqual(len(list(pickle.loads(pickle.dumps(caught.exception)).packets)), 30)
        with multiprocessing.Pool(2) as pool:
            self.assertEqual(pool.map(count_of, ["tcp", "arp"]), [34, 2])
            with self.assertRaisesRegex(capkit.CompileError, "unknown word"):
                pool.map(count_of, ["tcp prt 80"])

    def test_trace(self):
        arp = capkit.Filter("arp", capkit.LINK_ETHERNET)
        steps = arp.trace(ARP)
        self.assertEqual([(step.index, step.a) for step in steps], [(0, 0), (1, 0x806), (2, 0x806)])
        self.assertEqual(steps[0].memory, (0,) * 16)
        self.assertEqual([step.index for step in arp.trace(b"")], [0])
        # tcpdump -y EN10MB -d arp
        self.assertEqual(arp.text(0), "(000) ldh      [12]")
        self.assertEqual(arp.text(1), "(001) jeq      #0x806           jt 2\tjf 3")
        with self.assertRaises(IndexError):
            arp.text(4)

    def test_instructions_from_elsewhere(self):
        length = capkit.Filter.from_instructions([(128, 0, 0, 0), (22, 0, 0, 0)])
        self.assertEqual(length.run(ARP, 99), 99)
        self.assertFalse(length.is_portable)
        with self.assertRaisesRegex(capkit.ProgramError, r"no return at the end \(instruction 0\)"):
            capkit.Filter.from_instructions([(128, 0, 0, 0)])
        with self.assertRaisesRegex(capkit.ProgramError, "empty"):
            capkit.Filter.from_instructions([])
        with self.assertRaisesRegex(ValueError, "code 65542"):
            capkit.Filter.from_instructions([(65542, 0, 0, 0)])

    def test_refused_expressions(self):
        for text, place, reason in [
            ("prt 80", 1, r"unknown word \(at byte 1\)"),
            ("tcp ?", 5, r"unknown character \(at byte 5\)"),
            ("tcp \udcff", 5, r"not UTF-8 \(at byte 5\)"),
            ("tcp \ud800", 5, r"not UTF-8 \(at byte 5\)"),
            ("tcp port", None, "not an expression$"),
            ("tcp " * 20000, None, "longer than 65536 bytes"),
        ]:
            with self.subTest(text=text[:9]):
                with self.assertRaisesRegex(capkit.CompileError, reason) as caught:
                    capkit.Expression(text)
                self.assertEqual(caught.exception.place, place)
        self.assertIs(caught.exception.status, capkit.Status.TOO_LONG)

    def test_explain(self):
        meaning = "((tcp src or dst port 80) or (tcp src or dst port 443)) and (src or dst host 10.0.0.1)"
        self.assertEqual(capkit.explain("tcp port 80 or 443 and host 10.0.0.1"), meaning)
        self.assertEqual(capkit.explain(meaning), meaning)
        self.assertEqual(capkit.explain(""), "")
        for text, place in [("tcp prt 80", 5), ("tcp \udcff", 5), ("tcp port", None)]:
            with self.assertRaises(capkit.CompileError) as caught:
                capkit.explain(text)
            self.assertEqual(caught.exception.place, place)
        long = capkit.explain("port " + " or ".join(map(str, range(400))))
        self.assertTrue(long.endswith("(src or dst port 398)) or (src or dst port 399)"))
        self.assertEqual(long.count("("), long.count(")"))

    def test_link_types(self):
        with self.assertRaisesRegex(capkit.CompileError, "link type not filtered"):
            capkit.Filter("arp", 276)
        with self.assertRaisesRegex(ValueError, "link type 65537"):
            capkit.Filter("arp", 65537)
        ip = capkit.Expression("udp")
        self.assertTrue(ip.matches(packet(UDP)))
        self.assertTrue(ip.matches(packet(UDP[14:], link_type=capkit.LINK_RAW)))
        # libpcap's DLT_RAW
        self.assertTrue(ip.matches(packet(UDP[14:], link_type=12)))
        self.assertIs(ip.filter(capkit.LINK_RAW), ip.filter(capkit.LINK_RAW))

    def test_line(self):
        # What `capkit print` and `capkit print -e` print.
        line = packet(b"\x45", link_type=capkit.LINK_RAW).line()
        self.assertEqual(line, "2023-11-14 22:13:20.123456789 IP [short], length 1")
        line = packet(b"\x45", link_type=capkit.LINK_RAW, original_length=60).line(with_link=True)
        self.assertEqual(line, "2023-11-14 22:13:20.123456789 raw, IP [short], length 60")
        with self.assertRaisesRegex(ValueError, "time"):
            packet(time=1 << 63).line()

    def test_long_program(self):
        # Addresses that no range or mask has in one.
        hosts = " or ".join(f"host 10.0.{i // 128}.{2 * i % 256}" for i in range(600))
        self.assertGreater(len(capkit.Filter(hosts, capkit.LINK_ETHERNET).instructions), 600)

    def test_threads_share_a_filter(self):
        expression, counts = capkit.Expression("tcp"), []

        def count():
            counts.append(sum(map(expression.matches, capkit.packets(SAMPLES / "day.pcap"))))

        threads = [threading.Thread(target=count) for _ in range(4)]
        for thread in threads:
            thread.start()
        for thread in threads:
            thread.join()
        self.assertEqual(counts, [34] * 4)


class PacketsTest(unittest.TestCase):
    @unittest.skipUnless(shutil.which("tcpdump"), "tcpdump isn't there")
    def test_samples_are_as_libpcap_reads_them(self):
        for path in sorted(SAMPLES.glob("*.pcap*")):
            with self.subTest(path=path):
                theirs, ours = by_libpcap(path.read_bytes()), []
                with contextlib.suppress(capkit.CaptureError):
                    ours.extend(map(kept_by_pcap, capkit.packets(path)))
                self.assertTrue(theirs)
                self.assertEqual(ours[: len(theirs)], theirs)

    def test_comments(self):
        comments = [p.comment for p in capkit.packets(str(SAMPLES / "comments.pcapng"))]
        self.assertEqual(comments, [b"a first look", b"", b"of two"])
        longest = [packet(comment=bytes(range(1, 256)) * 257), packet(), packet(comment=b"look\0")]
        self.assertEqual(list(capkit.packets(written(longest))), longest)

    def test_a_fault_has_the_packets_before(self):
        with self.assertRaisesRegex(capkit.CaptureError, "^offset 2631: too long$") as caught:
            list(capkit.packets(SAMPLES / "damaged.pcap"))
        fault = caught.exception
        self.assertEqual((fault.offset, fault.reason), (2631, "too long"))
        self.assertEqual(len(list(fault.packets)), 30)
        self.assertEqual(list(fault.packets)[29], list(fault.packets)[29])

    def test_no_capture(self):
        with self.assertRaisesRegex(capkit.CaptureError, "not a capture file") as caught:
            next(capkit.packets(b"some text"))
        self.assertEqual(list(caught.exception.packets), [])
        with self.assertRaises(capkit.CaptureError):
            list(capkit.packets(b""))
        with self.assertRaises(FileNotFoundError):
            capkit.packets(SAMPLES / "missing.pcap")
        with self.assertRaises(IsADirectoryError):
            capkit.packets(SAMPLES)

    def test_each_loop_begins_anew(self):
        with capkit.Capture(SAMPLES / "day.pcap") as capture:
            first = iter(capture)
            next(first)
            self.assertEqual(len(list(capture)), 44)
            self.assertEqual(len(list(first)), 43)
        with self.assertRaises(ValueError):
            list(capture)

    def test_sources(self):
        path = SAMPLES / "comments.pcapng"
        data, want = path.read_bytes(), list(capkit.packets(path))
        for source in (str(path), data, bytearray(data), memoryview(data), io.BytesIO(data)):
            self.assertEqual(list(capkit.packets(source)), want)
        for buffering in (0, -1):
            with open(path, "rb", buffering) as file:
                self.assertEqual(list(capkit.packets(file)), want)
        for source in (7, None):
            with self.assertRaisesRegex(TypeError, "source is a path, a binary file or bytes, not"):
                capkit.packets(source)

    def test_filtered(self):
        """What packets takes is what matches takes, of several link types and in small pieces."""

        class Drops(io.RawIOBase):
            def readinto(self, view):
                piece = self.bytes[: min(7, len(view))]
                view[: len(piece)], self.bytes = piece, self.bytes[len(piece) :]
                return len(piece)

        links = [packet(UDP), packet(UDP[14:], link_type=capkit.LINK_RAW), packet(), packet(UDP)]
        for source in [(SAMPLES / "day.pcap").read_bytes(), written(links)]:
            udp, drops = capkit.Expression("udp"), Drops()
            want = [p for p in capkit.packets(source) if udp.matches(p)]
            self.assertTrue(want)
            drops.bytes = source
            for each in (source, io.BytesIO(source), drops):
                self.assertEqual(list(capkit.packets(each, "udp")), want)
        unknown = written([packet(link_type=276), packet(UDP)])
        with self.assertRaises(capkit.CompileError):
            list(capkit.packets(unknown, "udp"))
        for blanks in ("", " \t"):
            self.assertEqual(list(capkit.packets(unknown, blanks)), list(capkit.packets(unknown)))

    def test_a_live_pipe_gives_each_packet_as_it_comes(self):
        data, first = written([packet(), packet(UDP)]), len(written([packet()]))
        read_end, write_end = os.pipe()
        with open(read_end, "rb") as source, open(write_end, "wb", 0) as end:
            end.write(data[: first + 20])
            packets, start = capkit.packets(source), time.monotonic()
            self.assertEqual(next(packets), packet())
            self.assertLess(time.monotonic() - start, 0.2)
            end.write(data[first + 20 :])
            self.assertEqual(next(packets), packet(UDP))
            end.write(data[first : first + 20])
            end.close()
            with self.assertRaises(capkit.CaptureError) as caught:
                next(packets)
        self.assertIsNone(caught.exception.packets)

    def test_a_file_that_shrinks(self):
        with tempfile.TemporaryDirectory() as folder:
            path = pathlib.Path(folder, "large.pcap")
            path.write_bytes(written([packet(bytes(60000))] * 20))
            packets = capkit.packets(path)
            next(packets)
            os.truncate(path, 100)
            with self.assertRaises(capkit.CaptureError) as caught:
                list(packets)
            self.assertIs(caught.exception.fault, capkit.Check.TRUNCATED)

    def test_many_packets_by_one_call(self):
        """Packets have the names, byte order and comments of their section, and their link type."""
        files = [SAMPLES / "comments.pcapng", SAMPLES / "two-sections.pcapng"]
        raw = packet(UDP[14:], link_type=capkit.LINK_RAW, interface_name=b"raw")
        files = [file.read_bytes() for file in files] + [written([raw, packet(), packet(UDP)] * 100)]
        want, udp = [p for file in files for p in capkit.packets(file)] * 3, capkit.Expression("udp")
        self.assertEqual(list(capkit.packets(b"".join(files) * 3)), want)
        want = [p for p in want if udp.matches(p)]
        self.assertEqual(list(capkit.packets(b"".join(files) * 3, udp)), want)


class WriterTest(unittest.TestCase):
    def test_what_is_written_reads_back(self):
        packets = [
            packet(comment=b"first", interface_name=b"eth0"),
            packet(UDP[14:], link_type=capkit.LINK_RAW, snap_length=96, original_length=1500),
            packet(UDP, interface_name=b"eth0"),
            packet(b""),
        ]
        self.assertEqual(list(capkit.packets(written(packets))), packets)
        nanoseconds = [packet(), packet(UDP, original_length=1500)]
        self.assertEqual(list(capkit.packets(written(nanoseconds, "nsecpcap"))), nanoseconds)
        times = [p.time for p in capkit.packets(written(nanoseconds, "pcap"))]
        self.assertEqual(times, [1_700_000_000_123_456_000] * 2)

    def test_random_captures_read_back(self):
        """By the package; those of one interface by libpcap too, if tcpdump is installed."""
        chance = random.Random(1)
        for round in range(60):
            format = ("pcapng", "pcapng", "pcap", "nsecpcap")[round % 4]
            links = [(1, b"", 262144)] if round % 4 else [
                (chance.randrange(200), chance.randbytes(chance.randrange(20)), chance.getrandbits(32))
                for _ in range(8)
            ]
            packets = [some_packet(chance, format, *chance.choice(links)) for _ in range(200)]
            capture = written(packets, format)
            self.assertEqual(list(capkit.packets(capture)), packets)
            if shutil.which("tcpdump") and round % 4:
                self.assertEqual(by_libpcap(capture), [kept_by_pcap(each) for each in packets])

    def test_large_packets(self):
        large = packet(bytes(262144))
        for format in ("pcap", "nsecpcap", "pcapng"):
            self.assertEqual(next(capkit.packets(written([large], format))).data, large.data)

    def test_refused_packets(self):
        for format, wrong, reason in [
            ("pcapng", packet(time=1 << 63), "time out of range"),
            ("pcapng", packet(time=-1), "time -1 is not"),
            ("pcapng", packet(comment=b"c" * 65536), "bad option"),
            ("pcapng", packet(interface_name=b"n" * 256), "bad option"),
            ("pcapng", packet(bytes(1048576)), "too long"),
            ("pcap", packet(bytes(262145)), "too long"),
            ("pcap", packet(time=10**9 << 32), "time out of range"),
            ("pcap", packet(link_type=capkit.LINK_RAW), "link types differ"),
            ("pcap", packet(link_type=65536), "link type 65536"),
        ]:
            with self.subTest(format=format, reason=reason):
                file = io.BytesIO()
                with capkit.Writer(file, format) as writer:
                    writer.write(packet())
                    with self.assertRaisesRegex(capkit.WriteError, reason):
                        writer.write(wrong)
                    writer.write(packet())
                self.assertEqual(file.getvalue(), written([packet()] * 2, format))

    def test_as_many_interfaces_as_capkit_writes(self):
        file, names = io.BytesIO(), [b"%d" % number for number in range(4097)]
        with capkit.Writer(file) as writer:
            for name in names[:256] * 2:
                writer.write(packet(interface_name=name))
            self.assertEqual([p.interface_name for p in capkit.packets(file.getvalue())], names[:256] * 2)
            for name in names[256:4096]:
                writer.write(packet(interface_name=name))
            with self.assertRaisesRegex(capkit.WriteError, "too many"):
                writer.write(packet(interface_name=names[4096]))

    def test_no_packets(self):
        self.assertEqual(len(written([])), 28)
        self.assertEqual(len(written([], "pcap")), 24)
        for format in ("pcapng", "pcap", "nsecpcap"):
            self.assertEqual(list(capkit.packets(written([], format))), [])

    def test_an_error_before_the_first_packet_leaves_the_file(self):
        with tempfile.TemporaryDirectory() as folder:
            path = pathlib.Path(folder, "out.pcapng")
            path.write_bytes(b"kept")
            with self.assertRaises(capkit.CaptureError):
                with capkit.Writer(path) as writer:
                    for each in capkit.packets(b"some text"):
                        writer.write(each)
            self.assertEqual(path.read_bytes(), b"kept")
            with capkit.Writer(path) as writer:
                writer.write(packet())
            self.assertEqual(path.read_bytes(), written([packet()]))
            with self.assertRaises(ValueError):
                writer.write(packet())

    def test_a_capture_that_is_read_is_not_written(self):
        with tempfile.TemporaryDirectory() as folder:
            path = pathlib.Path(folder, "self.pcap")
            path.write_bytes(written([packet()] * 2))
            with capkit.Capture(path) as capture, capkit.Writer(path) as writer:
                with self.assertRaisesRegex(capkit.WriteError, "is being read"):
                    for each in capture:
                        writer.write(each)
                self.assertEqual(len(list(capkit.packets(path))), 2)
                # Later it is written as a whole file.
                capture.close()
                writer.write(packet(UDP))
            self.assertEqual(path.read_bytes(), written([packet(UDP)]))

    def test_arguments(self):
        with capkit.Writer(io.BytesIO()) as writer:
            writer.write(packet(bytearray(ARP)))
            for name, value in [("data", "text"), ("comment", "text"), ("interface_name", 7), ("time", 1.5)]:
                with self.assertRaisesRegex(TypeError, f"^{name} is "):
                    writer.write(packet()._replace(**{name: value}))

    def test_formats(self):
        with self.assertRaisesRegex(ValueError, "pcapng, pcap, nsecpcap"):
            capkit.Writer(io.BytesIO(), "pcapng2")


if __name__ == "__main__":
    unittest.main()
