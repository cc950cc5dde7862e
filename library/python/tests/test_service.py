"""What a program that runs for months meets: workers, threads, few descriptors, files that change, partial input."""
import concurrent.futures
import contextlib
import errno
import gzip
import io
import itertools
import multiprocessing
import os
import pathlib
import pickle
import random
import resource
import shutil
import signal
import socket
import struct
import subprocess
import sys
import tempfile
import threading
import time
import unittest
import warnings

import capkit
from test_capkit import SAMPLES, UDP, packet, written

DAMAGED, DAY = SAMPLES / "damaged.pcap", SAMPLES / "day.pcap"


def error_of(source, expression=None):
    """The error that ends a capture."""
    try:
        for _ in capkit.packets(source, expression):
            pass
    except ValueError as error:
        return error
    raise AssertionError("no error")


def check_a_copy(number):
    """What a worker does: the error of a file that is gone goes to its caller."""
    with tempfile.TemporaryDirectory() as folder:
        return sum(1 for _ in capkit.packets(shutil.copy(DAMAGED, folder)))


def damaged(count=8, size=60000):
    """A capture of many pieces, and its offset of a fault."""
    whole = written([packet(bytes([number]) * size) for number in range(count)], "pcap")
    return whole + b"\xff" * 16, len(whole)


class FolderTest(unittest.TestCase):
    def setUp(self):
        folder = tempfile.TemporaryDirectory()
        self.addCleanup(folder.cleanup)
        self.folder = pathlib.Path(folder.name).resolve()
        self.path = self.folder / "odd\n\udcff name.pcap"


@contextlib.contextmanager
def few_descriptors(count=64):
    limits = resource.getrlimit(resource.RLIMIT_NOFILE)
    resource.setrlimit(resource.RLIMIT_NOFILE, (count, limits[1]))
    try:
        yield
    finally:
        resource.setrlimit(resource.RLIMIT_NOFILE, limits)


class ImportTest(unittest.TestCase):
    def test_an_import_takes_few_modules(self):
        """A short program's time is that of its imports, so the package needs none of the slow ones."""
        text = "import sys; had = {*sys.modules}; sys.path[:0] = sys.argv[1:]; import capkit; print(*{*sys.modules} - had)"
        words = [sys.executable, "-I", "-c", text, pathlib.Path(capkit.__file__).parents[1]]
        run = subprocess.run(words, capture_output=True, text=True, check=True)
        slow = {"dataclasses", "inspect", "logging", "pathlib", "socket", "subprocess", "tempfile", "urllib.parse"}
        self.assertEqual(slow & set(run.stdout.split()), set())


class ErrorsTest(FolderTest):
    def test_errors_of_files_that_are_gone_reach_other_processes(self):
        for method in ("fork", "spawn"):
            context = multiprocessing.get_context(method)
            with self.subTest(method=method), context.Pool(1) as pool:
                with self.assertRaisesRegex(capkit.CaptureError, "too long") as caught:
                    pool.map_async(check_a_copy, range(2)).get(60)
                with self.assertRaisesRegex(FileNotFoundError, "damaged.pcap"):
                    list(caught.exception.packets)
            with self.subTest(method=method), concurrent.futures.ProcessPoolExecutor(1, context) as pool:
                for future in [pool.submit(check_a_copy, number) for number in range(2)]:
                    self.assertIsInstance(future.exception(60), capkit.CaptureError)

    def test_packets_before_the_fault_in_another_folder(self):
        shutil.copy(DAMAGED, self.path)
        before = os.getcwd()
        self.addCleanup(os.chdir, before)
        os.chdir(self.folder)
        error = error_of(self.path.name)
        os.chdir("/")
        for each in (error, pickle.loads(pickle.dumps(error))):
            self.assertEqual(len(list(each.packets)), 30)
            self.assertEqual(list(each.packets), list(each.packets))
            self.assertEqual(len(list(each.packets.matching("tcp"))), 22)

    def test_packets_of_bytes_in_another_process(self):
        error = error_of(DAMAGED.read_bytes() + bytes(1 << 20))
        pickled = pickle.dumps(error)
        self.assertEqual(list(pickle.loads(pickled).packets), list(error.packets))
        self.assertLess(len(pickled), 1 << 13)

    def test_packets_are_never_those_of_another_file(self):
        data, _ = damaged()

        def removed():
            os.remove(self.path)

        def replaced():
            other = self.folder / "other"
            other.write_bytes(data)
            os.replace(other, self.path)

        def rewritten():
            self.path.write_bytes(written([packet(bytes(60000))] * 9, "pcap"))

        def rewritten_with_as_much():
            os.utime(self.path, (1, 1))

        def shortened():
            os.truncate(self.path, 70000)

        def replaced_by_a_pipe():
            os.remove(self.path)
            os.mkfifo(self.path)

        for change in (removed, replaced, rewritten, rewritten_with_as_much, shortened, replaced_by_a_pipe):
            with self.subTest(change=change.__name__):
                with contextlib.suppress(FileNotFoundError):
                    os.remove(self.path)
                self.path.write_bytes(data)
                with capkit.Capture(self.path) as capture:
                    with self.assertRaises(capkit.CaptureError) as caught:
                        list(capture)
                    packets = caught.exception.packets
                    self.assertEqual(len(list(packets)), 8)
                    change()
                    for each in (packets, pickle.loads(pickle.dumps(packets)), capture):
                        loop = iter(each)
                        for _ in range(2):
                            with self.assertRaises(OSError) as caught:
                                next(loop)
                            number = errno.ENOENT if change is removed else errno.ESTALE
                            self.assertEqual(caught.exception.errno, number)
                            self.assertEqual(caught.exception.filename, str(self.path))

    def test_a_file_that_grows_has_the_packets_before(self):
        data, _ = damaged()
        self.path.write_bytes(data[:-16])
        with open(self.path, "ab") as file:
            file.write(data[24 : 24 + 30000])
            file.flush()
            error = error_of(self.path)
            self.assertIs(error.fault, capkit.Check.TRUNCATED)
            file.write(data[24 + 30000 : 24 + 60016])
        self.assertEqual(len(list(error.packets)), 8)
        self.assertEqual(len(list(capkit.packets(self.path))), 9)

    def test_kept_errors_keep_no_file_open(self):
        small = DAMAGED.read_bytes()[:60]
        self.path.write_bytes(small)
        cooked = self.folder / "other link type"
        cooked.write_bytes(written([packet(link_type=276)]))
        errors = []

        def read(number):
            capture = capkit.Capture(self.path)
            for _ in capture:
                pass

        with few_descriptors():
            for number in range(20000):
                try:
                    read(number)
                except capkit.CaptureError as error:
                    errors.append(error)
            self.assertEqual(len(errors), 20000)
            self.assertTrue(all(error.__traceback__ for error in errors))
            errors += [error_of(cooked, "tcp") for _ in range(100)]
            self.assertIsInstance(errors[-1], capkit.CompileError)
            for error in errors[:100]:
                self.assertEqual(list(error.packets), [])
            errors += [error_of(DAMAGED) for _ in range(100)]
            with capkit.Capture(DAMAGED) as capture:
                for _ in range(100):
                    with contextlib.suppress(capkit.CaptureError):
                        list(capture)

    def test_kept_errors_keep_no_buffer(self):
        def peak():
            return resource.getrusage(resource.RUSAGE_SELF).ru_maxrss

        errors = [error_of(DAMAGED) for _ in range(10)]
        before = peak()
        errors += [error_of(DAMAGED) for _ in range(1000)]
        self.assertLess(peak() - before, 30000)

    def test_damage_is_that_of_the_file_that_was_read(self):
        data, fault = damaged()
        for change in (
            lambda: os.remove(self.path),
            lambda: os.rename(self.path, self.folder / "elsewhere"),
            lambda: os.replace(shutil.copy(DAY, self.folder / "new"), self.path),
        ):
            self.path.write_bytes(data)
            seen = 0
            with self.assertRaises(capkit.CaptureError) as caught:
                for each in capkit.packets(self.path):
                    if seen == 0:
                        change()
                    self.assertEqual(each.data[0], seen)
                    seen += 1
            self.assertEqual((seen, caught.exception.offset), (8, fault))
            with self.assertRaises(OSError):
                list(caught.exception.packets)

    def test_a_file_that_is_rewritten_while_it_is_read(self):
        """Its inode is the same, and it is longer: what was read of it isn't there any more."""
        self.path.write_bytes(damaged()[0])
        with self.assertRaises(capkit.CaptureError) as caught:
            for each in capkit.packets(self.path):
                if each.data[0] == 0:
                    self.path.write_bytes(written([packet(UDP)] * 20000))
        with self.assertRaisesRegex(OSError, "replaced or changed"):
            list(caught.exception.packets)

    def test_other_loops_go_on(self):
        self.path.write_bytes(damaged()[0])
        with capkit.Capture(self.path) as capture:
            first = iter(capture)
            next(first)
            with self.assertRaises(capkit.CaptureError):
                list(capture)
            os.remove(self.path)
            with self.assertRaises(capkit.CaptureError):
                for count in itertools.count(1):
                    next(first)
            self.assertEqual(count, 8)

    def test_a_closed_capture_is_not_read_on(self):
        self.path.write_bytes(damaged()[0])
        with capkit.Capture(self.path) as capture:
            first = iter(capture)
            next(first)
        with self.assertRaisesRegex(ValueError, "closed"):
            list(first)
        self.assertFalse([it for it in os.listdir("/proc/self/fd") if self.is_the_path(it)])

    def is_the_path(self, descriptor):
        with contextlib.suppress(OSError):
            return os.path.samefile(f"/proc/self/fd/{descriptor}", self.path)
        return False


class Pieces(io.RawIOBase):
    """A source that gives pieces, has none yet for None, and raises errors."""

    def __init__(self, pieces):
        self.pieces = list(pieces)

    def readable(self):
        return True

    def readinto(self, view):
        piece = self.pieces.pop(0) if self.pieces else b""
        if isinstance(piece, BaseException):
            raise piece
        if piece is None:
            return None
        now, rest = piece[: len(view)], piece[len(view) :]
        if rest:
            self.pieces.insert(0, rest)
        view[: len(now)] = now
        return len(now)


class Reads:
    """The same, with no more than `read`."""

    def __init__(self, raw):
        self.raw = raw

    def read(self, size):
        return self.raw.read(size)


def cut(data, chance, others):
    """Data in pieces, with something else between them."""
    pieces, at = [], 0
    while at < len(data):
        size = chance.choice((1, 3, 16, 300, 5000))
        pieces += [data[at : at + size], *chance.choice(([], others))]
        at += size
    return pieces


def patiently(packets, errors):
    """What an iterator gives if it is asked again after an error."""
    found = []
    while True:
        try:
            found.append(next(packets))
        except StopIteration:
            return found
        except errors:
            pass


class SourcesTest(FolderTest):
    def test_errors_of_a_source_lose_no_packet(self):
        chance = random.Random(5)
        for path in (DAY, SAMPLES / "comments.pcapng", SAMPLES / "two-sections.pcapng"):
            data, want = path.read_bytes(), list(capkit.packets(path))
            for others in ([None], [None] * 3, [OSError(errno.EIO, "why")], [KeyboardInterrupt()]):
                for kind in (lambda it: it, io.BufferedReader, Reads):
                    source = kind(Pieces([*others, *cut(data, chance, others), *others]))
                    errors = (OSError, KeyboardInterrupt)
                    self.assertEqual(patiently(capkit.packets(source), errors), want)

    def test_errors_of_a_signals_handler(self):
        """A loop goes on after one, or has ended; packets are neither lost before others nor made up."""

        class Alarm(Exception):
            pass

        def ring(*_):
            nonlocal is_on
            if is_on:
                is_on = False
                raise Alarm

        is_on, rings = False, 0
        notes = [b"" if number % 500 else b"note" for number in range(10000)]
        want = [packet(bytes([number % 256]) * 60, comment=note) for number, note in enumerate(notes)]
        self.path.write_bytes(written(want))
        self.addCleanup(signal.signal, signal.SIGALRM, signal.signal(signal.SIGALRM, ring))
        self.addCleanup(signal.setitimer, signal.ITIMER_REAL, 0)
        signal.setitimer(signal.ITIMER_REAL, 0.0005, 0.0005)
        while rings < 300:
            with open(self.path, "rb", rings % 2 - 1) as file:
                packets, found = capkit.packets(file if rings % 3 else self.path), []
                has_ended = False
                while not has_ended:
                    try:
                        is_on = True
                        # A call in C, so the error comes in the middle of the package.
                        found.extend(packets)
                        is_on, has_ended = False, True
                    except Alarm:
                        rings += 1
                self.assertEqual(found, want[: len(found)])

    def test_a_pipe_that_does_not_block(self):
        data, want = DAY.read_bytes(), list(capkit.packets(DAY))
        for buffering in (0, -1):
            read_end, write_end = os.pipe()
            os.set_blocking(read_end, False)
            with open(read_end, "rb", buffering) as source, open(write_end, "wb", 0) as end:
                packets, found = capkit.packets(source), []
                for at in range(0, len(data), 50):
                    with self.assertRaises(BlockingIOError):
                        while True:
                            found.append(next(packets))
                    end.write(data[at : at + 50])
                end.close()
                self.assertEqual(found + list(packets), want)

    def test_a_socket_with_a_timeout(self):
        data, want = DAY.read_bytes(), list(capkit.packets(DAY))
        for buffering in (0, -1):
            near, far = socket.socketpair()
            with near, far, near.makefile("rb", buffering) as source:
                near.settimeout(0.005)
                packets, found = capkit.packets(source), []
                for at in range(0, len(data), 500):
                    with self.assertRaises(socket.timeout):
                        while True:
                            found.append(next(packets))
                    far.sendall(data[at : at + 500])
                far.close()
                self.assertEqual(found + list(packets), want)

    def test_sources_that_lie(self):
        class TooMany(io.RawIOBase):
            def readinto(self, view):
                return len(view) + 1

        class Stops:
            def read(self, size):
                return next(iter(()))

        with self.assertRaisesRegex(ValueError, "bytes where"):
            next(capkit.packets(TooMany()))
        with self.assertRaisesRegex(RuntimeError, "StopIteration"):
            next(capkit.packets(Stops()))
        for text in (io.StringIO("text"), open(__file__)):
            with text, self.assertRaisesRegex(TypeError, "binary"):
                next(capkit.packets(text))

    def test_an_iterator_for_one_thread(self):
        class Waits(io.RawIOBase):
            def readinto(self, view):
                started.set()
                go_on.wait(30)
                return 0

        started, go_on, errors = threading.Event(), threading.Event(), []
        packets = capkit.packets(Waits())

        def read():
            errors.append(error_of_next(packets))

        thread = threading.Thread(target=read)
        thread.start()
        started.wait(30)
        self.assertIsInstance(error_of_next(packets), ValueError)
        go_on.set()
        thread.join()
        self.assertIsInstance(errors[0], capkit.CaptureError)

    def test_threads_share_a_capture(self):
        self.path.write_bytes(damaged(40)[0])
        with capkit.Capture(self.path) as capture:
            seen = []

            def read():
                for _ in range(5):
                    count = 0
                    with contextlib.suppress(capkit.CaptureError):
                        for count, each in enumerate(capture, 1):
                            assert each.data[0] == count - 1
                    seen.append(count)

            in_threads(read, 4)
        self.assertEqual(seen, [40] * 20)

    def test_a_fork_while_threads_read_and_write(self):
        self.path.write_bytes(damaged(40)[0])
        capture, writer = capkit.Capture(self.path), capkit.Writer(Slow(), "pcap")
        is_over = threading.Event()

        def work():
            while not is_over.is_set():
                writer.write(packet())
                with contextlib.suppress(capkit.CaptureError):
                    list(capture)

        threads = [threading.Thread(target=work) for _ in range(3)]
        for thread in threads:
            thread.start()
        try:
            statuses = [os.waitpid(forked(capture, writer), 0)[1] for _ in range(5)]
        finally:
            is_over.set()
            for thread in threads:
                thread.join()
        self.assertEqual(statuses, [0] * 5)

    def test_an_error_ends_all_of_a_loop(self):
        """Packets after one that isn't filtered aren't given as if nothing was lost."""
        capture = written([packet(UDP), packet(UDP, link_type=276), packet(UDP)] * 100)
        packets = capkit.packets(capture, "udp")
        self.assertEqual(next(packets), packet(UDP))
        with self.assertRaises(capkit.CompileError):
            list(packets)
        self.assertEqual(list(packets), [])


class Slow(io.RawIOBase):
    """An output that other threads run during."""

    def write(self, data):
        time.sleep(0.001)
        return len(data)


def forked(capture, writer):
    """A process that reads a capture, closes a writer, and ends: with status 0 if it can."""
    with warnings.catch_warnings():
        warnings.simplefilter("ignore", DeprecationWarning)  # since Python 3.12, if there are threads
        process = os.fork()
    if process == 0:
        signal.alarm(20)
        try:
            count = 0
            with contextlib.suppress(capkit.CaptureError):
                for count, _ in enumerate(capture, 1):
                    pass
            with contextlib.suppress(RuntimeError):  # the fork was in the middle of a packet
                writer.close()
        finally:
            os._exit(count != 40)
    return process


def error_of_next(packets):
    try:
        return next(packets)
    except ValueError as error:
        return error


def in_threads(work, count):
    threads = [threading.Thread(target=work) for _ in range(count)]
    for thread in threads:
        thread.start()
    for thread in threads:
        thread.join()


class Parts(io.RawIOBase):
    """An output that takes a part of what it is given, and None or an error for its turn."""

    def __init__(self, chance, turns):
        self.bytes, self.chance, self.turns = b"", chance, turns

    def writable(self):
        return True

    def write(self, data):
        turn = self.chance.choice(self.turns)
        if turn is None:
            return None
        if isinstance(turn, BaseException):
            raise turn
        taken = bytes(data[:turn])
        self.bytes += taken
        return len(taken)


class Taker:
    """The same, with no more than `write`."""

    def __init__(self, raw):
        self.raw = raw

    def write(self, data):
        taken = self.raw.write(data)
        return 0 if taken is None else taken


def again(call, *arguments):
    """Calls until no error of the output is raised."""
    for _ in range(10000):
        with contextlib.suppress(OSError):
            return call(*arguments)
    raise AssertionError("no end")


def block(kind, *body):
    body = b"".join(body)
    size = struct.pack("<I", len(body) + 12)
    return struct.pack("<I", kind) + size + body + size


def interface(*options, link_type=1):
    return block(1, struct.pack("<HHI", link_type, 0, 0), *options)


def enhanced(number, data, time=10**15):
    numbers = struct.pack("<IIIII", number, time >> 32, time & 0xFFFFFFFF, len(data), len(data))
    return block(6, numbers, data, bytes(-len(data) % 4))


BAD_RESOLUTION = struct.pack("<HHBxxx", 9, 1, 0xFF)
BAD_OPTION = struct.pack("<HH", 2, 60000)


class SkipTest(FolderTest):
    def equal(self, capture, want, skipped, expression=None):
        """What is read past odd units, in whole and in pieces."""
        self.path.write_bytes(capture)
        pieces = Pieces(capture[at : at + 5] for at in range(0, len(capture), 5))
        for source in (capture, self.path, pieces):
            packets = capkit.packets(source, expression, skip=True)
            self.assertEqual([p.data for p in packets], want)
            self.assertEqual(packets.skipped, skipped)
        with capkit.Capture(self.path, skip=True) as again:
            for _ in range(2):
                self.assertEqual(len(list(again.matching(expression))), len(want))
                self.assertEqual(again.skipped, skipped)

    def test_records_with_odd_times(self):
        chance = random.Random(8)
        records = [packet(bytes([number]) * 50) for number in range(200)]
        capture, want = bytearray(written(records, "pcap")), []
        for number, record in enumerate(records):
            if chance.random() < 0.3:
                struct.pack_into("<I", capture, 24 + 66 * number + 4, 1000000 + chance.randrange(1 << 30))
            else:
                want.append(record.data)
        capture = bytes(capture)
        self.equal(capture, want, 200 - len(want))
        with self.assertRaisesRegex(capkit.CaptureError, "time out of range"):
            list(capkit.packets(capture))
        # The packets before a fault are read with the same option.
        self.path.write_bytes(capture + b"\xff" * 16)
        with self.assertRaisesRegex(capkit.CaptureError, "too long") as caught:
            list(capkit.packets(self.path, skip=True))
        for each in (caught.exception, pickle.loads(pickle.dumps(caught.exception))):
            self.assertEqual([p.data for p in each.packets], want)
            self.assertEqual(each.packets.skipped, 200 - len(want))

    def test_interfaces_with_odd_options(self):
        for odd in (BAD_RESOLUTION, BAD_OPTION):
            blocks = [written([])[:28], interface(), interface(odd), interface(), enhanced(1, b"left out"),
                      enhanced(2, b"second"), enhanced(1, b"left out"), enhanced(0, b"first")]  # fmt: skip
            self.equal(b"".join(blocks), [b"second", b"first"], 3)

    def test_a_file_header_with_an_odd_link_type(self):
        capture = bytearray(written([packet(), packet(UDP)], "pcap"))
        capture[23] |= 0x08
        self.equal(bytes(capture), [packet().data, UDP], 1)

    def test_packets_of_link_types_that_are_not_filtered(self):
        links = [packet(UDP), packet(UDP, link_type=276), packet(UDP), packet(), packet(link_type=0)]
        self.equal(written(links * 100), [UDP] * 200, 200, "udp")
        self.equal(written(links[1:2] * 300), [], 300, "udp")
        self.equal(written(links), [p.data for p in links], 0)

    def test_other_faults_end_a_capture(self):
        data, fault = damaged()
        for source in (data, data[: fault - 20], data[: fault + 20], b"some text", b""):
            with self.assertRaises(capkit.CaptureError) as without:
                list(capkit.packets(source))
            with self.assertRaises(capkit.CaptureError) as caught:
                list(capkit.packets(source, skip=True))
            self.assertEqual(str(caught.exception), str(without.exception))
        with self.assertRaisesRegex(capkit.CompileError, "unknown word"):
            list(capkit.packets(data, "prt", skip=True))


class OutputsTest(FolderTest):
    PACKETS = [packet(bytes(60 * n), comment=b"c" * n, interface_name=b"%d" % (n % 5)) for n in range(40)]

    def test_outputs_that_take_a_part(self):
        chance = random.Random(6)
        for format in ("pcapng", "pcap", "nsecpcap"):
            want = written(self.PACKETS, format)
            for turns in ([1], [50], [7, 0], [1, 50, None], [3, 1000, BlockingIOError()], [None, 9, 4096]):
                for kind in (lambda it: it, Taker):
                    output = Parts(chance, turns)
                    writer = capkit.Writer(kind(output), format)
                    for each in self.PACKETS:
                        again(writer.write, each)
                    again(writer.close)
                    self.assertEqual(output.bytes, want)

    def test_errors_in_the_middle_of_a_packet(self):
        chance = random.Random(7)
        output = Parts(chance, [20, 100, 100, OSError(errno.ENOSPC, "full"), None])
        writer = capkit.Writer(output)
        for each in self.PACKETS:
            again(writer.write, each)
        again(writer.close)
        self.assertEqual(list(capkit.packets(output.bytes)), self.PACKETS)

    def test_a_device_that_is_full_for_a_while(self):
        """A file has each packet whole whose write returned, even if it took a part of another one."""
        limits = resource.getrlimit(resource.RLIMIT_FSIZE)
        self.addCleanup(resource.setrlimit, resource.RLIMIT_FSIZE, limits)
        for size, format, is_own in itertools.product((60, 4060, 20000, 200000), ("pcapng", "pcap"), (True, False)):
            resource.setrlimit(resource.RLIMIT_FSIZE, (100001, limits[1]))
            sure, errors = [], 0
            with open(os.devnull if is_own else self.path, "wb") as file:
                with capkit.Writer(self.path if is_own else file, format) as writer:
                    for number in range(10 + 300000 // size):
                        try:
                            writer.write(packet(bytes([number % 256]) * size, time=number))
                            sure.append(number)
                        except OSError:
                            errors += 1
                            resource.setrlimit(resource.RLIMIT_FSIZE, limits)
            found = [each.data[0] for each in capkit.packets(self.path)]
            self.assertTrue(errors)
            self.assertIn(len(found), (len(sure), len(sure) + errors))
            self.assertLessEqual({number % 256 for number in sure}, set(found))

    def test_a_fork_with_packets_in_a_buffer(self):
        """Neither process writes them again, whichever goes on with the writer."""
        for format, is_child in itertools.product(("pcapng", "pcap"), (False, True)):
            text = f"""if True:
                import os, sys
                sys.path[:0] = sys.argv[2:]
                import capkit
                writer = capkit.Writer(sys.argv[1], {format!r})
                for number in range(3):
                    writer.write(capkit.Packet(number, 1, b"text"))
                child = os.fork()
                if child:
                    os.waitpid(child, 0)
                if {is_child} == (child == 0):
                    writer.write(capkit.Packet(3, 1, b"text"))
                """
            words = [sys.executable, "-I", "-c", text, self.path, pathlib.Path(capkit.__file__).parents[1]]
            subprocess.run(words, check=True)
            self.assertEqual(len(list(capkit.packets(self.path))), 4)

    def test_an_interrupt_in_the_middle_of_a_packet(self):
        class Interrupts(io.RawIOBase):
            """It takes 50 bytes, is interrupted, and takes the rest."""

            def __init__(self):
                self.turns, self.bytes = [50, None], b""

            def write(self, data):
                turn = self.turns.pop(0) if self.turns else len(data)
                if turn is None:
                    raise KeyboardInterrupt
                self.bytes += data[:turn]
                return len(data[:turn])

        for format in ("pcapng", "nsecpcap"):
            output = Interrupts()
            with capkit.Writer(output, format) as writer:
                with self.assertRaises(KeyboardInterrupt):
                    writer.write(packet())
                writer.write(packet(UDP))
            self.assertEqual(output.bytes, written([packet(), packet(UDP)], format))

    def test_errors_of_a_signals_handler(self):
        """Each packet is written whole or not at all, and if write returns, it is written."""

        class Alarm(Exception):
            pass

        def ring(*_):
            nonlocal is_on
            if is_on:
                is_on = False
                raise Alarm

        is_on, rings = False, 0
        self.addCleanup(signal.signal, signal.SIGALRM, signal.signal(signal.SIGALRM, ring))
        self.addCleanup(signal.setitimer, signal.ITIMER_REAL, 0)
        signal.setitimer(signal.ITIMER_REAL, 0.0003, 0.0003)
        while rings < 1000:
            format, buffering = ("pcap", "pcapng")[rings % 2], (None, -1, 0)[rings % 3]
            target = self.path if buffering is None else open(self.path, "wb", buffering)
            writer, sure = capkit.Writer(target, format), set()
            for number in range(200):
                name = b"" if format == "pcap" else b"%d" % (number % 3)
                try:
                    is_on = True
                    writer.write(packet(b"%d" % number * 9, interface_name=name))
                    is_on = False
                    sure.add(number)
                except Alarm:
                    rings += 1
            writer.close()
            if buffering is not None:
                target.close()
            found = [int(each.data[: len(each.data) // 9]) for each in capkit.packets(self.path)]
            self.assertEqual(found, sorted(set(found)))
            self.assertLessEqual(sure, set(found))

    def test_bytes_that_lie(self):
        class Lies(bytes):
            def __len__(self):
                return 1 << 19

        for lies in (packet(Lies(b"data")), packet(comment=Lies(b"data")), packet(interface_name=Lies(b"it"))):
            file = io.BytesIO()
            with capkit.Writer(file) as writer:
                writer.write(lies._replace(original_length=60))
            self.assertEqual(len(list(capkit.packets(Lies(file.getvalue())))), 1)
        self.assertFalse(capkit.Filter("len > 1000", 1).matches(Lies(b"data")))

    def test_a_pipe_that_is_full(self):
        for buffering in (0, -1):
            read_end, write_end = os.pipe()
            os.set_blocking(write_end, False)
            got, blocked = [], 0
            with open(read_end, "rb", 0) as end, open(write_end, "wb", buffering) as output:
                thread = threading.Thread(target=lambda: got.append(end.read()))
                writer = capkit.Writer(output)
                for number in range(300):
                    while True:
                        try:
                            writer.write(packet(bytes(2000), interface_name=b"%d" % (number % 3)))
                            break
                        except BlockingIOError:
                            blocked += 1
                            if blocked == 1:
                                thread.start()
                again(writer.close)
                output.close()
                thread.join()
            self.assertTrue(blocked)
            found = list(capkit.packets(got[0]))
            self.assertEqual([p.interface_name for p in found], [b"%d" % (n % 3) for n in range(300)])

    def test_outputs_that_lie(self):
        with self.assertRaisesRegex(ValueError, "took 1000000 of"):
            capkit.Writer(Taker(type("Lies", (), {"write": lambda self, data: 1000000})())).write(packet())

    def test_an_output_that_keeps_what_it_is_given(self):
        class Keeps:
            def __init__(self):
                self.parts = []

            def write(self, data):
                self.parts.append(data)

        output = Keeps()
        with capkit.Writer(output) as writer:
            for each in self.PACKETS:
                writer.write(each)
        self.assertEqual(b"".join(output.parts), written(self.PACKETS))

    def test_threads_share_a_writer(self):
        before = sys.getswitchinterval()
        self.addCleanup(sys.setswitchinterval, before)
        sys.setswitchinterval(1e-6)
        for format in ("pcapng", "nsecpcap"):
            for target in (self.path, io.BytesIO()):
                numbers = itertools.count()
                with capkit.Writer(target, format) as writer:

                    def work():
                        for _ in range(500):
                            number = next(numbers)
                            name = b"%d" % (number % 40)
                            data = number.to_bytes(4, "big") * (number % 1200)
                            writer.write(packet(data, time=number, interface_name=name))

                    in_threads(work, 4)
                source = target if target is self.path else target.getvalue()
                found = sorted(capkit.packets(source))
                self.assertEqual([p.time for p in found], list(range(2000)))
                for p in found:
                    self.assertEqual(p.data, p.time.to_bytes(4, "big") * (p.time % 1200))
                    if format == "pcapng":
                        self.assertEqual(p.interface_name, b"%d" % (p.time % 40))

    def test_close_in_the_middle_of_writes(self):
        for _ in range(10):
            writer, counts, go = capkit.Writer(self.path), [], threading.Event()

            def work():
                count = 0
                with contextlib.suppress(ValueError):
                    while True:
                        writer.write(packet(UDP * 30, interface_name=b"%d" % (count % 30)))
                        count += 1
                        if count == 20:
                            go.set()
                counts.append(count)

            threads = [threading.Thread(target=work) for _ in range(3)]
            for thread in threads:
                thread.start()
            go.wait(30)
            writer.close()
            for thread in threads:
                thread.join()
            self.assertEqual(sum(1 for _ in capkit.packets(self.path)), sum(counts))

    def test_a_call_in_the_middle_of_a_call(self):
        """A signal's handler gets an error (a lock would wait for ever), and the file is whole."""
        errors = []

        class Output(io.BytesIO):
            def write(self, data):
                signal.raise_signal(signal.SIGUSR1)
                return super().write(data)

        def handle(*arguments):
            for call in (writer.close, lambda: writer.write(packet())):
                try:
                    call()
                except RuntimeError as error:
                    errors.append(error)

        before = signal.signal(signal.SIGUSR1, handle)
        self.addCleanup(signal.signal, signal.SIGUSR1, before)
        output = Output()
        writer = capkit.Writer(output)
        for each in self.PACKETS:
            writer.write(each)
        writer.close()
        self.assertEqual(output.getvalue(), written(self.PACKETS))
        self.assertEqual(len(errors), 80)

    def test_a_capture_that_is_read_as_an_open_file_is_no_output(self):
        data, packed = written([packet()] * 3), self.folder / "packed.gz"
        self.path.write_bytes(data)
        packed.write_bytes(gzip.compress(data))
        link = self.folder / "link"
        os.link(self.path, link)
        for path, kind in [
            (self.path, lambda: open(self.path, "rb")), (self.path, lambda: open(self.path, "rb", 0)),
            (packed, lambda: gzip.open(packed)), (link, lambda: open(self.path, "rb")),
            (f"/proc/self/fd/{os.open(self.path, os.O_RDONLY)}", lambda: open(self.path, "r+b")),
        ]:  # fmt: skip
            before = os.stat(path).st_size
            with kind() as file, self.assertRaisesRegex(capkit.WriteError, "is being read"):
                with capkit.Writer(path) as writer:
                    for each in capkit.packets(file):
                        writer.write(each)
            self.assertEqual(os.stat(path).st_size, before)
        # An open file can't be the output either: what is appended to it would be read again.
        with open(self.path, "ab") as output, self.assertRaisesRegex(capkit.WriteError, "is being read"):
            with capkit.Writer(output) as writer:
                for each in capkit.packets(self.path):
                    writer.write(each)
        self.assertEqual(self.path.read_bytes(), data)
        # Once it is read, or closed, it is one.
        with open(self.path, "rb") as file:
            packets = list(capkit.packets(file))
            with capkit.Writer(self.path) as writer:
                for each in packets:
                    writer.write(each)
        file = open(self.path, "rb")
        capture = capkit.Capture(file)
        file.close()
        with capkit.Writer(self.path) as writer:
            writer.write(packet(UDP))
        self.assertEqual(list(capkit.packets(self.path)), [packet(UDP)])
        del capture

    def test_a_file_that_another_writer_has_open_is_no_output(self):
        other = self.folder / "other"
        for link in (os.link, os.symlink):
            with capkit.Writer(self.path) as first:
                first.write(packet())
                with contextlib.suppress(FileNotFoundError):
                    os.remove(other)
                link(self.path, other)
                with self.assertRaisesRegex(capkit.WriteError, "is being written"), capkit.Writer(other) as second:
                    second.write(packet(UDP))
                first.write(packet())
            self.assertEqual(len(list(capkit.packets(self.path))), 2)
            with capkit.Writer(other) as second:
                second.write(packet(UDP))
            self.assertEqual(list(capkit.packets(self.path)), [packet(UDP)])

    def test_a_packet_takes_few_calls(self):
        """So writing is fast: what Python's profiler sees of it."""
        for format in ("pcapng", "pcap"):
            with capkit.Writer(self.path, format) as writer:
                one, events = packet(), []
                writer.write(one)
                sys.setprofile(lambda frame, event, argument: events.append(event))
                try:
                    for _ in range(100):
                        writer.write(one)
                finally:
                    sys.setprofile(None)
            calls = sum(1 for event in events if event in ("call", "c_call"))
            self.assertLess(calls, 100 * 12)

    def test_why_a_packet_is_refused(self):
        with capkit.Writer(io.BytesIO()) as writer:
            for name in ("comment", "interface_name"):
                with self.assertRaisesRegex(capkit.WriteError, f"^bad option: the {name} is too long"):
                    writer.write(packet(**{name: bytes(65536)}))


if __name__ == "__main__":
    unittest.main()
