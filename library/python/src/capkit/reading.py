"""The packets of captures."""
from __future__ import annotations

import ctypes as c
import itertools
import mmap
import os
import struct
from typing import Any, Callable, Dict, Generator, Iterator, List, NamedTuple, Optional, Tuple
from typing import Union

from . import native
from .errors import CaptureError, Check, CompileError, Status
from .filters import Bytes, Expression, Filter
from .sources import File, Path, Readable, Seen, Stream, opened

Source = Union[Path, Bytes, Readable]
# What ended a loop: a check that failed and its offset, or that a filter can't be compiled.
_Ending = Union[Tuple[int, int], CompileError, None]

_PACKETS, _END, _SKIPPED = 0, 222, 228
# The checks of units whose lengths may be sound all the same.
_OF_ODD_UNITS = {
    Check.TIME_OUT_OF_RANGE, Check.BAD_OPTION, Check.BAD_TIME_RESOLUTION, Check.BAD_LINK_TYPE_FIELD
}  # fmt: skip
# What is read at once: what fits into a processor's cache is filtered twice as fast.
_PIECE = 1 << 18
# The longest comment, and a NUL.
_COMMENT_ROOM = 65536
# The fields of native.BatchPacket, except its end, and those that differ between plain packets.
_FIELDS, _PLAIN = struct.Struct("@QNNIIIIIH2x8x"), struct.Struct("@QN8xII24x")


class _Fields(NamedTuple):
    time: int
    """Nanoseconds since 1970-01-01 00:00:00 UTC."""
    link_type: int
    data: bytes
    """The bytes that were captured."""
    original_length: int
    """How many bytes it had on the wire; as many as were captured, if that isn't given."""
    comment: bytes
    interface_name: bytes
    snap_length: int
    """The most bytes that were captured of a packet of its interface; 0: no limit."""


class Packet(_Fields):
    """A packet of a capture."""

    __slots__ = ()

    def __new__(
        cls, time: int, link_type: int, data: bytes, original_length: Optional[int] = None,
        comment: bytes = b"", interface_name: bytes = b"", snap_length: int = 262144,
    ) -> Packet:  # fmt: skip
        original = len(data) if original_length is None else original_length
        fields = (time, link_type, data, original, comment, interface_name, snap_length)
        return tuple.__new__(cls, fields)

    def line(self, with_link: bool = False) -> str:
        """What `capkit print` prints of it, or with the link header `capkit print -e`."""
        time = native.fits(self.time, 63, "time")
        original = native.fits(self.original_length, 32, "original length")
        link_type = native.fits(self.link_type, 16, "link type")
        data = native.bytes_of(self.data, "data")
        return native.text_by(
            native.line, link_type, time, original, data, len(data), with_link
        ).rstrip("\n")


class _Tally:
    """How much a loop left out."""

    __slots__ = ("skipped",)

    def __init__(self) -> None:
        self.skipped = 0


class PacketIterator(itertools.chain[Packet]):
    """The packets of one loop over a capture, for one thread at a time."""

    _tally: _Tally

    @property
    def skipped(self) -> int:
        """How many units and packets were left out so far; see `skip` of Capture."""
        return self._tally.skipped


class Capture:
    """A capture of a path, of an open file, or of bytes in memory.

    A loop over it has its packets, and ends with the capture or raises CaptureError at its first fault.
    It takes the memory of some units, however long the capture is, and gives a packet as soon as its
    bytes have come. Each loop over a path or bytes begins at the start; a pipe, or an open file, is read once. A
    file that becomes shorter while it is read is a fault (TRUNCATED).

    An error of the source doesn't end a loop: BlockingIOError if it has no bytes yet, or its own. Ask
    for the next packet again, and none is lost. CaptureError and CompileError end the loop, and close
    a file that the capture opened. Another loop opens it again, and raises OSError if it is gone or
    was replaced or changed.

    With `skip` a loop goes past a unit that is refused for its time, link type or options if its lengths
    are sound, and past packets of a link type that isn't filtered, and counts them in `skipped`.

    It is a context manager, and closes a file that it opened. Threads may share a capture of a path
    or of bytes, each with a loop of its own; one of an open file or a pipe is for one thread.
    """

    def __init__(self, source: Source, skip: bool = False) -> None:
        """Raises OSError if the file can't be opened."""
        self._skip, self._tally = skip, _Tally()
        self._file: Union[File, Stream, None] = None
        self._bytes = b""
        # The end, if it isn't that of the file or the bytes.
        self._limit: Optional[int] = None
        self._source: Any = source
        if isinstance(source, (str, os.PathLike)):
            self._file = opened(source)
        elif hasattr(source, "read"):
            self._file = Stream(source, False)
        else:
            self._bytes = native.bytes_of(source, "source", "a path, a binary file or bytes")

    def close(self) -> None:
        """Closes a file that it opened; no loop goes on."""
        if self._file is not None:
            self._file.close()

    __del__ = close

    def __enter__(self) -> Capture:
        return self

    def __exit__(self, *error: object) -> None:
        self.close()

    def __repr__(self) -> str:
        source = f"{len(self._bytes)} bytes" if self._file is None else repr(self._source)
        return f"<Capture of {source}>"

    def __reduce__(self) -> Tuple[Any, ...]:
        if isinstance(self._file, Stream):
            return Capture, (self._source, self._skip)
        where, seen = self._known()
        limit = self._limit
        return _again, (where if seen else where[:limit], seen, limit, self._skip)

    def __iter__(self) -> PacketIterator:
        return self.matching(None)

    def matching(self, expression: Union[str, Expression, None]) -> PacketIterator:
        """The packets that match; CompileError if one has a link type that isn't filtered."""
        if isinstance(expression, str):
            expression = Expression(expression)
        self._tally = tally = _Tally()
        packets: Any = PacketIterator.from_iterable(self._batches(expression, tally))
        packets._tally = tally
        return packets  # type: ignore[no-any-return]

    @property
    def skipped(self) -> int:
        """How many units and packets the loop that began last left out so far."""
        return self._tally.skipped

    def _known(self) -> Tuple[Union[str, bytes], Optional[Seen]]:
        """What it is made again of."""
        if isinstance(self._file, File):
            return self._file.path, self._file.seen()
        return self._bytes, None

    def _batches(
        self, expression: Optional[Expression], tally: _Tally
    ) -> Iterator[Iterator[Packet]]:
        """The packets, and what reads more bytes before them.

        An error is raised here, when the buffer of the loop is gone and its file closed, since one that
        is kept keeps what its traceback names.
        """
        ending = yield from self._read(expression, tally)
        if ending is None:
            return
        try:
            raise self._fault(*ending) if isinstance(ending, tuple) else ending
        finally:
            del ending

    def _fault(self, fault: int, offset: int) -> CaptureError:
        if isinstance(self._file, Stream):
            return CaptureError(fault, offset, None)
        return CaptureError(fault, offset, _again(*self._known(), offset, self._skip))

    def _read(
        self, expression: Optional[Expression], tally: _Tally
    ) -> Generator[Iterator[Packet], None, _Ending]:
        """The same, and what ended the loop."""
        file, has_failed = self._file, True
        loop = _Loop(file, self._bytes, self._limit, expression, tally if self._skip else None)
        if file is not None:
            file.begin()
        try:
            while self._limit != 0:
                found = loop.read()
                if self._skip and found in _OF_ODD_UNITS:
                    found = loop.skip()
                if found == _PACKETS:
                    yield loop.packets()
                elif found == _SKIPPED:
                    tally.skipped += 1
                elif loop.needs_more(found):
                    # This calls it until it returns, whatever it raised before.
                    yield iter(loop.fill, None)
                elif found == _END:
                    break
                else:
                    return found, loop.offset
                if loop.ending is not None:
                    return loop.ending
            has_failed = False
            return None
        except GeneratorExit:
            has_failed = False
            raise
        finally:
            if file is not None:
                file.end(has_failed)


class _Names(Dict[int, bytes]):
    """The names of interfaces by their numbers, each read once."""

    def __init__(self, read: Callable[[int], bytes]) -> None:
        self._read = read

    def __missing__(self, number: int) -> bytes:
        name = self[number] = self._read(number)
        return name


class _Loop:
    """The packets that are read from a buffer, many by one call, and what fills it."""

    def __init__(
        self, file: Union[File, Stream, None], memory: bytes, limit: Optional[int],
        expression: Optional[Expression], tally: Optional[_Tally],
    ) -> None:  # fmt: skip
        """Counts packets that aren't filtered in a tally, or ends at the first one if there is none."""
        self._file, self._limit, self._expression, self._tally = file, limit, expression, tally
        self._buffer: Any = memory
        # Whether its bytes are the last ones.
        self._is_whole = file is None
        # What a stream gave, until its bytes are counted.
        self._given: List[Any] = []
        self._batch: Any = native.BatchReader()
        if file is None:
            self._batch.size = len(memory) if limit is None else limit
        else:
            # Its pages are made when they are used; ctypes would fill all of them for the smallest file.
            pages = mmap.mmap(-1, native.MOST_UNIT + _PIECE, mmap.MAP_PRIVATE | mmap.MAP_ANONYMOUS)
            self._buffer = (c.c_char * len(pages)).from_buffer(pages)
            self._view = memoryview(pages)
        # What ends the loop after the packets that were found last.
        self.ending: _Ending = None
        # The link type of the last packet, and that of the program which was run.
        self._link_type, self._judged = 1, -1
        self._programs: Dict[int, Union[Filter, CompileError]] = {}
        self._batch.capture = c.cast(self._buffer, c.c_void_p)
        self._address, self._reader = c.addressof(self._batch), self._batch.reader
        self._table, self._rows = self._batch.table, memoryview(self._batch.packets).cast("B")
        self._text: Any = None
        self._is_busy = False

    @property
    def offset(self) -> int:
        """That of the next unit in the capture."""
        return int(self._batch.base + self._reader.offset)

    def read(self) -> int:
        """What the call for the next packets returns."""
        it, self._judged = self._batch, -1
        if self._expression is not None:
            program = self._program(self._link_type)
            # Without one all packets are read; none of this link type may come.
            it.count = 0
            if isinstance(program, Filter):
                it.insns, it.count = c.addressof(program._insns), program._count
                it.link_type = self._judged = self._link_type
        found: int = native.batch_read(self._address)
        if found == _PACKETS and self._expression is not None:
            last = it.packets[it.number - 1].packet.link_type
            if last != self._link_type and isinstance(self._program(last), Filter):
                self._link_type = last
        return found

    def skip(self) -> int:
        """What the call that goes past the next unit returns."""
        most = native.MOST_INTERFACES
        reader, table = c.byref(self._reader), self._table
        skipped: int = native.skip(reader, table, most, self._buffer, self._batch.size)
        return skipped

    def needs_more(self, found: int) -> bool:
        """Whether a result may be another one if more bytes come, as they may."""
        if self._is_whole:
            return False
        rest = self._batch.size - self._reader.offset
        return found in (_END, Check.TRUNCATED) or (found == Check.NOT_A_CAPTURE_FILE and rest < 4)

    def fill(self) -> None:
        """Reads on once. If the source raises an error, nothing is changed but the buffer's begin."""
        # No lock: a signal's handler may raise an error between its call and what frees it.
        if self._is_busy:
            raise ValueError("another thread reads on")
        try:
            self._is_busy = True
            self._fill()
        finally:
            self._is_busy = False

    def _fill(self) -> None:
        file, limit, it = self._file, self._limit, self._batch
        assert file is not None
        # Calls that do all or nothing, since a signal's handler may raise an error after each.
        native.batch_move(self._address)
        position = it.base + it.size
        room = _PIECE if limit is None else min(_PIECE, limit - position)
        view = self._view[it.size : it.size + room]
        count = file.read(view, position, self._given) if room else 0
        it.size, self._is_whole, self._given = it.size + count, not count, []
        if self._is_whole and isinstance(file, File):
            if room and limit is not None:
                raise file.changed()
            if file.is_shorter(position):
                self.ending = Check.TRUNCATED, it.base

    def packets(self) -> Iterator[Packet]:
        """The packets of the last call. They are made at once, so what interrupts the caller loses none."""
        it, buffer, make = self._batch, self._buffer, tuple.__new__
        first, rows = it.packets[0].packet, self._rows[: it.number * _FIELDS.size]
        judged = first.link_type if self._expression is None else self._judged
        if it.is_plain and first.link_type == judged:
            link, name, snap = first.link_type, self._name(first.interface), first.snap
            return iter([
                make(Packet, (time, link, buffer[at : at + length], original, b"", name, snap))
                for time, at, length, original in _PLAIN.iter_unpack(rows)
            ])  # fmt: skip
        found, names = _FIELDS.iter_unpack(rows), _Names(self._name)
        return iter([
            make(Packet, (
                time, link, buffer[at : at + length], original,
                self._comment(start, options) if options else b"", names[number], snap,
            ))
            for time, at, start, length, original, options, number, snap, link
            in (found if self._expression is None else self._wanted(found))
        ])  # fmt: skip

    def _wanted(self, rows: Iterator[Tuple[int, ...]]) -> Iterator[Tuple[int, ...]]:
        """Those of packets that match, up to one that ends the loop. The program was run on most of them."""
        judged = self._judged
        for row in rows:
            if row[8] != judged:
                _, at, _, length, original, _, _, _, link = row
                program = self._program(link)
                if isinstance(program, CompileError):
                    if self._tally is None or program.status != Status.LINK_TYPE:
                        self.ending = program
                        return
                    self._tally.skipped += 1
                    continue
                data, insns = self._buffer[at : at + length], program._insns
                if not native.matches(insns, program._count, data, length, original):
                    continue
            yield row

    def _program(self, link_type: int) -> Union[Filter, CompileError]:
        """The program for packets of a link type, or why there is none."""
        program = self._programs.get(link_type)
        if program is None:
            assert self._expression is not None
            try:
                program = self._expression.filter(link_type)
            except CompileError as error:
                program = error.with_traceback(None)
            self._programs[link_type] = program
        return program

    def _name(self, number: int) -> bytes:
        if number >= self._reader.interfaces:
            return b""
        interface = self._table[number]
        return bytes(interface.name[: interface.name_length])

    def _comment(self, start: int, length: int) -> bytes:
        if self._text is None:
            self._text = c.create_string_buffer(_COMMENT_ROOM)
        count = native.batch_comment(self._address, start, length, self._text, _COMMENT_ROOM)
        text: bytes = self._text[:count]
        return text


def _again(
    where: Union[str, bytes], seen: Optional[Seen], limit: Optional[int], skip: bool
) -> Capture:
    """A capture of bytes, or of a file that was seen, up to a limit; its file isn't opened yet."""
    capture = Capture(where if isinstance(where, bytes) else b"", skip)
    capture._source, capture._limit = where, limit
    if isinstance(where, str):
        assert seen is not None
        capture._file = File(where, None, seen)
    return capture


def packets(
    source: Source, expression: Union[str, Expression, None] = None, skip: bool = False
) -> PacketIterator:
    """The packets of a capture, one after another, or those that match an expression; see Capture."""
    return Capture(source, skip).matching(expression)
