"""Captures that are written."""
from __future__ import annotations

import contextlib
import ctypes as c
import errno
import io
import os
import stat
import struct
import weakref
from typing import Any, List, Literal, Optional, Protocol, Union, get_args

from . import native
from .errors import Check, WriteError
from .reading import Packet
from .sources import Identity, Path, add_lock, descriptor_of, identity_of, is_being_read

Format = Literal["pcapng", "pcap", "nsecpcap"]

_NO_ROOM_IN_BUFFER = 225
# The most interfaces that are written, and the most bytes of the name of one.
_MOST_INTERFACES, _MOST_OF_A_NAME = 4096, 255
# How much an output is given at once of what it didn't take.
_PIECE = 1 << 16
# The most bytes that a buffered file takes whole or not at all. An error may follow a part of a longer unit.
_WHOLE = 4096
# The numbers of native.PutPacket.
_put_numbers, _batch_put = struct.Struct("@QNNNNIIH").pack_into, native.batch_put


class Writable(Protocol):
    """A binary file, or whatever else has its `write`."""

    def write(self, data: bytes, /) -> Optional[int]:
        """Takes bytes, and returns how many it took if it may be a part of them."""


class Writer:
    """Writes packets to a capture, the same bytes as capkit(1) writes.

    `target` is a path or a binary file. A file at the path is opened, and what it held goes, with
    the first packet, or by `close` if there is none. A format is "pcapng", "pcap" (microseconds) or
    "nsecpcap" (pcap with nanoseconds). A pcap file has packets of one link type, that of the first
    one. A pcapng file has up to 4,096 interfaces, of which `packets` reads 256.

    It is a context manager. A block that ends by an exception before the first packet was written
    doesn't change the file. Threads may share a writer: it writes each packet whole.
    """

    def __init__(self, target: Union[Path, Writable], format: Format = "pcapng") -> None:
        formats = get_args(Format)
        if format not in formats:
            raise ValueError(f"format {format!r} is none of {', '.join(formats)}")
        self._target, self._format = target, format
        self._is_own = isinstance(target, (str, os.PathLike))
        # The file, and what takes the units: the file, or the raw file below its buffer.
        self._file: Any = None
        self._output: Any = None
        self._put: Any = native.BatchWriter()
        self._put.state.is_pcapng = format == "pcapng"
        self._put.state.nanoseconds = format == "nsecpcap"
        self._packet = self._put.packet
        self._address = c.addressof(self._put)
        self._units: Any = None
        self._make_room(4096)
        self._table: Any = (native.Interface * 1)()
        self._widen_table(1)
        # What is left of units of which the output took a part: it goes first.
        self._rest = memoryview(b"")
        # What the output said it took, until that is counted.
        self._taken: List[Any] = []
        # Whether the state counts the units in the buffer, of which the output took nothing yet.
        self._is_put = False
        self._is_begun = self._is_closed = self._is_busy = False
        self._lock: Any
        add_lock(self)

    def __repr__(self) -> str:
        return f"<Writer of {self._format} to {self._target!r}>"

    def write(self, packet: Packet) -> None:
        """Appends a packet, or raises an error and writes nothing of it.

        WriteError if the format can't hold it, if a Capture reads the file, by its path or as an open
        file, or if another Writer opened it. BlockingIOError if an output takes no bytes now: write
        the packet again. A pcap file keeps neither comments nor names of interfaces.
        """
        with self._lock:
            if self._is_busy:
                raise _is_in_a_call()
            self._is_busy = True
            try:
                if self._is_closed:
                    raise ValueError("write to a closed writer")
                if self._rest:
                    self._send_rest()
                if self._is_put:
                    # A signal's handler raised an error before this was done.
                    self._unput(None)
                try:
                    length = self._made(packet)
                    # Its own file takes all; another may keep what it is given, and the buffer changes.
                    if self._is_own and self._is_begun and length <= _WHOLE:
                        self._file.write(self._view[:length])
                        self._is_put = False
                    else:
                        self._send(self._view[:length].tobytes())
                except BaseException as error:
                    # Units of which it took a part stay put.
                    if self._is_put:
                        self._unput(error)
                    raise
            finally:
                self._is_busy = False

    def close(self) -> None:
        """Writes what is left, and closes a file that the writer opened.

        BlockingIOError if an output takes no bytes now: close it again.
        """
        self._close(True)

    def __enter__(self) -> Writer:
        return self

    def __exit__(self, kind: object, *error: object) -> None:
        self._close(kind is None)

    def _close(self, with_header: bool) -> None:
        with self._lock:
            if self._is_busy:
                raise _is_in_a_call()
            self._is_busy = True
            try:
                if self._is_closed:
                    return
                self._send_rest()
                if with_header and not self._is_begun:
                    self._send(self._header())
                    self._send_rest()
                self._end()
            finally:
                self._is_busy = False

    def _made(self, packet: Packet) -> int:
        """Puts a packet's units into the buffer; how many bytes they have."""
        if type(packet) is not Packet or not _has_bytes(packet):
            packet = _checked(packet)
        time, link_type, data, original, comment, name, snap = packet
        it, sizes = self._packet, (len(data), len(name), len(comment))
        try:
            _put_numbers(it, 0, time, *sizes, 0, original, snap, link_type)
        except struct.error:
            _checked(packet)
            raise
        # Before the call, after which a signal's handler may raise an error.
        self._is_put = True
        written = _batch_put(self._address, data, comment, name)
        if written:
            self._is_put = False
            self._mend(written, packet)
            return self._made(packet)
        length: int = it.end
        return length

    def _mend(self, written: int, packet: Packet) -> None:
        """Makes the room that a call had not; WriteError if it refused the packet."""
        put = self._put
        if written == _NO_ROOM_IN_BUFFER:
            self._make_room(put.packet.end)
        elif written == Check.TOO_MANY_OUTPUT_INTERFACES and put.room < _MOST_INTERFACES:
            self._widen_table(min(4 * put.room, _MOST_INTERFACES))
        else:
            reason = native.text_of(written)
            if written == Check.BAD_OPTION:
                is_name = len(packet.interface_name) > _MOST_OF_A_NAME
                reason += f": the {'interface_name' if is_name else 'comment'} is too long"
            raise WriteError(reason)

    def _make_room(self, size: int) -> None:
        self._units = c.create_string_buffer(size)
        self._view = memoryview(self._units).cast("B")
        self._put.units, self._put.size = c.addressof(self._units), size

    def _widen_table(self, room: int) -> None:
        c.resize(self._table, room * c.sizeof(native.Interface))
        self._put.table, self._put.room = c.addressof(self._table), room

    def _header(self) -> bytes:
        """What a capture without packets is."""
        return self._view[: native.batch_header(self._address)].tobytes()

    def _unput(self, error: Optional[BaseException]) -> None:
        """Goes back to before the units in the buffer, which the output didn't take."""
        self._put.state, self._is_put = self._put.before, False
        if self._format == "pcapng" and not isinstance(error, (BlockingIOError, WriteError)):
            # How much of them it took isn't known, so the next packet begins a new section.
            self._put.state.pcapng = native.WriterState()

    def _send(self, units: bytes) -> None:
        """Gives the output units, whole or not at all: what it doesn't take is kept."""
        if self._file is None:
            self._file = self._opened()
        self._output = self._file
        if type(self._file) is io.BufferedWriter and len(units) > _WHOLE:
            self._file.flush()
            self._output = self._file.raw
        self._is_put, self._rest = True, memoryview(units)
        try:
            self._give(units)
            if self._is_put:
                raise _blocked()
        except BaseException:
            self._count()
            if self._is_put:
                self._rest = memoryview(b"")
            raise
        # What fails now fails again in the next call, which writes nothing else before.
        with contextlib.suppress(OSError):
            self._send_rest()

    def _send_rest(self) -> None:
        self._count()
        while self._rest:
            left = len(self._rest)
            self._give(bytes(self._rest[:_PIECE]))
            if len(self._rest) == left:
                raise _blocked()

    def _give(self, units: bytes) -> None:
        """Gives the output the first units of the rest, which is then what it didn't take."""
        try:
            # By one call, after which a signal's handler may raise an error.
            self._taken.extend(map(self._output.write, (units,)))
        except BlockingIOError as error:
            self._taken = [getattr(error, "characters_written", 0)]
        self._count()

    def _count(self) -> None:
        """Counts what the output took, if it isn't counted yet."""
        if not self._taken:
            return
        # The first time it is given all.
        most = len(self._rest) if self._is_put else min(len(self._rest), _PIECE)
        taken = self._taken[0]
        if taken is None:
            # What a raw file says if it is full, and what some other outputs always say.
            taken = 0 if isinstance(self._output, io.RawIOBase) else most
        if not 0 <= taken <= most:
            self._taken = []
            raise ValueError(f"the output took {taken} of {most} bytes")
        # Without a call, so all of it or nothing.
        self._rest, self._taken = self._rest[taken:], []
        self._is_put, self._is_begun = self._is_put and not taken, self._is_begun or taken > 0

    def _opened(self) -> Any:
        """The file, if no capture reads it; one at a path is empty now."""
        target = self._target
        if isinstance(target, (str, os.PathLike)):
            return _opened(target)
        descriptor = descriptor_of(target)
        if descriptor is not None and is_being_read(descriptor):
            raise _is_used(target, "read")
        return target

    def _end(self) -> None:
        if self._is_own and self._file is not None:
            self._is_closed = True
            self._file.close()
        elif hasattr(self._file, "flush"):
            self._file.flush()
        self._is_closed = True


# Files that writers opened, by identity. Pipes aren't among them: a fork would wait until they take bytes.
_files: weakref.WeakValueDictionary[Identity, Any] = weakref.WeakValueDictionary()


def _flush_files() -> None:
    for file in [reference() for reference in _files.valuerefs()]:
        with contextlib.suppress(OSError, RuntimeError, ValueError):
            if file is not None:
                file.flush()


# After a fork two processes have the bytes of a buffer, and each would write them at its exit.
os.register_at_fork(before=_flush_files)


def _is_in_a_call() -> RuntimeError:
    return RuntimeError("a writer is called in the middle of its own call")


def _blocked() -> BlockingIOError:
    return BlockingIOError(errno.EAGAIN, "the output takes no bytes now")


def _is_used(target: Any, how: str) -> WriteError:
    name = os.fspath(target) if isinstance(target, (str, os.PathLike)) else repr(target)
    return WriteError(f"{name} is a capture that is being {how}")


def _opened(target: Path) -> Any:
    """A file that is empty now; WriteError if a capture reads it, or another writer writes it."""
    descriptor = os.open(target, os.O_WRONLY | os.O_CREAT | os.O_CLOEXEC, 0o666)
    file = open(descriptor, "wb", io.DEFAULT_BUFFER_SIZE)
    try:
        if is_being_read(descriptor):
            raise _is_used(target, "read")
        status = os.fstat(descriptor)
        identity = identity_of(status)
        if identity:
            if not getattr(_files.get(identity), "closed", True):
                raise _is_used(target, "written")
            _files[identity] = file
        if stat.S_ISREG(status.st_mode):
            file.truncate(0)
        return file
    except BaseException:
        file.close()
        raise


def _has_bytes(packet: Packet) -> bool:
    """Whether nothing of it has to be made bytes; a class of another kind may have any length."""
    return type(packet[2]) is type(packet[4]) is type(packet[5]) is bytes


def _checked(packet: Packet) -> Packet:
    """The packet; WriteError if it has numbers that no capture has, TypeError if something else."""
    try:
        time = native.fits(packet.time, 64, "time")
        link_type = native.fits(packet.link_type, 16, "link type")
        original = native.fits(packet.original_length, 32, "original length")
        snap = native.fits(packet.snap_length, 32, "snap length")
    except ValueError as error:
        raise WriteError(str(error)) from None
    data, name = native.bytes_of(packet.data, "data"), packet.interface_name
    name, comment = native.bytes_of(name, "interface_name"), native.bytes_of(packet.comment, "comment")
    return Packet(time, link_type, data, original, comment, name, snap)
