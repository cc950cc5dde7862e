"""Sources of captures' bytes, and the files that are being read."""
from __future__ import annotations

import binascii
import contextlib
import errno
import os
import stat
import sys
import threading
import weakref
from typing import Any, List, NamedTuple, Optional, Protocol, Tuple, Union

from .filters import Bytes

Path = Union[str, "os.PathLike[str]"]
Identity = Tuple[int, int]

# How many of a file's last bytes show whether it only grew.
_TAIL_SIZE = 1024


class Readable(Protocol):
    """A binary file, or whatever else has its `read`."""

    def read(self, size: int, /) -> Optional[Bytes]:
        """At most `size` bytes; none at the end, and None if none have come yet."""


# Those that were opened, each by its id.
_sources: weakref.WeakValueDictionary[int, Any] = weakref.WeakValueDictionary()
# All that have a lock.
_locked: weakref.WeakSet[Any] = weakref.WeakSet()


def add_lock(owner: Any) -> None:
    """Gives an object a lock, which is free after a fork, though threads that don't go on held it."""
    # A signal's handler may call in the middle of a call.
    owner._lock = threading.RLock()
    _locked.add(owner)


def _free_locks() -> None:
    for owner in list(_locked):
        owner._lock = threading.RLock()


os.register_at_fork(after_in_child=_free_locks)


def is_being_read(descriptor: int) -> bool:
    """Whether a file is one that a capture reads."""
    identity = identity_of(os.fstat(descriptor))
    if identity is None:
        return False
    sources = [reference() for reference in _sources.valuerefs()]
    return any(it is not None and it.identity == identity for it in sources)


def descriptor_of(file: Any) -> Optional[int]:
    """That of a file which is open and has one."""
    try:
        descriptor = file.fileno()
        os.fstat(descriptor)
    except (AttributeError, OSError, OverflowError, TypeError, ValueError):
        return None
    return int(descriptor)


def identity_of(status: os.stat_result) -> Optional[Identity]:
    """Which file it is, if what is written to it is read from it."""
    is_kept = stat.S_ISREG(status.st_mode) or stat.S_ISBLK(status.st_mode)
    return (status.st_dev, status.st_ino) if is_kept else None


class Seen(NamedTuple):
    """A file as it was when it was read."""

    device: int
    inode: int
    size: int
    changed: int
    """Nanoseconds since 1970, of its last change."""
    tail: int
    """A checksum of its last bytes."""

    @classmethod
    def of(cls, descriptor: int, now: os.stat_result) -> Seen:
        tail = _tail(descriptor, now.st_size)
        return cls(now.st_dev, now.st_ino, now.st_size, now.st_mtime_ns, tail)

    def is_still(self, descriptor: int) -> bool:
        """Whether it is the same file, which may only have grown."""
        now = os.fstat(descriptor)
        if (now.st_dev, now.st_ino) != self[:2]:
            return False
        if now.st_size <= self.size:
            return (now.st_size, now.st_mtime_ns) == self[2:4]
        return self.tail == _tail(descriptor, self.size)


def _tail(descriptor: int, size: int) -> int:
    count = min(size, _TAIL_SIZE)
    return binascii.crc32(os.pread(descriptor, count, size - count))


class File:
    """A regular file at a path, for loops that each read it from its start.

    It is open until it is closed, or an error ends the last loop over it, so that errors which are
    kept keep no file open; one that was seen earlier is open only during loops. The next loop opens it
    again if it is still the same, else it raises OSError (ESTALE). Threads may share it.
    """

    def __init__(self, path: str, file: Any, seen: Seen) -> None:
        self.path, self._file, self._seen = path, file, seen
        self._loops, self._is_closed = 0, False
        self._is_for_loops = self._is_released = file is None
        self._lock: Any
        add_lock(self)
        if file is not None:
            _sources[id(self)] = self

    @property
    def identity(self) -> Optional[Identity]:
        """Which file it is, while it is open."""
        return None if self._file is None else self._seen[:2]

    def begin(self) -> None:
        """A loop over it begins."""
        with self._lock:
            self._loops += 1

    def end(self, has_failed: bool) -> None:
        """A loop over it has ended, by an error or not."""
        with self._lock:
            self._loops -= 1
            if has_failed:
                self._look()
                self._is_released = True
            if self._is_released and not self._loops:
                self._release()

    def close(self) -> None:
        with self._lock:
            self._is_closed = True
            self._release()

    def seen(self) -> Seen:
        """The file as it is, or as it was when it was open last."""
        with self._lock:
            self._look()
            return self._seen

    def read(self, view: memoryview, position: int, given: List[Any]) -> int:
        with self._lock:
            descriptor = self._descriptor()
            try:
                return os.preadv(descriptor, [view], position)
            except OSError:
                if self._loops == 1:
                    self._look()
                    self._release()
                raise

    def is_shorter(self, position: int) -> bool:
        """Whether the file was longer when it was read up to a position."""
        with self._lock:
            return os.fstat(self._descriptor()).st_size < position

    def changed(self) -> OSError:
        why = "it was replaced or changed after it was read"
        return OSError(errno.ESTALE, why, self.path)

    def _descriptor(self) -> int:
        """That of the file, which is opened again if it isn't open."""
        if self._is_closed:
            raise ValueError("the capture is closed")
        if self._file is None:
            file = open(self.path, "rb", 0, opener=_open_at_once)
            if not self._seen.is_still(file.fileno()):
                file.close()
                raise self.changed()
            self._file = file
            _sources[id(self)] = self
        descriptor: int = self._file.fileno()
        return descriptor

    def _look(self) -> None:
        """Sees the file again, unless it no longer has what was read of it."""
        with contextlib.suppress(OSError):
            if self._file is not None and self._seen.is_still(self._file.fileno()):
                descriptor = self._file.fileno()
                self._seen = Seen.of(descriptor, os.fstat(descriptor))

    def _release(self) -> None:
        file, self._file, self._is_released = self._file, None, self._is_for_loops
        if file is not None:
            file.close()


def _open_at_once(path: str, flags: int) -> int:
    """Opens a file that may be a pipe by now, without a wait for its writer."""
    return os.open(path, flags | os.O_NONBLOCK)


class Stream:
    """What is read once: an open file, or a pipe at a path."""

    def __init__(self, file: Any, is_own: bool) -> None:
        self._file, self._is_own, self._is_closed = file, is_own, False
        descriptor = descriptor_of(file)
        self._identity = None if descriptor is None else identity_of(os.fstat(descriptor))
        if self._identity:
            _sources[id(self)] = self

    @property
    def identity(self) -> Optional[Identity]:
        """Which file it is, while it is read."""
        is_closed = self._is_closed or getattr(self._file, "closed", False)
        return None if is_closed else self._identity

    def begin(self) -> None:
        pass

    def end(self, has_failed: bool) -> None:
        if has_failed and self._is_own:
            self.close()

    def close(self) -> None:
        self._is_closed = True
        if self._is_own:
            self._file.close()

    def is_shorter(self, position: int) -> bool:
        return False

    def read(self, view: memoryview, position: int, given: List[Any]) -> int:
        """Reads once, as much as there is; BlockingIOError if nothing has come yet.

        What the file gave is in a list, too; if the list has something, the file isn't read.
        """
        if self._is_closed:
            raise ValueError("the capture is closed")
        file, is_by_count = self._file, not hasattr(type(self._file), "readinto")
        if not given:
            # The one of a buffered file that doesn't wait for more than there is.
            read = file.read if is_by_count else getattr(file, "readinto1", file.readinto)
            _put_in_time(given, file, read, len(view) if is_by_count else view)
        try:
            count = _put_into(view, given[0]) if is_by_count else given[0]
            if count is None:
                raise BlockingIOError(errno.EAGAIN, "no bytes have come yet")
            if not 0 <= count <= len(view):
                raise ValueError(f"a source gave {count} bytes where {len(view)} were asked for")
        except (BlockingIOError, TypeError, ValueError):
            given.clear()
            raise
        return int(count)


def _put_into(view: memoryview, data: Any) -> Optional[int]:
    """Puts bytes into a buffer if they fit, and returns how many there are; None if there are none yet."""
    if isinstance(data, str):
        raise TypeError("a source that is an open file is a binary one")
    if data and len(data) <= len(view):
        view[: len(data)] = data
    return None if data is None else len(data)


def _put_in_time(given: List[Any], file: Any, read: Any, argument: Any) -> None:
    """Puts what a file gives into a list. One of a socket can be read again after its timeout."""
    try:
        # By one call, after which a signal's handler may raise an error.
        given.extend(map(read, (argument,)))
    except OSError as error:
        # It refuses that, since a reader that joins pieces has lost those before. Nothing was read here.
        # Whoever has a socket has imported its module, which takes a tenth of a short program's time.
        raw, socket = getattr(file, "raw", file), sys.modules.get("socket")
        if socket and isinstance(error, (TimeoutError, socket.timeout)):
            if isinstance(raw, socket.SocketIO) and hasattr(raw, "_timeout_occurred"):
                raw._timeout_occurred = False
        raise
    if not given:
        raise RuntimeError("a source raised StopIteration")


def opened(path: Path) -> Union[File, Stream]:
    """What is at a path; raises OSError if it can't be opened."""
    file = open(path, "rb", buffering=0)
    try:
        descriptor = file.fileno()
        status = os.fstat(descriptor)
        if stat.S_ISREG(status.st_mode):
            return File(_absolute(os.fsdecode(path)), file, Seen.of(descriptor, status))
        return Stream(file, True)
    except BaseException:
        file.close()
        raise


def _absolute(path: str) -> str:
    """A path that means the same in any folder. Its `..` stay, since a link may be before them."""
    try:
        return os.path.join(os.getcwd(), path)
    except FileNotFoundError:
        return path
