"""The calls of libcapkit, as capkit.h declares them, and those of batch.c.

ctypes and not cffi: any Python has it, and one call reads many packets.
"""
import ctypes as c
import os
from typing import Any, List, Sequence, Tuple

MOST_INSNS = 32768
MOST_INTERFACES = 256
MOST_UNIT = 1048576


def _struct(name: str, fields: Sequence[Tuple[str, Any]]) -> Any:
    return type(name, (c.Structure,), {"_fields_": fields})


def _of(kind: Any, names: str) -> List[Tuple[str, Any]]:
    return [(name, kind) for name in names.split()]


_8, _16, _32, _64, _size = c.c_uint8, c.c_uint16, c.c_uint32, c.c_uint64, c.c_size_t
Insn = _struct("Insn", [("code", _16), *_of(_8, "jt jf"), ("k", _32)])
Step = _struct("Step", [*_of(_32, "index a x"), ("memory", _32 * 16)])
Reader = _struct("Reader", [
    ("offset", _size), *_of(_32, "snap interfaces"), ("link_type", _16),
    *_of(_8, "has_link_type form big_endian nanoseconds"),
])  # fmt: skip
Interface = _struct("Interface", [
    ("units", _64), ("offset", c.c_int64), ("snap", _32), ("link_type", _16), ("name_length", _8),
    ("name", _8 * 255),
])  # fmt: skip
PacketInfo = _struct("PacketInfo", [
    ("time", _64), *_of(_size, "at options_at"),
    *_of(_32, "captured original options_length interface snap"), ("link_type", _16),
])  # fmt: skip
BatchPacket = _struct("BatchPacket", [("packet", PacketInfo), ("end", _size)])
BatchReader = _struct("BatchReader", [
    ("reader", Reader), ("base", _64), ("capture", c.c_void_p), ("size", _size),
    ("insns", c.c_void_p), *_of(_size, "count number"), *_of(_16, "link_type is_plain"),
    ("packets", BatchPacket * 128), ("table", Interface * MOST_INTERFACES),
])  # fmt: skip
WriterState = _struct("WriterState", _of(_32, "interfaces has_section"))
PutPacket = _struct("PutPacket", [
    ("time", _64), *_of(_size, "captured name_length comment_length end"),
    *_of(_32, "original snap"), ("link_type", _16),
])  # fmt: skip
PutWriter = _struct("PutWriter", [
    ("pcapng", WriterState), *_of(_32, "is_pcapng nanoseconds has_header"), ("link_type", _16)
])  # fmt: skip
BatchWriter = _struct("BatchWriter", [
    ("packet", PutPacket), *_of(PutWriter, "state before"), ("table", c.c_void_p), ("room", _size),
    ("units", c.c_void_p), ("size", _size),
])  # fmt: skip

# It has the calls of libcapkit.so.0 too, which it is linked to.
_inside = os.path.join(os.path.dirname(__file__), "libcapkit_batch.so")
_library = c.CDLL(os.environ.get("CAPKIT_LIBRARY") or _inside)


def declare(name: str, result: Any, *arguments: Any) -> Any:
    """A call."""
    call = _library[name]
    call.restype, call.argtypes = result, arguments
    return call


_text, _at = c.c_char_p, c.c_void_p
_number, _buffer = c.POINTER(_size), (_at, _size, c.POINTER(_size))

bound = declare("capkit_bound", _32, _text, _size, _number)
explain = declare("capkit_explain", _32, _text, _size, *_buffer)
compile_ = declare("capkit_compile", _32, _text, _size, _16, *_buffer)
check = declare("capkit_check", _32, *_buffer)
run = declare("capkit_run", _32, _at, _size, _at, _size, _32, _number)
matches = declare("capkit_matches", _32, _at, _size, _at, _size, _32)
trace = declare("capkit_trace", _size, _at, _size, _at, _size, _32, _at, _size)
read_listing = declare("capkit_read_listing", _32, _text, _size, *_buffer)
write_listing = declare("capkit_write_listing", _32, _at, _size, *_buffer)
insn_text = declare("capkit_insn_text", _size, _at, _32, _at, _size)
line = declare("capkit_line", _size, _16, _64, _32, _at, _size, _32, _at, _size)
portability = declare("capkit_portability", _32, _at, _size)
batch_read = declare("batch_read", _32, _at)
batch_move = declare("batch_move", None, _at)
skip = declare("capkit_skip", _32, _at, _at, _size, _at, _size)
batch_comment = declare("batch_comment", _size, _at, _size, _32, _at, _size)
batch_put = declare("batch_put", _32, _at, _text, _text, _text)
batch_header = declare("batch_header", _size, _at)
number_text = declare("capkit_text", _size, _32, _at, _size)


def fits(value: int, bits: int, name: str) -> int:
    """The value, which ctypes would cut without a word; ValueError if it has too many bits."""
    if not isinstance(value, int):
        raise TypeError(f"{name} is a number, not {type(value).__name__}")
    if not 0 <= value < 1 << bits:
        raise ValueError(f"{name} {value} is not from 0 to {(1 << bits) - 1}")
    return value


def bytes_of(value: Any, name: str, what: str = "bytes") -> bytes:
    """The bytes of an object that has some: bytes, a bytearray, a memoryview of any items."""
    if type(value) is bytes:
        return value
    try:
        return memoryview(value).tobytes()
    except TypeError:
        raise TypeError(f"{name} is {what}, not {type(value).__name__}") from None


def text_by(call: Any, *arguments: Any) -> str:
    """The text that a call puts into a buffer, of at most 255 bytes."""
    buffer = c.create_string_buffer(256)
    call(*arguments, buffer, len(buffer))
    return buffer.value.decode()


def text_of(number: int) -> str:
    """What a number is called."""
    return text_by(number_text, number)
