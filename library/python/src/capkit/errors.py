"""What goes wrong. The numbers are those of capkit.h."""
from __future__ import annotations

import enum
from typing import TYPE_CHECKING, Any, Optional, Tuple

from . import native

if TYPE_CHECKING:
    from .reading import Capture


class Status(enum.IntEnum):
    """Why an expression isn't compiled."""

    # tools/library_numbers.py writes these from capkit.h.
    TOO_LONG = 1
    UNKNOWN_CHARACTER = 2
    UNKNOWN_WORD = 3
    NUMBER_TOO_LARGE = 4
    NOT_AN_EXPRESSION = 5
    NESTED_TOO_DEEP = 6
    QUALIFIERS_DO_NOT_FIT = 7
    VALUE_OUT_OF_RANGE = 8
    BITS_PAST_MASK = 9
    DIVISION_BY_ZERO = 10
    TOO_MANY_WORDS = 11
    PROGRAM_TOO_LONG = 12
    NO_MEMORY = 13
    NOT_UTF8 = 14
    LINK_TYPE = 15


class Rule(enum.IntEnum):
    """The rules that a program keeps."""

    # tools/library_numbers.py writes these from capkit.h.
    EMPTY = 101
    TOO_MANY = 102
    UNKNOWN_CODE = 103
    JUMP_OUT = 104
    NO_SUCH_WORD = 105
    DIVISION_BY_ZERO_CONSTANT = 106
    SHIFT_TOO_FAR = 107
    NO_RETURN = 108


class Check(enum.IntEnum):
    """The checks of a capture's units, and of packets that are written."""

    # tools/library_numbers.py writes these from capkit.h.
    NOT_A_CAPTURE_FILE = 201
    TRUNCATED = 202
    BAD_VERSION = 203
    UNIT_TOO_LONG = 204
    BAD_BLOCK_LENGTH = 205
    BAD_BYTE_ORDER_MAGIC = 206
    UNKNOWN_INTERFACE = 207
    BAD_OPTION = 208
    BAD_BODY = 209
    TIME_OUT_OF_RANGE = 210
    TOO_MANY_INTERFACES = 211
    BAD_TIME_RESOLUTION = 212
    BAD_LINK_TYPE_FIELD = 213
    OBSOLETE_PACKET_BLOCK = 214
    LINK_TYPES_DIFFER = 218
    TOO_MANY_OUTPUT_INTERFACES = 221


NOT_A_LISTING = 17


class _Error(ValueError):
    """Errors that other processes get whole: they are made again of what they were made of."""

    _made_of: Tuple[Any, ...]

    def __reduce__(self) -> Tuple[Any, ...]:
        return type(self), self._made_of


class CompileError(_Error):
    """An expression isn't compiled.

    `status` is a Status, and `place` where in the text the fault is, in bytes from 1, or None if it
    has no place.
    """

    def __init__(self, status: int, place: Optional[int]) -> None:
        self.status, self.place, self._made_of = Status(status), place, (status, place)
        reason = native.text_of(status)
        super().__init__(reason if place is None else f"{reason} (at byte {place})")


class ProgramError(_Error):
    """Instructions aren't a valid program.

    `rule` is a Rule, and `index` that of the instruction, from 0.
    """

    def __init__(self, rule: int, index: int) -> None:
        self.rule, self.index, self._made_of = Rule(rule), index, (rule, index)
        super().__init__(f"{native.text_of(rule)} (instruction {index})")


class ListingError(_Error):
    """A text isn't a listing; `line` is its first wrong line, from 1."""

    def __init__(self, line: int) -> None:
        self.line, self._made_of = line, (line,)
        super().__init__(f"{native.text_of(NOT_A_LISTING)} (at line {line})")


class CaptureError(_Error):
    """A capture ends with a fault: the unit at `offset` fails a check.

    `fault` is a Check. `packets` are the packets before the fault, which each loop reads from the bytes
    or the file again; it raises OSError if the file is gone, or was replaced or changed. They are None
    if they came from a stream: a pipe or an open file.
    """

    def __init__(self, fault: int, offset: int, packets: Optional[Capture]) -> None:
        self.fault, self.offset, self.packets = Check(fault), offset, packets
        self._made_of = fault, offset, packets
        self.reason = native.text_of(fault)
        super().__init__(f"offset {offset}: {self.reason}")


class WriteError(_Error):
    """A packet doesn't fit the format, or the capture is being read or written; nothing was written."""

    def __init__(self, reason: str) -> None:
        self._made_of = (reason,)
        super().__init__(reason)
