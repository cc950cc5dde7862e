"""Expressions and their programs."""
from __future__ import annotations

import ctypes as c
import enum
from typing import TYPE_CHECKING, Any, Dict, Iterable, List, NamedTuple, Optional, Tuple, Union

from . import native
from .errors import NOT_A_LISTING, CompileError, ListingError, ProgramError, Status

if TYPE_CHECKING:
    from .reading import Packet

Bytes = Union[bytes, bytearray, memoryview]

_WITH_A_PLACE = {
    Status.UNKNOWN_CHARACTER, Status.UNKNOWN_WORD, Status.NUMBER_TOO_LARGE, Status.NOT_UTF8
}  # fmt: skip


class Instruction(NamedTuple):
    """An instruction of a program, with the codes of classic BPF."""

    code: int
    jt: int
    jf: int
    k: int


class Step(NamedTuple):
    """What a run is before one of its instructions."""

    index: int  # type: ignore[assignment]  # in place of a tuple's method
    """That of the instruction, from 0."""
    a: int
    """The register A."""
    x: int
    """The register X."""
    memory: Tuple[int, ...]
    """The 16 words of memory."""


class Elsewhere(enum.IntFlag):
    """What else runs a program with the same result."""

    LIBPCAP = 1
    LINUX = 2


def _number_of(call: Any, text: bytes, *arguments: Any) -> int:
    """The number that a call gives for an expression; raises CompileError."""
    number = c.c_size_t()
    status = call(text, len(text), *arguments, c.byref(number))
    if status:
        raise CompileError(status, number.value if status in _WITH_A_PLACE else None)
    return number.value


def _encoded(text: str, name: str = "an expression") -> bytes:
    if not isinstance(text, str):
        raise TypeError(f"{name} is a str, not {type(text).__name__}")
    # The call refuses lone surrogates, by which Python shows bytes of a command line that aren't UTF-8.
    return text.encode(errors="surrogatepass")


def explain(expression: str) -> str:
    """What an expression means, as an expression; raises CompileError.

    It is in parentheses by its tree, with every qualifier written out: "tcp port 80 or 443" is
    "(tcp src or dst port 80) or (tcp src or dst port 443)".
    """
    text = _encoded(expression)
    room = _number_of(native.explain, text, None, 0) + 1
    buffer = c.create_string_buffer(room)
    _number_of(native.explain, text, buffer, room)
    return buffer.value.decode()


def _insn(code: int, jt: int, jf: int, k: int) -> Any:
    fits = native.fits
    jumps = fits(jt, 8, "jt"), fits(jf, 8, "jf")
    return native.Insn(fits(code, 16, "code"), *jumps, fits(k, 32, "k"))


class Filter:
    """The program of an expression for packets of one link type.

    Filters are equal if their instructions are.
    """

    def __init__(self, expression: str, link_type: int) -> None:
        """Compiles the expression; raises CompileError."""
        native.fits(link_type, 16, "link type")
        text = _encoded(expression)
        room = _number_of(native.bound, text)
        self._insns: Any = (native.Insn * room)()
        self._count = _number_of(native.compile_, text, link_type, self._insns, room)

    @classmethod
    def from_instructions(cls, instructions: Iterable[Tuple[int, int, int, int]]) -> Filter:
        """A program from elsewhere; raises ProgramError."""
        return cls._checked([_insn(*instruction) for instruction in instructions])

    @classmethod
    def from_listing(cls, text: str) -> Filter:
        """The program of a listing, as `capkit compile` and `tcpdump -ddd` print it.

        Raises ListingError, or ProgramError if its instructions aren't a valid program.
        """
        insns, number = (native.Insn * native.MOST_INSNS)(), c.c_size_t()
        encoded = _encoded(text, "a listing")
        status = native.read_listing(encoded, len(encoded), insns, len(insns), c.byref(number))
        if status == NOT_A_LISTING:
            raise ListingError(number.value)
        if status:
            raise MemoryError
        return cls._checked(insns[: number.value])

    @classmethod
    def _checked(cls, program: List[Any]) -> Filter:
        made, index = cls.__new__(cls), c.c_size_t()
        made._insns, made._count = (native.Insn * len(program))(*program), len(program)
        rule = native.check(made._insns, made._count, c.byref(index))
        if rule:
            raise ProgramError(rule, index.value)
        return made

    def __repr__(self) -> str:
        return f"<Filter of {self._count} instructions>"

    def __str__(self) -> str:
        return self.listing

    def __eq__(self, other: object) -> bool:
        if not isinstance(other, Filter):
            return NotImplemented
        return self.instructions == other.instructions

    def __hash__(self) -> int:
        return hash(self.instructions)

    def __reduce__(self) -> Tuple[Any, ...]:
        return Filter.from_instructions, (self.instructions,)

    def run(self, data: Bytes, original_length: Optional[int] = None) -> int:
        """What the program returns on a packet: 0 rejects it.

        `data` are its captured bytes. It had `original_length` bytes on the wire, or as many as
        were captured.
        """
        result: int = native.matches(*self._arguments(data, original_length))
        return result

    def _arguments(self, data: Bytes, original_length: Optional[int]) -> Tuple[Any, ...]:
        data = native.bytes_of(data, "data")
        original = len(data) if original_length is None else original_length
        native.fits(original, 32, "original length")
        return self._insns, self._count, data, len(data), original

    def matches(self, data: Bytes, original_length: Optional[int] = None) -> bool:
        """Whether a packet matches; see `run`."""
        return self.run(data, original_length) != 0

    def trace(self, data: Bytes, original_length: Optional[int] = None) -> List[Step]:
        """What a run on a packet is before each instruction that it meets; see `run`."""
        arguments = self._arguments(data, original_length)
        room: int = native.trace(*arguments, None, 0)
        steps = (native.Step * room)()
        native.trace(*arguments, steps, room)
        return [Step(step.index, step.a, step.x, tuple(step.memory)) for step in steps]

    def text(self, index: int) -> str:
        """An instruction of the program as `tcpdump -d` prints it."""
        index = range(self._count)[index]
        return native.text_by(native.insn_text, c.byref(self._insns[index]), index)

    @property
    def instructions(self) -> Tuple[Instruction, ...]:
        """The program."""
        return tuple(Instruction(i.code, i.jt, i.jf, i.k) for i in self._insns[: self._count])

    @property
    def listing(self) -> str:
        """The program as `capkit compile` and `tcpdump -ddd` print it."""
        buffer = c.create_string_buffer(self._listing_into(None, 0) + 1)
        self._listing_into(buffer, len(buffer))
        return buffer.value.decode()

    def _listing_into(self, buffer: Any, room: int) -> int:
        """Puts the listing into a buffer, as far as there is room; the length of the whole."""
        length = c.c_size_t()
        if native.write_listing(self._insns, self._count, buffer, room, c.byref(length)):
            raise MemoryError  # since the program is valid
        return length.value

    @property
    def runs_on(self) -> Elsewhere:
        """Where else the program gives the same answers; see capkit_portability."""
        return Elsewhere(native.portability(self._insns, self._count))

    @property
    def is_portable(self) -> bool:
        """Whether libpcap and a Linux socket give the same answers."""
        return self.runs_on == Elsewhere.LIBPCAP | Elsewhere.LINUX


class Expression:
    """An expression, compiled for each link type when a packet has it first."""

    def __init__(self, text: str) -> None:
        """Checks the expression, which needs no link type; raises CompileError."""
        _number_of(native.bound, _encoded(text))
        self.text = text
        self._filters: Dict[int, Filter] = {}

    def __repr__(self) -> str:
        return f"Expression({self.text!r})"

    def __str__(self) -> str:
        return self.text

    def __eq__(self, other: object) -> bool:
        if not isinstance(other, Expression):
            return NotImplemented
        return self.text == other.text

    def __hash__(self) -> int:
        return hash(self.text)

    def __reduce__(self) -> Tuple[Any, ...]:
        return Expression, (self.text,)

    def filter(self, link_type: int) -> Filter:
        """The expression's filter for a link type; CompileError if none is compiled for it."""
        if link_type not in self._filters:
            self._filters[link_type] = Filter(self.text, link_type)
        return self._filters[link_type]

    def matches(self, packet: Packet) -> bool:
        """Whether a packet matches; raises CompileError as `filter` does."""
        return self.filter(packet.link_type).matches(packet.data, packet.original_length)
