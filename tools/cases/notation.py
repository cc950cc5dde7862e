"""Reads and writes the tables of crates/cap_cases, as its README.md defines them."""

import dataclasses
import re

NAMING = ("let", "packet", "cut", "cuts", "block")


@dataclasses.dataclass
class Case:
    """A case: what is run, on what, and what will come of it."""

    title: str = ""
    kind: str = "run"
    words: list = dataclasses.field(default_factory=list)
    input: bytes = b""
    files: dict = dataclasses.field(default_factory=dict)
    listing: bytes = b""
    compiled: list = dataclasses.field(default_factory=list)
    written: bytes = b""
    messages: str = ""
    status: int = 0
    other: list = dataclasses.field(default_factory=list)

    def run(self):
        """Returns all that a run of the case depends on: everything but the title."""
        return (self.kind, tuple(self.words), self.input, tuple(self.files.items()), self.listing, tuple(self.compiled),
                self.written, self.messages, self.status, tuple(self.other))


class Table:
    """The cases of a table, in order, and the names of its bytes."""

    def __init__(self, text):
        self.names, self.given, self.cases = {}, b"", []
        lines, rows = [], []
        for line in text.split("\n"):
            kind, _, rest = line.partition(" ")
            if not line:
                self.add_block(lines, rows)
                lines, rows = [], []
            elif kind in NAMING:
                name, _, words = rest.partition(" ")
                assert name not in self.names, name
                self.names[name] = self.named(kind, words)
            elif kind == "given":
                self.given = self.bytes_of(rest)
            elif kind == "row":
                rows.append(rest)
            elif kind == "each":
                rows += values_of(rest)
            elif kind != "#":
                lines.append(line)
        self.add_block(lines, rows)

    def add_block(self, lines, rows):
        """Adds the cases of a block: one for each row, or one."""
        for row in rows or [""] * bool(lines):
            self.cases.append(self.case_of([spelled(line, row) for line in lines]))

    def part(self, word):
        """Returns the bytes of a word: those of a name, or a part of them, or hexadecimal digits."""
        name, _, places = word.removesuffix("]").partition("[")
        if name not in self.names:
            return bytes.fromhex(word)
        first, _, last = (places or "..").partition("..")
        return self.names[name][int(first or 0):int(last) if last else None]

    def bytes_of(self, words):
        """Returns the bytes of words."""
        parts = []
        for word in words.split():
            times, star, once = word.partition("*")
            parts.append(self.part(once) * int(times) if star else self.part(word))
        return b"".join(parts)

    def named(self, kind, words):
        """Returns the bytes that a line gives a name."""
        if kind == "let":
            return self.bytes_of(words)
        if kind == "packet":
            return record(self.bytes_of(words))
        number, _, rest = words.partition(" ")
        data = self.bytes_of(rest)
        if kind == "block":
            size = (len(data) + 12).to_bytes(4, "little")
            return self.bytes_of(number) + size + data + size
        whole, original, most = data[16:], int.from_bytes(data[12:16], "little"), int(number)
        sizes = [most] if kind == "cut" else range(min(most, len(whole)) + 1)
        return b"".join(record(whole[:size], original) for size in sizes)

    def case_of(self, lines):
        """Returns the case that lines describe."""
        case = Case(input=self.given)
        for line in lines:
            kind, _, rest = line.partition(" ")
            self.read(case, kind, rest)
        return case

    def read(self, case, kind, rest):
        """Reads a line of a case."""
        number, _, text = rest.partition(" ")
        if kind in ("in", "out", "listing"):
            name, colon, words = rest.partition(":")
            data = self.bytes_of(words if colon else rest)
            if kind == "out":
                case.written += data
            elif kind == "listing":
                case.listing = data
            elif colon:
                case.files[name] = data
            else:
                case.input = data
        elif kind == "case":
            case.title = rest
        elif kind in ("run", "filter"):
            case.title = case.title or rest
            case.words += rest.split() if kind == "run" else [rest]
            case.kind = kind
        elif kind == "word":
            case.words.append(rest)
        elif kind == "words":
            case.words += [text] * int(number)
        elif kind == "more":
            case.words[-1] += text * int(number)
        elif kind == "text":
            case.written += rest.encode() + b"\n"
        elif kind == "lines":
            case.written += (text.encode() + b"\n") * int(number)
        elif kind == "code" and rest.startswith("from "):
            case.compiled += rest.split()[1:]
        elif kind == "code":
            case.listing += rest.encode() + b"\n"
        elif kind == "codes":
            case.listing += (text.encode() + b"\n") * int(number)
        elif kind == "usage":
            case.kind, case.messages = "usage", case.messages + rest + "\n"
        elif kind == "reports":
            case.messages += f"capkit: {rest}\n"
        elif kind == "status":
            case.status = int(rest)
        else:
            case.other.append((kind, rest))


def values_of(text):
    """Returns the rows of `each`."""
    first, to, last = text.partition(" to ")
    return [str(value) for value in range(int(first), int(last) + 1)] if to else text.split()


def spelled(line, row):
    """Returns a line of a form, spelled out for a row."""
    def column(match):
        place = match[1]
        if place == "":
            return row
        if place[0] in "+-":
            return str(int(row) + int(place))
        return row.split(" ; ")[int(place) - 1]
    return re.sub(r"\{([^}]*)\}", column, line)


def record(data, original=None):
    """Returns a little-endian pcap record at time 0."""
    size = len(data)
    return bytes(8) + size.to_bytes(4, "little") + (size if original is None else original).to_bytes(4, "little") + data


def pairs(data, names):
    """Returns bytes as words: names for the bytes that have one, else hexadecimal digits."""
    by_length = sorted(names.items(), key=lambda item: -len(item[1]))
    words, at, digits = [], 0, ""
    while at < len(data):
        name = next((name for name, known in by_length if data.startswith(known, at)), None)
        if name:
            words += [digits] * bool(digits) + [name]
            at, digits = at + len(names[name]), ""
        else:
            digits += f"{data[at]:02x}"
            at += 1
            if len(digits) == 8:
                words, digits = [*words, digits], ""
    return " ".join(words + [digits] * bool(digits))


def repeated(lines):
    """Returns lines of output, with equal ones combined."""
    found = []
    for line in lines:
        if found and found[-1][1] == line:
            found[-1][0] += 1
        else:
            found.append([1, line])
    return [f"lines {count} {line}" if count > 1 else f"text {line}" for count, line in found]


def text_of(written):
    """Returns the words for an output that is a text."""
    return repeated(written.decode().split("\n")[:-1])


def expected(words, outcome, names):
    """Returns the lines for the outcome of a run: the text of a print or a report, else bytes."""
    is_text = words[0] == "infos" or words[0] == "print" and "-w" not in words
    lines = text_of(outcome.written) if is_text else [f"out {pairs(outcome.written, names)}"] * bool(outcome.written)
    lines += [f"reports {line.removeprefix('capkit: ')}" for line in outcome.messages.splitlines()]
    return lines + [f"status {outcome.status}"] * bool(outcome.status)
