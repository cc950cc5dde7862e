"""Computes what capkit's commands write and report, as the pages define it.

It works on whole lists of packets, never packet by packet, unlike capkit.
"""

import dataclasses
import datetime
import getopt
import hashlib

import filters
import machine
from files import SECOND, Capture, Fault, Writer
from printing import line, report

FILTERED = (1, 101, 113)


@dataclasses.dataclass
class Outcome:
    """The result of a run. The pieces are its output, one for each packet or report."""

    pieces: list
    messages: str = ""
    status: int = 0

    @property
    def written(self):
        return b"".join(self.pieces)

    def stops(self):
        """Returns the sizes of the output before the first piece and after each."""
        sizes = [0]
        for piece in self.pieces:
            sizes.append(sizes[-1] + len(piece))
        return sizes


def failed(pieces, name, fault):
    """Returns the outcome of a run that ends with a fault: an offset and a text."""
    return Outcome(pieces, f"capkit: {name}: offset {fault[0]}: {fault[1]}\n", 1)


def time_of(text):
    """Returns a time or a span in nanoseconds, from seconds since 1970 with a point, or from a date."""
    if text.endswith("Z"):
        day, _, fraction = text[:-1].partition(".")
        since = datetime.datetime.fromisoformat(day) - datetime.datetime(1970, 1, 1)
        return (since.days * 86_400 + since.seconds) * SECOND + int(fraction.ljust(9, "0"))
    seconds, _, fraction = text.partition(".")
    return int(seconds) * SECOND + int(fraction.ljust(9, "0"))


class Words:
    """The options of a command line and its other words."""

    def __init__(self, words, short, long=()):
        options, self.rest = getopt.gnu_getopt(words, short, [f"{name}=" for name in long])
        self.options = dict(options)

    def number(self, name):
        return int(self.options[name]) if name in self.options else None

    def time(self, name):
        return time_of(self.options[name]) if name in self.options else None


PRINT = ["print", "-w", "out", "--format", "pcap", "in"]


def is_decided(case):
    """Returns whether the rules here decide the result of a case: they don't cover refused words,
    expressions and listings, nor the output of `compile`.
    """
    return not (case.kind == "usage" or case.words[0] == "compile" or case.compiled or case.status == 2)


def outcome_of(case, data=None):
    """Returns the outcome of a case, or the outcome with another input."""
    data = case.input if data is None else data
    words = PRINT + case.words if case.kind == "filter" else case.words
    return run(words, lambda name: case.files.get(name, data), case.files.get("code", case.listing))


def run(words, file_of, listing=b""):
    """Returns the outcome of a command line; a function gives the inputs by name."""
    command, *rest = words
    return {"edit": edit, "merge": merge, "infos": infos, "print": print_}[command](rest, file_of, listing)


def written(form, sources, list_, end=None):
    """Writes a list of packets with the names of their files, up to one that is refused; then there may be a fault."""
    writer = Writer(form)
    for name, packet in list_:
        if isinstance(packet, tuple):
            return failed(writer.pieces, name, packet)
        try:
            writer.put(packet)
        except Fault as fault:
            return failed(writer.pieces, name, (packet.offset, str(fault)))
    if end:
        return failed(writer.pieces, *end)
    if not writer.pieces:
        links = [source.links[0] for source in sources if source.links]
        writer.pieces.append(writer.heading(links[0] if links else 1))
    return Outcome(writer.pieces)


def end_of(capture, name):
    """Returns the end of a capture with a fault: its name, the offset and the text; else None."""
    return (name, (capture.places[-1][0], capture.fault)) if capture.fault else None


def edit(words, file_of, _listing):
    """Edits one capture: selects by number and time, cuts, shifts, and omits duplicates."""
    words = Words(words, "rA:B:s:D:F:", ["chop-start", "chop-end", "later", "earlier"])
    name, _, *ranges = words.rest
    capture = Capture(file_of(name))
    ranges = [(int(first), int(last or first)) for first, _, last in (text.partition("-") for text in ranges)]
    packets = []
    for number, packet in enumerate(capture.packets, 1):
        if (
            any(first <= number <= last for first, last in ranges) == ("-r" in words.options)
            and is_in_time(words, packet)
        ):
            packets.append(changed(words, packet))
            if isinstance(packets[-1], tuple):
                break
    list_ = [(name, packet) for packet in unique(words.number("-D"), packets)]
    return written(words.options.get("-F", "pcapng"), [capture], list_, end_of(capture, name))


def is_in_time(words, packet):
    """Returns whether a packet is within the times of -A and -B."""
    start, stop = words.time("-A"), words.time("-B")
    return (start is None or start <= packet.time) and (stop is None or packet.time < stop)


def changed(words, packet):
    """Returns a packet after it is cut and shifted, or the offset and the text of a fault."""
    data = packet.data[words.number("--chop-start") or 0:]
    data = data[:max(len(data) - (words.number("--chop-end") or 0), 0)][:words.number("-s")]
    time = packet.time + (words.time("--later") or 0) - (words.time("--earlier") or 0)
    if not 0 <= time < 2**63:
        return packet.offset, "time out of range"
    return dataclasses.replace(packet, data=data, time=time)


def unique(window, packets):
    """Returns the packets that equal none of the `window` - 1 before them, and the faults."""
    marks = [
        packet if isinstance(packet, tuple) else (len(packet.data), hashlib.md5(packet.data).digest())
        for packet in packets
    ]
    before = (window or 1) - 1
    return [packet for at, packet in enumerate(packets) if marks[at] not in marks[max(at - before, 0):at]]


def merge(words, file_of, _listing):
    """Returns the outcome of `merge`."""
    words = Words(words, "aF:w:")
    names = words.rest
    captures = [Capture(file_of(name)) for name in names]
    ordered, end = (appended if "-a" in words.options else merged)(names, captures)
    return written(words.options.get("-F", "pcapng"), captures, ordered, end)


def appended(names, captures):
    """Returns the packets of all files in turn, up to the first fault."""
    ordered = []
    for name, capture in zip(names, captures):
        ordered += [(name, packet) for packet in capture.packets]
        if capture.fault:
            return ordered, end_of(capture, name)
    return ordered, None


def merged(names, captures):
    """Returns all packets, sorted by the greatest time so far in their file, by file and by place,
    and how the list ends.
    """
    for name, capture in zip(names, captures):
        if capture.fault and not capture.packets:
            return [], end_of(capture, name)
    keyed = []
    for number, capture in enumerate(captures):
        greatest = 0
        for place, packet in enumerate(capture.packets):
            greatest = max(greatest, packet.time)
            keyed.append(((greatest, number, place), packet))
    ordered, end = [], None
    for (_, number, place), packet in sorted(keyed, key=lambda pair: pair[0]):
        ordered.append((names[number], packet))
        capture = captures[number]
        if capture.fault and place == len(capture.packets) - 1:
            end = end_of(capture, names[number])
            break
    return ordered, end


def infos(words, file_of, _listing):
    """Returns the outcome of `infos`."""
    pieces = []
    for name in words:
        capture = Capture(file_of(name))
        if capture.fault:
            return failed(pieces, *end_of(capture, name))
        pieces.append(report(name, capture).encode())
    return Outcome(pieces)


def print_(words, file_of, listing):
    """Returns the outcome of `print` as a capture or as lines."""
    words = Words(words, "exc:w:", ["format", "code"])
    name, *expression = words.rest
    tree = filters.tree_of(" ".join(expression))
    capture, passed = Capture(file_of(name)), []
    program = machine.program_of(listing) if "--code" in words.options else None
    end = end_of(capture, name)
    for packet in capture.packets:
        if program is None and tree != ("all",) and packet.link not in FILTERED:
            end = (name, (packet.offset, "link type not filtered"))
            break
        if machine.run(program, packet) if program else tree == ("all",) or filters.matches(tree, packet):
            passed.append((name, packet))
            if len(passed) == words.number("-c"):
                end = None
                break
    if "-w" in words.options:
        return written(words.options.get("--format", "pcapng"), [capture], passed, end)
    pieces = [line(packet, "-e" in words.options, "-x" in words.options).encode() for _, packet in passed]
    return failed(pieces, *end) if end else Outcome(pieces)
