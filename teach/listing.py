"""Reads programs as listings, which `capkit compile` and `tcpdump -ddd` print, and opens files."""
import sys

import library

MOST_BYTES = 1 << 20
FORM = "a listing is what `capkit compile` or `tcpdump -ddd` prints"
WIDTHS = {"code": 16, "jt": 8, "jf": 8, "k": 32}


class Bad(Exception):
    """Why a text isn't the listing of a valid program."""


def why_wrong(lines, place):
    """Returns what is wrong in the first wrong line of a text; lines are counted from 1."""
    words = lines[place - 1].split() if place <= len(lines) else []
    for word in words:
        if not word.isdigit():
            return f"line {place}: {word[:20]!r} is no number; {FORM}"
    if place == 1 and len(words) != 1:
        return f"line 1: {len(words)} numbers, not one, the count of instructions; {FORM}"
    if place == 1:
        return f"line 1: {words[0]} is no count of at most {library.native.MOST_INSNS} instructions; {FORM}"
    if place > int(lines[0]) + 1 or place > len(lines):
        return f"line 1 counts {lines[0]} instructions, and {len(lines) - 1} lines follow"
    if len(words) != 4:
        return f"line {place}: {len(words)} numbers, not four: code, jt, jf and k"
    for number, (name, bits) in zip(map(int, words), WIDTHS.items()):
        if number >= 1 << bits:
            return f"line {place}: {name} is {number}, and at most {(1 << bits) - 1} fits"
    return f"line {place}: {FORM}"


def program_of(text):
    """Returns the program of a listing in ASCII, read and checked by the library; any other white space is a blank."""
    lines = [" ".join(line.split()) for line in text.rstrip().split("\n")]
    if lines == [""]:
        raise Bad(f"it is empty; {FORM}")
    try:
        return library.Program(library.capkit.Filter.from_listing("\n".join(lines)))
    except library.capkit.ListingError as error:
        raise Bad(why_wrong(lines, error.line)) from error
    except library.capkit.ProgramError as error:
        place = error.index
        where = f"line {place + 2}: instruction {place}: " if place < len(lines) - 1 else ""
        reason = str(error).rsplit(" (", 1)[0]
        raise Bad(f"{where}{reason}; the program isn't valid, so no packet is run on it") from error


def read(file):
    """Returns the program in a file of bytes."""
    contents = file.read(MOST_BYTES + 1)
    if len(contents) > MOST_BYTES:
        raise Bad(f"longer than {MOST_BYTES} bytes")
    try:
        return program_of(contents.decode("ascii"))
    except UnicodeDecodeError as error:
        raise Bad(f"byte {error.start} is no ASCII; {FORM}") from error


def opened(name):
    """Returns a file to read; `-` is standard input."""
    return open(0, "rb", closefd=False) if name == "-" else open(name, "rb")


def write(command, data):
    """Writes to standard output, and returns the status; without a message if its reader went away."""
    try:
        with open(1, "wb", closefd=False) as output:
            output.write(data)
    except BrokenPipeError:
        return 1
    except OSError as error:
        print(f"{command}: standard output: {error.strerror}", file=sys.stderr)
        return 1
    return 0


def read_or_exit(command, name):
    """Returns the program in a file, or in standard input if none is named; otherwise ends with a message."""
    try:
        with opened(name or "-") as file:
            return read(file)
    except OSError as error:
        reason = error.strerror
    except Bad as error:
        reason = error
    print(f"{command}: {name or 'standard input'}: {reason}", file=sys.stderr)
    sys.exit(2)
