#!/usr/bin/env python3
"""Writes the manual pages and completions of capkit into a folder.

usage: packaging/pages.py FOLDER           (needs python3-jinja2)

make_deb.sh calls it for packages; docs/INSTALL.md, for installing by hand. A page is a template of
packaging/pages/. Its usage and examples are those of the help texts, which the table
crates/cap_cases/data/lines has: cases in which words ask for help or for the version, with the
lines that are printed. The gate compares these with the program. A page describes each argument and
option of its command once (`help.item`): this script refuses one that misses some. capkit-filter(7)
is docs/FILTER.md in the form of a manual page.
"""
import pathlib
import re
import sys
import textwrap

import jinja2

ROOT = pathlib.Path(__file__).resolve().parent.parent
STORED = ROOT / "crates/cap_cases/data/lines"
# The columns of a terminal, which no line of help exceeds.
COLUMNS = 80
TEMPLATES = ROOT / "packaging/pages"
LANGUAGE = ROOT / "docs/FILTER.md"
# The left margin of a manual page, in columns.
MARGIN = 5
# The left margin of a display in it.
DISPLAY = 6
# The values and arguments that name files.
FILES = {"IN", "OUT", "FILE", "LISTING", "MORE"}
# What precedes the values that an option may have, at the end of its line or on the next line.
CHOICES = "[possible values: "


# ---- what help says

class Entry:
    """A command, an argument or an option, as a line of help lists it, or a word of the usage."""

    def __init__(self, line):
        # How it is written, as "-F <FORMAT>", and what it is for: at least two blanks apart.
        self.form, _, text = line.strip().partition("  ")
        text, _, choices = text.partition(CHOICES)
        self.text, self.choices = text.strip(), re.findall(r"\w+", choices)
        # Its names as an option, and the name of its value, as "MORE" of "[MORE]...".
        self.names = re.findall(r"--?[\w-]+", self.form)
        value = re.search(r"[<[](\w+)", self.form)
        self.value = value and value[1]
        self.is_file = self.value in FILES

    @property
    def tag(self):
        """Returns the tag of an argument or option in mdoc(7)."""
        names = " , ".join(f"Fl {name[1:]}" for name in self.names)
        value = f"Ar {self.value}" if self.value else ""
        return f"{names} {value}".strip() or f"Cm {self.form}"


class Help:
    """The parts of the help of a command, or of the program if the name is empty."""

    def __init__(self, name, text):
        text = re.sub(r"\n +" + re.escape(CHOICES), " " + CHOICES, text)
        parts = {head: lines for head, *lines in map(str.splitlines, text.split("\n\n"))}
        self.name = name
        self.commands, self.arguments, self.options = (
            [Entry(line) for line in parts.get(head, [])] for head in ("Commands:", "Arguments:", "Options:"))
        usage = re.search(r"^Usage: capkit \w+ (?:\[OPTIONS\] )?(.*)", text, re.MULTILINE)
        # The words that a line has after the options that may be left out, and these.
        self.usage = [Entry(word) for word in usage[1].split()] if usage else []
        needed = {"--help", *(name for word in self.usage for name in word.names)}
        self.free = [option for option in self.options if not needed.intersection(option.names)]
        # The arguments and options, by their last names, that no item of a manual page describes yet.
        self.undescribed = {(entry.names or [entry.value])[-1]: entry for entry in [*self.arguments, *self.options]}
        self.flags = " ".join(name for option in self.options for name in option.names)
        self.has_files = any(argument.is_file for argument in self.arguments)
        # Command lines stand deeper than their descriptions.
        examples = re.findall(r"((?:^  \S.*\n)+)((?:^    .*\n)+)", text.partition("\nExamples:\n")[2], re.MULTILINE)
        self.examples = [(textwrap.dedent(told).rstrip(), "\n".join(map(folded, commands.split("\n")[:-1])))
                         for told, commands in examples]


    def item(self, name):
        """Returns the tag of an argument or option, and records that the page describes it."""
        return f".It {self.undescribed.pop(name).tag}"


def folded(line):
    """Returns a command line of a display, folded into lines that a shell joins."""
    line, most = line.strip(), COLUMNS - MARGIN - DISPLAY
    if len(line) <= most:
        return line
    return " \\\n".join(textwrap.wrap(line, most - len(" \\"), subsequent_indent="    ", break_on_hyphens=False))


def narrow(name, text, start=0):
    """Returns a text if its lines fit on a terminal from this column on; else ends the script."""
    for line in text.splitlines():
        if start + len(line) > COLUMNS:
            sys.exit(f"over {COLUMNS} columns in {name}: {line}")
    return text


def stored_texts():
    """Returns the stored texts of the command line: its help by the names of commands, and its version."""
    helps, version = {}, ""
    for case in STORED.read_text().split("\n\n"):
        words = re.search(r"^run (?:(\w+) )?(-h|--help|--version)$", case, re.MULTILINE)
        text = "".join(f"{line}\n" for line in re.findall(r"^usage ?(.*)$", case, re.MULTILINE))
        if words and words[2] == "--version":
            version = text.strip() or version
        elif words and text:
            helps[words[1] or ""] = narrow("help", text)
    return helps, version


# ---- the forms of texts

def roff(text):
    """Returns a text in which the characters that roff would change are escaped."""
    return text.translate(str.maketrans({"\\": r"\e", "'": r"\(aq", "-": r"\-"}))


def zsh(text):
    """Returns a text as zsh needs it between single quotes, brackets and colons."""
    return re.sub(r"[][:\\]", r"\\\g<0>", text).replace("'", r"'\''")


def fish(text):
    """Returns a text as fish needs it between single quotes."""
    return re.sub(r"['\\]", r"\\\g<0>", text)


# ---- the language, from Markdown

def roff_text(text):
    """Returns a text of Markdown in roff: code and bold text in bold, emphasis in italics, links by their text."""
    text = re.sub(r"\[([^]`]*)\]\([^`)]*\)", r"\1", roff(text))
    text = re.sub(r"`([^`]+)`|\*\*([^*]+)\*\*", r"\\fB\1\2\\fP", text)
    text = re.sub(r"(?<![\w*])\*([^* ][^*]*)\*(?!\w)", r"\\fI\1\\fP", text)
    return text if text[:1] not in ".'" else r"\&" + text


def header(lines):
    """Returns the header of a section."""
    mark, _, name = lines[0].partition(" ")
    return [".Ss " + roff(name) if len(mark) == 3 else ".Sh " + roff(name.upper())]


def table(lines):
    """Returns a table as a list of its first cells, each with the others, which are named if there are several."""
    rows = [[cell.strip().replace("\\|", "|") for cell in re.split(r"(?<!\\)\|", line)[1:-1]] for line in lines]
    names, _, *rows = rows
    shown = [".Bl -tag -width Ds"]
    for first, *others in rows:
        shown.append('.It "' + r"\&" + roff_text(first).replace('"', r"\(dq") + '"')
        named = [cell if len(names) == 2 else f"*{name}*: {cell}" for name, cell in zip(names[1:], others) if cell]
        shown.append("\n.br\n".join(map(roff_text, named)))
    return shown + [".El"]


def code(lines):
    """Returns a display of code."""
    return [".Bd -literal", *(r"\&" + roff(line) for line in lines), ".Ed"]


def points(lines):
    """Returns a list; an indented line continues its item."""
    shown = [".Bl -bullet"]
    for line in lines:
        shown += [".It"] * line.startswith("- ") + [roff_text(line[2:].strip())]
    return shown + [".El"]


def paragraph(lines):
    """Returns a paragraph."""
    return [".Pp", *map(roff_text, lines)]


def language():
    """Returns the sections of the page on the filter language."""
    shapes, shown = {"#": header, "|": table, "-": points}, []
    page = LANGUAGE.read_text().partition("\n")[2]
    for fenced, lines in re.findall(r"^```\n((?:.*\n)*?)```$|^((?:.+\n)+)", page, re.MULTILINE):
        shown += code(fenced.splitlines()) if fenced else shapes.get(lines[0], paragraph)(lines.splitlines())
    # A paragraph directly below a header needs no space.
    return re.sub(r"\A\.Pp\n|(?<=\n)(\.S[hs] .*\n)\.Pp\n", r"\1", "\n".join(shown))


# ---- all pages

def undescribed(help, page):
    """Returns the arguments and options without an item on the page, and the values of options that it doesn't name."""
    return [
        *help.undescribed,
        *(value for option in help.options for value in option.choices if not re.search(rf"\b{value}\b", page)),
    ]


def pages():
    """Yields all pages with their names."""
    helps, version = stored_texts()
    program = Help("", helps[""])
    commands = [Help(command.form, helps[command.form]) for command in program.commands]
    values = {"version": version, "system": roff(" ".join(version.split()[:2])), "language": language()}
    values.update(program=program, commands=commands, names=" ".join(command.name for command in commands))
    how = {"line_statement_prefix": "@", "trim_blocks": True, "keep_trailing_newline": True}
    templates = jinja2.Environment(loader=jinja2.FileSystemLoader(TEMPLATES), undefined=jinja2.StrictUndefined, **how)
    templates.filters.update(roff=roff, zsh=zsh, fish=fish)
    own = {f"capkit-{command.name}.1": command for command in commands}
    for name in templates.list_templates(filter_func=lambda name: name != "macros"):
        page = templates.get_template(name).render(values, help=own.get(name, program))
        for indent, display in re.findall(r"^\.Bd -literal( .*)?\n((?:.*\n)*?)\.Ed$", page, re.MULTILINE):
            # \&, \(aq, \- and \e as long as they are shown
            narrow(name, re.sub(r"\\(?:&|\(a)?", "", display), MARGIN + DISPLAY * bool(indent))
        if name in own and (missing := undescribed(own[name], page)):
            sys.exit(f"{name} doesn't describe {', '.join(missing)}")
        yield name, page


def main():
    if len(sys.argv) != 2 or sys.argv[1].startswith("-"):
        sys.exit(__doc__)
    folder = pathlib.Path(sys.argv[1])
    folder.mkdir(parents=True, exist_ok=True)
    for name, page in pages():
        (folder / name).write_text(page)


if __name__ == "__main__":
    main()
