#!/usr/bin/env python3
"""Prints what a promise means: its contracts, and all definitions that they rest on, as one text.
For whoever judges a promise.

usage: meaning.py NAME

NAME is the path of a function or type, such as cap_tools::run, or a promise: edit, print, merge,
infos, compile, library.

A contract rests on the definitions, types and constants that its clauses and its signature name, on what these name,
and so on: its closure. A type brings along how contracts see it (its `view`), a bound its trait, with the contracts
there. What invariants of types and proofs/ cite is left out. Names are followed to the module that they come from.

A command is the contract of `cap_tools::run` without the cases that the command never reaches: an edit compiles
nothing. Which these are follows from `assignment`; each text names what it leaves out.

The text begins with the contract: what a definition names follows it, or is before it in its own file.

Definitions that no promise rests on help proofs, private functions and other crates; they belong in
specs/inside/, all others in specs/. check_model.py lists those in the wrong folder. Promises are
the public contracts of the crates for users (all except those in BETWEEN), the laws, and those in
PROMISED. The status is 1 if a name wasn't found, or if an import seems to be unused: then this
script overlooked a form of the language.
"""
import argparse
import collections
import re
import signal
import sys

from sources import ROOT, WORD, Sources, blanked

POLICY = ("cap_process", "specs.Verdict", "Policy")
COMMAND = ("cap_command", "src.command", "Command")
# What a command chooses: the text has only those cases of these types that its command reaches.
CHOICES = {
    COMMAND,
    POLICY,
    ("cap_process", "specs.Outcome", "Form"),
    ("cap_process", "src.output", "Writing"),
    ("cap_tools", "specs.Start", "Preparing"),
    ("cap_io", "specs.Sequence", "PacketOrder"),
}
# The equations, by their first words, that a command with something to prepare never reaches.
PREPARED = ["IsPolicy None", "IsWhyRefused None"]
COMMANDS = {"edit": [], "print": PREPARED, "merge": [], "infos": [], "compile": PREPARED}
# Single steps of the machine, which only flt_trace calls.
STEPS = {"flt_bpf::execute", "flt_bpf::advance"}
# Crates whose public functions are for other crates here.
BETWEEN = {
    "cap_inputs", "cap_process", "flt_short", "flt_ast",
}
# What the pages promise of these.
PROMISED = {
    "flt_short::laid_out", "flt_short::shortened",
    "flt_short::threaded",
}
# The headline: what words ask for; what is written, reported and returned; that a packet is kept if its expression
# matches.
HEADLINE = ["capkit::command_of", "cap_tools::run", "flt_gen::generate"]
# With what each step costs, and with files.
PUBLIC = [*HEADLINE, "cap_tools::Job", "cap_io::Source", "cap_io::Sink"]
# The rows of several paths together.
TOGETHER = {"the headline": HEADLINE, "all of these": PUBLIC}


class Cases:
    """The cases that a command reaches, found from its variant on."""

    def __init__(self, command, never):
        self.command = {(*COMMAND, command.capitalize())}
        self.never, self.alive, self.impossible = never, set(self.command), set()

    def has(self, piece):
        """Returns whether the command reaches this equation, constructor or variant."""
        asked = piece.patterns | (piece.uses if piece.kind == "rule" else set())
        if any(len(use) == 4 and use[:3] in CHOICES and use not in self.alive for use in asked):
            return False
        if piece.kind == "rule" and piece.uses & self.impossible:
            return False
        return not any(re.search(rf"^{re.escape(head)}\b", piece.text, re.MULTILINE) for head in self.never)

    def add(self, piece):
        """Notes the cases that a piece makes. A rule of a fact makes none: it asks for them."""
        made = set() if piece.kind == "rule" else piece.uses - piece.patterns
        new = {use for use in made if len(use) == 4 and use[:3] in CHOICES and use[:3] != COMMAND} - self.alive
        self.alive |= new
        return bool(new)

    def never_holds(self, item, pieces):
        """Returns whether a fact can never be true with the cases that remain of it."""
        if any(piece.kind == "field" and piece.uses & self.impossible for piece in pieces):
            return True
        equations = [piece for piece in pieces if piece.kind == "equation"]
        is_cut = len(pieces) < len(item.pieces) and bool(equations)
        return is_cut and all(re.search(r"=\s+⊥$", piece.text) for piece in equations)


def closure(sources, roots, cases=None):
    """Returns the items that these rest on, each with the pieces of it that count."""
    while True:
        found, grows = reached(sources, roots, cases)
        if cases is None:
            return found
        never = {key for key, pieces in found.items() if cases.never_holds(sources.items[key], pieces)}
        if not grows and never <= cases.impossible:
            return found
        if not grows:
            cases.impossible |= never
            cases.alive = set(cases.command)


def reached(sources, roots, cases):
    """Does the same with the cases known so far; also returns whether new ones were found."""
    found, open_keys, grows = {}, list(roots), False
    while open_keys:
        key = open_keys.pop()
        if key in found:
            continue
        found[key] = [piece for piece in sources.items[key].pieces if cases is None or cases.has(piece)]
        for piece in found[key]:
            grows |= cases is not None and cases.add(piece)
            open_keys += [use[:3] for use in piece.uses if use[:3] in sources.items]
    return found, grows


class Meaning:
    """The closures of the sources' contracts."""

    def __init__(self, sources):
        self.sources, self.paths = sources, sources.public_paths()

    def roots(self, name):
        """Returns the contracts that a path has: a function, a type with its methods and ghost members, or a crate."""
        keys = [key for key, paths in self.paths.items() if key in self.sources.items
                and any(path == name or re.match(rf"{re.escape(name)}(::| as )", path) for path in paths)]
        return [key for key in keys if is_contract(self.sources.items[key]) or len(keys) == 1]

    def of(self, name):
        """Returns the roots and the closure of a path or a promise."""
        roots = self.roots({"library": "capkit_c"}.get(name, "cap_tools::run" if name in COMMANDS else name))
        return roots, closure(self.sources, roots, Cases(name, COMMANDS[name]) if name in COMMANDS else None)

    def closure_of(self, names):
        """Returns the closure of several paths and promises together."""
        return {key: pieces for name in names for key, pieces in self.of(name)[1].items()}

    def misplaced(self):
        """Yields the definitions in the wrong folder, each with its file, and whether a promise rests on it."""
        believed = closure(self.sources, [key for key, paths in self.paths.items()
                                          if is_contract(self.sources.items[key]) and any(map(is_promise, paths))])
        for spec in self.sources.specs.values():
            for name in spec.parts:
                is_believed = spec.key(name) in believed
                if is_believed == ("inside" in spec.module.split(".")):
                    yield spec, name, is_believed


def is_contract(item):
    """Returns whether an item states something of its own: a function with clauses, a trait, or ghost members."""
    return item.kind in ("trait", "ghosts") or item.kind == "fn" and re.search(r"\b(requires|ensures)\b", item.text())


def is_promise(path):
    """Returns whether a path is promised to users."""
    is_between = path.split("::")[0] in BETWEEN or path in STEPS
    return not is_between or "::law" in path or path in PROMISED


def figures(sources, found):
    """Returns the number of definitions that a closure has in specs/, and of their lines, without
    comments and blank lines.
    """
    texts = [[blanked(piece.text, "--") for piece in pieces] for key, pieces in found.items()
             if sources.items[key].path.suffix == ".antt"]
    return len(texts), sum(bool(line.strip()) for text in texts for piece in text for line in piece.split("\n"))


# ---- the text

def in_reading_order(sources, found, roots):
    """Returns the files of a closure, each before those that it uses, as far as possible."""
    uses = collections.defaultdict(dict)
    for key, pieces in found.items():
        for use in sorted(use[:3] for piece in pieces for use in piece.uses if use[:3] in found):
            uses[sources.items[key].path].setdefault(sources.items[use].path)
    order, met = [], set()

    def visit(path):
        met.add(path)
        for other in sorted(uses[path]):
            if other not in met:
                visit(other)
        order.insert(0, path)

    for path in sorted({sources.items[key].path for key in roots}):
        if path not in met:
            visit(path)
    return order


def item_text(item, pieces):
    """Returns the text of an item; if cases are left out, a line names them."""
    text = "\n".join(piece.text.strip("\n") for piece in pieces)
    names = dict.fromkeys(name for piece in item.pieces if piece not in pieces for name in case_names(piece))
    if not names:
        return text
    left_out = f"left out: {', '.join(names)}"
    if item.kind == "enum":
        return f"{text.removesuffix('}').rstrip()}\n    // {left_out}\n}}"
    return f"{text}\n-- {left_out}"


def case_names(piece):
    """Returns the name of a case that is left out: the constructors that a command chooses, else its patterns."""
    if piece.kind == "rule":
        return [use[3] for use in piece.patterns]
    chosen = sorted(use[3] for use in piece.patterns if use[:3] in CHOICES)
    return chosen or [blanked(piece.text, "--").split()[1]]


def heading(sources, path):
    """Returns the first lines on a file: its name and its first comment."""
    name = path.relative_to(ROOT / "crates")
    spec = next((it for it in sources.specs.values() if it.path == path), None)
    about = spec.head if spec else "\n".join(re.findall(r"^//! ?.*$", path.read_text(), re.MULTILINE))
    return f"==== {name}\n{about}".rstrip()


def text_of(meaning, name, roots, found):
    """Returns the meaning of a promise as one text."""
    sources = meaning.sources
    parts = ["==== the contract" + "s" * (len(roots) > 1)]
    parts += [f"// {meaning.paths[key][0]}\n{item_text(sources.items[key], found[key])}" for key in sorted(roots)]
    for path in in_reading_order(sources, found, roots):
        here = [sources.items[key] for key in found if sources.items[key].path == path and key not in roots]
        if here:
            parts.append(heading(sources, path))
            parts += [item_text(item, found[item.key]) for item in sorted(here, key=lambda item: item.line)]
    parts.append("==== names of the libraries\n" + "\n".join(library_lines(sources, found)))
    body = "\n\n".join(parts)
    return f"capkit's meaning of {name}, in {body.count(chr(10)) + 3} lines\n\n{body}"


def library_lines(sources, found):
    """Returns the names that a closure uses of std and other crates, by module.

    docs/inside/CONTRACTS.md explains signs.
    """
    names = collections.defaultdict(set)
    for key, pieces in found.items():
        item = sources.items[key]
        words = {word for piece in pieces for word in re.findall(WORD, blanked(piece.text, "--"))}
        for module, name in sources.foreign[item.path]:
            if name in words:
                names[module].add(name)
    return [f"{module}: {', '.join(sorted(names[module]))}" for module in sorted(names)]


def main():
    parser = argparse.ArgumentParser(usage=__doc__.partition("usage: ")[2].partition("\n\nA contract")[0])
    parser.add_argument("name")
    name = parser.parse_args().name
    meaning = Meaning(Sources())
    for line in meaning.sources.unknown:
        print(line, file=sys.stderr)
    roots, found = meaning.of(name)
    if not roots:
        parser.error(f"no public function, type or promise {name}")
    print(text_of(meaning, name, roots, found))
    return 1 if meaning.sources.unknown else 0


if __name__ == "__main__":
    signal.signal(signal.SIGPIPE, signal.SIG_DFL)
    sys.exit(main())
