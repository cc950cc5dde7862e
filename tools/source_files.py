"""Reads the files of the crates, for other scripts.

These are the imports and definitions of specs/, and the uses and declarations of src/.
"""
import collections
import dataclasses
import pathlib
import re
import textwrap

ROOT = pathlib.Path(__file__).resolve().parent.parent

WORD = r"[^\W\d](?:[\w']|-(?=[^\W\d]))*"
DECLARATION = re.compile(
    rf"(?:abbrev |unfoldable )*(?:pub )?(?:abbrev )?(?:(record|data) )?(◌\S+◌|«\w+»|{WORD}) *[:({{]")
ITEM = re.compile(
    r"^(?P<indent> *)(?P<pub>pub(?:\([^)]*\))? )?(?:const (?=fn|unsafe)|unsafe |extern +)*"
    r"(?P<kind>fn|struct|enum|trait|const|static|impl|mod)\b *(?P<name>\w*)", re.MULTILINE)
CLAUSE = re.compile(r"(requires|ensures)\*?( +\w+)? *$|ghost \w+: *$")


def blanked(text, comment):
    """Returns a text in which comments and quoted texts are blanks of the same length."""
    def blank(found):
        return re.sub(r"[^\n]", " ", found[0])

    return re.sub(rf'{comment}[^\n]*|"(?:\\.|[^"\\])*"|b?\'(?:\\.|[^\\\'\n])\'', blank, text)


def end_of_group(code, at):
    """Returns the place after the bracket that closes the one at this place."""
    depth = 0
    for place in range(at, len(code)):
        depth += (code[place] in "({[") - (code[place] in ")}]")
        if depth == 0:
            return place + 1
    return len(code)


def chunks(text):
    """Yields the top-level parts of a file of specs/: the line, the comment's lines in front of it, and the part."""
    for found in re.finditer(r"((?:^--.*\n)*)(^[^-\s].*\n(?:(?:[ })\]].*)?\n)*)", text, re.MULTILINE):
        lines = [line for line in found[2].split("\n") if line.strip()]
        yield text.count("\n", 0, found.start(2)) + 1, found[1].splitlines(), "\n".join(lines)


class Spec:
    """A file of specs/: its imports and its definitions."""

    def __init__(self, path):
        self.path, (self.crate, *inner) = path, path.relative_to(ROOT / "crates").with_suffix("").parts
        self.module = ".".join(inner)
        self.imports, self.parts, self.constructors = [], collections.OrderedDict(), {}
        text = path.read_text()
        self.head = re.match(r"(?:--[^\n]*\n)*", text)[0].strip()
        for number, comment, part in chunks(text):
            self.add(number, comment, part)

    def add(self, number, comment, joined):
        if joined.startswith("use "):
            self.imports.append(joined)
            return
        found = DECLARATION.match(joined)
        first = re.match(WORD, joined)
        if first and first[0] in self.parts:
            self.parts[first[0]][2].append((comment, joined))
        elif found and not joined.startswith(("infix", "unfolding", "pub mod")):
            name = found[2].strip("«»")
            self.parts[name] = (number, found[1] or "definition", [(comment, joined)])
            if found[1] == "data":
                for ctor in re.findall(rf"^  ({WORD}) :", joined, re.MULTILINE):
                    self.constructors[ctor] = name
        elif not joined.startswith("infix"):
            if not self.parts:
                raise LookupError(f"{self.path.relative_to(ROOT)}:{number}: no definition is before {joined}")
            # an `unfolding` line, or the equation of an operator
            next(reversed(self.parts.values()))[2].append((comment, joined))

    def key(self, name):
        return (self.crate, self.module, name)

    def names(self):
        """Returns the names that other files can import, and what each is a use of."""
        found = {name: self.key(name) for name in self.parts}
        found.update({ctor: (*self.key(name), ctor) for ctor, name in self.constructors.items()})
        return found


def imports_of(line, module_of):
    """Yields the names that a `use` line imports, each with its meaning."""
    found = re.match(r"\s*(?:ghost )?use ([\w.]+?)(?:\.\{(.*)\}|( as (\w+))?);?$", line.replace("\n", " "))
    path, names, alias = found[1], found[2], found[4]
    if names is None:
        if (names_there := module_of(path)) is not None:
            yield alias or path.split(".")[-1], names_there
        return
    for name in filter(None, (name.strip() for name in names.split(","))):
        name, _, other = name.partition(" as ")
        # A name may be one of a module below the path.
        *inner, name = name.split(".")
        names_there = module_of(".".join([path, *inner]))
        if names_there is None:
            continue
        target = names_there.get(name.strip("«»"), names_there.get(""))
        if target is None:
            raise LookupError(f"{path} has no {name}")
        yield (other or name).strip("◌«»"), target


def without_attributes(text):
    """Returns a text without its lines of attributes."""
    return "\n".join(line for line in text.split("\n") if not re.match(r"\s*#\[", line))


def use_tree(text):
    """Yields the paths of a Rust `use`, each with the name that it brings in."""
    while (flat := re.sub(r"([\w:]+)\{([^{}]*)\}", each_of, text)) != text:
        text = flat
    for path, _, alias in (part.strip().partition(" as ") for part in text.split(",")):
        yield path.split("::"), alias or path.split("::")[-1]


def each_of(found):
    """Returns the paths that `path::{one, other}` names, with commas between them."""
    return ", ".join(found[1] + part.strip() for part in found[2].split(",") if part.strip())


def header_end(code, at):
    """Returns the place of the brace or semicolon after a function's signature and clauses."""
    start = at
    while at < len(code):
        if code[at] in "([" or code[at] == "{" and CLAUSE.search(code[start:at]):
            at = start = end_of_group(code, at)
        elif code[at] in "{;":
            return at
        else:
            at += 1
    return at


def doc_start(text, at):
    """Returns the start of the comment and the attributes before a place."""
    while at > 0:
        before = text.rfind("\n", 0, at - 1) + 1
        line = text[before:at].strip()
        if not line.startswith(("///", "#[")) and not (line.startswith("//") and not line.startswith("//!")):
            break
        at = before
    return at


@dataclasses.dataclass
class Block:
    """An item of a file of src/ at its place: what is in front of its body, and its body."""

    kind: str
    name: str
    is_public: bool
    start: int
    head: int
    end_of_head: int
    end: int


class Source:
    """A file of src/: its items and its uses."""

    def __init__(self, path, crate, module):
        self.path, self.crate, self.module = path, crate, module
        self.text = path.read_text()
        self.code = blanked(self.text, "//")
        self.blocks = list(self.blocks_in(0, len(self.code), ""))
        self.types = {it.name: it for it in self.blocks if it.kind in ("struct", "enum", "trait", "const", "static")}
        self.uses = {}
        for found in re.finditer(r"^ *(pub(?:\([^)]*\))? )?use ([^;]+);", self.code, re.MULTILINE):
            for path, name in use_tree(found[2]):
                self.uses[name] = (path, found[1] == "pub ")

    def blocks_in(self, start, end, indent):
        """Yields the items that stand between two places at this indentation."""
        at = start
        while found := ITEM.search(self.code, at, end):
            at = found.end()
            if found["indent"] != indent or found["kind"] == "const" and found["name"] == "_":
                continue
            stop = header_end(self.code, found.end())
            last = end_of_group(self.code, stop) if self.code[stop : stop + 1] == "{" else stop + 1
            start = doc_start(self.text, found.start())
            head = found.start() + len(indent)
            yield Block(found["kind"], found["name"], found["pub"] == "pub ", start, head, stop, last)
            at = last

    def key(self, name):
        return (self.crate, f"src.{self.module}" if self.module else "src", name)

    def line(self, place):
        return self.text.count("\n", 0, place) + 1

    def cut(self, start, end):
        """Returns a part of the file without attributes and indentation."""
        return textwrap.dedent(without_attributes(self.text[start:end]).strip("\n"))

    def variants(self, block):
        """Returns the variants of an enum with their places, each up to the next one."""
        inside = self.code[block.end_of_head + 1 : block.end - 1]
        places = [it.start(1) + block.end_of_head + 1 for it in re.finditer(r"^    ([A-Z]\w*)", inside, re.MULTILINE)]
        return [(re.match(r"\w+", self.code[place:])[0], place) for place in places]
