#!/usr/bin/env python3
"""Compares pages with the sources, and lists each statement that is out of date with its page and
line. The gate runs it.

usage: check_model.py [CRATE..]      the first check only for these crates

1. Each definition that a public function's contract cites has a comment. A function is public if
   other crates or C can name it. A definition is in specs/ or specs/inside/ as meaning.py states,
   and CONTRACTS.md's table of lines is about right.
2. A contract in a fenced block of a page, and a clause in backquotes, is in src/ as it is shown;
   `..` is text that was left out.
3. A field `Name.field` and a file exist; `path::name` is an item, in CONTRACTS' tables a public
   one; the clauses that CONTRACTS' rows name are those of the row's functions; and any other name
   in backquotes is a word of some source, edit or script. Words in capitals, such as NAME, are
   placeholders.
4. No line of a proof file has over 160 columns, and each file of src/, specs/ and proofs/ begins
   with a comment on what it is for.
5. Each link of a page leads to a file, and to a section of a page if it names one.

The status is 1 if something is listed.
"""
import functools
import os
import re
import sys

from meaning import TOGETHER, Meaning, figures
from sources import ROOT, Sources

INSIDE = ROOT / "docs" / "inside"
MOST_COLUMNS = 160
FILE = re.compile(r"[\w./-]+\.(?:rt|antt|md|py|h|c|sh|txt|edit)")
CLAUSE = re.compile(r"(?:requires|ensures)\*?\s+(\w+)\s*\{")
FENCED = re.compile(r"^```.*?^```", re.MULTILINE | re.DOTALL)
FIELD = re.compile(r"^\s*(?:pub )?(?:ghost )?(\w+)\s*:(?!:)", re.MULTILINE)
# Programs of others that the pages name.
FOREIGN = {"setsid", "taskset"}


def uncommented_definitions(sources, crates):
    """Yields the definitions without a comment that public contracts cite."""
    lines, found = {}, {}
    for key in sorted(sources.public_paths()):
        item = sources.items[key]
        if item.kind == "fn" and (not crates or key[0] in crates):
            for use in sorted(use[:3] for use in item.uses() if sources.items[use[:3]].path.suffix == ".antt"):
                spec = sources.items[use]
                text = lines.setdefault(spec.path, spec.path.read_text().split("\n"))
                if not text[spec.line - 1].startswith("--") and not text[spec.line - 2].startswith("--"):
                    place = f"{spec.path.relative_to(ROOT)}:{spec.line}"
                    found[use] = f"{place}: {use[2]}, which {key[2]} cites, has no comment"
    yield from found.values()


def misplaced_definitions(sources):
    """Yields the definitions of specs/ that no promise rests on, those of specs/inside/ that one
    does, and numbers of CONTRACTS.md that are over 2 % off."""
    meaning = Meaning(sources)
    for spec, name, is_believed in meaning.misplaced():
        what = "must be believed" if is_believed else "only helps proofs"
        yield f"{spec.path.relative_to(ROOT)}: {name} {what}"
    model = (INSIDE / "CONTRACTS.md").read_text()
    for name, *shown in re.findall(r"^\| `?([\w: ]+)`? \| about ([\d,]+) \| about ([\d,]+) \|$", model, re.MULTILINE):
        count, lines = figures(sources, meaning.closure_of(TOGETHER.get(name, [name])))
        if any(abs(int(number.replace(",", "")) - is_) > is_ / 50 for number, is_ in zip(shown, (count, lines))):
            yield f"docs/inside/CONTRACTS.md: {name} rests on {count:,} definitions of {lines:,} lines"


def long_lines():
    """Yields the lines of proof files that nobody can read at once."""
    for path in sorted(ROOT.glob("crates/*/proofs/**/*.antt")):
        for number, line in enumerate(path.read_text().split("\n"), 1):
            if len(line) > MOST_COLUMNS:
                yield f"{path.relative_to(ROOT)}:{number}: {len(line)} columns"


def headless_files():
    """Yields the files of crates that don't begin with a comment."""
    for pattern in ("src/**/*.rt", "specs/**/*.antt", "proofs/**/*.antt"):
        for path in sorted(ROOT.glob(f"crates/*/{pattern}")):
            if not path.read_text().startswith(("--", "//")):
                yield f"{path.relative_to(ROOT)}: no comment on what the file is for"


def sections_of(page):
    """Returns the names of a page's sections as links spell them."""
    titles = re.findall(r"^#+ (.*)$", FENCED.sub("", page.read_text()), re.MULTILINE)
    return {re.sub(r"[^\w -]", "", title.lower()).replace(" ", "-") for title in titles}


def broken_links():
    """Yields the links of pages that lead nowhere."""
    for page in [
        it for pattern in ("*.md", "docs/**/*.md", "*/*.md", "*/*/README.md") for it in sorted(ROOT.glob(pattern))
    ]:
        for link in re.findall(r"\]\((?!https?:)([^)\s]+)\)", FENCED.sub("", page.read_text())):
            path, _, section = link.partition("#")
            to = page.parent / path if path else page
            if not to.exists() or section and to.suffix == ".md" and section not in sections_of(to):
                yield f"{page.relative_to(ROOT)}: {link} leads nowhere"


def plain(text):
    return re.sub(r"\s+", " ", text).strip()


def shown_contracts(sources):
    """Yields contracts and clauses of the pages that no file of src/ has."""
    code = [plain(file.text) for file in sources.files.values()]
    for page in [*ROOT.glob("*.md"), *sorted(ROOT.glob("docs/**/*.md"))]:
        text = page.read_text()
        blocks = [(it.start(), it[1]) for it in re.finditer(r"^```rust\n(.*?)^```", text, re.MULTILINE | re.DOTALL)]
        blocks = [block for block in blocks if CLAUSE.search(block[1])]
        quoted = re.finditer(r"`((?:requires|ensures) (?!name )[^`]*\{[^`]*|ghost use [^`]*)`", text)
        blocks += [(it.start(), it[1]) for it in quoted]
        for place, shown in blocks:
            wanted = re.compile(".*?".join(re.escape(part) for part in plain(shown).split("..")))
            if not any(wanted.search(it) for it in code):
                yield f"{page.relative_to(ROOT)}:{text.count(chr(10), 0, place) + 1}: no source has {plain(shown)[:60]}"


class Names:
    """What the sources have by name."""

    def __init__(self, sources):
        self.sources = sources
        self.by_name, self.functions = {}, {}
        for key, item in sources.items.items():
            self.by_name.setdefault(key[2], []).append(item)
            if item.kind == "fn":
                self.functions.setdefault(key[2].split("::")[-1], []).append(item)
        self.public = {part for paths in sources.public_paths().values() for path in paths for part in ends(path)}
        self.all = self.public | {part for path in self.private_paths() for part in ends(path)}
        self.files = [os.path.relpath(os.path.join(folder, name), ROOT) for folder, inner, names in os.walk(ROOT)
                      if not left_out(inner) for name in names]

    def private_paths(self):
        """Yields the paths of all items, variants and modules, as code inside their crate could write them."""
        for (crate, module, name), item in self.sources.items.items():
            path = "::".join([crate, *filter(None, module.removeprefix("src").split(".")), name])
            yield path
            yield from (f"{path}::{use[3]}" for piece in item.pieces if item.kind == "enum" for use in piece.patterns)
        yield from (f"{crate}::{module.replace('.', '::')}" for crate, module in self.sources.files)

    @functools.cached_property
    def words(self):
        """Returns the words of all sources, scripts and headers, but the pages."""
        files = [name for name in self.files if not re.match(r"docs/.*md|[^/]*\.md", name)]
        files = [name for name in files if os.path.getsize(ROOT / name) < 1 << 20]
        texts = [*files, *((ROOT / name).read_text(errors="replace") for name in files)]
        return {word for text in texts for word in re.findall(r"[A-Za-z_]\w*", text)}

    def fields(self, name):
        """Returns the fields of the definitions and types of a name."""
        return {field for item in self.by_name.get(name, ()) for field in FIELD.findall(item.text())}

    def clauses(self, functions):
        """Returns the names of the clauses of functions."""
        return {clause for item in functions for clause in CLAUSE.findall(item.text())}


def left_out(folders):
    """Removes the folders that no checkout has from a walk."""
    folders[:] = [name for name in folders if name not in (".git", "out", "__pycache__")]


def ends(path):
    """Returns a path, and its ends: without its first parts, down to its last two."""
    parts = path.split("::")
    return ["::".join(parts[at:]) for at in range(len(parts) - 1)]


def stale_names(names, page):
    """Yields the names on a page that the sources don't have."""
    crates, is_fenced, is_table = [], False, False
    for number, line in enumerate((INSIDE / page).read_text().split("\n"), 1):
        if line.startswith("#"):
            crates = re.findall(r"(?:cap|flt)\w+", line)
        is_fenced ^= line.startswith("```")
        is_table = line.startswith("| promise | function") or is_table and line.startswith("|")
        is_row = is_table and line.startswith("| ")
        for fault in [] if is_fenced else line_faults(names, line, is_row):
            yield f"docs/inside/{page}:{number}: {fault}"
        for fault in row_faults(names, line, crates) if is_row else []:
            yield f"docs/inside/{page}:{number}: {fault}"


def line_faults(names, line, is_row):
    """Yields the fields, paths, files and words of a line that there are not."""
    last, owner = None, None
    for quoted in re.findall(r"`([^`]+)`", line):
        if re.search(r"\b[A-Z]{3,}(?=_[a-z]|[./]|$)", quoted) and quoted not in names.words:
            continue
        if FILE.fullmatch(quoted):
            if not any(f"/{name}".endswith(f"/{quoted}") for name in names.files):
                yield f"no file {quoted}"
        elif found := re.fullmatch(r"([A-Z]\w*)?\.([a-z_]\w*)", quoted):
            owner = found[1] or owner
            wanted = [owner] if found[1] else [owner, last]
            if owner != "Rattle" and not any(found[2] in names.fields(name) for name in wanted):
                yield f"{owner or last} has no field {found[2]}"
        elif re.fullmatch(r"\w+(?:::\w+)+", quoted):
            if is_ours(names, quoted) and quoted not in (names.public if is_row else names.all):
                yield f"no {'public ' * is_row}path {quoted}"
        elif re.fullmatch(r"[A-Za-z_]\w*", quoted, re.ASCII):
            last = quoted if quoted[0].isupper() else last
            if quoted not in names.words | FOREIGN:
                yield f"no source has {quoted}"


def is_ours(names, path):
    """Returns whether a path begins with a crate, module or type of the sources."""
    first = path.split("::")[0]
    return first in names.sources.crates or any(it.startswith(f"{first}::") for it in names.all)


def row_faults(names, line, crates):
    """Yields the clauses that a row of a table names, and its functions haven't."""
    cells = [cell.strip() for cell in line.strip("|").split(" | ")]
    quoted = re.findall(r"`([^`]+)`", " ".join(cells[1:]))
    called = {word.split("::")[-1] for word in re.findall(r"`([\w:]+)`", line)}
    functions = [item for word in called for item in names.functions.get(word, ()) if item.key[0] in crates]
    everywhere = [item for items in names.functions.values() for item in items if item.key[0] in crates]
    for word in quoted:
        known = names.by_name.get(word) or names.functions.get(word) or any(f"{word}:" in it.text() for it in functions)
        if re.fullmatch(r"[a-z]\w*", word) and not known and word not in names.clauses(functions or everywhere):
            yield f"no clause {word} of {', '.join(sorted(item.key[2] for item in functions)) or 'a function'}"


def main():
    """Prints each fault."""
    sources = Sources()
    names = Names(Sources(left_out=()))
    faults = [*sources.unknown, *uncommented_definitions(sources, sys.argv[1:]), *misplaced_definitions(sources)]
    faults += [*shown_contracts(sources), *long_lines(), *broken_links(), *headless_files()]
    faults += [fault for page in sorted(INSIDE.glob("*.md")) for fault in stale_names(names, page.name)]
    print(*faults, sep="\n", end="\n" if faults else "")
    print(f"{len(faults)} faults")
    return 1 if faults else 0


if __name__ == "__main__":
    sys.exit(main())
