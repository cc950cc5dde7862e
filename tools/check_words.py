#!/usr/bin/env python3
"""Lists private words in pages, comments, help texts and identifiers, each with the word of the
field to write instead. It also lists definitions that have the name of another one, or a participle
for a name. For everyone who writes here; the gate runs it.

usage: check_words.py [FILE..]

Without files it reads

- pages, manual pages and templates: all except code (between backticks, in fenced blocks, in
  indented lines);
- code and scripts: comments and docstrings;
- the crates' src/ and specs/: identifiers too, and for the program's own crates the texts between
  double quotes, such as its help and its messages.

Words are found in capitals too, and if a line ends between two of them. The status is 1 if a word is found.
"""
import bisect
import collections
import itertools
import pathlib
import re
import sys

from source_files import ROOT, blanked

# Folders of pages and scripts; the crates have pages, src/ and specs/.
FOLDERS = ["docs", "bench", "examples", "library", "packaging", "samples", "teach", "tools", "web", ".ci"]
FILES = [
    "*.md", "capkit", "try", "crates.txt", "crates/*/README.md", "crates/*/src/**/*.rt", "crates/*/specs/**/*.antt"
]
# What a program made, which isn't read.
MADE = {"out", "__pycache__"}
# The crates whose texts a user of the program reads.
PROGRAM = {"capkit", "cap_command"}
SLASHES = re.compile(r"/\*(.*?)\*/|(?:^|(?<=\s))//[/!]?\s([^\n]*)", re.MULTILINE | re.DOTALL)
HASHES = re.compile(r'(?:^|(?<=\s))#+\s([^\n]*)|^ *r?"""(.*?)"""', re.MULTILINE | re.DOTALL)
DASHES = re.compile(r"(?:^|(?<=\s))--\s([^\n]*)", re.MULTILINE)
# What a file's comments are, by its ending; a file of a name without an ending is a script.
COMMENTS = {
    **dict.fromkeys([".rt", ".c", ".h", ".go", ".rs", ".js", ".css"], SLASHES),
    **dict.fromkeys([".py", ".sh", ".sbatch", ".txt", ""], HASHES),
    ".antt": DASHES,
}
# Files that are read whole: pages, manual pages and templates.
TEXTS = {".md", ".1", ".3", ".7", ".html"}
# Pages that a script makes, and data.
UNREAD = {"capkit.html", "expressions.txt", "filter.txt", "surface.txt"}
# Code between backticks, which may go on in the next line.
QUOTED = re.compile(r"`(?:[^`\n]|\n(?!\n))*`")
# Patterns of words, each with what to write instead. A blank also matches the end of a line, and `$` the end of a paragraph.
WORDS = [
    (r"\banswers? other than 0\b|\bsays yes\b", "accepts the packet, returns non-zero"),
    (r"\banswers (it|that fault|true|false|\d|E\d)|\banswers? (it|that) again\b", "returns"),
    (r"\breads yes\b|\breads no[.,;]", "matches, doesn't match"),
    (r"\blets? pass\b", "matches, keeps"),
    (r"\bfaults?( is| are| was)? (tells?|told)\b|\b(tells|told) (fault|as|once|on standard)\b", "reports"),
    (r"\bwants? of\b|\bno memory comes\b", "out of memory, the lack of"),
    (r"\brefused growths?\b|\bgrowth is refused\b", "failed allocation"),
    (r"\bheadings?\b", "file header, section header"),
    (r"\b(a|block's|record's|option's) head\b|\bheads (of (a|pcap)|stand)\b", "header"),
    (r"(?<!in )\bfronts?\b", "prefix, start"),
    (r"\b(goes|gone|passed) over\b", "skips, skipped"),
    (r"\bleaves (it|the table|the sink)([.,;]|$)", "leaves it unchanged"),
    (r"\b(come|comes|came) whole\b", "complete"),
    (r"\bin hand\b", "current"),
    (r"\bdenials?\b", "negation"),
    (r"\bwrong bod(y|ies)\b", "wrong implementation"),
    (r"\b(contract|clause|law)s? (say|says|said)\b", "states"),
    (r"\blooked for in this order\b", "checked in this order"),
    (r"\bstands? (for\b|in\b(?! (front|place|either)))", "means, is in"),
    (r"\bbehind\b", "after, past, following"),
    (r"\bso many\b", "the number's name"),
    (r"\b(come|comes|came) to\b", "is, becomes, reaches"),
    (r"\b(?:is|are|was|were|be) told\b|\btells?\b", "reports, shows, states; the reader learns"),
    (r"\bleaves?\b(?! (?:out|off|alone|a network)\b| (?:it|them|the \w+) unchanged)",
     "doesn't change, keeps; contains afterwards; omits"),
    (r"(?<!place )(?<!places )(?<!point )(?<!know )(?<!shows )(?<!stands )(?<!tokens )\bwhere "
     r"(?:an?|the|it|that|there|no|its|nothing|memory|all|none|this|one|they)\b", "if, when, unless"),
    (r"(?:^|[.;:|] )Of (?!course\b)\w+", "the subject first; on, for, among"),
    (r"(?<!left )(?<!leave )(?<!stand )(?<!stands )(?<!is )\balone\b", "only, before what it limits"),
    (r"\balso (?:where|that|of|those|one|by|from|under|if|at|after|in|when|as)\b", "even if, including, too"),
    (r"(?<!here )\b(?:is|are|was|were) no (?!longer\b|more\b)\w+", "isn't a, aren't"),
    (r"\b(?:is|are|was|were) to (?!the\b|an?\b)\w+", "must, should, will"),
    (r"(?<!many )\b(?:unit|test|run|file|block|bytes?|instructions?|steps?|ns|two|four|one|\d[\d,.]*) an? "
     r"(?:call|packet|side|second|row|thousand|subject|type)\b"
     r"|\bof (?:a )?processors?\b", "per packet; CPU minutes"),
    (r"\b(?:anew|dear(?:er|est)?|mended|needless|alike|nevertheless|beside|but for|some \d[\d,]*)\b",
     "again, expensive, fixed, unnecessary, the same, next to, except, about"),
    (r"\b(?:is|are|was|were|reads?|looks?|written|printed|refused|reported|named|ends?|left) "
     r"so\b(?! that| far| long| many)", "like this"),
    (r"\b(?:that|which|what|they) (?:is|are|was|were) there\b(?! for)|\bis there\b(?! for)", "exists, present"),
]
WORDS = [
    (re.compile(word.replace(" ", r"\s").replace("$", r"(?=\n\n|\n?\Z)"), re.IGNORECASE), better)
    for word, better in WORDS
]
# Words that no identifier has among those that it joins.
IDENTIFIERS = {
    "heading": "file_header, section_header",
    "headings": "headers",
    "looseness": "precedence",
    "stood": "the past of an input",
    "laid": "order",
    "fed": "sequence",
    "behind": "after, past, next",
}
# A name of the public surface.
ALLOWED = {"laid_out"}
DEFINITION = re.compile(r"^(?:abbrev |unfoldable |opaque )?pub (?:record |data )?(?!mod\b)([A-Za-z_]\w*)", re.MULTILINE)
PARTICIPLE = re.compile(r"[a-z]+(ed|en|wn)")
# They are read as a noun and as an adjective: the captured packet, a checked value.
PARTICIPLES = {"captured", "checked"}


def definitions():
    """Yields what is wrong with the names of the definitions in specs/."""
    homes = collections.defaultdict(list)
    for path in sorted(ROOT.glob("crates/*/specs/*.antt")):
        for name in DEFINITION.findall(path.read_text()):
            homes[name].append(path.relative_to(ROOT))
    for name, paths in homes.items():
        if len(set(paths)) > 1:
            yield f"{paths[0]}: {name}: a name of its own, as {paths[1]} has it too"
        elif PARTICIPLE.fullmatch(name) and name not in PARTICIPLES:
            yield f"{paths[0]}: {name}: a noun or a verb"


def words_of(identifier):
    """Returns the words of an identifier in lower case; underscores and capitals separate them."""
    return [word.lower() for word in re.findall(r"[A-Z]?[a-z]+|[A-Z]+(?![a-z])", identifier)]


def only_comments(text, comment):
    """Returns the text of comments in their own lines, without the code."""
    kept, at = "", 0
    for found in comment.finditer(text):
        start, end = found.span(found.lastindex)
        kept, at = kept + "\n" * text.count("\n", at, start) + text[start:end], end
    return "\n".join(line.strip().lstrip("*").strip() for line in kept.splitlines())


def without_code(text):
    """Returns a page without its fenced blocks and indented lines."""
    lines, is_fenced = [], False
    for line in text.splitlines():
        is_fenced ^= line.lstrip().startswith("```")
        lines.append("" if is_fenced or line.startswith(("    ", "```")) else line.strip())
    return "\n".join(lines)


def printed(path):
    """Returns the texts between double quotes in a file of code, line by line."""
    lines = path.read_text().splitlines()
    return "\n".join(". ".join(re.findall(r'"((?:[^"\\]|\\.)*)"', line.partition("// ")[0])) for line in lines)


def readable(path):
    """Returns the text of a file's comments, or of a page, without code: line by line, without trailing blanks."""
    text = path.read_text()
    if comment := COMMENTS.get(path.suffix) if path.parent.name != "pages" else None:
        text = only_comments(text, comment)
    elif path.suffix == ".md":
        text = without_code(text)
    return QUOTED.sub(lambda found: "`" + "\n" * found[0].count("\n"), text)


def phrases(path):
    """Yields the words of the list that a file has, each with its line and what to write instead."""
    is_printed = path.suffix == ".rt" and PROGRAM.intersection(path.parts)
    for text in [readable(path), *[printed(path)] * bool(is_printed)]:
        starts = [0, *(found.end() for found in re.finditer("\n", text))]
        for word, better in WORDS:
            for found in word.finditer(text):
                yield bisect.bisect(starts, found.start()), " ".join(found[0].split()), better


def names(path):
    """Yields the identifiers of a file of code that have a word which none should have."""
    mark = {".rt": "//", ".antt": "--"}.get(path.suffix)
    for number, line in enumerate(blanked(path.read_text(), mark).splitlines() if mark else [], 1):
        for name in re.findall(r"[A-Za-z_]\w*", line):
            for word in words_of(name):
                if word in IDENTIFIERS and name not in ALLOWED:
                    yield number, name, IDENTIFIERS[word]


def all_files():
    """Yields the files to read if none is named."""
    for path in sorted(
        path for pattern in [*FILES, *(f"{name}/**/*" for name in FOLDERS)] for path in ROOT.glob(pattern)
    ):
        is_known = path.suffix in COMMENTS or path.suffix in TEXTS or path.parent.name == "pages"
        if (
            is_known
            and path.is_file()
            and path.name not in UNREAD
            and not MADE.intersection(path.relative_to(ROOT).parts)
        ):
            yield path


def main():
    files = [pathlib.Path(name).resolve() for name in sys.argv[1:]] or all_files()
    found = [
        f"{path.relative_to(ROOT)}:{number}: {word}: {better}"
        for path in files for number, word, better in itertools.chain(sorted(phrases(path)), names(path))
    ]
    found += definitions()
    print(*found, sep="\n", end="\n" if found else "")
    return 1 if found else 0


if __name__ == "__main__":
    sys.exit(main())
