#!/usr/bin/env python3
"""Compares the public calls and types of the sources with tools/surface.txt.

That file lists those that other programs use. It also finds packages whose numbers aren't those of
capkit.h (library_numbers.py). The gate runs this script.

usage: check_surface.py      prints each difference; the status is 1 if there is any

A line of the list is a function with the types of its arguments and of its result, a type with its public fields or
variants, or a method of a trait. Names of arguments, bounds, contracts and private fields aren't compared.
"""
import re
import sys

from library_numbers import differing
from source_files import end_of_group
from sources import ROOT, Sources

LIST = ROOT / "tools" / "surface.txt"


def plain(text):
    """Returns a text without comments, and with single blanks."""
    text = re.sub(r"^\s*(//|#\[).*$", "", text, flags=re.MULTILINE)
    text = re.sub(r"\s+", " ", text).strip()
    text = re.sub(r",? ([)}])", r" \1", text)
    return re.sub(r"([(]) | ([)])", r"\1\2", text).replace("pub ", "")


def parts(text):
    """Returns the parts of a list between its commas, without splitting what is inside brackets."""
    found, depth, start = [], 0, 0
    for at, sign in enumerate(text):
        depth += (sign in "([{<") - (sign in ")]}" or sign == ">" and text[at - 1] != "-")
        if sign == "," and depth == 0:
            found.append(text[start:at].strip())
            start = at + 1
    return [*found, text[start:].strip()] if text[start:].strip() else found


def function(text):
    """Returns the types of a function: those of its arguments, in order, and of its result."""
    head = re.split(r" (?:requires|ensures|where|ghost)\b| \{", plain(text))[0]
    rest = head[re.search(r"fn \w+(<(?:[^<>]|<[^<>]*>)*>)?", head).end():]
    end = end_of_group(rest, 0)
    types = [re.sub(r"^(?:mut )?\w+: ", "", part) for part in parts(rest[1 : end - 1])]
    return f"({', '.join(types)}){rest[end:].rstrip()}"


def shown(kind, text):
    """Returns the text in the list for an item, after its path."""
    if kind == "fn":
        return function(text)
    fields = parts(re.sub(r"//.*", "", text.partition("{")[2].rpartition("}")[0]))
    if kind == "struct":
        fields = [field for field in fields if re.match(r"pub (?!ghost)", field)]
    return f" {{ {', '.join(map(plain, fields))} }}" if fields else ""


def methods(text):
    """Returns the methods of a trait by name."""
    return {it[1]: function(it[0]) for it in re.finditer(r"fn (\w+)[^{]*?(?=;|\{|\n\s*(?:requires|ensures))", text)}


def surface(sources):
    """Returns the lines of the list for all public items of the sources, by path."""
    found = {}
    for key, paths in sources.public_paths().items():
        item = sources.items[key]
        if item.kind == "trait":
            found |= {
                f"{path}::{name}": f"fn {path}::{name}{types}"
                for path in paths
                for name, types in methods(item.text()).items()
            }
        elif item.kind in ("fn", "struct", "enum"):
            found |= {path: f"{item.kind} {path}{shown(item.kind, item.text())}" for path in paths}
    return found


def main():
    found, wanted = surface(Sources()), LIST.read_text().splitlines()
    differences = [f"wanted: {line}\nfound:  {found.get(path, 'nothing')}" for line in wanted
                   if line and found.get(path := re.match(r"\w+ ([\w:]+)", line)[1]) != line]
    differences += differing()
    print("\n".join([*differences, f"{len(wanted)} calls and types, {len(differences)} differ"]))
    return bool(differences)


if __name__ == "__main__":
    sys.exit(main())
