"""Reads what the crates define and promise, for other scripts.

These are the definitions of specs/, and the types and contracts of src/, each with the names that
it uses.

An item has a key: its crate, its module and its name, such as ("cap_io", "specs.Text", "text"), so
two definitions with the same name are two items. A use is the key of an item; that of a variant or
constructor has its name after it. Definitions of std and of other crates aren't items.
"""
import collections
import dataclasses
import pathlib
import re
import textwrap

from source_files import (
    ROOT, WORD, Source, Spec, blanked, doc_start, end_of_group, imports_of, without_attributes)

TEST_CRATES = {"cap_cases", "cap_tests", "cap_trial"}

WORDS = re.compile(rf"\.?(?:«\w+»|{WORD})(?:\.{WORD})*")
# (x y : T), λ x y., λ (x, y)., let x
BINDERS = re.compile(
    rf"[({{]((?:{WORD}\s+)+):(?![:=])|λ\s+((?:{WORD}\s*)+)\.|λ\s+\(((?:{WORD}[,\s]*)+)\)\s*\.|let\s+({WORD})")
# a parameter in front of its type
PARAMETER = re.compile(r"(?:[(,]|\bmut|\bghost)\s*(\w+)\s*:(?!:)")
FIELD_VALUE = re.compile(rf"(?<=[{{;])(\s*){WORD}(\s*=(?!=))")


@dataclasses.dataclass
class Piece:
    """A part of an item that is kept or dropped as a whole: a signature, one equation, one constructor."""

    text: str
    uses: set
    patterns: set = dataclasses.field(default_factory=set)
    kind: str = "head"


@dataclasses.dataclass
class Item:
    """A definition, type, trait, constant or contract."""

    key: tuple
    kind: str
    path: pathlib.Path
    line: int
    pieces: list

    def text(self):
        return "\n".join(piece.text for piece in self.pieces)

    def uses(self):
        return {use for piece in self.pieces for use in piece.uses}


def bound_names(code):
    """Returns the names that a term binds."""
    return {name for groups in BINDERS.findall(code) for group in groups for name in re.findall(WORD, group)}


def split_import(line):
    """Returns an import of names from several modules, `use P.{A.b, A.c}`, as imports from one
    module each, `use P.A.{b}`.
    """
    found = re.match(r"(.*?use )([\w.]+)\.\{(.*)\}", line, re.DOTALL)
    names = [name.strip() for name in found[3].split(",")] if found else []
    if not any(re.match(r"\w+\.", name) for name in names):
        return [line]
    modules = [f"{found[2]}.{name}".rpartition(".") for name in names]
    return [f"{found[1]}{module}.{{{name}}}" for module, _, name in modules]


def used_names(code, scope, bound):
    """Returns the items that a term names, by the names in scope; a name after a point is a field."""
    code = FIELD_VALUE.sub(r"\1 \2", code)
    found = set()
    for word in WORDS.findall(code):
        first, *fields = word.split(".")
        if not first or first in bound:
            continue
        found |= named_by(scope.get(first.strip("«»")), fields)
    return found | {scope[sign] for sign in scope if not re.match(r"\w", sign) and f" {sign} " in code}


def named_by(target, fields):
    """Returns the uses that a name with fields means: an item, or what a module or a type of src/ has."""
    while isinstance(target, dict):
        target = target.get(fields[0] if fields else "", target.get(""))
        fields = fields[1:]
    return {target} if target else set()


def targets_of(target):
    """Returns all items that a name may mean."""
    return {key for it in target.values() for key in targets_of(it)} if isinstance(target, dict) else {target}


class Sources:
    """All files of the crates, and the items in them."""

    def __init__(self, left_out=TEST_CRATES):
        folders = sorted((ROOT / "crates").iterdir())
        crates = [it for it in folders if it.name not in left_out and (it / "src").exists()]
        self.crates = [it.name for it in crates]
        specs = [
            path
            for crate in crates
            for path in sorted((crate / "specs").glob("**/*.antt"))
            if path.stem not in ("Lib", "inside")
        ]
        self.specs = {(it.crate, it.module): it for it in map(Spec, specs)}
        self.files = {}
        for crate in crates:
            for path in sorted((crate / "src").glob("**/*.rt")):
                parts = path.relative_to(crate / "src").with_suffix("").parts
                module = ".".join(part for part in parts if part not in ("lib", "main", "mod"))
                if "tests" not in parts or not left_out:
                    self.files[crate.name, module] = Source(path, crate.name, module)
        self.unknown, self.items = [], {}
        self.public_functions, self.exports = set(), set()
        # what files import of std and of other crates: modules with names
        self.foreign = collections.defaultdict(set)
        for file in self.files.values():
            self.add_types(file)
        for spec in self.specs.values():
            self.add_definitions(spec)
        for file in self.files.values():
            self.add_contracts(file)

    # ---- what names mean

    def module_names(self, path):
        """Returns the names of a module of antt with their uses; None if it isn't in one of these crates."""
        _, crate, *rest = path.split(".") + [""] * 3
        rest = [part for part in rest if part]
        if crate not in self.crates or not rest or rest[0] != "specs":
            return None
        if rest[1] in ("declared", "contracts"):
            return self.declared(crate, rest[2:])
        spec = self.specs.get((crate, ".".join(rest)))
        if spec is None:
            raise LookupError(f"no file {path}")
        return spec.names()

    def declared(self, crate, rest):
        """Returns the names of a generated module: a type, its variants, or the constants."""
        if rest[-1] == "TheConstants":
            file = self.files[crate, ".".join(rest[:-1])] if len(rest) > 1 else None
            files = [file] if file else [it for it in self.files.values() if it.crate == crate]
            kinds = ("const", "static")
            return {name: it.key(name) for it in files for name in it.types if it.types[name].kind in kinds}
        variants = rest[-1] in ("TheVariants", "TheViews")
        *module, name = rest[:-1] if variants else rest
        file = self.files.get((crate, ".".join(module)))
        if file is None or name not in file.types:
            raise LookupError(f"{crate} has no {'.'.join(rest)}")
        key = file.key(name)
        if variants:
            return {variant: (*key, variant) for variant, _ in file.variants(file.types[name])}
        return {name: {"": key, **self.variants_of(key)}, "": key}

    def resolved(self, file, path, depth=0):
        """Returns the item of a Rust path that begins in this file, or None."""
        crate, module, rest = file.crate, file.module.split(".") if file.module else [], list(path)
        if rest[0] == "crate":
            module, rest = [], rest[1:]
        elif rest[0] in self.crates:
            crate, module, rest = rest[0], [], rest[1:]
        elif rest[0] == "super":
            module, rest = module[:-1], rest[1:]
        while len(rest) > 1 and (crate, ".".join(module + rest[:1])) in self.files:
            module, rest = module + rest[:1], rest[1:]
        there = self.files.get((crate, ".".join(module)))
        if there is None or len(rest) != 1 or depth > 6:
            return None
        if any(block.name == rest[0] and block.kind not in ("impl", "mod") for block in there.blocks):
            return there.key(rest[0])
        if rest[0] in there.uses and (there is not file or depth == 0):
            return self.resolved(there, there.uses[rest[0]][0], depth + 1)
        return None

    def rust_scope(self, file):
        """Returns the types and constants that the code of a file can name, each with its variants."""
        found = {name: file.key(name) for name in file.types}
        for name, (path, _) in file.uses.items():
            if path[0] in ("crate", "super") or path[0] in self.crates:
                key = self.resolved(file, path)
                if key and self.block_of(key)[1].kind != "fn":
                    found[name] = key
        return {name: {"": key, **self.variants_of(key)} for name, key in found.items()}

    def block_of(self, key):
        """Returns the file and the block of a type or function that a path found."""
        file = self.files[key[0], key[1].removeprefix("src").removeprefix(".")]
        return file, next(it for it in file.blocks if it.name == key[2] and it.kind not in ("impl", "mod"))

    def variants_of(self, key):
        """Returns the variants of a type by name."""
        file, block = self.block_of(key)
        return {name: (*key, name) for name, _ in file.variants(block)} if block.kind == "enum" else {}

    # ---- what other crates can name

    def public_paths(self):
        """Returns the items of src/ that other crates or C can name, each with its paths, the shortest first."""
        found = collections.defaultdict(set)
        for crate in self.crates:
            if (crate, "") in self.files:
                self.show(self.files[crate, ""], crate, found)
        for key, item in self.items.items():
            owner, sign, member = re.match(r"([^ :]+)(::| as |)(.*)", key[2]).groups()
            if sign and (item.kind == "ghosts" or key in self.public_functions):
                found[key] |= {f"{path}{sign}{member}" for path in found.get((*key[:2], owner), ())}
        found.update({key: {f"{key[0]}::{key[2]}"} for key in self.exports})
        return {key: sorted(paths, key=len) for key, paths in found.items() if paths}

    def show(self, file, path, found):
        """Adds the public items of a module and of its public modules, with their paths."""
        for block in file.blocks:
            if block.is_public and block.kind == "mod":
                inner = self.files.get((file.crate, ".".join(filter(None, [file.module, block.name]))))
                if inner:
                    self.show(inner, f"{path}::{block.name}", found)
            elif block.is_public:
                found[file.key(block.name)].add(f"{path}::{block.name}")
        for name, (target, is_public) in file.uses.items():
            key = self.resolved(file, target) if is_public else None
            if key:
                found[key].add(f"{path}::{name}")

    def imported(self, lines, where):
        """Returns the scope of some `use` lines."""
        scope = {}
        for line in [it for line in lines for it in split_import(line)]:
            if found := re.match(r"(?:ghost )?use (Rattle\.(\w+)\.[\w.]+)\.\{(.*)\}", line, re.DOTALL):
                names = re.split(r"[\s,]+", found[3]) if found[2] not in self.crates else []
                self.foreign[where] |= {(found[1], name) for name in names if re.fullmatch(WORD, name)}
            try:
                scope.update(imports_of(line, self.module_names))
            except LookupError as error:
                self.unknown.append(f"{where}: {error}")
        return scope

    # ---- items

    def add_definitions(self, spec):
        """Adds the definitions of a file of specs/."""
        scope = self.imported(spec.imports, spec.path)
        scope.update({name.strip("◌"): target for name, target in spec.names().items()})
        spec.scope = scope
        for name, (number, kind, parts) in spec.parts.items():
            pieces_of = self.equation if kind == "definition" else self.member_pieces
            pieces = [piece for comment, text in parts for piece in pieces_of(spec, name, comment, text)]
            self.items[spec.key(name)] = Item(spec.key(name), kind, spec.path, number, pieces)
        self.unknown += [f"{spec.path}: nothing uses {name}" for name in self.idle_imports(spec)]

    def idle_imports(self, spec):
        """Yields the imports that no definition seems to use.

        `rt tidy` removes unused imports, so this script overlooked a use.
        """
        pieces = [piece for name in spec.parts for piece in self.items[spec.key(name)].pieces]
        used = {use for piece in pieces for use in piece.uses | piece.patterns}
        used |= {use[:3] for use in used}
        for name, target in self.imported(spec.imports, spec.path).items():
            if not used & targets_of(target):
                yield name

    def equation(self, spec, name, comment, text):
        """Yields a signature, or an equation with what its patterns ask for."""
        code = blanked(text, "--")
        found = re.match(rf"{re.escape(name)}\b([^=:]*?) =(?=\s)", code)
        words = WORDS.findall(found[1]) if found else []
        patterns, bound = set(), bound_names(code)
        for first, *fields in (word.split(".") for word in words if word[0] != "."):
            uses = {use for use in named_by(spec.scope.get(first), fields) if len(use) == 4}
            patterns |= uses
            bound |= set() if uses else {first}
        uses = used_names(code[found.end() :] if found else code, spec.scope, bound) | {use[:3] for use in patterns}
        yield Piece("\n".join([*comment, text]), uses - {spec.key(name)}, patterns, "equation" if found else "head")

    def member_pieces(self, spec, name, comment, text):
        """Yields the head of a `data` or `record`, and each of its constructors or fields."""
        starts = [it.start() for it in re.finditer(rf"^(?:  --[^\n]*\n)*  (?:pub )?{WORD} :", text, re.MULTILINE)]
        parts = [text[a:b].rstrip("\n") for a, b in zip([0, *starts], [*starts, len(text)])]
        bound, is_record = bound_names(parts[0]), "record " in parts[0].split("\n")[0]
        for number, part in enumerate(parts):
            code = blanked(part, "--")
            own = re.match(rf"\s*(?:pub )?({WORD}) :", code) if number else None
            uses = used_names(code[own.end() :] if own else code, spec.scope, bound | bound_names(code))
            patterns = {(*spec.key(name), own[1])} if own and not is_record else set()
            if is_record and own:
                bound.add(own[1])
            whole = part if number else "\n".join([*comment, part])
            kind = "head" if not own else "field" if is_record else "rule"
            yield Piece(whole, {it for it in uses if it[:3] != spec.key(name)}, patterns, kind)

    def add_types(self, file):
        """Adds the types and constants of a file of src/."""
        lines = re.findall(r"^ghost use [^;]+;", file.code, re.MULTILINE)
        file.scope = {**self.rust_scope(file), **self.imported(lines, file.path)}
        for name, block in file.types.items():
            if block.kind != "trait":
                pieces = list(self.type_pieces(file, block, file.key(name)))
                self.items[file.key(name)] = Item(file.key(name), block.kind, file.path, file.line(block.head), pieces)

    def type_pieces(self, file, block, key):
        """Yields a type or constant; an enum's head and each of its variants."""
        variants = file.variants(block) if block.kind == "enum" else []
        lines = [file.text.rfind("\n", 0, place) + 1 for _, place in variants]
        places = [block.start, *(doc_start(file.text, line) for line in lines)]
        for number, (start, end) in enumerate(zip(places, [*places[1:], block.end])):
            code = file.code[start:end]
            variant = re.search(r"^ *([A-Z]\w*)", code, re.MULTILINE) if number else None
            code = code[variant.end() :] if variant else code
            fields = set(re.findall(r"\b([a-z]\w*)\s*:(?!:)", code))
            uses = {use for use in used_names(code, file.scope, fields | bound_names(code)) if use[:3] != key}
            text = without_attributes(file.text[start:end]).rstrip("\n")
            yield Piece(text, uses, {(*key, variant[1])} if variant else set(), "rule" if variant else "head")

    def add_contracts(self, file):
        """Adds the functions, impls and traits of a file of src/."""
        for block in file.blocks:
            if block.kind == "fn":
                self.add_function(file, block, file.key(block.name), file.scope, set())
            elif block.kind in ("impl", "trait"):
                self.add_members(file, block, file.scope)

    def add_members(self, file, block, scope):
        """Adds the functions and ghost members of an impl or a trait."""
        inside = file.code[block.end_of_head + 1 : block.end - 1]
        lines = [line.strip() for line in re.findall(r"^    ghost use [^;]+;", inside, re.MULTILINE)]
        scope = {**scope, **self.imported(lines, file.path)}
        owner, trait = owner_and_trait(block, file.code[block.head : block.end_of_head])
        own = scope.get(owner)
        key = own[""] if isinstance(own, dict) else file.key(owner)
        own_uses = {key} if block.kind == "impl" and isinstance(own, dict) else set()
        for member in file.blocks_in(block.end_of_head + 1, block.end, "    "):
            if member.kind == "fn" and block.kind == "impl":
                member.is_public |= bool(trait)
                self.add_function(file, member, (*key[:2], f"{owner}::{member.name}"), scope, own_uses)
        if block.kind == "trait":
            self.add_trait(file, block, key, scope)
        elif trait:
            self.add_ghosts(file, block, key, trait, scope)

    def add_function(self, file, block, key, scope, own_uses):
        """Adds a function: its signature and contract."""
        head = file.code[block.head : block.end_of_head].partition(block.name)[2]
        uses = used_names(head, scope, set(PARAMETER.findall(head)) | bound_names(head)) | own_uses
        text = file.cut(block.start, block.end_of_head).rstrip()
        self.items[key] = Item(key, "fn", file.path, file.line(block.head), [Piece(text, uses)])
        if block.is_public:
            self.public_functions.add(key)
        if "no_mangle" in file.text[block.start : block.head]:
            self.exports.add(key)

    def add_trait(self, file, block, key, scope):
        """Adds a trait: its ghost members and its contracts, without bodies."""
        text, at = file.text[block.start : block.end_of_head + 1], block.end_of_head + 1
        for member in file.blocks_in(block.end_of_head + 1, block.end, "    "):
            if member.kind == "fn":
                text += file.text[at : member.end_of_head].rstrip() + ";"
                at = member.end
        text += file.text[at : block.end]
        code = blanked(text, "//")
        members = set(re.findall(r"(?:ghost|fn) (\w+)", code))
        uses = used_names(code, scope, members | bound_names(code) | set(PARAMETER.findall(code)))
        text = re.sub(r"^ *ghost use [^;]+;\n", "", without_attributes(text), flags=re.MULTILINE)
        piece = Piece(textwrap.dedent(text.strip("\n")), uses - {key})
        self.items[key] = Item(key, "trait", file.path, file.line(block.head), [piece])

    def add_ghosts(self, file, block, key, trait, scope):
        """Adds what contracts see of a type: the ghost members of an impl, except invariants and
        how values are coded.
        """
        inside = file.code[block.end_of_head + 1 : block.end - 1]
        texts, uses = [], set()
        for found in re.finditer(r"^    ghost (\w+)\s*=\s*\{", inside, re.MULTILINE):
            if found[1] in ("invariant", "coded"):
                continue
            start = block.end_of_head + 1 + found.start()
            end = end_of_group(file.code, block.end_of_head + found.end()) + 1
            texts.append(file.text[start:end])
            code = file.code[start:end]
            uses |= used_names(code.partition("=")[2], scope, bound_names(code))
        if texts:
            head = re.sub(r"\s+", " ", file.text[block.head : block.end_of_head]).strip()
            text = "\n".join([f"{head} {{", *texts, "}"])
            ghosts = (key[0], key[1], f"{key[2]} as {trait}")
            self.items[ghosts] = Item(ghosts, "ghosts", file.path, file.line(block.head), [Piece(text, uses | {key})])
            if trait == "Model" and key in self.items:
                self.items[key].pieces[0].uses.add(ghosts)


def owner_and_trait(block, head):
    """Returns the type that an impl or a trait is of, and the trait that an impl gives it."""
    if block.kind == "trait":
        return block.name, None
    code = without_generics(re.sub(r"->", "  ", head)).partition("impl")[2].partition(" where")[0]
    before, _, after = code.rpartition(" for ")
    owner = re.search(r"(\w+)\W*$", after.partition(",")[0])
    return owner[1], before.strip().split("::")[-1] or None


def without_generics(code):
    """Returns code without the text between angle brackets."""
    while (shorter := re.sub(r"<[^<>]*>", "", code)) != code:
        code = shorter
    return code
