"""The definitions, types and functions of the repository's Rattle files, and what their names mean.

The files are read by their layout, which `rt fmt` keeps: nothing else of the language is known here
but where an item begins and ends, and what an import brings in.
"""
import functools
import pathlib
import re
import typing

TOP = pathlib.Path(__file__).resolve().parents[2]
CRATES = TOP / "crates"

NO_TEXT = re.compile(r"^ *(--|//|#!?\[|infix).*$", re.M)
USE = re.compile(r"^ *(?:pub )?(?:ghost )?use ((?:[^{;\n]|\{[^{}]*\})+);?$", re.M)
SPEC_HEAD = re.compile(
    r"(?:(?:abbrev|unfoldable|pub) )*(?:(?P<kind>record|data) (?P<type>[^\s({:]+)|(?P<name>[^\s({:]+) :(?= ))"
)
CODE_HEAD = re.compile(
    r"(?P<indent>    |)(?P<pub>pub )?(?:pub\(\w+\) )?(?:const )?"
    r"(?P<kind>fn|struct|enum|trait|const|static|type) (?P<name>\w+)"
)
IMPL_HEAD = re.compile(r"impl(?:<.*?>)? (?:(?P<trait>[\w:<>, ]+?) for )?(?P<type>\w+)")
CLAUSE = re.compile(r" +(?P<kind>requires|ensures)\b *(?P<name>\w+)?")
FIELD_SET = re.compile(r"([{;]\s*)[^\s(){}\[\];,&]+ (?==)")
# what stands in a type for members that aren't shown
POINTS = ".."
SPEC_WORD = re.compile(r"[^\s(){}\[\];,&]+")
CODE_WORD = re.compile(r"[^\s(){}\[\];,&<>?!:]+")


class Item(typing.NamedTuple):
    """What a reader reads as one: a definition of specs/, or a type, constant or function of code."""

    file: str
    name: str
    kind: str
    is_public: bool
    lines: tuple


def path_of(file):
    """A file's path from the top of the repository."""
    return str(file.relative_to(TOP))


@functools.cache
def text_of(file):
    """A file's text before its tests, by its path from the top."""
    return (TOP / file).read_text().split("\n#[cfg(test)]")[0]


@functools.cache
def crates():
    """The names of the crates, as crates.txt lists them."""
    return re.findall(r"^(\w+).*:", (TOP / "crates.txt").read_text(), re.M)


def files_of(crate, folder, ending):
    """The files of one folder of a crate, but for tests, by their paths from the top."""
    found = sorted(path_of(file) for file in (CRATES / crate / folder).rglob(f"*{ending}"))
    return [file for file in found if "/tests" not in file]


# ---- what a file contains


@functools.cache
def items_of(file):
    """The items of a file by their names, methods as `Type::method`."""
    # comments, attributes and imports are no text of an item
    text = USE.sub(lambda use: "\n" * use[0].count("\n"), NO_TEXT.sub("", text_of(file)))
    items = (spec_items if file.endswith(".antt") else code_items)(file, text.split("\n"))
    return {item.name: item for item in reversed(list(items))}


def spec_items(file, lines):
    """The definitions of a file of specs/; those of a module with parameters are indented."""
    heads, indent = [], ""
    for place, line in enumerate(lines):
        if re.match(r"\S", line):
            indent = "  " if re.match(r"module _\b.*\bwhere$", line) else ""
        match = re.match(indent + r"(?=\S)", line) and SPEC_HEAD.match(line, len(indent))
        if match:
            heads.append((place, match))
    ends = [*(place for place, _ in heads[1:]), len(lines)]
    for (place, match), end in zip(heads, ends):
        name, kind = match["type"] or match["name"], match["kind"] or "definition"
        yield Item(file, name, kind, True, tuple(lines[place:end]))


def code_items(file, lines):
    """What a file of code has: of a struct what a reader sees, and of a function all but its body."""
    owner = None
    for place, line in enumerate(lines):
        if re.match(r"[a-z]", line):
            owner = IMPL_HEAD.match(line)
        match = CODE_HEAD.match(line)
        if not match or match["indent"] and not owner:
            continue
        name = f"{owner['type']}::{match['name']}" if match["indent"] else match["name"]
        block = lines[place : end_of(lines, place, match["kind"], match["indent"])]
        if match["kind"] == "struct":
            fields = [it for it in block if not re.match(r"    (pub\(|\w+:)", it)]
            block = fields + values_of(file, name)
        is_public = bool(match["pub"] or owner and owner["trait"])
        yield Item(file, name, match["kind"], is_public, tuple(block))


def end_of(lines, place, kind, indent):
    """The place after the item that begins at a place, and of a function after its clauses."""
    has_clauses = False
    for place in range(place, len(lines)):
        line, last = lines[place], lines[place][-1:]
        has_clauses |= bool(CLAUSE.match(line))
        if kind == "fn" and line in (f"{indent}{{", f"{indent}{{}}"):
            return place
        is_one_line = last == ";" and not line.startswith(f"{indent} ") or line[-2:] == "{}"
        if is_one_line or line == f"{indent}}}" or kind == "fn" and last == "{" and not has_clauses:
            return place + 1
    return len(lines)


def values_of(file, name):
    """What the values of a struct are seen as: the line of its model that a reader believes."""
    model = re.search(rf"^impl\b.* Model for {name}\b.*\n((?: .*\n|\n)*)", text_of(file), re.M)
    return re.findall(r"^ +ghost Value\b.*$", model[1], re.M) if model else []


def constructors_of(item):
    """The constructors of an item that is data."""
    found = [re.match(r"\s+(?:pub )?([^\s({:]+) :", line) for line in item.lines[1:]]
    return [match[1] for match in found if match] if item.kind == "data" else []


# ---- the members of a type

STATEMENT = re.compile(r"[≡≢≤×⊎↔¬]| < ")
MEMBER = re.compile(r"(?P<indent>    |  )(?:pub )?(?P<name>\w+)(?= :|:|,| \{|\(|$)")


@functools.cache
def is_data(item):
    """Whether an item is a type of values: no field of a record, and no constructor of data, is a statement."""
    if item.kind in ("record", "data"):
        fields = item._replace(lines=item.lines[1:])
        is_stated = any(STATEMENT.search(line) for line in fields.lines) or item.kind == "data" and "→" in item.lines[0]
        needed = (it for it in meanings(fields) if it and it.kind != "fn" and it.name != item.name)
        return not is_stated and (item.kind == "data" or all(is_data(it) for it in needed))
    return item.kind in ("struct", "enum")


def members_of(item):
    """The fields or variants of a type of values, each with the places of its lines. A record of statements has none
    here: what is stated is read whole."""
    indent = "    " if item.kind in ("struct", "enum") else "  "
    members, name = {}, None
    for place, line in enumerate(item.lines[1:], 1) if is_data(item) else ():
        match = MEMBER.match(line)
        if match and match["indent"] == indent:
            name = match["name"]
        elif line.strip() and not line.startswith(f"{indent} ") and line != f"{indent}}},":
            name = None
        if name:
            members.setdefault(name, []).append(place)
    return members


def with_members(item, used):
    """A type with these of its members, and two points in place of the others."""
    dropped = {place for name, places in members_of(item).items() if name not in used for place in places}
    points = f"    {POINTS}" if item.kind in ("struct", "enum") else f"  {POINTS}"
    lines = [points if place in dropped else line for place, line in enumerate(item.lines)]
    lines = [line for place, line in enumerate(lines) if line != points or points not in lines[:place]]
    return item._replace(lines=tuple(lines))


# ---- what a crate gives to others


@functools.cache
def items_in(crate):
    """The items of a crate's code by name."""
    files = files_of(crate, "src", ".rt")
    return {name: item for file in reversed(files) for name, item in items_of(file).items()}


@functools.cache
def names_given(crate):
    """The names that a crate gives to others, each with its file or its path."""
    files = files_of(crate, "src", ".rt")
    root = next(file for file in files if file.endswith(("/src/lib.rt", "/src/main.rt")))
    modules = [root.replace("lib", name) for name in re.findall(r"^pub mod (\w+);", text_of(root), re.M)]
    given = {name: file for file in [root, *modules] for name in items_of(file)}
    for path in re.findall(r"^pub use ([^;]+);", text_of(root), re.M):
        given.update(expand(path))
    return given


def public_functions(crate):
    """The functions and methods that a crate gives to others."""
    items = [item for file in files_of(crate, "src", ".rt") for item in items_of(file).values()]
    return [item for item in items if item.kind == "fn" and item.is_public and is_given(crate, item)]


def is_given(crate, item):
    """Whether a crate gives a function to others, or the type whose method it is."""
    owner, _, method = item.name.partition("::")
    path = names_given(crate).get(owner, "")
    module = path.rpartition(".")[0].replace(".", "/")
    return bool(path) and (bool(method) or item.file in (path, f"crates/{crate}/src/{module}.rt"))


def with_clause(function, name):
    """A function with what it asks of its callers and this one of its clauses."""
    kept, clause = [], None
    for line in function.lines:
        clause = CLAUSE.match(line) or clause
        if not clause or clause["kind"] == "requires" or clause["name"] == name:
            kept.append(line)
    return function._replace(lines=tuple(kept))


def has_field(item, name):
    """Whether an item is a record with a field of this name."""
    return bool(item) and item.kind == "record" and any(line.startswith(f"  pub {name} :") for line in item.lines)


# ---- what a name means


def expand(path):
    """What an import brings in: pairs of a name and its path, whose parts are joined by points."""
    front, _, inside = " ".join(path.replace("::", ".").split()).rstrip("}").partition("{")
    parts = [front + part.strip() for part in inside.split(",") if part.strip()] or [front]
    pairs = [part.partition(" as ") for part in parts]
    return [(alias or full.split(".")[-1], full) for full, _, alias in pairs]


@functools.cache
def scope_of(file):
    """What the names in a file mean: items of the file itself, or the paths of what it imports."""
    paths = sorted(USE.findall(text_of(file)), key=lambda path: path.startswith("Rattle."))
    scope = {name: full for path in paths for name, full in expand(path)}
    for item in items_of(file).values():
        names = [item.name, *constructors_of(item)] if item.kind != "fn" else []
        scope.update((name, item) for name in names)
    for name in [name for name in scope if "◌" in name]:
        scope.update((part, scope[name]) for part in name.split("◌")[:2] if part)
    return scope


@functools.cache
def item_at(path):
    """The item that a full path means, or None if it is the library's."""
    crate, *parts = path.removeprefix("Rattle.").split(".")
    if crate not in crates() or not parts:
        return None
    if parts[:2] == ["specs", "declared"]:
        types = [part for part in parts if part[0].isupper() and not re.match("The[A-Z]", part)]
        return items_in(crate).get(types[0] if types else parts[-1])
    if parts[0] == "specs":
        return specified_at(crate, parts)
    passed_on = names_given(crate).get(parts[-1], "")
    return items_in(crate).get(parts[-1]) or ("." in passed_on and item_at(passed_on)) or None


def specified_at(crate, parts):
    """The definition of specs/ that a path means, or the one whose constructor it is."""
    for depth in range(len(parts) - 1, 1, -1):
        file = CRATES.joinpath(crate, *parts[:depth]).with_suffix(".antt")
        if file.is_file():
            items = items_of(path_of(file))
            data = [it for it in items.values() if parts[depth] in constructors_of(it)]
            return items.get(parts[depth]) or next(iter(data), None)
    return None


def meaning(file, found):
    """The item that a file's scope means by a name, by what the scope has for it; None if it is no item of the repository."""
    return item_at(re.sub(r"^crate\b", file.split("/")[1], found)) if isinstance(found, str) else found


def meanings(item):
    """The items of the repository that the names in an item mean."""
    scope, crate = scope_of(item.file), item.file.split("/")[1]
    pattern = SPEC_WORD if item.file.endswith(".antt") else CODE_WORD
    # In `record { synced = bytes }` the field's name is no other thing of that name.
    text = FIELD_SET.sub(r"\1", "\n".join(item.lines)) if item.file.endswith(".antt") else "\n".join(item.lines)
    words = [word.strip(".").split(".") for word in pattern.findall(text)]
    for first, *rest in words + [[">>="]] * (["do"] in words):
        found = scope.get(first)
        if isinstance(found, str):
            path = re.sub(r"^crate\b", crate, found)
            yield item_at(path) or (rest and item_at(f"{path}.{rest[0]}")) or None
        else:
            yield found
