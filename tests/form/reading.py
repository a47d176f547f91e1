"""What is to be read for a clause: its function, and every definition and type that it comes to, but for black boxes.

Of a type of values only the members count that something read for the clause names.
"""
import collections
import functools
import re
import typing

from rattle import TOP, crates, has_field, meanings, members_of, public_functions, with_clause, with_members

FIELD = re.compile(r"  pub (\w+) :")
BOXES = re.compile(r"^\| (`.*?) \| (.*?) \| (.*?) \|$", re.M)
BOX_ROWS = BOXES.findall((TOP / "docs/BOXES.md").read_text())


class Reading(typing.NamedTuple):
    """What is to be read: the roots it begins with, what is read in place of some items, and which items are boxes."""

    roots: list
    parts: dict
    boxes: list

    def items(self):
        """Each item that the roots come to, but what only the boxes name."""
        return follow(self.roots, self.parts, self.boxes)


def follow(functions, instead=None, boxes=()):
    """Each item that functions come to, with the item that named it; some stand for others.

    What only the boxes name isn't among them.
    """
    because = dict.fromkeys(functions)
    queue = collections.deque(functions)
    while queue:
        item = queue.popleft()
        for found in meanings(item):
            found = (instead or {}).get(found, found)
            if found and found.kind != "fn" and found not in boxes and found not in because:
                because[found] = item
                queue.append(found)
    return because


def with_field(record, name):
    """A record with this one of its fields."""
    kept, field = [], None
    for line in record.lines:
        field = FIELD.match(line) or field
        if not field or field[1] == name:
            kept.append(line)
    return record._replace(lines=tuple(kept))


def roots_of(word):
    """The functions of a clause with it alone, and the records with the one field that is meant, if one is."""
    name, _, clause = word.partition("/")
    clause, _, field = clause.partition(".")
    functions = [it for crate in crates() for it in public_functions(crate) if it.name == name]
    roots = [with_clause(function, clause) for function in functions]
    return roots, {it: with_field(it, field) for root in roots for it in meanings(root) if has_field(it, field)}


def is_clause(word):
    """Whether there is such a clause, with such a field."""
    roots, parts = roots_of(word)
    clause, _, field = word.partition("/")[2].partition(".")
    has_clause = any(re.match(rf" +ensures {clause}\b", line) for root in roots for line in root.lines)
    return has_clause and (not field or bool(parts))


def pruned(reading):
    """A reading with each type cut to the members that are named elsewhere among what is read.

    A type that only a dropped member named is read no more, so this is repeated until nothing changes.
    """
    while True:
        items, parts = reading.items(), dict(reading.parts)
        words = {item: set(re.findall(r"\w+", "\n".join(item.lines))) for item in items}
        count = collections.Counter(word for found in words.values() for word in found)
        whole = {part: item for item, part in parts.items()}
        for item in items:
            used = {name for name in members_of(item) if count[name] > (name in words[item])}
            part = with_members(item, used)
            if part != item:
                parts[whole.get(item, item)] = part
        if parts == reading.parts:
            return reading
        reading = reading._replace(parts=parts)


def boxes_for(names):
    """The names of boxes that are meant: these, or those of docs/BOXES.md that a promise doesn't open."""
    if not names.isdigit():
        return [name for name in names.split(",") if name]
    rows = [row for row in BOX_ROWS if names not in re.findall(r"\d+", row[2])]
    return [name for boxes, *_ in rows for name in re.findall(r"`(\w+)`", boxes)]


def found_among(items, names):
    """The items of these names, in that order."""
    by_name = {item.name: item for item in items}
    return [by_name[name] for name in names if name in by_name]


@functools.cache
def reading_of(words, names=""):
    """What is to be read for clauses, or for fields of the records that they name, with boxes of these names closed."""
    meant = [roots_of(word) for word in words.split()]
    roots = [root for one, _ in meant for root in one]
    whole = Reading(roots, {it: part for _, one in meant for it, part in one.items()}, [])
    opened = pruned(whole)
    boxes = found_among(whole.items(), boxes_for(names)) if names else []
    return pruned(whole._replace(boxes=boxes)) if boxes else opened


def size_of(items):
    """How many lines items have, and in how many files."""
    return sum(bool(line.strip()) for item in items for line in item.lines), len({item.file for item in items})
