"""Pages to read a promise on: its clauses, and every definition they use, each before those that use it.

A definition stands on the first page that needs it, and later pages name that page. A type stands again where a later
promise names other members of it. Of a name that two crates define each page says which crate's it means.
"""
import collections
import itertools
import re

from rattle import NO_TEXT, POINTS, TOP, USE, meaning, meanings, scope_of, text_of

FOLDER = TOP / "docs" / "promises"
# the most lines that a page may have, and all together
MOST_LINES, MOST_IN_ALL = 600, 7_000
# names that two crates define; a page writes the crate before them
TOLD_APART = {"Input", "with_input"}
# the lines of a page around its definitions, but for a first page's head
NEXT_HEAD = 10
COMMENT = re.compile(r" *(--|//)")
# a heading within a file, which isn't a comment of the definition after it
HEADING = re.compile(r" *(-- -|//!)")
ORDER = "Each definition comes before those that use it. "
CUT = f"In a type, `{POINTS}` stands for members that nothing read for this promise names; `≡` compares these too. "


def bare_lines(file):
    """A file's lines with comments, attributes and imports made empty, as rattle.py reads items."""
    return USE.sub(lambda use: "\n" * use[0].count("\n"), NO_TEXT.sub("", text_of(file))).split("\n")


def comment_above(lines, place):
    """The comment lines right above a line."""
    start = place
    while start and COMMENT.match(lines[start - 1]) and not HEADING.match(lines[start - 1]):
        start -= 1
    return lines[start:place]


def crate_of(item):
    """The crate that has an item."""
    return item.file.split("/")[1]


def told_apart(file, line):
    """A line of a file, with the crate before each name that two crates define."""
    dot = "." if file.endswith(".antt") else "::"
    for name in TOLD_APART & set(re.findall(r"\w+", line)):
        found = meaning(file, scope_of(file).get(name))
        line = re.sub(rf"(?<![\w.:]){name}\b", f"{crate_of(found)}{dot}{name}", line) if found else line
    return line


def written(item):
    """An item's lines as they stand in its file, with their comments."""
    bare, lines, place, text = bare_lines(item.file), text_of(item.file).split("\n"), 0, []
    for line in item.lines:
        if line.strip():
            place = bare.index(line, place) if line in bare[place:] else place
            text += [*(comment_above(lines, place) if bare[place] == line else []), told_apart(item.file, line)]
            place += bare[place] == line
    return text


def in_order(reading):
    """What is read for a promise, leaves first, and the boxes that are met."""
    order, met, seen = [], [], set()

    def visit(item):
        item = reading.parts.get(item, item)
        if item is None or item in seen:
            return
        seen.add(item)
        if item in reading.boxes:
            met.append(item)
            return
        for found in meanings(item):
            if found and found.kind != "fn":
                visit(found)
        if item not in reading.roots:
            order.append(item)

    for root in reading.roots:
        visit(root)
    return order, met


def by_file(order, parts):
    """The same items, still leaves first, with those of one file together unless files need each other."""
    wanted = set(order)
    needs = {item: {parts.get(it, it) for it in meanings(item)} & wanted - {item} for item in order}
    left, done, found = list(order), set(), []
    while left:
        files = collections.defaultdict(list)
        for item in left:
            files[item.file].append(item)
        whole = next((its for its in files.values() if all(needs[it] <= done | set(its) for it in its)), None)
        ready = whole or [next((it for it in left if needs[it] <= done), left[0])]
        found += ready
        done.update(ready)
        left = [item for item in left if item not in done]
    return found


def lines_of(items):
    """Items as lines of code under the names of their files. An empty line sets off an item that no comment begins."""
    file, lines = None, []
    for item in items:
        text = written(item)
        is_new = item.file != file
        lines += [f"-------- {item.file.removeprefix('crates/')}"] if is_new else []
        lines += text if is_new or COMMENT.match(text[0]) else ["", *text]
        file = item.file
    return lines


def block(items):
    """Items as one block of code."""
    return "\n".join(["```rattle", *lines_of(items), "```"])


def named(items):
    """The names of items, in backticks."""
    return ", ".join(f"`{crate_of(item)}.{item.name}`" if item.name in TOLD_APART else f"`{item.name}`" for item in items)


def boxes_line(met):
    """The paragraph that names the boxes of a page."""
    return f"Black boxes, which [BOXES.md](../BOXES.md) sums up: {named(met)}." if met else ""


def order_line(items):
    """The paragraph before definitions: their order, and what two points in one mean."""
    is_cut = any(line.strip() == POINTS for item in items for line in item.lines)
    return (ORDER + (CUT if is_cut else "")).strip()


def paragraphs(texts):
    """Texts with an empty line between them."""
    return "\n\n".join(filter(None, texts)) + "\n"


def whole_page(title, reading):
    """One page with all that is read for clauses."""
    order, met = in_order(reading)
    head = [f"# {title}", "## The clauses", block(reading.roots), "## The definitions they use", order_line(order)]
    return paragraphs([*head, boxes_line(met), block(by_file(order, reading.parts))])


def parts_of(items, head):
    """Items in runs that fit on a page each, cut between two files; the first page has a head of so many lines."""
    runs, room = [[]], MOST_LINES - head
    files = itertools.groupby(items, lambda item: item.file)
    for group in (list(found) for _, found in files):
        if runs[-1] and len(lines_of([*runs[-1], *group])) > room:
            runs.append([])
            room = MOST_LINES - NEXT_HEAD
        runs[-1] += group
    return runs


class Book:
    """The pages so far, and where each definition stands on them."""

    def __init__(self):
        self.pages = {}
        self.homes = collections.defaultdict(list)

    def home_of(self, item):
        """The page that already has an item, with all of its members that are shown now; or None."""
        lines = {line for line in item.lines if line.strip() != POINTS}
        shown = self.homes[item.file, item.name]
        return next((page for page, there in shown if lines <= set(there)), None)

    def earlier(self, items):
        """The paragraph that names what stands on earlier pages."""
        pages = collections.defaultdict(list)
        for item in items:
            pages[self.home_of(item)].append(item)
        found = [f"[{page.removesuffix('.md')}]({page}) has {named(pages[page])}" for page in sorted(filter(None, pages))]
        return f"Of earlier pages, {'; '.join(found)}." if found else ""

    def add(self, title, number, opening, reading):
        """Adds a promise's page, and a page for each further part of its definitions."""
        order, met = in_order(reading)
        new = by_file([item for item in order if not self.home_of(item)], reading.parts)
        text = [f"# Promise {title}", *opening, "## The clauses", block(reading.roots), "## The definitions they use"]
        text += [order_line(order), self.earlier(order), boxes_line(met)]
        head = paragraphs(text).count("\n") + NEXT_HEAD
        names, parts = [f"{number:02}.md"], parts_of(new, head)
        names += [f"{number:02}-{place}.md" for place in range(2, len(parts) + 1)]
        for place, (name, part) in enumerate(zip(names, parts), 1):
            text += [block(part)] if part else []
            text += [f"[Part {place + 1}]({names[place]}) goes on."] if place < len(parts) else []
            self.pages[FOLDER / name] = paragraphs(text)
            self.keep(name, part)
            text = [f"# Promise {title}, part {place + 1}", f"[Part {place}]({name}) comes before."]

    def keep(self, name, items):
        """Notes the page where items stand."""
        for item in items:
            self.homes[item.file, item.name].append((name, item.lines))


def size_faults(wanted):
    """Pages that are too long, each or together."""
    counts = {file: text.count("\n") for file, text in wanted.items()}
    for file, count in counts.items():
        if count > MOST_LINES:
            yield f"{file.relative_to(TOP)}: {count} lines, more than {MOST_LINES}"
    if sum(counts.values()) > MOST_IN_ALL:
        yield f"docs/promises: {sum(counts.values()):,} lines in all, more than {MOST_IN_ALL:,}"
