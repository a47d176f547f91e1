"""The promises of docs/PROOFS.md: their clauses, how much there is to read for them, and their pages."""
import re
import typing

import pages
from rattle import TOP
from reading import boxes_for, is_clause, reading_of, size_of

FILE = TOP / "docs" / "PROOFS.md"
PROMISE = re.compile(r"^## \d+\. .*?(?=^## |\Z)", re.M | re.S)
READ = re.compile(
    r"To read: \[(?P<lines>[\d,]+) lines in (?P<files>\d+) files\]\(promises/(?P<page>\d\d\.md)\), "
    r"or (?P<all_lines>[\d,]+) in (?P<all_files>\d+) \((?P<clauses>`[^`]+`(?:, `[^`]+`)*)\)"
)
FIGURES = "To read: [{:,} lines in {} files](promises/{}), or {:,} in {} ({})"
# a link of docs/ to a file beside it
NEAR_LINK = re.compile(r"\]\((?!https?:)")
# a quotation of clauses, and the name of each
QUOTED = re.compile(r"^```rattle\n(ensures .*?)^```$", re.M | re.S)
CLAUSE = re.compile(r"^ensures (\w+)", re.M)


class Promise(typing.NamedTuple):
    """A promise of docs/PROOFS.md: its title, its number, its text, and what it says of reading it, if it does."""

    title: str
    number: int
    text: str
    figures: re.Match | None

    def clauses(self):
        """The clauses whose definitions are to be read, with a space between them."""
        return self.figures["clauses"].replace("`", "").replace(",", "")

    def readings(self):
        """What is to be read, with the boxes closed that the promise doesn't open, and with all opened."""
        return reading_of(self.clauses(), str(self.number)), reading_of(self.clauses())

    def page(self):
        """The name of its page in docs/promises/."""
        return f"{self.number:02}.md"


def promises():
    """The promises of docs/PROOFS.md."""
    for text in PROMISE.findall(FILE.read_text()):
        title = text.split("\n")[0].removeprefix("## ")
        yield Promise(title, int(title.split(".")[0]), text, READ.search(text))


def figures_now(promise):
    """How many lines and files there are to read for a promise, and with all boxes opened."""
    return [figure for reading in promise.readings() for figure in size_of(reading.items())]


def figure_faults():
    """Promises of docs/PROOFS.md with other numbers of lines and files than there are to read, and boxes of none."""
    named, opened = set(boxes_for("0")), set()
    for promise in promises():
        title, figures = promise.title, promise.figures
        if not figures:
            yield f"docs/PROOFS.md: {title}: doesn't say how much there is to read, with a link to the promise's page"
            continue
        if figures["page"] != promise.page():
            yield f"docs/PROOFS.md: {title}: links the page {figures['page']} instead of {promise.page()}"
        for name in CLAUSE.findall("\n".join(QUOTED.findall(promise.text))):
            if not any(re.search(rf"/{name}\b", word) for word in promise.clauses().split()):
                yield f"docs/PROOFS.md: {title}: quotes the clause {name}, and doesn't count what there is to read for it"
        for word in filter(lambda it: not is_clause(it), promise.clauses().split()):
            yield f"docs/PROOFS.md: {title}: {word}: there is no such clause"
        now = figures_now(promise)
        told = [int(figures[name].replace(",", "")) for name in ("lines", "files", "all_lines", "all_files")]
        if any(abs(one - other) > one / 10 for one, other in zip(now, told)):
            yield "docs/PROOFS.md: {}: {:,} lines in {} files, or {:,} in {}, are to be read".format(title, *now)
        opened.update(item.name for reading in promise.readings() for item in [*reading.items(), *reading.boxes])
    for name in sorted(named - opened):
        yield f"docs/BOXES.md: no promise comes to the box `{name}`"


def write_figures():
    """Writes into docs/PROOFS.md how much there is to read."""
    text = FILE.read_text()
    for promise in filter(lambda it: it.figures, promises()):
        lines, files, all_lines, all_files = figures_now(promise)
        now = FIGURES.format(lines, files, promise.page(), all_lines, all_files, promise.figures["clauses"])
        text = text.replace(promise.figures[0], now)
    FILE.write_text(text)


def opening_of(promise):
    """What a promise's page says below its title: the promise in words, and where the page comes from."""
    words = NEAR_LINK.sub("](../", promise.text.split("\n")[1])
    called = f"`tests/form/believed {promise.clauses()} --boxes {promise.number} --text`"
    return [
        words,
        "`tests/form/believed --pages` writes this page, and the gate compares it with the code. "
        f"{called} prints all that the promise uses as one page. "
        "[PROOFS.md](../PROOFS.md) explains the promise and its names. Paths start in crates/.",
    ]


def pages_now():
    """Each file of docs/promises/, and what it has to say."""
    book = pages.Book()
    for promise in filter(lambda it: it.figures, promises()):
        book.add(promise.title, promise.number, opening_of(promise), promise.readings()[0])
    return book.pages


def page_faults():
    """Pages that aren't what the code says or are too long, and files that are no promise's page."""
    wanted = pages_now()
    for file in sorted({*wanted, *pages.FOLDER.glob("*.md")}):
        if file not in wanted or not file.exists() or file.read_text() != wanted[file]:
            yield f"{file.relative_to(TOP)}: isn't what the code says now: `tests/form/believed --pages` writes it"
    yield from pages.size_faults(wanted)


def write_pages():
    """Writes the pages, and removes files that are no promise's page."""
    wanted = pages_now()
    pages.FOLDER.mkdir(exist_ok=True)
    for file in set(pages.FOLDER.glob("*.md")) - set(wanted):
        file.unlink()
    for file, text in wanted.items():
        file.write_text(text)
