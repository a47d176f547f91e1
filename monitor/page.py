"""What the pages of a machine and of a fleet have in common.

Each text is escaped when it becomes a part of an element; only the results of `element` are HTML already.
"""
import datetime
import html
import os
import pathlib
import re
import sys
import time

DAY = 86_400
# A machine whose clock starts with the machine gives seconds of the first year.
FIRST_DATE, LAST_DATE = 365 * DAY, 253_402_300_800
UNCORRECTED = frozenset(("UCNA", "SRAO", "SRAR", "UC", "recoverable", "fatal"))


class Html(str):
    """Text that is HTML already."""


def as_html(part):
    """A text or a number as HTML."""
    return part if isinstance(part, Html) else Html(html.escape(str(part)))


def joined(*parts, between=""):
    """Texts and elements, one behind the other."""
    return Html(between.join(map(as_html, parts)))


def element(tag, *parts, **attributes):
    """An element. The name of an attribute may have an underscore at its end, as `class_`; one that is empty is left out."""
    named = [(name.rstrip("_").replace("_", "-"), text) for name, text in attributes.items()]
    told = "".join(f' {name}="{html.escape(str(text))}"' for name, text in named if text != "")
    return Html(f"<{tag}{told}>{joined(*parts)}</{tag}>")


def number(text):
    """The number that a text is, or 0: whatever isn't rasd's counts nothing."""
    return int(text) if re.fullmatch(r"[0-9]{1,20}", text) else 0


def grouped(count):
    """A number with commas between its thousands."""
    return f"{count:,}"


def pairs(line):
    """The words of a line that have a name, each with what stands behind its first `=`."""
    split = (word.partition("=") for word in line.split())
    return [(name, text) for name, equals, text in split if equals]


def date(seconds, form):
    """Seconds since 1970 as a date, or nothing where they can't be one."""
    if not FIRST_DATE <= seconds < LAST_DATE:
        return ""
    return datetime.datetime.fromtimestamp(seconds, datetime.timezone.utc).strftime(form)


def when(text):
    """A second since 1970, as a report has it, for a reader."""
    return date(number(text), "%Y-%m-%d %H:%M") or f"second {text}"


def now():
    """The page's time: that of NOW, or else the present one."""
    return number(os.environ.get("NOW", "")) or int(time.time())


def pill(kind, text):
    """A word in a frame of its colour."""
    return element("span", text, class_=f"pill {kind}".rstrip())


def named(label):
    """A module, by its label."""
    return element("i", "no module") if label == "-" else label


def facts(*rows):
    """Numbers of a page, each with an identifier and a name."""
    return element("dl", *(element("div", element("dt", name), element("dd", text, id=key)) for key, name, text in rows))


def table(identifier, headings, rows):
    """A table in a frame. Each heading has a class and a text, each row its cells."""
    head = element("tr", *(element("th", text, class_=kind) for kind, text in headings))
    body = element("tbody", *(joined("\n", row) for row in rows))
    return element("div", element("table", element("thead", head), body, id=identifier), class_="frame")


def note(*parts):
    """A line beside what matters."""
    return element("p", *parts, class_="soft")


def print_page(title, kind, verdict, *parts):
    """Prints a page: its head, its verdict, which is `bad`, `some` or `fine`, and its parts."""
    style = (pathlib.Path(__file__).resolve().parent / "page.css").read_text(encoding="utf-8")
    header = joined(element("h1", title), element("time", date(now(), "%Y-%m-%d %H:%M UTC")))
    lines = [
        Html('<!doctype html>\n<html lang="en">\n<meta charset="utf-8">'),
        Html('<meta name="viewport" content="width=device-width">'),
        element("title", title),
        Html(f"<style>\n{style}</style>"),
        element("header", header),
        element("p", verdict, id="verdict", class_=kind),
        *parts,
        Html("</html>\n"),
    ]
    sys.stdout.buffer.write(joined(*lines, between="\n").encode("utf-8", errors="replace"))


def lines_of(file):
    """The lines of an open file of bytes, as text; bytes that aren't are shown as such."""
    return (line.decode("utf-8", errors="replace").rstrip("\n") for line in file)


def refuse(text):
    """Ends the program with a text on standard error."""
    print(text, file=sys.stderr)
    sys.exit(1)
