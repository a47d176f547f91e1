r"""The worked runs of tests/program/rows.txt and tests/program/kernel.txt, which tests/program/rows runs.

A line is empty, a comment that begins with `#`, or one of

  let NAME TEXT            {NAME} stands for the text, from here on
  each FIRST LAST          the next row is a run for each number from the first to the last, and in it {NAME#} stands
                           for that many bytes, of two digits each, from the front of that text
  words WORD ..            the program's arguments, from here on; at first they are `run`
  row INPUT | PRINTED      a run that ends with status 0
  end PRINTED              the beginning of what each `stop` row prints, from here on
  stop INPUT | PRINTED     a run that ends with status 2, and prints that beginning and then this
  fail STATUS INPUT | PRINTED   a run that ends with this status
  then WORD .. | PRINTED   a run with these arguments and an empty input, over what the row before left
  leaves BYTES             the file of the record store that the next row has to leave, in hexadecimal

{VERSION} is the text of the file VERSION. In each text \n is a line feed, \r a carriage return, \t a tab and \xNN the byte of
that number. Spaces around a text don't count.
"""
import dataclasses
import pathlib
import re

TABLES = [pathlib.Path(__file__).resolve().parent / name for name in ("rows.txt", "kernel.txt")]
VERSION = (TABLES[0].parents[2] / "VERSION").read_text().strip()
ESCAPES = {"n": b"\n", "r": b"\r", "t": b"\t", "\\": b"\\"}
REFUSED = 2


@dataclasses.dataclass
class Row:
    """A run: its words, its input, what it prints, its status, its file and line, and the run that comes before.

    Where the record store's file has to be something, that is its bytes.
    """

    words: list
    data: bytes
    printed: bytes
    status: int
    place: str
    before: "Row" = None
    store: bytes = None


def filled(text, names):
    """A text with what its names stand for."""
    return re.sub(r"\{(\w+#?)\}", lambda name: names[name[1]], text.strip())


def bytes_of(text, names):
    """The bytes of a text of the table."""
    parts = re.split(r"\\(x[0-9a-f]{2}|.)", filled(text, names))
    for at in range(1, len(parts), 2):
        parts[at] = bytes([int(parts[at][1:], 16)]) if parts[at][0] == "x" else ESCAPES[parts[at]]
    return b"".join(part if isinstance(part, bytes) else part.encode() for part in parts)


def words_of(text, names):
    """The words of a command, which stand between single spaces."""
    return bytes_of(text, names).split(b" ")


def rows():
    """Each run of the tables."""
    for table in TABLES:
        yield from rows_of(table)


def rows_of(table):
    """Each run of a table."""
    names, front, counts, words, last, store = {"VERSION": VERSION}, "", [0], [b"run"], None, None
    for number, line in enumerate(table.read_text().splitlines(), 1):
        place = f"{table.name}:{number}"
        word, _, rest = line.partition(" ")
        if not word or word.startswith("#"):
            continue
        if word == "let":
            name, _, value = rest.partition(" ")
            names[name] = filled(value, names)
        elif word == "leaves":
            store = bytes.fromhex(filled(rest, names))
        elif word == "each":
            first, final = rest.split()
            counts = range(int(first), int(final) + 1)
        elif word == "words":
            words = words_of(rest, names)
        elif word == "end":
            front = rest
        elif word == "then":
            text, _, printed = rest.partition("|")
            last = Row(words_of(text, names), b"", bytes_of(printed, names), 0, place, last)
            yield last
        else:
            status, rest = rest.split(" ", 1) if word == "fail" else ({"row": 0, "stop": REFUSED}[word], rest)
            text, _, printed = rest.partition("|")
            start = bytes_of(front, names) if word == "stop" else b""
            for count in counts:
                cut = names | {f"{name}#": value[:2 * count] for name, value in names.items()}
                last = Row(words, bytes_of(text, cut), start + bytes_of(printed, cut), int(status), place, None, store)
                yield last
            counts, store = [0], None
