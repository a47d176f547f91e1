"""The script: its lines, their words, and the rows of the machine that they give."""
import itertools

from reference.base import Refused, Stop, check

MOST_BYTES = 67_108_864
MOST_IN_LINE = 40_000
MOST_ROWS = 4_096


def lines_of(pieces):
    """The lines of a script that comes in pieces; it ends with a Stop where that is too long."""
    held, at, before, number = b"", 0, 0, 0
    for piece in itertools.chain(pieces, [b""]):
        held, at = held[at:] + piece, 0
        while True:
            number += 1
            feed = held.find(b"\n", at)
            length = (feed if feed >= 0 else len(held)) - at
            is_long = length > MOST_IN_LINE and before + MOST_IN_LINE < MOST_BYTES + 1
            check(not is_long, Stop(2, f"line={number} reason=line.5"))
            check(before + length + (feed >= 0) <= MOST_BYTES, Stop(13, "too-long"))
            if feed < 0:
                number -= 1
                break
            yield number, held[at:feed]
            at, before = feed + 1, before + length + 1
    if held[at:]:
        yield number + 1, held[at:]


def is_label(word):
    """Whether bytes are a label."""
    return 1 <= len(word) <= 32 and all(0x21 <= it <= 0x7E for it in word) and word != b"-"


def decimal(most=2**64 - 1, least=0):
    """The reader of a decimal word."""

    def read(word):
        is_number = len(word) <= 20 and all(it in b"0123456789" for it in word)
        check(is_number and least <= int(word) <= most, Refused("line.3"))
        return int(word)

    return read


def hexadecimal(word):
    """A hexadecimal word."""
    check(len(word) <= 16 and all(it in b"0123456789abcdefABCDEF" for it in word), Refused("line.3"))
    return int(word, 16)


def octets(word):
    """A word of bytes."""
    is_hex = len(word) % 2 == 0 and all(it in b"0123456789abcdefABCDEF" for it in word)
    check(is_hex, Refused("line.4"))
    return bytes.fromhex(word.decode())


def label(word):
    """A label."""
    check(is_label(word), Refused("line.6"))
    return word


BYTE, SHORT, LONG = decimal(255), decimal(65_535), decimal()
LIMITS = (decimal(1_000_000, 1), decimal(10_000_000, 1))
TOPOLOGY = {"cpu", "module", "range", "place"}
# The words of each kind of line.
KINDS = {
    b"bank": (LONG, LONG, SHORT, BYTE, LONG, *[hexadecimal] * 5),
    b"cpu": (SHORT, BYTE),
    b"module": (label, BYTE, BYTE, decimal(14)),
    b"range": (label, hexadecimal, hexadecimal),
    b"place": (label, SHORT, SHORT, SHORT),
    b"limit": LIMITS,
    b"module-limit": LIMITS,
    b"retire": (LONG,),
    b"hest": (octets,),
    b"bert": (LONG, LONG, octets, octets),
    b"ghes": (LONG, LONG, SHORT, LONG, octets),
    b"restart": (),
    b"erst": (octets,),
    b"put": (hexadecimal, octets),
    b"poll": (LONG,),
}
KINDS[b"panic"] = (hexadecimal, *KINDS[b"bank"])


def read_line(line):
    """The kind of a line, and its values; None where it is no event."""
    kind, *words = [word for word in line.split(b" ") if word] or [b"#"]
    if kind.startswith(b"#"):
        return None
    check(kind in KINDS, Refused("line.1"))
    check(len(words) == len(KINDS[kind]), Refused("line.2"))
    values = [read(word) for read, word in zip(KINDS[kind], words)]
    check(kind != b"range" or values[1] <= values[2], Refused("line.3"))
    return kind.decode().replace("-", "_"), values


class Topology:
    """Whose errors these are: rows of the machine."""

    def __init__(self):
        self.sockets, self.modules, self.ranges, self.places, self.count = {}, [], [], [], 0

    def count_row(self, label=None, overlaps=False):
        """Counts a row, which is refused for the first reason that applies."""
        is_named = label is None or any(it[0] == label for it in self.modules)
        check(is_named, Refused("topology.1"))
        check(not overlaps, Refused("topology.2"))
        check(self.count < MOST_ROWS, Refused("topology.3"))
        self.count += 1

    def cpu(self, cpu, socket):
        """A CPU's socket, of which the last row counts."""
        self.count_row()
        self.sockets[cpu] = socket

    def module(self, *row):
        """The socket, bank and channel that report a module's errors."""
        self.count_row()
        self.modules.append(row)

    def range(self, label, first, last):
        """The addresses of a module."""
        overlaps = any(first <= it[2] and it[1] <= last for it in self.ranges)
        self.count_row(label, overlaps)
        self.ranges.append((label, first, last))

    def place(self, label, *place):
        """The place of a module as firmware tells it."""
        self.count_row(label)
        self.places.append((label, *place))

    def owner(self, address, rows, *key):
        """The label of the range that holds an address; else the one label of the rows of a key."""
        for label, first, last in self.ranges:
            if address is not None and first <= address <= last:
                return label
        labels = {it[0] for it in rows if it[1:] == key}
        return labels.pop() if len(labels) == 1 else b""
