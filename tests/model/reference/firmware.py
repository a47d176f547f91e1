"""What `lines ghes` prints of a kernel log and trace: lines `hest` and `ghes` of what the firmware reported, and of events."""
import re

from reference.base import Unreadable
from reference.events import event_in
from reference.kernel import MOST, SECOND, UNREAD, is_behind, is_own, printed, stamp_in
from reference.reports import Refused, read_block

START = b"Hardware error from APEI Generic Hardware Error Source: "
SEVERITIES = b"recoverable", b"fatal", b"corrected"
FATAL = 1
FIELDS = b"physical_address: 0x", b"physical_address_mask: 0x", b"error_type: "
NAMES = b"node:", b"card:", b"module:"
MARKED = rb"\{([0-9]+)\}\[Hardware Error\]: "
MEMORY = bytes.fromhex("1411bca5646fde4eb8633e83ed7c83b1")
MOST_ERRORS, MOST_SOURCES, PAUSE = 12, 28, SECOND // 10
TRACE_SOURCE = 65_535
LEFT_OUT, PARTIAL = "# left out {}\n", "# partial source={} number={}\n"


def number(word, most, base=10):
    """The number of a word, or none."""
    form = rb"[0-9]{1,20}" if base == 10 else rb"[0-9a-fA-F]{1,16}"
    value = int(word, base) if re.fullmatch(form, word) else MOST + 1
    return value if value <= most else None


def severity_of(word):
    """The number of a severity by its name."""
    return SEVERITIES.index(word) if word in SEVERITIES else 3


def place_of(text):
    """The node, the card and the module that a text begins with."""
    place = []
    for name in NAMES:
        value = None
        if text.startswith(name):
            word, _, text = text[len(name) :].lstrip(b" ").partition(b" ")
            value = number(word, 65535)
        place.append(value)
    return place


def little(value, size):
    """A number as it stands in memory."""
    return (value or 0).to_bytes(size, "little")


def entry(kind, severity, section):
    """An entry of a block."""
    return kind + little(severity, 4) + b"\0\3\0\0" + little(len(section), 4) + bytes(44) + section


def entry_of(error):
    """The entry of a memory error."""
    bits = zip((1, 2, 3, 4, 5, 14), (error["address"], error["mask"], *error["place"], error["kind"]), strict=True)
    valid = sum(1 << bit for bit, value in bits if value is not None)
    places = b"".join(little(it, 2) for it in error["place"])
    section = little(valid, 8) + bytes(8) + little(error["address"], 8) + little(error["mask"], 8) + places
    section += bytes(34) + little(error["kind"], 1) + bytes(7)
    return entry(MEMORY, error["severity"], section)


def block_of(severity, entries):
    """The status block of these entries."""
    data = b"".join(entries)
    status = 16 * len(entries) + (2 if severity == 2 else 1)
    return little(status, 4) + bytes(8) + little(len(data), 4) + little(severity, 4) + data


def table_of(sources):
    """The table of sources."""
    rest = bytes(26) + little(len(sources), 4) + b"".join(b"\t\0" + little(it, 2) + bytes(60) for it in sources)
    front = b"HEST" + little(10 + len(rest), 4) + b"\0"
    return front + bytes([-sum(front + rest) % 256]) + rest


class Reports:
    """The report in work, and the sources of the last table."""

    def __init__(self, boot, began, reads_events=True, has_own_tables=False, border=None, of_drivers=False):
        self.boot, self.began, self.sources, self.work = boot, began, [], None
        # from when on a trace has the memory errors too
        self.border = border
        self.reads_events, self.has_own_tables, self.of_drivers = reads_events, has_own_tables, of_drivers

    def end(self):
        """What is told of the report in work, which ends."""
        work, self.work, text = self.work, None, ""
        if not work:
            return text
        work["errors"] += [work["error"]] if work["error"] else []
        source, begun = work["source"], work["begun"]
        is_left = is_behind(self.border, begun) and work["severity"] != FATAL
        if work["errors"] and not is_left:
            text = self.lines(source, begun, block_of(work["severity"], [*map(entry_of, work["errors"])]))
        return text + (PARTIAL.format(source, begun) if work["state"] in ("absent", "begun") else "")

    def lines(self, source, begun, block):
        """The line of a block, behind a table if the last one lacks its source."""
        text = ""
        if self.has_own_tables or source not in self.sources:
            is_new = self.has_own_tables or len(self.sources) == MOST_SOURCES
            self.sources = [*([] if is_new else self.sources), source]
            text = f"hest {table_of(self.sources).hex()}\n"
        return f"{text}ghes {self.boot} {self.began + begun // SECOND} {source} {begun} {block.hex()}\n"

    def event(self, stamp, severity, kind, section):
        """What is told of an event: its block, if a run can read it."""
        block = block_of(severity, [entry(kind, severity, section)])
        try:
            read_block(block)
        except Refused:
            raise Unreadable from None
        return self.lines(TRACE_SOURCE, stamp, block)

    def section(self, kind, line):
        """What is told of a line that says what a section is about."""
        work, has_begun = self.work, self.work["state"] == "begun"
        work["errors"] += [work["error"]] if work["error"] else []
        work["error"], work["state"] = None, "left out"
        if kind != b"memory error":
            return LEFT_OUT.format(line)
        is_full = len(work["errors"]) == MOST_ERRORS
        if not is_full:
            blank = {"address": None, "mask": None, "place": [None] * 3, "kind": None}
            severity = work["next"] if has_begun else work["severity"]
            work["state"], work["error"] = "memory", {"severity": severity, **blank}
        if not has_begun:
            return UNREAD.format(line)
        return LEFT_OUT.format(line) if is_full else ""

    def field(self, text, line):
        """What is told of a field of a section about memory."""
        error = self.work["error"]
        if not error:
            return ""
        if text.startswith(NAMES):
            error["place"] = place_of(text)
            return ""
        name = next((it for it in FIELDS if text.startswith(it)), None)
        if not name:
            return ""
        word, what = text[len(name) :], ("address", "mask", "kind")[FIELDS.index(name)]
        value = number(word.partition(b",")[0], 255) if what == "kind" else number(word, MOST, 16)
        if value is None:
            return UNREAD.format(line)
        error[what] = value
        return ""

    def take(self, text, line):
        """What is told of a line of the report in work."""
        work = self.work
        if text.startswith(b"event severity: "):
            work["severity"] = severity_of(text[16:])
        elif text.startswith(b" Error "):
            count, comma, rest = text[7:].partition(b",")
            if number(count, MOST) is None or not rest.startswith(b" type: "):
                return UNREAD.format(line)
            told = PARTIAL.format(work["source"], work["begun"]) if work["state"] == "begun" else ""
            work["errors"] += [work["error"]] if work["error"] else []
            work.update(error=None, state="begun", next=severity_of(rest[7:]))
            return told
        elif text.startswith((b"  section_type: ", b"  section type: ")):
            return self.section(text[16:] if text[9:10] == b"_" else b"", line)
        elif text.startswith(b"  "):
            return self.field(text[2:], line)
        return ""

    def text(self, line, bytes_of_line):
        """What is printed of a line, and of the log's end, which has no number: a report in work may lack lines."""
        if line is None:
            return PARTIAL.format(self.work["source"], self.work["begun"]) if self.work else ""
        try:
            if self.reads_events and (event := event_in(bytes_of_line, self.of_drivers)):
                return self.event(*event)
        except Unreadable:
            return UNREAD.format(line)
        stamp, told = stamp_in(bytes_of_line.partition(b"{")[0]), ""
        head, _, rest = bytes_of_line.removesuffix(b"\r").partition(b"{")
        word, _, rest = rest.partition(b"}")
        name, mark = number(word, MOST), b"[Hardware Error]: "
        if name is None or not rest.startswith(mark) or not is_own(head):
            late = self.work and stamp is not None and stamp - self.work["last"] > PAUSE
            marked = any(number(it, MOST) is not None for it in re.findall(MARKED, bytes_of_line))
            return (self.end() if late else "") + (UNREAD.format(line) if marked else "")
        said = rest[len(mark) :]
        source = number(said[len(START) :], 65535) if said.startswith(START) else None
        if self.work and (self.work["name"] != name or source is not None):
            told = self.end()
        if source is not None and stamp is not None:
            self.work = {"name": name, "source": source, "begun": stamp, "severity": 3, "errors": [], "error": None}
            self.work.update(last=stamp, state="absent")
            return told
        if not self.work or said.startswith(START):
            if self.work:
                self.work["last"] = self.work["last"] if stamp is None else stamp
            return told + UNREAD.format(line)
        self.work["last"] = self.work["last"] if stamp is None else stamp
        return told + self.take(said, line)


def lines_ghes(boot, began, log):
    """What `lines ghes` prints, and its status."""
    return printed(log, Reports(boot, began).text)
