"""Which DIMM an error is of: lines `# slot` before the kernel's lines, and lines `range` where the kernel names a DIMM."""
import re

from reference.base import Unreadable
from reference.events import named_in
from reference.kernel import behind_name, is_own
from reference.memory import UNPLACED, in_parentheses

MOST_SLOTS, MOST_RANGES, MOST_HELD, MOST_AT_ONCE, SIZE = 1_024, 1_500, 512, 4_096, 64
SLOT = re.compile(rb"# slot ([!-~]{1,32}) (.+)", re.S)
HEX = rb"([0-9a-fA-F]{1,16})"
ADDRESS = re.compile(rb"[^ ]* [^ ]* address:0x%s(?: .*)?" % HEX, re.S)
# EDAC's line of an error, and where its page stands.
EDAC = re.compile(rb"([0-9]{1,20}): ([0-9]{1,20}) [CU]E(.*)", re.S)
PAGE = re.compile(rb"%s offset:0x%s grain:.*" % (HEX, HEX), re.S)
PAGE_SIZE = 4_096
# A line of a firmware's report, and what of it matters here.
REPORT = re.compile(rb"([0-9]{1,20})\}\[Hardware Error\]: (.*)", re.S)
HANDLE = b"not present. "


class Dimms:
    """The rows `# slot`, the places that have a range, and the text that waits for the next line."""

    def __init__(self):
        self.slots, self.rows, self.is_head, self.ranged, self.held = {}, 0, True, set(), ""

    def begin_line(self, line):
        """Takes a line as a row, if only rows came before."""
        row = SLOT.fullmatch(line) if self.is_head and line is not None else None
        self.is_head = bool(row) and row[1] != b"-"
        self.rows += self.is_head
        if self.is_head and self.rows <= MOST_SLOTS:
            self.slots.setdefault(row[2], row[1].decode())

    def passed(self, told, said, waits):
        """What is printed at a line which tells of a DIMM, has a text, and may have a machine check that waits."""
        place = told[0] // SIZE if told else None
        name = self.slots.get(told[1]) if told else None
        has_range = name and place not in self.ranged and len(self.ranged) < MOST_RANGES
        text = f"range {name} {SIZE * place:x} {SIZE * place + SIZE - 1:x}\n" if has_range else ""
        holds = waits and self.slots and len(said) <= MOST_HELD
        text += self.held + ("" if holds else said)
        if len(text) > MOST_AT_ONCE:
            return said
        if has_range:
            self.ranged.add(place)
        self.held = said if holds else ""
        return text


def is_held(text):
    """Whether a machine check's text is of a whole one that has an address."""
    return text.startswith("bank ") and int(text.split(" ")[8], 16) >> 58 & 1 == 1


def told_in_trace(line):
    """The address and the name of a DIMM in a line of a trace, or none."""
    _, found = named_in(behind_name(line))
    if not found or found[1] != b"mc":
        return None
    try:
        address = ADDRESS.fullmatch(in_parentheses(found[2]))
    except Unreadable:
        return None
    # The text is `<n> <severity> error:<message> on <label>`, and a message begins with a space.
    said = found[2].rpartition(b" (mc:")[0].partition(b":")[2]
    front, on, label = said.partition(b" on ")
    if not address or not on or not int(address[1], 16) or front.partition(b" ")[2].startswith(UNPLACED):
        return None
    return int(address[1], 16), label


class LogDimms:
    """What a log says of DIMMs: EDAC's lines, and the lines of firmware's reports, of which the address stands before the name."""

    def __init__(self):
        self.number = self.address = None

    def told(self, line):
        """The address and the name of a DIMM in a line, or none."""
        head, _, behind = line.removesuffix(b"\r").partition(b"{")
        front, mark, _ = head.partition(b"EDAC MC")
        if mark:
            found = EDAC.fullmatch(line.removesuffix(b"\r")[len(front + mark) :])
            is_told = found and is_own(front) and all(int(it) < 2**64 for it in found.groups()[:2])
            return self.of_edac(found[3]) if is_told else None
        found = REPORT.fullmatch(behind)
        is_told = found and is_own(head) and int(found[1]) < 2**64
        return self.of_report(int(found[1]), found[2]) if is_told else None

    def of_edac(self, text):
        """What a line of EDAC's says, from its message on."""
        message, on, rest = text.partition(b" on ")
        label, mark, behind = rest.rpartition(b" page:0x")
        label, bracket, _ = label.rpartition(b" (")
        place = PAGE.fullmatch(behind)
        if not on or not mark or not bracket or not place or message.partition(b" ")[2].startswith(UNPLACED):
            return None
        page, offset = int(place[1], 16), int(place[2], 16)
        return (page * PAGE_SIZE + offset, label) if page < 2**52 and offset < PAGE_SIZE and page + offset else None

    def of_report(self, number, text):
        """What a line of the firmware's report of this number says."""
        last, address = self.number, self.address
        if text.startswith((b"  section_type: ", b" Error ", b"  DIMM location: ")):
            self.number = None
        elif text.startswith(b"  physical_address: 0x"):
            is_read = re.fullmatch(HEX, text[22:])
            self.number, self.address = (number, int(text[22:], 16)) if is_read else (None, None)
        if text.startswith(b"  DIMM location: ") and number == last:
            return address, text[17:].strip(b" ").removeprefix(HANDLE)
        return None
