"""The events of memory errors: `mc_event` of the firmware's driver and of others, and `extlog_mem_event`."""
import re

from reference.base import check

MEMORY = bytes.fromhex("1411bca5646fde4eb8633e83ed7c83b1")
SEVERITIES = {b"Uncorrected": 0, b"Deferred": 0, b"Fatal": 1, b"Corrected": 2}
WORDS = {b"recoverable": 0, b"fatal": 1, b"corrected": 2}
# The kernel's names of the types of errors, from 1 on.
KINDS = (
    b"no error", b"single-bit ECC", b"multi-bit ECC", b"single-symbol chipkill ECC", b"multi-symbol chipkill ECC",
    b"master abort", b"target abort", b"parity error", b"watchdog timeout", b"invalid address", b"mirror Broken",
    b"memory sparing", b"scrub corrected error", b"scrub uncorrected error", b"physical memory map-out event",
)  # fmt: skip
# How amd64_edac's message begins if it doesn't know the place, which it gives as 0.
UNPLACED = (b"Failed to map error addr to a node", b"MCA_SYND not valid")
HEX = rb"([0-9a-fA-F]{1,16})"
# The name of the firmware's detail.
FIRMWARE = b"APEI location: "
# What a controller's event has in its parentheses, up to its driver's detail.
CONTROLLER = re.compile(rb"[^ ]* [^ ]* ([^ ]*) ([^ ]*) [^ ]* APEI location: (.*)", re.S)
# The same of another driver, whose detail may be anything.
DRIVER = re.compile(rb"([^ ]*) location:([^ ]*) ([^ ]*) ([^ ]*)(?: .*)?", re.S)
FRONT = re.compile(rb"1 ([^ ]*) error: (.*)", re.S)
LOG = re.compile(
    rb"\{[^}]*\} ([^ ]*) error: ((?:(?! physical addr: ).)*) physical addr: %s \(mask lsb: %s\) (.*FRU: .*)" % (HEX, HEX), re.S
)
GRAINS = {b"%d" % (1 << bit): 1 << bit for bit in range(31)} | {b"-2147483648": 1 << 31}
ALL = 2**64


def little(value, size):
    """A number as it is in memory; 0 if it isn't known."""
    return (value or 0).to_bytes(size, "little")


def number_of(word):
    """The number of a decimal word, none if it doesn't fit into a field."""
    return int(word) if re.fullmatch(rb"[0-9]{1,20}", word) and int(word) < 65_536 else None


def place_of(text):
    """The node, the card and the module with which a text begins, each if it is there."""
    place = []
    for name in (b"node:", b"card:", b"module:"):
        value = None
        if text.startswith(name):
            word, _, text = text[len(name) :].lstrip(b" ").partition(b" ")
            value = number_of(word)
        place.append(value)
    return place


def section(severity, address, mask, place, name):
    """The severity, the type and the section of an error."""
    kind = KINDS.index(name) + 1 if name in KINDS else None
    bits = zip((1, 2, 3, 4, 5, 14), (address, mask, *place, kind), strict=True)
    valid = sum(1 << bit for bit, value in bits if value is not None)
    front = little(valid, 8) + bytes(8) + little(address, 8) + little(mask, 8)
    return severity, MEMORY, front + b"".join(little(it, 2) for it in place) + bytes(34) + little(kind, 1) + bytes(7)


def in_parentheses(text):
    """What a controller's event has in its last parentheses."""
    _, mark, controller = text.rpartition(b" (mc:")
    check(mark and controller.endswith(b")"))
    return controller[:-1]


def is_of_another_driver(text):
    """Whether another driver than the firmware's made this event."""
    return FIRMWARE not in in_parentheses(text)


def may_be_of_firmware(text):
    """Whether a text may have the firmware's event: what is behind its last parenthesis, if it has one, names the detail."""
    _, mark, behind = text.rpartition(b" (mc:")
    return not mark or FIRMWARE in behind


def error_of(text, address, grain, place):
    """The severity, the type and the section of a controller's event with this address, this grain and this place."""
    front = FRONT.fullmatch(text)
    check(front)
    address, word = re.fullmatch(rb"address:0x" + HEX, address), grain.removeprefix(b"grain:")
    grain = GRAINS.get(word.lstrip(b"0") if len(word) <= 20 else b"") if word != grain else None
    check(address and grain)
    name, on, _ = front[2].partition(b" on ")
    mask = ALL - grain if grain > 1 else None
    severity = SEVERITIES.get(front[1], 3)
    return section(severity, int(address[1], 16) or None, mask, place, name if on else b"")


def of_controller(text):
    """The severity, the type and the section of the firmware's event of a memory controller."""
    found = CONTROLLER.fullmatch(in_parentheses(text))
    check(found)
    return error_of(text, found[1], found[2], place_of(found[3]))


def of_driver(text):
    """The severity, the type and the section of another driver's event: its place are the controller and two layers, if it is known."""
    found = DRIVER.fullmatch(in_parentheses(text))
    check(found)
    controller, layers, address, grain = found.groups()
    top, middle, *_ = *layers.split(b":"), b""
    front = FRONT.fullmatch(text)
    is_placed = not (front and front[2].partition(b" on ")[0].startswith(UNPLACED))
    place = [*map(number_of, (controller, top, middle))] if is_placed else [None] * 3
    return error_of(text, address, grain, place)


def of_log(text):
    """The severity, the type and the section of an event of the extended log."""
    found = LOG.fullmatch(text)
    check(found)
    severity, name, address, bit, places = found.groups()
    address, bit = int(address, 16), int(bit, 16)
    check(bit <= 64 or bit == 255)
    mask = ALL - (1 << bit) if bit <= 64 else None
    return section(WORDS.get(severity, 3), address if address < ALL - 1 else None, mask, place_of(places), name)
