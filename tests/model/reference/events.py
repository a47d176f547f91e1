"""The events of a kernel trace of which `lines ghes` makes blocks: a section each, with its type and its severity."""
import re
import uuid

from reference import memory
from reference.base import check
from reference.kernel import LAST_SECOND_OF_TRACE, SECOND, STAMP, behind_name

HEX = rb"([0-9a-fA-F]{1,16})"
NAMED = re.compile(rb" *(?:ras:)?(aer|non_standard|mc|extlog_mem)_event: +(.*)|(?!)", re.S)
AER = re.compile(
    rb"%s:%s:%s\.([0-9]{1,20}) PCIe Bus Error: severity=(Corrected|Fatal|Uncorrected, non-fatal), ([^,]*), TLP Header=(.*)"
    % (HEX, HEX, HEX), re.S
)  # fmt: skip
HEADER = re.compile(rb"\{0x%s,0x%s,0x%s,0x%s\}" % (HEX, HEX, HEX, HEX))
# Rows of 16 bytes; Linux 6.1 prints no space between two rows.
BYTE = rb"[0-9a-fA-F]{2}"
ROWS = re.compile(rb"(?:%s(?: %s){15} ?)*%s(?: %s){0,15}" % (BYTE, BYTE, BYTE, BYTE))
# An event's name behind a clock, wherever both are; and a memory controller's.
STRAY = rb"(?:^| )(?=[0-9.]{4})\.*[0-9][0-9.]*: +(?:ras:)?%s_event:(?= |$)"
STRAYS, STRAY_MC = re.compile(STRAY % rb"(?:aer|non_standard|extlog_mem)"), re.compile(STRAY % rb"mc")
RAW = re.compile(rb"severity: ([0-9]{1,20}); sec type:([^;]*); FRU: (?:.*;)? data len:([0-9]{1,20}); raw data:([^;]*)", re.S)
SEVERITIES = {b"Corrected": 2, b"Fatal": 1, b"Uncorrected, non-fatal": 0}
# The kernel's numbers of severities, which are none, corrected, recoverable and panic, as numbers of a block.
OF_GHES = 3, 2, 0, 1
PCIE = uuid.UUID("d995e954-bbc1-430f-ad91-b44dcb3c6f35").bytes_le
LONGEST_SECTION = 19_800
# The kernel's names of errors, each with its bit.
CORRECTABLE = {
    b"Receiver Error": 0, b"Bad TLP": 6, b"Bad DLLP": 7, b"RELAY_NUM Rollover": 8, b"Replay Timer Timeout": 12,
    b"Advisory Non-Fatal Error": 13, b"Corrected Internal Error": 14, b"Header Log Overflow": 15,
}  # fmt: skip
UNCORRECTABLE = {
    b"Undefined": 0, b"Data Link Protocol Error": 4, b"Surprise Down Error": 5, b"Poisoned TLP": 12,
    b"Flow Control Protocol Error": 13, b"Completion Timeout": 14, b"Completer Abort": 15, b"Unexpected Completion": 16,
    b"Receiver Overflow": 17, b"Malformed TLP": 18, b"ECRC Error": 19, b"Unsupported Request Error": 20,
    b"ACS Violation": 21, b"Uncorrectable Internal Error": 22, b"MC Blocked TLP": 23, b"AtomicOp Egress Blocked": 24,
    b"TLP Prefix Blocked Error": 25,
}  # fmt: skip


def little(value, size):
    """A number as it is in memory."""
    return value.to_bytes(size, "little")


def at_most(word, most, base=16):
    """The number of a word, which is at most this."""
    value = int(word, base)
    check(value <= most)
    return value


def status_of(flags, bits):
    """The status of these flags: each sets a bit above all before it, or stands for bits without a name."""
    status = 0
    for flag in flags.split(b"|") if flags else ():
        if flag in bits:
            check(1 << bits[flag] > status)
            status |= 1 << bits[flag]
        else:
            check(re.fullmatch(rb"0x" + HEX, flag))
            status += int(flag, 16)
            check(status < 2**32)
    return status


def header_of(text):
    """The bytes of a packet's header."""
    if text == b"Not available":
        return bytes(16)
    words = HEADER.fullmatch(text)
    check(words)
    return b"".join(little(at_most(it, 2**32 - 1), 4) for it in words.groups())


def pcie_section(text):
    """The severity, the type and the section of a PCI Express error."""
    found = AER.fullmatch(text)
    check(found)
    *place, name, flags, header = found.groups()
    segment, bus, device = map(at_most, place[:3], (65_535, 255, 31))
    function, is_corrected = at_most(place[3], 7, 10), name == b"Corrected"
    status = little(status_of(flags, CORRECTABLE if is_corrected else UNCORRECTABLE), 4)
    uncorrectable, correctable = (bytes(4), status) if is_corrected else (status, bytes(4))
    of_device = bytes(7) + bytes([function, device]) + little(segment, 2) + bytes([bus]) + bytes(4)
    of_aer = bytes(4) + uncorrectable + bytes(8) + correctable + bytes(8) + header_of(header) + bytes(52)
    return SEVERITIES[name], PCIE, little(1 << 3 | 1 << 7, 8) + bytes(16) + of_device + bytes(72) + of_aer


def raw_section(text):
    """The severity, the type and the section of an event that has the section whole."""
    found = RAW.fullmatch(text)
    check(found)
    severity, kind, size, data = found.groups()
    check(ROWS.fullmatch(data))
    check(re.fullmatch(rb"[0-9a-f]{8}(?:-[0-9a-f]{4}){3}-[0-9a-f]{12}", kind, re.I))
    section = bytes.fromhex(data.decode())
    check(len(section) == at_most(size, LONGEST_SECTION, 10))
    return OF_GHES[at_most(severity, 3, 10)], uuid.UUID(kind.decode()).bytes, section


READERS = {b"aer": pcie_section, b"non_standard": raw_section, b"mc": memory.of_controller, b"extlog_mem": memory.of_log}


def has_stray(line, of_drivers):
    """Whether a line has an event's name behind a clock, wherever both are; a driver's too if these count."""
    return STRAYS.search(line) or (of_drivers or memory.may_be_of_firmware(line)) and STRAY_MC.search(line)


def named_in(line):
    """The clock of a line without a process's name, and the match of its event's name; none if no event is there.

    The event's name is behind the clock: the line's first colon before a space ends a word of at least four signs.
    """
    head, _, rest = line.partition(b": ")
    clock = head.rpartition(b" ")[2]
    is_clock = re.fullmatch(rb"(?=.{4})[0-9.]*[0-9][0-9.]*", clock)
    return clock, NAMED.fullmatch(b" " + rest) if is_clock else None


def is_of_extended_log(line):
    """Whether a line's event is of the firmware's extended log."""
    _, found = named_in(behind_name(line))
    return bool(found) and found[1] == b"extlog_mem"


def event_in(line, of_drivers=False):
    """The time stamp of a line's event, and its severity, type and section; none if the line has no event that counts.

    Every driver's event of a memory controller counts if `of_drivers` says so.
    """
    line = behind_name(line)
    clock, found = named_in(line)
    is_of_driver = found and found[1] == b"mc" and memory.is_of_another_driver(found[2])
    if not found or is_of_driver and not of_drivers:
        check(not has_stray(line, of_drivers))
        return None
    stamp = STAMP.fullmatch(clock + b":")
    check(stamp and int(stamp[1]) <= LAST_SECOND_OF_TRACE)
    reader = memory.of_driver if is_of_driver else READERS[found[1]]
    return int(stamp[1]) * SECOND + int(stamp[2]), *reader(found[2])
