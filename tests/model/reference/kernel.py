"""What the kernel tells of machine checks: its log and its trace, told as log lines and as lines of a script."""
import re
import struct

from reference import reports
from reference.base import Stop, Unreadable, check
from reference.reports import bit, digits
from reference.script import lines_of

MOST = 2**64 - 1
HEX, DECIMAL = rb"([0-9a-fA-F]{1,16})", rb"([0-9]{1,20})"
SECOND = 1_000_000


def decimal_of(digits, most=MOST):
    """A decimal word, or None where it is above the most."""
    return int(digits) if int(digits) <= most else None


# ---- the log

MARKER = b"[Hardware Error]: "
WORD_ENDS = rb"(?= |\Z)"
START = re.compile(rb"CPU %s: Machine Check(?:| Exception): %s Bank %s: %s *" % (DECIMAL, HEX, DECIMAL, HEX))
TSC = re.compile(rb"TSC %s(?: ADDR %s)?(?: MISC %s)?(?: .*)?" % (3 * (HEX + WORD_ENDS,)), re.S)
PROCESSOR = re.compile(rb"PROCESSOR %s:%s TIME %s(?: .*)?" % (DECIMAL, HEX, DECIMAL), re.S)


def told_by(text):
    """What the words of a log's line tell: their kind and their numbers; None where they tell nothing."""
    if found := START.fullmatch(text):
        cpu, mcg, bank, status = found.groups()
        numbers = (decimal_of(cpu, 65_535), int(mcg, 16), decimal_of(bank, 255), int(status, 16))
        return None if None in numbers else ("start", *numbers)
    if found := TSC.fullmatch(text):
        return ("tsc", *(int(it or b"0", 16) for it in found.groups()))
    if found := PROCESSOR.fullmatch(text):
        numbers = (decimal_of(found[1]), decimal_of(found[3]))
        return None if None in numbers else ("processor", *numbers)
    return None


def klog_line(line):
    """What a line of a kernel log tells, by what follows its first marker."""
    _, marker, text = line.partition(MARKER)
    return told_by(text) if marker else None


def group_text(group, boot, cap):
    """What is printed of a group of lines, of which the first one starts a report."""
    (_, cpu, mcg, bank, status), *rest = group
    kinds = [it[0] for it in rest]
    stamp = kinds.index("tsc") if "tsc" in kinds else len(kinds)
    if "processor" not in kinds[stamp:]:
        return f"partial cpu={cpu} bank={bank}\n"
    if not bit(status, reports.VAL):
        return ""
    _, tsc, addr, misc = rest[stamp]
    *_, seconds = rest[kinds.index("processor", stamp)]
    address = reports.address_of(cap, status, addr, misc)
    page = "-" if address is None else digits(address // 4096 * 4096)
    what = f"class={reports.class_of(cap, status)} weight={reports.weight_of(cap, status)} label=- page={page}"
    return f"log bank={boot}/{cpu}/{bank}/{tsc} t={seconds} {what} {reports.bank_detail(cap, mcg, status)}\n"


def klog(boot, cap, log):
    """What is printed of the machine checks of a kernel log, and the status."""
    groups, end = [], None
    try:
        for _, line in lines_of([log]):
            told = klog_line(line)
            if told and told[0] == "start":
                groups.append([told])
            elif told and groups:
                groups[-1].append(told)
    except Stop as refusal:
        end = refusal
    texts = [group_text(it, boot, cap) for it in groups]
    counts = [sum(it.startswith(word) for it in texts) for word in ("log", "partial")]
    last = f"stop {end.status} {end.text}\n" if end else "end reports={} partial={}\n".format(*counts)
    return "".join(texts) + last, end.status if end else 0


# ---- lines of a script

VENDOR, PARTIAL, UNREAD = "# vendor={} cpu={} bank={}\n", "# partial cpu={} bank={}\n", "# unread {}\n"
FIRMWARE, TORN, FULL = "# firmware cpu={} bank=255\n", "# torn {}\n", "# full\n"
# An error without a counter gets one: its second, a check below this prime, and how many alike came before.
CHECKS = 1_048_573
MOST_ALIKE, MOST_KEYS = 4_095, 200_000


def bank_line(boot, seconds, cpu, bank, tsc, cap, mcg, status, addr, misc):
    """The line of a report, as a script writes its numbers."""
    return f"bank {boot} {seconds} {cpu} {bank} {tsc} {cap:x} {mcg:x} {status:x} {addr:x} {misc:x}\n"


# A counter that is made of a second and of registers is at least this; a processor's own isn't.
LEAST_MADE = 10**18

class Names:
    """How many errors without a counter one printer told so far, by what those alike have in common."""

    def __init__(self):
        self.counts = {}

    def line(self, boot, seconds, cpu, bank, tsc, cap, mcg, status, addr, misc):
        """The line of a report, with a counter if it has none; behind a comment if its like aren't counted."""
        comment = ""
        if not tsc:
            check = int(f"{status:016x}{addr:016x}{misc:016x}", 16) % CHECKS
            key = cpu, bank, seconds % 2**32, check
            before = self.counts.get(key, 0)
            if key in self.counts or len(self.counts) < MOST_KEYS:
                self.counts[key] = before + 1
            else:
                comment = FULL
            tsc = (key[2] << 32) + (check << 12) + min(before, MOST_ALIKE)
        return comment + bank_line(boot, seconds, cpu, bank, tsc, cap, mcg, status, addr, misc)


def printed(source, text_of):
    """What a filter prints of each line of a source and of its end, and the status."""
    texts, status = [], 0
    try:
        for number, line in lines_of([source]):
            texts.append(text_of(number, line))
        texts.append(text_of(None, b""))
    except Stop as end:
        texts += [text_of(None, b""), f"stop {end.status} {end.text}\n"]
        status = end.status
    return "".join(texts), status


# ---- the trace

MARK = b"mce_record: "
STAMP = re.compile(rb"([0-9]{1,20})\.([0-9]{6}):")
LAST_SECOND_OF_TRACE = MOST // SECOND - 1
# The names by which each version of the kernel tells a thing, and how it is read.
NAMED = {
    b"CPU": "cpu", b"MCGc/s": "global", b"TSC": "tsc", b"PROCESSOR": "processor", b"vendor": "vendor",
    b"TIME": "time", b"time": "time", b"ADDR/MISC/SYND": "registers", b"ADDR": "addr", b"MISC": "misc",
}  # fmt: skip
FORMS = {
    "cpu": DECIMAL, "global": HEX + b"/" + HEX, "tsc": HEX, "processor": DECIMAL + b":[^:]*", "vendor": DECIMAL,
    "time": DECIMAL, "registers": HEX + b"/" + HEX + b"/[^/]*", "addr": HEX, "misc": HEX, "status": HEX,
}  # fmt: skip
# Which things are told by one name of several: each of these sets has to be there once.
ONE_OF = ({"processor", "vendor"}, {"registers", "addr"}, {"registers", "misc"}, {"cpu"}, {"global"}, {"tsc"}, {"time"})


def number_of(word, most=MOST):
    """A decimal word of a field."""
    check(len(word) <= 20 and int(word) <= most)
    return int(word)


def bank_of(name):
    """The number of the bank that a field of this name is of; None where it is of none."""
    found = re.fullmatch(rb"MC([0-9]{1,20})", name)
    return decimal_of(found[1], 255) if found else None


def fields_of(text):
    """The fields of an event that are wanted: the words that each has, and the bank's number. The last may be cut."""
    found = {}
    for part in text.split(b",")[:-1]:
        name, colon, value = part.lstrip(b" ").partition(b": ")
        bank = bank_of(name)
        thing = "status" if bank is not None else NAMED.get(name)
        if thing is None or not colon:
            continue
        matched = re.fullmatch(FORMS[thing], value, re.S)
        check(matched and thing not in found)
        found[thing] = matched.groups()
        if thing == "status":
            found["bank"] = bank
    check("status" in found and all(len(it & found.keys()) == 1 for it in ONE_OF))
    return found


def event_text(names, boot, text, lacking):
    """What is printed of an event, after these names. Where it has no IA32_MCG_CAP, it gets this one."""
    found = fields_of(text)
    cpu, seconds = number_of(found["cpu"][0], 65_535), number_of(found["time"][0])
    vendor = number_of((found.get("vendor") or found["processor"])[0])
    cap, mcg, status, tsc = (int(it, 16) for it in (*found["global"], *found["status"], *found["tsc"]))
    registers = found.get("registers") or (found["addr"][0], found["misc"][0])
    addr, misc = (int(it, 16) for it in registers)
    if vendor:
        return VENDOR.format(vendor, cpu, found["bank"])
    if not bit(status, reports.VAL):
        return ""
    if found["bank"] == 255:
        return FIRMWARE.format(cpu)
    return names.line(boot, seconds, cpu, found["bank"], tsc, cap or lacking, mcg, status, addr, misc)


def behind_name(line):
    """What follows the name of a process, if a line has it in the 16 columns of the kernel's own file."""
    return line[17:] if re.match(rb".{16}-[0-9]", line, re.S) else line


def is_front(front):
    """Whether a tracer prints this before an event's name: up to the first colon and space, its time at the end.

    The time has four signs at least: so it doesn't fit into the name of a process before the mark.
    """
    head, colon, rest = behind_name(front).partition(b": ")
    is_time = re.fullmatch(rb"(?=.{4})[0-9.]*[0-9][0-9.]*", head.rpartition(b" ")[2])
    return bool(colon and is_time and rest.lstrip(b" ") in (b"", b"mce:"))


def trace_text(names, boot, number, line, lacking=0):
    """What is printed of a line of a trace, after these names."""
    front, mark, text = line.rpartition(MARK)
    if not mark:
        return ""
    try:
        check(is_front(front))
        return event_text(names, boot, text, lacking)
    except Unreadable:
        return UNREAD.format(number)


def lines_trace(boot, trace):
    """What `lines trace` prints, and its status."""
    names = Names()
    return printed(trace, lambda number, line: trace_text(names, boot, number, line))


# ---- the record that the kernel saves when it panics: struct mce of arch/x86/include/uapi/asm/mce.h

# Its members up to mcgcap, and the lengths that it has had.
MCE = struct.Struct("<7Q4BI4B3IQ")
MCE_LENGTHS = (88, 104, 112, 120, 128)
MOST_OF_MCE = 129


def lines_mce(boot, record):
    """What `lines mce` prints, and its status."""
    record = record[:MOST_OF_MCE]
    unread = f"# unread mce bytes={len(record)}\n", 0
    if len(record) not in MCE_LENGTHS:
        return unread
    status, misc, addr, mcg, _, tsc, seconds, vendor, *_, bank, _, _, cpu, _, _, cap = MCE.unpack_from(record)
    if cpu > 65_535:
        return unread
    if vendor:
        return VENDOR.format(vendor, cpu, bank), 0
    if not bit(status, reports.VAL):
        return f"# no error cpu={cpu} bank={bank}\n", 0
    if bank == 255:
        return FIRMWARE.format(cpu), 0
    return Names().line(boot, seconds, cpu, bank, tsc, cap, mcg, status, addr, misc), 0


# ---- the log as lines of a script

LOG_MARK = b"mce: " + MARKER
KINDS = (b"CPU", b"TSC", b"PROCESSOR")
LAST_SECOND = 10**12 - 1
NAME = rb"[A-Za-z0-9._-]+"
NAMES = rb"[A-Za-z0-9._ -]*"
TIME = rb"(?=[:.,+TZ-]*[0-9])[0-9:.,+TZ-]+"
CLOCK = rb"(?=[^\]]*[0-9])[A-Za-z0-9._ :+<>-]+"
BRACKETS = rb"\[%s\](?: | ?\[ *[TC][0-9]*\] )" % CLOCK
# What may stand right before a message: nothing, brackets, a level and brackets, or a time by ISO 8601.
ALONE = re.compile(rb"(?:(?:<[0-9]+>)?%s)?|[0-9:.,+TZ-]{10}T[0-9:.,+TZ-]* ?" % BRACKETS)
# What may stand before ` kernel: `, so that the line is of a log that others pass on.
DATED = re.compile(
    rb"\[%s\](?: %s)?|%s(?: %s)?|%s +%s %s(?: %s)?" % (CLOCK, NAME, TIME, NAMES, NAME, TIME, TIME, NAMES)
)
# The head of a record of /dev/kmsg: level, sequence, microseconds, flags.
RECORD = re.compile(rb"[0-9]+,[0-9]+,([0-9]+),[A-Za-z0-9._,=+-]*;")


def is_own(head):
    """Whether this before the mark says that the line is the kernel's own."""
    logger, colon, rest = head.partition(b": ")
    if not colon:
        return bool(ALONE.fullmatch(head) or RECORD.fullmatch(head))
    is_level = re.fullmatch(rb"kern  :" + NAMES, logger)
    is_logger = is_level or logger.endswith(b" kernel") and DATED.fullmatch(logger[:-7])
    return bool(is_logger and ALONE.fullmatch(rest))


def stamp_in(head):
    """The microseconds of a record's head, or in the first brackets of another, or none."""
    if record := RECORD.fullmatch(head):
        micros = record[1]
        return int(micros) if len(micros) <= 20 and int(micros) < 10**18 else None
    _, _, text = head.partition(b"[")
    stamp = re.fullmatch(rb" *([0-9]{1,20})\.([0-9]{6})", text.partition(b"]")[0])
    return int(stamp[1]) * SECOND + int(stamp[2]) if stamp and int(stamp[1]) <= LAST_SECOND else None


def is_behind(border, stamp):
    """Whether a time stamp stands at a border or behind it."""
    return None not in (border, stamp) and border <= stamp


# EDAC's drivers for Intel's memory controllers print a line for each register, skx's with 0x before numbers in hexadecimal.
EDAC_MARK = b"EDAC "
DRIVER = re.compile(rb"(?:skx|sbridge|pnd2) MC[0-9]+: (.*)", re.S)
EDAC_KINDS = {"start": b"CPU", "tsc": b"TSC", "addr": b"ADDR", "misc": b"MISC", "processor": b"PROCESSOR"}
REGISTER = rb"(?:0x)?" + HEX
EDAC_FORMS = {
    "start": rb"CPU %s: Machine Check (?:Event|Exception): %s Bank %s: %s *" % (DECIMAL, REGISTER, DECIMAL, REGISTER),
    "tsc": rb"TSC %s *" % REGISTER, "addr": rb"ADDR %s *" % REGISTER, "misc": rb"MISC %s *" % REGISTER,
    "processor": rb"PROCESSOR %s:%s TIME %s (.*)" % (DECIMAL, REGISTER, DECIMAL),
}  # fmt: skip
# Which line of EDAC's follows which.
NEXT_OF_EDAC = {"start": "tsc", "tsc": "addr", "addr": "misc", "misc": "processor", "processor": None}


def edac_told(kind, text):
    """What a line of a report of EDAC tells, of this kind."""
    found = re.fullmatch(EDAC_FORMS[kind], text, re.S)
    check(found)
    if kind == "start":
        cpu, mcg, bank, status = found.groups()
        numbers = [decimal_of(cpu, 65_535), int(mcg, 16), decimal_of(bank, 255), int(status, 16)]
    elif kind == "processor":
        numbers = [decimal_of(found[1]), decimal_of(found[3])]
    else:
        numbers = [int(found[1], 16)]
    check(None not in numbers)
    return kind, *numbers


class LogLines:
    """The report in work, and the names that EDAC and the kernel gave."""

    def __init__(self, boot, cap, border=None):
        self.boot, self.cap = boot, cap
        # from when on a trace has machine checks too, and when the line was printed
        self.border, self.stamp = border, None
        self.start = self.tsc = None
        # EDAC's registers so far, and the kind of its next line; None if no report of EDAC is in work
        self.registers, self.awaited, self.by_edac = [], None, False
        self.names = {True: Names(), False: Names()}

    def begin(self, start, by_edac=False):
        """Begins a report, or none; what is told of the one before, if that isn't whole."""
        text = PARTIAL.format(self.start[1], self.start[3]) if self.start else ""
        self.start, self.tsc, self.by_edac = start, None, by_edac
        self.registers, self.awaited = [], "tsc" if by_edac else None
        return text

    def whole(self, number, vendor, seconds):
        """What is told of a report that is whole, at the line of this number."""
        (_, cpu, mcg, bank, status), (_, tsc, addr, misc) = self.start, self.tsc
        self.start = None
        if vendor:
            return VENDOR.format(vendor, cpu, bank)
        if not bit(status, reports.VAL):
            return ""
        if bank == 255:
            return FIRMWARE.format(cpu)
        is_torn = bit(status, reports.ADDRV) and addr == 0
        status ^= is_torn << reports.ADDRV
        names = self.names[self.by_edac]
        line = names.line(self.boot, seconds, cpu, bank, tsc, self.cap, mcg, status, addr, misc)
        if is_torn:
            bank_line = line.removeprefix(FULL)
            is_made = int(bank_line.split()[5]) >= LEAST_MADE
            return TORN.format(number) + ("" if is_made and is_behind(self.border, self.stamp) else bank_line)
        return line

    def take_edac(self, number, head, text):
        """What is told as a line of EDAC's is read: of its three registers the last one tells all."""
        driver = DRIVER.fullmatch(text)
        words = driver[1].split(b" ") if driver else [b""]
        kind = next((it for it, word in EDAC_KINDS.items() if word == words[0]), None)
        if kind is None:
            return ""
        check(is_own(head))
        kind, *numbers = edac_told(kind, driver[1])
        if kind == "start":
            return self.begin((kind, *numbers), True)
        check(kind == self.awaited)
        self.awaited = NEXT_OF_EDAC[kind]
        if kind == "processor":
            return self.whole(number, *numbers)
        self.registers += numbers
        if kind == "misc":
            self.tsc = ("tsc", *self.registers)
        return ""

    def take(self, number, told):
        """What is told as a line of a report is read; one for which the report has no place can't be read."""
        kind, *numbers = told
        if kind == "start":
            return self.begin(told)
        check(self.start and not self.awaited and (self.tsc is None) == (kind == "tsc"))
        if kind == "tsc":
            self.tsc = told
            return ""
        return self.whole(number, *numbers)

    def text(self, number, line):
        """What is printed of a line, and of the log's end, which has no number."""
        if number is None:
            return self.begin(None)
        self.stamp = stamp_in(line.partition(LOG_MARK if LOG_MARK in line else EDAC_MARK)[0])
        try:
            if LOG_MARK not in line and EDAC_MARK in line:
                head, _, text = line.partition(EDAC_MARK)
                return self.take_edac(number, head, text)
        except Unreadable:
            return UNREAD.format(number)
        head, mark, text = line.partition(LOG_MARK)
        words = text.split(b" ")
        if not mark or words[0] not in KINDS:
            return ""
        told = told_by(text)
        try:
            check(is_own(head) and told)
            check(words[0] != b"PROCESSOR" or len(words) > 4)
            return self.take(number, told)
        except Unreadable:
            return UNREAD.format(number)


def lines_klog(boot, cap, log):
    """What `lines klog` prints, and its status."""
    return printed(log, LogLines(boot, cap).text)
