"""The record store: its file, the device that keeps it, the table by which it is used, and panic records."""
import dataclasses
import struct
import uuid

from reference import reports
from reference.base import Bytes, Fault, Refused, Stop, Unreadable, check
from reference.reports import bit, number_at, refuse

MAGIC = b"RASERST1"
MOST_RECORDS = 1_024
MOST_IN_RECORD = 16_384
ALL_ONES = 2**64 - 1


# ---- the store's file


def read_store(data):
    """The records of a store's file, by their identifiers."""
    source, records = Bytes(data), {}
    check(source.take(len(MAGIC)) == MAGIC)
    for _ in range(source.number(4, most=MOST_RECORDS)):
        identifier = source.number(8, 1, ALL_ONES - 1)
        check(identifier not in records)
        records[identifier] = source.take(source.number(4, most=MOST_IN_RECORD))
    check(source.at == len(data))
    return records


def bytes_of_store(records):
    """The file of a store."""
    parts = [struct.pack("<QI", identifier, len(data)) + data for identifier, data in records.items()]
    return MAGIC + struct.pack("<I", len(records)) + b"".join(parts)


class Device:
    """The record store of a disk, which is read at its first use. What can't be read is a fault of the device."""

    def __init__(self, disk):
        self.disk, self.held = disk, None

    def records(self):
        """The records by their identifiers, in the order in which they came."""
        if self.held is None:
            data = self.disk.read_store()
            try:
                self.held = {} if data is None else read_store(data)
            except Unreadable:
                raise Fault(5) from None
        return self.held

    def is_full_for(self, identifier):
        """Whether the store has no room for a record of this identifier."""
        records = self.records()
        return identifier not in records and len(records) >= MOST_RECORDS

    def put(self, identifier, data):
        """Takes a record, in the place of one of the same identifier."""
        records = self.records()
        check(identifier not in (0, ALL_ONES), Refused("put.1"))
        check(len(data) <= MOST_IN_RECORD, Refused("put.2"))
        check(not self.is_full_for(identifier), Refused("put.3"))
        records[identifier] = data
        self.disk.replace_store(bytes_of_store(records))

    def write(self, identifier, data):
        """Takes a record by the operation of the table."""
        check(not self.is_full_for(identifier), Stop(11, "code=1"))
        self.put(identifier, data)

    def clear(self, identifier):
        """Drops a record."""
        del self.records()[identifier]
        self.disk.replace_store(bytes_of_store(self.records()))


# ---- the table

ACTION, VALUE = 0xF000_0000, 0xF000_0008
BEGIN_READ, SET_OFFSET, EXECUTE, CHECK_BUSY, GET_STATUS, GET_ID, SET_ID, GET_COUNT = 1, 4, 5, 6, 7, 8, 9, 10
READ, READ_VALUE, WRITE, WRITE_VALUE, NOOP, LOAD_1, LOAD_2, STORE_1, ADD, SUBTRACT, ADD_VALUE, SUBTRACT_VALUE, STALL = (
    range(13)
)
WITHOUT_REGISTER = {NOOP, ADD, SUBTRACT, STALL, 15}
IDLE = {NOOP, STALL, LOAD_1, LOAD_2, ADD, SUBTRACT}
WRITERS = {WRITE, WRITE_VALUE, STORE_1, ADD_VALUE, SUBTRACT_VALUE}
# The bits of an answer, and of a value that is set, that an action needs.
ANSWERED = {CHECK_BUSY: 1, GET_STATUS: 0xFF, GET_ID: ALL_ONES, GET_COUNT: 2**32 - 1}
SET = {SET_OFFSET: 2**32 - 1, SET_ID: ALL_ONES}


@dataclasses.dataclass
class Instruction:
    """An entry of the table."""

    action: int
    number: int
    keeps: bool
    space: int
    offset: int
    address: int
    value: int
    mask: int

    def is_good(self):
        """Whether its register is one of the device, where it uses one."""
        is_register = self.space == 0 and self.address in (ACTION, VALUE) and self.offset <= 63
        return self.number in WITHOUT_REGISTER or is_register

    def writes(self, address):
        """Whether it writes this register."""
        return self.number in WRITERS and self.address == address

    def is_plain(self, number, address, bits=0):
        """Whether it is this instruction on all of this register, with these bits among its mask's."""
        is_same = (self.number, self.address, self.offset) == (number, address, 0)
        return is_same and self.mask & bits == bits


def read_erst(data):
    """The entries of an ERST."""
    table = reports.check_table(data, b"ERST", 48)
    refuse(5, number_at(table, 36, 4) not in (12, 48))
    count = number_at(table, 44, 4)
    refuse(6, 48 + 32 * count > len(table))
    entries = []
    for place in range(48, 48 + 32 * count, 32):
        action, number, flags, _, space, _, offset, _, *rest = struct.unpack_from("<8B3Q", table, place)
        entries.append(Instruction(action, number, bool(flags & 1), space, offset, *rest))
    return entries


def is_admitted_list(action, entries):
    """Whether these entries do this action, by the rules of admission."""
    if len(entries) > 4_096 or not all(it.is_good() for it in entries):
        return False
    commands = [place for place, it in enumerate(entries) if it.writes(ACTION)]
    if len(commands) != 1:
        return False
    command = entries[commands[0]]
    if not command.is_plain(WRITE_VALUE, ACTION) or command.keeps or command.value & command.mask != action:
        return False
    before, after = entries[: commands[0]], entries[commands[0] + 1 :]
    if action in ANSWERED:
        *after, answer = after or [command]
        is_equal = action == CHECK_BUSY and answer.is_plain(READ_VALUE, VALUE, 1) and answer.value == 1
        if not is_equal and not answer.is_plain(READ, VALUE, ANSWERED[action]):
            return False
    values = [it for it in before if it.writes(VALUE) and not it.keeps]
    if action in SET:
        if len(values) != 1 or not values[0].is_plain(WRITE, VALUE, SET[action]):
            return False
    elif not all(action == EXECUTE and it.number == WRITE_VALUE for it in values):
        return False
    return all(it.number in IDLE for it in before + after if not any(it is value for value in values))


def is_admitted(entries):
    """Whether a table's actions up to the count of records are those of the device."""
    lists = [[it for it in entries if it.action == action] for action in range(GET_COUNT + 1)]
    return all(is_admitted_list(action, it) for action, it in enumerate(lists))


# ---- stored records

REASONS = {1: "short", 2: "signature", 3: "length", 4: "descriptor", 5: "section-out", 6: "section"}
PANIC = uuid.UUID("7a6d1f02-52c4-4d1e-9b0a-3c5e8f714d20")
PANIC_BANK = struct.Struct("<8QHB5x")


def sections_of(identifier, data):
    """The sections of a stored record; where it can't be read under its identifier, a refusal with its reason."""
    try:
        own, sections = reports.read_record(data.ljust(MOST_IN_RECORD, b"\0"))
    except reports.Refused as end:
        raise Refused(REASONS[end.args[0]]) from None
    check(own == identifier, Refused("identifier"))
    return sections


def sections_of_panic(bank):
    """The two sections of the panic record of a bank's report."""
    boot, seconds, cpu, number, tsc, cap, mcg, status, addr, misc = bank
    own = PANIC_BANK.pack(boot, seconds, tsc, cap, mcg, status, addr, misc, cpu, number)
    context = struct.pack("<HHIQ4Q", 1, 32, 0x400 + 4 * number, 0, 0, status, addr, misc)
    return own, struct.pack("<Q", 0x100).ljust(64, b"\0") + context


def panic_record(identifier, bank):
    """A bank's report as a record for the store."""
    check(identifier not in (0, ALL_ONES), Refused("panic.1"))
    check(bit(bank[7], reports.VAL), Refused("panic.2"))
    sections, place = sections_of_panic(bank), 128 + 2 * 72
    head = b"CPER\0\1" + 4 * b"\xff" + struct.pack("<HIII", 2, 1, 0, 456)
    head = head.ljust(96, b"\0") + struct.pack("<Q", identifier).ljust(32, b"\0")
    for guid, section in zip((PANIC, reports.X64), sections):
        start = struct.pack("<II8x16s16xI", place, len(section), guid.bytes_le, 1)
        head, place = head + start.ljust(72, b"\0"), place + len(section)
    return head + b"".join(sections)


def panic_of(sections):
    """The bank's report that sections are the panic record of, or None."""
    if len(sections) != 2 or sections[0].guid != PANIC or len(sections[0].data) != PANIC_BANK.size:
        return None
    boot, seconds, tsc, cap, mcg, status, addr, misc, cpu, number = PANIC_BANK.unpack(sections[0].data)
    bank = (boot, seconds, cpu, number, tsc, cap, mcg, status, addr, misc)
    own, other = sections_of_panic(bank)
    is_whole = sections[0].data == own and sections[1].guid == reports.X64 and sections[1].data == other
    return bank if is_whole and bit(status, reports.VAL) else None
