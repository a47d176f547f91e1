"""Worked rows of the record store: tables, puts, polls and panic records, whose answers were worked out by hand."""
import re
import struct

import model
from reference import reports, store
from reference.base import Unreadable
from reference.journal import Disk, recover
from reference.rows import EVERYDAY, LOGGED, MEMORY_TYPE, bytes_at, expect, with_bytes
from reference.run import Run

ONES = 16 * "f"

# A record of 353 bytes: a memory section of the older form, and one of an unknown type.
RECORD = bytes_at(353, {
    0: "43 50 45 52 00 01 FF FF FF FF 02 00 02 00 00 00", 20: "61 01 00 00", 96: "05",
    128: "10 01 00 00 49 00 00 00", 144: MEMORY_TYPE, 176: "02",
    200: "59 01 00 00 08 00 00 00", 216: "33 22 11 00 55 44 77 66 88 99 AA BB CC DD EE FF", 248: "03",
    272: "02 40", 288: "00 00 00 40", 344: "02",
})  # fmt: skip
RECORD_7 = with_bytes(RECORD, {96: "07"})
SECTION_OUT = with_bytes(RECORD, {204: "09"})
RECORD_LOGGED = (
    "log record=000000000000000{0} t={1} class=corrected weight=1 label=- page=0000000040000000 memory"
    " type=single-bit-ecc node=- card=- module=- mask=-\n"
    "log record=000000000000000{0} t={1} class=informational weight=1 label=- page=-"
    " section=00112233-4455-6677-8899-aabbccddeeff\n"
)


def entry(action, instruction, register="Action", value=0, mask=store.ALL_ONES, flags=0, space=0, offset=0):
    """An entry of a table, of 32 bytes."""
    address = {"Action": store.ACTION, "Value": store.VALUE}.get(register, register)
    start = struct.pack("<8B", action, instruction, flags, 0, space, 0x40, offset, 4)
    return start + struct.pack("<3Q", address, value, mask)


def table(lists, header=48):
    """A table of the entries of each action, in order, whose bytes sum to 0."""
    entries = [it for action in sorted(lists) for it in lists[action]]
    head = b"ERST" + struct.pack("<I", 48 + 32 * len(entries)) + bytes(28) + struct.pack("<III", header, 0, len(entries))
    whole = head + b"".join(entries)
    return with_bytes(whole, {9: f"{-sum(whole) % 256:02x}"})


def command(action):
    """The entry that gives the device its command."""
    return entry(action, store.WRITE_VALUE, "Action", action)


# The lists of the plainest table that is admitted.
LISTS = {action: [command(action)] for action in range(4)}
LISTS[4] = [entry(4, store.WRITE, "Value"), command(4)]
LISTS[5] = [entry(5, store.WRITE_VALUE, "Value", 0x9C), command(5)]
LISTS[6] = [command(6), entry(6, store.READ_VALUE, "Value", 1)]
LISTS |= {action: [command(action), entry(action, store.READ, "Value")] for action in (7, 8, 10)}
LISTS[9] = [entry(9, store.WRITE, "Value"), command(9)]

PLAIN = table(LISTS)
NOT_ADMITTED = table(LISTS | {1: [entry(1, store.WRITE_VALUE, "Action", 2)]})
SLOW_BEGIN = [
    entry(1, store.NOOP, 0, mask=0), entry(1, store.STALL, 0, 10, mask=0),
    entry(1, store.LOAD_1, "Value", offset=8), command(1),
]  # fmt: skip
WITH_OTHERS = table(LISTS | {1: SLOW_BEGIN})


def changed(action, *entries):
    """The plain table with another list of this action."""
    return table(LISTS | {action: list(entries)})


READ, WRITE, WRITE_VALUE, READ_VALUE = store.READ, store.WRITE, store.WRITE_VALUE, store.READ_VALUE
# Tables that are admitted besides, each with what it shows.
ADMITTED = {
    "the plain one": PLAIN,
    "idle instructions": WITH_OTHERS,
    "a header size of 12": table(LISTS, 12),
    "the actions from the last to the first": PLAIN[:48] + b"".join(
        it for action in sorted(LISTS, reverse=True) for it in LISTS[action]
    ),
    "the mask of the offset": changed(4, entry(4, WRITE, "Value", mask=2**32 - 1), command(4)),
    "the masks of answers": table(LISTS | {
        action: [command(action), entry(action, READ, "Value", mask=mask)]
        for action, mask in ((6, 1), (7, 0xFF), (10, 2**32 - 1))
    }),
    "whether it is busy as a number": changed(6, command(6), entry(6, READ, "Value")),
    "whether it is busy by one bit": changed(6, command(6), entry(6, READ_VALUE, "Value", 1, mask=1)),
    "a command by its masked value": changed(1, entry(1, WRITE_VALUE, "Action", 0xF1, mask=0xF)),
    "the widths and the reserved byte": changed(1, with_bytes(command(1), {3: "FF", 5: "08 00 01"})),
    "other flags": changed(1, entry(1, WRITE_VALUE, "Action", 1, flags=0xFE)),
    "no value before it is done": changed(5, command(5)),
    "two values before it is done": changed(
        5, *2 * [entry(5, WRITE_VALUE, "Value", 7, mask=0xF, offset=60)], command(5)
    ),
    "sums between": changed(3, entry(3, 5, "Action", offset=63), entry(3, 6, "Value"), entry(3, 8, 1), entry(3, 9, 1),
                            command(3), entry(3, 12, 1, space=9)),
    "an idle entry before the answer": changed(8, command(8), entry(8, 4), entry(8, READ, "Value")),
    "actions past the count of records, as they may be": table(LISTS | {
        11: [entry(11, 15)], 12: [entry(12, 0xFF, 5, space=3)], 0x20: [entry(0x20, 3, 1)],
    }),
}  # fmt: skip
# Tables that read and aren't admitted.
REFUSED = {
    "another command": NOT_ADMITTED,
    "no entries": table({}),
    **{f"no list of action {it}": table({k: v for k, v in LISTS.items() if k != it}) for it in range(11)},
    "its command twice": changed(1, command(1), command(1)),
    "a command that keeps bits": changed(1, entry(1, WRITE_VALUE, "Action", 1, flags=1)),
    "a command at an offset": changed(1, entry(1, WRITE_VALUE, "Action", 1, offset=1)),
    "a command of 0 at an offset": changed(0, entry(0, WRITE_VALUE, "Action", 0, offset=1)),
    "a command that the mask cuts": changed(3, entry(3, WRITE_VALUE, "Action", 3, mask=1)),
    "a command with a bit more": changed(3, entry(3, WRITE_VALUE, "Action", 0x103)),
    "a command that is the input": changed(0, entry(0, WRITE, "Action")),
    "a command of a variable": changed(0, entry(0, 7, "Action")),
    "a command by a sum": changed(1, entry(1, 10, "Action", 1)),
    "a command in the value's register": changed(1, entry(1, WRITE_VALUE, "Value", 1)),
    "a jump": changed(1, entry(1, 15, 0, 0)),
    "a jump behind the command": changed(1, command(1), entry(1, 15, 0, 0)),
    "a skip": changed(1, command(1), entry(1, 14, "Value", 1)),
    "a wait": changed(1, entry(1, 13, "Value", 1), command(1)),
    "an unknown instruction": changed(1, command(1), entry(1, 0x13)),
    "a move": changed(1, command(1), entry(1, 0x12, "Value")),
    "a source": changed(1, command(1), entry(1, 0x10, "Value")),
    "an answer where none is": changed(1, command(1), entry(1, READ, "Value")),
    "a value in a beginning": changed(1, entry(1, WRITE_VALUE, "Value", 1), command(1)),
    "a value after its command": changed(5, command(5), entry(5, WRITE_VALUE, "Value", 0x9C)),
    "a value that keeps bits": changed(5, entry(5, WRITE_VALUE, "Value", 0x9C, flags=1), command(5)),
    "the input as a value": changed(5, entry(5, WRITE, "Value"), command(5)),
    "an identifier after its command": changed(9, command(9), entry(9, WRITE, "Value")),
    "an identifier of 32 bits": changed(9, entry(9, WRITE, "Value", mask=2**32 - 1), command(9)),
    "an identifier that keeps bits": changed(9, entry(9, WRITE, "Value", flags=1), command(9)),
    "an identifier at an offset": changed(9, entry(9, WRITE, "Value", offset=1), command(9)),
    "an identifier twice": changed(9, *2 * [entry(9, WRITE, "Value")], command(9)),
    "a fixed identifier": changed(9, entry(9, WRITE_VALUE, "Value", 5), command(9)),
    "an offset of 31 bits": changed(4, entry(4, WRITE, "Value", mask=2**31 - 1), command(4)),
    "an answer before its command": changed(8, entry(8, READ, "Value"), command(8)),
    "an answer that isn't the last": changed(8, command(8), entry(8, READ, "Value"), entry(8, 4)),
    "an answer twice": changed(8, command(8), *2 * [entry(8, READ, "Value")]),
    "an answer of the command": changed(8, command(8), entry(8, READ, "Action")),
    "an answer at an offset": changed(8, command(8), entry(8, READ, "Value", offset=8)),
    "an identifier's answer of 63 bits": changed(8, command(8), entry(8, READ, "Value", mask=2**63 - 1)),
    "a status of 7 bits": changed(7, command(7), entry(7, READ, "Value", mask=0x7F)),
    "a status by comparison": changed(7, command(7), entry(7, READ_VALUE, "Value", 1)),
    "a count of 31 bits": changed(10, command(10), entry(10, READ, "Value", mask=2**31 - 1)),
    "whether it is busy without its bit": changed(6, command(6), entry(6, READ, "Value", mask=2**64 - 2)),
    "whether it is not busy": changed(6, command(6), entry(6, READ_VALUE, "Value", 0)),
    "whether it is busy, compared without its bit": changed(6, command(6), entry(6, READ_VALUE, "Value", 1, mask=2)),
    "a register in ports": changed(1, entry(1, WRITE_VALUE, "Action", 1, space=1)),
    "a register elsewhere": changed(1, entry(1, WRITE_VALUE, store.ACTION + 4, 1)),
    "a load from elsewhere": changed(1, entry(1, 5, 0), command(1)),
    "a load at offset 64": changed(1, entry(1, 5, "Value", offset=64), command(1)),
}
# Tables that don't read, with the number of their reason.
UNREAD = {
    "the first byte": (PLAIN[:1], 1),
    "47 bytes": (PLAIN[:47], 1),
    "48 bytes": (PLAIN[:48], 3),
    "all but a byte": (PLAIN[:-1], 3),
    "another signature": (with_bytes(PLAIN, {0: "48 45 53 54"}), 2),
    "another signature and fewer bytes than its length": (with_bytes(PLAIN, {0: "48"})[:60], 2),
    "a length of 47": (with_bytes(PLAIN, {4: "2F 00"}), 3),
    "a length past the end, and a wrong sum": (with_bytes(PLAIN, {4: "71 02"}), 3),
    "a wrong sum": (with_bytes(PLAIN, {9: "5A"}), 4),
    "a wrong sum and header size": (with_bytes(PLAIN, {36: "31"}), 4),
    "a header size of 49": (with_bytes(PLAIN, {9: "58", 36: "31"}), 5),
    "a header size past a byte": (with_bytes(PLAIN, {9: "58", 37: "01"}), 5),
    "an entry more than there are, and a header size": (with_bytes(PLAIN, {9: "57", 36: "31", 44: "13"}), 5),
    "an entry more than there are": (with_bytes(PLAIN, {9: "58", 44: "13"}), 6),
    "the most entries": (with_bytes(PLAIN, {9: "6F", 44: "FF FF FF FF"}), 6),
}


def stored(*records):
    """The file of a store of these records."""
    return store.bytes_of_store(dict(records))


def gives(script, printed, status=0, files=(None, None), held=None, left=None):
    """Runs a script over a store's file, which must print this, end so, and leave this in that file."""
    outcome = model.run(script.encode(), files, store=held)
    expect(outcome.printed.decode(), printed)
    expect(outcome.status, status)
    expect(outcome.store, held if left is None else left)
    return outcome


def put(identifier, data):
    """A line `put`."""
    return f"put {identifier:x} {data.hex()}\n"


TABLE = f"erst {PLAIN.hex()}\n"


def samples():
    """The records and the tables that were written out by hand."""
    expect((len(PLAIN), PLAIN[:11].hex(), PLAIN[36], PLAIN[44]), (624, "45525354700200000059" + "00", 0x30, 0x12))
    expect(NOT_ADMITTED[9], 0x58)
    expect((len(WITH_OTHERS), WITH_OTHERS[44], sum(WITH_OTHERS) % 256), (720, 21, 0))
    expect([len(store.read_erst(it)) for it in (PLAIN, NOT_ADMITTED, WITH_OTHERS)], [18, 18, 21])
    expect(reports.read_record(RECORD)[0], 5)


def tables():
    """Tables that are admitted, tables that aren't, and tables that don't read."""
    for what, data in ADMITTED.items():
        expect((what, store.is_admitted(store.read_erst(data))), (what, True))
        gives(f"erst {data.hex()}\n", "done 1\nend entries=0 names=0\n")
    for what, data in REFUSED.items():
        expect((what, store.is_admitted(store.read_erst(data))), (what, False))
    gives(f"erst {NOT_ADMITTED.hex()}\n", "stop 9 line=1\n", 9)
    cuts = {f"{size} bytes": (PLAIN[:size], 1 if size < 48 else 3) for size in range(1, 624)}
    for what, (data, number) in (UNREAD | cuts).items():
        printed = model.run(f"erst {data.hex()}".encode()).printed.decode()
        expect((what, printed), (what, f"stop 2 line=1 reason=erst.{number}\n"))


def puts():
    """A record that is new, one in the place of another, and each that is refused."""
    six = stored((6, b"\0"))
    expect(six.hex(), "5241534552535431010000000600000000000000" + "0100000000")
    gives("put 6 00\n", "done 1\nend entries=0 names=0\n", left=six)
    script, end = "put 6 00\nput 5 01\nput 6 0203\n", "end entries=0 names=0\n"
    gives(script, f"done 1\ndone 2\ndone 3\n{end}", left=stored((6, b"\2\3"), (5, b"\1")))
    lines = {
        "put 1 0g": "line.4", "put 1": "line.2", "put x 00": "line.3", "put 1 000": "line.4", "put 0 00": "put.1",
        f"put {ONES} 00": "put.1", put(0, bytes(16_385)): "put.1", put(6, bytes(16_385)): "put.2",
    }  # fmt: skip
    for line, reason in lines.items():
        gives(line, f"stop 2 line=1 reason={reason}\n", 2, held=six)
    most = bytes(range(256)) * 64
    gives(put(6, most), f"done 1\n{end}", held=six, left=stored((6, most)))
    full = [(number, b"") for number in range(1, 1_025)]
    gives("put 500 01\n", "stop 2 line=1 reason=put.3\n", 2, held=stored(*full))
    gives(put(1025, bytes(16_385)), "stop 2 line=1 reason=put.2\n", 2, held=stored(*full))
    gives("put 400 01\n", f"done 1\n{end}", held=stored(*full), left=stored(*full[:-1], (1024, b"\1")))


# The records of a file that is as long as one may be: as many of them, and each of as many bytes, as a store takes.
LONGEST = [(number, bytes(16_384)) for number in range(1, 1_025)]

# Store files that are none, each with what it shows.
SIX = stored((6, b"\0"))
MALFORMED = {
    **{f"{size} bytes": SIX[:size] for size in range(25)},
    "a byte behind it": SIX + b"\0",
    "other letters": with_bytes(SIX, {7: "32"}),
    "a record less than it says": with_bytes(SIX, {8: "02"}),
    "a record more than it says": with_bytes(SIX, {8: "00"}),
    "the identifier 0": with_bytes(SIX, {12: "00"}),
    "the identifier of all ones": with_bytes(SIX, {12: "FF FF FF FF FF FF FF FF"}),
    "a length past the end": with_bytes(SIX, {20: "02"}),
    "16,385 bytes": with_bytes(SIX, {20: "01 40 00 00"}) + bytes(16_384),
    "an identifier twice": with_bytes(SIX, {8: "02"}) + SIX[12:],
    "1,025 records": stored(*((number, b"") for number in range(1, 1_026))),
    "a byte behind the longest file": stored(*LONGEST) + b"\0",
}


def malformed_stores():
    """A store's file that is none is a fault of the device at its first use, and before that it doesn't matter."""
    for what, held in MALFORMED.items():
        try:
            store.read_store(held)
        except Unreadable:
            continue
        expect(what, "malformed")
    gives(EVERYDAY + "put 5 00\n", LOGGED.format("-") + "done 1\n", 5, held=SIX[:24])
    gives(TABLE + "restart\npoll 1\n", "done 1\ndone 2\n", 5, held=SIX[:24])
    gives(TABLE + PANIC, "done 1\n", 5, held=SIX[:24])
    gives("poll 1\n", "stop 9 line=1\n", 9, held=SIX[:24])
    gives(f"{TABLE}restart\n", "done 1\ndone 2\nend entries=0 names=0\n", held=SIX[:24])


def a_poll():
    """A record of two sections, one of which can't be read, and a poll without a table."""
    end = "done 3\nend entries=1 names=1\n"
    gives(TABLE + put(5, RECORD) + "poll 300\n", "done 1\ndone 2\n" + RECORD_LOGGED.format(5, 300) + end, left=stored())
    told = "unreadable record=0000000000000005 reason=section-out\ndone 3\nend entries=0 names=0\n"
    gives(TABLE + put(5, SECTION_OUT) + "poll 300\n", "done 1\ndone 2\n" + told, left=stored((5, SECTION_OUT)))
    gives("poll 1\n", "stop 9 line=1\n", 9)
    gives(TABLE + "poll 1\n", "done 1\ndone 2\nend entries=0 names=0\n")


def polls():
    """A record that is known, one that can't be read, and one that is new, in the order of the store."""
    script = TABLE + put(7, RECORD_7) + "poll 300\n" + put(5, RECORD) + "put 6 00\n" + put(7, RECORD_7) + "poll 400\n"
    last = RECORD_LOGGED.format(5, 400) + "unreadable record=0000000000000006 reason=signature\n"
    last += "repeat record=0000000000000007\ndone 7\nend entries=2 names=2\n"
    first = "done 1\ndone 2\n" + RECORD_LOGGED.format(7, 300) + "done 3\ndone 4\ndone 5\ndone 6\n"
    gives(script, first + last, left=SIX)


def one_link_for_a_poll():
    """Two records of one poll make one link."""
    script = TABLE + put(5, RECORD) + put(7, RECORD_7) + "poll 300\n"
    text = "done 1\ndone 2\ndone 3\n" + RECORD_LOGGED.format(5, 300) + RECORD_LOGGED.format(7, 300)
    outcome = gives(script, text + "done 4\nend entries=2 names=2\n", left=stored())
    kinds = [it[0] for it in outcome.calls[10:]]
    expect(kinds, ["WriteAt", "Sync", "WriteAt", "Sync"])


def reasons():
    """Each reason for which a record can't be read."""
    records = {
        "signature": with_bytes(RECORD, {3: "00"}), "length": with_bytes(RECORD, {20: "7F 00"}),
        "descriptor": with_bytes(RECORD, {10: "04"}), "section-out": SECTION_OUT,
        "section": with_bytes(RECORD, {132: "48"}), "identifier": RECORD_7,
    }  # fmt: skip
    records |= {"signature ": bytes(1), "length ": with_bytes(RECORD, {20: "01 40"})}
    for reason, data in records.items():
        told = f"unreadable record=0000000000000005 reason={reason.strip()}\n"
        script = TABLE + put(5, data) + "poll 300\n"
        gives(script, f"done 1\ndone 2\n{told}done 3\nend entries=0 names=0\n", left=stored((5, data)))
    longest = with_bytes(RECORD, {20: "00 40"})
    text = "done 1\ndone 2\n" + RECORD_LOGGED.format(5, 300) + "done 3\nend entries=1 names=1\n"
    gives(TABLE + put(5, longest) + "poll 300\n", text, left=stored())


BANK = "1 100 0 4 3 1000c14 4 be00000000800400 0 0"
PANIC = f"panic 9 {BANK}\n"
PANIC_LOGGED = (
    "log bank=1/0/4/3 t=100 class=UC weight=1 label=- page=- code=internal-timer threshold=- over=0 mark=- ripv=0"
    " eipv=0 mcip=1\n"
)
BANK_NUMBERS = (1, 100, 0, 4, 3, 0x1000C14, 4, 0xBE00000000800400, 0, 0)
PANIC_RECORD = bytes_at(456, {
    0: "43 50 45 52 00 01 FF FF FF FF 02 00 01 00 00 00", 20: "C8 01 00 00", 96: "09",
    128: "10 01 00 00 48 00 00 00", 144: "02 1F 6D 7A C4 52 1E 4D 9B 0A 3C 5E 8F 71 4D 20", 176: "01",
    200: "58 01 00 00 70 00 00 00", 216: "B0 A0 3E DC 44 A1 97 47 B9 5B 53 FA 24 2B 6E 1D", 248: "01",
    272: "01", 280: "64", 288: "03", 296: "14 0C 00 01", 304: "04", 312: "00 04 80 00 00 00 00 BE", 338: "04",
    345: "01", 408: "01 00 20 00 10 04 00 00", 432: "00 04 80 00 00 00 00 BE",
})  # fmt: skip


def panic_records():
    """A bank's report that is saved, counted by its line, and then polled; and the other way round."""
    expect(store.panic_record(9, BANK_NUMBERS), PANIC_RECORD)
    own, sections = reports.read_record(PANIC_RECORD)
    expect((own, store.panic_of(sections)), (9, BANK_NUMBERS))
    saved, end = TABLE + PANIC, "done 5\nend entries=1 names=1\n"
    text = f"done 1\ndone 2\ndone 3\n{PANIC_LOGGED}done 4\nrepeat bank=1/0/4/3\n{end}"
    gives(f"{saved}restart\nbank {BANK}\npoll 200\n", text, left=stored())
    gives(saved, "done 1\ndone 2\nend entries=0 names=0\n", left=stored((9, PANIC_RECORD)))
    polled = f"done 1\ndone 2\n{PANIC_LOGGED}done 3\n"
    gives(f"{saved}poll 200\n", f"{polled}end entries=1 names=1\n", left=stored())
    text = f"{polled}repeat bank=1/0/4/3\ndone 4\nend entries=1 names=1\n"
    gives(f"{saved}poll 200\nbank {BANK}\n", text, left=stored())
    twice = f"{saved}panic a {BANK}\npoll 200\n"
    text = f"done 1\ndone 2\ndone 3\n{PANIC_LOGGED}repeat bank=1/0/4/3\ndone 4\nend entries=1 names=1\n"
    gives(twice, text, left=stored())
    stale = f"done 1\ndone 2\nretire boot=2 names=0\ndone 3\nstale bank=1/0/4/3\ndone 4\nend entries=1 names=0\n"
    gives(f"{saved}retire 2\npoll 200\n", stale, left=stored())


def panic_lines_that_are_refused():
    """A reserved identifier, a report that isn't valid, no table, and a store that is full."""
    silent = BANK.replace("be00", "3e00")
    for identifier, bank, number in (("0", BANK, 1), (ONES, BANK, 1), ("0", silent, 1), ("9", silent, 2)):
        for table, line in (("", 1), (TABLE, 2)):
            text = "done 1\n" * (line - 1) + f"stop 2 line={line} reason=panic.{number}\n"
            gives(f"{table}panic {identifier} {bank}\n", text, 2)
    gives(PANIC, "stop 9 line=1\n", 9)
    full = [(number, b"") for number in range(10, 1_034)]
    gives(TABLE + PANIC, "done 1\nstop 11 code=1\n", 11, held=stored(*full))
    other = [(9, b""), *full[1:]]
    gives(TABLE + PANIC, "done 1\ndone 2\nend entries=0 names=0\n", held=stored(*other),
          left=stored((9, PANIC_RECORD), *full[1:]))


def panic_records_that_are_none():
    """With another byte a panic record is an ordinary record, whose sections are told."""
    others = {
        "the last five bytes of the report": {343: "01"}, "VAL": {319: "3E"}, "the context's type": {408: "00"},
        "the context's status": {432: "01"}, "the MSR": {412: "14"}, "the validation bits": {344: "01"},
        "the counter of another report": {288: "04"},
    }  # fmt: skip
    for what, places in others.items():
        data = with_bytes(PANIC_RECORD, places)
        is_other = what == "the counter of another report"
        expect((what, store.panic_of(reports.read_record(data)[1]) is None), (what, not is_other))
    data = with_bytes(PANIC_RECORD, others["VAL"])
    text = (
        "done 1\ndone 2\n"
        "log record=0000000000000009 t=200 class=fatal weight=1 label=- page=- section={}\n"
        "log record=0000000000000009 t=200 class=fatal weight=1 label=- page=- x64 apic=- structures=0 contexts=1\n"
        "done 3\nend entries=1 names=1\n"
    )
    gives(TABLE + put(9, data) + "poll 200\n", text.format(store.PANIC), left=stored())
    # Whatever its severities, its revision and its creator are, it is one.
    kept = with_bytes(PANIC_RECORD, {4: "00 02", 12: "03", 64: "FF", 104: "01", 136: "01", 176: "02", 248: "02"})
    text = f"done 1\ndone 2\n{PANIC_LOGGED}done 3\nend entries=1 names=1\n"
    gives(TABLE + put(9, kept) + "poll 200\n", text, left=stored())


class Recorded(Disk):
    """A disk that keeps what a stop may leave at each moment: the two files, the store's, and the text."""

    def __init__(self, files, held):
        super().__init__(files, held)
        self.lefts, self.text = [], b""

    def keep(self):
        """Keeps what a stop now leaves."""
        self.lefts.append((tuple(map(bytes, self.files)), self.store, self.text))

    def write(self, file, place, data):
        before = bytes(self.files[file])
        for torn in (b"", data[: len(data) // 2], len(data) * b"\xa5"):
            self.files[file] = bytearray(before[:place] + torn + before[place + len(torn) :])
            self.keep()
        self.files[file] = bytearray(before)
        super().write(file, place, data)
        self.keep()

    def replace_store(self, data):
        super().replace_store(data)
        self.keep()

    def print(self, text):
        """Prints a text, in pieces."""
        for at in range(0, len(text), 7):
            self.text += text[at : at + 7]
            self.keep()


def stops():
    """At each moment of puts, polls and panic records each record is in the store or in the account, and told later."""
    names = {5: ("record", 5), 7: ("record", 7), 9: ("bank", 1, 0, 4, 3)}
    script = TABLE + put(5, RECORD) + put(6, SECTION_OUT) + PANIC + "poll 300\n" + put(7, RECORD_7) + "poll 400\n"
    disk = Recorded((None, None), None)
    expect(Run(disk, disk.print).take_all([script.encode()]), 0)
    end = model.run(script.encode())
    expect((disk.text, disk.store, len(disk.lefts) > 150), (end.printed, stored((6, SECTION_OUT)), True))
    for files, held, text in disk.lefts:
        known, done = recover(files)[1].names, len(re.findall(rb"^done \d+\n", text, re.M))
        laid = [it for it, line in ((5, 2), (9, 4), (7, 6)) if line <= done]
        kept = store.read_store(held) if held else {}
        expect([it for it in laid if it not in kept and names[it] not in known], [])
        polled = {it for it in (5, 9) if names[it] in known}
        expect(len(polled) in (0, 2), True)
        expect(b"log" not in text or len(polled) == 2, True)
        expect(done < 5 or len(polled) == 2 and not {5, 9} & set(kept), True)
        again = model.run(script.encode(), files, store=held)
        expect((again.status, again.store), (0, stored((6, SECTION_OUT))))
        expect(again.printed.endswith(b"end entries=3 names=3\n"), True)


ROWS = (
    samples, tables, puts, malformed_stores, a_poll, polls, one_link_for_a_poll, reasons, panic_records,
    panic_lines_that_are_refused, panic_records_that_are_none, stops,
)  # fmt: skip
