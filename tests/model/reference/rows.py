"""Worked rows: runs whose every answer was worked out by hand, and which the model must give."""
import struct

import model
from reference import reports
from reference.account import Account
from reference.base import Stop
from reference.journal import Disk, recover
from reference.run import Run

EVERYDAY = "bank 1 100 0 7 1000 1000c14 0 8c00004000010090 12345040 86\n"
LOGGED = (
    "log bank=1/0/7/1000 t=100 class=CE weight=1 label={} page=0000000012345000 code=memory:RD:0 threshold=none over=0"
    " mark=- ripv=0 eipv=0 mcip=0\n"
)
MODULE = "cpu 0 0\nmodule DIMM_A1 0 7 0\n"
EMPTY = bytes.fromhex(
    "A55241534A524E4C32 0100000000000000 4800000000000000 0A00000000000000 8051010000000000 6400000000000000"
    "8051010000000000" + 40 * "00" + "00"
)
EMPTY_OF_VERSION_1 = bytes.fromhex(
    "A55241534A524E4C31 0100000000000000 3000000000000000 0A00000000000000 8051010000000000" + 32 * "00" + "00"
)
LINK = bytes.fromhex(
    "37000000 01000000 01 0101000000000000000000 07E803000000000000 6400000000000000 0100"
    "00 0744494D4D5F4131 014523010000000000 0100 00"
)
AFTER_ONE = EMPTY[:-1] + b"\xa5" + LINK
OF_VERSION_1 = EMPTY_OF_VERSION_1[:-1] + b"\xa5" + LINK
FORMATTING = [("WriteAt", 0, 0, 1), ("Sync", 0), ("WriteAt", 0, 1, 97), ("Sync", 0), ("WriteAt", 0, 0, 1), ("Sync", 0)]
OPENING = [("Sync", 0), ("Sync", 1), ("Size", 0), ("Size", 1)]


class Recorded(Disk):
    """A disk that keeps what is written."""

    def __init__(self, files):
        super().__init__(files)
        self.writes = []

    def write(self, file, place, data):
        self.writes.append((file, place, data))
        super().write(file, place, data)


def with_bytes(data, places):
    """The same bytes but at some places."""
    data = bytearray(data)
    for place, text in places.items():
        part = bytes.fromhex(text)
        data[place : place + len(part)] = part
    return bytes(data)


def bytes_at(length, places):
    """Bytes of this length, which are 0 but at some places."""
    return with_bytes(length * b"\0", places)


MEMORY_TYPE = "14 11 BC A5 64 6F DE 4E B8 63 3E 83 ED 7C 83 B1"
BLOCK = bytes_at(172, {
    0: "12", 12: "98 00 00 00 02", 20: MEMORY_TYPE, 36: "02", 40: "00 03", 44: "50", 92: "3A 40", 108: "00 10 00 80",
    124: "01 00 00 00 02 00", 164: "02",
})  # fmt: skip
ONE_SOURCE = bytes_at(104, {0: "48 45 53 54 68", 9: "59", 36: "01", 40: "09 00 01 00"})
REPEATED_SOURCE = bytes_at(168, {0: "48 45 53 54 A8", 9: "0E", 36: "02", 40: "09 00 01 00", 104: "09 00 01 00"})
EMPTY_BERT = bytes_at(48, {0: "42 45 52 54 30", 9: "8F", 36: "14"})


def expect(got, wanted):
    """Ends where a value isn't the one that is wanted."""
    if got != wanted:
        raise SystemExit(f"got:    {got!r}\nwanted: {wanted!r}")


def gives(script, printed, status=0, files=(None, None)):
    """Runs a script, which must print this and end so."""
    outcome = model.run(script.encode(), files)
    expect(outcome.printed.decode(), printed)
    expect(outcome.status, status)
    return outcome


def account_after(script, files=(None, None)):
    """The account that a script leaves."""
    return recover(model.run(script.encode(), files).files)[1]


def pages_of(account):
    """The pages of an account: number, state, count and stamp."""
    return [(number * 4096, page.state, page.bucket.count, page.bucket.stamp) for number, page in account.pages.items()]


def damage(*files):
    """Where two files are damaged."""
    try:
        recover(files)
    except Stop as end:
        return end.text
    return None


def an_empty_script():
    """An empty script over an empty board."""
    outcome = gives("", "end entries=0 names=0\n")
    expect(outcome.files, (EMPTY, b""))
    expect(len(EMPTY), 98)
    expect(outcome.calls, OPENING + FORMATTING)


def a_module_that_is_named():
    """The everyday line with its module."""
    end = "done 3\nend entries=1 names=1\n"
    outcome = gives(MODULE + EVERYDAY, "done 1\ndone 2\n" + LOGGED.format("DIMM_A1") + end)
    expect(outcome.files, (AFTER_ONE, b""))
    expect(len(AFTER_ONE), 158)
    append = [("WriteAt", 0, 98, 60), ("Sync", 0), ("WriteAt", 0, 97, 1), ("Sync", 0)]
    expect(outcome.calls, OPENING + FORMATTING + append)


def a_scrubbed_error():
    """Found by scrubbing, with and without software error recovery."""
    line = "bank 1 100 0 7 2000 {} 5 bd000000000000c0 12345040 86\n"
    text = (
        "log bank=1/0/7/2000 t=100 class={} weight=1 label=- page={} code=memory:SCRUB:0 threshold=- over=0 mark=srao"
        " ripv=1 eipv=0 mcip=1\n{}done 1\nend entries=1 names=1\n"
    )
    gives(line.format("1000c14"), text.format("SRAO", "0000000012345000", "order hard page=0000000012345000\n"))
    gives(line.format("c14"), text.format("UC", "-", ""))


def classes():
    """Three classes, with their codes, marks, pages and orders."""
    script = (
        "bank 1 100 0 1 1 1000c14 5 bd80000000000134 2000 86\n"
        "bank 1 101 0 7 2 1000c14 0 bc00000000000090 3000 86\n"
        "bank 1 102 0 4 3 1000c14 0 be00000000800400 0 0\n"
    )
    lines = model.run(script.encode()).printed.decode().split("\n")
    orders = [line for line in lines if line.startswith("order")]
    expect(orders, ["order hard page=0000000000002000", "order soft page=0000000000003000"])
    fields = [dict(word.split("=") for word in line.split()[1:]) for line in lines if line.startswith("log")]
    expect([it["class"] for it in fields], ["SRAR", "UCNA", "UC"])
    expect([it["code"] for it in fields], ["cache:D:L0:DRD", "memory:RD:0", "internal-timer"])
    expect([it["mark"] for it in fields], ["srar", "-", "-"])
    expect([it["page"] for it in fields], ["0000000000002000", "0000000000003000", "-"])


def an_odd_setting():
    """S is 1 and EN is 0."""
    script = "bank 1 100 0 7 4 1000c14 0 ad00000000000090 3000 86\n"
    printed = model.run(script.encode()).printed.decode()
    expect("class=ODD" in printed and "page=0000000000003000" in printed and "order" not in printed, True)
    expect(pages_of(account_after(script)), [(0x3000, 0, 0, 100)])


def codes():
    """The code that stands before the form of a bus, and the same with bit 12."""
    expect(reports.code_text(0x0E0B), "generic-io")
    expect(reports.code_text(0x1E0B), "bus:LG:GEN:ERR:IO:NOTIMEOUT/F")


def not_valid():
    """A bank that holds no valid error."""
    gives("bank 1 100 0 7 5 1000c14 0 0 0 0\n", "done 1\nend entries=0 names=0\n")


def repeats_and_a_restart():
    """The everyday line thrice, and once more after a restart."""
    repeat = "repeat bank=1/0/7/1000\n"
    text = f"done 1\n{repeat}done 2\n{repeat}done 3\ndone 4\n{repeat}done 5\nend entries=1 names=1\n"
    text = LOGGED.format("-") + text
    gives(3 * EVERYDAY + "restart\n" + EVERYDAY, text)


def ten_corrected_errors():
    """Ten errors of a page: within a day, and with the tenth a whole day after the first."""
    line = "bank 1 {} 0 7 {} 1000c14 0 8c00004000010090 12345040 86\n"
    nine = "".join(line.format(1000, tsc) for tsc in range(1, 10))
    within, past = nine + line.format(87399, 10), nine + line.format(87400, 10)
    order = "order soft page=0000000012345000\ndone 10\n"
    expect(order in model.run(within.encode()).printed.decode(), True)
    expect(pages_of(account_after(within)), [(0x12345000, 1, 0, 1000)])
    expect("order" in model.run(past.encode()).printed.decode(), False)
    expect(pages_of(account_after(past)), [(0x12345000, 0, 1, 87400)])


def the_greatest_weight():
    """A corrected count of 32,767."""
    script = "bank 1 100 0 7 1000 1000c14 0 8c1fffc000010090 12345040 86\n"
    printed = model.run(script.encode()).printed.decode()
    expect(("weight=32767" in printed, printed.count("order soft")), (True, 1))
    account = account_after(script)
    expect([(label, it.sums) for label, it in account.modules.items()], [(b"", [32767, *[0] * 9])])
    expect(pages_of(account), [(0x12345000, 1, 0, 100)])


def usable_addresses():
    """The least valid bit and the mode of an address."""
    status = 0x8C00004000010090
    told = [reports.address_of(0x1000C14, status, 0x12345040, misc) for misc in (0x86, 0x8C, 0x8D, 0x46)]
    expect([it and it // 4096 for it in told], [0x12345, 0x12345, None, None])


def owners():
    """Two modules of one channel; a range that decides; and a range that overlaps."""
    rows, held = "cpu 0 0\nmodule A 0 7 0\nmodule B 0 7 0\n", "range B 12340000 1234ffff\n"
    expect("label=- " in model.run((rows + EVERYDAY).encode()).printed.decode(), True)
    outcome = model.run((rows + held + EVERYDAY + "range A 1234ffff 12350000\n").encode())
    expect(("label=B " in outcome.printed.decode(), outcome.status), (True, 2))
    expect(outcome.printed.decode().split("\n")[-2], "stop 2 line=6 reason=topology.2")


def status_blocks():
    """A source that is twice there, a block without a HEST, and one of status 0."""
    gives(f"hest {REPEATED_SOURCE.hex()}\n", "stop 2 line=1 reason=hest.7\n", 2)
    nothing = f"ghes 1 50 1 1 {20 * '00'}\n"
    gives(nothing, "stop 2 line=1 reason=source\n", 2)
    gives(f"hest {ONE_SOURCE.hex()}\n" + nothing, "done 1\ndone 2\nend entries=0 names=0\n")


def boot_errors():
    """A region of boot errors without any, and a table whose bytes don't sum to 0."""
    line = "bert 1 50 {} 0000000000000000000000000000000000000000\n"
    gives(line.format(EMPTY_BERT.hex()), "done 1\nend entries=0 names=0\n")
    torn = with_bytes(EMPTY_BERT, {9: "00"})
    gives(line.format(torn.hex()), "stop 2 line=1 reason=bert.4\n", 2)


def a_firmware_report():
    """The everyday report of firmware, with the place of its module."""
    script = f"module DIMM_B3 0 8 1\nplace DIMM_B3 1 0 2\nhest {ONE_SOURCE.hex()}\nghes 1 60 1 1 {BLOCK.hex()}\n"
    text = (
        "log block=1/1/1 t=60 class=corrected weight=1 label=DIMM_B3 page=0000000080001000 memory type=single-bit-ecc"
        " node=1 card=0 module=2 mask=-\n"
    )
    gives(script, f"done 1\ndone 2\ndone 3\n{text}done 4\nend entries=1 names=1\n")


def stops_in_an_append():
    """What a stop at each moment of an append leaves: the link whole, or not at all."""
    full, closed = AFTER_ONE, with_bytes(AFTER_ONE, {97: "00"})
    text = "done 1\ndone 2\n{}done 3\nend entries=1 names=1\n"
    new, again = text.format(LOGGED.format("DIMM_A1")), text.format("repeat bank=1/0/7/1000\n")
    for left in (EMPTY, closed, closed[:120], EMPTY + 60 * b"\xa5"):
        expect(recover((left, b""))[1], Account())
        expect(gives(MODULE + EVERYDAY, new, files=(left, b"")).files[0], full)
    gives(MODULE + EVERYDAY, again, files=(full, b""))


def cut_files():
    """A file that is cut in its last gate, and in its link; and one of a single open gate."""
    expect(damage(AFTER_ONE[:157], b""), "file=0 place=157")
    expect(damage(AFTER_ONE[:156], b""), "file=0 place=102")
    gives("", "stop 7 file=0 place=157\n", 7, (AFTER_ONE[:157], None))
    outcome = gives("", "end entries=0 names=0\n", files=(b"\xa5", None))
    expect(outcome.files[0], EMPTY)
    expect(damage(OF_VERSION_1[:133], b""), "file=0 place=133")
    expect(damage(OF_VERSION_1[:132], b""), "file=0 place=78")


def hostile_files():
    """Link lengths, entry kinds and checkpoint lengths that can't be, in a file of version 1."""
    expect(len(OF_VERSION_1), 134)
    expect(damage(with_bytes(OF_VERSION_1, {74: "FF FF FF FF"}), b""), "file=0 place=78")
    expect(damage(with_bytes(OF_VERSION_1, {82: "07"}), b""), "file=0 place=78")
    expect(damage(with_bytes(OF_VERSION_1, {17: 8 * "FF"}), b""), "file=0 place=25")
    expect(damage(EMPTY, EMPTY), "file=1 place=9")


def refused_lines():
    """A line for each reason."""
    lines = {
        "frob": "line.1", "bank 1": "line.2", "cpu x 0": "line.3", "hest 0g": "line.4", "#" * 40_001: "line.5",
        "module - 0 7 0": "line.6", "place A 0 0 0": "topology.1",
    }  # fmt: skip
    for line, reason in lines.items():
        gives(line, f"stop 2 line=1 reason={reason}\n", 2)


def limits():
    """Limits that are in force and that aren't, in two runs."""
    script, last = "limit 10 86400\nlimit 2 60\n", "limit capacity=2 period=60\ndone 2\n"
    first = gives(script, f"done 1\n{last}end entries=1 names=0\n")
    second = f"limit capacity=10 period=86400\ndone 1\n{last}end entries=3 names=0\n"
    gives(script, second, files=first.files)


def a_full_account():
    """A checkpoint of 200,000 names: a new one is too many, a held one isn't, and boots retire."""
    names = b"".join(struct.pack("<BQHBQ", 1, 1, 0, 7, tsc) for tsc in range(1, 200_001))
    limits_and_counts = struct.pack("<6Q", 10, 86400, 100, 86400, 200_000, 0)
    checkpoint = limits_and_counts + struct.pack("<Q", 200_000) + names + struct.pack("<QQ", 0, 0)
    file = EMPTY[:9] + struct.pack("<QQ", 1, len(checkpoint)) + checkpoint + b"\0"
    new = "bank 1 100 0 7 200001 1000c14 0 8c00004000010090 12345040 86\n"
    gives(new, "stop 8 full\n", 8, (file, b""))
    gives(EVERYDAY, "repeat bank=1/0/7/1000\ndone 1\nend entries=200000 names=200000\n", files=(file, b""))
    later = "retire 2\n" + EVERYDAY.replace("bank 1", "bank 2")
    text = LOGGED.format("-").replace("bank=1", "bank=2")
    end = "done 2\nend entries=200002 names=1\n"
    gives(later, "retire boot=2 names=200000\ndone 1\n" + text + end, files=(file, b""))


def a_switch():
    """257 names: the 257th link goes to the other file, behind a checkpoint of the others."""
    line = "bank 1 100 0 7 {} 1000c14 0 8c00004000010090 12345040 86\n"
    outcome = model.run("".join(line.format(tsc) for tsc in range(1, 258)).encode())
    position, account = recover(outcome.files)
    expect((position.file, position.generation, position.links, len(account.names)), (1, 2, 1, 257))
    position, account = recover((outcome.files[0], b""))
    expect((position.generation, position.links, len(account.names)), (1, 256, 256))
    names = int.from_bytes(outcome.files[1][25 + 48 : 25 + 56], "little")
    expect(names, 256)


def retired_boots():
    """A boot that is retired takes its names along."""
    text = "done 1\nretire boot=2 names=1\ndone 2\nstale bank=1/0/7/1000\ndone 3\ndone 4\nend entries=2 names=0\n"
    script = EVERYDAY + "retire 2\n" + EVERYDAY + "retire 1\n"
    gives(script, LOGGED.format("-") + text)
    expect(account_after(script).modules[b""].sums[0], 1)


def a_module_to_be_replaced():
    """Two errors of a module within its limit."""
    second = EVERYDAY.replace(" 1000 ", " 1001 ")
    printed = model.run((MODULE + "module-limit 2 60\n" + EVERYDAY + second).encode()).printed.decode()
    logged = LOGGED.format("DIMM_A1").replace("/1000", "/1001")
    end = "order module label=DIMM_A1\ndone 5\nend entries=3 names=2\n"
    expect(printed.endswith("done 4\n" + logged + end), True)


def a_journal_of_version_1():
    """A journal of version 1 is taken over by the first fresh entry, at every moment of which it reads."""
    script = MODULE + EVERYDAY.replace(" 1000 ", " 1001 ")
    logged = LOGGED.format("DIMM_A1").replace("/1000", "/1001")
    outcome = gives(script, f"done 1\ndone 2\n{logged}done 3\nend entries=2 names=2\n", files=(OF_VERSION_1, b""))
    switch = [("WriteAt", 1, 0, 1), ("Sync", 1), ("WriteAt", 1, 1, 231), ("Sync", 1), ("WriteAt", 1, 0, 1), ("Sync", 1)]
    append = [("WriteAt", 1, 232, 60), ("Sync", 1), ("WriteAt", 1, 231, 1), ("Sync", 1)]
    expect(outcome.calls, OPENING + switch + append)
    expect(outcome.files[0], OF_VERSION_1)
    module = recover(outcome.files)[1].modules[b"DIMM_A1"]
    expect((module.is_replaced, module.bucket.count, module.bucket.stamp), (False, 1, 100))
    disk = Recorded((OF_VERSION_1, b""))
    Run(disk, lambda _: None).take_all([script.encode()])
    left = bytearray()
    for _, place, data in disk.writes:
        for torn in (b"", data[: len(data) // 2], data, len(data) * b"\xa5"):
            names = recover((OF_VERSION_1, bytes(left[:place] + torn + left[place + len(torn) :])))[1].names
            expect(len(names) in (1, 2), True)
        left[place : place + len(data)] = data
    expect(bytes(left), outcome.files[1])


ROWS = (
    an_empty_script, a_module_that_is_named, a_scrubbed_error, classes, an_odd_setting, codes, not_valid,
    repeats_and_a_restart, ten_corrected_errors, the_greatest_weight, usable_addresses, owners, status_blocks,
    boot_errors, a_firmware_report, stops_in_an_append, cut_files, hostile_files, refused_lines, limits,
    a_full_account, a_switch, retired_boots, a_module_to_be_replaced, a_journal_of_version_1,
)  # fmt: skip


def main():
    """Tries all rows."""
    from reference import store_rows

    all_rows = ROWS + store_rows.ROWS
    for row in all_rows:
        row()
    print(f"rows: {len(all_rows)} hold")
    return 0
