"""Random hostile histories: lines of every kind, half of the scripts changed, kills, and damage between runs."""
import dataclasses
import re
import struct
import uuid

import lines
import model
from lines import KINDS, PCIE, PCIE_KINDS, STATUSES, log, record_of, script, trace, with_dimms
from reference import reports, store, store_rows

NUMBERS = (
    "0", "1", "9", "255", "256", "14", "15", "32767", "65535", "65536", "999999", "1000000", "1000001", "10000000",
    "4611686018427387904", "9223372036854775807", "18446744073709551615", "18446744073709551616",
    "00000000000000000001", "000000000000000000001", "99999999999999999999", "7fffffffffffffff", "ffffffffffffffff",
    "0ffffffffffffffff", "FFFFFFFF", "-", "-1", "+1", "0x1", "1e", "x", "!", "#", "\xe9", "~" * 32, "~" * 33, "0" * 40_001,
)  # fmt: skip
SOURCES = {2: 20, 6: 48, 7: 44, 8: 56, 9: 64, 10: 92}
BANKS = {0: (40, 32), 1: (48, 44), 11: (48, 44)}
OTHER = uuid.UUID(int=5)
GUIDS = [store.PANIC, reports.X64, *(it for it in vars(reports).values() if isinstance(it, type(reports.X64)))]

# The lines that others need: the record store's table, a table of error sources, and two modules.
FIRST = f"erst {store_rows.PLAIN.hex()}\nhest {lines.HEST}\nmodule DIMM_A1 0 7 0\nmodule DIMM_B1 0 8 0\n".encode()


# ---- lines


def summed(table):
    """A table whose bytes sum to 0."""
    table = bytearray(table)
    if len(table) > 9:
        table[9] = (table[9] - sum(table)) % 256
    return bytes(table)


def any_section(chance):
    """A section of any type, of about its length."""
    kind = chance.randrange(5)
    if kind == 0:
        return lines.section_of_memory(chance)
    if kind == 1:
        return lines.section(chance)
    if kind == 2:
        structures, contexts = chance.choice((0, 0, 1, 2, 63)), chance.choice((0, 1, 2, 63))
        told = struct.pack("<Q", structures << 2 | contexts << 8 | chance.randrange(4)).ljust(64, b"\1")
        held = b"".join(
            struct.pack("<HHIQ", 1, size, 0x400, 0) + bytes(size) for size in chance.choices((0, 8, 33), k=chance.randrange(4))
        )
        body = told + bytes(64 * min(structures, 3)) + held
        return reports.X64.bytes_le, chance.randint(0, 4), body[: len(body) - chance.choice((0, 0, 0, 0, 1, 9))]
    guid = chance.choice((*GUIDS, OTHER)).bytes_le
    return guid, chance.randint(0, 5), chance.randbytes(chance.choice((*6 * [192], 208, 80, 0, 64, 72, 191)))


def any_block(chance):
    """A status block of sections of any type, now and then one that doesn't read."""
    entries = b""
    for kind, severity, data in (any_section(chance) for _ in range(chance.randrange(4))):
        revision = chance.choice((0, 0x201, 0x300))
        head = kind + struct.pack("<IHHI", severity, revision, 0, len(data))
        entries += head.ljust(72 if revision == 0x300 else 64, b"\0") + data
    length = len(entries) + chance.choice((*30 * [0], 1, -1, 2**32 - 1 - len(entries)))
    return struct.pack("<IIIII", chance.choice((1, 2, 0x12, 0)), 0, 0, length % 2**32, 0) + entries


def any_sources(chance):
    """A table of error sources of any type, now and then one that doesn't read."""
    parts = []
    for number in range(1, chance.randint(2, 4)):
        kind = chance.choice([*SOURCES, *BANKS] * 4 + [3, 300])
        size, place = BANKS.get(kind, (SOURCES.get(kind, 64), None))
        banks = chance.choice((0, 1, 2, 255)) if place else 0
        source = bytearray(size + 28 * banks)
        source[:4] = struct.pack("<HH", kind, chance.choice((number, number, number, number, 1)))
        if place:
            source[place] = banks
        parts.append(bytes(source))
    whole = b"".join(parts)
    count = len(parts) + chance.choice((*8 * [0], 1, 2**32 - 1 - len(parts)))
    return summed(b"HEST" + struct.pack("<I", 40 + len(whole)) + bytes(28) + struct.pack("<I", count) + whole)


def any_region(chance):
    """The words of a line `bert`: a table and a region, of which the table tells as much or otherwise."""
    block = any_block(chance)
    length = len(block) + chance.choice((*8 * [0], *8 * [100], -1, -len(block)))
    return f"{summed(b'BERT' + struct.pack('<I', 48) + bytes(28) + struct.pack('<IQ', length, 0)).hex()} {block.hex()}"


def any_table(chance):
    """A table of the record store that is admitted, now and then one that isn't."""
    kind = store_rows.REFUSED if chance.random() < 0.1 else store_rows.ADMITTED
    return chance.choice([*kind.values()]).hex()


def any_range(chance):
    """A line `range`."""
    first = chance.choice((0, 0x2000, 0x12345000, 2**64 - 1))
    last = chance.choice((first, first + 4095, 2**64 - 1, 0x3000)) % 2**64
    return f"range {chance.choice(('DIMM_A1', 'DIMM_B1', 'C'))} {first:x} {last:X}"


def any_bank(chance):
    """A bank's report of any numbers."""
    numbers = [chance.choice((0, 1, 2, chance.getrandbits(64), 2**64 - 1)) for _ in range(3)]
    status = chance.choice((chance.getrandbits(64), chance.getrandbits(64) | 0xBD << 56, int(chance.choice(STATUSES), 16)))
    told = [chance.choice((0x1000C14, 0, chance.getrandbits(64))), chance.getrandbits(3), status, chance.getrandbits(52)]
    words = " ".join(f"{it:x}" for it in (*told, chance.choice((0x86, 0x8C, 0x8D, 0x46, chance.getrandbits(9)))))
    return f"bank {numbers[0]} {numbers[1]} {chance.randrange(65_536)} {chance.randrange(256)} {numbers[2]} {words}"


def limits(chance):
    """Lines each of which is news, so many that the journal may switch to its other file."""
    kind = chance.choice(("limit", "module-limit"))
    return "\n".join(f"{kind} {chance.randint(1, 12)} {number}" for number in range(1, chance.choice((3, 30, 260))))


ALL_KINDS = (
    *KINDS,
    (30, any_bank),
    (3, any_range),
    (3, lambda chance: f"erst {any_table(chance)}"),
    (4, lambda chance: f"hest {any_sources(chance).hex()}"),
    (12, lambda chance: f"ghes {chance.randint(1, 4)} 50 1 {chance.randint(1, 3)} {any_block(chance).hex()}"),
    (8, lambda chance: f"bert {chance.randint(1, 4)} 50 {any_region(chance)}"),
    (20, lambda chance: record_of(chance, [any_section(chance) for _ in range(chance.randrange(4))], 5)),
    (1, limits),
    (1, lambda chance: chance.choice(("#", " ", "cpu 0 0")) + " " * chance.choice((39_993, 39_993, 39_999, 40_000))),
)


def any_script(chance):
    """A script of lines of any kind, in most cases after those that others need."""
    text = script(chance, ALL_KINDS)
    return FIRST + text if chance.random() < 0.9 else text


# ---- changes


def change_byte(chance, data):
    """One byte is changed, added or taken away."""
    at = chance.randrange(len(data) + 1)
    new = chance.choice((b"", bytes([chance.randrange(256)]), chance.choice((b" ", b"\n", b"\t", b"\r", b"\0", b"#", b"-", b"f"))))
    return data[:at] + new + data[at + chance.randrange(2) :]


def change_word(chance, data):
    """One word has another value, or is another word of the script."""
    words = re.split(rb"([ \n]+)", data)
    place = chance.randrange(0, len(words), 2)
    other = chance.choice((words[chance.randrange(0, len(words), 2)], chance.choice(NUMBERS).encode("latin-1")))
    words[place] = chance.choice((other, other, words[place] + b" " + other, b""))
    return b"".join(words)


def change_octets(chance, data):
    """A word of bytes has another byte, number or length, and if it is a table, mostly a right sum."""
    words = re.split(rb"([ \n]+)", data)
    long = [place for place, word in enumerate(words) if len(word) >= 40 and re.fullmatch(rb"(?:[0-9a-fA-F]{2})+", word)]
    if not long:
        return change_word(chance, data)
    place = chance.choice(long)
    octets = bytearray.fromhex(words[place].decode())
    for _ in range(chance.randint(1, 3)):
        at = chance.choice((chance.randrange(len(octets)), chance.randrange(min(60, len(octets)))))
        size = chance.choice((1, 2, 4, 8))
        number = chance.choice((0, 1, chance.getrandbits(8 * size), 2 ** (8 * size) - 1, octets[at] ^ 1 << chance.randrange(8)))
        octets[at : at + size] = (number % 2 ** (8 * size)).to_bytes(size, "little")
    octets = octets[: chance.choice((len(octets), len(octets), chance.randint(1, len(octets))))]
    is_summed = octets[:4] in (b"HEST", b"BERT", b"ERST") and chance.random() < 0.8
    words[place] = (summed(octets) if is_summed else bytes(octets)).hex().encode()
    return b"".join(words)


def change_cut(chance, data):
    """The script is cut, or a stretch of it is."""
    first, last = sorted((chance.randint(0, len(data)), chance.randint(0, len(data))))
    return data[:last] if chance.random() < 0.5 else data[:first] + data[min(last, first + 300) :]


def change_lines(chance, data):
    """A line comes twice or more often, or lines come in another order."""
    rows = data.split(b"\n")
    first, last = chance.randrange(len(rows)), chance.randrange(len(rows))
    if chance.random() < 0.5:
        rows[last:last] = [rows[first]] * chance.choice((1, 1, 2, 20))
    elif chance.random() < 0.5:
        rows[first], rows[last] = rows[last], rows[first]
    else:
        chance.shuffle(rows)
    return b"\n".join(rows)


CHANGES = (change_byte, change_word, change_word, change_octets, change_octets, change_octets, change_cut, change_lines)


def changed(chance, data):
    """A script, or log, that is changed in half of all cases."""
    for _ in range(chance.choice((0, 0, 0, 1, 2, 3))):
        data = chance.choice(CHANGES)(chance, data)
    return data


# ---- histories


@dataclasses.dataclass
class Step:
    """A run: its words and its input; if it is killed, how much of that it has read before, or none, and milliseconds."""

    words: list
    text: bytes = b""
    read: int = None
    wait: float = None


@dataclasses.dataclass
class Damage:
    """What somebody does to the files: which file, how, where in it as a part of its length, and with what bytes."""

    file: int
    how: str
    place: float
    new: bytes

    def of(self, files):
        """The files after it."""
        files, data = list(files), files[self.file] or b""
        at = int(self.place * len(data))
        if self.how == "changed":
            files[self.file] = data[:at] + self.new + data[at + len(self.new) :]
        elif self.how == "cut":
            files[self.file] = data[:at]
        elif self.how == "longer":
            files[self.file] = data + self.new
        elif self.how == "exchanged":
            files[:2] = files[1::-1]
        elif self.how == "copied":
            files[0] = files[1] = data
        else:
            files[self.file] = None
        return files


def any_damage(chance):
    """What somebody does to one of the journal's files, or to the record store's."""
    how = chance.choice((*5 * ["changed"], "cut", "longer", "exchanged", "copied", "gone"))
    size = chance.choice((1, 1, 2, 4, 8))
    new = chance.choice((0, 1, 2, 0xA5, 2 ** (8 * size) - 1, chance.getrandbits(8 * size)))
    place = chance.choice((0, chance.random(), chance.random(), chance.random()))
    return Damage(chance.choice((0, 0, 0, 1, 1, 1, 2)), how, place, (new % 2 ** (8 * size)).to_bytes(size, "little"))


def any_words(chance):
    """Words that are a command, or none."""
    forms = "report", "report names", "load 20", "klog 1 c14", "lines klog 1 c14", "lines trace 1", "lines ghes 1 60", "lines mce 1", "lines log 1 c14 60", "lines log 1 c14 60 - 5", "lines trace 1 c14 60", "lines trace 1 c14 60 edac"
    forms = *forms, "pcie", "run", "--help"
    words = chance.choice(forms).split()
    place = chance.randrange(len(words))
    words[place : place + chance.randrange(2)] = [chance.choice((*NUMBERS, "names", "report", ""))]
    return [word.encode("latin-1") for word in words]


def any_run(chance):
    """A run over a script, which may be killed once it has read some of that, or after some milliseconds."""
    text = changed(chance, any_script(chance))
    read, wait = chance.randint(0, len(text)), chance.choice((0, 0.1, 1))
    return Step([b"run"], text, *chance.choice(((), (), (), (read, wait), (None, 2 * chance.random()))))


def any_report(chance):
    """A report."""
    return Step([b"report", chance.choice((b"counts", b"pages", b"names", b"modules", b"metrics"))])


CAPS = (b"1000c14", b"c14", b"0")


BORDERS = b"-", b"0", b"1000000", b"12500001", b"18446744073709551615"


def of_kernel(chance, change):
    """What is made of a log or a trace of a boot: its log lines; or lines of a script, and a run over these."""
    boot, cap = b"%d" % chance.randint(0, 4), chance.choice(CAPS)
    words, made = chance.choice((
        ([b"klog", boot, cap], log),
        ([b"lines", b"klog", boot, cap], log),
        ([b"lines", b"log", boot, cap, b"60"], log),
        ([b"lines", b"log", boot, cap, b"60", chance.choice(BORDERS), chance.choice(BORDERS)], log),
        ([b"lines", b"trace", boot], trace),
        ([b"lines", b"trace", boot, cap, b"60"], trace),
        ([b"lines", b"trace", boot, cap, b"60", b"edac"], trace),
    ))  # fmt: skip
    text = made(chance)
    if len(words) > 4 and chance.random() < 0.7:
        text = with_dimms(chance, text)
    text = change(chance, text)
    if words[0] == b"klog":
        yield Step(words, text)
        return
    yield Step(words, text)
    yield Step([b"run"], model.command(words, text).printed)


def steps(chance):
    """The steps of a history."""
    for _ in range(chance.randint(2, 6)):
        if chance.random() < 0.05:
            yield any_damage(chance)
        yield any_run(chance)
        yield any_report(chance)
        other = chance.randrange(6)
        if other == 0:
            text = script(chance, PCIE_KINDS) if chance.random() < 0.5 else any_script(chance)
            yield Step([b"pcie"], changed(chance, text))
        if other in (1, 2):
            yield from of_kernel(chance, changed)
        if other == 3:
            yield Step(any_words(chance), changed(chance, any_script(chance)))
    for _ in range(2):
        yield any_damage(chance)
        yield any_report(chance)
        yield Step([b"run"], any_script(chance))
