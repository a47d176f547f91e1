"""What a report tells, for the model of tests/model/model.py: registers, sections, records, tables and blocks.

It follows docs/FORMATS.md and the tables of the SDM, of ACPI and of UEFI that it names.
"""
import uuid

MCG_CMCI_P, MCG_TES_P, MCG_SER_P = 10, 11, 24
AR, S, PCC, ADDRV, MISCV, EN, UC, OVER, VAL = range(55, 64)
SEVERITIES = {0: "recoverable", 1: "fatal", 2: "corrected", 3: "informational"}

LEVELS, KINDS = ("L0", "L1", "L2", "LG"), ("I", "D", "G", "RES")
REQUESTS = ("ERR", "RD", "WR", "DRD", "DWR", "IRD", "PREFETCH", "EVICT", "SNOOP", *["RES"] * 7)
PARTS, TARGETS = ("SRC", "RES", "OBS", "GEN"), ("M", "RES", "IO", "OTHER")
MEMORY_REQUESTS = ("GEN", "RD", "WR", "AC", "SCRUB", *["RES"] * 3)
CHANNELS = (*map(str, range(15)), "-")
PLAIN_CODES = {
    0x0000: "none",
    0x0001: "unclassified",
    0x0002: "microcode-rom-parity",
    0x0003: "external",
    0x0004: "frc",
    0x0005: "internal-parity",
    0x0400: "internal-timer",
    0x0E0B: "generic-io",
    **{code: "internal-unclassified" for code in range(0x0401, 0x0800)},
}
# The bits that are the same in all codes of a form, bit 12 apart; its name; and its parts by their lowest bits.
FORMS = (
    (0xFFFC, 0x000C, "gencache", ((0, LEVELS),)),
    (0xFFF0, 0x0010, "tlb", ((2, KINDS), (0, LEVELS))),
    (0xFF80, 0x0080, "memory", ((4, MEMORY_REQUESTS), (0, CHANNELS))),
    (0xFF00, 0x0100, "cache", ((2, KINDS), (0, LEVELS), (4, REQUESTS))),
    (0xF800, 0x0800, "bus", ((0, LEVELS), (9, PARTS), (4, REQUESTS), (2, TARGETS), (8, ("NOTIMEOUT", "TIMEOUT")))),
)

MEMORY = uuid.UUID("a5bc1114-6f64-4ede-b863-3e83ed7c83b1")
PROCESSOR = uuid.UUID("9876ccad-47b4-4bdb-b65e-16f193c4f3db")
X64 = uuid.UUID("dc3ea0b0-a144-4797-b95b-53fa242b6e1d")
MEMORY_ERRORS = (
    "unknown no-error single-bit-ecc multi-bit-ecc single-symbol-chipkill multi-symbol-chipkill master-abort"
    " target-abort parity watchdog-timeout invalid-address mirror-broken sparing scrub-corrected scrub-uncorrected"
    " map-out"
).split()

# The bytes of a source of a type, and where the number of its banks of 28 bytes stands.
SOURCES = {0: (40, 32), 1: (48, 44), 11: (48, 44), 2: (20, None), 6: (48, None), 7: (44, None), 8: (56, None)}
SOURCES |= {9: (64, None), 10: (92, None)}


class Refused(Exception):
    """What is read is refused, for the reason of this number."""


def refuse(number, is_refused):
    """Refuses where that is so."""
    if is_refused:
        raise Refused(number)


def bit(number, place):
    """One bit of a number."""
    return number >> place & 1


def number_at(data, place, size):
    """The number at a place, where missing bytes are zeros."""
    return int.from_bytes(data[place : place + size], "little")


def digits(number):
    """A number in 16 hexadecimal digits, or `-` for none."""
    return "-" if number is None else f"{number:016x}"


def or_none(number):
    """A number, or `-` for none."""
    return "-" if number is None else str(number)


# ---- a bank's registers


def class_of(cap, status):
    """The class of a bank whose status has VAL 1."""
    if not bit(status, UC):
        return "CE"
    if bit(status, PCC) or not bit(cap, MCG_SER_P):
        return "UC"
    if not bit(status, S):
        return "ODD" if bit(status, AR) else "UCNA"
    if not bit(status, EN):
        return "ODD"
    return "SRAR" if bit(status, AR) else "SRAO"


def weight_of(cap, status):
    """How many errors a bank tells."""
    count = status >> 38 & 0x7FFF
    return count if bit(cap, MCG_CMCI_P) and not bit(status, UC) and count else 1


def address_of(cap, status, addr, misc):
    """The physical address that a bank tells to a page, or None."""
    is_told = bit(cap, MCG_SER_P) and bit(status, ADDRV) and bit(status, MISCV)
    least, mode = misc & 0x3F, misc >> 6 & 7
    return addr >> least << least if is_told and mode == 2 and least <= 12 else None


def threshold_of(cap, status):
    """The threshold status as it is printed."""
    is_told = bit(cap, MCG_TES_P) and not bit(status, UC)
    return ("none", "green", "yellow", "reserved")[status >> 53 & 3] if is_told else "-"


def code_text(code):
    """An error code as it is printed."""
    if code in PLAIN_CODES:
        return PLAIN_CODES[code]
    rest, end = code & ~0x1000, "/F" if bit(code, 12) else ""
    for mask, value, name, parts in FORMS:
        if rest & mask == value:
            return ":".join([name, *(texts[rest >> low & len(texts) - 1] for low, texts in parts)]) + end
    return "OTHER"


def mark_of(code):
    """Which of the recoverable errors a code is, as it is printed."""
    code &= ~0x1000
    return "srao" if 0xC0 <= code <= 0xCF or code == 0x17A else "srar" if code in (0x134, 0x150) else "-"


def channel_of(code):
    """The memory channel of a code of the memory controller, or None."""
    return code & 0xF if code & 0xEF80 == 0x80 and code & 0xF != 0xF else None


def bank_detail(cap, mcg, status):
    """What a log line says of a bank's registers."""
    code = status & 0xFFFF
    return (
        f"code={code_text(code)} threshold={threshold_of(cap, status)} over={bit(status, OVER)} mark={mark_of(code)}"
        f" ripv={bit(mcg, 0)} eipv={bit(mcg, 1)} mcip={bit(mcg, 2)}"
    )


# ---- sections


class Section:
    """A section: its type, its bytes, its class, what a log line says of it, and of memory the address and the place."""

    def __init__(self, guid, severity, data):
        self.guid, self.data = guid, data
        self.kind = SEVERITIES.get(severity, "ODD")
        self.address, self.place, self.is_memory = None, (), guid == MEMORY
        read = {MEMORY: self.memory, PROCESSOR: self.processor, X64: self.x64}.get(guid)
        self.detail = read(data) if read else f"section={guid}"

    def memory(self, data):
        """A memory section."""
        refuse(3, len(data) < 73)
        told = number_at(data, 0, 8)
        fields = {1: (16, 8), 2: (24, 8), 3: (32, 2), 4: (34, 2), 5: (36, 2), 14: (72, 1)}
        values = [number_at(data, *it) if bit(told, place) else None for place, it in fields.items()]
        self.address, mask, *self.place, error = values
        name = "-" if error is None else dict(enumerate(MEMORY_ERRORS)).get(error, f"type-{error}")
        node, card, module = map(or_none, self.place)
        return f"memory type={name} node={node} card={card} module={module} mask={digits(mask)}"

    def processor(self, data):
        """A section of any processor."""
        refuse(3, len(data) < 192)
        places = {"type": 8, "isa": 9, "error": 10, "op": 11, "level": 13}
        return " ".join(["processor", *(f"{name}={data[place]}" for name, place in places.items())])

    def x64(self, data):
        """A section of an x86 processor."""
        refuse(3, len(data) < 64)
        told = number_at(data, 0, 8)
        structures, stated = told >> 2 & 0x3F, told >> 8 & 0x3F
        place, contexts = 64 + 64 * structures, 0
        refuse(3, len(data) < place)
        while contexts < stated and place + 16 + number_at(data, place + 2, 2) <= len(data):
            place += 16 + number_at(data, place + 2, 2)
            contexts += 1
        apic = number_at(data, 8, 8) if bit(told, 0) else None
        return f"x64 apic={digits(apic)} structures={structures} contexts={contexts}"


# ---- records, tables and blocks


def read_record(data):
    """The identifier of a record, and its sections."""
    refuse(1, len(data) < 128)
    refuse(2, data[:4] != b"CPER" or data[6:10] != b"\xff" * 4)
    count, length = number_at(data, 10, 2), number_at(data, 20, 4)
    refuse(3, not 128 <= length <= len(data))
    refuse(4, 128 + 72 * count > length)
    found = []
    for head in (data[it : it + 72] for it in range(128, 128 + 72 * count, 72)):
        start, end = number_at(head, 0, 4), number_at(head, 0, 4) + number_at(head, 4, 4)
        refuse(5, end > length)
        found.append((uuid.UUID(bytes_le=head[16:32]), number_at(head, 48, 4), data[start:end]))
    try:
        return number_at(data, 96, 8), [Section(*it) for it in found]
    except Refused:
        raise Refused(6) from None


def check_table(data, signature, fixed):
    """Checks a table's head, and answers the table alone."""
    refuse(1, len(data) < fixed)
    refuse(2, data[:4] != signature)
    length = number_at(data, 4, 4)
    refuse(3, length < fixed or length > len(data))
    refuse(4, sum(data[:length]) % 256)
    return data[:length]


def read_hest(data):
    """The identifiers of a HEST's sources."""
    table, place, found = check_table(data, b"HEST", 40), 40, set()
    for _ in range(number_at(data, 36, 4)):
        refuse(6, place + 4 > len(table))
        kind, identifier = number_at(table, place, 2), number_at(table, place + 2, 2)
        refuse(5, kind not in SOURCES)
        size, banks = SOURCES[kind]
        if banks is not None:
            refuse(6, place + banks >= len(table))
            size += 28 * table[place + banks]
        refuse(6, place + size > len(table))
        refuse(7, identifier in found)
        found.add(identifier)
        place += size
    return found


def read_bert(data):
    """The length of a BERT's region."""
    return number_at(check_table(data, b"BERT", 48), 36, 4)


def read_block(data):
    """The sections of a status block; None where its status is 0."""
    refuse(1, len(data) < 20)
    if not number_at(data, 0, 4):
        return None
    end, place, entries = 20 + number_at(data, 12, 4), 20, []
    refuse(1, len(data) < end)
    while place < end:
        head = 72 if place + 64 <= end and data[place + 21] >= 3 else 64
        size = head + number_at(data, place + 24, 4)
        refuse(2, place + head > end or place + size > end)
        guid = uuid.UUID(bytes_le=data[place : place + 16])
        entries.append((guid, number_at(data, place + 16, 4), data[place + head : place + size]))
        place += size
    return [Section(*it) for it in entries]
