"""What a machine's firmware tells Linux of errors (ACPI 6.5, chapter 18; UEFI 2.10, appendix N), as bytes of a guest's memory.

Two tables name places there: HEST a word that holds the address of a status block, at which Linux looks each second, and BERT
the block that the firmware kept of the crash before the boot.
"""
import struct
import uuid

# A piece of memory that Linux is kept from by its parameter memmap.
PLACE, SIZE = 0x38000000, 0x10000
WORD, BLOCK, SAVED = PLACE, PLACE + 0x1000, PLACE + 0x8000
MOST = 0x6000
RECOVERABLE, FATAL, CORRECTED, INFORMATIONAL = range(4)
MEMORY = uuid.UUID("a5bc1114-6f64-4ede-b863-3e83ed7c83b1")
# Of no standard: Linux prints such a section's bytes.
OTHER = uuid.UUID("00112233-4455-6677-8899-aabbccddeeff")
POLLED, GENERIC = 0, 9


def table(signature, body):
    """An ACPI table with its head."""
    head = struct.pack("<4sIBB6s8sI4sI", signature, 36 + len(body), 1, 0, b"RASD  ", b"MACHINE ", 1, b"TEST", 1)
    whole = head + body
    return whole[:9] + bytes([-sum(whole) & 255]) + whole[10:]


def hest():
    """The table of error sources: one of number 1 that Linux polls each second."""
    address = struct.pack("<BBBBQ", 0, 64, 0, 4, WORD)
    notification = struct.pack("<BBHIIIIII", POLLED, 28, 0, 1000, 0, 0, 0, 0, 0)
    source = struct.pack("<HHHBBIII", GENERIC, 1, 0xFFFF, 0, 1, 1, 16, MOST) + address + notification + struct.pack("<I", MOST)
    return table(b"HEST", struct.pack("<I", 1) + source)


def bert():
    """The table of what the firmware saved of the crash before the boot."""
    return table(b"BERT", struct.pack("<IQ", MOST, SAVED))


def memory_section(page, node=1, card=0, module=2, kind=2):
    """The section of a memory error, by default of one bit."""
    # Valid are its address and mask, node, card, module and kind.
    valid = 1 << 1 | 1 << 2 | 1 << 3 | 1 << 4 | 1 << 5 | 1 << 14
    place = struct.pack("<HHHHHHHH", node, card, module, 0, 0, 0, 0, 0)
    return struct.pack("<QQQQ", valid, 0, page << 12, ~0xFFF & (1 << 64) - 1) + place + struct.pack("<QQQB7x", 0, 0, 0, kind)


def block(severity, *sections):
    """A status block of sections, each a type with its bytes."""
    data = b""
    for kind, section in sections:
        head = kind.bytes_le + struct.pack("<IHBBI16s20s", severity, 0x201, 0, 0, len(section), b"", b"")
        data += head + section
    # Whether one of the errors is corrected, and how many sections there are.
    status = (2 if severity == CORRECTED else 1) | len(sections) << 4
    return struct.pack("<IIIII", status, 0, 0, len(data), severity) + data
