"""Random lines of scripts and of kernel logs, of every kind, about a few names, boots and modules."""
from reference import store_rows
from reference.store import panic_record

STATUSES = (
    "8c00004000010090",  # corrected
    "0c00004000010090",  # the same without VAL
    "8c1fffc000010090",  # corrected, with the greatest count
    "bd000000000000c0",  # found by scrubbing
    "be00000000800400",  # the processor's state may be lost
    "ad00000000000090",  # contradicts itself
)
PCIE = bytes.fromhex("54e995d9c1bb0f43ad91b44dcb3c6f35")
HEST = "48455354680000000059" + "00" * 26 + "0100000009000100" + "00" * 60
EMPTY_BLOCK = "00" * 20
# one memory section of revision 3, with its node, card, module and address
BLOCK = "".join((
    "12", "00" * 11, "9800000002000000",
    "1411bca5646fde4eb8633e83ed7c83b1", "0200000000030000", "50000000", "00" * 44,
    "3a40000000000000", "00" * 8, "0010008000000000", "00" * 8, "010000000200", "00" * 34, "02", "00" * 7,
))


def bank(chance):
    """A bank's report under one of few names."""
    boot, cpu, number, tsc = (chance.randint(*ends) for ends in ((1, 4), (0, 1), (7, 8), (1, 4)))
    head = f"bank {boot} {chance.randint(100, 99_999)} {cpu} {number} {tsc} 1000c14 {chance.randint(0, 7)}"
    return f"{head} {chance.choice(STATUSES)} {chance.choice(('12345040', '2000', '1'))} {chance.choice(('86', '8d', '46'))}"


def block(chance):
    """A status block under one of few names."""
    return f"ghes {chance.randint(1, 4)} 50 1 {chance.randint(1, 3)} {chance.choice((EMPTY_BLOCK, BLOCK))}"


def section_of_memory(chance):
    """A memory section, with or without its address and place."""
    data = bytearray.fromhex(BLOCK[2 * 92 :])
    data[0] = chance.choice((0x3A, 0x3A, 0x38, 0x02, 0))
    data[16:24] = chance.choice((0x80001000, 0x12345040, 0x2000)).to_bytes(8, "little")
    return bytes.fromhex(BLOCK[40:72]), chance.randint(0, 4), bytes(data[: chance.choice((80, 80, 80, 73, 72))])


def stored_record(chance):
    """A record of memory sections, a panic record, or nothing that reads, under one of few identifiers."""
    identifier = chance.randint(1, 5)
    if chance.random() < 0.2:
        words = [int(word, 16 if place > 4 else 10) for place, word in enumerate(valid_bank(chance))]
        data = bytearray(panic_record(identifier, words))
        data[chance.randrange(456)] ^= chance.choice((0, 0, 1))
        return f"put {identifier:x} {data.hex()}"
    if chance.random() < 0.1:
        return f"put {chance.choice(('0', 16 * 'f', '3'))} {chance.randbytes(chance.randint(1, 3)).hex()}"
    return record_of(chance, [section_of_memory(chance) for _ in range(chance.randrange(4))], 5)


def valid_bank(chance):
    """The words of a bank's report that is valid."""
    words = bank(chance).split()[1:]
    return [*words[:7], chance.choice([it for it in STATUSES if it[0] != "0"]), *words[8:]]


KINDS = (
    (6, lambda chance: f"erst {chance.choice([*store_rows.ADMITTED.values()] * 20 + [store_rows.NOT_ADMITTED]).hex()}"),
    (20, stored_record),
    (8, lambda chance: f"poll {chance.randint(100, 99_999)}"),
    (8, lambda chance: f"panic {chance.randint(0, 20):x} {' '.join(valid_bank(chance))}"),
    (70, bank),
    (5, lambda chance: f"retire {chance.randint(0, 4)}"),
    (4, lambda chance: "restart"),
    (4, lambda chance: f"limit {chance.randint(1, 12)} {chance.randint(1, 90_000)}"),
    (4, lambda chance: f"module-limit {chance.randint(1, 12)} {chance.randint(1, 90_000)}"),
    (4, lambda chance: chance.choice(("cpu 0 0", "module DIMM_A1 0 7 0", "module DIMM_B1 0 8 0", "place DIMM_A1 1 0 2"))),
    (3, lambda chance: chance.choice(("", "# a comment", "  "))),
    (3, lambda chance: f"hest {HEST}"),
    (2, block),
    (1, lambda chance: chance.choice(("frob", "bank 1", "cpu x 0"))),
)


def script(chance, kinds):
    """Some lines of these kinds."""
    weights, makers = zip(*kinds)
    lines = [make(chance) for make in chance.choices(makers, weights, k=chance.randint(1, 40))]
    if kinds is KINDS and chance.random() < 0.9:
        lines.insert(0, f"erst {store_rows.PLAIN.hex()}")
    return ("\n".join(lines) + "\n").encode()


def section(chance):
    """A section of PCI Express of one of few devices, one that is short, or one of another kind."""
    numbers = [chance.choice((0, 0, 1 << chance.randrange(32), chance.getrandbits(32))) for _ in range(2)]
    data = bytearray(208)
    data[0] = chance.choice((0x88, 0x88, 0x88, 0x80, 0x08, 0))
    data[24:29] = bytes((0x86, 0x80, chance.choice((0, 0, 0x15)), chance.randrange(2), 0))
    data[31], data[32], data[35] = chance.randrange(2), chance.randrange(2), chance.choice((0, 0x3b))
    for place, number in zip((116, 128), numbers):
        data[place : place + 4] = number.to_bytes(4, "little")
    kind = chance.choice((PCIE, PCIE, PCIE, bytes(16)))
    return kind, chance.randint(0, 5), bytes(data[: chance.choice((208, 208, 208, 207, 0))])


def section_block(chance):
    """A status block of some sections under one of few names, now and then one that doesn't read."""
    entries = b""
    for kind, severity, data in (section(chance) for _ in range(chance.randrange(4))):
        revision = chance.choice((0, 0x201, 0x300))
        head = kind + severity.to_bytes(4, "little") + revision.to_bytes(2, "little") + bytes(2)
        entries += (head + len(data).to_bytes(4, "little")).ljust(72 if revision == 0x300 else 64, b"\0") + data
    length = len(entries) + chance.choice((0, 0, 0, 0, 1))
    whole = chance.choice((1, 1, 1, 0)).to_bytes(12, "little") + length.to_bytes(8, "little") + entries
    return f"ghes {chance.randint(1, 2)} 60 1 {chance.randint(1, 3)} {whole.hex()}"


def section_record(chance):
    """A record of some sections under one of few names, now and then one that doesn't read."""
    return record_of(chance, [section(chance) for _ in range(chance.randrange(4))], 3)


def record_of(chance, sections, most):
    """A record of these sections under an identifier of so many, now and then one that doesn't read."""
    heads, bodies, start = b"", b"", 128 + 72 * len(sections)
    for kind, severity, data in sections:
        place = (start + len(bodies)).to_bytes(4, "little") + len(data).to_bytes(4, "little")
        heads += (place + bytes(8) + kind + bytes(16) + severity.to_bytes(4, "little")).ljust(72, b"\0")
        bodies += data
    identifier = chance.randint(1, most)
    length = start + len(bodies) + chance.choice((0, 0, 0, 1, 15_000, 16_384))
    front = b"CPER\0\1" + b"\xff" * 4 + len(sections).to_bytes(2, "little") + bytes(8) + length.to_bytes(4, "little")
    whole = front.ljust(96, b"\0") + identifier.to_bytes(8, "little") + bytes(24) + heads + bodies
    return f"put {chance.choice((identifier, identifier, identifier, most))} {whole.hex()}"


PCIE_KINDS = (
    (20, section_block),
    (20, section_record),
    (3, lambda chance: chance.choice(("", "# a comment", "erst 00", "poll 3", "hest 00", "restart", "cpu 0 0", "range A 1 2"))),
    (1, lambda chance: chance.choice(("frob", "put 5", "put x 00", "ghes 1 60 1 1 0"))),
)


def log_start(chance):
    """The line of a log that begins a report, or nearly does."""
    word = chance.choice(("Machine Check:", "Machine Check Exception:"))
    end = chance.choice(("", "", "", " ", "  ", "\r", " x"))
    bank, status = chance.choice((7, 7, 8, 255, 256)), chance.choice(STATUSES)
    return f"CPU {chance.choice((0, 1, 65_535))}: {word} {chance.randrange(8)} Bank {bank}: {status}{end}"


def log_stamp(chance):
    """The line of a log with a report's counter, or nearly."""
    addr = chance.choice(("", " ADDR 12345040", " ADDR 2000", " ADDR 12g", "  ADDR 1"))
    misc = chance.choice(("", " MISC 86", " MISC 8d", " MISC 46", " MISC"))
    return f"TSC {chance.choice(('0', '1000', 'ffffffffffffffff', 'x'))}{addr}{misc}{chance.choice(('', ' ', ' PPIN 7', ','))}"


def log_time(chance):
    """The line of a log with a report's time, or nearly."""
    seconds = chance.choice(("0", "1400000000", "18446744073709551615", "18446744073709551616", "1s"))
    return f"PROCESSOR {chance.choice(('0', '2', 'x'))}:306e4 TIME {seconds}{chance.choice(('', ' SOCKET 0 APIC 0', ' '))}"


HEADS = (
    "mce: ", "[   12.500001] mce: ", "[   12.500002] node7 kernel: mce: ", "<0>[    0.000000] mce: ",
    "Nov 29 13:35:57 node7 kernel: mce: ", "0,1234,12500003,-;mce: ", "[Sun Nov 29 13:36:01 2026] mce: ",
)  # fmt: skip
ODD_HEADS = (
    "", "[ 1.5] mce: ", "usb 1-1: Product: mce: ", "[   12.500001] node7 kernel: usb 1-1: Product: mce: ", "kernel: x: mce: ",
    "[18446744073709.551616] mce: ", "[18446744073709.551615] mce: ", "mce:", "node7 mce: ", "[   12.500001][    T7] mce: ",
    "[   12.500001] /x kernel: mce: ", "[12/x] mce: ", "0,1234,x,-;mce: ", "0,1,9999999999999999999,c,caller=T611;mce: ",
    "Sun 2026-11-29 13:36:01 UTC node7 kernel: mce: ", "Nov 29 x node7 kernel: mce: ", "<x>[ 1.5] mce: ", "kern  :emerg : [ 1.5] mce: ",
)  # fmt: skip


def log(chance):
    """A kernel log, mostly of lines that are of errors, in the order of a report's lines more often than not."""
    lines, makers = [], (log_start, log_stamp, log_time)
    usual = chance.choice(HEADS)
    for number in range(chance.randint(0, 40)):
        make = makers[number % 3] if chance.random() < 0.8 else chance.choice((*makers, lambda it: "RIP", lambda it: ""))
        front = chance.choice((usual,) * 12 + (chance.choice(HEADS), chance.choice(ODD_HEADS)))
        lines.append(front + chance.choice(("[Hardware Error]: ",) * 20 + ("", "[Hardware Error]:")) + make(chance))
        if chance.random() < 0.15:
            status, tsc = chance.choice(STATUSES), chance.choice(("0", "0", "0", "3e8"))
            start = f"CPU {chance.randrange(2)}: Machine Check: 5 Bank 7: {status}"
            parts = (start, f"TSC {tsc} ADDR 12345040 MISC 86 ", f"PROCESSOR {chance.choice('0002')}:306e4 TIME 1400000000")
            lines += [f"{usual}[Hardware Error]: {part}" for part in parts]
    return "\n".join(lines).encode() + chance.choice((b"\n", b""))


def event(chance):
    """A line of a trace, in one of its forms, or nearly."""
    zero, tsc = 16 * "0", chance.choice(("0", "0", "3e8", "ffffffffffffffff", "10000000000000000", "x"))
    status, cpu = chance.choice(STATUSES), chance.choice((0, 1, 65_535, 65_535, 65_536))
    addr, misc = (f"{chance.choice((0, 0x12345040, 0x2000, 2**64 - 1)):016x}", f"{chance.choice((0x86, 0x8D, 0)):016x}")
    vendor = chance.choice((0, 0, 0, 0, 2))
    parts = [f"CPU: {cpu}", "MCGc/s: 1000c14/5", f"MC{chance.choice((7, 7, 8, 255, 256))}: {status}", f"IPID: {zero}"]
    if chance.random() < 0.5:
        parts += [f"ADDR/MISC/SYND: {addr}/{misc}/{zero}", f"RIP: 10:<{zero}>", f"TSC: {tsc}"]
        parts += [f"PROCESSOR: {vendor}:306e4", "TIME: 1400000000", "SOCKET: 0", "APIC: 0"]
    else:
        parts += [f"ADDR: {addr}", f"MISC: {misc}", f"SYND: {zero}", f"RIP: 10:<{zero}>", f"TSC: {tsc}", "PPIN: 0"]
        parts += [f"vendor: {vendor}", "CPUID: 306e4", f"time: {chance.choice((0, 1400000000, 2**64))}", "socket: 0", "APIC: 0"]
        parts += [it for it in ("microcode: 42e", "vendor data: {0x0,0x0}") if chance.random() < 0.7]
    if chance.random() < 0.2:
        place = chance.randrange(len(parts))
        parts[place : place + chance.randrange(2)] = chance.choice(([], [chance.choice(parts)], ["MISC: 0"], ["x", "a: b"]))
    stamps = ("12.500001:", "12.500001:", "12.500002:", "18446744073709.551615:", "12.5:", "12500001:", "", "12us:", "1.0: exec: x=")
    stamp = chance.choice(stamps)
    fronts = ("kworker/0:1-7 [000] ..... ",) * 3 + ("a b-1 [000] d..1. ", "mce_record: ", "9.000001: x-1 ")
    front = chance.choice(fronts)
    mark = chance.choice(("mce_record: ",) * 12 + ("mce:mce_record: ", "mce_record:          ", "mce_record:", "mce_record "))
    return f"{front}{stamp} {mark}{', '.join(parts)}"


def trace(chance):
    """A trace of the kernel, mostly of events of machine checks."""
    others = ("# tracer: nop", "", "CPU:0 [LOST 5 EVENTS]", "x-1 [000] ..... 1.000000: sched_wakeup: comm=y", "mce_record: ")
    lines = [event(chance) if chance.random() < 0.9 else chance.choice(others) for _ in range(chance.randint(0, 20))]
    return "\n".join(lines).encode() + chance.choice((b"\n", b""))


# What the kernel calls a DIMM, or nearly.
DIMMS = (
    "CPU_SrcID#0_MC#0_Chan#0_DIMM#0", "CPU_SrcID#0_MC#0_Chan#0_DIMM#1", "P1 DIMM_B3", "DMI handle: 0x1107", "A (mc:0 x", "on A", "A ( page:0x1", "A",
)  # fmt: skip
# Lines that name a DIMM, or nearly: {0} is a head, {1} the DIMM, {2} an address, {3} and {4} its page and the offset there.
NAMING = (
    "x-1 [003] ..... 12.500001: mc_event: 1 Corrected error: memory read error on {1} (mc:0 location:0:1:-1 address:0x{2:08x} grain:32 syndrome:0x0)",
    "x-1 [003] ..... 12.500001: mc_event: 2 Corrected errors: on {1} (mc:0 location:0:1:-1 address:0x{2:08x} grain:32 syndrome:0x0  on y)",
    "x-1 [003] ..... 12.500001: mc_event: 1 Corrected error: MCA_SYND not valid on {1} (mc:0 location:0:0:-1 address:0x{2:08x} grain:32 syndrome:0x0)",
    "x-1 [003] ..... 12.500001: mc_event: 1 Corrected error: single-bit ECC on {1} (mc:0 location:0:1:-1 address:0x{2:08x} grain:32 syndrome:0x0 APEI location: node:0)",
    "x-1 [003] ..... 12.500001: mc_event: 1 Corrected error on {1} (mc:0 location:0:1:-1 address:0x{2:08x} grain:32)",
    "{0}EDAC MC0: 1 CE memory read error on {1} (channel:0 slot:1 page:0x{3:x} offset:0x{4:x} grain:32 syndrome:0x0 - on x ( page:0x1)",
    "{0}EDAC MC1: 4 UE on {1} (channel:0 slot:1 page:0x{3:x} offset:0x{4:x} grain:32)", "{0}EDAC MC1: x CE on {1} (x page:0x{3:x} offset:0x{4:x} grain:32)",
    "{0}EDAC MC1: 1 CE x on {1} (x page:0x{3:x} offset:0x{4:x})", "{0}EDAC MC1: 1 CE Failed to map error addr to a node on {1} (x page:0x{3:x} offset:0x{4:x} grain:1)",
    "{0}{{1}}[Hardware Error]:  Error 0, type: corrected", "{0}{{1}}[Hardware Error]:   section_type: memory error", "", "x",
    *["{0}{{1}}[Hardware Error]:   physical_address: 0x{2:016x}"] * 3, "{0}{{2}}[Hardware Error]:   physical_address: 0x{2:016x}",
    *["{0}{{1}}[Hardware Error]:   DIMM location: {1} "] * 3, "{0}{{1}}[Hardware Error]:   DIMM location:  {1}  ",
    "{0}{{1}}[Hardware Error]:   DIMM location: not present. {1} ",
)  # fmt: skip


def naming(chance):
    """A line that names a DIMM, or nearly."""
    page, offset = chance.choice((0, 0x12345, 0x12345, 2, 2**52 - 1)), chance.choice((0, 0x40, 0x7F, 0xFC0, 4096))
    head = chance.choice(("[   12.500001] ",) * 3 + ("", "[   12.500002] node7 kernel: ", "x ", "Nov 29 13:35:57 node7 kernel: "))
    return chance.choice(NAMING).format(head, chance.choice(DIMMS), 4096 * page + offset, page, offset) + chance.choice(("",) * 9 + ("\r",))


def with_dimms(chance, text):
    """A log or a trace behind rows of DIMMs, and with lines that name some."""
    names = ("A", "B", "B#1", "D" * 32, "-", "", "D" * 33)
    rows = [f"# slot {chance.choice(names[:4] * 8 + names)} {chance.choice(DIMMS * 6 + ('', ' A'))}" for _ in range(chance.randint(0, 12))]
    lines = []
    for line in text.split(b"\n"):
        lines.append(line)
        while chance.random() < 0.4:
            lines.append(naming(chance).encode())
    return "".join(f"{row}\n" for row in rows).encode() + b"\n".join(lines)
