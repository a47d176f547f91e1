"""Servers as fixtures: what the kernel's sysfs, lscpu, dmidecode and /proc/cpuinfo tell of a machine whose DIMMs are known.

A name of a slot here is made up or written from memory: the tests need that it is known, not that a board has it.
"""
import dataclasses
import os
import pathlib
import subprocess

SKYLAKE, ICE_LAKE, SAPPHIRE, BROADWELL, SANDY = (6, 85), (6, 106), (6, 143), (6, 79), (6, 45)
# Controllers of a socket, channels of a controller, how EDAC's driver names a controller and a DIMM.
KINDS = {
    SKYLAKE: (2, 3, "Skylake Socket#{s} IMC#{m}", "CPU_SrcID#{s}_MC#{m}_Chan#{c}_DIMM#{d}"),
    ICE_LAKE: (4, 2, "Intel_10nm Socket#{s} IMC#{m}", "CPU_SrcID#{s}_MC#{m}_Chan#{c}_DIMM#{d}"),
    SAPPHIRE: (4, 2, "Intel_10nm Socket#{s} IMC#{m}", "CPU_SrcID#{s}_MC#{m}_Chan#{c}_DIMM#{d}"),
    BROADWELL: (2, 4, "Broadwell SrcID#{s}_Ha#{m}", "CPU_SrcID#{s}_Ha#{m}_Chan#{c}_DIMM#{d}"),
    SANDY: (1, 4, "Sandy Bridge SrcID#{s}_Ha#{m}", "CPU_SrcID#{s}_Ha#{m}_Chan#{c}_DIMM#{d}"),
}
DEVICE = """
Handle 0x{handle:04X}, DMI type 17, 84 bytes
Memory Device
\tArray Handle: 0x1000
\tTotal Width: 72 bits
\tSize: {size}
\tForm Factor: DIMM
\tLocator: {locator}
\tBank Locator: {bank}
\tType: DDR4
\tManufacturer: 00AD00B300AD
\tSerial Number: {serial}
\tAsset Tag: Unknown
\tPart Number: {part}
"""


def banks_of(kind, m, c):
    """The banks by which errors of a channel come: mesh to memory or home agent, and the controller's."""
    if kind == SKYLAKE:
        return (7, 8)[m], ((13, 14, 17), (15, 16, 18))[m][c]
    if kind == ICE_LAKE:
        return 12 + 4 * m, 13 + 4 * m + c
    if kind == SAPPHIRE:
        return 12, 13 + 2 * m + c
    return (7 + m, 9 + 4 * m + c) if kind == BROADWELL else (8 + c, 9)


@dataclasses.dataclass
class Dimm:
    """A DIMM: where it is, and what SMBIOS says of it."""

    place: tuple
    locator: str
    bank: str
    serial: str
    size: int = 32
    label: str = None  # EDAC's, if it isn't the driver's own

    @property
    def name(self):
        """Its place in a word: of an EPYC there is no socket in it."""
        return ("M{}.C{}.D{}" if len(self.place) == 3 else "S{}.M{}.C{}.D{}").format(*self.place)


class Server:
    """A folder in which service/setup finds a machine."""

    def __init__(self, room, name, kind, dimms, sockets=2, **how):
        self.folder, self.kind, self.dimms, self.sockets, self.how = pathlib.Path(room) / name, kind, dimms, sockets, how
        (self.folder / "bin").mkdir(parents=True)
        (self.folder / "etc").mkdir()
        self.packages = how.get("packages", list(range(sockets)))
        self.write_processors()
        if how.get("smbios", True):
            self.write_smbios()
        else:
            self.command("dmidecode", "exit 1")
        (self.folder / "mc").mkdir()
        if how.get("edac", True):
            self.write_edac()
        (self.folder / "dmi").mkdir()
        for key, text in how.get("board", {}).items():
            (self.folder / "dmi" / key).write_text(f"{text}\n")
        for form in set(how) & {"ras", "edac_utils"}:
            self.write_labels(form, how[form])
        self.slots = how.get("slots", lambda _: "")(self.dimms)

    def command(self, name, text):
        """Puts a command before the machine's own."""
        file = self.folder / "bin" / name
        file.write_text(f"#!/bin/bash\n{text}\n")
        file.chmod(0o755)

    def write_processors(self):
        """Four CPUs a socket; without --physical lscpu numbers sockets from 0 on."""
        physical = "".join(f"{4 * n + k},{package}\n" for n, package in enumerate(self.packages) for k in range(4))
        logical = "".join(f"{4 * n + k},{n}\n" for n in range(self.sockets) for k in range(4))
        said = f"if [[ $1 == --physical ]]; then cat <<'E'\n# CPU,Socket\n{physical}E\nelse cat <<'E'\n{logical}E\nfi"
        self.command("lscpu", said)
        family, model = self.kind
        vendor = self.how.get("vendor", "GenuineIntel")
        (self.folder / "cpuinfo").write_text(
            f"processor\t: 0\nvendor_id\t: {vendor}\ncpu family\t: {family}\nmodel\t\t: {model}\nmodel name\t: it\n\n"
            f"processor\t: 1\nvendor_id\t: {vendor}\ncpu family\t: 1\nmodel\t\t: 1\n\n"
        )

    def write_smbios(self):
        """The memory devices, and empty slots behind them."""
        devices = [
            DEVICE.format(handle=0x1100 + n, size=f"{it.size} GB", locator=it.locator, bank=it.bank, serial=it.serial, part="HMA84GR7")
            for n, it in enumerate(self.dimms)
        ]
        empty = DEVICE.format(
            handle=0x1180, size="No Module Installed", locator="EMPTY1", bank="P7_Node7_Channel7_Dimm7", serial="NO DIMM", part="NO DIMM"
        )
        text = "# dmidecode 3.4\n" + "".join(devices) + empty + self.how.get("more", "")
        if "away" in self.how:  # the last DIMM of the first socket is said to be elsewhere
            text = text.replace("P0_Node1_Channel2_Dimm0", self.how["away"])
        (self.folder / "smbios").write_text(text)
        self.command("dmidecode", f"cat '{self.folder}/smbios'")

    def write_edac(self):
        """EDAC's folders: one for each DIMM in one for each controller, numbered over all sockets."""
        controllers, _, name, label = KINDS[self.kind]
        for n, it in enumerate(self.dimms):
            s, m, c, d = it.place
            number = self.packages.index(s) * controllers + m
            folder = self.folder / "mc" / f"mc{number}" / f"dimm{n}"
            folder.mkdir(parents=True)
            (folder.parent / "mc_name").write_text(name.format(s=s, m=m) + "\n")
            (folder / "dimm_location").write_text(f"channel {c} slot {d} \n")
            (folder / "size").write_text(f"{1024 * (32 if n == self.how.get('resize') else it.size)}\n")
            (folder / "dimm_edac_mode").write_text(self.how.get("mode", "S4ECD4ED") + "\n")
            (folder / "dimm_label").write_text(f"{label.format(s=s, m=m, c=c, d=d) if it.label is None else it.label}\n")

    def write_labels(self, form, is_here):
        """A file of rasdaemon's form or edac-utils' with labels of this board, for the DIMMs that `is_here` takes."""
        lines = ["Vendor: Another", " Model: It", "  WRONG: 0.0.0", "Vendor: Maker"]
        lines.append(" Model: Old, BOARD X" if form == "edac_utils" else " Product: POWER 740, POWER 750")
        for it in filter(is_here, self.dimms):
            s, m, c, d = it.place
            number = self.packages.index(s) * KINDS[self.kind][0] + m
            lines.append(f"  {it.locator}: {number}.{d}.{c};" if form == "edac_utils" else f"  {it.locator}: {number}.{c}.{d}")
        file = self.folder / "etc" / ("edac/labels.db" if form == "edac_utils" else "ras/dimm_labels.d/maker")
        file.parent.mkdir(parents=True)
        file.write_text("# labels\n" + "\n".join(lines) + "\n")

    def edac_label(self, dimm):
        """What EDAC calls a DIMM."""
        s, m, c, d = dimm.place
        return KINDS[self.kind][3].format(s=s, m=m, c=c, d=d) if dimm.label is None else dimm.label

    def setup(self, command, slots=None, **settings):
        """What a command printed, what it said, and its status."""
        if slots is not None:
            (self.folder / "slots").write_text(slots)
        paths = {"RASD_EDAC": "mc", "RASD_CPUINFO": "cpuinfo", "RASD_DMI": "dmi", "RASD_LABELS": "etc"}
        environment = {**os.environ, "MCG_CAP": "1000c1c", "SERIALS": "yes", **settings}
        environment.update({key: str(self.folder / it) for key, it in paths.items()})
        environment["PATH"] = f"{self.folder}/bin:{os.environ['PATH']}"
        words = [command, *([self.folder / "slots"] if slots is not None else ["/dev/null"])]
        ran = subprocess.run(words, capture_output=True, text=True, env=environment)
        return ran.stdout, ran.stderr, ran.returncode


# What the kernel prints of a memory error on a processor of Intel's, in forms of tests/program/kernel.txt: in its trace, where EDAC's
# event comes behind the machine check, and in its log, where EDAC's driver prints both.
INTEL_TRACE = (
    "    kworker/3:1-77      [003] .....   100.{n:06d}: mce_record: CPU: {cpu}, MCGc/s: 1000c1c/0, MC{bank}: {status:016x}, IPID: "
    "{zero:016x}, ADDR/MISC/SYND: {address:016x}/{misc:016x}/{zero:016x}, RIP: 00:<{zero:016x}>, TSC: {n:x}, PROCESSOR: 0:50654, "
    "TIME: 100, SOCKET: 0, APIC: 0\n"
    "    kworker/3:1-77      [003] .....   100.{n:06d}: mc_event: 1 Corrected error: memory read error on {label} (mc:{mc} "
    "location:{c}:{d}:-1 address:0x{address:08x} grain:32 syndrome:0x00000000  err_code:0x0000:0x0090)\n"
)
INTEL_LOG = (
    "[  100.{n:06d}] host kernel: EDAC skx MC{mc}: HANDLING MCE MEMORY ERROR\n"
    "[  100.{n:06d}] host kernel: EDAC skx MC{mc}: CPU {cpu}: Machine Check Event: 0x0 Bank {bank}: 0x{status:x}\n"
    "[  100.{n:06d}] host kernel: EDAC skx MC{mc}: TSC 0x{n:x} \n"
    "[  100.{n:06d}] host kernel: EDAC skx MC{mc}: ADDR 0x{address:x} \n"
    "[  100.{n:06d}] host kernel: EDAC skx MC{mc}: MISC 0x{misc:x} \n"
    "[  100.{n:06d}] host kernel: EDAC skx MC{mc}: PROCESSOR 0:0x50654 TIME 100 SOCKET 0 APIC 0x0\n"
    "[  100.{n:06d}] host kernel: EDAC MC{mc}: 1 CE memory read error on {label} (channel:{c} slot:{d} page:0x{page:x} "
    "offset:0x{offset:x} grain:32 syndrome:0x0 -  err_code:0x0000:0x0090)\n"
)


# An event of amd64_edac in a trace, behind the machine check of which it tells: 1, a message and a label, a controller and layers.
CHECK = (
    "    kworker/3:1-77      [003] .....   {0:d}.{1:06d}: mce_record: CPU: 3, MCGc/s: 120/0, MC17: 9c2040000000011b, IPID: "
    "0000009600050f00, ADDR/MISC/SYND: 0000000000000040/d01a0ffe00000000/00006bf40a800000, RIP: 00:<0000000000000000>, TSC: 0, "
    "PROCESSOR: 2:a00f11, TIME: 1400000000, SOCKET: 0, APIC: 3\n"
)
DRIVER = (
    "    kworker/3:1-77      [003] .....   {0:d}.{1:06d}: mc_event: 1 {2} error:{3} on {4} (mc:{5} location:{6}:{7}:-1 "
    "address:0x{8:08x} grain:64 syndrome:0x00006bf4)\n"
)


class Epyc(Server):
    """A server of AMD's: amd64_edac has a folder for each chip select of a channel, and a DIMM has two, or one."""

    def __init__(self, room, name, dimms, ranks=2, controllers=2, **how):
        self.ranks = ranks
        super().__init__(room, name, (25, 1), dimms, **{"vendor": "AuthenticAMD", **how})

    def selects(self, dimm):
        """The chip selects of a DIMM."""
        return [2 * dimm.place[2] + k for k in range(self.ranks)]

    def rank_label(self, dimm, select):
        """What EDAC calls a rank, if nobody registered a label."""
        return f"mc#{dimm.place[0]}csrow#{select}channel#{dimm.place[1]}" if dimm.label is None else dimm.label

    def write_edac(self):
        """A folder for each rank, with its place; a rank has its part of the DIMM's size."""
        for dimm in self.dimms:
            m, c, _ = dimm.place
            for select in self.selects(dimm):
                folder = self.folder / "mc" / f"mc{m}" / f"rank{8 * select + c}"
                folder.mkdir(parents=True)
                (folder.parent / "mc_name").write_text("F19h\n")
                (folder / "dimm_location").write_text(f"csrow {select} channel {c} \n")
                (folder / "size").write_text(f"{1024 * dimm.size // self.ranks}\n")
                (folder / "dimm_edac_mode").write_text("S16ECD16ED\n")
                (folder / "dimm_label").write_text(f"{self.rank_label(dimm, select)}\n")

    def write_labels(self, form, is_here):
        """A file with a label for each rank, or in edac-utils' form for the first rank of each DIMM."""
        lines = ["Vendor: Maker", " Model: BOARD X"]
        for it in filter(is_here, self.dimms):
            m, c, _ = it.place
            selects = self.selects(it)[: 1 if form == "edac_utils" else None]
            lines.append(f"  {it.locator}: " + ", ".join(f"{m}.{select}.{c}" for select in selects))
        file = self.folder / "etc" / ("edac/labels.db" if form == "edac_utils" else "ras/dimm_labels.d/maker")
        file.parent.mkdir(parents=True)
        file.write_text("\n".join(lines) + "\n")

    def trace(self):
        """A trace with two errors of each rank, and the DIMM of each by the number of its event: its time stamp."""
        lines, truth = [], {}
        for dimm in self.dimms:
            for select in self.selects(dimm) * 2:
                n, (m, c, _) = len(truth) + 1, dimm.place
                address = 0x100000000 + 4096 * n
                lines.append(CHECK.format(100 + n, 0) + DRIVER.format(
                    100 + n, 9, "Corrected", "", self.rank_label(dimm, select), m, select, c, address))
                truth[1_000_000 * (100 + n) + 9] = dimm
        return "".join(lines), truth


def epycs(room):
    """Servers of AMD's: by which source their DIMMs have names."""
    board = {"board_vendor": "Maker", "board_name": "Board X", "product_name": "Power 940"}
    table = lambda dimms: "".join(f"{it.name} {it.locator}\n" for it in dimms)
    every = lambda it: True
    both = epyc_dimms(2, 8, 2)
    return [
        Epyc(room, "epyc-slots", both, slots=table),
        Epyc(room, "epyc-places", epyc_dimms(2, 8, 1), ranks=1),
        Epyc(room, "epyc-labels", both, board=board, ras=every),
        Epyc(room, "epyc-one-label", epyc_dimms(1, 8, 1), board=board, edac_utils=every, sockets=1),
        Epyc(room, "epyc-registered", registered(epyc_dimms(8, 2, 2))),
        Epyc(room, "hygon", epyc_dimms(1, 2, 1), sockets=1, vendor="HygonGenuine"),
    ]


def epyc_dimms(controllers, channels, dimms):
    """A DIMM for each pair of chip selects. The firmware's letters of channels aren't in the order of EDAC's numbers."""
    places = [(m, c, d) for m in range(controllers) for c in range(channels) for d in range(dimms)]
    return [
        Dimm(it, f"P{it[0]}_DIMM{'CDBAGHFE'[it[1]]}{it[2] + 1}", f"P{it[0]}_Node0_Channel{it[1]}_Dimm{it[2]}", f"2B0000{n:02X}")
        for n, it in enumerate(places)
    ]


def dimms_of(kind, sockets, slots, name, bank=lambda *_: "Not Specified", channels=None, **how):
    """A DIMM in each slot, with names by `name` and Bank Locators by `bank`."""
    controllers, most, *_ = KINDS[kind]
    places = [
        (s, m, c, d)
        for s in sockets for m in range(controllers) for c in range(most if channels is None else channels) for d in range(slots)
    ]
    return [Dimm(it, name(*it), bank(*it), f"1A0000{n:02X}", **how) for n, it in enumerate(places)]


def letters(s, m, c, d, of=3):
    """As A1 to A12: a letter for the socket, the second slots behind the first."""
    return f"{'AB'[s % 2]}{m * of + c + 1 + d * of * (2 if of == 3 else 4)}"


def by_node(s, m, c, d):
    """A Bank Locator that says the place."""
    return f"P{s}_Node{m}_Channel{c}_Dimm{d}"


def supermicro(per):
    """Names as P1-DIMMA1, by the channel's letter."""
    return lambda s, m, c, d: f"P{s + 1}-DIMM{'ABCDEFGH'[m * per + c]}{d + 1}"


def hewlett(s, m, c, d):
    """As PROC 1 DIMM 8."""
    return f"PROC {s + 1} DIMM {m * 6 + c * 2 + d + 1}"


def layouts(room):
    """The servers."""
    both, one = range(2), range(1)
    wide = lambda *it: letters(*it, of=2)
    board = {"board_vendor": "Maker", "board_name": "Board X", "product_name": "Power 740"}
    table = lambda dimms: "# ours\n" + "".join(f"{it.name} {it.locator}\n" for it in dimms)
    every = lambda it: True
    return [
        Server(room, "r740-12x2", SKYLAKE, dimms_of(SKYLAKE, both, 2, letters), board=board, ras=every),
        Server(room, "r740-6x1", SKYLAKE, dimms_of(SKYLAKE, both, 1, letters), slots=table),
        Server(room, "r740-2x1", SKYLAKE, dimms_of(SKYLAKE, both, 1, letters, channels=1), board=board, ras=every),
        Server(room, "dl380-12x2", SKYLAKE, dimms_of(SKYLAKE, both, 2, hewlett), board=board, edac_utils=every),
        Server(room, "x11-6x1", SKYLAKE, dimms_of(SKYLAKE, both, 1, supermicro(3), by_node)),
        Server(room, "x11-type20", SKYLAKE, dimms_of(SKYLAKE, both, 1, supermicro(3), by_node), more=type20(12)),
        Server(room, "x11-no-edac", SKYLAKE, dimms_of(SKYLAKE, both, 1, supermicro(3), by_node), edac=False),
        Server(room, "x12-8x1", ICE_LAKE, dimms_of(ICE_LAKE, both, 1, supermicro(2), by_node)),
        Server(room, "r750-8x2", ICE_LAKE, dimms_of(ICE_LAKE, both, 2, wide), slots=table),
        Server(room, "x13-8x1", SAPPHIRE, dimms_of(SAPPHIRE, both, 1, supermicro(2), by_node)),
        Server(room, "x13-8x2", SAPPHIRE, dimms_of(SAPPHIRE, both, 2, supermicro(2), by_node)),
        Server(room, "broadwell-4x1", BROADWELL, dimms_of(BROADWELL, one, 1, supermicro(4), by_node)[:4], sockets=1),
        Server(room, "broadwell-2x3", BROADWELL, dimms_of(BROADWELL, both, 3, supermicro(4), channels=2)),
        Server(room, "r740-registered", SKYLAKE, registered(dimms_of(SKYLAKE, both, 2, letters))),
        Server(room, "sandy-4x2", SANDY, dimms_of(SANDY, both, 2, supermicro(4)), board=board, ras=every),
        Server(room, "odd-packages", SKYLAKE, dimms_of(SKYLAKE, (0, 3), 1, supermicro(3), by_node), packages=[0, 3]),
    ]


def registered(dimms):
    """The same DIMMs, their names registered with EDAC."""
    return [dataclasses.replace(it, label=it.locator) for it in dimms]


def type20(count):
    """Contiguous ranges, as boards give them though memory is interleaved."""
    entry = "\nHandle 0x{:04X}, DMI type 20, 35 bytes\n\tStarting Address: 0x{:011X}\n\tEnding Address: 0x{:011X}\n\tPhysical Device Handle: 0x{:04X}\n"
    return "".join(entry.format(0x1300 + n, n << 35, (n + 1 << 35) - 1, 0x1100 + n) for n in range(count))
