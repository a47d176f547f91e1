"""The run: what a script does, line by line."""
import dataclasses

from reference import reports, store
from reference.account import Entry, Item, text_of_name
from reference.base import Fault, Refused, Stop, check
from reference.journal import Journal, bytes_of_link
from reference.reports import digits
from reference.script import TOPOLOGY, Topology, lines_of, read_line


class NoTable(Exception):
    """A line is refused, since there is no table for it, or its table isn't admitted."""


@dataclasses.dataclass
class Piece:
    """A part of what a line makes: its entry, if it has one, and the lines that tell it, if that is fresh."""

    entry: Entry
    lines: list


class Run:
    """A run over a disk, which prints by `write`."""

    def __init__(self, disk, write):
        self.disk, self.write = disk, write
        self.topology, self.sources, self.has_table = Topology(), set(), False
        self.device = store.Device(disk)
        self.done = 0

    def print(self, lines):
        """Prints lines by one call, where there are any."""
        if lines:
            self.write("".join(lines).encode())

    def take_all(self, pieces, events=None):
        """Takes a script, or so many events of it, and answers the status."""
        try:
            self.restart()
            for number, line in lines_of(pieces):
                if self.done == events:
                    return 0
                self.take_line(number, line)
        except Stop as end:
            self.print([f"stop {end.status} {end.text}\n"])
            return end.status
        except Fault as end:
            return end.status
        account = self.journal.account
        self.print([f"end entries={account.entries} names={len(account.names)}\n"])
        return 0

    def take_line(self, number, line):
        """Takes a line."""
        try:
            event = read_line(line)
            if event:
                kind, values = event
                getattr(self.topology if kind in TOPOLOGY else self, kind)(*values)
                self.print([f"done {number}\n"])
                self.done += 1
        except Refused as end:
            raise Stop(2, f"line={number} reason={end}") from None
        except NoTable:
            raise Stop(9, f"line={number}") from None

    def take(self, *pieces):
        """Takes what a line makes: appends what is fresh as one link, counts it, and tells all and then the orders."""
        account, fresh, lines = self.journal.account, [], []
        for it in pieces:
            is_told = it.entry is None or account.is_fresh(it.entry) and it.entry.name not in [e.name for e in fresh]
            lines += it.lines if is_told else self.known(it.entry)
            fresh += [it.entry] * (is_told and it.entry is not None)
        check(account.has_room(*fresh), Stop(8, "full"))
        if fresh:
            self.journal.append(bytes_of_link(fresh))
        self.print(lines + [order for it in fresh for order in account.take(it)])

    def known(self, entry):
        """What is told of an entry that isn't fresh."""
        if entry.kind != "fact":
            return []
        word = "stale" if self.journal.account.is_retired(entry.name) else "repeat"
        return [f"{word} {text_of_name(entry.name)}\n"]

    def restart(self):
        """Opens the journal, and tells the orders that stand."""
        self.journal = Journal(self.disk)
        self.print(self.journal.account.standing_orders())

    def set(self, kind, *numbers):
        """Takes a limit of a kind."""
        self.take(Piece(Entry(kind, numbers), ["{} capacity={} period={}\n".format(kind, *numbers)]))

    def limit(self, *limit):
        """A line `limit`."""
        self.set("limit", *limit)

    def module_limit(self, *limit):
        """A line `module-limit`."""
        self.set("module-limit", *limit)

    def retire(self, boot):
        """A line `retire`."""
        dropped = [it for it in self.journal.account.names if it[0] != "record" and it[1] < boot]
        self.take(Piece(Entry("retire", (boot,)), [f"retire boot={boot} names={len(dropped)}\n"]))

    def fact(self, name, seconds, told):
        """A fact of items, each with what its log line says of it."""
        entry = Entry("fact", (), name, seconds, tuple(item for item, _ in told))
        text = text_of_name(name)
        lines = [f"log {text} t={seconds} empty\n"] * (not told)
        for item, detail in told:
            label, page = item.label.decode() or "-", digits(item.page and item.page * 4096)
            line = f"t={seconds} class={item.kind} weight={item.weight} label={label} page={page} {detail}"
            lines.append(f"log {text} {line}\n")
        return Piece(entry, lines)

    def bank(self, *bank):
        """A line `bank`."""
        if reports.bit(bank[7], reports.VAL):
            self.take(self.bank_fact(*bank))

    def bank_fact(self, boot, seconds, cpu, bank, tsc, cap, mcg, status, addr, misc):
        """The fact of a bank's report that is valid."""
        address, rows = reports.address_of(cap, status, addr, misc), self.topology
        channel = reports.channel_of(status & 0xFFFF)
        label = rows.owner(address, rows.modules, rows.sockets.get(cpu), bank, channel)
        page, weight = address and address // 4096, reports.weight_of(cap, status)
        item = Item(reports.class_of(cap, status), label, page, weight)
        name = ("bank", boot, cpu, bank, tsc)
        return self.fact(name, seconds, [(item, reports.bank_detail(cap, mcg, status))])

    def section_fact(self, name, seconds, sections):
        """The fact of the sections of a block or a record."""
        rows, told = self.topology, []
        for it in sections:
            label = rows.owner(it.address, rows.places, *it.place) if it.is_memory else b""
            page = it.address and it.address // 4096
            told.append((Item(it.kind, label, page, 1), it.detail))
        return self.fact(name, seconds, told)

    def block(self, name, seconds, data):
        """A status block under a name."""
        sections = reading("block", reports.read_block, data)
        if sections is not None:
            self.take(self.section_fact(name, seconds, sections))

    def hest(self, table):
        """A line `hest`."""
        self.sources = reading("hest", reports.read_hest, table)

    def ghes(self, boot, seconds, source, number, data):
        """A line `ghes`."""
        check(source in self.sources, Refused("source"))
        self.block(("block", boot, source, number), seconds, data)

    def bert(self, boot, seconds, table, region):
        """A line `bert`."""
        length = reading("bert", reports.read_bert, table)
        self.block(("bert", boot), seconds, region[:length])

    def erst(self, table):
        """A line `erst`."""
        check(store.is_admitted(reading("erst", store.read_erst, table)), NoTable())
        self.has_table = True

    def put(self, identifier, data):
        """A line `put`."""
        self.device.put(identifier, data)

    def panic(self, identifier, *bank):
        """A line `panic`."""
        record = store.panic_record(identifier, bank)
        check(self.has_table, NoTable())
        self.device.write(identifier, record)

    def poll(self, seconds):
        """A line `poll`."""
        check(self.has_table, NoTable())
        pieces, readable = [], []
        for identifier, data in self.device.records().items():
            try:
                sections = store.sections_of(identifier, data)
            except Refused as end:
                pieces.append(Piece(None, [f"unreadable record={digits(identifier)} reason={end}\n"]))
                continue
            bank, name = store.panic_of(sections), ("record", identifier)
            pieces.append(self.bank_fact(*bank) if bank else self.section_fact(name, seconds, sections))
            readable.append(identifier)
        self.take(*pieces)
        for identifier in readable:
            self.device.clear(identifier)


def reading(reader, read, data):
    """What a reader of reports reads."""
    try:
        return read(data)
    except reports.Refused as end:
        raise Refused(f"{reader}.{end}") from None
