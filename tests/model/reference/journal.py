"""The journal: the bytes of its two files, their recovery, and how they are written."""
import contextlib
import dataclasses
import itertools
import os
import stat
import struct

from reference.account import CLASSES, MOST_COUNTED, MOST_NAMES, Account, Bucket, Entry, Item, Module, Page
from reference.base import Bytes, Fault, Stop, Unreadable, check
from reference.script import is_label

MOST_BYTES = 67_108_864
MOST_LINKS = 256
MOST_ENTRIES = 2_000
LAST_GENERATION = 2**63 - 1
MAGICS = {b"RASJRNL1": 1, b"RASJRNL2": 2}
OPEN, CLOSED = b"\xa5", b"\0"

# ---- bytes

NAME_FORMS = {"bank": (1, "<QHBQ"), "record": (2, "<Q"), "block": (3, "<QHQ"), "bert": (4, "<Q")}
NAME_KINDS = {number: kind for kind, (number, _) in NAME_FORMS.items()}
ENTRY_NUMBERS = {"fact": 1, "limit": 2, "retire": 3, "module-limit": 4}
ENTRY_KINDS = {number: kind for kind, number in ENTRY_NUMBERS.items()}
LIMIT = ((1, 1_000_000), (1, 10_000_000))


def bytes_of_name(name):
    """A name in a file."""
    number, form = NAME_FORMS[name[0]]
    return bytes([number]) + struct.pack(form, *name[1:])


def bytes_of_label(label):
    """A label in a file."""
    return bytes([len(label)]) + label


def bytes_of_entry(entry):
    """An entry in a file."""
    start = bytes([ENTRY_NUMBERS[entry.kind]])
    if entry.kind != "fact":
        return start + struct.pack(f"<{len(entry.numbers)}Q", *entry.numbers)
    parts = [start, bytes_of_name(entry.name), struct.pack("<QH", entry.seconds, len(entry.items))]
    for item in entry.items:
        page = b"\0" if item.page is None else struct.pack("<BQ", 1, item.page)
        parts += [bytes([CLASSES.index(item.kind)]), bytes_of_label(item.label), page, struct.pack("<H", item.weight)]
    return b"".join(parts)


def bytes_of_link(entries):
    """A link of entries."""
    payload = struct.pack("<I", len(entries)) + b"".join(map(bytes_of_entry, entries))
    return struct.pack("<I", len(payload)) + payload


def bytes_of_checkpoint(account):
    """A checkpoint of version 2."""
    parts = [struct.pack("<6Q", *account.limit, *account.module_limit, account.entries, account.floor)]
    parts += [struct.pack("<Q", len(account.names)), *map(bytes_of_name, account.names)]
    parts.append(struct.pack("<Q", len(account.modules)))
    for label, module in account.modules.items():
        parts.append(bytes_of_label(label) + struct.pack("<10Q", *module.sums))
        bucket = module.bucket
        parts.append(struct.pack("<BQQB", 1, bucket.count, bucket.stamp, module.is_replaced) if bucket else b"\0")
    parts.append(struct.pack("<Q", len(account.pages)))
    for number, page in account.pages.items():
        parts.append(struct.pack("<QQQB", number, page.bucket.count, page.bucket.stamp, page.state))
    return b"".join(parts)


def read_name(source):
    """A name in a file."""
    kind = NAME_KINDS[source.number(1, 1, len(NAME_KINDS))]
    _, form = NAME_FORMS[kind]
    return (kind, *struct.unpack(form, source.take(struct.calcsize(form))))


def read_label(source):
    """A label in a file."""
    label = source.take(source.number(1, most=32))
    check(not label or is_label(label))
    return label


def read_limit(source):
    """Capacity and period in a file."""
    return tuple(source.number(8, *ends) for ends in LIMIT)


def read_item(source):
    """An item in a file."""
    kind, label = CLASSES[source.number(1, most=9)], read_label(source)
    page = source.number(8, most=2**52 - 1) if source.number(1, most=1) else None
    return Item(kind, label, page, source.number(2, 1, 32_767))


def read_entry(source, version):
    """An entry in a file of this version."""
    kind = ENTRY_KINDS[source.number(1, 1, 4 if version == 2 else 3)]
    if kind == "retire":
        return Entry(kind, (source.number(8),))
    if kind != "fact":
        return Entry(kind, read_limit(source))
    name, seconds, count = read_name(source), source.number(8), source.number(2)
    return Entry(kind, (), name, seconds, tuple(read_item(source) for _ in range(count)))


def read_payload(data, version):
    """The entries of a link."""
    source = Bytes(data)
    entries = [read_entry(source, version) for _ in range(source.number(4, 1, MOST_ENTRIES))]
    check(source.at == len(data))
    return entries


def read_rows(source, most, read):
    """A table: the number of its rows, and the rows, whose keys differ."""
    rows = {}
    for _ in range(source.number(8, most=most)):
        key, value = read(source)
        check(key not in rows)
        rows[key] = value
    return rows


def read_module(source, version):
    """A module's row."""
    label, module = read_label(source), Module([source.number(8) for _ in CLASSES])
    if version == 2 and source.number(1, most=1):
        check(label)
        module.bucket = Bucket(source.number(8, most=999_999), source.number(8))
        module.is_replaced = bool(source.number(1, most=1))
    return label, module


def read_page(source):
    """A page's row."""
    number, count = source.number(8, most=2**52 - 1), source.number(8, most=999_999)
    stamp = source.number(8)
    return number, Page(Bucket(count, stamp), source.number(1, most=2))


def read_checkpoint(data, version):
    """The account of a checkpoint of this version."""
    source, account = Bytes(data), Account()
    account.limit = read_limit(source)
    if version == 2:
        account.module_limit = read_limit(source)
    account.entries = source.number(8, most=MOST_COUNTED)
    if version == 2:
        account.floor = source.number(8)
    account.names = read_rows(source, MOST_NAMES, lambda it: (read_name(it), None))
    account.modules = read_rows(source, None, lambda it: read_module(it, version))
    account.pages = read_rows(source, None, read_page)
    if version == 1 and source.at < len(data):
        account.floor = source.number(8, least=1)
    check(source.at == len(data) and account.total() <= MOST_COUNTED)
    check(not any(map(account.is_retired, account.names)))
    return account


@dataclasses.dataclass
class Position:
    """Where a journal stands: its file, of a version and generation, its closed gate and links."""

    file: int
    version: int
    generation: int
    gate: int
    links: int = 0


@contextlib.contextmanager
def field_at(file, place):
    """A field that begins at this place of a file: where it doesn't read, the file is damaged."""
    try:
        yield
    except Unreadable:
        raise Stop(7, f"file={file} place={place}") from None


def scan(data, file, taken=None):
    """The position and account of a file; None where it doesn't stand. `taken` is a generation."""
    if len(data) < 2 or data[:1] != OPEN:
        return None
    source = Bytes(data, 1)
    with field_at(file, 1):
        version = MAGICS.get(source.take(8))
        check(version)
    with field_at(file, 9):
        generation = source.number(8, 1, LAST_GENERATION)
        check(generation != taken)
    with field_at(file, 17):
        length = source.number(8)
    with field_at(file, 25):
        account = read_checkpoint(source.take(length), version)
    for links in itertools.count():
        place = source.at
        with field_at(file, place):
            gate = source.take(1)
        if gate != OPEN:
            break
        with field_at(file, place + 1):
            length = source.number(4)
        with field_at(file, place + 5):
            for entry in read_payload(source.take(length), version):
                if account.is_fresh(entry):
                    check(account.has_room(entry))
                    account.take(entry)
    if version == 1:
        account.mark()
    return Position(file, version, generation, place, links), account


def recover(files):
    """What two files hold: the position, or None where none stands, and the account."""
    check(all(len(data) <= MOST_BYTES for data in files), Stop(13, "too-long"))
    zero = scan(files[0], 0)
    one = scan(files[1], 1, zero and zero[0].generation)
    standing = [it for it in (zero, one) if it]
    return max(standing, key=lambda it: it[0].generation) if standing else (None, Account())


# ---- the disk


class Disk:
    """The two files and that of the record store in memory, and the calls made on the two."""

    def __init__(self, files=(None, None), store=None):
        self.files, self.store = [bytearray(data or b"") for data in files], store
        self.calls = []

    def read_store(self):
        """The bytes of the record store's file, or None if it is missing."""
        return self.store

    def replace_store(self, data):
        """Puts a new file in the place of the record store's."""
        self.store = data

    def sync(self, file):
        """Makes a file durable."""
        self.calls.append(("Sync", file))

    def size(self, file):
        """Asks for the length of a file."""
        self.calls.append(("Size", file))

    def write(self, file, place, data):
        """Writes bytes into a file, and makes it durable."""
        self.calls.append(("WriteAt", file, place, len(data)))
        self.files[file][place : place + len(data)] = data
        self.sync(file)


@contextlib.contextmanager
def faults_of_store():
    """What fails here is a fault of the device that keeps the record store."""
    try:
        yield
    except OSError:
        raise Fault(5) from None


class FolderDisk(Disk):
    """The files of the working folder."""

    def __init__(self):
        flags = os.O_RDWR | os.O_CREAT
        self.numbers = [os.open(f"rasd.{file}", flags, 0o666) for file in (0, 1)]
        super().__init__([os.pread(it, MOST_BYTES + 1, 0) for it in self.numbers])

    def read_store(self):
        with faults_of_store():
            if not os.path.lexists("rasd.store"):
                return None
            check(stat.S_ISREG(os.lstat("rasd.store").st_mode), Fault(5))
            with open("rasd.store", "rb") as file:
                return file.read()

    def replace_store(self, data):
        with faults_of_store():
            with contextlib.suppress(OSError):
                os.remove("rasd.new")
            with open("rasd.new", "xb", 0) as file:
                done = 0
                while done < len(data):
                    done += file.write(data[done:])
            os.replace("rasd.new", "rasd.store")

    def sync(self, file):
        super().sync(file)
        os.fsync(self.numbers[file])

    def write(self, file, place, data):
        done = 0
        while done < len(data):
            done += os.pwrite(self.numbers[file], data[done:], place + done)
        super().write(file, place, data)


class Journal:
    """The journal on a disk, opened: its position and its account."""

    def __init__(self, disk):
        self.disk = disk
        for call in (disk.sync, disk.size):
            call(0)
            call(1)
        self.position, self.account = recover(disk.files)
        if self.position is None:
            self.format(0, 1, bytes_of_checkpoint(self.account))

    def format(self, file, generation, checkpoint):
        """Writes a file anew, whose gate is opened last."""
        data = self.disk.files[file]
        if len(data) < 2 or data[:1] == OPEN:
            self.disk.write(file, 0, CLOSED)
        head = b"RASJRNL2" + struct.pack("<QQ", generation, len(checkpoint))
        self.disk.write(file, 1, head + checkpoint + CLOSED)
        self.disk.write(file, 0, OPEN)
        self.position = Position(file, 2, generation, 25 + len(checkpoint))

    def append(self, link):
        """Appends a link, after a switch to the other file where one is due."""
        at = self.position
        is_long = at.gate + len(link) + 2 > MOST_BYTES
        if at.links >= MOST_LINKS or is_long or at.version == 1:
            checkpoint = bytes_of_checkpoint(self.account)
            is_long = 25 + len(checkpoint) + len(link) + 2 > MOST_BYTES
            check(not is_long and at.generation < LAST_GENERATION, Stop(8, "full"))
            self.format(1 - at.file, at.generation + 1, checkpoint)
            at = self.position
        self.disk.write(at.file, at.gate + 1, link + CLOSED)
        self.disk.write(at.file, at.gate, OPEN)
        at.gate += len(link) + 1
        at.links += 1
