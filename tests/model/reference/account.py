"""The account: what the entries of a history come to."""
import dataclasses

from reference.reports import digits

MOST_NAMES = 200_000
MOST_COUNTED = 2**62
CLASSES = "CE UCNA SRAO SRAR UC ODD corrected recoverable fatal informational".split()
STATES = ("kept", "soft", "hard")


@dataclasses.dataclass(frozen=True)
class Item:
    """One part of a report: its class, the label or nothing, the page or None, and the weight."""

    kind: str
    label: bytes
    page: int
    weight: int


@dataclasses.dataclass(frozen=True)
class Entry:
    """What a journal holds: a fact, or a limit, a module limit (two numbers), a retire (one)."""

    kind: str
    numbers: tuple = ()
    name: tuple = ()
    seconds: int = 0
    items: tuple = ()


@dataclasses.dataclass
class Bucket:
    """Errors that leak out with time."""

    count: int
    stamp: int

    def step(self, limit, now, weight):
        """Counts errors, and answers whether the bucket then was full, which empties it."""
        capacity, period = limit
        if now - self.stamp >= period:
            self.count = max(0, self.count - (now - self.stamp) * capacity // period)
            self.stamp = now
        self.count += weight
        is_full = self.count >= capacity
        if is_full:
            self.count = 0
        return is_full


@dataclasses.dataclass
class Module:
    """What is known of a label."""

    sums: list = dataclasses.field(default_factory=lambda: [0] * len(CLASSES))
    bucket: Bucket = None
    is_replaced: bool = False


@dataclasses.dataclass
class Page:
    """What is known of a page."""

    bucket: Bucket
    state: int = 0


def boot_of(name):
    """The boot of a name, which one of a record has not."""
    return None if name[0] == "record" else name[1]


def text_of_name(name):
    """A name as it is printed."""
    kind, *numbers = name
    return f"record={digits(*numbers)}" if kind == "record" else f"{kind}={'/'.join(map(str, numbers))}"


@dataclasses.dataclass
class Account:
    """What the entries so far come to. Tables are in first-seen order."""

    limit: tuple = (10, 86_400)
    module_limit: tuple = (100, 86_400)
    floor: int = 0
    entries: int = 0
    names: dict = dataclasses.field(default_factory=dict)
    modules: dict = dataclasses.field(default_factory=dict)
    pages: dict = dataclasses.field(default_factory=dict)

    def total(self):
        """The weight of all that was counted."""
        return sum(sum(module.sums) for module in self.modules.values())

    def is_retired(self, name):
        """Whether a name is of a boot below the floor."""
        return boot_of(name) is not None and boot_of(name) < self.floor

    def is_fresh(self, entry):
        """Whether an entry changes the account."""
        if entry.kind == "fact":
            return entry.name not in self.names and not self.is_retired(entry.name)
        if entry.kind == "retire":
            return entry.numbers[0] > self.floor
        return entry.numbers != (self.limit if entry.kind == "limit" else self.module_limit)

    def has_room(self, *entries):
        """Whether fresh entries keep the account within its limits."""
        weight = sum(item.weight for entry in entries for item in entry.items)
        names = sum(entry.kind == "fact" for entry in entries)
        is_named = not names or len(self.names) + names <= MOST_NAMES
        is_counted = self.entries + len(entries) <= MOST_COUNTED
        return is_named and is_counted and self.total() + weight <= MOST_COUNTED

    def take(self, entry):
        """Continues the account by a fresh entry, and answers the orders that it gives."""
        self.entries += 1
        if entry.kind == "limit":
            self.limit = entry.numbers
        elif entry.kind == "module-limit":
            self.module_limit = entry.numbers
        elif entry.kind == "retire":
            self.floor = entry.numbers[0]
            self.names = {it: None for it in self.names if not self.is_retired(it)}
        else:
            self.names[entry.name] = None
        return [order for item in entry.items for order in self.take_item(item, entry.seconds)]

    def take_item(self, item, now):
        """Counts an item, and answers the orders that it gives: its page's, then its module's."""
        module = self.modules.setdefault(item.label, Module())
        module.sums[CLASSES.index(item.kind)] += item.weight
        is_corrected = item.kind in ("CE", "corrected")
        if item.page is not None:
            page = self.pages.setdefault(item.page, Page(Bucket(0, now)))
            state = 2 if item.kind in ("SRAO", "SRAR", "recoverable", "UC", "fatal") else 0
            if item.kind == "UCNA" or is_corrected and page.bucket.step(self.limit, now, item.weight):
                state = 1
            if state > page.state:
                page.state = state
                yield order_of_page(item.page, page)
        if item.label and is_corrected:
            module.bucket = module.bucket or Bucket(0, now)
            if module.bucket.step(self.module_limit, now, item.weight) and not module.is_replaced:
                module.is_replaced = True
                yield order_of_module(item.label)

    def mark(self):
        """Forgets the buckets of modules, as at the taking over of a version 1 journal."""
        for module in self.modules.values():
            module.bucket, module.is_replaced = None, False

    def standing_orders(self):
        """The orders that stand: those of pages, then those of modules."""
        pages = [order_of_page(*it) for it in self.pages.items() if it[1].state]
        return pages + [order_of_module(it) for it, module in self.modules.items() if module.is_replaced]


def order_of_page(number, page):
    """The line that orders a page out of use."""
    return f"order {STATES[page.state]} page={digits(number * 4096)}\n"


def order_of_module(label):
    """The line that asks for a module to be replaced."""
    return f"order module label={label.decode()}\n"
