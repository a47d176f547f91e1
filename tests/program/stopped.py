"""What a run may leave that ends before its script does, because it is killed, or a call or an allocation fails."""
import functools
import re

import model
from reference.base import Stop, Unreadable
from reference.journal import bytes_of_checkpoint, recover
from reference.store import read_store

JOURNAL = ("rasd.0", "rasd.1")
STORE, NEW_STORE = "rasd.store", "rasd.new"


class Course:
    """A run over a script and over the files that lay in its folder, as the model has it: event by event."""

    def __init__(self, script, journal, store):
        self.after = functools.cache(lambda events: model.run(script, journal, events, store))

    def may_leave(self, printed, left):
        """Whether these files may be left: those after as many events as were told of, or in the next one."""
        count = len(re.findall(rb"^done ", printed, re.M))
        before, after = self.after(count), self.after(count + 1)
        account, stored = account_of([left.get(name, b"") for name in JOURNAL]), records_of(left.get(STORE))
        is_begun = len(printed) > len(before.printed)
        if account == account_of(before.files) and not is_begun and stored == records_of(before.store):
            return True
        stores = [records_of(before.store), records_of(after.store)]
        for identifier in dropped(before, after):
            stores.insert(-1, [it for it in stores[-2] if it[0] != identifier])
        return account == account_of(after.files) and stored in stores


def records_of(store):
    """The records of a store's file, in their order; if it is none, its bytes in place of them."""
    try:
        return list(read_store(store).items()) if store is not None else []
    except Unreadable:
        return [("none", store)]


def dropped(before, after):
    """The identifiers that an event clears, in their order."""
    kept = dict(records_of(after.store))
    return [identifier for identifier, _ in records_of(before.store) if identifier not in kept]


def account_of(files):
    """The account that two journal files hold, as a checkpoint, or where they are damaged."""
    try:
        return bytes_of_checkpoint(recover(files)[1])
    except Stop as end:
        return end.text
