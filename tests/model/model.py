#!/usr/bin/env python3
"""What a run must print, how it must end and what it must leave, computed from the definitions by a second program.

usage: tests/model/model.py run < SCRIPT      does what the program must do, over the working folder's files
       tests/model/model.py COMMAND < INPUT   the same for every other command
       tests/model/model.py --rows            tests the model on worked rows: tests/model/reference/rows.py

The model is in tests/model/reference/. It is written from only the product's description, and shares nothing with the code of
crates/. It is slow and plain: it has each rule once. `run` returns an `Outcome` for the bytes of a script and of the two
journal files, `command` for any arguments; tests/program/run compares with these. An opening may read as often as it likes, so
the list of disk calls has no reads.
"""
import dataclasses
import os
import pathlib
import sys

sys.dont_write_bytecode = True
from reference import commands
from reference.journal import Disk, FolderDisk
from reference.run import Run


@dataclasses.dataclass
class Outcome:
    """What a run comes to: what it printed, its status, the two files, the record store's, and the disk calls."""

    printed: bytes
    status: int
    files: tuple
    store: bytes
    calls: list


def run(script, files=(None, None), events=None, store=None):
    """The run over a script, two files and the record store's file, to its end, or so many events of it."""
    disk, printed = Disk(files, store), []
    status = Run(disk, printed.append).take_all([script], events)
    return Outcome(b"".join(printed), status, tuple(map(bytes, disk.files)), disk.store, disk.calls)


def command(words, data, files=(None, None), store=None):
    """What these words come to, over an input and the files; other words than `run` leave the files."""
    if words == [b"run"]:
        return run(data, files, store=store)
    printed, status = commands.answer(words, data, files) or ("stop 1 usage\n", 1)
    return Outcome(printed.encode(), status, tuple(files), store, [])


def ending(status, call):
    """A call of the system that ends the run with this status where it fails."""

    def called(*words):
        try:
            return call(*words)
        except OSError:
            sys.exit(status)

    return called


def files_here():
    """The two files of the working folder, None for one that isn't there."""
    paths = [pathlib.Path(f"rasd.{file}") for file in (0, 1)]
    read = ending(4, lambda path: path.read_bytes() if path.exists() else None)
    return tuple(map(read, paths))


def main():
    """Does as the program does, or tries the worked rows."""
    read, write = ending(3, lambda: os.read(0, 4096)), ending(6, lambda data: os.write(1, data))
    if sys.argv[1:] == ["--rows"]:
        from reference import rows

        return rows.main()
    if sys.argv[1:] == ["run"]:
        go = ending(4, lambda: Run(FolderDisk(), write).take_all(iter(read, b"")))
        return go()
    words = [os.fsencode(word) for word in sys.argv[1:]]
    is_read = words[:1] in ([b"pcie"], [b"klog"], [b"lines"])
    outcome = command(words, b"".join(iter(read, b"")) if is_read else b"", files_here())
    write(outcome.printed)
    return outcome.status


if __name__ == "__main__":
    sys.exit(main())
