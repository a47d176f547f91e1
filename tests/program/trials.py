"""Runs that tests/program/refused and tests/program/faults end early: what each may do, and what the next run has to do."""
import functools
import pathlib
import subprocess

import model
from stopped import JOURNAL, STORE, Course, account_of, records_of


def banks(first, last):
    """The lines of some errors, each under a name and of a page of its own."""
    return "".join(f"bank 1 100 0 7 {it} 1000c14 0 8c00004000010090 {it:x}040 86\n" for it in range(first, last + 1))


# The bytes of a struct mce whose status has VAL: in UTF-8 its bytes 6 and 7 are c2 and 80.
SAVED = "\0" * 6 + "\x80" + "\0" * 80


class Trial:
    """A run that is tried: its words, its input, and what the folder has before it, made by runs over earlier lines."""

    def __init__(self, words, data="", earlier=""):
        self.words, self.data, self.earlier = words.split(), data.encode(), earlier.encode()

    @functools.cached_property
    def before(self):
        """The files that lie there before it."""
        outcome = model.run(self.earlier) if self.earlier else model.Outcome(b"", 0, (None, None), None, [])
        files = dict(zip((*JOURNAL, STORE), (*outcome.files, outcome.store)))
        return {name: data for name, data in files.items() if data is not None}

    def told(self, files):
        """What the model says of it over these files."""
        words = [word.encode() for word in self.words]
        return model.command(words, self.data, [files.get(name) for name in JOURNAL], files.get(STORE))

    @functools.cached_property
    def whole(self):
        """The undisturbed run."""
        return self.told(self.before)

    @functools.cached_property
    def course(self):
        """The undisturbed run, event by event."""
        return Course(self.data, [self.before.get(name) for name in JOURNAL], self.before.get(STORE))

    @property
    def ends_with_a_read(self):
        """Whether the run prints all before it finds the end of its input, and nothing then."""
        return self.words[:2] == ["lines", "trace"]

    def lay(self, folder):
        """Lays the files into a folder."""
        for name, data in self.before.items():
            pathlib.Path(folder, name).write_bytes(data)

    def whole_faults(self, ended, left):
        """In what a run isn't the undisturbed one."""
        if (ended.stdout, ended.returncode, ended.stderr) != (self.whole.printed, self.whole.status, b""):
            yield f"it ended with {ended.returncode} and printed .. {(ended.stdout + ended.stderr)[-300:]}"
        if self.words == ["run"] and kept(left) != [*self.whole.files, self.whole.store]:
            yield "it left other files"

    def early_faults(self, ended, left, statuses):
        """In what a run that was ended early, by a fault or for memory, isn't as it may be."""
        text = self.whole.printed
        if ended.returncode not in statuses:
            yield f"it ended with {ended.returncode}, not with {' or '.join(map(str, sorted(statuses)))}"
        if not text.startswith(ended.stdout) or (ended.stdout == text and not self.ends_with_a_read):
            yield f"it printed .. {ended.stdout[-300:]}"
        if ended.stderr:
            yield f"it wrote to standard error: {ended.stderr[-300:]}"
        if not (self.course.may_leave(ended.stdout, left) if self.words == ["run"] else left == self.before):
            yield "it left other files"

    def later_faults(self, program, folder, left):
        """In what a run over what was left isn't as the model says, or comes to something else than the undisturbed one."""
        wanted, whole = self.told(left), self.whole
        ended = subprocess.run([program, *self.words], input=self.data, capture_output=True, cwd=folder)
        if (ended.stdout, ended.returncode) != (wanted.printed, wanted.status):
            yield f"the next run ended with {ended.returncode} and printed .. {ended.stdout[-300:]}"
        if kept(files_in(folder)) != [*wanted.files, wanted.store]:
            yield "the next run left other files"
        if account_in(wanted) != account_in(whole) or records_of(wanted.store) != records_of(whole.store):
            yield "the next run came to another account, or another record store"


def files_in(folder):
    """The files that lie in a folder."""
    return {file.name: file.read_bytes() for file in pathlib.Path(folder).iterdir()}


def kept(files):
    """The files in which the account and the records are."""
    return [files.get(name) for name in (*JOURNAL, STORE)]


def account_in(outcome):
    """The account that an outcome's files hold."""
    return account_of([data or b"" for data in outcome.files])
