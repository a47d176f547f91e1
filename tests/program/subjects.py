"""The scripts of service/, each in a world of its own, and what has to hold once one of its calls has failed."""
import contextlib
import os
import pathlib
import re
import signal
import subprocess
import time
import typing

from failing import Failing
from servers import SKYLAKE, Epyc, Server, dimms_of, epyc_dimms, letters
from serving import BOOT, EARLIER, ERROR, LATER, MARK, PATIENCE, PCIE, PROGRAM, RECORD, REPORT, SECOND, SERVICE, TRACED, stands_for

MIDDLE = "76543210-89ab-cdef-0123-456789abcdef"
# The board, the filters and rasd's run are the program, and journalctl, a feed and others are stubs.
NOT_OURS = re.compile(r"(env )?(perl (journalctl|feeding)|bash (dmidecode|lscpu)|rasd run|ras_cli run|\S*python3 -S)")


class Ran(typing.NamedTuple):
    """How a call of a script ended."""

    status: int
    out: str
    said: str


class Script:
    """A script in its world. The world is laid out anew for each trial."""

    # How often a call of the same words, name and file is tried.
    most = 6
    # Whether what one call has brought stays.
    is_kept = False
    # What an undisturbed call says, and in which room.
    usual, usual_room = "", "-"
    before_words, words = (), ()

    def __init__(self, it):
        self.it = it
        path = f"{it.room}/bin:/usr/sbin:/usr/bin:/sbin:/bin"
        self.environment = it.environment = {**it.environment, "PATH": path, "LC_ALL": "C", "TMPDIR": str(it.room)}
        self.lay_out()

    def lay_out(self):
        """Puts there what the script needs."""

    def run(self, choose=None):
        """Calls the script, and answers its calls as `choose` says."""
        how = {"cwd": self.it.folder, "env": self.environment, "stdin": subprocess.DEVNULL, "start_new_session": True, "text": True}
        how.update(stdout=subprocess.PIPE, stderr=subprocess.PIPE)
        words = [*self.before_words, SERVICE / self.words[0], *self.words[1:]]
        process = Failing(words, choose.kinds, choose, **how).process if choose else subprocess.Popen(words, **how)
        try:
            out, said = process.communicate(timeout=5 * PATIENCE)
            return Ran(process.returncode, out, said)
        except subprocess.TimeoutExpired:
            os.killpg(process.pid, signal.SIGKILL)
            return Ran(-99, "", f"it hung: {process.communicate()}")

    def left(self):
        """What the call has left: the texts of files, by name."""
        return {}

    def whole(self, ran):
        """All that a call has brought."""
        return ran.out, self.left()

    def news(self, ran):
        """What was said beside the usual."""
        usual = {line.replace(self.usual_room, str(self.it.room)) for line in self.usual.splitlines()}
        return "\n".join(line for line in ran.said.splitlines() if line not in usual)

    def fault(self, ran, wanted, before, hit):
        """What is wrong after a failed call, or nothing."""
        if ran.status == -99:
            return ran.said
        if ran.status == 0:
            return "" if self.whole(ran) == wanted else "not all came, with status 0"
        if 0 < ran.status <= 128 and not ran.said:
            return "no word of it"
        return self.wrong(ran, wanted, before, hit)

    def wrong(self, ran, wanted, before, hit):
        """What is wrong after a call that said that it failed."""
        good = all(text in (before.get(name), wanted[1].get(name)) for name, text in self.left().items())
        return "" if good else "a wrong file"

    def fault_after(self, ran, wanted):
        """What is wrong after an undisturbed call behind it."""
        return "" if ran.status == 0 and self.whole(ran) == wanted else "an undisturbed call doesn't bring all"


def texts(folder, *names):
    """The texts of files, but for those that are missing."""
    return {name: (folder / name).read_text() for name in names if (folder / name).exists()}


class NumberBoots(Script):
    """A first start in a boot, after a boot without rasd."""

    is_kept = True

    words = ("number-boots",)

    def lay_out(self):
        self.it.has_before("")
        (self.it.room / "boots").write_text("".join(f" {id.replace('-', '')} Mon\n" for id in (EARLIER, MIDDLE, BOOT)))
        (self.it.folder / "boots-before").write_text(f"6 {MIDDLE.replace('7', '8')} log\n")
        (self.it.room / "pstore").mkdir()
        (self.it.room / "pstore/mce-erst-7").write_bytes(RECORD)
        os.utime(self.it.room / "pstore/mce-erst-7", (SECOND, SECOND))
        (self.it.folder / "saved-logs").write_text("- 1400000000.0000000000 77/dmesg.txt\n")

    def left(self):
        return texts(self.it.folder, "boot-number", "boots-before", "boots-numbered", "saved-logs")

    def wrong(self, ran, wanted, before, hit):
        got = self.left()
        if ran.status == 1:
            return "it says that somebody has to change something"
        # The number is the last file that is written.
        is_early = got["boot-number"] == wanted[1]["boot-number"] and got != wanted[1]
        return "numbered before all is noted" if is_early else super().wrong(ran, wanted, before, hit)


class BootNumber(Script):
    """The number where its file is lost, so the account says it; boots below 5 are retired."""

    words = ("boot-number",)

    def lay_out(self):
        lines = "bank 5 100 0 8 1 1000c14 0 8c00004000010090 12345040 86\nretire 5\n"
        subprocess.run([PROGRAM, "run"], input=lines, text=True, capture_output=True, cwd=self.it.folder, check=True)

    def left(self):
        return texts(self.it.folder, "boot-number")

    def wrong(self, ran, wanted, before, hit):
        return "it says that somebody has to change something" if ran.status == 1 else super().wrong(ran, wanted, before, hit)


class Prepare(Script):
    """A machine whose MCG_CAP, trace, DIMMs, saved logs and firmware's table can all be read."""

    words = ("prepare",)

    def lay_out(self):
        room = self.it.room
        server = Server(room, "server", SKYLAKE, dimms_of(SKYLAKE, range(2), 1, letters), sockets=2)
        (room / "tracing/instances").mkdir(parents=True)
        (room / "tracing/events/mce/mce_record").mkdir(parents=True)
        (room / "tracing/events/mce/mce_record/enable").write_text("0\n")
        (room / "msr").write_bytes(bytes(0x179) + (0x1000C14).to_bytes(8, "little"))
        (room / "rows").write_text("# ours\ncpu 0 0\nmodule S0.B7.C0 0 7 0\nlimit 5 100\n")
        for name in ("dmesg.txt", "mce-erst-7"):
            (room / "kept/1").mkdir(parents=True, exist_ok=True)
            (room / "kept/1" / name).write_text("saved\n")
        (room / "run").mkdir()
        (room / "acpi/data").mkdir(parents=True)
        table, block = (SERVICE.parent / "tests/program/cases/bert-region/stdin").read_text().splitlines()[1].split()[3:]
        (room / "acpi/BERT").write_bytes(bytes.fromhex(table))
        (room / "acpi/data/BERT").write_bytes(bytes.fromhex(block) + bytes(4_000))
        (self.it.folder / "boot-number").write_text(f"7 {BOOT}\n")
        names = {"RASD_MSR": "msr", "TRACING": "tracing", "RASD_ROWS": "rows", "RASD_SETTINGS": "run/settings", "RASD_KEPT": "kept"}
        names.update(RASD_MADE_ROWS="run/machine.script", RASD_ACPI="acpi", RASD_EDAC="server/mc", RASD_CPUINFO="server/cpuinfo")
        names.update(RASD_DMI="server/dmi", RASD_LABELS="server/etc")
        self.environment = {key: it for key, it in self.environment.items() if key != "MCG_CAP"}
        self.environment.update({key: str(room / it) for key, it in names.items()})
        self.environment["PATH"] = f"{server.folder}/bin:{self.environment['PATH']}"

    def left(self):
        room = self.it.room
        return texts(room, "rows", "rows.before", "run/settings", "run/machine.script", "run/bert", "run/pstore/1/dmesg.txt", "run/pstore/1/mce-erst-7")

    def fault(self, ran, wanted, before, hit):
        fault = super().fault(ran, wanted, before, hit)
        # Something may be missing, with a message that says more than how many DIMMs there are.
        news = re.sub(r"(?m)^prepare: \d+ DIMMs .*|^setup: \d+ DIMMs have no name .*|^prepare: .* has its own lines .*", "", self.news(ran))
        return "" if fault.startswith("not all") and news.strip() else fault


class Setup(Script):
    """Two sockets, each channel with two DIMMs."""

    words = ("setup", "/dev/null")

    def lay_out(self):
        board = {"board_vendor": "Maker", "board_name": "Board X", "product_name": "Power 740"}
        dimms = dimms_of(SKYLAKE, range(2), 2, letters, channels=1)
        server = Server(self.it.room, "server", SKYLAKE, dimms, board=board, ras=lambda _: True)
        names = {"RASD_EDAC": "mc", "RASD_CPUINFO": "cpuinfo", "RASD_DMI": "dmi", "RASD_LABELS": "etc"}
        self.environment.update({key: str(server.folder / it) for key, it in names.items()}, MCG_CAP="1000c14", SERIALS="yes")
        self.environment["PATH"] = f"{server.folder}/bin:{self.environment['PATH']}"

    def fault(self, ran, wanted, before, hit):
        # Each channel has two DIMMs, and banks 7 and 8 are a channel's: no label of theirs may name one DIMM.
        rows = [line.split() for line in ran.out.splitlines() if re.match(r"module \S+ \d+ [78] ", line)]
        alone = [row[1] for row in rows if re.match(r"(S\d\.M\d\.C\d\.D\d|[AB]\d+)[^/~]*$", row[1])]
        if ran.status == 0 and alone:
            return f"a label of one of several DIMMs: {alone[0]}"
        # A label may lack a part of what names it, with a message.
        is_told = ran.status == 0 and self.news(ran)
        return "" if is_told else super().fault(ran, wanted, before, hit)


class SetupDrivers(Setup):
    """A server of AMD's: each rank has a line `place`."""

    def lay_out(self):
        board = {"board_vendor": "Maker", "board_name": "Board X", "product_name": "Power 940"}
        server = Epyc(self.it.room, "server", epyc_dimms(1, 2, 2), sockets=1, board=board, ras=lambda _: True)
        names = {"RASD_EDAC": "mc", "RASD_CPUINFO": "cpuinfo", "RASD_DMI": "dmi", "RASD_LABELS": "etc"}
        self.environment.update({key: str(server.folder / it) for key, it in names.items()}, SERIALS="yes")
        self.environment["PATH"] = f"{server.folder}/bin:{self.environment['PATH']}"

    def fault(self, ran, wanted, before, hit):
        if ran.status == 0:
            rows = [re.findall(r"(?m)^place ([^# ]+)\S* (\d+ \d+ \d+)$", text) for text in (ran.out, wanted[0])]
            right = {place: {name, "M{0}.C{2}.D{3}".format(*place.split(), int(place.split()[1]) // 2)} for name, place in rows[1]}
            wrong = [(name, place) for name, place in rows[0] if name not in right[place]]
            if wrong or len(rows[0]) != len(rows[1]):
                return f"wrong places: {wrong} of {len(rows[0])}"
        return super().fault(ran, wanted, before, hit)


class KeepTrace(Script):
    """A restart within a boot. What is read of trace_pipe is gone from the kernel."""

    before = MARK + TRACED
    words = ("keep-trace",)

    def lay_out(self):
        room = self.it.room
        for event in ("mce/mce_record", "ras/aer_event", "ras/non_standard_event"):
            (room / "tracing/instances/rasd/events" / event).mkdir(parents=True)
            (room / "tracing/instances/rasd/events" / event / "enable").touch()
        for n in range(3):
            (room / f"trace.{n}").write_text("# mce_record\n")
        (room / "tracing/instances/rasd/trace_marker").touch()
        (room / "tracing/instances/rasd/trace_pipe").write_text(self.events())
        self.environment.update(TRACING=f"{room}/tracing", BOOTS_KEPT="2", RASD_EDAC=f"{room}/mc")
        self.words = ("keep-trace", str(room))
        if self.before:
            self.it.trace(self.before)

    @staticmethod
    def events():
        """Machine checks, and others between them."""
        return "".join(TRACED.replace("3e8", f"{n + 1000:x}") + (PCIE.format(n) if n % 9 == 0 else "") for n in range(30))

    def left(self):
        return texts(self.it.room, f"trace.{BOOT}", "reading")

    def wrong(self, ran, wanted, before, hit):
        left, all_of_it = self.left(), wanted[1][f"trace.{BOOT}"]
        text = left.get(f"trace.{BOOT}", before.get(f"trace.{BOOT}", ""))
        if before and not text.startswith(before[f"trace.{BOOT}"]):
            return "what was kept before is gone"
        if text.replace("# keep-trace was killed, so events may be missing here\n", "") != all_of_it and "keep-lines" in hit and "reading" not in left:
            return "events that were read may be missing, and nothing will say so"
        return "" if text == all_of_it or all_of_it.startswith(text) else "wrong lines"

    def fault_after(self, ran, wanted):
        text, (kept, events) = self.left().get(f"trace.{BOOT}", ""), (wanted[1][f"trace.{BOOT}"], self.events().replace("\n\n", "\n"))
        is_right = text.startswith(kept[: len(kept) - len(events)]) and text.endswith(events) and "reading" not in self.left()
        return "" if ran.status == 0 and is_right else "an undisturbed call doesn't bring all"


class KeepNewTrace(KeepTrace):
    """The first start within a boot."""

    before = ""


class Tell(Script):
    """A line for the service's run."""

    words = ("tell", "retire", "7")

    def lay_out(self):
        os.mkfifo(self.it.room / "lines")
        self.pipe = os.open(self.it.room / "lines", os.O_RDWR | os.O_NONBLOCK)
        (self.it.room / "ready").touch()
        # It has the pipe for its standard input, as rasd has.
        self.process = subprocess.Popen(["sleep", "300"], stdin=self.pipe)
        self.environment["RASD_PROCESS"] = str(self.process.pid)

    def whole(self, ran):
        with contextlib.suppress(BlockingIOError):
            return os.read(self.pipe, 4096), {}
        return b"", {}

    def wrong(self, ran, wanted, before, hit):
        return "" if self.whole(ran)[0] in (b"", wanted[0]) else "a wrong line"


class Settle(Script):
    """The account's files are synced."""

    words = ("settle",)

    def lay_out(self):
        for name in ("rasd.0", "rasd.1", "rasd.store"):
            (self.it.folder / name).write_bytes(b"x" * 5000)
        self.synced = set()

    def run(self, choose=None):
        self.synced = set()
        return super().run(Synced(self, choose))

    def whole(self, ran):
        return sorted(self.synced), {}


class Synced:
    """Notes which files are synced, beside what another choice does."""

    def __init__(self, settle, other):
        self.settle, self.other = settle, other
        self.kinds = ("sync", *(other.kinds if other else ()))

    def __call__(self, call):
        wanted = self.other(call) if self.other and call.name in self.other.kinds else None
        if call.name == "sync" and wanted is None:
            self.settle.synced.add(pathlib.Path(call.file()).name)
        return wanted


class KernelLog(Script):
    """A log of several reads."""

    before_words, words = ("/usr/bin/perl", "-e", "require shift"), ("kernel-log", "-b", EARLIER.replace("-", ""))

    def lay_out(self):
        self.it.has_before("".join(ERROR.format(n, n, 0) for n in range(1, 300)) + LATER)


class SettledLog(KernelLog):
    """The same, up to a line at which no report is going on."""

    def lay_out(self):
        super().lay_out()
        self.words = ("kernel-log", "--settled", str(self.it.room / "cursor"), *KernelLog.words[1:])

    def left(self):
        return texts(self.it.room, "cursor")

    def wrong(self, ran, wanted, before, hit):
        # Its callers read the file only after status 0.
        return ""


class EarlierLines(Script):
    """Errors of two boots before, and what a dying kernel saved."""

    most = 3
    source = "log"
    words = ("earlier-lines",)

    def lay_out(self):
        it = self.it
        log = "".join(f"[{n:5}.000009] node7 kernel: usb {n}-1: new device\n" for n in (2, 3, 4)) + REPORT.format(20, 0x45678040)
        errors = "".join(ERROR.format(30 + n, n, 0) for n in range(1, 9))
        it.has_before(log + (errors if self.source == "log" else "") + "[  990.000001] node7 kernel: eth0: up\n")
        (it.room / f"log.{MIDDLE.replace('-', '')}").write_text(ERROR.format(40, 77, 0) + LATER)
        (it.folder / "boots-before").write_text(f"7 {EARLIER} {self.source}\n8 {MIDDLE} -\n")
        if self.source == "trace":
            it.trace(MARK + "".join(TRACED.replace("3e8", f"{n:x}") for n in range(1, 9)) + PCIE.format(101), boot=EARLIER)
        saved = [f"<4>[{n:5}.000009] usb {n}-1: new device\n" for n in (2, 3, 4)]
        saved += [f"<0>[  999.00000{n}] mce: [Hardware Error]: {text}\n" for n, text in enumerate((
            "CPU 0: Machine Check Exception: 5 Bank 4: be00000000800400", "TSC 123456789abc ",
            "PROCESSOR 0:50654 TIME 1400000900 SOCKET 0 APIC 0 microcode 1"), 1)]
        (it.room / "pstore/77").mkdir(parents=True)
        (it.room / "pstore/77/dmesg.txt").write_text("Panic#1 Part1\n" + "".join(saved))
        (it.room / "pstore/mce-erst-7").write_bytes(RECORD)
        (it.folder / "saved-logs").write_text("8 1.0 77/dmesg.txt\n8 1.0 mce-erst-7\n- 1.0 gone\n")

    def whole(self, ran):
        return sorted(ran.out.splitlines()), {}


class EarlierTrace(EarlierLines):
    """.. with the trace as source."""

    source = "trace"


class Offline(Script):
    """Orders that stand, and the kernel's two files."""

    words = ("offline",)

    def lay_out(self):
        room = self.it.room
        for name in ("memory", "state", "metrics"):
            (room / name).mkdir()
        stub = room / "bin/journalctl"
        stub.write_text('#!/bin/sh\ncase " $* " in *" --show-cursor "*) echo "-- cursor: s=1" ;; *) exec sleep 600 ;; esac\n')
        lines = "bank 1 100 0 8 1 1000c14 0 bd000000000000c0 23456040 86\nbank 1 100 0 8 2 1000c14 0 bc00000000000090 34567040 86\n"
        subprocess.run([PROGRAM, "run"], input=lines, text=True, capture_output=True, cwd=self.it.folder, check=True)
        self.pipes, self.asked, self.said = {}, [], ""
        for kind in ("soft", "hard"):
            os.mkfifo(room / f"memory/{kind}_offline_page")
            self.pipes[kind] = os.open(room / f"memory/{kind}_offline_page", os.O_RDWR | os.O_NONBLOCK)
        self.environment.update(RUNTIME_DIRECTORY=f"{room}/state", OFFLINE_FOLDER=f"{room}/memory")
        self.environment.update(OFFLINE_METRICS=f"{room}/metrics/rasd-offline.prom")

    wanted = [("hard", "0x0000000023456000"), ("soft", "0x0000000034567000")]

    def look(self):
        """Notes what the kernel was asked for."""
        for kind, pipe in self.pipes.items():
            with contextlib.suppress(BlockingIOError):
                self.asked += [(kind, it) for it in os.read(pipe, 4096).decode().split()]
        return sorted(self.asked)

    def run(self, choose=None):
        words = [SERVICE / "offline"]
        with open(self.it.room / "said", "wb") as said:
            how = {"cwd": self.it.folder, "env": self.environment, "stdin": subprocess.DEVNULL, "stderr": said, "start_new_session": True}
            process = Failing(words, choose.kinds, choose, **how).process if choose else subprocess.Popen(words, **how)
            end = time.monotonic() + 20
            metrics = self.it.room / "metrics/rasd-offline.prom"
            while process.poll() is None and time.monotonic() < end:
                if self.look() == self.wanted and metrics.exists() and " 2" not in metrics.read_text() and metrics.read_text().count('"} 1') == 4:
                    break
                time.sleep(0.02)
            status = process.poll()
            with contextlib.suppress(OSError):
                os.killpg(process.pid, signal.SIGKILL)
            process.wait()
        self.said += self.it.text("said")
        return Ran(0 if status is None else status, "", self.it.text("said"))

    def whole(self, ran):
        return self.look(), {}

    def fault(self, ran, wanted, before, hit):
        if ran.status == 3:
            return "it ended for good"
        if len(set(self.look())) < len(self.look()):
            return "a page was asked for twice"
        if ran.status == 0 and self.look() != self.wanted and not ran.said:
            return "not all asked for, and no word of it"
        return "no word of it" if 0 < ran.status <= 128 and not ran.said else ""

    def fault_after(self, ran, wanted):
        if self.look() == self.wanted or (len(set(self.look())) == len(self.look()) and re.search("isn't made again|the kernel refuses: ENOSPC", self.said)):
            return ""
        return f"the next start asked for {self.look()}"


class Lengthen(Script):
    """A file of an account, which has more than half of the least length, and a file that is missing."""

    words = ("lengthen",)

    def lay_out(self):
        lines = "bank 1 100 0 8 1 1000c14 0 8c00004000010090 12345040 86\n"
        subprocess.run([PROGRAM, "run"], input=lines, text=True, capture_output=True, cwd=self.it.folder, check=True)
        os.truncate(self.it.folder / "rasd.0", 1_500_000)
        (self.it.folder / "rasd.1").unlink()

    def left(self):
        folder = self.it.folder
        files = {name: (folder / name).read_bytes() for name in ("rasd.0", "rasd.1") if (folder / name).exists()}
        # What is behind the account is zeros.
        return {name: (len(text), text.rstrip(b"\0")) for name, text in files.items()}

    def wrong(self, ran, wanted, before, hit):
        left, most = self.left(), {**wanted[1], "rasd.1": (0, b"")}
        return "" if all(it in (before.get(name), wanted[1][name], most[name]) for name, it in left.items()) else "a wrong file"


# A feed with two descriptors: the machine, errors of both, a comment of a filter, and errors that come later.
FEEDING = r"""#!/usr/bin/perl
my $second = shift;
open my $other, '>&=', $second or exit 9;
sub bank { return map { "bank 9 1400000000 0 7 $_ 1000c14 0 8c00004000010090 12345040 86\n" } @_ }
syswrite STDOUT, "cpu 0 0\nmodule DIMM_A1 0 7 0\n# feed: await 1\nbank 9 0 0 0 0 0 0 0 0 0\n";
my $answer = <STDIN> // exit 9;
syswrite STDOUT, join '', "# feed: number 9\n", bank(1 .. 6), "# unread a line\n";
syswrite $other, join '', bank(101 .. 105);
syswrite STDOUT, join '', "# feed: live 1000 0 \n", bank(7 .. 9);
"""


class PassLines(Script):
    """A storm, evidence that begins new files and that a killed writer left, and lines that one held."""

    most = 4
    count = 6 + 5 + 3
    held = "log bank=8/0/7/1 t=100 class=CE weight=1 label=DIMM_B1 page=- code=- for=7 corrected=7\n"

    def lay_out(self):
        stub = self.it.room / "bin/feeding"
        stub.write_text(FEEDING)
        stub.chmod(0o755)
        self.words = ("pass-lines", str(stub), str(PROGRAM), "run")
        self.environment.update(QUIET_SECONDS="60", EVIDENCE_BYTES="1500")
        given = "".join(f"bank 8 100 0 7 {n} 1000c14 0 8c00004000010090 12345040 86\n" for n in range(5))
        (self.it.folder / "evidence.given").write_text(given + "bank 8 100 0")
        (self.it.folder / "evidence.logged").write_text(self.held * 12 + "log bank=8")
        (self.it.folder / "held-lines").write_text(f"{self.held}end {sum(self.held.encode())}\n")
        (self.it.folder / "comments.said").write_text("9 # unread another\n8 # unread a line\n9 # unr")
        self.ran = None

    def evidence(self, name):
        """The lines of this boot in a file of evidence, and in the one before it."""
        lines = "".join(texts(self.it.folder, f"evidence.{name}.old", f"evidence.{name}").values()).splitlines()
        return {line for line in lines if line.startswith(("bank 9 1", "log bank=9/"))}

    def whole(self, ran):
        return sorted(self.it.report("names").splitlines()), sorted(self.evidence("given")), len(self.evidence("logged")), stands_for(ran.out)

    def fault(self, ran, wanted, before, hit):
        self.ran = ran
        if ran.status == -99:
            return ran.said
        if ran.status in (1, 2, 7, 9, 11):
            return f"it ended for good: {ran.out[-200:]}"
        # service/say-status says that of rasd, and of a signal. A killed pass-lines leaves a file, of which the next start says it.
        is_left = (self.it.folder / "held-lines").exists()
        is_told = is_left or ran.status < 0 or ran.status in range(3, 7) or self.news(ran)
        return "" if is_told or self.whole(ran) == wanted else f"no word of it: {self.whole(ran)}"

    def fault_after(self, ran, wanted):
        names, given, logged, _ = self.whole(ran)
        whole, said = stands_for(self.ran.out + ran.out), self.news(self.ran) + "".join(re.findall(r".*it was killed.*", ran.said))
        if ran.status or (names, given) != wanted[:2]:
            return f"the next start doesn't bring all: {names} {given}"
        if logged != wanted[2] and "evidence.logged" not in said and self.ran.status >= 0 and "killed" not in said:
            return f"lines are missing in evidence.logged, and no word of it: {logged}"
        if "left out: # unread a line" not in self.ran.said + ran.said:
            return "nobody said a comment"
        is_told = whole == wanted[3] or "may be missing" in said or "held-lines" in said
        return "" if is_told else f"lines are missing in the unit's journal, and no word of it: {whole}"


class Feed(Script):
    """The service's command: rasd, and all that feeds it."""

    most = 2
    is_kept = True
    source = "log"
    count = 0

    def lay_out(self):
        it = self.it
        it.has_before("".join(ERROR.format(n, n, 0) for n in range(1, 6)) + REPORT.format(9, 0x77777040) + LATER)
        errors = "".join(ERROR.format(100 + n, 100 + n, 0) for n in range(5))
        reports = REPORT.format(200, 0x99999040)
        self.count = 6 + 5 + 1
        if self.source == "trace":
            it.trace(MARK + "".join(TRACED.replace("3e8", f"{n + 1000:x}") for n in range(5)) + PCIE.format(101))
            it.add(reports + LATER)
            self.count += 1
        else:
            it.add(errors + reports + LATER)

    def begins(self, words, choose, **how):
        """Begins the command, with or without a fault."""
        self.failing = Failing(words, choose.kinds, choose, **how) if choose else None
        return self.failing.process if choose else subprocess.Popen(words, **how)

    def run(self, choose=None):
        it = self.it
        it.start(begin=lambda words, **how: self.begins([f"/bin/{words[0]}" if "/" not in words[0] else words[0], *words[1:]], choose, **how))
        end = time.monotonic() + 2 * PATIENCE
        while it.process.poll() is None and time.monotonic() < end:
            if f"names={self.count}\n" in it.report("names") and not (it.folder / "boots-before").read_text():
                break
            time.sleep(0.1)
        status = it.process.poll()
        # What comes behind is said of the end that the test brings.
        said = it.text("errors")
        it.stop(signal.SIGTERM if status is None else signal.SIGKILL)
        return Ran(0 if status is None else 200 + status, it.text(), said)

    def whole(self, ran):
        return sorted(self.it.report("names").splitlines()), {}

    def fault(self, ran, wanted, before, hit):
        names = self.whole(ran)[0]
        if not {it for it in names if "names=" not in it} <= set(wanted[0]):
            return "wrong names"
        if ran.status - 200 in (1, 2, 7, 9, 11):
            return f"it ended for good: {ran.out[-200:]}"
        if ran.status == 0 and names != wanted[0]:
            return "it goes on, and not all is counted"
        # Of rasd's statuses and of a signal service/say-status says what they mean.
        is_told = ran.status < 200 or 203 <= ran.status <= 206 or self.news(ran)
        return "" if ran.status == 0 or is_told else "no word of it"


class FeedTrace(Feed):
    """.. with the trace as source."""

    source = "trace"


SUBJECTS = {
    "lengthen": Lengthen, "pass-lines": PassLines, "setup-drivers": SetupDrivers,
    "number-boots": NumberBoots, "boot-number": BootNumber, "prepare": Prepare, "setup": Setup, "keep-trace": KeepTrace,
    "keep-new-trace": KeepNewTrace, "tell": Tell, "settle": Settle, "kernel-log": KernelLog, "settled-log": SettledLog,
    "earlier-lines": EarlierLines, "earlier-trace": EarlierTrace, "offline": Offline, "feed": Feed, "feed-trace": FeedTrace,
}
