"""The command of service/rasd.service in a separate folder, over a stub of journalctl; tests/program/service and
tests/program/feed run it.
"""
import collections
import contextlib
import os
import pathlib
import re
import shlex
import signal
import struct
import subprocess
import sys
import tempfile
import time

from rattle import TOP

SERVICE = TOP / "service"
PROGRAM = pathlib.Path(sys.argv[1]).resolve()
BOOT = pathlib.Path("/proc/sys/kernel/random/boot_id").read_text().strip()
EARLIER = "01234567-89ab-cdef-0123-456789abcdef"
SOON = 10.0
PATIENCE = float(os.environ.get("PATIENCE", 60))

# It prints logs as journalctl's export form. The log of this boot goes on until the stub is ended, and its process and its
# words are noted. Those of other boots are files, and come in two parts if they are to be slow; with a file `volatile` there are
# none.
JOURNALCTL = r"""#!/usr/bin/perl
use strict; use warnings; use Time::HiRes 'sleep';
$| = 1;
END {{ close STDOUT or $? ||= 1 }}
my ($room, $boot, $words) = ('{room}', '{boot}', "@ARGV");
sub note {{ open my $file, '>', "$room/$_[0]"; print $file $_[1] }}
sub pass_on {{ open my $file, '<', $_[0] or exit print STDERR "$_[0]: No such file\n"; print while <$file> }}
my ($count, $time, $message) = (0);
my $after = $words =~ /--after-cursor=s=(\d+)/ ? $1 : 0;
my ($pattern) = map {{ $ARGV[$_ + 1] }} grep {{ $ARGV[$_] eq '-g' }} 0 .. $#ARGV;
my $is_short = $words =~ /--output-fields=_SOURCE/;
my $last = '';
sub print_entry {{
    return if !defined $message;
    return ++$count && undef $message if $count < $after;
    # journald reads a line later than the kernel prints it.
    return ++$count && undef $message if defined $pattern && $message !~ $pattern;
    if ($is_short) {{
        $last = sprintf "__CURSOR=s=%d\n_SOURCE_MONOTONIC_TIMESTAMP=%.0f\n\n", ++$count, $time;
        print $last if $words !~ / -n 1/;
        return undef $message;
    }}
    printf "__CURSOR=s=%d\n__REALTIME_TIMESTAMP=%.0f\n__MONOTONIC_TIMESTAMP=%.0f\nSYSLOG_IDENTIFIER=kernel\n",
        ++$count, 1400000000000000 + $time + 700000, $time + 700000;
    printf "_SOURCE_MONOTONIC_TIMESTAMP=%.0f\n", $time;
    print $message =~ /\n/ ? "MESSAGE\n" . pack('Q<', length $message) . "$message\n\n" : "MESSAGE=$message\n\n";
    undef $message;
}}
sub take {{
    my $line = shift;
    chomp $line;
    # A message's second line is indented.
    return $message .= "\n" . $line =~ s/^ +//r if $line =~ /^ {{20}}/ && defined $message;
    print_entry();
    ($time, $message) = $line =~ /^\[ *([\d.]+)\] (?:\S+ kernel: )?(.*)/ ? ($1 * 1000000, $2) : (0, $line);
}}
sub print_log {{
    my ($name, $goes_on, $is_slow) = @_;
    open my $file, '<', $name or do {{ print STDERR "$name: No such file\n"; exit 1 }};
    my $text = '';
    while (1) {{
        my $got = sysread $file, $text, $is_slow ? 300000 : 65536, length $text;
        my $whole = rindex($text, "\n") + 1;
        take($_) for split /^/m, substr $text, 0, $whole, '';
        if ($got) {{ sleep 1 if $is_slow; $is_slow = 0; next }}
        print_entry();
        last if !$goes_on;
        sleep 0.02;
    }}
}}
open my $calls, '>>', "$room/calls"; print $calls "$words\n"; close $calls;
if ($words =~ /--list-boots/) {{ pass_on("$room/boots") if -e "$room/boots" }}
elsif (-e "$room/volatile" && $words !~ / $boot | -f /) {{ print STDERR "No such boot ID in journal\n"; exit 1 }}
elsif ($is_short) {{ print_log("$room/log"); print $last if $words =~ / -n 1/ }}
elsif ($words =~ / -n 1 /) {{
    # The other boots began later than the one that tests call the earlier one.
    printf "__REALTIME_TIMESTAMP=%d000000\n__MONOTONIC_TIMESTAMP=5000000\n", $words =~ / {earlier} / || -e "$room/same-second" ? 1400000005 : 1400001005;
}}
elsif ($words =~ / -f /) {{ note('words', "$words\n"); note('process', "$$\n"); print_log("$room/log", 1) }}
elsif ($words =~ / $boot /) {{ print_log("$room/log") }}
else {{ print_log("$room/log.$ARGV[2]", 0, -e "$room/slow") }}
"""
ERROR = (
    "[{0:5}.000001] node7 kernel: mce: [Hardware Error]: CPU 0: Machine Check: 0 Bank 7: 8c00004000010090\n"
    "[{0:5}.000002] node7 kernel: mce: [Hardware Error]: TSC {1:x} ADDR 12345040 MISC 86 \n"
    "[{0:5}.000003] node7 kernel: mce: [Hardware Error]: PROCESSOR {2}:306e4 TIME 1400000000 SOCKET 0 APIC 0 microcode 1\n"
)
# The counter by which the first such error of the second 1400000000 is named if it has none.
POLLED = 6012954218412957696
TRACED = (
    "  kworker/0:1-7  [000] .....  100.000001: mce_record: CPU: 0, MCGc/s: 1000c14/0, MC7: 8c00004000010090, IPID: {0}, "
    "ADDR/MISC/SYND: 0000000012345040/0000000000000086/{0}, RIP: 00:<{0}>, TSC: 3e8, PROCESSOR: 0:306e4, "
    "TIME: 1400000000, SOCKET: 0, APIC: 0\n"
).format("0" * 16)
MARK = "     keep-trace-99  [001] .....   50.000001: tracing_mark_write: rasd-trace begins\n"
# A report of the firmware in a log, about page {1:x}, and a later line, which shows that it has ended.
REPORT = (
    "[{0:5}.100001] node7 kernel: {{{0}}}[Hardware Error]: Hardware error from APEI Generic Hardware Error Source: 3\n"
    "[{0:5}.100002] node7 kernel: {{{0}}}[Hardware Error]: event severity: corrected\n"
    "[{0:5}.100003] node7 kernel: {{{0}}}[Hardware Error]:  Error 0, type: corrected\n"
    "[{0:5}.100004] node7 kernel: {{{0}}}[Hardware Error]:   section_type: memory error\n"
    "[{0:5}.100005] node7 kernel: {{{0}}}[Hardware Error]:   physical_address: 0x{1:016x}\n"
    "[{0:5}.100006] node7 kernel: {{{0}}}[Hardware Error]:   node:1 card:0 module:2 rank:0 bank:3 row:12 column:8 \n"
)
# The kernel's own record of a fatal error in the second SECOND: struct mce as Linux 6.1 has it (arch/x86/include/uapi/asm/mce.h).
# The stub of journalctl says that the earlier boot began in the second 1400000000, and others 1,000 seconds later.
FATAL, SECOND = 0xBE00000000800400, 1400000900
RECORD = struct.pack(
    "<7Q4BI4B3IQ", FATAL, 0, 0, 5, 0, 0x123456789ABC, SECOND, 0, 0, 0, 0, 0x50654, 0, 4, 0, 0, 0, 0, 0, 0x100010A
) + bytes(32)
LATER = "[99999.000001] node7 kernel: eth0: up\n"
# Other events of a trace. The first's text ends with a line feed of its own, so an empty line follows.
PCIE = (
    "     irq/40-aerdrv-123     [003] ..... {0:5}.200001: aer_event: 0000:3b:00.1 PCIe Bus Error: severity=Corrected, "
    "Receiver Error|Bad TLP, TLP Header=Not available\n\n"
)
SECTION = (
    "     kworker/0:1-7         [000] ..... {0:5}.200002: non_standard_event: severity: 1; "
    "sec type:00112233-4455-6677-8899-aabbccddeeff; FRU: 00000000-0000-0000-0000-000000000000 A1; "
    "data len:4; raw data:aa bb cc dd\n"
)
MEMORY = (
    "     kworker/0:1-7         [000] ..... {0:5}.200003: mc_event: 1 Corrected error: single-bit ECC on DIMM_B3 "
    "(mc:0 location:2:-1:-1 address:0x{1:08x} grain:4096 syndrome:0x00000000 APEI location: node:1 card:0 module:2 rank:0 "
    "bank:3 row:12 column:8 DIMM location: DIMM_B3 status(0x0000000000000400): Storage error in DRAM memory)\n"
)
EVENTS = "mce_record aer_event non_standard_event"
SETTINGS = ("MCG_CAP", "BOOTS_KEPT", "DRIVERS")
ROWS = "cpu 0 0\nmodule DIMM_A1 0 7 0\nmodule-limit 4 86400"
# The feed's last line before the first error is a bank without an error, behind rows, another one, a table, and a poll.
HEAD = 8


def holds(what, is_so):
    """Whether that is so; else it is told."""
    if not is_so:
        print(f"failed: {what}")
    return bool(is_so)


def stands_for(text):
    """By label, of how many errors the lines speak, and the sums of their weights."""
    sums = collections.defaultdict(lambda: [0, 0, 0])
    for line in re.findall(r"(?m)^log .*$", text):
        words = dict(word.partition("=")[::2] for word in line.split()[1:])
        is_bad = words["class"] in ("UCNA", "SRAO", "SRAR", "UC", "recoverable", "fatal")
        one = (1, 0, int(words["weight"])) if is_bad else (1, int(words["weight"]), 0)
        more = (int(words["for"]), int(words["corrected"]), 0) if "for" in words else one
        sums[words["label"]] = [a + b for a, b in zip(sums[words["label"]], more)]
    return dict(sums)


def settings(name, unit="rasd.service"):
    """What a unit says of a setting, line by line."""
    return re.findall(rf"^{name}=(.*)$", (SERVICE / unit).read_text(), re.M)


def with_our_paths(text, program=PROGRAM, scripts=SERVICE):
    """A unit's text with this program and these scripts."""
    return text.replace("/usr/libexec/rasd/rasd", str(program)).replace("/usr/lib/rasd/", f"{scripts}/")


def process_of(entry):
    """The number of a process, and of its session, which is 0 if it has ended."""
    try:
        state, _, _, session = (entry / "stat").read_text().rpartition(")")[2].split()[:4]
        return int(entry.name), 0 if state == "Z" else int(session)
    except OSError:
        return int(entry.name), 0


class Service:
    """The unit's command in a folder of its own, with a stub of journalctl."""

    def __init__(self, room, folder):
        self.room, self.folder = pathlib.Path(room), pathlib.Path(folder)
        (self.room / "bin").mkdir(parents=True)
        stub = self.room / "bin" / "journalctl"
        stub.write_text(JOURNALCTL.format(room=self.room, boot=BOOT.replace("-", ""), earlier=EARLIER.replace("-", "")))
        stub.chmod(0o755)
        (self.room / "log").touch()
        (self.room / "rows").write_text(ROWS)
        (self.room / "settings").touch()
        self.environment = {
            **{key: value for key, value in os.environ.items() if key not in SETTINGS},
            "PATH": f"{self.room}/bin:{os.environ['PATH']}",
            "MCG_CAP": "1000c14",
            "QUIET_SECONDS": "0",
            "RASD": str(PROGRAM),
            "RASD_ROWS": f"{self.room}/rows",
            "RASD_MADE_ROWS": f"{self.room}/made",
            "RASD_READY": f"{self.room}/ready",
            "RASD_LAG": "0.1",
            "RASD_TRACE": str(self.room),
            "RASD_PSTORE": f"{self.room}/pstore",
            "RASD_BERT": f"{self.room}/bert",
            "RASD_EDAC": f"{self.room}/mc",
            "RASD_SETTINGS": f"{self.room}/settings",
        }
        self.process = None

    def start(self, *where, loud=False, wait=True, begin=subprocess.Popen):
        """Begins the command, as the service manager does; if it is loud, the output has the lines that say nothing new. Without
        waiting, what comes before the command is begun with it.
        """
        # A killed pass-lines leaves it; tests/program/quiet looks at that by itself.
        (self.folder / "held-lines").unlink(missing_ok=True)
        before, command = (with_our_paths(settings(it)[0], *where) for it in ("ExecStartPre", "ExecStart"))
        words = shlex.split(command)
        if loud:
            words.insert(1, "--loud")
        how = {"cwd": self.folder, "env": self.environment, "stdin": subprocess.DEVNULL}
        with open(self.room / "out", "wb") as out, open(self.room / "errors", "wb") as errors:
            if wait:
                subprocess.run(shlex.split(before.lstrip("-")), stdout=out, stderr=errors, **how)
            else:
                words = ["bash", "-c", '"$1"; shift; exec "$@"', "-", before.lstrip("-"), *words]
            self.process = begin(words, stdout=out, stderr=errors, start_new_session=True, **how)

    def processes(self):
        """The command's processes that are left: all of its session."""
        return [it[0] for it in map(process_of, pathlib.Path("/proc").glob("[0-9]*")) if it[1] == self.process.pid]

    def stop(self, number=signal.SIGKILL):
        """Ends what is left of the command, and what that has begun meanwhile."""
        end = time.monotonic() + PATIENCE
        while left := self.processes():
            for process in left:
                with contextlib.suppress(OSError):
                    os.kill(process, number if time.monotonic() < end else signal.SIGKILL)
            self.process.poll()
            time.sleep(0.01)
        self.process.wait()

    def ends(self, seconds=PATIENCE):
        """The status with which the command ends within these seconds, or none; what was begun is ended."""
        try:
            return self.process.wait(seconds)
        except subprocess.TimeoutExpired:
            return None
        finally:
            self.stop(signal.SIGTERM)

    def text(self, name="out", folder=None):
        """What the command printed, or its errors, or another file, if it is there already."""
        file = (folder or self.room) / name
        return file.read_text() if file.exists() else ""

    def awaits(self, text, name="out", seconds=PATIENCE, folder=None):
        """Whether this is printed in time."""
        end = time.monotonic() + seconds
        while text not in self.text(name, folder) and time.monotonic() < end:
            time.sleep(0.01)
        return text in self.text(name, folder)

    def awaits_names(self, count):
        """Whether the account has so many names in time, while the command goes on."""
        end = time.monotonic() + PATIENCE
        while not (is_whole := self.report("names").endswith(f" names={count}\n")) and time.monotonic() < end:
            if self.process.poll() is not None:
                break
            time.sleep(0.05)
        return is_whole

    def awaits_lines(self, pattern, count):
        """Whether so many lines that have the pattern are printed in time."""
        end = time.monotonic() + PATIENCE
        while len(re.findall(f"(?m){pattern}", self.text())) < count and time.monotonic() < end:
            time.sleep(0.05)
        return len(re.findall(f"(?m){pattern}", self.text())) >= count

    def awaits_no_boots_before(self):
        """Whether the errors of earlier boots are acknowledged in time, so that no boot is noted any more."""
        end = time.monotonic() + PATIENCE
        while (self.folder / "boots-before").read_text() and time.monotonic() < end:
            time.sleep(0.05)
        return not (self.folder / "boots-before").read_text()

    def has_before(self, text):
        """Lets the account be one of a boot 7 before this one, whose log has this text."""
        subprocess.run([PROGRAM, "run"], stdin=subprocess.DEVNULL, capture_output=True, cwd=self.folder)
        (self.folder / "boot-number").write_text(f"7 {EARLIER}\n")
        (self.room / "boots").write_text("".join(f" {id.replace('-', '')} Mon\n" for id in (EARLIER, BOOT)))
        (self.room / f"log.{EARLIER.replace('-', '')}").write_text(text)

    def add(self, text):
        """Lets the log go on."""
        with open(self.room / "log", "a") as log:
            log.write(text)

    def trace(self, text, events=EVENTS, boot=BOOT):
        """Lets a boot's trace be this, behind the names of its events, as service/keep-trace has it."""
        (self.room / f"trace.{boot}").write_text(f"# {events}\n{text}")

    def end_log(self):
        """Ends journalctl, once it follows the log."""
        self.awaits("\n", "process")
        os.kill(int(self.text("process")), signal.SIGTERM)

    def tell(self, *words):
        """The status of service/tell, and what it says."""
        how = {"env": {**self.environment, "RASD_PROCESS": str(self.process.pid)}, "capture_output": True, "text": True, "timeout": PATIENCE}
        ran = subprocess.run([SERVICE / "tell", *words], stdin=subprocess.DEVNULL, **how)
        return ran.returncode, ran.stdout + ran.stderr

    def report(self, what):
        """What a report prints."""
        return subprocess.run([PROGRAM, "report", what], cwd=self.folder, capture_output=True, text=True).stdout


@contextlib.contextmanager
def service(in_memory=False):
    """A service that isn't begun yet. Its journal is on the disk, or in memory for what has thousands of errors."""
    memory = pathlib.Path("/dev/shm")
    where = memory if in_memory and os.access(memory, os.W_OK) else None
    with tempfile.TemporaryDirectory(prefix="rasd-service-") as room:
        with tempfile.TemporaryDirectory(prefix="rasd-journal-", dir=where) as folder:
            yield Service(room, folder)
