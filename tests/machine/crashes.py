"""The checks of what the firmware reports, and of each way in which a machine dies; tests/machine/checks.py has the others.

A machine may leave what it died of in a log that the dying kernel saved, in the kernel's record of the machine check, in the
firmware's table of the last crash, or in the trace only. journald's log is on the disk or in memory. The next boot's first start
may be whole, or not. Each of these is a group of its own: `record-memory-killed` is one of their names.
"""
import itertools

import firmware
from firmware import CORRECTED, FATAL, MEMORY, OTHER, RECOVERABLE, memory_section
from machine import EXCEPTION, LATER, NAME, RECOVERED, SOON

FATAL_CHECK = 0xBE00000000800400
LEFT = {
    "saved": "the log that the kernel saved",
    "record": "the kernel's record of the machine check",
    "bert": "the firmware's record of the crash",
    "trace": "the trace, since a power cut leaves nothing else",
}
JOURNALS = {"disk": "journald's log on the disk", "memory": "journald's log in memory"}
STARTS = {
    "whole": "a first start that is whole",
    "killed": "a first start that is killed",
    "cut": "a first start in which the power goes",
    "status2": "a first start that a line refuses, with status 2",
    "status4": "a first start that can't write the account, with status 4",
}
VOLATILE = "/etc/systemd/journald.conf.d/volatile.conf"
# What systemd-pstore kept of a machine whose store has no record of the machine check, as one of EFI's variables.
NO_RECORD = "/etc/systemd/system/systemd-pstore.service.d/no-record.conf"
READ_ONLY = "/etc/systemd/system/rasd.service.d/read-only.conf"
IS_BEGUN = "[[ $(cut -d ' ' -f 2 /var/lib/rasd/boot-number) == $(</proc/sys/kernel/random/boot_id) ]]"
IS_BEGUN += " && [[ $(systemctl show -p MainPID --value rasd) != 0 ]]"


def reports(it):
    """what the firmware reports is counted once, with its page"""
    boot, before = it.boot(), it.corrupted()
    reported = (
        ("a corrected error", CORRECTED, [0x2C001], "kept"),
        ("a corrected error of two modules", CORRECTED, [0x2C002, 0x2C003], "kept"),
        ("a recoverable error", RECOVERABLE, [0x2C004], "hard"),
    )
    for what, severity, pages, state in reported:
        yield f"the kernel takes {what}", it.reports(firmware.block(severity, *((MEMORY, memory_section(page)) for page in pages)))
        it.wanted[boot, "block"] += 1
        yield it.agrees(f"{what} is counted")
        text = it.text("rasd report pages")
        yield f"its pages are {state}", all(f"page={page:016x} state={state}" in text for page in (page << 12 for page in pages))
        # The kernel prints at most two reports within 5 seconds.
        it.text("sleep 6")
    yield f"the kernel recovered from it: {it.corrupted() - before} kB more are out of use", it.corrupted() == before + 4
    for size in (15, 16, 17, 80):
        section = bytes(range(size))
        yield f"the kernel takes a section of {size} bytes of no standard", it.reports(firmware.block(CORRECTED, (OTHER, section)))
        it.wanted[boot, "block"] += 1
    yield it.agrees("sections of no standard are counted")
    unread = it.text("journalctl -u rasd -b -o cat | grep '# unread'")
    yield f"none of them is unreadable{unread}", unread == ""
    it.text("systemctl restart rasd")
    yield "the service starts again", it.comes_up()
    yield it.agrees("and has each once")


def burst(it):
    """of a burst of the firmware's reports each that the kernel prints is counted, and none twice"""
    boot, pages = it.boot(), range(0x2D001, 0x2D007)
    begun = it.guest.now()
    took = [it.guest.report(firmware.block(CORRECTED, (MEMORY, memory_section(page)))) for page in pages]
    yield f"the kernel takes six reports in {it.guest.now() - begun:.0f} s", all(took)
    it.text("sleep 1; echo another line > /dev/kmsg; journalctl --sync")
    printed = int(it.text("journalctl -k -b -o cat | grep -c 'physical_address: 0x000000002d00[1-6]000'"))
    it.wanted[boot, "block"] += printed
    yield it.agrees(f"the {printed} that it prints are counted")
    text = it.text("rasd report pages")
    counted = sum(f"page={page << 12:016x} state=kept" in text for page in pages)
    yield f"the account has {counted} of the 6 pages", counted >= printed


def fatal(it):
    """what the firmware reports of a crash is counted in the next boot, from the log that the kernel saved"""
    boot = it.boot()
    it.text("sleep 6")
    it.guest.put(firmware.block(FATAL, (MEMORY, memory_section(0x2E001))))
    yield "the machine dies of a fatal report", it.guest.ends()
    it.wanted[boot, "block"] += 1
    it.guest.start()
    yield "after it the unit runs", it.comes_up()
    yield it.agrees("the report is counted")
    yield "its page is ordered out of use", "page=000000002e001000 state=hard" in it.text("rasd report pages")


def cut(it):
    """a cut of the power loses nothing that was acknowledged"""
    boot, cap = it.boot(), it.text("modprobe msr; rdmsr 0x179")
    line = f"bank {boot} $((1700000000 + n)) 0 2 $n {cap} 0 8c00004000010090 $((n + 10))000 86"
    # By then it has given what was before, which the lines would come between.
    took = it.guest.awaits("ls /run/rasd", "ready", SOON)
    yield "the service takes lines", took is not None
    pipe = "/proc/$(systemctl show -P MainPID rasd)/fd/0"
    it.text(f"(for n in $(seq 3000); do echo \"{line}\"; done > {pipe}) > /dev/null 2>&1 &")
    it.polls()
    it.correct(6, address=0x26789040)
    counted = {}
    for _ in range(40):
        counted, _ = it.account()
        if counted[boot, 2] > 50 and counted[boot, 6] > it.wanted[boot, 6] - 1:
            break
    yield f"errors come fast: {counted[boot, 2]} names", counted[boot, 2] > 50
    undone = it.guest.cut(len(it.guest.boot))
    it.guest.start()
    yield f"after a cut the unit runs (sectors without a flush, and of these lost: {undone})", it.comes_up()
    names = NAME.findall(it.text("rasd report names"))
    numbers = sorted(int(tsc) for number, bank, tsc in names if (int(number), int(bank)) == (boot, 2))
    most = counted[boot, 2]
    yield f"each acknowledged error is there: {most}, now {len(numbers)}", numbers == list(range(1, len(numbers) + 1)) and len(numbers) >= most
    it.wanted[boot, 2] = len(numbers)
    yield it.agrees("the account has all else that it had")


def keep_log(it, journal):
    """Has journald keep its log there from now on. In memory it has no boot before."""
    if bool(it.text(f"ls {VOLATILE} 2>/dev/null")) == (journal == "memory"):
        return
    if journal == "memory":
        it.text(f"mkdir -p {VOLATILE.rpartition('/')[0]}; printf '[Journal]\\nStorage=volatile\\n' > {VOLATILE}; rm -rf /var/log/journal/*")
    else:
        it.text(f"rm {VOLATILE}; mkdir -p /var/log/journal")
    it.text("systemctl restart systemd-journald; journalctl --flush")


def saved_files(it):
    """How many logs and how many records of dying kernels systemd-pstore has kept."""
    names = it.text("find /var/lib/systemd/pstore -type f -printf '%f\\n'").split()
    return names.count("dmesg.txt"), sum(name.startswith("mce-erst-") for name in names)


def add(it, path, text):
    """Makes a file of the guest's settings."""
    it.text(f"mkdir -p {path.rpartition('/')[0]}; printf '{text}' > {path}")


def spoil(it, start):
    """Has the next boot's first start end as its name says."""
    if start == "status2":
        it.text("cp -p /etc/rasd/machine.script /root/; echo refused >> /etc/rasd/machine.script")
    elif start == "status4":
        add(it, READ_ONLY, "[Service]\\nReadOnlyPaths=-/var/lib/rasd/rasd.0 -/var/lib/rasd/rasd.1\\n")


def dies(it, left, nth):
    """Has the machine die, after an error that the service didn't see; gives whether it died, and what its firmware saved of it."""
    boot, page = it.boot(), 0x34001 + nth
    # A kernel that loads another one to save the memory keeps no log: only its record of the machine check.
    it.text(f"mount -o remount,kmsg_bytes={64000 if left == 'saved' else 0} /sys/fs/pstore; rm -f {NO_RECORD}")
    if left == "saved":
        add(it, NO_RECORD, "[Service]\\nExecStartPost=find /var/lib/systemd/pstore -name mce-erst-* -delete\\n")
    it.polls()
    it.correct(3, address=0x278AB040)
    took = it.guest.awaits("dmesg | grep 'Bank 3:'", "Bank 3", SOON)
    yield "the kernel told of an error while the service was down", took is not None
    if left == "trace":
        it.guest.inject(8, RECOVERED, EXCEPTION, page << 12 | 0x40, 0x8C)
        it.wanted[boot, 8] += 1
    # The trace is synced each second.
    it.text("sync; sleep 3")
    if left in ("saved", "record"):
        it.guest.inject(4, FATAL_CHECK, EXCEPTION, 0, 0)
        it.wanted[boot, 4] += 1
        if not it.guest.ends():
            yield "the machine dies of it", False
    else:
        it.guest.cut(nth)


def first_start(it, start, saved):
    """Boots it, and lets the first start go as its name says; gives whether it did."""
    it.guest.start(saved)
    if start == "cut":
        it.text(f"until {IS_BEGUN}; do sleep 1; done")
        owed = it.text("cat /var/lib/rasd/boots-before")
        it.guest.cut(len(it.guest.boot))
        yield f"the power goes before the boots before are counted: {owed!r}", owed != ""
        # The firmware has its record at the first boot only.
        it.guest.start()
    elif start == "killed":
        it.text(f"until {IS_BEGUN}; do sleep 1; done")
        owed = it.text("cat /var/lib/rasd/boots-before; systemctl kill -s KILL rasd; systemctl stop rasd")
        yield f"it is killed before the boots before are counted: {owed!r}", owed != ""
        it.text("systemctl reset-failed rasd; systemctl start rasd")
    elif start.startswith("status"):
        status = start[-1]
        took = it.guest.awaits("journalctl -u rasd -b -o cat", f"status {status}: ", LATER)
        yield f"it ends with status {status}{'' if took is not None else ': ' + it.why()}", took is not None
        it.text(f"[[ ! -e /root/machine.script ]] || mv /root/machine.script /etc/rasd/; rm -f {READ_ONLY}; systemctl daemon-reload")
        it.text("systemctl stop rasd; systemctl reset-failed rasd; systemctl start rasd")


def crash(it, left, journal, start, nth):
    """The checks of one way to die."""
    boot = it.boot()
    it.text("systemctl stop rasd")
    keep_log(it, journal)
    spoil(it, start)
    before = saved_files(it)
    yield from dies(it, left, nth)
    saved = firmware.block(FATAL, (MEMORY, memory_section(0x2F001 + nth))) if left == "bert" else b""
    yield from first_start(it, start, saved)
    yield "after it the unit runs", it.comes_up()
    if left == "bert":
        # Its name is the boot that finds it.
        it.wanted[boot + 1, "bert"] += 1
    more = [max(now - then, 0) for now, then in zip(saved_files(it), before)]
    is_so = (more[0] > 0, more[1] > 0) == (left == "saved", left == "record")
    yield f"systemd-pstore keeps {more[0]} logs and {more[1]} records", is_so
    yield it.agrees(f"{left}-{journal}-{start}: what the machine died of is counted once, under its boot")


def crash_group(left, journal, start, nth):
    """The group of one way to die."""

    def group(it):
        return crash(it, left, journal, start, nth)

    group.__name__, group.__doc__ = f"{left}-{journal}-{start}", f"{LEFT[left]}; {JOURNALS[journal]}; {STARTS[start]}"
    return group


REPORTS = (reports, burst)
# The first starts that differ come last: a run that has no time for all groups has each thing that is left.
WAYS = [(left, journal, start) for start, journal, left in itertools.product(STARTS, JOURNALS, LEFT)]
CRASHES = tuple(crash_group(*way, nth) for nth, way in enumerate(WAYS))
