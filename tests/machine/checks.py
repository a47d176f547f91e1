"""The checks of tests/machine/run, in groups: each gives what has to hold, and whether it does.

A group continues from what the one before left. A lost error fails only in its own group: the next starts from the account
as it is.
"""
import re

import crashes
from machine import CHECKS, LATER, SOON

# The process that makes lines of the log or the trace.
FILTER = "grep -lz '^lines$' $(sed 's#.*#/proc/&/cmdline#' /sys/fs/cgroup/system.slice/rasd.service/cgroup.procs) | "
FILTER += "xargs grep -lz '^/usr/libexec/rasd/rasd$' | cut -d / -f 3 | while read -r it; do [[ $(</proc/$it/comm) != rasd ]] || echo $it; done"


def install(it):
    """apt installs the package"""
    it.text("tar -xf /dev/disk/by-id/virtio-files -C /root")
    status, text = it.run("apt-get install -y ./rasd_*.deb")
    yield f"apt installs the package{': ' + text[-300:] if status else ''}", status == 0
    owner = it.text("stat -c '%U %G %a' /var/lib/rasd")
    yield f"the account's folder is the user's: {owner}", owner == "rasd rasd 750"
    units = it.text("dpkg -L rasd | sed -n 's#.*/systemd/system/\\(rasd[^@]*\\.\\(service\\|timer\\)\\)$#\\1#p'").split()
    states = {unit: it.text(f"systemctl is-enabled {unit}; systemctl is-active {unit}").split() for unit in units}
    is_quiet = all(state[0] != "enabled" and state[1] == "inactive" for state in states.values())
    yield f"a first installation enables and starts nothing{'' if is_quiet else f': {states}'}", bool(units) and is_quiet
    # From now on the account is on a disk that loses what has no flush.
    it.text("echo 'LABEL=account /var/lib/rasd ext4 defaults 0 0' >> /etc/fstab; systemctl daemon-reload")
    status, text = it.run("systemctl start var-lib-rasd.mount && rmdir /var/lib/rasd/lost+found && chown rasd: /var/lib/rasd")
    it.text("chmod 750 /var/lib/rasd")
    yield f"the account has a disk of its own{text}", status == 0


def start(it):
    """systemctl enable --now rasd is all that is to be done"""
    it.text("systemctl enable --now rasd")
    is_up = it.comes_up(SOON)
    it.text("sleep 15")
    is_up = is_up and it.is_active()
    yield f"the unit runs with nothing set{'' if is_up else ': ' + it.why()}", is_up
    rows = it.text("grep -c '^module ' /etc/rasd/machine.script /run/rasd*/*.script 2>/dev/null")
    yield f"the machine's rows are there: {rows}", bool(re.search("[1-9]", rows.replace("machine.script", "")))
    if not is_up:
        it.text("modprobe msr; echo MCG_CAP=$(rdmsr 0x179) >> /etc/default/rasd; rasd-setup > /etc/rasd/machine.script")
        it.text("systemctl reset-failed rasd; systemctl restart rasd")
        yield f"the unit runs with MCG_CAP and rows set by hand: {it.why()}", it.comes_up()
    for unit, most in (("rasd", 1.0), ("rasd-metrics", 2.0), ("rasd-trace", 2.0), ("rasd-offline", 2.0)):
        level = re.search(r"exposure level for \S+: (\S+)", it.text(f"systemd-analyze security {unit} --no-pager"))
        yield f"systemd-analyze security {unit}: {level and level[1]}", bool(level) and float(level[1]) <= most
    it.text("systemctl enable --now rasd-metrics.timer")


def errors(it):
    """what the kernel finds reaches the account"""
    yield from it.counts_both(2, "33333")


def trial(it):
    """errors that aren't any, as docs/RECIPES.md and the package's own test inject them"""
    status, text = it.run("./one-error")
    yield f"debian/tests/one-error: {text[-300:]}", status == 0
    words = "echo {} > /sys/kernel/debug/mce-inject/{}".format
    values = (("0", "cpu"), ("sw", "flags"), ("0xbc00004000010091", "status"), ("0x2ab46040", "addr"), ("0x86", "misc"), ("7", "bank"))
    status, text = it.run(" && ".join(words(value, name) for value, name in values))
    yield f"mce-inject takes an uncorrected error{text}", status == 0
    it.wanted[it.boot(), 7] += 2
    yield it.agrees("both are counted")
    text = it.text("rasd report counts; rasd report pages")
    yield f"under their module: {text[:120]}", "counts label=S0.M0.C1 CE=1 UCNA=1 " in text
    is_there = "page=000000002ab45000 state=kept" in text and "page=000000002ab46000 state=soft" in text
    yield "and their pages, the second ordered out of use", is_there


def offline(it):
    """rasd-offline carries orders out, each once in a boot"""
    boot, cap, before = it.boot(), it.text("modprobe msr; rdmsr 0x179"), it.corrupted()
    it.text("systemctl enable --now rasd-offline")
    for register, page in (("bd000000000000c0", "2aaaa"), ("bc00000000000090", "2bbbb")):
        status, text = it.run(f"rasd-tell bank {boot} $(date +%s) 0 9 {int(page, 16)} {cap} 0 {register} {page}040 86")
        yield f"a line that is told{text}", status == 0
        it.wanted[boot, 9] += 1
    yield it.agrees("lines that are told are counted")
    pages = "cat /run/rasd-offline/pages"
    for kind, page in (("hard", "2aaaa"), ("soft", "2bbbb")):
        took = it.guest.awaits(f"{pages} | grep '{kind} {page:0>13}000' | grep -v begun", page, LATER)
        text = it.text(f"journalctl -u rasd-offline -o cat | grep {page} | tail -n 1")
        yield f"the {kind} order reaches the kernel, which answers: {text}", took is not None
    text = it.text("cat /var/lib/prometheus/node-exporter/rasd-offline.prom")
    wanted = re.search(r'taken_out{order="soft"} 1\n.*taken_out{order="hard"} [12]\n', text, re.S)
    yield f"its metrics have both, and {it.corrupted() - before} kB more are out of use", bool(wanted) and it.corrupted() >= before + 8
    asked = it.text(pages)
    it.text("systemctl restart rasd; sleep 20; systemctl restart rasd-offline; sleep 20")
    yield "no page is asked for again after restarts", it.text(pages) == asked and it.is_active("rasd-offline")
    # Else it would take the same pages out in each boot to come.
    it.text("systemctl disable --now rasd-offline")


def shown(it):
    """what systemd shows of the service is short, and says why it ended"""
    took = it.guest.awaits("cat /var/lib/prometheus/node-exporter/rasd.prom", "rasd_", SOON)
    yield "rasd-metrics writes its file", took is not None
    longest = max(map(len, it.text("systemctl status rasd --no-pager -l").splitlines()), default=0)
    yield f"no line of systemctl status is longer than 400 characters: {longest}", 0 < longest <= 400
    tasks = int(it.text("systemctl show -p TasksCurrent --value rasd"))
    yield f"the service has room for its processes: {tasks} of 32", 0 < tasks <= 24
    lines = it.text("journalctl -u rasd -o cat | grep -cE '^(done|repeat) '")
    yield f"the journal has no line that tells nothing new: {lines}", lines == "0"
    it.text("cp -p /etc/rasd/machine.script /root/; echo refused >> /etc/rasd/machine.script; systemctl restart rasd")
    took = it.guest.awaits("systemctl is-active rasd", "failed", SOON)
    text = it.text("systemctl status rasd --no-pager -n 0 | grep Status:")
    yield f"systemctl status says why a service has ended: {text[:120]}", took is not None and "status 2: " in text
    said = "rasd.service has ended, so no error is counted: status 2: "
    took = it.guest.awaits("journalctl -b -p crit -t rasd -o cat", said, SOON)
    yield "the journal has it as critical, and the console has it", took is not None and said in it.guest.console()
    metrics = "grep '^rasd_active ' /var/lib/prometheus/node-exporter/rasd.prom"
    yield "the metrics say that it isn't active", it.guest.awaits(metrics, "rasd_active 0", LATER) is not None
    it.text("cp -p /root/machine.script /etc/rasd/; systemctl reset-failed rasd; systemctl start rasd")
    yield "it runs again without the refused row", it.comes_up()
    yield "and the metrics say so", it.guest.awaits(metrics, "rasd_active 1", LATER) is not None


def kills(it):
    """a process that is killed costs nothing"""
    it.polls()
    processes = (("rasd", "systemctl show -p MainPID --value rasd"), ("a filter", FILTER), ("pass-lines", "pgrep -f lib/rasd/pass-lines"))
    for what, find in processes:
        restarts = int(it.text("systemctl show -p NRestarts --value rasd") or 0)
        status, text = it.run(f"kill -9 $({find})")
        it.correct(7, address=0x24567040)
        yield f"kill -9 of {what}{text}", status == 0
        took = it.guest.awaits("systemctl show -p NRestarts --value rasd", str(restarts + 1), LATER)
        yield f"the service is begun again{'' if took else ': ' + it.why()}", took is not None and it.comes_up()
        yield it.agrees("the account has what it had, and what came meanwhile")


def before(it):
    """what a boot told while the service was down, and before its trace, is counted"""
    it.text("systemctl stop rasd")
    it.polls()
    it.correct(3, address=0x25678040)
    took = it.guest.awaits("journalctl -k -b -o cat | grep 'Bank 3:'", "Bank 3", SOON)
    yield "the kernel told of an error while the service was down", took is not None
    # Only what journald has on the disk counts.
    it.text("journalctl --sync")
    it.guest.reboot()
    yield "after a reboot the unit runs", it.comes_up()
    yield it.agrees("an error of the boot before, told while the service was down, is counted")
    # No error came in this boot, so the trace may be lost: it begins anew, later than this one.
    it.text("systemctl stop rasd rasd-trace && rmdir /sys/kernel/tracing/instances/rasd")
    it.text("rm /var/lib/rasd-trace/trace.$(cat /proc/sys/kernel/random/boot_id)")
    it.polls()
    it.correct(4, address=0x25778040)
    took = it.guest.awaits("journalctl -k -b -o cat | grep 'Bank 4:'", "Bank 4", SOON)
    yield "the kernel told of an error before the trace", took is not None
    it.text("systemctl start rasd")
    yield it.agrees("an error from before the trace is counted")
    it.polls()
    it.correct(4, address=0x25779040)
    yield it.agrees("and one of the trace, each once")


def source(it):
    """the log alone, as on a machine that doesn't let its trace be read"""
    it.text("systemctl mask rasd-trace")
    # Debian 13's kernel keeps what it collects from the log.
    it.guest.more = " ras=cec_disable"
    crashes.keep_log(it, "disk")
    it.guest.reboot()
    yield "the unit runs without a trace", it.comes_up() and not it.is_active("rasd-trace")
    yield from it.counts_both(3, "34444")
    it.text("systemctl unmask rasd-trace")
    it.guest.more = ""


def purge(it):
    """a purge leaves the account, and nothing else"""
    status, text = it.run("apt-get remove -y rasd")
    yield f"remove{text[-200:] if status else ''}", status == 0
    yield "the units end", it.text("systemctl list-units --state=active,failed --plain --no-legend 'rasd*'") == ""
    status, text = it.run("apt-get purge -y rasd")
    warnings = re.findall("^.*warning:.*$", text, re.M)
    yield f"purge{text[-200:] if status else ''}{warnings or ''}", status == 0 and not warnings
    left = it.text("find / \\( -path /proc -o -path /sys -o -path /root -o -path /var/log -o -path /var/lib/rasd \\) -prune -o -name '*rasd*' -print")
    yield f"a purge leaves no file: {left}", left == ""
    traced = it.text(f"ls /sys/kernel/tracing/instances; grep -l 1 {CHECKS}/print_all")
    yield f"and the kernel as it was: {traced}", traced == ""
    yield "the account stays", "rasd.0" in it.text("ls /var/lib/rasd")
    status, text = it.run("apt-get install -y ./rasd_*.deb")
    states = it.text("systemctl is-enabled rasd rasd-trace rasd-offline rasd-metrics.timer; systemctl is-active rasd")
    yield f"a later installation enables nothing: {states.split()}", status == 0 and "enabled" not in states.split()
    yield it.agrees("and has the same account")


ALL = (install, start, errors, trial, *crashes.REPORTS, offline, shown, kills, before, crashes.cut, crashes.fatal, *crashes.CRASHES, source, purge)
GROUPS = {group.__name__: group for group in ALL}
