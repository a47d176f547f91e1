"""A guest with the package, and the errors that its account must have."""
import collections
import re
import time

from guest import PAUSE

# In the guest's seconds, of which TCG makes little.
SOON = 120
LATER = 300
BOOTS_KEPT = 8
# MCG_STATUS of an exception: MCIP and RIPV.
EXCEPTION = 5
CORRECTED = 0x8C00004000010090
RECOVERED = 0xBD000000000000C0
CHECKS = "/sys/devices/system/machinecheck/machinecheck0"
NAME = re.compile(r"^bank=(\d+)/\d+/(\d+)/(\d+)$", re.M)
OF_FIRMWARE = re.compile(r"^(block|bert)=(\d+)", re.M)


class Machine:
    """A guest, and the errors that its account must have: how many, by boot and bank, or by boot and `block` or `bert`."""

    def __init__(self, guest):
        self.guest, self.wanted = guest, collections.Counter()
        self.run, self.text = guest.run, guest.text

    def boot(self):
        """The number of the boot, as the service has it."""
        return int(self.text("cut -d ' ' -f 1 /var/lib/rasd/boot-number") or 0)

    def account(self):
        """The errors that the account has, by boot and bank or kind, and the report that says so. Those of old boots are retired."""
        oldest, report = self.boot() - BOOTS_KEPT, self.text("cd /var/lib/rasd && /usr/libexec/rasd/rasd report names")
        self.wanted = collections.Counter({key: count for key, count in self.wanted.items() if key[0] >= oldest})
        counted = collections.Counter((int(boot), int(bank)) for boot, bank, _ in NAME.findall(report))
        counted.update((int(boot), kind) for kind, boot in OF_FIRMWARE.findall(report))
        return collections.Counter({key: count for key, count in counted.items() if key[0] >= oldest}), report

    def agrees(self, what, seconds=SOON):
        """Whether the account comes to have what was injected, and no more; later groups begin with what it has."""
        begun = self.guest.now()
        while True:
            counted, report = self.account()
            took = self.guest.now() - begun
            if counted == self.wanted or took > seconds:
                break
            time.sleep(PAUSE)
        if counted == self.wanted:
            return f"{what} ({took:.0f} s)", True
        lost, more = self.wanted - counted, counted - self.wanted
        self.wanted = counted
        return f"{what}: by boot and bank lost {dict(lost)}, too many {dict(more)}: {report[-100:]!r}", False

    def reports(self, block):
        """Has the firmware report a block; returns whether the kernel took it."""
        took = self.guest.report(block)
        # A report of the log ends at the next line.
        self.text("sleep 1; echo another line > /dev/kmsg")
        return took

    def polls(self):
        """Has the kernel look for corrected errors each second."""
        self.text(f"echo 1 > {CHECKS}/check_interval")

    def correct(self, bank, channel=0, address=0x23456040):
        """Injects a corrected error, which the kernel finds by polling."""
        self.guest.inject(bank, CORRECTED | channel, 0, address, 0x86)
        self.wanted[self.boot(), bank] += 1

    def state(self, unit="rasd"):
        """What systemd says of a unit."""
        return self.text(f"systemctl is-active {unit}")

    def is_active(self, unit="rasd"):
        """Whether a unit is active."""
        return self.state(unit) == "active"

    def comes_up(self, seconds=LATER):
        """Whether the service is active within this time, and has polled what was saved."""
        end = self.guest.now() + seconds
        while self.guest.now() < end and (state := self.state()) != "failed":
            if state == "active" and self.boot_id_of_number() == self.guest.boot:
                return True
            time.sleep(PAUSE)
        return False

    def boot_id_of_number(self):
        """The boot that the number of the service is of."""
        return self.text("cut -d ' ' -f 2 /var/lib/rasd/boot-number 2>/dev/null")

    def source(self):
        """Where this boot's errors come from."""
        return "log and trace" if self.is_active("rasd-trace") else "log"

    def counts_both(self, channel, page):
        """Whether a corrected error comes to the account, and an uncorrected one that the kernel recovers."""
        source = self.source()
        self.polls()
        self.correct(7, channel=channel)
        yield self.agrees(f"{source}: a corrected error that the kernel polled is counted")
        text = self.text("rasd report counts")
        yield f"it has the label of its module: {text[:120]}", f"counts label=S0.M0.C{channel} CE=1 " in text
        before = self.corrupted()
        self.guest.inject(8, RECOVERED, EXCEPTION, int(f"{page}040", 16), 0x8C)
        self.wanted[self.boot(), 8] += 1
        yield self.agrees(f"{source}: an uncorrected error that the kernel recovered is counted")
        after = self.corrupted()
        yield f"the kernel did recover it: {after} kB are out of use", after == before + 4
        yield "its page is ordered out of use", f"page={page:0>13}000 state=hard" in self.text("rasd report pages")

    def corrupted(self):
        """How much memory the kernel has taken out of use, in kB."""
        return int(self.text("sed -n 's/^HardwareCorrupted: *//p' /proc/meminfo").split()[0])

    def why(self):
        """What the service said last."""
        return repr(self.text("journalctl -u rasd -b -n 4 -o cat")[-300:])
