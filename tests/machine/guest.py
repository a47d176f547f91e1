"""A guest of QEMU: it boots, runs commands as root, gets machine checks, and loses its power."""
import base64
import contextlib
import mmap
import os
import pathlib
import select
import socket
import subprocess
import sys
import time

import firmware

HERE = pathlib.Path(__file__).resolve().parent
# A boot takes half a minute of the processor, since TCG has no help of it, and on a loaded host a long time. So a guest has time
# until QEMU has spent so many of the processor's seconds, or an idle one so many of the clock's.
PATIENCE, AT_MOST = 300, 10_000
# What waits looks now and then, since a look costs the guest as much as what it waits for.
PAUSE = 3
RECORDS = 65536
PROMPT = b"(qemu) "


class Ended(Exception):
    """The guest has ended, or doesn't answer."""


class Guest:
    """One guest, with a folder of its own: its disk, its record store, its console, its sockets."""

    def __init__(self, images, folder):
        self.images, self.folder = pathlib.Path(images), pathlib.Path(folder)
        self.folder.mkdir(parents=True, exist_ok=True)
        self.process = self.server = self.stream = self.boot = None
        # More of the kernel's parameters, for the boots to come.
        self.count, self.rest, self.more = 0, b"", ""

    def path(self, name):
        """A file of the guest's folder."""
        return str(self.folder / name)

    def fresh(self, files):
        """Makes the disks anew: the guest's, over the image; that of the account; and one with these files, as a tar."""
        for name in ("records", "console", "journal"):
            pathlib.Path(self.path(name)).unlink(missing_ok=True)
        with open(self.path("records"), "wb") as records:
            records.truncate(RECORDS)
        how = ["-q", "-f", "qcow2", "-F", "raw", "-b", str(self.images / "base.ext4"), self.path("root")]
        subprocess.run(["qemu-img", "create", *how], check=True)
        pathlib.Path(self.path("account")).unlink(missing_ok=True)
        subprocess.run(["truncate", "-s", "64M", self.path("account")], check=True)
        subprocess.run(["mke2fs", "-q", "-t", "ext4", "-L", "account", self.path("account")], check=True)
        names = [word for file in files for word in ("-C", os.path.dirname(file), os.path.basename(file))]
        subprocess.run(["tar", "-cf", self.path("files"), *names], check=True)
        for name, table in (("hest", firmware.hest()), ("bert", firmware.bert())):
            pathlib.Path(self.path(name)).write_bytes(table)

    def serve_account(self):
        """Serves the account's disk, which loses at a cut what had no flush."""
        if self.server:
            return
        sockets = [self.path(name) for name in ("disk", "control")]
        for name in sockets:
            pathlib.Path(name).unlink(missing_ok=True)
        self.server = subprocess.Popen([sys.executable, HERE / "disk.py", self.path("account"), *sockets])
        while not all(map(os.path.exists, sockets)):
            time.sleep(0.05)

    def words(self):
        """QEMU's words."""
        disks = {
            "root": f"file={self.path('root')},format=qcow2,cache=writeback",
            "files": f"file={self.path('files')},format=raw,readonly=on",
            "account": f"file=nbd+unix:///?socket={self.path('disk')},format=raw,cache=none",
        }
        drives = [["-drive", f"if=none,id={it},{disks[it]}", "-device", f"virtio-blk-pci,drive={it},serial={it}"] for it in disks]
        parameters = "console=ttyS0 edd=off mitigations=off root=/dev/vda rw panic=5 systemd.show_status=0"
        parameters += f" memmap={firmware.SIZE:#x}${firmware.PLACE:#x}{self.more}"
        return [
            # The guest's time goes by its instructions: by the host's, a loaded host would leave it no time but for its clock's ticks.
            *("qemu-system-x86_64", "-accel", "tcg,thread=single", "-icount", "shift=3,sleep=on", "-cpu", "Skylake-Server", "-smp", "1", "-m", "1024"),
            *("-display", "none", "-nodefaults", "-no-reboot"),
            *("-kernel", str(self.images / "kernel"), "-initrd", str(self.images / "initrd")),
            *("-append", parameters),
            # The host writes into this memory too, as firmware does.
            *("-object", "memory-backend-memfd,id=memory,size=1G,share=on", "-machine", "memory-backend=memory"),
            *("-acpitable", f"file={self.path('hest')}", "-acpitable", f"file={self.path('bert')}"),
            *("-device", f"loader,file={self.path('regions')},addr={firmware.PLACE:#x},force-raw=on"),
            *("-chardev", f"file,id=console,path={self.path('console')},append=on", "-serial", "chardev:console"),
            *("-monitor", f"unix:{self.path('monitor')},server=on,wait=off"),
            *[word for drive in drives for word in drive],
            *("-device", "virtio-serial-pci", "-device", "virtserialport,chardev=agent,name=agent"),
            *("-chardev", f"socket,id=agent,path={self.path('agent')},server=on,wait=off"),
            *("-object", f"memory-backend-file,id=records,mem-path={self.path('records')},size={RECORDS},share=on"),
            *("-device", "acpi-erst,memdev=records"),
        ]

    def write_regions(self, saved):
        """Writes what the firmware's memory has at the boot: no report, and perhaps what it saved of a crash."""
        regions = bytearray(firmware.SIZE)
        regions[:8] = firmware.BLOCK.to_bytes(8, "little")
        at = firmware.SAVED - firmware.PLACE
        regions[at : at + len(saved)] = saved
        pathlib.Path(self.path("regions")).write_bytes(regions)

    def start(self, saved=b""):
        """Boots it, perhaps with a block that the firmware saved of the crash before, and waits for its agent."""
        self.write_regions(saved)
        self.serve_account()
        for name in ("agent", "monitor"):
            pathlib.Path(self.path(name)).unlink(missing_ok=True)
        with open(self.path("errors"), "a") as errors:
            how = {"stdin": subprocess.DEVNULL, "stdout": errors, "stderr": errors}
            self.process = subprocess.Popen(self.words(), **how)
        limit = self.limit()
        while not self.connects():
            limit()
            time.sleep(0.2)
        while not (line := self.answer()).startswith("READY"):
            pass
        self.boot = line.split()[1]

    def spent(self):
        """The processor's seconds that QEMU has spent."""
        if self.process.poll() is not None:
            return 0
        with open(f"/proc/{self.process.pid}/stat") as file:
            words = file.read().rpartition(")")[2].split()
        return (int(words[11]) + int(words[12])) / os.sysconf("SC_CLK_TCK")

    def limit(self):
        """What raises an error once QEMU has ended, or the patience with it, from now on."""
        until, end = self.spent() + PATIENCE, time.monotonic() + AT_MOST

        def check():
            if self.process.poll() is not None:
                raise Ended(f"the guest has ended: {pathlib.Path(self.path('errors')).read_text()[-500:]}")
            if self.spent() > until or time.monotonic() > end:
                raise Ended("the guest doesn't answer")

        return check

    def connects(self):
        """Whether QEMU has the agent's socket by now."""
        self.stream, self.rest = socket.socket(socket.AF_UNIX), b""
        with contextlib.suppress(OSError):
            self.stream.connect(self.path("agent"))
            return True
        return False

    def answer(self):
        """A line of the agent."""
        limit = self.limit()
        while b"\n" not in self.rest:
            if not select.select([self.stream], [], [], 5)[0]:
                limit()
                continue
            data = self.stream.recv(65536)
            if not data:
                raise Ended("the guest has ended")
            self.rest += data
        line, _, self.rest = self.rest.partition(b"\n")
        return line.decode(errors="replace")

    def run(self, command):
        """The status of a command of the guest's shell, and what it printed."""
        self.count += 1
        self.stream.sendall(b"%d %s\n" % (self.count, base64.b64encode(command.encode())))
        while (words := self.answer().split())[:1] != [str(self.count)]:
            pass
        text = base64.b64decode(words[2]).decode(errors="replace") if len(words) > 2 else ""
        return int(words[1]), text

    def text(self, command):
        """What a command printed, whatever its status."""
        return self.run(command)[1].strip()

    def now(self):
        """The guest's seconds since its boot, by which all limits go: a loaded host has more of them."""
        return float(self.text("cut -d ' ' -f 1 /proc/uptime"))

    def keep_journal(self, what):
        """Keeps the end of the guest's journal, the unit's processes and files, for who looks into what failed."""
        unit = "systemctl status rasd -l -n 0 --no-pager; ls -l /run/rasd /run/rasd-prepare /var/lib/rasd; cd /var/lib/rasd; tail boot* saved-logs"
        with open(self.path("journal"), "a") as journal:
            print(f"==== {what}", self.text("journalctl -b -o short-monotonic -n 150 --no-pager"), self.text(unit), sep="\n", file=journal)

    def console(self):
        """What its console printed."""
        return pathlib.Path(self.path("console")).read_text(errors="replace")

    def awaits(self, command, text, seconds=120):
        """Within how many of the guest's seconds a command printed this, or nothing if it didn't."""
        begun = self.now()
        while text not in self.text(command):
            if self.now() > begun + seconds:
                return None
            time.sleep(PAUSE)
        return self.now() - begun

    def monitor(self, command):
        """What QEMU's monitor answers."""
        with socket.socket(socket.AF_UNIX) as stream:
            stream.connect(self.path("monitor"))
            stream.settimeout(60)
            self.until_prompt(stream)
            stream.sendall(command.encode() + b"\n")
            return self.until_prompt(stream)

    @staticmethod
    def until_prompt(stream):
        """What the monitor prints before its next prompt."""
        data = b""
        while not data.endswith(PROMPT):
            piece = stream.recv(4096)
            if not piece:
                break
            data += piece
        return data.removesuffix(PROMPT).decode(errors="replace")

    def inject(self, bank, status, global_status, address, misc, everywhere=False):
        """Has CPU 0 see a machine check: as an exception, or, with 0 for MCG_STATUS, at the kernel's next poll."""
        numbers = f"{status:#x} {global_status:#x} {address:#x} {misc:#x}"
        return self.monitor(f"mce {'-b ' if everywhere else ''}0 {bank} {numbers}")

    def memory(self):
        """The guest's memory."""
        folder = pathlib.Path(f"/proc/{self.process.pid}/fd")
        for descriptor in folder.iterdir():
            if os.readlink(descriptor).startswith("/memfd:memory-backend-memfd"):
                with open(descriptor, "r+b") as file:
                    return mmap.mmap(file.fileno(), 0)
        raise Ended("QEMU has no memory to write to")

    def put(self, block):
        """Has the firmware report a block, without waiting for Linux to take it."""
        at = firmware.BLOCK
        with self.memory() as memory:
            memory[at + 4 : at + len(block)] = block[4:]
            memory[at : at + 4] = block[:4]

    def report(self, block, seconds=30):
        """Has the firmware report a block; returns whether Linux took it within these seconds of the guest's."""
        self.put(block)
        begun = self.now()
        with self.memory() as memory:
            while True:
                for _ in range(100):
                    # Linux clears the block's first word once it has the block.
                    if memory[firmware.BLOCK : firmware.BLOCK + 4] == bytes(4):
                        return True
                    time.sleep(0.02)
                if self.now() > begun + seconds:
                    return False

    def ends(self):
        """Whether QEMU ends, as it does if the guest reboots."""
        limit = self.limit()
        try:
            while self.process.poll() is None:
                limit()
                time.sleep(0.2)
        except Ended:
            return self.process.poll() is not None
        self.stream.close()
        return True

    def reboot(self, saved=b""):
        """Has the guest shut down, and boots it again, perhaps with a block that the firmware saved."""
        with contextlib.suppress(Ended, OSError):
            self.run("systemctl --no-block reboot")
        if not self.ends():
            raise Ended("the guest doesn't shut down")
        self.start(saved)

    def cut(self, seed):
        """Takes its power away; says how many sectors of the account's disk had no flush, and how many lost a write."""
        self.process.kill()
        self.ends()
        with socket.socket(socket.AF_UNIX) as stream:
            stream.connect(self.path("control"))
            with stream.makefile("rw") as lines:
                print("cut", seed, file=lines, flush=True)
                return lines.readline().strip()

    def close(self):
        """Ends it, and its disk."""
        for process in (self.process, self.server):
            if process and process.poll() is None:
                process.kill()
                process.wait()
