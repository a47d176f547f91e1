"""A disk in memory, by a loop device, whose writes and flushes are counted; tests/program/syncs and bench/disk use it."""
import contextlib
import os
import pathlib
import shutil
import subprocess
import tempfile

MAKE = {"ext4": ["mkfs.ext4", "-q", "-b", "4096", "-E", "lazy_itable_init=0,lazy_journal_init=0"], "xfs": ["mkfs.xfs", "-q"]}
# mkfs.xfs makes no smaller file system.
SIZE = 320 << 20


def missing(file_system):
    """What is missing for a disk with this file system."""
    tools = [it for it in (MAKE[file_system][0], "mount") if not shutil.which(it)]
    return tools + ([] if os.geteuid() == 0 and os.path.exists("/dev/loop-control") else ["root"])


def call(*words):
    subprocess.run(words, check=True, capture_output=True)


def written(device):
    """How many writes a device had so far, their KiB, and its flushes (Documentation/block/stat.rst of Linux)."""
    fields = [*map(int, (pathlib.Path("/sys/block") / device / "stat").read_text().split())]
    return fields[4], fields[6] / 2, fields[15]


@contextlib.contextmanager
def disk(file_system):
    """A new disk: a folder on it, and a function that returns what was written to it so far."""
    memory = "/dev/shm" if os.access("/dev/shm", os.W_OK) else None
    with tempfile.TemporaryDirectory(prefix="rasd-disk-", dir=memory) as room:
        image, place = f"{room}/image", f"{room}/disk"
        os.mkdir(place)
        with open(image, "wb") as file:
            file.truncate(SIZE)
        call(*MAKE[file_system], image)
        call("mount", "-o", "loop", image, place)
        try:
            device = next(words[0] for words in map(str.split, open("/proc/mounts")) if words[1] == place)
            folder = pathlib.Path(place) / "account"
            folder.mkdir()
            yield folder, lambda: written(pathlib.Path(device).name)
        finally:
            call("umount", place)


def cost(file_system, begin, lines, more):
    """What one more line writes to a disk, in writes, KiB and flushes: BEGIN prepares a folder, LINES is called with it for the first
    lines and with it for more of them, MORE is how many more.
    """
    with disk(file_system) as (folder, so_far):
        begin(folder)
        lines(folder, False)
        os.sync()
        before = so_far()
        lines(folder, True)
        return tuple((it - other) / more for it, other in zip(so_far(), before))
