"""A program with tests/program/between.c between it and the C library."""
import os
import pathlib
import shutil
import struct
import subprocess
import tempfile

SOURCE = pathlib.Path(__file__).resolve().with_suffix(".c")
COUNTS = struct.Struct("<2Q")
LAST = 2**64 - 1
# Where a sync costs nothing, if there is such a place.
ROOM = "/dev/shm" if os.access("/dev/shm", os.W_OK) else None


def built(folder):
    """What is laid between, built in a folder; None if there is no compiler for it."""
    library = pathlib.Path(folder) / "between.so"
    if shutil.which("cc") is None:
        return None
    subprocess.run(["cc", "-shared", "-fPIC", "-O2", "-o", library, SOURCE], check=True)
    return library


def ran(library, words, data, folder, **between):
    """Runs words in a folder, with the library preloaded: how the run ended, and how many calls of the two kinds it made."""
    with tempfile.NamedTemporaryFile(dir=ROOM) as counts:
        counts.write(bytes(COUNTS.size))
        counts.flush()
        numbers = {name: str(number) for name, number in between.items()}
        environment = {"LD_PRELOAD": str(library), "BETWEEN": counts.name, **numbers}
        ended = subprocess.run(words, input=data, capture_output=True, cwd=folder, env=environment, timeout=60)
        return ended, COUNTS.unpack(os.pread(counts.fileno(), COUNTS.size, 0))
