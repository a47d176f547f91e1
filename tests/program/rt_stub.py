#!/usr/bin/env python3
"""A stub of the kit's rt, with which tests/program/wrapper tests the script rasd: as a command, and as the module that
.ci/prove loads. ROOM, from the environment, is the test's folder.

It notes each proof and each build in ROOM/calls, at its start and its end. A crate with a file ROOM/fails-CRATE fails, one
with ROOM/waits-CRATE waits. `rt run` first leaves a part of the program, as a linker does.
"""
import os
import pathlib
import subprocess
import sys
import time
import types

ROOM = pathlib.Path(os.environ["ROOM"])


def note(*words):
    with open(ROOM / "calls", "a", encoding="utf-8") as file:
        file.write(" ".join(words) + "\n")


def work(crate):
    """Does as if a crate was proved or built. Returns the status."""
    time.sleep(0.05)
    if (ROOM / f"waits-{crate}").exists():
        (ROOM / "waiting").write_text(str(os.getpid()))
        time.sleep(60)
    if (ROOM / f"fails-{crate}").exists():
        print(f"error: {crate}")
        return 1
    return 0


class Crate:
    def __init__(self, folder, root, known):
        self.folder, self.name, self.out = folder, os.path.basename(folder), sys.stdout
        lines = [it.split(":") for it in pathlib.Path(root, "crates.txt").read_text().splitlines() if ":" in it]
        below = {head.split()[0]: rest.split() for head, rest in lines}
        folders = [f"{root}/crates/{it}" for it in below[self.name] if it in below]
        for it in folders:
            known[it] = known.get(it) or Crate(it, root, known)
        self.deps = [known[it] for it in folders]

    def below(self):
        found = []
        for dep in self.deps:
            found += [it for it in [*dep.below(), dep] if it not in found]
        return found

    def stamp(self):
        return self.name + "".join(it.stamp() for it in self.deps)

    def makes_rlib(self):
        return self.name != "ras_cli"

    def check(self, _flags):
        note("begin check", self.name)
        status = subprocess.run([sys.executable, __file__, self.name], stdout=self.out).returncode
        note("end check", self.name)
        return status

    def build_rlib(self, flags, anew):
        return self.check(flags)


def files_of(folder):
    yield from map(str, pathlib.Path(folder, "src").iterdir())


def nothing(*_words):
    pass


rtlib = types.SimpleNamespace(
    Crate=Crate, files_of=files_of, guarded=nothing, lock=nothing, stop_on_links=nothing, stop_on_text=nothing
)


def processors():
    return 4


def run():
    """Does as `rt run` in the folder of a program."""
    note("begin run ras_cli")
    status = work("ras_cli")
    note("end run ras_cli")
    program = pathlib.Path("out", "ras_cli")
    program.parent.mkdir(exist_ok=True)
    program.write_text("#!")
    program.chmod(0o755)
    if status or (ROOM / "no-link").exists():
        return 1
    program.write_text((ROOM / "program").read_text().replace("VERSION", (ROOM / "version").read_text()))
    return 0


def main(words):
    return run() if words[0] == "run" else work(words[0])


if __name__ == "__main__":
    sys.exit(main(sys.argv[1:]))
