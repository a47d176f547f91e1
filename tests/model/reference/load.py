"""A script that is made up from a number, and the line that sums up its account."""
from reference.journal import Disk
from reference.run import Run

MOST = 50_000
MACHINE = ["cpu 0 0"] + [f"module M{channel} 0 7 {channel}" for channel in range(4)]


def bank_lines(count):
    """The lines of so many reports: every tenth repeats the one before it."""
    number, line = 1, None
    for place in range(1, count + 1):
        number = (number * 6364136223846793005 + 1442695040888963407) % 2**64
        chosen = number >> 33
        if place % 10:
            status, page = 0x8C00004000010090 + chosen // 1000 % 4, chosen % 1000 + 1
            line = f"bank 1 {1000 + place} 0 7 {place} 1000c14 0 {status:x} {page * 4096:x} 86"
        yield line


def script_of(count):
    """The script that is made up from a number."""
    return "".join(f"{line}\n" for line in [*MACHINE, *bank_lines(count)]).encode()


def summary(count):
    """The line of a number: what came of a run over its script, from files that were empty."""
    taken = Run(Disk((None, None)), lambda text: None)
    if taken.take_all([script_of(count)]):
        raise SystemExit("the run over a script that is made up was refused")
    account = taken.journal.account
    corrected = sum(module.sums[0] for module in account.modules.values())
    soft, hard = ([page.state for page in account.pages.values()].count(state) for state in (1, 2))
    return f"load n={count} names={len(account.names)} CE={corrected} soft={soft} hard={hard}\n"
