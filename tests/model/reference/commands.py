"""The commands beside `run`: listings of the account, a run in memory, those that read a text, and two that tell of rasd."""
import pathlib
import re
import uuid

from reference import load, reports
from reference.account import CLASSES, MOST_NAMES, STATES, text_of_name
from reference.base import Refused, Stop
from reference.feeds import log_feed, trace_feed
from reference.firmware import lines_ghes
from reference.journal import recover
from reference.kernel import LAST_SECOND, decimal_of, klog, lines_klog, lines_mce, lines_trace
from reference.reports import bit, digits, number_at
from reference.script import lines_of, read_line

VERSION = (pathlib.Path(__file__).resolve().parents[3] / "VERSION").read_text().strip()


def end_line(account):
    """The last line of a run, and of a listing."""
    return f"end entries={account.entries} names={len(account.names)}\n"


def stop_line(end):
    """The last line where something was refused."""
    return f"stop {end.status} {end.text}\n"


# ---- report


def counts(account):
    """The sums of each module."""
    for label, module in account.modules.items():
        sums = " ".join(f"{name}={count}" for name, count in zip(CLASSES, module.sums))
        yield f"counts label={label.decode() or '-'} {sums}\n"


def pages(account):
    """The pages, with their states and buckets."""
    for number, page in account.pages.items():
        bucket = f"count={page.bucket.count} stamp={page.bucket.stamp}"
        yield f"page={digits(number * 4096)} state={STATES[page.state]} {bucket}\n"


def names(account):
    """The names."""
    return (f"{text_of_name(name)}\n" for name in account.names)


def modules(account):
    """The modules that have a bucket."""
    for label, module in account.modules.items():
        if module.bucket:
            state = "replace" if module.is_replaced else "kept"
            bucket = f"count={module.bucket.count} stamp={module.bucket.stamp}"
            yield f"module label={label.decode()} state={state} {bucket}\n"


def sample(name, labels, number):
    """A sample in the text format of Prometheus."""
    escaped = ((key, text.replace("\\", "\\\\").replace('"', '\\"')) for key, text in labels.items())
    told = ",".join(f'{key}="{text}"' for key, text in escaped)
    return f"{name}{{{told}}} {number}\n" if told else f"{name} {number}\n"


def families(account):
    """Each metric: its name, how it changes, what it is, and its numbers by their labels."""
    rows = [(label.decode() or "-", module) for label, module in account.modules.items()]
    buckets = [({"label": label}, module) for label, module in rows if module.bucket]
    states = [STATES[page.state] for page in account.pages.values()]
    yield "rasd_errors_total", "counter", "Errors by their module and class, each by its weight.", [
        ({"label": label, "class": name}, count) for label, module in rows for name, count in zip(CLASSES, module.sums)
    ]
    yield "rasd_pages", "gauge", "Pages with errors by their state: soft and hard are ordered out of use.", [
        ({"state": state}, states.count(state)) for state in ("soft", "hard", "kept")
    ]
    yield "rasd_module_replace", "gauge", "1 if the module is to be replaced.", [
        (labels, int(module.is_replaced)) for labels, module in buckets
    ]
    yield "rasd_module_bucket_errors", "gauge", "Corrected errors in the bucket of the module.", [
        (labels, module.bucket.count) for labels, module in buckets
    ]
    limit_help = "Corrected errors in a bucket at which its module is to be replaced."
    yield "rasd_module_bucket_limit", "gauge", limit_help, [({}, account.module_limit[0])]
    yield "rasd_names", "gauge", "Names of errors that are known.", [({}, len(account.names))]
    yield "rasd_names_limit", "gauge", "The most names that can be known.", [({}, MOST_NAMES)]
    entries_help = "Entries of the account: new errors, limits and retired boots."
    yield "rasd_entries_total", "counter", entries_help, [({}, account.entries)]
    yield "rasd_boot_floor", "gauge", "The boot below which all boots are retired.", [({}, account.floor)]
    yield "rasd_build_info", "gauge", "1, with the version of the program.", [({"version": VERSION}, 1)]


def metrics(account):
    """All metrics."""
    for name, kind, text, samples in families(account):
        yield f"# HELP {name} {text}\n# TYPE {name} {kind}\n"
        yield from (sample(name, labels, number) for labels, number in samples)


LISTINGS = {b"counts": counts, b"pages": pages, b"names": names, b"modules": modules, b"metrics": metrics}


def report(listing, files):
    """A listing of what two files hold, or where they are refused; and the status."""
    try:
        account = recover([data or b"" for data in files])[1]
    except Stop as end:
        return ("# " if listing is metrics else "") + stop_line(end), end.status
    return "".join(listing(account)) + ("" if listing is metrics else end_line(account)), 0


# ---- pcie

PCIE = uuid.UUID("d995e954-bbc1-430f-ad91-b44dcb3c6f35")
PCIE_BYTES, RECORD_BYTES = 208, 16_384
UNCORRECTABLE = {
    4: "data-link", 5: "surprise-down", 12: "poisoned-tlp", 13: "flow-control", 14: "completion-timeout",
    15: "completer-abort", 16: "unexpected-completion", 17: "receiver-overflow", 18: "malformed-tlp", 19: "ecrc",
    20: "unsupported-request", 21: "acs-violation", 22: "internal", 23: "mc-blocked", 24: "atomic-blocked",
    25: "prefix-blocked",
}  # fmt: skip
CORRECTABLE = {
    0: "receiver-error", 6: "bad-tlp", 7: "bad-dllp", 8: "replay-rollover", 12: "replay-timeout", 13: "advisory",
    14: "corrected-internal", 15: "header-overflow",
}  # fmt: skip


class PcieSection:
    """A section of PCI Express: its device and its two words of bits, each None where it isn't told."""

    def __init__(self, data):
        told = number_at(data, 0, 8)
        places = {"vendor": (24, 2), "id": (26, 2), "function": (31, 1), "device": (32, 1), "segment": (33, 2)}
        places["bus"] = (35, 1)
        fields = tuple((name, number_at(data, *place)) for name, place in places.items())
        self.device = fields if bit(told, 3) else None
        self.uncor = number_at(data, 116, 4) if bit(told, 7) else None
        self.cor = number_at(data, 128, 4) if bit(told, 7) else None


def form(device, text):
    """The fields of a device in a form, or `-` for none."""
    return text.format(**dict(device)) if device else "-"


def bits_of(word):
    """The bits that are set in a word, in rising order."""
    return [it for it in range(32) if bit(word or 0, it)]


def bits_text(word, named):
    """The bits of a word by their names, or `-` for none."""
    return ",".join(named.get(it, f"bit-{it}") for it in bits_of(word)) or "-"


DEVICE, VENDOR = "{segment:04x}:{bus:02x}:{device:02x}.{function:x}", "{vendor:04x}:{id:04x}"


def sections_of(line):
    """The name of the report of a line, and its sections of PCI Express; none where it is no report."""
    kind, values = read_line(line) or ("", ())
    name, sections = None, []
    try:
        if kind == "put" and len(values[1]) <= RECORD_BYTES:
            identifier, found = reports.read_record(values[1].ljust(RECORD_BYTES, b"\0"))
            name, sections = ("record", values[0]), found if identifier == values[0] else []
        elif kind == "ghes":
            boot, _, source, number, data = values
            name, sections = ("block", boot, source, number), reports.read_block(data) or []
    except reports.Refused:
        pass
    return name, [it for it in sections if it.guid == PCIE]


def pcie(script):
    """What is printed of the PCI Express errors of a script, and the status."""
    counting, end = {}, None
    try:
        for number, line in lines_of([script]):
            name, sections = sections_of(line)
            if sections:
                counting.setdefault(name, sections)
    except Refused as refusal:
        end = Stop(2, f"line={number} reason={refusal}")
    except Stop as refusal:
        end = refusal
    taken = [(text_of_name(name), it) for name, sections in counting.items() for it in sections]
    lines, read = [], []
    for name, it in taken:
        if len(it.data) < PCIE_BYTES:
            lines.append(f"pcie {name} short\n")
            continue
        section = PcieSection(it.data)
        read.append(section)
        device = f"device={form(section.device, DEVICE)} id={form(section.device, VENDOR)}"
        errors = f"uncor={bits_text(section.uncor, UNCORRECTABLE)} cor={bits_text(section.cor, CORRECTABLE)}"
        lines.append(f"pcie {name} {device} severity={it.kind} {errors}\n")
    if end:
        return "".join(lines) + stop_line(end), end.status
    devices = list(dict.fromkeys(it.device for it in read))
    for device in devices:
        uncor, cor = (sum(len(bits_of(getattr(it, word))) for it in read if it.device == device)
                      for word in ("uncor", "cor"))
        lines.append(f"device={form(device, DEVICE)} uncor={uncor} cor={cor}\n")
    return "".join(lines) + f"end sections={len(read)} devices={len(devices)}\n", 0


# ---- the words

NUMBER, CAP = re.compile(rb"[0-9]{1,20}"), re.compile(rb"[0-9a-fA-F]{1,16}")
HERE = pathlib.Path(__file__).resolve().parent


def told_of_rasd(words):
    """What rasd says of itself; None where that isn't asked for."""
    if words == [b"--help"]:
        return (HERE / "help.txt").read_text()
    if words == [b"--version"]:
        return f"rasd {(HERE.parents[2] / 'VERSION').read_text()}"
    return None


def boot_and_cap(words, is_capped=True):
    """The numbers that a boot's words say; None where they say none."""
    forms = (NUMBER, CAP)[: 1 + is_capped]
    if len(words) != len(forms) or not all(form.fullmatch(word) for form, word in zip(forms, words)):
        return None
    boot = decimal_of(words[0])
    return None if boot is None else (boot, *(int(word, 16) for word in words[1:]))


def boot_and_second(words):
    """The number of a boot and the second at which it began; None where the words say none."""
    if len(words) != 2 or not all(NUMBER.fullmatch(word) for word in words):
        return None
    numbers = decimal_of(words[0]), decimal_of(words[1], LAST_SECOND)
    return None if None in numbers else numbers


def boot_cap_and_second(words):
    """The number of a boot, IA32_MCG_CAP, and the second at which the boot began; None where the words say none."""
    first, last = boot_and_cap(words[:2]), boot_and_second(words[::2])
    return (*first, last[1]) if len(words) == 3 and first and last else None


def borders_of(words):
    """From when on a trace has machine checks, and the firmware's reports, each None if never; None where the words say none."""
    if not words:
        return None, None
    numbers = [decimal_of(word) if NUMBER.fullmatch(word) else None for word in words]
    is_right = all(word == b"-" or number is not None for word, number in zip(words, numbers))
    return numbers if len(words) == 2 and is_right else None


def answer(words, data, files):
    """What a command prints over an input and two files, and its status; None where the words are none of these."""
    if (told := told_of_rasd(words)) is not None:
        return told, 0
    if len(words) == 2 and words[0] == b"report" and words[1] in LISTINGS:
        return report(LISTINGS[words[1]], files)
    if len(words) == 2 and words[0] == b"load" and NUMBER.fullmatch(words[1]):
        count = decimal_of(words[1], load.MOST)
        return (load.summary(count), 0) if count else None
    if words == [b"pcie"]:
        return pcie(data)
    if words[:1] == [b"klog"] and (numbers := boot_and_cap(words[1:])):
        return klog(*numbers, data)
    if words[:2] == [b"lines", b"klog"] and (numbers := boot_and_cap(words[2:])):
        return lines_klog(*numbers, data)
    if words[:2] == [b"lines", b"mce"] and (numbers := boot_and_cap(words[2:], is_capped=False)):
        return lines_mce(*numbers, data)
    if words[:2] == [b"lines", b"trace"] and (numbers := boot_and_cap(words[2:], is_capped=False)):
        return lines_trace(*numbers, data)
    if words[:2] == [b"lines", b"ghes"] and (numbers := boot_and_second(words[2:])):
        return lines_ghes(*numbers, data)
    if words[:2] == [b"lines", b"trace"] and words[5:] in ([], [b"edac"]) and (numbers := boot_cap_and_second(words[2:5])):
        return trace_feed(*numbers, data, of_drivers=bool(words[5:]))
    if words[:2] == [b"lines", b"log"] and (numbers := boot_cap_and_second(words[2:5])) and (both := borders_of(words[5:])):
        return log_feed(*numbers, *both, data)
    return None
