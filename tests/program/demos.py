"""Checks of the filters in service/ and of monitor/write-metrics; tests/program/examples runs them.

service/json gets every line that tests/program/rows.txt and the cases say is printed, `lines ghes` the reports of many
sources, `lines log` and `lines trace` long inputs, service/put-lines whole and truncated records, and the kernel's own.
A parser of Prometheus' text format (version 0.0.4), which rejects everything that the format doesn't allow, reads what
monitor/write-metrics writes.
"""
import datetime
import json
import os
import pathlib
import re
import struct
import subprocess
import tempfile
import time
import uuid

from rattle import TOP
from table import rows

DEMO, SERVICE, MONITOR, TESTS = TOP / "demo", TOP / "service", TOP / "monitor", TOP / "tests" / "program"

# The kinds of lines that rasd prints, each by its beginning.
KINDS = (
    "log bank=", "log record=", "log block=", "log bert=", "repeat ", "stale ", "limit ", "module-limit ", "retire ",
    "order soft ", "order hard ", "order module ", "done ", "end entries=", "stop 1 usage", "stop 2 ", "stop 7 ",
    "stop 8 full", "stop 9 ", "stop 10 busy", "stop 11 ", "stop 13 too-long", "unreadable ", "counts ", "page=", "bank=",
    "record=", "block=", "bert=", "module ", "pcie block=", "pcie record=", "device=", "end sections=", "partial ",
    "end reports=",
)  # fmt: skip
# Lines of kinds that no row and no case has, and some with identifiers of digits alone, made by hand.
MORE = (
    "stop 9 line=1",
    "stop 10 busy",
    "stop 11 code=1",
    "unreadable record=1234567890123456 reason=section-out",
    "log record=1234567890123456 t=300 class=corrected weight=1 label=A page=1234567890123000 memory type=single-bit-ecc"
    " node=- card=- module=- mask=1234567890123456",
    "log bert=1 t=50 class=fatal weight=1 label=- page=- processor type=2 isa=1 error=4 op=0 level=3",
    "log block=1/1/1 t=50 class=fatal weight=1 label=- page=- x64 apic=1234567890123456 structures=0 contexts=0",
    "log block=1/1/1 t=50 empty",
    "order module label=123",
    'module label="\\=,{} state=kept count=1 stamp=100',
    "record=1234567890123456",
    "bert=18446744073709551615",
    "order module label={,",
)


def output_of(name, data, *words):
    """What a script of service/ prints of an input, and its status."""
    ran = subprocess.run([SERVICE / name, *words], input=data, capture_output=True)
    return ran.stdout + ran.stderr, ran.returncode


def holds(what, is_so):
    """Whether that is so; else it is told."""
    if not is_so:
        print(f"demo: {what}")
    return is_so


# ---- service/json

# The parts of a name by its kind, and members that are strings or null.
PARTS = {"bank": "boot cpu bank tsc", "record": "record", "block": "boot source number", "bert": "boot"}
STRINGS = ("label", "page", "record", "mask", "apic", "tsc", "number", "id")


# What these words print isn't for service/json.
OTHERS = (b"lines", b"--help", b"--version", b"metrics")


def printed_lines():
    """Each line that the rows and the cases say is printed, and some more."""
    texts = [row.printed for row in rows() if not set(OTHERS) & set(row.words)]
    for file in (TESTS / "cases").glob("**/stdout"):
        words = file.parent / "words"
        if not words.exists() or not set(OTHERS) & set(words.read_bytes().split(b"\n")):
            texts.append(file.read_bytes())
    return sorted({line for text in texts for line in text.decode().splitlines()} | set(MORE))


def value_of(key, text):
    """The value of a member."""
    if text == "-":
        return None
    return int(text) if re.fullmatch(r"0|[1-9]\d*", text) and key not in STRINGS else text


def date_of(text):
    """A second since 1970 by ISO 8601, up to the year 9999."""
    first = datetime.datetime(1970, 1, 1)
    return f"{first + datetime.timedelta(seconds=int(text)):%Y-%m-%dT%H:%M:%SZ}" if int(text) <= 253402300799 else None


def members_of(word):
    """The members that a word `key=value` stands for."""
    key, _, text = word.partition("=")
    if key in PARTS and (key != "bank" or "/" in text):
        parts = zip(PARTS[key].split(), text.split("/"))
        return [("name", word), *((part, value_of(part, it)) for part, it in parts)]
    beside = {"t": "time", "stamp": "since"}.get(key)
    return [(key, value_of(key, text)), *([(beside, date_of(text))] if beside else [])]


def object_of(line):
    """The members of the object of a line, in their order."""
    first, *rest = line.split(" ")
    key = first.partition("=")[0]
    kind = "name" if "=" in first and key in PARTS else key
    words, members = ([first, *rest] if "=" in first else rest), [("type", kind)]
    for place, word in enumerate(words):
        if word in ("memory", "processor", "x64"):
            members.append((word, [it for other in words[place + 1 :] for it in members_of(other)]))
            break
        if "=" in word:
            members += members_of(word)
        elif kind == "stop":
            members.append(("status", int(word)) if word.isdigit() else ("reason", word))
        elif place == 0 and kind in ("done", "order"):
            members.append({"done": ("line", int(word) if word.isdigit() else word), "order": ("order", word)}[kind])
        else:
            members.append((word, True))
    return members


def checks_of_json():
    """Each line gives one object, whose members are the words of the line."""
    lines = printed_lines()
    for kind in KINDS:
        yield holds(f"no line begins with {kind}", any(it.startswith(kind) for it in lines))
    seconds = [0, 86399, 951782399, 951782400, 4107542399, 253402300799, 253402300800, 2**64 - 1]
    seconds += range(0, 10**11, 777777777)
    lines += [f"log bert=1 t={it} empty" for it in seconds]
    output, status = output_of("json", "".join(f"{it}\n" for it in lines).encode())
    objects = output.decode().splitlines()
    yield holds("json: a line has no object", status == 0 and len(objects) == len(lines))
    for line, text in zip(lines, objects):
        members = json.loads(text, object_pairs_hook=list)
        has_distinct_keys = len({key for key, _ in members}) == len(members)
        is_right = list(map(tuple, flat(members))) == flat(object_of(line)) and has_distinct_keys
        yield is_right or holds(f"json: {line}: {text}", False)


def flat(members):
    """Members with those of an object in an object behind its key."""
    parts = [[(key, {}), *flat(value)] if isinstance(value, list) else [(key, value)] for key, value in members]
    return [it for part in parts for it in part]


# ---- the metrics

METRIC = r"[a-zA-Z_:][a-zA-Z0-9_:]*"
LABEL = r'([a-zA-Z_][a-zA-Z0-9_]*)="((?:[^"\\\n]|\\[\\"n])*)"'
SAMPLE = re.compile(rf"({METRIC})(?:\{{({LABEL}(?:,{LABEL})*)?,?\}})? (\S+)(?: (-?\d+))?")
NUMBER = re.compile(r"[+-]?(\d+(\.\d*)?|\.\d+)([eE][+-]?\d+)?|[+-]?Inf|NaN")
TYPES = ("counter", "gauge", "histogram", "summary", "untyped")
ESCAPED = re.compile(r"\\(.)")


class Wrong(Exception):
    """A text that isn't in the format."""


def demand(is_so, why):
    """Refuses a text where that isn't so."""
    if not is_so:
        raise Wrong(why)


def samples_of(text):
    """The samples of a text, each by its name and labels, where the text keeps all rules."""
    demand(text == "" or text.endswith("\n"), "the last line has no line feed")
    types, helps, samples, families = {}, {}, {}, []
    for line in text.split("\n")[:-1]:
        if line == "":
            continue
        if line.startswith("#"):
            found = re.fullmatch(rf"# (HELP|TYPE) ({METRIC}) (.*)", line)
            demand(found, f"neither HELP nor TYPE: {line}")
            word, name, rest = found.groups()
            told = helps if word == "HELP" else types
            demand(name not in told, f"said twice: {line}")
            demand(word == "TYPE" or re.fullmatch(r"(?:[^\\]|\\[\\n])+", rest), f"a text that isn't escaped: {line}")
            demand(word == "HELP" or rest in TYPES, f"no type: {line}")
            demand(not any(key[0] == name for key in samples), f"after a sample of it: {line}")
            told[name] = rest
        else:
            found = SAMPLE.fullmatch(line)
            demand(found, f"no sample: {line}")
            name, value = found[1], found[7]
            pairs = re.findall(LABEL, found[2] or "")
            demand(NUMBER.fullmatch(value), f"no number: {line}")
            labels = {key: ESCAPED.sub(lambda it: "\n" if it[1] == "n" else it[1], text) for key, text in pairs}
            demand(len(labels) == len(pairs) and not any(it.startswith("__") for it in labels), f"labels: {line}")
            key = (name, tuple(sorted(labels.items())))
            demand(key not in samples, f"a sample that was there: {line}")
            samples[key] = value
        if families[-1:] != [name]:
            demand(name not in families, f"the lines of a metric don't stand together: {line}")
            families.append(name)
    demand(set(types) == set(helps) >= {name for name, _ in samples}, "a metric without its type or its help")
    demand(all((kind == "counter") == name.endswith("_total") for name, kind in types.items()), "the name of a counter")
    return samples


BROKEN = (
    "a 1", "a{b=1} 1\n", 'a{b="1} 1\n', 'a{b="\\x"} 1\n', "a one\n", "1a 1\n", "a 1\na 1\n", "# TYPE a number\na 1\n",
    "# HELP a b\n# TYPE a gauge\na 1\n# TYPE a gauge\n", "# TYPE a gauge\n", "a  1\n", 'a{b="1",b="2"} 1\n',
)  # fmt: skip


def is_refused(text):
    """Whether the parser refuses a text."""
    try:
        samples_of(text)
    except Wrong:
        return True
    return False


# A run of three modules, one of which has a label that would go on as labels of its own, and of errors of no module.
ODD = 'B"\\",class="CE'
MODULES = f"""cpu 0 0
module A 0 7 0
module {ODD} 0 7 1
module C 0 7 2
bank 1 100 0 7 1 1000c14 0 8c00004000010090 12345040 86
bank 1 100 0 7 2 1000c14 0 8c00008000010091 22345040 86
bank 1 100 0 7 3 1000c14 5 bd00000000000092 32345040 86
bank 1 100 0 8 4 1000c14 0 8c0000c000010090 0 0
"""
METRICS = (
    "rasd_errors_total rasd_pages rasd_module_replace rasd_module_bucket_errors rasd_module_bucket_limit rasd_names"
    " rasd_names_limit rasd_entries_total rasd_boot_floor rasd_build_info"
).split()


def key_of(name, **labels):
    """A sample's name and labels; `class` is a word of Python's, so that it is written with an underscore."""
    return name, tuple(sorted((key.rstrip("_"), text) for key, text in labels.items()))


def checks_of_metrics(program):
    """The program's metrics give the samples that they should, and by the machine's rows those of its modules."""
    for text in BROKEN:
        yield holds(f"metrics: the parser takes {text!r}", is_refused(text))
    with tempfile.TemporaryDirectory() as folder:
        def rasd(*words, data=b""):
            return subprocess.run([program, *words], input=data, capture_output=True, cwd=folder)

        empty = samples_of(rasd("report", "metrics").stdout.decode())
        yield holds(f"metrics: of an empty account: {empty}", len(empty) == 3 + 6)
        rasd("run", data=MODULES.encode())
        text = rasd("report", "metrics").stdout.decode()
        yield holds("metrics: in their order", re.findall(r"(?m)^# TYPE (\S+)", text) == METRICS)
        samples = samples_of(text)
        wanted = {
            key_of("rasd_errors_total", label="A", class_="CE"): "1",
            key_of("rasd_errors_total", label=ODD, class_="CE"): "2",
            key_of("rasd_errors_total", label="C", class_="SRAO"): "1",
            key_of("rasd_errors_total", label="-", class_="CE"): "3",
            key_of("rasd_errors_total", label="-", class_="UC"): "0",
            key_of("rasd_pages", state="hard"): "1",
            key_of("rasd_pages", state="kept"): "2",
            key_of("rasd_module_replace", label=ODD): "0",
            key_of("rasd_module_bucket_errors", label=ODD): "2",
            key_of("rasd_names"): "4",
            key_of("rasd_entries_total"): "4",
        }
        yield holds(f"metrics: {text}", wanted.items() <= samples.items() and len(samples) == 40 + 3 + 2 + 2 + 6)
        yield from checks_of_labels(program, folder, samples)
        for journal in ("rasd.0", "rasd.1"):
            (pathlib.Path(folder) / journal).write_bytes(b"\xa5damaged")
        ran = rasd("report", "metrics")
        is_comment = re.fullmatch(rb"# stop 7 file=\d place=\d+\n", ran.stdout)
        yield holds(f"metrics: a damaged journal: {ran.stdout}", is_comment and ran.returncode == 7)


def checks_of_labels(program, folder, samples):
    """By the machine's rows nothing is written of labels that they don't have; without them all is."""
    rows_file, file = pathlib.Path(folder) / "rows", pathlib.Path(folder) / "rasd.prom"
    for lines, kept in (
        (f"cpu 0 0\nmodule {ODD} 0 7 0\nplace C 0 0 0", {ODD, "-"}),
        ("module A 0 7 1\nmodule C 0 7 2\n", {"A", "C", "-"}),
        ("", {"-"}),
        (None, {ODD, "A", "C", "-"}),
    ):
        rows_file.unlink(missing_ok=True)
        if lines is not None:
            rows_file.write_text(lines)
        settings = {**os.environ, "RASD": str(program), "RASD_ROWS": str(rows_file), "RASD_MADE_ROWS": "/nonexistent"}
        settings["RASD_WATCH"] = f"{folder}/watch"
        ran = subprocess.run([MONITOR / "write-metrics", file], cwd=folder, env=settings, capture_output=True)
        wanted = {key: it for key, it in samples.items() if dict(key[1]).get("label", "-") in kept}
        # What write-metrics adds is tests/program/alerts' to try: here may be no systemd.
        names = {name for name, *_ in samples}
        found = {key: it for key, it in samples_of(file.read_text()).items() if key[0] in names}
        is_right = ran.returncode == 0 and found == wanted
        yield holds(f"metrics: by the rows {lines}: {ran.stderr}", is_right)


# ---- the firmware's reports


REPORT = (
    "[{0:5}.000001] {{{0}}}[Hardware Error]: Hardware error from APEI Generic Hardware Error Source: {0}\n"
    "[{0:5}.000003] {{{0}}}[Hardware Error]: event severity: corrected\n"
    "[{0:5}.000004] {{{0}}}[Hardware Error]:  Error 0, type: corrected\n"
    "[{0:5}.000006] {{{0}}}[Hardware Error]:   section_type: memory error\n"
)


def checks_of_many_sources(program):
    """Whatever sources come, a run takes all their lines, and none is too long to stay whole in a pipe."""
    text = "".join(REPORT.format(it) for it in [*range(60), *range(0, 60, 7)]) + "[99999.000000] eth0: up\n"
    words = [program, "lines", "ghes", "7", "60"]
    output = subprocess.run(words, input=text.encode(), capture_output=True).stdout
    with tempfile.TemporaryDirectory() as folder:
        ran = subprocess.run([program, "run"], input=output, capture_output=True, cwd=folder)
    is_short = all(len(line) < 4096 for line in output.splitlines())
    is_taken = ran.stdout.endswith(b"end entries=60 names=60\n")
    yield holds(f"lines ghes: many sources: {ran.stdout[-99:]}", is_short and is_taken)


def checks_of_long_inputs(program):
    """A log and a trace longer than a script may be are read to their end, and a line of any length is one."""
    front = 2_000 * (39_999 * b"x" + b"\n") + 100_000_000 * b"y" + b"\n"
    for words, file in ("log 1 1000c14 60", "kernel.log"), ("trace 1 1000c14 60", "mce.trace"):
        data = (DEMO / file).read_bytes()
        alone, behind = (
            subprocess.run([program, "lines", *words.split()], input=it, capture_output=True) for it in (data, front + data)
        )
        is_right = alone.stdout.startswith(b"bank ") and behind.stdout == b"# too long 2001\n" + alone.stdout
        yield holds(f"lines {words}: a long input: {behind.stdout[-99:]}", is_right and behind.returncode == 0)


# ---- service/put-lines


def record_of(identifier, size):
    """A record of this identifier and size."""
    front = b"CPER" + bytes(16) + size.to_bytes(4, "little") + bytes(72) + identifier.to_bytes(8, "little")
    return front + bytes(it % 251 for it in range(size - len(front)))


def put_of(data):
    """The line of a record."""
    return b"put %016x %s\n" % (int.from_bytes(data[96:104], "little"), data.hex().encode())


def saved_record(identifier, kind, section, sections=1, place=200):
    """A record as the kernel saves it, with one section of this type, whose descriptor gives this place."""
    record = bytearray(record_of(identifier, 200 + len(section)))
    record[10:12] = sections.to_bytes(2, "little")
    record[128:136] = struct.pack("<2I", place, len(section))
    record[144:160] = uuid.UUID(kind).bytes_le
    record[200:] = section
    return bytes(record)


def machine_check(vendor=0, later=bytes(40)):
    """What Linux 6.1.192 saved in a guest as it died: its struct mce. The kernel's version decides which members come later."""
    registers = 0xBE00000000800400, 0, 0, 5, 0xFFFFFFFF99907CAC, 119418565726, 1796005628
    return struct.pack("<7Q4BI4B3IQ", *registers, vendor, 0, 7, 0, 0x50654, 16, 4, 0, 0, 0, 0, 0, 0x100010A) + later


def checks_of_saved_records(program):
    """The kernel's machine check is a line `bank`; a piece of its log isn't put, and that is said."""
    check, log = "fe08ffbe-95e4-4be7-bc73-4096044a38fc", "4f118707-04dd-4055-b5dd-956d34ddfac6"
    plain = saved_record(2, "c197e04e-d545-4a70-9c17-a5549419eb12", bytes(range(256)) * 20)
    saved, piece = saved_record(1, check, machine_check()), saved_record(2, log, bytes(range(256)) * 20)
    long_piece, other = saved_record(2**64 - 1, log, bytes(20_000)), record_of(3, 353)
    bank = b"bank 7 1796005628 0 4 119418565726 100010a 5 be00000000800400 0 0\n"
    comment = b"# kernel log record=0000000000000002\n"
    one, two = (b"put-lines: left out pieces of the kernel's own log: %d\n" % it for it in (1, 2))
    out = b"put-lines: left out the machine check of record 0000000000000001: "
    tried = [(saved, "7", bank, b"", 0), (saved_record(1, check, machine_check(later=b"")), "7", bank, b"", 0)]
    tried += [(piece + other + saved + piece, "7", comment + put_of(other) + bank + comment, two, 0)]
    tried += [(long_piece + saved, "7", b"# kernel log record=ffffffffffffffff\n" + bank, one, 0)]
    tried += [(piece + long_piece[:-1], "7", comment + b"# kernel log record=ffffffffffffffff\n", b"put-lines: the last record is cut\n" + two, 1)]
    tried += [(plain + saved, "7", comment + bank, one, 0)]
    tried += [(piece[:399], "7", comment, b"put-lines: the last record is cut\n" + one, 1)]
    tried += [(saved[:-1], "7", b"", b"put-lines: no record at byte 0\n", 1)]
    tried += [(saved + other, "", put_of(other), out + b"the boot's number is missing\n", 1)]
    tried += [(saved_record(1, check, machine_check(vendor=2)), "7", b"", out + b"# vendor=2 cpu=0 bank=4\n", 1)]
    tried += [(saved_record(1, check, bytes(5000)), "7", b"", out + b"# unread mce bytes=129\n", 1)]
    tried += [(saved, str(2**64), b"", out + b"stop 1 usage\n", 1)]
    # Other records that have these types stay.
    for record in (saved_record(1, check, machine_check(), sections=2), saved_record(1, log, bytes(99), place=201)):
        tried += [(record, "7", put_of(record), b"", 0)]
    for records, boot, wanted, told, status in tried:
        words, settings = [SERVICE / "put-lines", *boot.split()], {**os.environ, "RASD": str(program)}
        ran = subprocess.run(words, input=records, capture_output=True, env=settings)
        is_right = (ran.stdout, ran.stderr, ran.returncode) == (wanted, told, status)
        yield holds(f"put-lines: saved records: {ran.stdout[:99]} {ran.stderr}, wanted {told}", is_right)
    output, status = output_of("put-lines", saved, "x")
    yield holds("put-lines: a wrong number", output == b"put-lines: usage: put-lines [BOOT] < RECORDS\n" and status == 1)


def checks_of_put_lines():
    """Each record is put whole under its identifier; what comes before a cut one too, and nothing of that."""
    data, first = (DEMO / "firmware.records").read_bytes(), 353
    line, second = put_of(data[:first]), put_of(data[first:])
    kinds = ((0, 400), (2**64 - 1, 5000), (7, 16385), (8, 20_000), (9, 128), (10, 16384), (11, 129))
    odd = {it: record_of(*it) for it in kinds}
    taken = b"".join(put_of(odd[it]) for it in ((9, 128), (10, 16384), (11, 129)))
    tried = [(data, line + second, 0), (b"", b"", 0), (data[:first] * 30, line * 30, 0)]
    tried += [(data[: first + n], line, 1) for n in (1, 20, 24, 127, 352)]
    tried += [(data[:first] + b"X" + data[first + 1 :], line, 1), (data[:20] + bytes(4) + data[24:], b"", 1)]
    tried += [(b"".join(odd.values()), taken, 1), (data[:first] + odd[8, 20_000][:-1], line, 1)]
    for records, wanted, status in tried:
        ran = subprocess.run([SERVICE / "put-lines"], input=records, capture_output=True)
        is_right = (ran.stdout, ran.returncode) == (wanted, status)
        is_told = ran.stderr.startswith(b"put-lines: ") == (status == 1)
        yield holds(f"put-lines: {len(records)} bytes: {ran.stdout[:80]}", is_right and is_told)
    start = time.monotonic()
    many = b"".join(record_of(it, 16384) for it in range(1, 301))
    output, status = output_of("put-lines", many)
    is_right = output.count(b"\n") == 300 and output.startswith(put_of(record_of(1, 16384)))
    yield holds("put-lines: many records", status == 0 and is_right)
    yield holds(f"put-lines: it took {time.monotonic() - start} seconds", time.monotonic() - start < 20)


def checks(program):
    """Whether each check of the demos passed."""
    yield all([*checks_of_json()])
    yield all([*checks_of_metrics(program)])
    yield all([*checks_of_many_sources(program)])
    yield all([*checks_of_long_inputs(program)])
    yield all([*checks_of_put_lines()])
    yield all([*checks_of_saved_records(program)])
