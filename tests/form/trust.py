"""What docs/TRUST.md and README.md say has to be trusted: how many lines, and which scripts."""
import re

from promises import promises
from rattle import NO_TEXT, TOP, USE, items_in, text_of
from reading import Reading, pruned, reading_of, size_of

TRUST, README = TOP / "docs" / "TRUST.md", TOP / "README.md"
HEADLINE = "rasd_over/ran.headline"
# what the run over the real files is read with, and the definitions of it that model the disk
BOXES = "2"
MODEL = re.compile(r"crates/(host_system/specs/|board_core/specs/DiskModel[.])")
ROW = re.compile(r"^\| ([^|]+) \| ([\d,]+) in (\d+) \|", re.M)
TO_READ = re.compile(r"To read: ([\d,]+) lines in (\d+) files, or ([\d,]+) in (\d+) with all boxes opened")
FRONT = re.compile(r"some ([\d,]+) lines that model files, names and the kernel's calls, some ([\d,]+) that make these calls")
SCRIPT_ROW = re.compile(r"^\| ((?:`[^`]+`(?:, )?)+) \|", re.M)
# what service/ has beside scripts and what systemd reads
NO_SCRIPTS = {"README.md"}


def code_in(files):
    """How many lines of code files of crates/ have, without comments, imports and tests, and how many files there are."""
    texts = [USE.sub("", NO_TEXT.sub("", text_of(f"crates/{file}"))) for file in files]
    return sum(bool(line.strip()) for text in texts for line in text.split("\n")), len(files)


def of_all_promises():
    """The definitions of all promises with all boxes opened, each as the promise reads it that shows most of it."""
    longest = {}
    for item in (it for promise in promises() for it in promise.readings()[1].items() if it.kind != "fn"):
        other = longest.get((item.file, item.name), item)
        longest[item.file, item.name] = max(item, other, key=lambda it: len(it.lines))
    return list(longest.values())


def lines_of_scripts():
    """How many lines of code the scripts of the service and the script rasd have, and how many files."""
    files = [TOP / "rasd", *(it for it in (TOP / "service").iterdir() if is_script(it))]
    lines = [line for file in files for line in file.read_text().split("\n") if not re.match(r"\s*(#|$)", line)]
    return len(lines), len(files)


def is_script(file):
    return file.suffix in ("", ".awk", ".bash", ".pl")


def table_now():
    """The rows of docs/TRUST.md's table that have figures: what is trusted, its lines, and its files."""
    read = reading_of(HEADLINE, BOXES).items()
    known = {(item.file, item.name) for item in read}
    kernel = pruned(Reading([items_in("host_system")["Kernel"]], {}, [])).items()
    return {
        "the definitions of all promises, with all boxes opened": size_of(of_all_promises()),
        "of these, what files, names and syncs are": size_of([item for item in read if MODEL.match(item.file)]),
        "the clauses of `Kernel`, and what else they name": size_of([it for it in kernel if (it.file, it.name) not in known]),
        "the code of its calls, one a method": code_in(["ras_host/src/real_kernel.rt", "ras_host/src/real_input.rt"]),
        "the program's `main`": code_in(["ras_cli/src/main.rt"]),
        "the scripts of service/, and `rasd`": lines_of_scripts(),
    }


def differ(now, told):
    """Whether one of the numbers that are told is off by more than a tenth."""
    return len(now) != len(told) or any(abs(one - other) > one / 10 for one, other in zip(now, told))


def numbers(match):
    return [int(number.replace(",", "")) for number in match.groups()] if match else []


def front_now(table):
    """README's two figures."""
    model, clauses, calls = (table[row][0] for row in list(table)[1:4])
    return [model + clauses, calls]


def to_read_now():
    return [*size_of(reading_of(HEADLINE, BOXES).items()), *size_of(reading_of(HEADLINE).items())]


def trust_faults():
    """Figures of docs/TRUST.md and README.md that are off by more than a tenth, and scripts that TRUST doesn't name."""
    text, table = TRUST.read_text(), table_now()
    told = {row: [int(lines.replace(",", "")), int(files)] for row, lines, files in ROW.findall(text)}
    for row in table:
        if row not in told:
            yield f"docs/TRUST.md: its table lacks the row: {row}"
        elif differ(table[row], told[row]):
            yield "docs/TRUST.md: {}: there are {:,} lines in {} files".format(row, *table[row])
    for row in sorted(told.keys() - table.keys()):
        yield f"docs/TRUST.md: {row}: nothing counts this row"
    if differ(to_read_now(), numbers(TO_READ.search(text))):
        yield "docs/TRUST.md: to read are {:,} lines in {} files, or {:,} in {}".format(*to_read_now())
    if differ(front_now(table), numbers(FRONT.search(README.read_text()))):
        yield "README.md: trusted are some {:,} lines that model, and some {:,} that make the calls".format(*front_now(table))
    yield from script_faults(text)


def script_faults(text):
    """Files of service/ that docs/TRUST.md doesn't list, and names that it lists for none."""
    listed = {name.removeprefix("service/") for row in SCRIPT_ROW.findall(text) for name in re.findall(r"`([^`]+)`", row)}
    there = {file.name for file in (TOP / "service").iterdir() if file.is_file()} - NO_SCRIPTS
    for name in sorted(there - listed):
        yield f"docs/TRUST.md: doesn't say what a fault of service/{name} would break, and which test holds it"
    for name in sorted(listed - there - {"rasd"}):
        yield f"docs/TRUST.md: there is no service/{name}"


def write_trust():
    """Writes the figures into docs/TRUST.md and README.md."""
    text, table = TRUST.read_text(), table_now()
    for row, (lines, files) in table.items():
        text = re.sub(rf"^\| {re.escape(row)} \| [\d,]+ in \d+ \|", f"| {row} | {lines:,} in {files} |", text, flags=re.M)
    now = "To read: {:,} lines in {} files, or {:,} in {} with all boxes opened".format(*to_read_now())
    TRUST.write_text(TO_READ.sub(now, text))
    model, calls = (round(number, -1) for number in front_now(table))
    front = f"some {model:,} lines that model files, names and the kernel's calls, some {calls:,} that make these calls"
    README.write_text(FRONT.sub(front, README.read_text()))
