"""What `lines log` and `lines trace` with three numbers print: of all that a source has, whatever its length."""
import re

from reference.dimms import Dimms, LogDimms, is_held, told_in_trace
from reference.events import is_of_extended_log
from reference.firmware import Reports
from reference.kernel import LogLines, Names, trace_text

LONGEST_LINE, MOST_AT_ONCE, MOST_SHOWN = 40_000, 4_096, 100
LOST = b"[LINE TOO BIG]", b"# keep-trace was killed"


def shown(line):
    """The beginning of a line, as a comment shows it."""
    return "".join(chr(byte) if 31 < byte < 127 else "?" for byte in line[:MOST_SHOWN])


def is_gap(line):
    """Whether a line says that events are missing here."""
    is_counted = line.startswith(b"CPU:") and line.partition(b" ")[2].startswith(b"[LOST")
    return is_counted or line.startswith(LOST)


def limited(number, end, text):
    """A text, unless one call can't print it."""
    return f"# left out {number} {end}\n" if len(text) > MOST_AT_ONCE else text


def fitted(number, line, text):
    """The text about a line: its comments show the line's beginning, unless the text is too long with it."""
    end = shown(line)
    full = re.sub(r"^(#.*)\n", lambda comment: f"{comment[1]} {end}\n", text, flags=re.M)
    return full if len(full) <= MOST_AT_ONCE else limited(number, end, text)


def fed(source, text_of, last, told_in):
    """What a filter prints of each line of a source, and at its end, and the status.

    `text_of` gives what is said of a machine check and of all else in a line, and `told_in` the DIMM that a line names.
    """
    *lines, cut = source.split(b"\n")
    dimms, texts = Dimms(), []
    for number, line in enumerate(lines, 1):
        is_long = len(line) > LONGEST_LINE
        dimms.begin_line(None if is_long else line)
        if is_long:
            texts.append(dimms.passed(None, f"# too long {number}\n", False))
        else:
            before, check, after = text_of(number, line)
            texts.append(dimms.passed(told_in(line), fitted(number, line, before + check + after), is_held(check)))
    number = len(lines) + 1
    texts.append(dimms.held + limited(number, "", last() + (f"# cut {number}\n" if cut else "")))
    return "".join(texts), 0


def log_feed(boot, cap, began, checks, told, log):
    """What `lines log` prints, and its status. A trace has machine checks from `checks` on, and reports from `told` on."""
    errors, reports = LogLines(boot, cap, checks), Reports(boot, began, reads_events=False, has_own_tables=True, border=told)
    return fed(
        log,
        lambda number, line: ("", errors.text(number, line), reports.text(number, line)),
        lambda: errors.text(None, b"") + reports.text(None, b""),
        LogDimms().told,
    )


def trace_feed(boot, cap, began, trace, of_drivers=False):
    """What `lines trace` with three numbers prints, and its status; with every driver's events if `of_drivers` says so."""
    names, reports = Names(), Reports(boot, began, has_own_tables=True, of_drivers=of_drivers)

    def text(number, line):
        gap = f"# gap {number}\n" if is_gap(line) else ""
        event = f"# extlog {number}\n" if is_of_extended_log(line) else reports.text(number, line)
        return gap, trace_text(names, boot, number, line, cap), event

    return fed(trace, text, lambda: reports.text(None, b""), (lambda line: None) if of_drivers else told_in_trace)
