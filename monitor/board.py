"""The memory slots of a machine as a picture: its DIMMs are the lines `# dimm` of its description."""
import re

from page import UNCORRECTED, element, grouped, joined, named

# Only Intel's drivers tell the socket.
PLACE = re.compile(r"(?:S(\d+)\.)?M(\d+)\.C(\d+)\.D(\d+)")


def names_of(label):
    """The slots that a label may mean."""
    return [part.partition("#")[0] for part in label.partition("~")[0].split("/")]


def name_of(label):
    """The slot of a label, or the slots that it may mean."""
    return " or ".join(names_of(label))


def is_several(label):
    """Whether a label means one of several DIMMs."""
    return "/" in label or "~" in label


class Dimm:
    """A DIMM of the description: its label, name, serial number, size in MB, part number and place."""

    def __init__(self, label, name, serial, size, part, place):
        self.label, self.name, self.place = label, name, PLACE.fullmatch(place)
        self.serial = serial if serial not in ("", "-") else ""
        size = f"{int(size) // 1024} GB" if size.isdigit() and len(size) < 12 else ""
        serial, part = (f"{what} {it}" if it not in ("", "-") else "" for what, it in (("serial", serial), ("part", part)))
        self.said = ", ".join(filter(None, (serial, size, part)))


class Board:
    """The DIMMs of a machine, and how each is."""

    def __init__(self):
        self.dimms = {}

    def take(self, line):
        """Takes a line of the machine's description."""
        words = line.split("\t")
        if len(words) == 7 and words[0] == "# dimm":
            self.dimms[words[1]] = Dimm(*words[1:])

    def said(self, label):
        """A label in words: the slot, with what is known of its DIMM."""
        it = self.dimms.get(label)
        if it is None:
            return name_of(label)
        return f"{it.name} ({it.said})" if it.said else it.name

    def short(self, label):
        """A label in few words: the slot, with its DIMM's serial number."""
        it = self.dimms.get(label)
        return f"{it.name} ({it.serial})" if it and it.serial else name_of(label)

    def slots(self, counts, replaced):
        """The pictures of the sockets: a slot is bad, has had errors, may have had some (of a label of several), or nothing."""
        sockets, maybe = {}, {}
        for label in filter(is_several, counts):
            for name in names_of(label):
                maybe.setdefault(name, []).append(label)
        for it in self.dimms.values():
            if it.place:
                part = ("Controller", int(it.place[2])) if it.place[1] is None else ("Socket", int(it.place[1]))
                sockets.setdefault(part, {}).setdefault((int(it.place[2]), int(it.place[3])), []).append(it)
        for socket in sorted(sockets):
            channels = [
                element("div", *(self.slot(it, maybe.get(it.name, ()), counts, replaced) for it in sockets[socket][key]), class_="channel")
                for key in sorted(sockets[socket])
            ]
            yield element("div", element("h3", "{} {}".format(*socket)), element("div", *channels, class_="socket"), class_="frame board")

    def slot(self, dimm, maybe, counts, replaced):
        """The picture of a slot: its own errors, or else those that may be its."""
        kind, text, good, bad = state_of([dimm.label], counts, replaced)
        title = f"{self.said(dimm.label)}: {grouped(good)} corrected, {grouped(bad)} uncorrected"
        if not kind:
            kind, text, *_ = state_of(maybe, counts, replaced)
            kind, text = (f"{kind} maybe", f"{text}?") if kind else ("", "")
        return element("div", element("strong", dimm.name), element("small", text), class_=f"slot {kind}".rstrip(), title=title)


def state_of(labels, counts, replaced):
    """How slots with these labels are: bad, some or nothing; that in few words; corrected and uncorrected errors."""
    sums = [counts.get(label, {}) for label in labels]
    bad = sum(count for of in sums for name, count in of.items() if name in UNCORRECTED)
    good = sum(sum(of.values()) for of in sums) - bad
    is_replaced = any(label in replaced for label in labels)
    kind = "bad" if is_replaced or bad else "some" if good else ""
    return kind, "replace" if is_replaced else f"{grouped(bad)} lost" if bad else grouped(good) if good else "", good, bad


def unknown_which(counts):
    """Lines on labels that mean one of several DIMMs."""
    for label, of in counts.items():
        if is_several(label) and (count := sum(of.values())):
            errors = "1 error" if count == 1 else f"{grouped(count)} errors"
            yield joined(named(name_of(label)), f": {errors}; the kernel didn’t say which")
