"""What all of the model stands on: how a run ends early, and how bytes are read."""


class Stop(Exception):
    """The end of a run before the end of its script: the status, and what its stop line says."""

    def __init__(self, status, text):
        super().__init__(text)
        self.status, self.text = status, text


class Fault(Exception):
    """A call of the outside fails, and the run ends with this status."""

    def __init__(self, status):
        super().__init__(status)
        self.status = status


class Unreadable(Exception):
    """Bytes that aren't what is read."""


class Refused(Exception):
    """A line is refused, for this reason."""


def check(holds, refusal=None):
    """Refuses where something doesn't hold."""
    if not holds:
        raise refusal or Unreadable


class Bytes:
    """Bytes that are read from their front on."""

    def __init__(self, data, at=0):
        self.data, self.at = data, at

    def take(self, count):
        """The next bytes, where so many are left."""
        check(count <= len(self.data) - self.at)
        self.at += count
        return bytes(self.data[self.at - count : self.at])

    def number(self, size, least=0, most=None):
        """The next number, where it is in its range."""
        value = int.from_bytes(self.take(size), "little")
        check(least <= value and (most is None or value <= most))
        return value
