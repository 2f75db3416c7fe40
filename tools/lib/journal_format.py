"""The form of a journal: its entries, and the edits that they come to (docs/formats.md, "A journal of edits")."""
from dataclasses import dataclass

from command import Failure, read_bytes

# The most bytes of a journal, and what an entry has beside its batch.
MOST, BESIDE = 67_108_864, 13


@dataclass
class Entry:
    """A batch, the version that it makes, and where the entry begins. Whether it counts is told by the entries behind it."""
    at: int
    number: int
    batch: bytes
    counts: bool = False

    def end(self):
        return self.at + BESIDE + len(self.batch)


class Journal:
    """What the bytes of a journal come to."""

    def __init__(self, path, data):
        if data[:1] not in (b"", b"\0", b"\1"):
            raise Failure(f"{path} is no journal: it begins with the byte {data[0]}, and a journal with 0 or 1")
        self.path, self.data, self.size, self.entries = path, data, len(data), list(entries_of(data))
        self.end = self.entries[-1].end() if self.entries else 0
        self.closed = data[self.end:self.end + 1] == b"\0" or self.end >= MOST
        self.bad = fold(self.entries)

    def batches(self):
        """The edits, that of version 1 first. Where an entry does not follow there are none."""
        return [entry.batch for entry in self.entries if entry.counts] if self.bad is None else []

    def behind(self):
        """How many bytes stand behind the entries and the byte that closes them."""
        return self.size - self.end - (self.closed and self.end < MOST)

    def room(self):
        """How many bytes the batch of one more edit may have."""
        return MOST - self.end - BESIDE - 1


def entries_of(data):
    """The entries from the first byte on, up to a byte 0, to one that is not whole, or to the end."""
    at = 0
    while len(data) - at >= BESIDE and data[at] != 0:
        size = int.from_bytes(data[at + 9:at + BESIDE], "big")
        if len(data) - at - BESIDE < size:
            return
        yield Entry(at, int.from_bytes(data[at + 1:at + 9], "big"), data[at + BESIDE:at + BESIDE + size])
        at += BESIDE + size


def fold(entries):
    """Tells of each entry whether it counts: an edit of the same version or of an earlier one takes its place. Gives the place of the first entry that does
    not follow those before it, and then none counts."""
    kept = []
    for place, entry in enumerate(entries):
        if not 1 <= entry.number <= len(kept) + 1:
            return place
        kept[entry.number - 1:] = [entry]
    for entry in kept:
        entry.counts = True
    return None


def read_journal(path):
    return Journal(path, read_bytes(path))


def joined(batches):
    """The bytes of a journal whose one entry has all these batches, one behind the other."""
    batch = b"".join(batches)
    return b"\1" + (1).to_bytes(8, "big") + len(batch).to_bytes(4, "big") + batch + b"\0"
