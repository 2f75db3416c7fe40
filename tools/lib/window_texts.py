"""Reads the texts of slices and of packets of windows, by docs/formats.md."""
import re
from typing import NamedTuple

# A text whose lines are words, each of which but the first is a number that is written the shortest way.
LINES = re.compile(r"(?:[a-z-]+(?: (?:0|-?[1-9][0-9]*))*\n)*")
# The line of a record that changes nothing: no face, no mend and no edge comes.
IDLE = re.compile(rb"^step \d+ \d+ \d+ \d+ 0 0 0\n", re.MULTILINE)
MOST, REACH = 2**32 - 1, 2**31


class Edge(NamedTuple):
    key: int
    left: int
    right: int
    points: list
    # Its least and greatest abscissa and ordinate: x0, y0, x1, y1.
    box: tuple


class Mend(NamedTuple):
    key: int
    puts: list
    pieces: list


class Record(NamedTuple):
    step: int
    loser: int
    winner: int
    made: int
    faces: list
    mends: list
    comes: list


class BadText(Exception):
    """A text that is none of its kind: its first line, from 1, that is not what must come there."""

    def __init__(self, line):
        super().__init__(f"line {line} is not what must come there")
        self.line = line


def edge_of(key, left, right, points):
    xs, ys = [x for x, _ in points], [y for _, y in points]
    return Edge(key, left, right, points, (min(xs), min(ys), max(xs), max(ys)))


def is_ascending(numbers):
    return all(a < b for a, b in zip(numbers, numbers[1:]))


class Texts:
    """The lines of several texts that stand one behind the other."""

    def __init__(self, data):
        text = data.decode("ascii", "replace")
        sound = LINES.match(text).end()
        self.lines, self.read = text[:sound].splitlines(), 0
        # What does not have the form of lines is a line that fits nowhere.
        self.lines += ["?"] if sound < len(text) else []

    def next(self, first, count=None):
        """The numbers of the next line, which begins with this word and has so many of them."""
        self.read += 1
        word, *words = self.lines[self.read - 1].split(" ") if self.read <= len(self.lines) else [""]
        if word != first or (count is not None and len(words) != count):
            raise BadText(self.read)
        numbers = list(map(int, words))
        self.require(not numbers or (-REACH <= min(numbers) and max(numbers) <= MOST))
        return numbers

    def counts(self, first, count):
        """Numbers that are not below 0."""
        numbers = self.next(first, count)
        self.require(min(numbers) >= 0)
        return numbers

    def require(self, holds):
        if not holds:
            raise BadText(self.read)

    def starts(self, word):
        """Whether the next line begins with this word."""
        return self.read < len(self.lines) and self.lines[self.read].startswith(word)

    def ends(self):
        """The line `end` behind a text."""
        self.next("end", 0)

    def is_over(self):
        """Nothing stands behind the last text."""
        self.read += 1
        self.require(self.read > len(self.lines))

    def edge(self):
        numbers = self.next("edge")
        self.require(len(numbers) >= 8 and min(numbers[:4]) >= 0 and len(numbers) == 4 + 2 * numbers[3] and max(numbers[4:]) <= REACH)
        points = list(zip(numbers[4::2], numbers[5::2]))
        self.require(all(a != b for a, b in zip(points, points[1:])))
        return edge_of(*numbers[:3], points)

    def mend(self):
        key, puts, pieces = self.counts("mend", 3)
        return Mend(key, [self.put() for _ in range(puts)], [self.piece() for _ in range(pieces)])

    def put(self):
        at, x, y = self.next("put", 3)
        self.require(at >= 0 and max(x, y) <= REACH)
        return at, (x, y)

    def piece(self):
        numbers = self.counts("piece", 4)
        self.require(numbers[3] <= 1)
        return numbers

    def record(self, below, last):
        """The next record, of a step below the one and above the other."""
        step, loser, winner, made, faces, mends, comes = self.counts("step", 7)
        self.require(last < step < below)
        return Record(step, loser, winner, made, [tuple(self.counts("face", 2)) for _ in range(faces)], [self.mend() for _ in range(mends)],
                      [self.edge() for _ in range(comes)])

    def packet(self):
        """A packet of a window: the steps between which it leads, its rectangle, and its records. One that changes nothing may be missing."""
        first, last, *area = self.next("window-packet", 6)
        self.require(first >= last >= 0 and max(area) <= REACH)
        records, below = [], first + 1
        while not self.starts("end"):
            records.append(self.record(below, last))
            below = records[-1].step
        self.ends()
        return first, last, tuple(area), records

    def inside(self):
        """The rows of the inside of a cell: steps that descend, and from each on the face and its class."""
        rows = []
        for _ in range(*self.counts("inside", 1)):
            rows.append(tuple(self.counts("at", 3)))
            self.require(len(rows) < 2 or rows[-1][0] < rows[-2][0])
        self.ends()
        return rows

    def slice(self):
        """A slice: its step, the classes of its faces, and its edges."""
        step, = self.counts("slice", 1)
        return step, *self.parts()

    def window(self):
        """A window of a slice: its step, its rectangle, the classes of its faces, and its edges."""
        step, *area = self.next("window", 5)
        self.require(step >= 0 and max(area) <= REACH)
        return step, tuple(area), *self.parts()

    def parts(self):
        """Faces and edges, up to the end of a slice or window."""
        faces = [tuple(self.counts("face", 2)) for _ in range(*self.counts("faces", 1))]
        self.require(is_ascending([0, *(face for face, _ in faces)]))
        edges = [self.edge() for _ in range(*self.counts("edges", 1))]
        self.require(is_ascending([edge.key for edge in edges]))
        self.ends()
        return dict(faces), edges


def without_idle(text):
    """A packet without the records that change nothing."""
    return IDLE.sub(b"", text)
