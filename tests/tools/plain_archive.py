"""A slow plain reader of archives by docs/formats.md. It is made to be compared with the tool, and shares nothing with it."""
import fractions
import json
import struct
import sys
import zlib

from lib import TOP

sys.path[:0] = [str(TOP / "tests/sweep"), str(TOP / "tests/trials"), str(TOP / "bench")]
from plain_records import ANY, read_edge, read_mend, read_slice  # noqa: E402
from plain_texts import Lines  # noqa: E402
from plain_windows import END, WindowStep, beside, meets, undone  # noqa: E402

HALF = fractions.Fraction(1, 2)


def packed(text):
    """A gzip member, put together by RFC 1952: its head of ten bytes, the deflated text, the sum and the length of the text."""
    packer = zlib.compressobj(9, zlib.DEFLATED, -15)
    return b"\x1f\x8b\x08\0\0\0\0\0\x02\x03" + packer.compress(text) + packer.flush() + struct.pack("<II", zlib.crc32(text), len(text))


def unpacked(data):
    assert data[:10] == b"\x1f\x8b\x08\0\0\0\0\0\x02\x03"
    return zlib.decompress(data, 31)


def told(text):
    """The length of a text's chunk and its sum, as an index has them, and the chunk."""
    data = packed(text)
    return f"{len(data)} {zlib.crc32(data):08x}", data


def file_of(index, *chunks):
    """The bytes of an archive with this text as its index."""
    words, data = told(index)
    head = f"tgap-archive 2 {words}".encode()
    return head + f" {zlib.crc32(head):08x}\n".encode() + b"".join([data, *chunks])


class Cell:
    """A cell of an archive: its rectangle, the steps from and to which it leads, the place of its first child, and its text."""

    def __init__(self, area, first):
        self.area, self.first = area, first


class PlainArchive:
    """An archive whose sums are sound."""

    def __init__(self, data):
        head, rest = data.split(b"\n", 1)
        word, form, *numbers = head.split(b" ")
        assert (word, form) == (b"tgap-archive", b"2") and len(head) < 64 and b"%08x" % zlib.crc32(head[:-9]) == numbers[2]
        length = int(numbers[0])
        assert b"%08x" % zlib.crc32(rest[:length]) == numbers[1]
        self.rest = rest[length:]
        lines = unpacked(rest[:length]).decode().split("\n")
        words = [line.split(" ") for line in lines]
        assert [row[0] for row in words[:4]] == ["archive", "slice", "metadata", "cells"] and lines[-2:] == ["end", ""]
        self.last, self.faces, *area, self.depth = map(int, words[0][1:])
        self.slice = self.chunk(words[1])
        count = int(words[3][1])
        assert len(lines) == 4 + count + 2
        self.cells = [Cell(tuple(area), self.last)]
        for cell, row in zip(iter(self.cells), words[4:-2]):
            self.read_cell(cell, row)
        self.metadata = self.chunk(words[2])
        assert len(self.cells) == count and not self.rest

    def chunk(self, row):
        """The text of the next chunk, of which the last two words of a line tell the length and the sum."""
        length, crc = int(row[-2]), row[-1]
        data, self.rest = self.rest[:length], self.rest[length:]
        assert len(data) == length and f"{zlib.crc32(data):08x}" == crc
        return unpacked(data) if length else b""

    def read_cell(self, cell, row):
        assert row[0] == "cell" and len(row) == 5
        cell.last, cell.child, cell.text = int(row[1]), int(row[2]), self.chunk(row)
        if not cell.last:
            assert not cell.child
            return
        assert cell.child == len(self.cells)
        x0, y0, x1, y1 = cell.area
        x, y = (x0 + x1) // 2, (y0 + y1) // 2
        self.cells += [Cell(area, cell.last) for area in ((x0, y0, x, y), (x, y0, x1, y), (x0, y, x, y1), (x, y, x1, y1))]

    def windows(self, step):
        """The cells that lead through a step, each with its window after this step and what is told of its inside."""
        return list(self.below(self.cells[0], read_slice(self.slice), step))

    def below(self, cell, found, step):
        records, rows = read_cell(cell)
        for record in records:
            if record.step > step:
                _, faces, edges = found
                found = undone(cell.area, (record.step, faces, edges), record)
        if cell.last <= step:
            yield cell, (step, *found[1:]), rows
            return
        for child in self.cells[cell.child : cell.child + 4]:
            edges = [edge for edge in found[2] if meets(child.area, edge.points)]
            yield from self.below(child, (cell.last, beside(found[1], edges), edges), step)


def read_cell(cell):
    """The records of a cell, and the rows of its inside."""
    packet, _, inside = cell.text.partition(b"\nend\n")
    lines = Lines(packet + b"\nend\n", "line {} of a packet")
    assert lines.words(b"window-packet", [ANY, ANY, *[END] * 4]) == [cell.first, cell.last, *cell.area]
    records, step = [], cell.first + 1
    while lines.lines[lines.read] != b"end":
        step, loser, winner, made, faces, mends, comes = lines.words(b"step", [(cell.last + 1, step - 1), *[ANY] * 6])
        assert faces or mends or comes
        rows = [lines.words(b"face", [ANY, ANY]) for _ in range(faces)]
        records.append(WindowStep(step, loser, winner, made, rows, [read_mend(lines) for _ in range(mends)], [read_edge(lines) for _ in range(comes)]))
    lines.end()
    lines = Lines(inside, "line {} of an inside")
    rows = [lines.words(b"at", [ANY] * 3) for _ in range(*lines.words(b"inside", [ANY]))]
    lines.end()
    return records, rows


# ---- the metadata


def read_metadata(text):
    """The metadata that a text of an archive tells, as the map has them."""
    found = json.loads(text)
    areas = found.get("areas")
    if isinstance(found.get("faces"), dict):
        found["faces"] = list(column(found["faces"], None).values())
    if not isinstance(areas, dict):
        return found
    places = range(len(column(areas["id"], None)))
    found["areas"] = [row(areas, place, len(places)) for place in places]
    return found


def row(columns, place, count):
    """What columns have of one place; those of `attributes` are the columns of an object of its own."""
    columns = {name: row(one, place, count) if name == "attributes" else column(one, count) for name, one in columns.items()}
    return {name: one if name == "attributes" else one[place] for name, one in columns.items() if name == "attributes" or place in one}


def column(told_of, count):
    """The values of a column by their places."""
    if isinstance(told_of, list):
        values = told_of
    elif "of" in told_of:
        runs = told_of["of"]
        places = [place for at in range(0, len(runs), 2) for place in range(runs[at], runs[at] + runs[at + 1])]
        return dict(zip(places, column(told_of["values"], None).values(), strict=True))
    else:
        values = [told_of["first"] + sum(told_of["by"][:at]) for at in range(len(told_of["by"]) + 1)]
    assert count in (None, len(values))
    return dict(enumerate(values))


# ---- the inside of a cell, in fractions


def runs_through(area, points):
    """Whether a line runs through the open rectangle half a unit within an area."""
    low, high = (area[0] + HALF, area[1] + HALF), (area[2] - HALF, area[3] - HALF)
    return any(passes(low, high, p, q) for p, q in zip(points, points[1:]))


def passes(low, high, p, q):
    """Whether a segment has a point between two corners: where along it, from 0 to 1, both coordinates are between theirs."""
    least, most = fractions.Fraction(-1), fractions.Fraction(2)
    for axis in (0, 1):
        a, b = p[axis], q[axis]
        if a == b:
            if not low[axis] < a < high[axis]:
                return False
            continue
        ends = sorted(fractions.Fraction(limit - a) / (b - a) for limit in (low[axis], high[axis]))
        least, most = max(least, ends[0]), min(most, ends[1])
    # The interval between the two is open, that from 0 to 1 is closed.
    return least < most and least < 1 and most > 0


def face_inside(area, edges):
    """The face at the point three quarters of a unit within the upper left corner: below the lowest segment over it."""
    x, y = area[0] + 3 * HALF / 2, area[3] - 3 * HALF / 2
    over = []
    for edge in edges:
        for p, q in zip(edge.points, edge.points[1:]):
            if min(p[0], q[0]) < x < max(p[0], q[0]):
                height = p[1] + (q[1] - p[1]) * (x - p[0]) / (q[0] - p[0])
                over += [(height, edge.right if p[0] < q[0] else edge.left)] if height > y else []
    return min(over)[1] if over else 0
