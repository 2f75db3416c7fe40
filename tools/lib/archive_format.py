"""The archive of a map, byte for byte (docs/formats.md, "An archive"): its head, its index, and chunks with their sums."""
import re
import zlib
from dataclasses import dataclass

from command import Failure, counted

FORMAT, HEAD_MOST = 2, 64
MAGIC = b"tgap-archive "
LIMIT = 2**31


@dataclass
class Chunk:
    """A part of the file that is unpacked by itself: its name, its length in bytes, and the sum of them."""
    name: str
    length: int
    sum: str


@dataclass
class Cell:
    """A rectangle of the map, and the steps through which it leads. `child` is the place of the first of its four children, 0 where it has none."""
    area: tuple
    first: int
    last: int
    child: int = 0
    depth: int = 1


@dataclass
class Index:
    """What an archive has: how many steps and faces its map has, its cells, and the chunks as the index tells them: the slice, the metadata, and one a cell."""
    steps: int
    faces: int
    cells: list
    chunks: list


def sum_of(data):
    """The CRC-32 of some bytes."""
    return f"{zlib.crc32(data):08x}"


def packed(text):
    """A gzip member that is the same for the same text: without a time and a name."""
    packer = zlib.compressobj(9, zlib.DEFLATED, 31)
    data = packer.compress(text) + packer.flush()
    # The byte that tells the system is left to the library.
    return data[:9] + b"\x03" + data[10:]


def unpacked(data):
    """The text of a gzip member. ValueError where the bytes are none, or more."""
    unpacker = zlib.decompressobj(31)
    try:
        text = unpacker.decompress(data)
    except zlib.error as error:
        raise ValueError("gzip") from error
    if not unpacker.eof or unpacker.unused_data:
        raise ValueError("gzip")
    return text


def children_of(area):
    """The four parts of a rectangle, which share their borders."""
    x0, y0, x1, y1 = area
    x, y = (x0 + x1) // 2, (y0 + y1) // 2
    return [(x0, y0, x, y), (x, y0, x1, y), (x0, y, x, y1), (x, y, x1, y1)]


def index_text(index):
    area, depth = index.cells[0].area, max(cell.depth for cell in index.cells)
    bounds = " ".join(map(str, area))
    of_slice, of_metadata, *of_cells = index.chunks
    rows = [f"archive {index.steps} {index.faces} {bounds} {depth}", f"slice {of_slice.length} {of_slice.sum}",
            f"metadata {of_metadata.length} {of_metadata.sum}", f"cells {len(index.cells)}"]
    rows += [f"cell {cell.last} {cell.child} {chunk.length} {chunk.sum}" for cell, chunk in zip(index.cells, of_cells)]
    return "\n".join([*rows, "end", ""]).encode()


def head_of(index):
    """The first line of the file, given the chunk of the index."""
    told = MAGIC + f"{FORMAT} {len(index)} {sum_of(index)}".encode()
    return told + f" {sum_of(told)}\n".encode()


def file_of(steps, faces, cells, texts):
    """The bytes of an archive. The texts are those of the slice, of the metadata (empty where there are none), and of the cells."""
    data = [packed(text) if text else b"" for text in texts]
    index = Index(steps, faces, cells, [Chunk("", len(one), sum_of(one)) for one in data])
    chunk = packed(index_text(index))
    return b"".join([head_of(chunk), chunk, *in_file_order(data)])


def in_file_order(parts):
    """What the index tells as slice, metadata and cells stands in the file as slice, cells and metadata: these are the last that a reader wants."""
    return [parts[0], *parts[2:], parts[1]]


# ---- reading


class Rows:
    """The lines of an index, one after the other. What is not of the form is told by its line."""

    def __init__(self, text):
        *self.lines, self.rest = text.decode("ascii", "replace").split("\n")
        self.read = 0

    def wrong(self):
        return ValueError(f"line {self.read} of its index is not what must come there")

    def words(self, first, numbers, sums=0):
        """The numbers of the next line, and the sums behind them."""
        self.read += 1
        word, *words = self.lines[self.read - 1].split(" ") if self.read <= len(self.lines) else [""]
        is_form = word == first and len(words) == numbers + sums
        if not is_form or not all(re.fullmatch(r"0|-?[1-9]\d{0,11}", one, re.ASCII) for one in words[:numbers]):
            raise self.wrong()
        if not all(re.fullmatch("[0-9a-f]{8}", one) for one in words[numbers:]):
            raise self.wrong()
        return [*map(int, words[:numbers]), *words[numbers:]]

    def require(self, holds):
        if not holds:
            raise self.wrong()


def chunk_row(rows, name, least):
    length, crc = rows.words(name, 1, 1)
    rows.require(length >= least)
    return Chunk(name, length, crc)


def read_index(text):
    """The index that a text tells. ValueError with what is wrong."""
    rows = Rows(text)
    steps, faces, *area, depth = rows.words("archive", 7)
    rows.require(0 <= steps and steps <= faces and all(-LIMIT <= at <= LIMIT for at in area) and area[0] <= area[2] and area[1] <= area[3])
    chunks = [chunk_row(rows, "slice", 1), chunk_row(rows, "metadata", 0)]
    count, = rows.words("cells", 1)
    rows.require(count >= 1)
    cells, next_child = [Cell(tuple(area), steps, 0)], 1
    for place in range(count):
        last, child, length, crc = rows.words("cell", 3, 1)
        rows.require(place < len(cells))
        cell = cells[place]
        rows.require(0 <= last <= cell.first and length >= 1 and child == (next_child if last else 0) and next_child + 4 * bool(last) <= count)
        cell.last, cell.child = last, child
        if child:
            cells += [Cell(part, last, 0, 0, cell.depth + 1) for part in children_of(cell.area)]
            next_child += 4
        chunks.append(Chunk(f"cell {place}", length, crc))
    rows.words("end", 0)
    rows.read += 1
    rows.require(rows.read > len(rows.lines) and not rows.rest and len(cells) == count and depth == max(cell.depth for cell in cells))
    return Index(steps, faces, cells, chunks)


class Archive:
    """An archive that was read whole: its sums and its index are sound, and each chunk is unpacked when it is asked for. What is none is refused."""

    def __init__(self, path, data):
        self.path, self.data = path, data
        line = self.head()
        chunk = self.told("index", data[len(line) : len(line) + self.length], self.length, self.sum)
        try:
            self.index = read_index(unpacked(chunk))
        except ValueError as error:
            raise self.unsound(error) from error
        starts, place = {}, len(line) + self.length
        for part in in_file_order(self.index.chunks):
            self.told(part.name, data[place : place + part.length], part.length, part.sum)
            starts[part.name] = place
            place += part.length
        self.places = [starts[part.name] for part in self.index.chunks]
        if place != len(data):
            raise Failure(f"{path} is no sound archive: its end is followed by {counted(len(data) - place, 'byte')}")

    def unsound(self, what):
        return Failure(f"{self.path} is no sound archive: {what if str(what) != 'gzip' else 'what is packed in it is no gzip'}")

    def head(self):
        """The first line, whose words are the version of the format, the length and the sum of the index, and the sum of the line up to there."""
        line = self.data[:HEAD_MOST].split(b"\n")[0] + b"\n"
        if not line.startswith(MAGIC):
            raise Failure(f"{self.path} is no archive: it does not begin with the line {MAGIC.decode().strip()}")
        words = line[len(MAGIC) : -1].split(b" ")
        if words[0].isdigit() and words[0] != str(FORMAT).encode():
            raise Failure(f"{self.path} is an archive of the format {words[0].decode()}, and this tool reads format {FORMAT}")
        before, check = line[:-10], line[-9:-1]
        is_form = re.fullmatch(rb"%d (0|[1-9]\d{0,11}) [0-9a-f]{8} [0-9a-f]{8}\n" % FORMAT, line[len(MAGIC) :])
        if not is_form or not self.data.startswith(line) or sum_of(before).encode() != check:
            raise Failure(f"{self.path} is damaged: its head is not what its sum tells")
        self.length, self.sum = int(words[1]), words[2].decode()
        return line

    def told(self, name, data, length, crc):
        """The bytes of a chunk, which have to be as many as are told, and of that sum."""
        if len(data) < length:
            raise Failure(f"{self.path} is cut: it ends within the {name}")
        if length and sum_of(data) != crc or not length and crc != "0" * 8:
            raise Failure(f"{self.path} is damaged: its {name} is not what its sum tells")
        return data

    def text(self, place):
        """The text of a chunk by its place: 0 is the slice, 1 the metadata, and 2 the first cell."""
        part, start = self.index.chunks[place], self.places[place]
        if not part.length:
            return b""
        try:
            return unpacked(self.data[start : start + part.length])
        except ValueError as error:
            raise self.unsound(error) from error
