"""Packets of windows of maps, compared with what a plain reader makes of whole slices and packets, and undone by a plain client."""
import random
import subprocess
import sys
import tempfile

from kept import SECONDS, TOP, TRIALS, Skipped

sys.path[:0] = [str(TOP / "tests/sweep"), str(TOP / "bench")]
from maps import bent_cells, cells, coast, islands, jagged_cells, nested_rings, star, write  # noqa: E402
from plain_records import read_packet as read_whole_packet, read_slice  # noqa: E402
from plain_windows import packet_text, read_packet, undone, window, window_text  # noqa: E402

# Each map with its size and its ratio: of a ratio above 0 vertices go, and come back.
MAPS = [
    (cells, 5, 0), (bent_cells, 5, 1), (bent_cells, 6, 16), (jagged_cells, 4, 16), (bent_cells, 4, 1000), (jagged_cells, 4, 1000), (coast, 12, 16), (coast, 12, 1000),
    (islands, 3, 16), (nested_rings, 6, 16), (star, 4, 1),
]
PACKETS = 2000


class Whole:
    """A map with all its slices, and the records between them, by the program that answers on the command line."""

    def __init__(self, executable, path, shape, size, ratio):
        self.path = path
        write(path, shape, size, ratio)
        self.last = shape(size)[0] - 1
        while self.last and not (text := self.answer(executable, "slice", self.last)).startswith(b"slice"):
            self.last = int(text.split()[-1])
        self.read_slices(executable)

    def read_slices(self, executable):
        """The slices of the map at all steps, and the records between them."""
        self.slices = [read_slice(self.answer(executable, "slice", step)) for step in range(self.last + 1)]
        _, records = read_whole_packet(self.answer(executable, "packet", self.last, 0))
        self.records = {record.step: record for record in records}
        self.points = sorted({point for _, _, edges in self.slices[:1] for edge in edges for point in edge.points})

    def answer(self, executable, command, *words):
        return subprocess.run([executable, command, self.path, *map(str, words)], capture_output=True, timeout=SECONDS, stdin=subprocess.DEVNULL, check=False).stdout


def some_window(chance, whole):
    """A window: of the whole plane, of one point of the map, smaller than an edge, or any; now and then beside the map."""
    xs, ys = zip(*whole.points)
    kind = chance.randrange(10)
    if kind == 0:
        return (-(2**31), -(2**31), 2**31, 2**31)
    if kind == 1:
        x, y = chance.choice(whole.points)
        return (x, y, x, y)
    if kind == 2:
        return (max(xs) + 1, min(ys), max(xs) + 9, max(ys))
    if kind < 6:
        (x, y), wide = chance.choice(whole.points), chance.randrange(3)
        return (x - wide, y - wide, x + wide, y + wide)
    (x0, x1), (y0, y1) = (sorted(chance.randint(min(row) - 1, max(row) + 1) for _ in range(2)) for row in (xs, ys))
    return (x0, y0, x1, y1)


def some_steps(chance, whole):
    first = chance.randint(0, whole.last)
    return first, chance.choice([0, first, max(0, first - 1), chance.randint(0, first)])


def one_packet(tests, chance, whole):
    """A packet is that of the definition, and leads a client from one window to the other."""
    area, (first, last) = some_window(chance, whole), some_steps(chance, whole)
    ended = subprocess.run([TRIALS, "window-packet", whole.path, *map(str, (first, last, *area))], capture_output=True, timeout=SECONDS, stdin=subprocess.DEVNULL, check=False)
    name = f"{whole.path} {first} {last} {area}"
    tests.same(f"packet {name}", (ended.returncode, ended.stdout), (0, packet_text(area, first, last, whole.records, whole.slices)))
    read_area, step, records = read_packet(ended.stdout)
    found = window(read_area, whole.slices[step])
    for record in records:
        found = undone(read_area, found, record)
    tests.same(f"window after packet {name}", window_text(area, found), window_text(area, window(area, whole.slices[last])))


def random_packets(tests):
    if not TRIALS.is_file():
        raise Skipped(f"there is no {TRIALS.relative_to(TOP)}: ./tgap build makes it")
    chance = random.Random(20)
    with tempfile.TemporaryDirectory() as folder:
        wholes = [Whole(tests.executable, f"{folder}/{number}_{shape.__name__}_{ratio}", shape, size, ratio) for number, (shape, size, ratio) in enumerate(MAPS)]
        gone = sum(bool(puts) for whole in wholes for record in whole.records.values() for _, puts, _ in record.mends)
        tests.tell("vertices come back", [] if gone > 50 else [f"in {gone} mends alone"])
        for number in range(PACKETS):
            one_packet(tests, chance, wholes[number % len(wholes)])


def refused_packets(tests):
    """To a coarser slice there is none, nor from a step that the map has not; a packet from a step to itself has no record."""
    if not TRIALS.is_file():
        raise Skipped(f"there is no {TRIALS.relative_to(TOP)}: ./tgap build makes it")
    with tempfile.TemporaryDirectory() as folder:
        whole = Whole(tests.executable, f"{folder}/map", cells, 3, 0)
        for words, wanted in [((1, 2), (4, b"")), ((whole.last + 1, 0), (4, b"")), ((3, 3), (0, b"window-packet 3 3 0 0 9 9\nend\n"))]:
            ended = subprocess.run([TRIALS, "window-packet", whole.path, *map(str, (*words, 0, 0, 9, 9))], capture_output=True, timeout=SECONDS, stdin=subprocess.DEVNULL, check=False)
            tests.same(f"packet {words}", (ended.returncode, ended.stdout), wanted)


TESTS = [random_packets, refused_packets]
