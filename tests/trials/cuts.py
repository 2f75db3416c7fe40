"""Nodes, cuts and fusions on random maps, compared with what a plain reader of the rules makes of them."""
import collections
import random
import subprocess
import sys
import tempfile

from kept import SECONDS, TOP, TRIALS, Skipped

sys.path[:0] = [str(TOP / "tests/sweep"), str(TOP / "bench")]
from drawn_edits import KINDS, front_of, listing, widened  # noqa: E402
from maps import bent_cells, cells, comb, islands, nested_rings, star, write  # noqa: E402
from plain_cuts import Cause, fuse  # noqa: E402
from plain_maps import Base, read_listing  # noqa: E402

SHAPES = [(cells, 4), (bent_cells, 3), (islands, 3), (nested_rings, 4), (star, 3), (comb, 6)]
EDITS, MOST_SEQUENCE = 3600, 40
# How many edits of each kind have to be done, and be refused.
LEAST = 50


def flat(numbers):
    for number in numbers:
        if isinstance(number, (list, tuple)):
            yield from flat(number)
        else:
            yield str(number)


def wanted(edit, base, numbers, front):
    """What an edit comes to: its status and its text, and the base map."""
    try:
        made = edit(base, *numbers)
    except Cause as cause:
        return (4, b"cause %d\n" % cause.args[0]), None
    return (0, listing(made, front)), made


def sequence(tests, chance, folder, number, counts):
    """Edits of a map one after the other, of which the next one begins where the last one ended: so maps come up that are no partitions."""
    shape, size = SHAPES[number % len(SHAPES)]
    path = f"{folder}/map"
    write(path, shape, size, 16)
    with open(path, "rb") as file:
        data = file.read()
    base, front = widened(read_listing(data)), front_of(data)
    for place in range(MOST_SEQUENCE):
        name = chance.choice(["node", "node", "cut"] if place < MOST_SEQUENCE / 4 else ["node", "cut", "cut", "cut", "cut", "fuse"])
        some, edit = KINDS[name]
        numbers = some(chance, base)
        expected, made = wanted(edit, base, numbers, front)
        with open(path, "wb") as file:
            file.write(listing(base, front))
        ended = subprocess.run([TRIALS, name, path, *flat(numbers)], capture_output=True, timeout=SECONDS, stdin=subprocess.DEVNULL, check=False)
        tests.same(f"{name} {numbers} on {listing(base, front)}", (ended.returncode, ended.stdout), expected)
        counts[name, expected[1].strip() if made is None else "done"] += 1
        if made and len(made.classes) > 1:
            base = made


def random_edits(tests):
    if not TRIALS.is_file():
        raise Skipped(f"there is no {TRIALS.relative_to(TOP)}: ./tgap build makes it")
    chance, counts = random.Random(18), collections.Counter()
    with tempfile.TemporaryDirectory() as folder:
        for number in range(EDITS // MOST_SEQUENCE):
            sequence(tests, chance, folder, number, counts)
    for name in KINDS:
        tests.tell(f"enough of {name}", [] if counts[name, "done"] >= LEAST else [f"only {counts}"])


def nothing_else(tests):
    """Two faces that border each other alone are not fused. No planar partition has such faces, so no server is asked."""
    if not TRIALS.is_file():
        raise Skipped(f"there is no {TRIALS.relative_to(TOP)}: ./tgap build makes it")
    with tempfile.TemporaryDirectory() as folder:
        path = f"{folder}/map"
        write(path, cells, 1)
        with open(path, "rb") as file:
            front = front_of(file.read())
        base = Base(0, [1], [[1]], [0, 0], [(1, 2, [(0, 0), (9, 0), (0, 9), (0, 0)])])
        with open(path, "wb") as file:
            file.write(listing(base, front))
        for numbers, cause in [((1, 2), 14), ((2, 1), 14), ((1, 1), 13), ((1, 3), 2)]:
            words = [TRIALS, "fuse", path, *flat(numbers)]
            ended = subprocess.run(words, capture_output=True, timeout=SECONDS, stdin=subprocess.DEVNULL, check=False)
            tests.same(f"fuse {numbers} of two faces alone", (ended.returncode, ended.stdout), (4, b"cause %d\n" % cause))
            tests.same(f"the same by a plain reader, {numbers}", wanted(fuse, base, numbers, front)[0], (4, b"cause %d\n" % cause))


TESTS = [random_edits, nothing_else]
