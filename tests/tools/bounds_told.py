"""Tests what tools/loss tells at most: on 200 random maps against what moved, which is measured here exactly by a plain program
that shares nothing with the tools."""
import collections
import json
import random
import re
import sys
from fractions import Fraction

from lib import TOP, arc_text, listing
from model import double_area, slice_of

sys.path.append(str(TOP / "tests/sweep"))
from plain_maps import History, read_listing  # noqa: E402

MAPS, WIDE, RATIOS = 200, 16, (1, 2, 4, 8)
# What the tools tell of maps, step by step: each transfer, and the bounds of the faces and of the map.
TOLD = f"""import json, sys, types
sys.path.insert(0, {str(TOP / "tools/lib")!r})
from bounds import bounds_at, read_records, transfers_of
from program import Program, read_steps
for path in sys.argv[2:]:
    program = Program(sys.argv[1], types.SimpleNamespace(map=path, object=None, rules=None))
    last = program.last_step()
    text = program.asked("packet", last, 0)
    steps, transfers = read_steps(text)[::-1], transfers_of(program.slice(last), read_records(text))
    print(json.dumps([[[one.step, one.giver, one.taker, one.area] for one in transfers], [bounds_at(transfers, steps, step) for step in range(last + 1)]]))
"""


# ---- random maps


def random_map(chance, ratio):
    """A listing of cells with corners and bends that are moved by chance, and with classes by chance."""
    columns, rows = chance.randint(2, 4), chance.randint(2, 3)

    def moved(x, y):
        return x + chance.randint(-4, 4), y + chance.randint(-4, 4)

    def face(column, row):
        return row * columns + column + 1 if 0 <= column < columns and 0 <= row < rows else 0

    corner = {(column, row): moved(WIDE * column, WIDE * row) for column in range(columns + 1) for row in range(rows + 1)}

    def arc(left, right, a, b):
        (x, y), (u, v) = corner[a], corner[b]
        bends = [moved((x * (4 - at) + u * at) // 4, (y * (4 - at) + v * at) // 4) for at in chance.sample((1, 2, 3), chance.choice((0, 1, 1, 2)))]
        along = sorted(bends, key=lambda bend: (bend[0] - x) * (u - x) + (bend[1] - y) * (v - y))
        return arc_text(left, right, [corner[a], *along, corner[b]])

    upright = [arc(face(column - 1, row), face(column, row), (column, row), (column, row + 1)) for column in range(columns + 1) for row in range(rows)]
    level = [arc(face(column, row), face(column, row - 1), (column, row), (column + 1, row)) for column in range(columns) for row in range(rows + 1)]
    class_of = {number: chance.randrange(2) for number in range(1, columns * rows + 1)}
    return listing(columns * rows, upright + level, ratio=ratio, classes=("1 3 1", "2 1 2"), class_of=class_of)


def sound_maps(tests):
    """So many maps that the program takes, as their paths and their bases."""
    chance, found = random.Random(2), []
    while len(found) < MAPS:
        data = random_map(chance, chance.choice(RATIOS))
        path = tests.folder / f"random_{len(found)}.tgap"
        path.write_bytes(data)
        if tests.program("check", path).returncode == 0:
            found.append((path, read_listing(data)))
    return found


# ---- what moved, by slabs between upright lines


def crossing(s, t):
    """The abscissa at which two segments cross in one point, as a fraction, or nothing."""
    (ax, ay), (bx, by), (cx, cy), (dx, dy) = *s, *t
    turn = (bx - ax) * (dy - cy) - (by - ay) * (dx - cx)
    if turn == 0:
        return None
    along, across = (cx - ax) * (dy - cy) - (cy - ay) * (dx - cx), (cx - ax) * (by - ay) - (cy - ay) * (bx - ax)
    along, across = Fraction(along, turn), Fraction(across, turn)
    return ax + (bx - ax) * along if 0 <= along <= 1 and 0 <= across <= 1 else None


def sided(rows):
    """The segments of rows of points from left to right, each with the faces above it and below it; upright ones have none."""
    found = []
    for left, right, points in rows:
        for a, b in zip(points, points[1:]):
            if a[0] != b[0]:
                found.append(((a, b), left, right) if a[0] < b[0] else ((b, a), right, left))
    return found


def height(segment, x):
    (ax, ay), (bx, by) = segment
    return ay + (by - ay) * Fraction(x - ax) / (bx - ax)


def differing(first, second):
    """Twice the area that lies in one face of the first partition and in another of the second, by pair of faces."""
    every = [(0, *row) for row in first] + [(1, *row) for row in second]
    columns = {point[0] for _, segment, _, _ in every for point in segment}
    columns |= {crossing(s, t) for s, _, _ in first for t, _, _ in second} - {None}
    found, columns = collections.Counter(), sorted(columns)
    for start, end in zip(columns, columns[1:]):
        slab = [(height(row[1], start), height(row[1], end), *row) for row in every if row[1][0][0] <= start and row[1][1][0] >= end]
        slab.sort(key=lambda row: row[0] + row[1], reverse=True)
        inside = [0, 0]
        for row, below in zip(slab, slab[1:]):
            inside[row[2]] = row[5]
            if inside[0] != inside[1]:
                found[tuple(inside)] += (end - start) * (row[0] + row[1] - below[0] - below[1])
    return found


def moved_at(history, step, text):
    """What moved up to a step: of each face, and of the whole; and how the area of each face has changed by it."""
    edges, now = slice_of(text).edges, history.labels[step]
    arcs = [(now[left], now[right], points) for left, right, points in history.base.arcs if now[left] != now[right]]
    pairs, faces, changes = differing(sided(edges.values()), sided(arcs)), collections.Counter(), collections.Counter()
    for (one, other), area in pairs.items():
        faces[one] += area
        faces[other] += area
    for sign, rows in ((1, edges.values()), (-1, arcs)):
        for left, right, points in rows:
            changes[left] += sign * double_area(points)
            changes[right] -= sign * double_area(points)
    return faces, sum(pairs.values()), changes


# ---- tests


def told_of(tests, paths):
    """What the tools tell of maps, in their order."""
    made = tests.command([sys.executable, "-B", "-c", TOLD, tests.executable, *paths])
    tests.same("the tools tell bounds", (made.returncode, made.stderr), (0, ""))
    return [json.loads(line) for line in made.stdout.splitlines()]


def faults_at(history, step, text, transfers, bounds):
    """What is wrong with the bounds of a step, and what moved."""
    faces, whole, changes = moved_at(history, step, text)
    by_face, bound = {int(face): area for face, area in bounds[0].items()}, bounds[1]
    faults = [f"face {face}: {area} moved, at most {by_face.get(face, 0)}" for face, area in faces.items() if area > by_face.get(face, 0)]
    faults += [f"{whole} moved, at most {bound}"] * (whole > bound)
    # What was transferred is no more than bounded, but told exactly: together it makes the areas what they are.
    last, into = history.labels[step], {}
    for labels in history.labels[: step + 1]:
        into.update(zip(labels, last))
    for transfer_step, giver, taker, area in transfers:
        if transfer_step <= step:
            changes[into[giver]] += area
            changes[into[taker]] -= area
    return faults + [f"face {face}: the transfers leave {area}" for face, area in changes.items() if area], whole


def random_maps(tests):
    maps, some = sound_maps(tests), 0
    told = told_of(tests, [path for path, _ in maps])
    for (path, base), (transfers, bounds) in zip(maps, told):
        history, faults = History(base), []
        last = len(history.labels) - 1
        for step in sorted({last // 2, last - 1, last}):
            found, whole = faults_at(history, step, tests.program("slice", path, step).stdout.encode(), transfers, bounds[step])
            faults += [f"step {step}: {fault}" for fault in found]
            some += whole > 0
        tests.tell(f"the bounds of {path.name}", faults)
    tests.within("slices in which something moved", some, MAPS, 3 * MAPS)
    without_removals(tests, maps[:20])
    of_faces(tests, *maps[0])


def without_removals(tests, maps):
    """Where no vertex is removed, nothing moves, and that is what is told."""
    paths = []
    for path, _ in maps:
        paths.append(tests.folder / f"kept_{path.name}")
        paths[-1].write_text(re.sub(r"\nratio \d+\n", "\nratio 0\n", path.read_text()))
    tests.same("bounds of maps without removals", [told for told in told_of(tests, paths) if told[0] or any(faces or whole for faces, whole in told[1])], [])


def of_faces(tests, path, base):
    """The tables of tools/loss: of the map, and of each face."""
    history, last = History(base), len(History(base).labels) - 1
    step = last - 1
    faces, whole, _ = moved_at(history, step, tests.program("slice", path, step).stdout.encode())
    bounds, bound = told_of(tests, [path])[0][1][step]
    made = tests.tool("loss", path, "--steps", step, "--by-face")
    total = sum(history.area[face] for face in range(1, len(base.classes) + 1))
    tests.done("the table of the map", made, f"{100 * float(whole / total):11.2f}%")
    table = [line.split() for line in made.stdout.split("twice the area")[1].splitlines()[1:]]
    wanted = [[str(face), str(history.area[face]), f"{float(faces[face]):.1f}", str(bounds.get(str(face), 0))] for face in sorted(set(history.labels[step]) - {0})]
    tests.same("the table of the faces", [[row[0], *row[2:]] for row in table], [*wanted, ["all", str(total), f"{float(whole):.1f}", str(bound)]])


def test(tests, examples):
    random_maps(tests)
    three_corners(tests)
    a_triangle_inside(tests)


def a_triangle_inside(tests):
    """Two squares below a third area with a bend at (10,11), which is gone after step 1: its triangle goes from the new face 4 to
    face 3. After step 2 both are one face, and the triangle counts no longer."""
    arcs = ["1 0 3 0 10 0 0 10 0", "2 0 3 10 0 20 0 20 10", "3 0 4 20 10 20 20 0 20 0 10", "1 2 2 10 0 10 11", "3 1 2 0 10 10 11", "3 2 2 10 11 20 10"]
    path = tests.folder / "bend.tgap"
    path.write_bytes(listing(3, arcs, ratio=4))
    told = [[[1, 4, 3, 20]], [[{}, 0], [{"4": 20, "3": 20}, 20], [{}, 0]]]
    tests.same("the transfer of a bend", told_of(tests, [path]), [told])


def three_corners(tests):
    """Two squares, of which three corners go one after the other, each with half a square: (0,10), (0,0) and (10,0). All goes to
    the outside, so that of 400 there are 300 less."""
    arcs = ["1 0 4 10 10 0 10 0 0 10 0", "2 0 4 10 0 20 0 20 10 10 10", "1 2 2 10 0 10 10"]
    path = tests.folder / "corners.tgap"
    path.write_bytes(listing(2, arcs, ratio=1))
    told = [[[1, 3, 0, 100]] * 3, [[{}, 0], [{"3": 300, "0": 300}, 300]]]
    tests.same("the transfers of three corners", told_of(tests, [path]), [told])
    lines = tests.tool("loss", path, "--by-face").stdout.splitlines()
    tests.same("three corners of the map", lines[2].split(), ["1", "1", "75.00%", "75.00%", "4"])
    tests.same("three corners of the face", [line.split() for line in lines[-2:]], [["3", "100", "400", "300.0", "300"], ["all", "100", "400", "300.0", "300"]])
