"""Maps of several shapes and sizes. Each is a planar partition whose faces hang together. A shape gives, for its size,
the numbers of faces, arcs and points and the arcs: left face, right face and points."""
import json
import pathlib
import sys

sys.path.insert(0, str(pathlib.Path(__file__).resolve().parents[1] / "tests"))
from lib import arc_text, bent_grid, grid, listing_lines  # noqa: E402


# The greatest coordinate of a map and the length of a large cell's side, in units, and what a listing of version 1 may
# have.
MOST = 2 ** 31
CELL = 2 ** 20
MOST_POINTS_1 = 131072


def cells(side):
    """Square cells, side by side."""
    faces, count, arcs = grid(side)
    return faces, count, 2 * count, arcs


def bent_cells(side):
    """Cells whose sides have a bend that a larger neighbour does not need."""
    faces, count, arcs = bent_grid(side)
    return faces, count, 3 * count, arcs


def jagged_cells(side):
    """Cells whose sides have eight points each, in a zigzag."""
    faces, count, arcs = grid(side)
    zigzag = [(0, 0), (3, 1), (5, 0), (7, 1), (9, 0), (11, 1), (13, 0), (16, 0)]

    def jagged(points):
        (x, y), (u, _) = points
        return [(16 * x + across, 16 * y + along) if x == u else (16 * x + along, 16 * y + across) for along, across in zigzag]

    return faces, count, 8 * count, ((left, right, jagged(points)) for left, right, points in arcs)


def placed_cells(side, corner):
    """Square cells of 2^20 units, of which this is the corner with the greatest coordinates."""
    faces, count, arcs = grid(side)

    def placed(points):
        return [(corner - (side - x) * CELL, corner - (side - y) * CELL) for x, y in points]

    return faces, count, 2 * count, ((left, right, placed(points)) for left, right, points in arcs)


def middle_cells(side):
    """Cells in the middle of the plane."""
    return placed_cells(side, side * CELL // 2)


def corner_cells(side):
    """The same cells in the corner of the plane, where both coordinates are near the greatest."""
    return placed_cells(side, MOST)


def saw(teeth):
    """One face inside one long arc: a level base, and above it the teeth of a saw from right to left."""
    end = 2 * teeth

    def points():
        yield 0, 0
        yield end, 0
        for x in range(end, -1, -1):
            yield x, 10 + x % 2
        yield 0, 0

    return 1, 1, end + 4, [(1, 0, list(points()))]


def comb(teeth):
    """One face inside one long arc: long level teeth over each other, each longer than the one below. A vertical line
    crosses up to two segments a tooth, and each tooth ends on a line of its own."""

    def points():
        yield 0, 0
        for tooth in range(teeth):
            end, y = teeth + tooth + 2, 2 * tooth
            yield end, y
            yield end, y + 1
            if tooth < teeth - 1:
                yield 1, y + 1
                yield 1, y + 2
        yield 0, 2 * teeth - 1
        yield 0, 0

    return 1, 1, 4 * teeth + 1, [(1, 0, list(points()))]


def rim(reach, place):
    """The points of a square round (0, 0), in counter-clockwise order."""
    side, along = divmod(place % (8 * reach), 2 * reach)
    x, y = reach, along - reach
    for _ in range(side):
        x, y = -y, x
    return x, y


def star(reach):
    """Arcs that leave one node for the points of the square round it, in counter-clockwise order; a face lies between
    each two, and an arc of the square closes it."""
    count = 8 * reach

    def arcs():
        for place in range(count):
            yield place + 1, (place - 1) % count + 1, [(0, 0), rim(reach, place)]
            yield place + 1, 0, [rim(reach, place), rim(reach, place + 1)]

    return count, 2 * count, 4 * count, arcs()


def long_star(reach):
    """The same star, in which each arc is straight and has eight points."""
    faces, count, _, arcs = star(reach)

    def lengthened(points):
        (x, y), (u, v) = points
        return [((7 - part) * x + part * u, (7 - part) * y + part * v) for part in range(8)]

    return faces, count, 8 * count, ((left, right, lengthened(points)) for left, right, points in arcs)


def stripes(side):
    """Square cells, side by side, of which each row is of another class than the next."""
    return cells(side)


def hub(reach):
    """A square, the last face, and round it a ring of faces, one at each unit of its border, of another class."""
    count = 8 * reach

    def outer(place):
        x, y = rim(reach, place)
        return 2 * x, 2 * y

    def arcs():
        for place in range(count):
            yield count + 1, place + 1, [rim(reach, place), rim(reach, place + 1)]
            yield place + 1, (place - 1) % count + 1, [rim(reach, place), outer(place)]
            yield place + 1, 0, [outer(place), outer(place + 1)]

    return count + 1, 3 * count, 6 * count, arcs()


def square(x, y, side):
    """The closed row of points round a square, counter-clockwise, by its corner with the least coordinates."""
    return [(x, y), (x + side, y), (x + side, y + side), (x, y + side), (x, y)]


def islands(side):
    """Square islands in rows, and the last face, in which they all lie: each of them has that neighbour alone."""
    count = side * side

    def arcs():
        for place in range(count):
            yield place + 1, count + 1, square(2 * (place % side) + 1, 2 * (place // side) + 1, 1)
        yield count + 1, 0, square(0, 0, 2 * side + 1)

    return count + 1, count + 1, 5 * (count + 1), arcs()


def nested_rings(count):
    """Square rings, each inside the next one, and a square in the innermost one."""

    def arcs():
        for place in range(count):
            yield place + 1, place + 2 if place < count - 1 else 0, square(-place - 1, -place - 1, 2 * place + 2)

    return count, count, 5 * count, arcs()


def along(cells, bent, both):
    """The arcs of cells in a row above a long face, the last one, which is as wide as all of them; with `both` there is a row
    below it too. Each cell is wide, so that it goes to the long face; where it is bent, its side there has a bend that a larger
    face does not need."""
    rows = [(0, 20)] + ([(cells, -30)] if both else [])
    end, face = 16 * cells, len(rows) * cells + 1

    def arc(left, right, points, turned):
        return (right, left, points) if turned else (left, right, points)

    for first, far in rows:
        below = far < 0
        near = -10 if below else 10
        for place in range(cells):
            x = 16 * place
            bend = [(x + 8, near + (-1 if below else 1))] if bent else []
            yield arc(first + place + 1, face, [(x, near), *bend, (x + 16, near)], below)
            yield arc(0, first + place + 1, [(x, far), (x + 16, far)], below)
            if place > 0:
                yield arc(first + place, first + place + 1, [(x, near), (x, far)], below)
        yield arc(0, first + 1, [(0, near), (0, far)], below)
        yield arc(first + cells, 0, [(end, near), (end, far)], below)
    if both:
        yield 0, face, [(0, -10), (0, 10)]
        yield face, 0, [(end, -10), (end, 10)]
    else:
        yield face, 0, [(0, 10), (0, 0), (end, 0), (end, 10)]


def counted(faces, arcs):
    """A shape by its faces and its arcs."""
    arcs = list(arcs)
    return faces, len(arcs), sum(len(points) for _, _, points in arcs), arcs


def row(cells):
    """A row of cells along one face."""
    return counted(cells + 1, along(cells, False, False))


def bent_row(cells):
    """The same row, of which each cell has a bend at the face."""
    return counted(cells + 1, along(cells, True, False))


def coast(cells):
    """The same row, far larger, whose outer side is a zigzag of twelve points a cell that stay, and one that goes. So each step
    lengthens one border with very many points, and takes one of them out."""
    faces, arcs = cells + 1, []
    for left, right, points in along(cells, False, False):
        (x, y), *_ = points = [(16 * u, 64 * v) for u, v in points]
        if left == 0 and len(points) == 2 and points[1][1] == y and y > 640:
            points[1:1] = [(x + 18 * i, y + 20 * (i % 2)) for i in range(1, 13)] + [(x + 236, y + 1)]
        arcs.append((left, right, points))
    return counted(faces, arcs)


def river(cells):
    """A long face, and on either side of it a row of parcels."""
    return counted(2 * cells + 1, along(cells, False, True))


def level_border(wide, unit, high):
    """The arcs of one segment each round a level rectangle, with face 1 inside."""
    xs = range(0, wide + 1, unit)
    points = [(x, 0) for x in xs] + [(x, high) for x in reversed(xs)]
    return [(1, 0, [a, b]) for a, b in zip(points, [*points[1:], points[0]])]


def rim_of_arcs(sides):
    """A face with so many sides, each an arc, and the cut from below to above in its middle."""
    return counted(1, level_border(sides // 2 - 1, 1, 10))


def rim_with_islands(sides):
    """The same, twice as wide, with nearly a third as many square islands in a row in the face."""
    wide = 2 * (sides // 2 - 1)
    arcs = level_border(wide, 2, 10)
    count = wide // 3 - 1
    for place in range(count):
        x = 3 * place + 1
        arcs.append((place + 2, 1, [(x, 4), (x + 1, 4), (x + 1, 5), (x, 5), (x, 4)]))
    return counted(1 + count, arcs)


def wheel(count):
    """So many arcs from one node to the points of a square round it, with a face between each two; between them the square has nodes too."""
    reach = count // 4
    side = range(-reach, reach, 2)
    points = [(-x, reach) for x in side] + [(-reach, -y) for y in side] + [(x, -reach) for x in side] + [(reach, y) for y in side]
    arcs = []
    for number, (a, b) in enumerate(zip(points, [*points[1:], points[0]])):
        middle = ((a[0] + b[0]) // 2, (a[1] + b[1]) // 2)
        arcs += [(number + 1, (number or len(points)), [(0, 0), a]), (number + 1, 0, [a, middle]), (number + 1, 0, [middle, b])]
    return counted(len(points), arcs)


# Of the shapes with two classes that never go to each other: the class of a face, counted from 0, and how many faces are
# left at the last step. Of the others all faces are of one class, and one face is left.
BARRED = {
    stripes: (lambda side, face: face // side % 2, lambda side: side),
    hub: (lambda reach, face: face // (8 * reach), lambda reach: 2),
}


def sheaf(strips):
    """Slanting strips side by side, each one closed arc, without a common node. The box of each holds a part of most others."""
    reach = 4 * strips
    arcs = [(i + 1, 0, [(4 * i, 0), (4 * i + 2, 0), (4 * i + 2 + reach, reach), (4 * i + reach, reach), (4 * i, 0)]) for i in range(strips)]
    return strips, strips, 5 * strips, arcs


def random_numbers():
    """Numbers below 2^20, always the same ones."""
    state = 1
    while True:
        state = (6364136223846793005 * state + 1442695040888963407) % 2 ** 64
        yield state >> 44


def crossings(count):
    """Segments in all directions that cross one another everywhere."""
    numbers = random_numbers()
    arcs = [(1, 0, [(next(numbers), next(numbers)), (2 ** 20 + next(numbers), next(numbers))]) for _ in range(count)]
    return 1, count, 2 * count, arcs


def lattice(lines):
    """Level lines and upright ones, each of which crosses all of the other kind without a node."""
    level = [(1, 0, [(-1, y), (lines, y)]) for y in range(lines)]
    upright = [(1, 0, [(x, -1), (x, lines)]) for x in range(lines)]
    return 1, 2 * lines, 4 * lines, level + upright


def crossed_cell(side):
    """Square cells, and in the last one two arcs that cross."""
    faces, count, arcs = grid(side)
    arcs = [(left, right, [(4 * x, 4 * y) for x, y in points]) for left, right, points in arcs]
    most = max(max(point) for _, _, points in arcs for point in points)
    for start, end in [((1, 1), (3, 3)), ((1, 3), (3, 1))]:
        arcs.append((faces, 0, [(most - 4 + x, most - 4 + y) for x, y in (start, end)]))
    return faces, count + 2, 2 * count + 4, arcs


def pencil(count):
    """Segments through one point that is no node of theirs."""
    arcs = [(1, 0, [(-x, -count), (x, count)]) for x in range(1, count + 1)]
    return 1, count, 2 * count, arcs


# The shapes whose coordinates the first version of the listing cannot have.
WIDE = {corner_cells}


def faces_left(shape, size):
    """How many faces a map has at its last step."""
    return BARRED[shape][1](size) if shape in BARRED else 1


def classes_of(shape, size, faces):
    """The compatibilities of its classes, and the class of each face."""
    if shape not in BARRED:
        return [[1]], [0] * faces
    return [[1, 0], [0, 1]], [BARRED[shape][0](size, face) for face in range(faces)]


# Each shape with its ratio, and with sizes that about double the points, up to what a map may have: 524,288 points,
# 65,536 arcs and 32,768 faces.
SHAPES = {
    "grid of cells": (cells, 0, [22, 32, 45, 64, 90, 128, 180]),
    "middle cells": (middle_cells, 0, [45, 90, 180]),
    "corner cells": (corner_cells, 0, [45, 90, 180]),
    "bent cells": (bent_cells, 16, [18, 26, 40, 64, 91, 128, 180]),
    "jagged cells": (jagged_cells, 16, [16, 22, 32, 45, 64, 90, 128, 180]),
    "one long arc": (saw, 0, [1024, 2048, 4096, 8192, 16384, 32768, 65534, 131072, 262142]),
    "comb": (comb, 0, [512, 1024, 2048, 4096, 8192, 16384, 32767, 65536, 131071]),
    "star": (star, 0, [64, 128, 256, 512, 1024, 2048, 4096]),
    "long star": (long_star, 0, [64, 128, 256, 512, 1024, 2048, 4096]),
    "stripes": (stripes, 0, [22, 32, 45, 64, 90, 128, 180]),
    "barred hub": (hub, 0, [42, 85, 170, 341, 682, 1365, 2730]),
    "islands": (islands, 0, [25, 35, 50, 71, 100, 141, 161, 181]),
    "drawn islands": (islands, 16, [25, 35, 50, 71, 100, 141, 161, 181]),
    "row": (row, 0, [341, 682, 1363, 2728, 5459, 10920, 21843]),
    "bent row": (bent_row, 16, [341, 682, 1363, 2728, 5459, 10920, 18700]),
    "coast": (coast, 1000, [125, 250, 500, 1000, 2000, 4000, 8000, 16000, 21800]),
    "river": (river, 0, [312, 625, 1250, 2500, 5000, 10000]),
    "nested rings": (nested_rings, 0, [625, 1250, 2500, 5000, 10000, 20000, 26000]),
}


# Maps that are checked alone: whether they are sound, and their sizes.
CHECKED = {
    "sheaf": (sheaf, True, [341, 682, 1365, 2730, 5461, 10922]),
    "crossings": (crossings, False, [1024, 2048, 4096, 8192, 16384, 32768, 65536]),
    "lattice": (lattice, False, [1024, 2048, 4096, 8192, 16384, 32768]),
    "crossed cell": (crossed_cell, False, [22, 32, 45, 64, 90, 128, 180]),
    "pencil": (pencil, False, [1024, 2048, 4096, 8192, 16384, 32768, 65536]),
}


def width_of(ring, arcs):
    """How far a ring reaches from left to right."""
    across = [x for index in ring for x, _ in arcs[index if index >= 0 else ~index][2]]
    return max(across) - min(across)


def rings_of(faces, arcs):
    """The rings of each face, the outer one first: of each the indexes of its arcs, one after the other, with the face at their
    left."""
    starts = [{} for _ in range(faces + 1)]
    for number, (left, right, points) in enumerate(arcs):
        starts[left][points[0]] = number, points[-1]
        starts[right][points[-1]] = ~number, points[0]
    for face in range(1, faces + 1):
        rings = []
        while starts[face]:
            first = point = next(iter(starts[face]))
            rings.append([])
            while not rings[-1] or point != first:
                index, point = starts[face].pop(point)
                rings[-1].append(index)
        yield sorted(rings, key=lambda ring: -width_of(ring, arcs))


def steps_of(points):
    """The first point, and then the differences."""
    return [points[0], *((b[0] - a[0], b[1] - a[1]) for a, b in zip(points, points[1:]))]


def write_topology(path, shape, size, ratio=0):
    """Writes the same map as a topology, path.json, with its object 'cells', and its rules, path.rules.json."""
    faces, _, _, arcs = shape(size)
    arcs = list(arcs)
    compat, kinds = classes_of(shape, size, faces)
    geometries = [{"type": "Polygon", "arcs": rings, "properties": {"kind": str(kind)}} for rings, kind in zip(rings_of(faces, arcs), kinds)]
    with open(f"{path}.json", "w", encoding="ascii") as file:
        json.dump({"type": "Topology", "transform": {"scale": [1, 1], "translate": [0, 0]}, "objects": {"cells": {"type": "GeometryCollection", "geometries": geometries}},
                   "arcs": [steps_of(points) for _, _, points in arcs]}, file, separators=(",", ":"))
    with open(f"{path}.rules.json", "w", encoding="ascii") as file:
        json.dump({"property": "kind", "classes": [[str(kind), 1] for kind in range(len(compat))], "default": 0, "compat": compat, "ratio": ratio}, file)


def write_longest(path):
    """Writes a topology of 16 MiB, the greatest length: a square whose first position is repeated as often as fits."""
    head, tail = '{"type":"Topology","transform":{"scale":[1,1],"translate":[0,0]},"objects":{"cells":{"type":"Polygon","arcs":[[0]]}},"arcs":[[', "[9,0],[0,9],[-9,0],[0,-9]]]}"
    room = 2 ** 24 - len(head) - len(tail)
    with open(f"{path}.json", "w", encoding="ascii") as file:
        file.write(head + "[0,0]," * (room // 6) + " " * (room % 6) + tail)


def version_of(shape, points):
    """The first version of the listing that may hold a map: programs before the second one read it too."""
    return 2 if shape in WIDE or points > MOST_POINTS_1 else 1


def write(path, shape, size, ratio=0):
    """Writes the listing of a map to a file. With a ratio above 0 vertices of it are removed."""
    write_made(path, shape, size, ratio, shape(size))


def write_made(path, shape, size, ratio, made):
    """The same of a map that was made before."""
    faces, count, points, arcs = made
    compat, kinds = classes_of(shape, size, faces)
    rows = [" ".join(str(number) for number in [1, *row]) for row in compat]
    with open(path, "w", encoding="ascii") as file:
        file.writelines(listing_lines(faces, count, (arc_text(*arc) for arc in arcs), ratio=ratio, classes=rows,
                                      class_of={face: kind for face, kind in enumerate(kinds, 1) if kind},
                                      version=version_of(shape, points)))
