"""Nodes, cuts and fusions, as lines of batches: worked maps, each cause by a batch, lines behind a cut that name its
points, batches of all kinds of lines, long batches, and maps that have as much as a map may have.

Cause 14 is told where two faces border each other alone. Over HTTP it cannot be met: a map that is served is a planar
partition, in which all faces hang together with the outside by their arcs; no line changes a side that is the
outside's, and a cut and a fusion leave together what hangs together. So tests/trials has it, of a map that is no
partition."""
import contextlib
import pathlib
import tempfile

from lib import TOP, Server, arc_text, ask, listing
from plain_answers import PlainAnswers
from plain_maps import read_listing

VERSIONS, BODY = 64, 1048576
MOST_FACES, MOST_ARCS, MOST_POINTS, MOST_CUT = 32768, 65536, 524288, 65535
HUGE = 2**70
SQUARE, INNER = "0 0 10 0 10 10 0 10 0 0", "10 10 20 10 20 20 10 20 10 10"
FOUR_SQUARES = ["1 0 3 0 10 0 0 10 0", "2 0 3 10 0 20 0 20 10", "4 0 3 20 10 20 20 10 20", "3 0 3 10 20 0 20 0 10",
                "1 2 2 10 0 10 10", "2 4 2 20 10 10 10", "4 3 2 10 20 10 10", "3 1 2 0 10 10 10"]
MAPS = {
    **{name: (TOP / f"examples/{name}.tgap").read_bytes() for name in ("two_squares", "four_squares", "hole_with_face")},
    "no_faces": listing(0, []),
    "one_square": listing(1, [f"1 0 5 {SQUARE}"]),
    "two_apart": listing(2, [f"1 0 5 {SQUARE}", "2 0 5 20 0 30 0 30 10 20 10 20 0"]),
    "two_at_a_corner": listing(2, ["1 0 5 10 10 0 10 0 0 10 0 10 10", f"2 0 5 {INNER}"]),
    "of_two_classes": listing(4, FOUR_SQUARES, ratio=0, classes=("1 1 0", "1 0 1"), class_of={2: 1, 4: 1}),
}
# A cut of the first of two squares, from corner to corner, and what joins its faces again.
CORNER, DIAGONAL, JOIN = b"node 0 0\n", b"cut 1 0 2 0 0 10 10\n", b"fuse 1 3\n"


def slice_text(classes, *edges):
    """A slice at step 0, by the classes of its faces and its edges without their word and their count of points."""
    rows = ["slice 0", f"faces {len(classes)}", *(f"face {face} {kind}" for face, kind in enumerate(classes, 1)), f"edges {len(edges)}"]
    for key, left, right, points in edges:
        rows.append(f"edge {key} {left} {right} {len(points.split()) // 2} {points}")
    return "\n".join([*rows, "end", ""]).encode()


def info(version, steps, faces, arcs, points):
    return f"version {version} steps {steps} faces {faces} arcs {arcs} points {points}\n".encode()


@contextlib.contextmanager
def edited_map(tests, data, versions=VERSIONS):
    """A server of a map, and what edits it: a function from a batch to status, version and text."""
    with tempfile.TemporaryDirectory() as folder:
        path = pathlib.Path(folder) / "map"
        path.write_bytes(data)
        with Server(tests.executable, path, 2, versions) as server, contextlib.closing(server.client()) as client:
            yield lambda batch: ask(client, "POST", "/edit", batch)[:3], lambda path: ask(client, "GET", path)[:3]


def published(version):
    return 200, version, b"published %d\n" % version


def at_fault(version, line, cause):
    return 422, version, b"edit line %d cause %d\n" % (line, cause)


# ---- worked maps, by hand

SIDE = "10 0 10 10"
RIGHT_SQUARE, MIDDLE = (1, 2, 0, "10 0 20 0 20 10 10 10"), (2, 1, 2, SIDE)
CUT_SQUARE = [(0, 3, 0, "10 10 0 10 0 0"), RIGHT_SQUARE, MIDDLE, (3, 1, 0, "0 0 10 0"), (4, 3, 1, "0 0 10 10")]
# A map, and batches one after the other: each with the numbers of steps, faces, arcs and points, the classes, and the edges.
WORKED = [
    ("two_squares", [
        (CORNER + DIAGONAL, (2, 3, 5, 13), [0, 0, 0], CUT_SQUARE),
        (JOIN, (1, 2, 4, 11), [0, 0], [(0, 1, 0, "10 10 0 10 0 0 10 0"), RIGHT_SQUARE, MIDDLE]),
        # The last number is free again.
        (DIAGONAL, (2, 3, 5, 13), [0, 0, 0], CUT_SQUARE),
        # The third face gets the number that is left.
        (b"fuse 1 2\n", (1, 2, 4, 11), [0, 0], [(0, 2, 0, "10 10 0 10 0 0"), (1, 1, 0, "0 0 10 0 20 0 20 10 10 10"), (3, 2, 1, "0 0 10 10")]),
    ]),
    ("one_square", [
        (b"node 10 10\ncut 1 0 2 10 10 0 0\n", (1, 2, 3, 8), [0, 0],
         [(0, 2, 0, "0 0 10 0 10 10"), (1, 1, 0, "10 10 0 10 0 0"), (2, 2, 1, "10 10 0 0")]),
    ]),
    # A square in the middle of another one, at the left of the cut and then at its right.
    ("hole_with_face", [
        (b"node 30 30\ncut 1 0 3 0 0 25 5 30 30\n", (2, 3, 4, 14), [0, 0, 0],
         [(0, 1, 0, "0 0 30 0 30 30"), (1, 2, 3, INNER), (2, 3, 0, "30 30 0 30 0 0"), (3, 3, 1, "0 0 25 5 30 30")]),
    ]),
    ("hole_with_face", [
        (b"node 30 30\ncut 1 0 3 30 30 25 5 0 0\n", (2, 3, 4, 14), [0, 0, 0],
         [(0, 3, 0, "0 0 30 0 30 30"), (1, 2, 1, INNER), (2, 1, 0, "30 30 0 30 0 0"), (3, 3, 1, "30 30 25 5 0 0")]),
    ]),
    # The cut has both ends at the inner square: once the corner below it is cut off, and once the new face is all the rest.
    ("hole_with_face", [
        (b"node 20 10\ncut 1 0 3 10 10 15 5 20 10\n", (2, 3, 4, 14), [0, 0, 0],
         [(0, 1, 0, "0 0 30 0 30 30 0 30 0 0"), (1, 2, 3, "10 10 20 10"), (2, 2, 1, "20 10 20 20 10 20 10 10"), (3, 3, 1, "10 10 15 5 20 10")]),
    ]),
    ("hole_with_face", [
        (b"node 20 10\ncut 1 0 3 20 10 15 5 10 10\n", (2, 3, 4, 14), [0, 0, 0],
         [(0, 3, 0, "0 0 30 0 30 30 0 30 0 0"), (1, 2, 1, "10 10 20 10"), (2, 2, 3, "20 10 20 20 10 20 10 10"), (3, 3, 1, "20 10 15 5 10 10")]),
    ]),
    # Classes: the new face has that of its line, the fused one that of the first face, and the last face takes its own along.
    ("of_two_classes", [
        (b"node 0 0\ncut 1 1 2 0 0 10 10\n", None, [0, 1, 0, 1, 1], None),
        (b"fuse 5 1\n", None, [1, 1, 0, 1], None),
    ]),
    ("of_two_classes", [
        (b"fuse 1 2\n", (1, 3, 7, 18), [0, 1, 0],
         [(0, 1, 0, "0 10 0 0 10 0 20 0 20 10"), (2, 2, 0, "20 10 20 20 10 20"), (3, 3, 0, "10 20 0 20 0 10"), (4, 1, 2, "20 10 10 10"),
          (5, 2, 3, "10 20 10 10"), (6, 3, 1, "0 10 10 10")]),
    ]),
    ("of_two_classes", [
        (b"class 4 0\nfuse 4 2\n", (2, 3, 7, 18), [0, 0, 0],
         [(0, 1, 0, "0 10 0 0 10 0"), (1, 2, 0, "10 0 20 0 20 10 20 20 10 20"), (3, 3, 0, "10 20 0 20 0 10"), (4, 1, 2, SIDE),
          (5, 2, 3, "10 20 10 10"), (6, 3, 1, "0 10 10 10")]),
    ]),
    # All faces become one, and then none is left to be added.
    ("four_squares", [
        (b"fuse 1 2\nfuse 1 2\nfuse 1 2\n", (0, 1, 4, 12), [0], [(0, 1, 0, "20 10 20 20 10 20 0 20 0 10 0 0 10 0 20 0 20 10")]),
    ]),
]


def classes_of(text):
    return [int(line.split()[2]) for line in text.splitlines() if line.startswith(b"face ")]


def worked(tests):
    for name, batches in WORKED:
        with edited_map(tests, MAPS[name]) as (edit, read):
            for version, (batch, counts, classes, edges) in enumerate(batches, 1):
                tests.same(f"{batch} on {name}", edit(batch), published(version))
                if edges is None:
                    tests.same(f"the classes after {batch} on {name}", classes_of(read("/slice/0")[2]), classes)
                    continue
                tests.same(f"the counts after {batch} on {name}", read("/info"), (200, version, info(version, *counts)))
                tests.same(f"the slice after {batch} on {name}", read("/slice/0"), (200, version, slice_text(classes, *edges)))


# ---- causes

FAR = b" ".join(b"%d 99" % x for x in range(MOST_CUT))
# The cause, and the last line of each batch for which it is told.
OF_TWO_SQUARES = [
    (1, [b"cut 1 0 1 10 0", b"cut 1 0 0", b"cut 1 0 -2 10 0 10 10", b"cut 1 0 02 10 0 10 10", b"cut 1 0 +2 10 0 10 10",
         b"cut 1 0 %d 10 0 10 10" % HUGE,
         b"cut 1 0 2 10 0 10", b"cut 1 0 2 10 0 10 10 5", b"cut 1 0 2 10 0 10 10 5 5", b"cut 1 0 3 10 0 10 10", b"cut 1 0 2 10 0 10 10 ",
         b"cut 1 0 2  10 0 10 10",
         b"cut 1 0 2 10 0 10 010", b"cut 1 0 2 10 0 10 -0", b"cut 1 0 2 10 0 10 x", b"cut 1 0 2 10 0 10 2147483649", b"cut 1 0 2 -2147483649 0 10 10",
         b"cut 01 0 2 10 0 10 10", b"cut 1 -0 2 10 0 10 10", b"cut x 0 2 10 0 10 10", b"cut 1 0 2", b"cut 1 0", b"cut 1", b"cut", b"cut ",
         b"Cut 1 0 2 10 0 10 10",
         b"cut 1 0 2 10 0 10 10\r", b" cut 1 0 2 10 0 10 10", b"cut 1 0 %d %s 0 98" % (MOST_CUT + 1, FAR),
         b"node", b"node 0", b"node 0 0 0", b"node  0 0", b"node 0 00", b"node 0 0 ", b"node 2147483649 0", b"node 0 -2147483649", b"Node 0 0",
         b"node 0 0\r",
         b"fuse", b"fuse 1", b"fuse 1 2 3", b"fuse 1 02", b"fuse +1 2", b"fuse 1  2", b"fuse 1 2 ", b"fuse 1 x", b"fuses 1 2", b"FUSE 1 2"]),
    (2, [b"cut 0 0 2 10 0 10 10", b"cut 3 0 2 10 0 10 10", b"cut 1 1 2 10 0 10 10", b"cut -1 0 2 10 0 10 10", b"cut 1 -1 2 10 0 10 10",
         b"cut %d 0 2 10 0 10 10" % HUGE,
         b"cut 1 %d 2 10 0 10 10" % HUGE, b"cut 4294967297 0 2 10 0 10 10", b"cut 3 0 2 10 0 10 0", b"fuse 0 1", b"fuse 1 0", b"fuse 0 0",
         b"fuse 3 1", b"fuse 1 3",
         b"fuse -1 1", b"fuse 1 %d" % HUGE, b"fuse 4294967297 2", b"fuse 3 3", b"node 0 0\nnode 0 10\ncut 3 0 2 0 0 10 10"]),
    (3, [b"node 5 5", b"node 2147483648 -2147483648", b"add 0 0 10 0 5 -1\ndrop 5 -1\nnode 5 -1", b"node 0 0\nmove 0 0 -1 -1\nnode 0 0"]),
    (6, [b"node 10 0", b"node 10 10", b"node 0 0\nnode 0 0", b"node 0 0\ndrop 0 0", b"node 0 0\nmove 0 0 -1 -1\nnode -1 -1",
         b"cut 1 0 3 10 0 5 5 10 10\nnode 5 5\ndrop 5 5"]),
    # No node, or nothing at all, at one end and the other.
    (9, [b"cut 1 0 2 0 0 10 10", b"cut 1 0 2 10 10 0 0", b"cut 1 0 2 5 5 10 10", b"cut 1 0 2 10 10 5 5", b"cut 1 0 3 7 7 8 8 9 9",
         # Along a border, and against it.
         b"cut 1 0 2 10 0 10 10", b"cut 1 0 2 10 10 10 0", b"cut 2 0 2 10 0 10 10", b"cut 1 0 3 10 0 10 5 10 10", b"cut 1 0 3 10 0 4 0 10 10",
         # Into another face, at one end and the other, and into the outside.
         b"cut 1 0 3 10 0 15 5 10 10", b"cut 2 0 3 10 0 5 5 10 10", b"cut 1 0 4 10 0 5 5 15 6 10 10", b"cut 1 0 4 10 0 15 6 5 5 10 10",
         b"cut 1 0 3 10 0 10 -5 10 10",
         b"node 0 0\ncut 2 0 2 0 0 10 10", b"node 0 0\ncut 2 0 3 10 0 5 5 0 0", b"node 0 0\ncut 1 0 2 0 0 10 0",
         b"node 0 0\ncut 1 0 3 0 0 -5 5 10 10",
         b"cut 1 0 %d %s" % (MOST_CUT, FAR)]),
    (10, [b"cut 1 0 2 10 0 10 0", b"cut 1 0 2 5 5 5 5", b"cut 1 0 4 10 0 5 5 5 5 10 10", b"cut 1 0 4 10 0 5 5 10 0 10 10",
          b"cut 1 0 5 10 0 5 5 6 6 5 5 10 10",
          b"cut 1 0 3 10 0 0 0 10 10", b"cut 1 0 4 10 0 0 0 0 10 10 10", b"cut 1 0 3 10 0 20 10 10 10", b"cut 1 0 3 7 7 10 0 8 8",
          b"cut 1 0 3 5 5 6 6 5 5",
          b"cut 1 0 3 10 0 5 5 10 10\ncut 1 0 3 10 0 5 5 10 10", b"add 0 0 10 0 5 -1\ncut 1 0 3 10 0 5 -1 10 10"]),
    (13, [b"fuse 1 1", b"fuse 2 2", b"fuse 1 2\nfuse 1 1", b"node 0 0\nnode 20 0\ncut 1 0 2 0 0 10 10\nfuse 2 3"]),
]
# The same of other maps.
OF_OTHERS = [
    ("hole_with_face", 12, [b"cut 1 0 2 0 0 10 10", b"cut 1 0 2 10 10 0 0", b"node 30 30\nnode 20 20\ncut 1 0 2 30 30 20 20"]),
    ("hole_with_face", 9, [b"cut 2 0 2 10 10 0 0", b"cut 2 0 3 10 10 15 5 0 0"]),
    ("two_apart", 13, [b"fuse 1 2", b"fuse 2 1"]),
    ("four_squares", 13, [b"fuse 1 4", b"fuse 3 2"]),
    ("no_faces", 2, [b"cut 1 0 2 0 0 1 1", b"fuse 1 1", b"cut 0 0 2 0 0 1 1"]),
    ("no_faces", 3, [b"node 0 0"]),
]


def causes(tests):
    """A line at fault ends its batch, of which nothing is kept."""
    rows = [("two_squares", *row) for row in OF_TWO_SQUARES] + OF_OTHERS
    for name, cause, batches in rows:
        with edited_map(tests, MAPS[name], 1) as (edit, read):
            before = read("/slice/0")
            for batch in batches:
                line = 1 + batch.count(b"\n")
                for text, wanted in [(batch, cause), (batch + b"\n", cause), (batch + b"\nfuse 0 0\n", cause)]:
                    # Without its line feed a last line is none.
                    tests.same(f"{text[:80]} on {name}", edit(text), at_fault(0, line, wanted if text != batch else 1))
            tests.same(f"the map after the faults of cause {cause}", read("/slice/0"), before)


# ---- lines behind the three

THIRD = b"cut 1 0 3 0 0 4 6 10 10\n"
# Lines behind a cut of the two squares with a point on its way: edges 0, 3 and 4, or the cause of the last line.
BEHIND_A_CUT = [
    (b"move 4 6 5 7\n", ["10 10 0 10 0 0", "0 0 10 0", "0 0 5 7 10 10"]),
    (b"add 0 0 4 6 1 2\n", ["10 10 0 10 0 0", "0 0 10 0", "0 0 1 2 4 6 10 10"]),
    (b"add 10 10 4 6 8 9\n", ["10 10 0 10 0 0", "0 0 10 0", "0 0 4 6 8 9 10 10"]),
    (b"drop 4 6\n", ["10 10 0 10 0 0", "0 0 10 0", "0 0 10 10"]),
    (b"add 0 0 4 6 1 2\ndrop 4 6\nmove 1 2 3 4\n", ["10 10 0 10 0 0", "0 0 10 0", "0 0 3 4 10 10"]),
    (b"move 0 0 -2 -1\n", ["10 10 0 10 -2 -1", "-2 -1 10 0", "-2 -1 4 6 10 10"]),
    (b"move 10 10 11 11\n", ["11 11 0 10 0 0", "0 0 10 0", "0 0 4 6 11 11"]),
    # Those of the arc that was split: its front part and its new last part.
    (b"move 4 6 6 4\ndrop 0 10\n", ["10 10 0 0", "0 0 10 0", "0 0 6 4 10 10"]),
    (b"move 0 10 -3 12\n", ["10 10 -3 12 0 0", "0 0 10 0", "0 0 4 6 10 10"]),
    (b"add 0 10 0 0 -1 5\n", ["10 10 0 10 -1 5 0 0", "0 0 10 0", "0 0 4 6 10 10"]),
    (b"add 10 0 0 0 5 -1\nmove 5 -1 5 -2\n", ["10 10 0 10 0 0", "0 0 5 -2 10 0", "0 0 4 6 10 10"]),
    (b"move 10 0 10 -4\nmove 10 -4 10 -3\nmove 10 -3 10 0\n", ["10 10 0 10 0 0", "0 0 10 0", "0 0 4 6 10 10"]),
    (b"drop 0 0\n", 6), (b"node 0 0\n", 6), (b"node 4 6\nnode 4 6\n", 6), (b"node 0 10\ndrop 0 10\n", 6),
    (b"move 0 0 4 6\n", 4), (b"add 0 0 10 0 4 6\n", 4), (b"move 4 6 0 10\n", 4), (b"add 0 0 10 10 5 5\n", 5), (b"add 0 10 10 0 5 5\n", 5),
    (b"drop 4 6\ndrop 4 6\n", 3), (b"move 4 6 5 7\nmove 4 6 5 7\n", 3), (b"drop 4 6\nadd 0 0 4 6 1 2\n", 5),
    (b"fuse 1 3\nmove 4 6 5 7\n", 3), (b"fuse 3 1\ndrop 4 6\n", 3), (b"fuse 1 3\nnode 4 6\n", 3), (b"fuse 1 3\nadd 0 0 4 6 1 2\n", 5),
    (b"fuse 1 3\n" + THIRD + b"fuse 1 3\nadd 10 0 0 0 4 6\ndrop 4 6\ndrop 4 6\n", 3),
]


def behind_a_cut(tests):
    with edited_map(tests, MAPS["two_squares"], 1) as (edit, read):
        for lines, cause in BEHIND_A_CUT:
            batch = CORNER + THIRD + lines
            if isinstance(cause, int):
                tests.same(f"{batch}", edit(batch), at_fault(0, batch.count(b"\n"), cause))
        tests.same("the map after the faults", read("/info"), (200, 0, info(0, 1, 2, 3, 10)))
    for lines, edges in BEHIND_A_CUT:
        if not isinstance(edges, int):
            with edited_map(tests, MAPS["two_squares"], 2) as (edit, read):
                batch, end = CORNER + THIRD + lines, " ".join(edges[0].split()[:2])
                tests.same(f"{batch}", edit(batch), published(1))
                beside = (1, 2, 0, f"10 0 20 0 20 10 {end}"), (2, 1, 2, f"10 0 {end}")
                wanted = slice_text([0, 0, 0], (0, 3, 0, edges[0]), *beside, (3, 1, 0, edges[1]), (4, 3, 1, edges[2]))
                tests.same(f"the slice after {batch}", read("/slice/0"), (200, 1, wanted))


# Batches of all kinds of lines, each on the map that the ones before it left; what comes of them is told by a plain program.
MIXED = [
    ("four_squares", [
        b"class 1 0\nmove 0 0 -3 -3\nadd -3 -3 10 0 4 -4\ndrop 20 0\nnode 4 -4\ncut 1 0 3 4 -4 3 5 10 10\nfuse 1 2\n",
        b"node 0 20\nnode 20 20\ncut 3 0 2 0 20 10 10\nmove 0 20 -2 22\nfuse 3 2\nadd 20 20 10 20 15 23\nnode 15 23\ndrop -3 -3\nclass 2 0\n",
        b"fuse 1 2\nfuse 1 3\n", b"fuse 1 2\n", b"drop 20 10\n", b"node 15 23\n",
    ]),
    ("two_squares", [
        # On the way there are borders that cross.
        b"move 10 10 30 30\nnode 0 0\ncut 1 0 2 0 0 30 30\nmove 30 30 10 10\nadd 0 0 10 10 4 6\nclass 3 0\nnode 4 6\nfuse 2 1\ndrop 20 0\n",
        # A cut over a border, which the check finds; and one over itself.
        b"node 0 0\nnode 0 10\ncut 1 0 3 0 0 15 5 0 10\n", b"node 20 0\nnode 20 10\ncut 1 0 5 20 0 12 6 18 6 12 1 20 10\n",
    ]),
    ("two_at_a_corner", [
        # Two squares with one corner in common: the walk passes the other one.
        b"node 0 0\ncut 1 0 2 0 0 10 10\nfuse 1 3\nnode 20 20\ncut 2 0 3 20 20 16 15 10 10\nmove 16 15 15 16\nadd 10 10 15 16 12 13\n"
        b"drop 15 16\nclass 3 0\n",
    ]),
    ("hole_with_face", [
        b"node 30 30\nnode 20 20\ncut 1 0 2 20 20 30 30\n",
        b"node 30 0\ncut 1 0 3 30 0 25 5 30 30\nadd 30 0 25 5 27 1\nmove 25 5 26 10\ndrop 0 30\nclass 3 0\nfuse 1 2\n",
    ]),
    ("of_two_classes", [
        b"fuse 1 2\nnode 0 0\ncut 1 1 2 10 10 0 0\nclass 4 0\nmove 10 10 11 11\nadd 11 11 0 0 5 6\ndrop 20 20\nfuse 4 3\n",
        b"cut 1 1 3 0 0 3 1 10 0\n", b"node 10 20\n", b"cut 1 1 2 5 6 10 0\n",
    ]),
]


def mixed(tests):
    for name, batches in MIXED:
        plain = PlainAnswers(0, read_listing(MAPS[name]))
        with edited_map(tests, MAPS[name]) as (edit, read):
            for batch in batches:
                made, why = plain.edited(batch)
                tests.same(f"{batch} on {name}", edit(batch), (422, plain.number, why) if why else published(plain.number + 1))
                plain = plain if why else PlainAnswers(plain.number + 1, made)
                for path in ("/info", "/slice/0"):
                    status, version, text = read(path)
                    tests.same(f"{path} after {batch}", (version, plain.is_read(path, status, text)), (plain.number, True))


def long_batches(tests):
    """The longest batch, of a cut and its fusion again and again; one that is at fault in its last line alone leaves all as it was."""
    again = DIAGONAL + JOIN
    end = b"fuse 1 4\n"
    batch = CORNER + again * ((BODY - len(CORNER) - len(end)) // len(again))
    lines = batch.count(b"\n")
    with edited_map(tests, MAPS["two_squares"]) as (edit, read):
        before = read("/slice/0")
        for last, cause in [(end, 2), (b"fuse 1 1\n", 13), (b"node 0 0\n", 6), (b"fuse 1 2", 1)]:
            tests.same(f"{lines} lines, and then {last}", edit(batch + last), at_fault(0, lines + 1, cause))
        tests.same("the map afterwards", read("/slice/0"), before)
        tests.same("the lines without the last one", edit(batch), published(1))
        tests.same("a node is left of them", read("/info"), (200, 1, info(1, 1, 2, 4, 11)))
        tests.same("the slice is as it was", read("/slice/0"), (200, 1, before[2]))


# ---- limits


def triangles(count):
    """The listing of a square that is cut in two, and of so many faces beside it, each inside one arc of four points."""
    arcs = ["1 0 3 4 4 0 4 0 0", "2 0 3 0 0 4 0 4 4", "1 2 2 0 0 4 4"]
    arcs += [f"{place} 0 4 {x} 0 {x + 2} 0 {x + 1} 2 {x} 0" for place, x in enumerate(range(6, 6 + 3 * count, 3), 3)]
    return listing(2 + count, arcs, ratio=0, version=2)


def polygon(arcs):
    """The listing of one face inside so many arcs: a level row of points, and one above the first. The first arc has one
    point of the row between its ends, and each other one is one segment."""
    ring = [*((x, 0) for x in range(arcs)), (0, 1)]
    ends = [ring[:3], *([a, b] for a, b in zip(ring[2:], [*ring[3:], ring[0]]))]
    return listing(1, [arc_text(1, 0, points) for points in ends], ratio=0, version=2)


def long_arc(count):
    """The listing of one face inside one arc of so many points: a level row, and a point above the first."""
    return listing(1, [arc_text(1, 0, [*((x, 0) for x in range(count - 2)), (0, 1), (0, 0)])], ratio=0, version=2)


# A map that has nearly as much as a map may have, and batches one after the other: each with the line at fault and the
# cause, or with the numbers of steps, faces, arcs and points.
FULL = {
    "faces": (lambda: triangles(MOST_FACES - 3), [
        (b"cut 1 0 3 0 0 1 3 4 4\n", (2, MOST_FACES, MOST_FACES + 1, 4 * MOST_FACES - 1)),
        (b"cut 1 0 3 0 0 1 2 4 4\n", (1, 11)), (b"node 0 4\ncut 2 0 3 0 0 3 1 4 4\n", (2, 11)),
        # It is told before anything of the points, and after the face and the class.
        (b"cut 1 0 2 0 0 0 0\n", (1, 11)), (b"cut 1 0 2 9 9 9 8\n", (1, 11)), (b"cut 1 1 2 0 0 0 0\n", (1, 2)),
        (b"cut %d 0 2 0 0 0 0\n" % (MOST_FACES + 1), (1, 2)),
        (b"fuse 1 %d\ncut 1 0 3 0 0 1 2 4 4\ncut 2 0 3 0 0 3 1 4 4\n" % MOST_FACES, (3, 11)),
        (b"fuse 1 %d\ncut 2 0 3 4 4 3 1 0 0\nnode 0 4\n" % MOST_FACES, (2, MOST_FACES, MOST_FACES + 2, 4 * MOST_FACES)),
    ]),
    "arcs": (lambda: polygon(MOST_ARCS - 1), [
        (b"cut 1 0 2 0 1 5 0\n", (1, 2, MOST_ARCS, 2 * MOST_ARCS + 1)),
        (b"node 1 0\n", (1, 11)), (b"cut 2 0 2 0 1 7 0\n", (1, 11)), (b"node 9 9\n", (1, 3)), (b"node 3 0\n", (1, 6)),
        (b"cut 2 0 3 0 1 0 1 0 1\n", (1, 11)),
        (b"fuse 1 2\nnode 1 0\n", (0, 1, MOST_ARCS, 2 * MOST_ARCS)),
        (b"cut 1 0 2 0 1 7 0\n", (1, 11)), (b"add 0 1 0 0 -1 0\nnode -1 0\n", (2, 11)),
    ]),
    "points": (lambda: long_arc(MOST_POINTS - 4), [
        (b"node 0 1\nnode 5 0\ncut 1 0 3 0 1 2 1 5 0\n", (3, 11)),
        (b"node 0 1\nnode 5 0\ncut 1 0 2 0 1 5 0\n", (1, 2, 4, MOST_POINTS)),
        (b"node 7 0\n", (1, 11)), (b"cut 2 0 2 5 0 0 1\n", (1, 11)), (b"add 0 1 0 0 -1 0\n", (1, 8)), (b"node 5 0\n", (1, 6)),
        (b"fuse 1 2\nnode 7 0\ncut 1 0 2 0 1 7 0\n", (3, 11)),
        (b"fuse 1 2\nnode 7 0\ndrop 9 0\ncut 1 0 2 0 1 7 0\n", (1, 2, 5, MOST_POINTS)),
    ]),
}


def of_a_full_map(kind):
    """The test of one of these maps."""

    def full_map(tests):
        data, batches = FULL[kind]
        with edited_map(tests, data()) as (edit, read):
            version = 0
            for batch, wanted in batches:
                if len(wanted) == 2:
                    tests.same(f"{batch}, of as many {kind} as a map may have", edit(batch), at_fault(version, *wanted))
                    continue
                version += 1
                tests.same(f"{batch}, where there is room for {kind}", edit(batch), published(version))
                tests.same(f"the counts after {batch}", read("/info"), (200, version, info(version, *wanted)))

    return full_map


def longest_cut(tests):
    """A cut of as many points as a line may have, in a zigzag; and its faces are fused again."""
    wide = MOST_CUT + 5000
    inner = b" ".join(b"%d %d" % (x, 4 + x % 2) for x in range(1, MOST_CUT - 1))
    with edited_map(tests, listing(1, [f"1 0 5 0 0 {wide} 0 {wide} 10 0 10 0 0"], ratio=0)) as (edit, read):
        batch = b"node %d 10\ncut 1 0 %d 0 0 %s %d 10\n" % (wide, MOST_CUT, inner, wide)
        tests.same("the longest cut", edit(batch), published(1))
        tests.same("the counts after the longest cut", read("/info"), (200, 1, info(1, 1, 2, 3, MOST_CUT + 6)))
        edges = (0, 1, 0, f"0 0 {wide} 0 {wide} 10"), (1, 2, 0, f"{wide} 10 0 10 0 0"), (2, 2, 1, f"0 0 {inner.decode()} {wide} 10")
        tests.same("the slice after the longest cut", read("/slice/0"), (200, 1, slice_text([0, 0], *edges)))
        tests.same("its fusion", edit(b"fuse 2 1\n"), published(2))
        tests.same("the counts after its fusion", read("/info"), (200, 2, info(2, 0, 1, 2, 6)))


TESTS = [worked, causes, behind_a_cut, mixed, long_batches, longest_cut, *map(of_a_full_map, FULL)]
