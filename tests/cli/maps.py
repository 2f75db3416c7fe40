"""Worked maps, each as the bytes of its listing, and large ones that are made by a rule."""
from lib import listing

SQUARE = "0 0 10 0 10 10 0 10 0 0"
LARGE_SQUARE = "0 0 30 0 30 30 0 30 0 0"
INNER_SQUARE = "10 10 20 10 20 20 10 20 10 10"
MOST, MOST_1 = 2147483648, 268435456  # the greatest coordinates of a map, and of a listing of version 1
MOST_POINTS, MOST_POINTS_1 = 524288, 131072  # and the greatest numbers of points


def triangle(most, right):
    """An arc round a triangle that is as wide as coordinates up to this one allow, with another one at its right corner."""
    return f"1 0 4 -{most} -{most} {right} -{most} 0 {most} -{most} -{most}"


def row_of(count):
    """A closed arc of this many points: a level row of them from (0,0) on, and one above the first."""
    row = " ".join(f"{x} 0" for x in range(count - 2))
    return f"1 0 {count} {row} 0 1 0 0"


def with_line(text, number, line):
    """A text with another line in place of the one with this number, counted from 1."""
    lines = text.split(b"\n")
    lines[number - 1] = line
    return b"\n".join(lines)


TWO_SQUARES = ["1 0 4 10 10 0 10 0 0 10 0", "2 0 4 10 0 20 0 20 10 10 10", "1 2 2 10 0 10 10"]
SPIKE = ["1 0 5 40 40 0 40 4 20 0 0 40 0", "2 0 4 40 0 60 0 60 40 40 40", "1 2 2 40 0 40 40", "3 0 4 1 20 2 20 1 21 1 20"]
FOUR_SQUARES = ["1 0 3 0 10 0 0 10 0", "2 0 3 10 0 20 0 20 10", "4 0 3 20 10 20 20 10 20", "3 0 3 10 20 0 20 0 10",
                "1 2 2 10 0 10 10", "2 4 2 20 10 10 10", "4 3 2 10 20 10 10", "3 1 2 0 10 10 10"]
THREE_SQUARES = ["1 0 4 10 10 0 10 0 0 10 0", "2 0 2 10 0 20 0", "3 0 4 20 0 30 0 30 10 20 10", "2 0 2 20 10 10 10",
                 "1 2 2 10 0 10 10", "2 3 2 20 0 20 10"]

MAPS = {
    # sound maps
    "no_faces": listing(0, [], ratio=0),
    "one_square": listing(1, [f"1 0 5 {SQUARE}"]),
    "two_apart": listing(2, [f"1 0 5 {SQUARE}", "2 0 5 20 0 30 0 30 10 20 10 20 0"]),
    "two_squares": listing(2, TWO_SQUARES),
    "two_squares_ratio_0": listing(2, TWO_SQUARES, ratio=0),
    "barred_squares": listing(2, TWO_SQUARES, classes=("1 0",)),
    "one_way_squares": listing(2, TWO_SQUARES, classes=("1 0 1", "1 0 0"), class_of={1: 1}),
    "two_roots": listing(4, FOUR_SQUARES, ratio=0, classes=("1 1 0", "1 0 1"), class_of={2: 1, 4: 1}),
    "three_squares": listing(3, THREE_SQUARES, classes=("3 1 1", "1 1 5"), class_of={2: 1, 3: 1}),
    "four_squares": listing(4, FOUR_SQUARES, ratio=0),
    "corner": listing(2, ["1 0 5 10 10 0 10 0 0 10 0 10 10", f"2 0 5 {INNER_SQUARE}"]),
    "hole_with_face": listing(2, [f"1 0 5 {LARGE_SQUARE}", f"2 1 5 {INNER_SQUARE}"], ratio=0),
    "hole": listing(1, [f"1 0 5 {LARGE_SQUARE}", f"0 1 5 {INNER_SQUARE}"]),
    "spike": listing(3, SPIKE),
    "spike_with_island": listing(3, SPIKE, ratio=10),
    "spike_without_island": listing(2, SPIKE[:3], ratio=10),
    "triangles": listing(2, ["1 0 3 0 0 12 0 6 6", "2 0 3 6 6 0 12 0 0", "2 1 2 0 0 6 6"], ratio=1),
    "two_squares_2": listing(2, TWO_SQUARES, version=2),
    "widest": listing(1, [triangle(MOST, MOST)], version=2),
    "widest_1": listing(1, [triangle(MOST_1, MOST_1)]),
    "longest": listing(1, [row_of(MOST_POINTS)], version=2),
    "longest_1": listing(1, [row_of(MOST_POINTS_1)]),
    # maps that are no planar partition
    "crossing": listing(2, ["1 0 2 0 0 5 5", "2 0 2 0 5 5 0"]),
    "touching": listing(2, ["1 0 2 0 0 10 0", "2 0 2 5 0 5 5"]),
    "overlapping": listing(2, ["1 0 2 0 0 10 0", "2 0 2 14 0 4 0"]),
    "exchanged_sides": listing(2, [*TWO_SQUARES[:2], "2 1 2 10 0 10 10"]),
    "open_arc": listing(1, ["1 0 2 0 0 5 5"]),
    "nested": listing(2, [f"1 0 5 {LARGE_SQUARE}", f"2 0 5 {INNER_SQUARE}"]),
    "inside_out": listing(1, ["0 1 4 0 0 10 0 0 10 0 0"]),
    "touching_a_bend": listing(2, ["1 0 3 0 0 5 5 10 10", "2 0 2 5 5 5 9"]),
    "crossing_at_bends": listing(2, ["1 0 3 0 0 5 5 10 10", "2 0 3 0 10 5 5 10 0"]),
    "there_and_back": listing(1, ["1 0 3 0 0 5 5 0 0"]),
    # files that are the listing of no base map
    "empty": b"",
    "blanks": b" " * 16777216,
    "too_long": b" " * 16777217,
    "too_wide": listing(1, [triangle(MOST, MOST + 1)], version=2),
    "too_wide_1": listing(1, [triangle(MOST_1, MOST_1 + 1)]),
    "widest_in_version_1": listing(1, [triangle(MOST, MOST)]),
    "too_many_points": listing(1, [row_of(MOST_POINTS + 1)], version=2),
    "too_many_points_1": listing(1, [row_of(MOST_POINTS_1 + 1)]),
    "version_3": listing(1, [f"1 0 5 {SQUARE}"], version=3),
    "lonely_face": listing(1, []),
}
MAPS["cut"] = MAPS["two_squares"][: -len(b"end\n")]
MAPS["cut_line"] = MAPS["two_squares"][:-1]
MAPS["more"] = MAPS["two_squares"] + b"\n"
MAPS["a name with spaces"] = MAPS["carte_é"] = MAPS["two_squares"]


def two_squares_with(number, line, version=1):
    """The listing of the two squares, with another line in place of the one with this number."""
    return with_line(MAPS["two_squares" if version == 1 else "two_squares_2"], number, line)


def crossing_lines(count):
    """A listing of this many arcs: arc A runs down between two of the longest points, with face A / 2 + 1 at its left
    and nothing at its right. Every two of them meet, and no two faces are neighbours. With 65,536 arcs it is near all
    limits, and about 4 MB long."""
    high, low = f"-{MOST} {MOST - 1}", f"-{MOST - 1} -{MOST}"
    return listing(count // 2, [f"{arc // 2 + 1} 0 2 {high} {low}" for arc in range(count)], version=2)


def large_borders():
    """The borders of the large map before any step."""
    rows = "".join(f"border {arc} {arc // 2 + 1} 0\n" for arc in range(65536))
    return f"borders 0\n{rows}end\n".encode()
