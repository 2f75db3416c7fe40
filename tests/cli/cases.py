"""What the program answers: words, exit status and text. The words stand between blanks, or in a list; a file has the name of its map. The answers
are worked out by hand from docs/rules.md and docs/formats.md."""

from maps import MAPS, two_squares_with

USAGE = ("usage: borders MAP STEP | check MAP [OBJECT RULES] | slice MAP STEP [OBJECT RULES] | packet MAP FROM TO [OBJECT RULES] | "
         "replay SLICE PACKET | grid N | serve MAP PORT WORKERS VERSIONS [OBJECT RULES] | keep MAP JOURNAL PORT WORKERS VERSIONS [OBJECT RULES]\n")


def text_of(first, *rows):
    return "\n".join([first, *rows, "end"]) + "\n"


def borders(step, *rows):
    """The borders text, from rows such as '0 1 0'."""
    return text_of(f"borders {step}", *(f"border {row}" for row in rows))


def slice_at(step, faces, *edges):
    """The slice text, from faces of class 0 and edges such as '0 1 0 2 10 0 10 10'."""
    return text_of(f"slice {step}", f"faces {len(faces)}", *(f"face {face} 0" for face in faces), f"edges {len(edges)}", *(f"edge {edge}" for edge in edges))


BORDERS = [
    ("borders no_faces 0", 0, borders(0)),
    ("borders one_square 0", 0, borders(0, "0 1 0")),
    ("borders two_squares 0", 0, borders(0, "0 1 0", "1 2 0", "2 1 2")),
    ("borders two_squares 1", 0, borders(1, "0 3 0", "1 3 0")),
    ("borders exchanged_sides 0", 0, borders(0, "0 1 0", "1 2 0", "2 2 1")),
    ("borders three_squares 0", 0, borders(0, "0 1 0", "1 2 0", "2 3 0", "3 2 0", "4 1 2", "5 2 3")),
    ("borders three_squares 1", 0, borders(1, "0 1 0", "1 4 0", "2 4 0", "3 4 0", "4 1 4")),
    ("borders three_squares 2", 0, borders(2, "0 5 0", "1 5 0", "2 5 0", "3 5 0")),
    ("borders four_squares 0", 0, borders(0, "0 1 0", "1 2 0", "2 4 0", "3 3 0", "4 1 2", "5 2 4", "6 4 3", "7 3 1")),
    ("borders four_squares 1", 0, borders(1, "0 5 0", "1 5 0", "2 4 0", "3 3 0", "5 5 4", "6 4 3", "7 3 5")),
    ("borders four_squares 2", 0, borders(2, "0 5 0", "1 5 0", "2 6 0", "3 6 0", "5 5 6", "7 6 5")),
    ("borders four_squares 3", 0, borders(3, "0 7 0", "1 7 0", "2 7 0", "3 7 0")),
    ("borders two_roots 2", 0, borders(2, "0 5 0", "1 6 0", "2 6 0", "3 5 0", "4 5 6", "6 6 5")),
    ("borders corner 0", 0, borders(0, "0 1 0", "1 2 0")),
    ("borders hole_with_face 0", 0, borders(0, "0 1 0", "1 2 1")),
    ("borders hole_with_face 1", 0, borders(1, "0 3 0")),
    ("borders hole 0", 0, borders(0, "0 1 0", "1 0 1")),
    ("borders spike 1", 0, borders(1, "0 4 0", "1 4 0", "3 3 0")),
    ("borders crossing 0", 0, borders(0, "0 1 0", "1 2 0")),
    (["borders", "a name with spaces", "1"], 0, borders(1, "0 3 0", "1 3 0")),
    ("borders carte_é 1", 0, borders(1, "0 3 0", "1 3 0")),
    ("borders ./two_squares 1", 0, borders(1, "0 3 0", "1 3 0")),
    ("borders two_squares 2", 5, "step too high 1\n"),
    ("borders two_squares 4294967295", 5, "step too high 1\n"),
    ("borders no_faces 1", 5, "step too high 0\n"),
    ("borders two_apart 1", 5, "step too high 0\n"),
    ("borders corner 1", 5, "step too high 0\n"),
    ("borders three_squares 3", 5, "step too high 2\n"),
    ("borders four_squares 4", 5, "step too high 3\n"),
    ("borders spike 2", 5, "step too high 1\n"),
    ("borders barred_squares 1", 5, "step too high 0\n"),
    ("borders two_roots 3", 5, "step too high 2\n"),
]

CHECK = [
    ("check no_faces", 0, "ok faces 0 arcs 0 points 0\n"),
    ("check one_square", 0, "ok faces 1 arcs 1 points 5\n"),
    ("check two_apart", 0, "ok faces 2 arcs 2 points 10\n"),
    ("check two_squares", 0, "ok faces 2 arcs 3 points 10\n"),
    ("check three_squares", 0, "ok faces 3 arcs 6 points 16\n"),
    ("check four_squares", 0, "ok faces 4 arcs 8 points 20\n"),
    ("check corner", 0, "ok faces 2 arcs 2 points 10\n"),
    ("check hole_with_face", 0, "ok faces 2 arcs 2 points 10\n"),
    ("check hole", 0, "ok faces 1 arcs 2 points 10\n"),
    ("check spike", 0, "ok faces 3 arcs 4 points 15\n"),
    ("check two_squares_2", 0, "ok faces 2 arcs 3 points 10\n"),
    ("check widest", 0, "ok faces 1 arcs 1 points 4\n"),
    ("check widest_1", 0, "ok faces 1 arcs 1 points 4\n"),
    ("check longest", 0, "ok faces 1 arcs 1 points 524288\n"),
    ("check longest_1", 0, "ok faces 1 arcs 1 points 131072\n"),
    ("check crossing", 4, "refused 15 meets 0 1 125 125 50\n"),
    ("check touching", 4, "refused 15 meets 0 1 250 0 50\n"),
    ("check overlapping", 4, "refused 15 meets 0 1 14 0 2\n"),
    ("check exchanged_sides", 4, "refused 16 node 10 0 0 1 2 1\n"),
    ("check open_arc", 4, "refused 16 node 0 0 0 0 1 0\n"),
    ("check nested", 4, "refused 17 stack 10 1 1 0\n"),
    ("check inside_out", 4, "refused 17 stack 0 0 0 1\n"),
    ("check touching_a_bend", 4, "refused 15 meets 0 2 100 100 20\n"),
    ("check crossing_at_bends", 4, "refused 15 meets 0 2 250 250 50\n"),
    ("check there_and_back", 4, "refused 15 meets 0 1 5 5 2\n"),
]

SLICE = [
    ("slice no_faces 0", 0, slice_at(0, [])),
    ("slice two_squares_ratio_0 0", 0, slice_at(0, [1, 2], "0 1 0 4 10 10 0 10 0 0 10 0", "1 2 0 4 10 0 20 0 20 10 10 10", "2 1 2 2 10 0 10 10")),
    ("slice two_squares_ratio_0 1", 0, slice_at(1, [3], "0 3 0 7 10 10 0 10 0 0 10 0 20 0 20 10 10 10")),
    ("slice hole_with_face 0", 0, slice_at(0, [1, 2], "0 1 0 5 0 0 30 0 30 30 0 30 0 0", "1 2 1 5 10 10 20 10 20 20 10 20 10 10")),
    ("slice hole_with_face 1", 0, slice_at(1, [3], "0 3 0 5 0 0 30 0 30 30 0 30 0 0")),
    ("slice one_square 0", 0, slice_at(0, [1], "0 1 0 5 0 0 10 0 10 10 0 10 0 0")),
    ("slice corner 0", 0, slice_at(0, [1, 2], "0 1 0 5 10 10 0 10 0 0 10 0 10 10", "1 2 0 5 10 10 20 10 20 20 10 20 10 10")),
    ("slice two_squares 0", 0, slice_at(0, [1, 2], "0 1 0 4 10 10 0 10 0 0 10 0", "1 2 0 4 10 0 20 0 20 10 10 10", "2 1 2 2 10 0 10 10")),
    ("slice two_squares 1", 0, slice_at(1, [3], "0 3 0 6 10 10 0 10 0 0 20 0 20 10 10 10")),
    ("slice spike_with_island 1", 0, slice_at(1, [3, 4], "0 4 0 7 40 40 0 40 4 20 0 0 60 0 60 40 40 40", "3 3 0 4 1 20 2 20 1 21 1 20")),
    ("slice spike_without_island 1", 0, slice_at(1, [3], "0 3 0 6 40 40 0 40 0 0 60 0 60 40 40 40")),
    ("slice triangles 1", 0, slice_at(1, [3], "0 3 0 4 6 6 0 0 12 0 6 6")),
    ("slice no_faces 1", 5, "step too high 0\n"),
    ("slice one_square 1", 5, "step too high 0\n"),
    ("slice two_squares 2", 5, "step too high 1\n"),
    ("slice two_apart 1", 5, "step too high 0\n"),
    ("slice corner 1", 5, "step too high 0\n"),
    ("slice two_squares_ratio_0 2", 5, "step too high 1\n"),
    ("slice two_squares_ratio_0 4294967295", 5, "step too high 1\n"),
    ("slice four_squares 4", 5, "step too high 3\n"),
    # A compatibility of 0 forbids a merge.
    ("slice barred_squares 1", 5, "step too high 0\n"),
    ("slice one_way_squares 0", 0, text_of("slice 0", "faces 2", "face 1 1", "face 2 0", "edges 3", "edge 0 1 0 4 10 10 0 10 0 0 10 0",
                                           "edge 1 2 0 4 10 0 20 0 20 10 10 10", "edge 2 1 2 2 10 0 10 10")),
    ("slice one_way_squares 1", 0, text_of("slice 1", "faces 1", "face 3 1", "edges 1", "edge 0 3 0 6 10 10 0 10 0 0 20 0 20 10 10 10")),
    ("slice one_way_squares 2", 5, "step too high 1\n"),
    ("slice two_roots 2", 0, text_of("slice 2", "faces 2", "face 5 0", "face 6 1", "edges 3", "edge 0 5 0 5 10 20 0 20 0 10 0 0 10 0",
                                     "edge 1 6 0 5 10 0 20 0 20 10 20 20 10 20", "edge 4 5 6 3 10 0 10 10 10 20")),
    # The ratio is told before a step that is too high, and after a fault of the map.
    ("slice crossing 0", 4, "refused 15 meets 0 1 125 125 50\n"),
    ("slice exchanged_sides 0", 4, "refused 16 node 10 0 0 1 2 1\n"),
    ("slice nested 9", 4, "refused 17 stack 10 1 1 0\n"),
]

# The generated maps. Of one row there is nothing to merge; that of forty rows was counted by an independent program.
GRID = [
    ("grid 1", 0, "grid 1 faces 1 arcs 4 points 12 steps 0 removed 0 edges 1 kept 9 replayed 1 9\n"),
    ("grid 40", 0, "grid 40 faces 1600 arcs 3280 points 9840 steps 1599 removed 3546 edges 1 kept 6 replayed 3276 9836\n"),
]

# Lines in place of a line of the two squares, and the fault that is told then. Each command tells it.
BAD_LINES = [
    (1, b"tgap 3", "18 bad-line 1"),
    (1, b"tgap 0", "18 bad-line 1"),
    (1, b"tgap 02", "18 bad-line 1"),
    (1, b"tgap", "18 bad-line 1"),
    (1, b"tgap 1 2", "18 bad-line 1"),
    (1, b"tgap 2 2", "18 bad-line 1"),
    (1, b"tgap 1\r", "18 bad-line 1"),
    (1, b"\xff\xfe", "18 bad-line 1"),
    (2, b"transform 1 1 0", "18 bad-line 2"),
    (2, b"transform 1 1 0 2147483648", "18 bad-line 2"),
    (3, b"ratio 016", "18 bad-line 3"),
    (3, b"ratio 65536", "18 bad-line 3"),
    (3, b"ratio  16", "18 bad-line 3"),
    (4, b"classes 0", "18 bad-line 4"),
    (4, b"classes 257", "9 limit classes 257"),
    (4, b"classes 99999999999999999999999999", "18 bad-line 4"),
    (5, b"class 0 0 1", "18 bad-line 5"),
    (5, b"class 0 1 1001", "18 bad-line 5"),
    (5, b"class 0 1 1 1", "18 bad-line 5"),
    (6, b"faces 32769", "9 limit faces 32769"),
    (6, b"faces 4294967296", "18 bad-line 6"),
    (7, b"face  1 0", "18 bad-line 7"),
    (8, b"face 2 1", "18 bad-line 8"),
    (8, b"face 3 0", "18 bad-line 8"),
    (9, b"arcs 65537", "9 limit arcs 65537"),
    (10, b"arc 1 1 4 10 10 0 10 0 0 10 0", "18 bad-line 10"),
    (10, b"arc 1 3 4 10 10 0 10 0 0 10 0", "18 bad-line 10"),
    (10, b"arc 1 0 4 10 10 0 10 0 10 10 0", "18 bad-line 10"),
    (10, b"arc 1 0 4 10 10 0 10 0 0 +10 0", "18 bad-line 10"),
    (10, b"arc 1 0 131073", "9 limit points 131073"),
    (11, b"arc 2 0 131069 and more", "9 limit points 131073"),
    (10, b"arc 1 0 2 268435457 0 0 0", "18 bad-line 10"),
    (11, b"arc 2 0 4 10 0 10 0 20 10 10 10", "18 bad-line 11"),
    (11, b"arc 2 0 4 10 0 20 0 20 10 10 10 ", "18 bad-line 11"),
    (12, b"arc 1 2 2 10 0 10 +10", "18 bad-line 12"),
    (12, b"arc 1 0 1 10 0", "18 bad-line 12"),
    (13, b"end ", "18 bad-line 13"),
    (13, b"end\nend", "18 bad-line 14"),
    (13, b"", "18 bad-line 13"),
]

# The same in the two squares of version 2: what is too much for version 1 alone is in form.
BAD_LINES_2 = [
    (3, b"ratio 016", "18 bad-line 3"),
    (10, b"arc 1 0 131073", "18 bad-line 10"),
    (10, b"arc 1 0 524288", "18 bad-line 10"),
    (10, b"arc 1 0 524289", "9 limit points 524289"),
    (11, b"arc 2 0 524285 and more", "9 limit points 524289"),
    (10, b"arc 1 0 2 2147483648 0 0 0 0", "18 bad-line 10"),
    (10, b"arc 1 0 2 2147483649 0 0 0", "18 bad-line 10"),
    (10, b"arc 1 0 2 0 -2147483649 0 0", "18 bad-line 10"),
]

FILES = [
    ("empty", 4, "refused 18 bad-line 1\n"),
    ("cut", 4, "refused 18 bad-line 13\n"),
    ("cut_line", 4, "refused 18 bad-line 13\n"),
    ("more", 4, "refused 18 bad-line 14\n"),
    ("too_wide", 4, "refused 18 bad-line 9\n"),
    ("too_wide_1", 4, "refused 18 bad-line 9\n"),
    ("widest_in_version_1", 4, "refused 18 bad-line 9\n"),
    ("too_many_points", 4, "refused 9 limit points 524289\n"),
    ("too_many_points_1", 4, "refused 9 limit points 131073\n"),
    ("version_3", 4, "refused 18 bad-line 1\n"),
    ("lonely_face", 4, "refused 18 bad-line 9\n"),
    ("blanks", 4, "refused 18 bad-line 1\n"),
    ("too_long", 4, "refused 20 input-long 16777216\n"),
    ("none", 3, "load fault map\n"),
    ("none/two_squares", 3, "load fault map\n"),
    ("two_squares/none", 3, "load fault map\n"),
    ("folder", 3, "load fault map\n"),
    (".", 3, "load fault map\n"),
    ("", 3, "load fault map\n"),
    ("/dev/null", 4, "refused 18 bad-line 1\n"),
    # It never ends, so that the limit must end the reading.
    ("/dev/zero", 4, "refused 20 input-long 16777216\n"),
    # Its first read fails, which is no end of file.
    ("/proc/self/mem", 3, "load fault map\n"),
]
for version, bad in ((1, BAD_LINES), (2, BAD_LINES_2)):
    for number, (place, line, fault) in enumerate(bad):
        MAPS[f"bad_{version}_{number}"] = two_squares_with(place, line, version)
        FILES.append((f"bad_{version}_{number}", 4, f"refused {fault}\n"))
# A listing that ends early is refused at the line in which it ends.
CUTS = []
for end in range(len(MAPS["two_squares"])):
    front = MAPS["two_squares"][:end]
    MAPS[f"cut_at_{end}"] = front
    CUTS.append((f"check cut_at_{end}", 4, "refused 18 bad-line {}\n".format(front.count(b"\n") + 1)))
ANY_FILE = [case for name, status, text in FILES for case in ((["check", name], status, text), (["borders", name, "0"], status, text), (["slice", name, "0"], status, text))]

NO_COMMAND = [(words, 2, USAGE) for words in [
    "", "borders", "check", "borders two_squares", "borders two_squares 1 2", "borders 1 two_squares", "check two_squares 1",
    "check two_squares land rules more", "slice two_squares 0 land", "slice two_squares 0 land rules more", "slice two_squares land rules 0", "borders two_squares 0 land rules",
    "slice", "slice two_squares_ratio_0", "slice two_squares_ratio_0 0 0", "slice two_squares_ratio_0 00", "slice 0 two_squares_ratio_0",
    "grid", "grid 0", "grid 148", "grid 01", "grid -1", "grid 1 1", "grid two_squares", "Grid 1", ["grid", ""], ["grid", "1 "], ["grid", "1", ""],
    "serve", "serve two_squares 8080 2", "serve two_squares 8080 0 4", "serve two_squares 8080 17 4", "serve two_squares 8080 2 0", "serve two_squares 8080 2 65",
    "serve two_squares 0 2 4", "serve two_squares 65536 2 4", "serve two_squares 8080 2 4 land", "Serve two_squares 8080 2 4",
    "keep", "keep two_squares journal 8080 2", "keep two_squares 8080 2 4", "keep two_squares journal 8080 2 4 land", "keep two_squares journal 8080 2 4 land rules more",
    "keep two_squares journal 0 2 4", "keep two_squares journal 8080 17 4", "keep two_squares journal 8080 2 65", "Keep two_squares journal 8080 2 4",
    "Borders two_squares 1", "Check two_squares", "Slice two_squares_ratio_0 0", "borders two_squares 01", "borders two_squares -1", "borders two_squares +1",
    "borders two_squares 1.0", "borders two_squares 4294967296", "borders two_squares 99999999999999999999", "two_squares", "help", "--help",
    [""], ["check", "two_squares", ""], ["borders", "two_squares", ""], ["borders", "two_squares", " 1"], ["borders", "two_squares", "1\n"],
    [" check", "two_squares"], [b"check", b"\xff"], [b"\xff", b"two_squares"], [b"borders", b"two_squares", b"\xff"],
    [b"check", b"two_squares\xc3"], ["check", *["two_squares"] * 1000],
]]

# What is said of journals is tested by tests/keep; here the map is loaded before one is made.
KEEP = [
    ("keep none journal 8080 2 4", 3, "load fault map\n"),
    ("keep crossing journal 8080 2 4", 4, "refused 15 meets 0 1 125 125 50\n"),
    ("keep two_squares two_squares 8080 2 4", 3, "load fault journal\n"),
    ("keep two_squares folder 8080 2 4", 3, "load fault journal\n"),
    ("keep two_squares none/journal 8080 2 4", 3, "load fault journal\n"),
]

CASES = [*BORDERS, *CHECK, *SLICE, *GRID, *ANY_FILE, *CUTS, *NO_COMMAND, *KEEP]
