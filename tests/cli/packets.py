"""Packets of the worked maps, and what comes of packets that are replayed on slices, worked out by hand from docs/rules.md and docs/formats.md."""
from cases import USAGE, slice_at, text_of

LONG = b" " * 67108865

FILES = {}
CASES = []


def packet(first, last, *rows):
    """The packet text, from the lines of its records."""
    return text_of(f"packet {first} {last}", *rows)


def file(text):
    """The name of a file with this text."""
    name = f"text_{len(FILES)}"
    FILES[name] = text if isinstance(text, bytes) else text.encode()
    return name


def replayed(slice_text, packet_text, status, answer):
    CASES.append((["replay", file(slice_text), file(packet_text)], status, answer))


# ---- two squares, of which a vertex is removed

TWO_COARSE = slice_at(1, [3], "0 3 0 6 10 10 0 10 0 0 20 0 20 10 10 10")
TWO_FINE = slice_at(0, [1, 2], "0 1 0 4 10 10 0 10 0 0 10 0", "1 2 0 4 10 0 20 0 20 10 10 10", "2 1 2 2 10 0 10 10")
TWO_ROWS = ["step 1 1 0 2 0 3 1 1", "mend 0 1 2", "put 3 10 0", "piece 0 3 1 0", "piece 1 6 2 0", "edge 2 1 2 2 10 0 10 10"]
TWO_PACKET = packet(1, 0, *TWO_ROWS)

# ---- a hole with a face in it

HOLE_COARSE = slice_at(1, [3], "0 3 0 5 0 0 30 0 30 30 0 30 0 0")
HOLE_FINE = slice_at(0, [1, 2], "0 1 0 5 0 0 30 0 30 30 0 30 0 0", "1 2 1 5 10 10 20 10 20 20 10 20 10 10")
HOLE_PACKET = packet(1, 0, "step 1 2 0 1 0 3 0 1", "edge 1 2 1 5 10 10 20 10 20 20 10 20 10 10")

# ---- two triangles, whose outer border begins in the middle of it

TRIANGLES_COARSE = slice_at(1, [3], "0 3 0 4 6 6 0 0 12 0 6 6")
TRIANGLES_FINE = slice_at(0, [1, 2], "0 1 0 3 0 0 12 0 6 6", "1 2 0 3 6 6 0 12 0 0", "2 2 1 2 0 0 6 6")
TRIANGLES_PACKET = packet(1, 0, "step 1 1 0 2 0 3 1 1", "mend 0 1 2", "put 1 0 12", "piece 1 2 2 0", "piece 0 4 1 0", "edge 2 2 1 2 0 0 6 6")

# ---- four squares round one node, in three steps

FOUR_SLICES = [
    slice_at(0, [1, 2, 3, 4], "0 1 0 3 0 10 0 0 10 0", "1 2 0 3 10 0 20 0 20 10", "2 4 0 3 20 10 20 20 10 20", "3 3 0 3 10 20 0 20 0 10",
             "4 1 2 2 10 0 10 10", "5 2 4 2 20 10 10 10", "6 4 3 2 10 20 10 10", "7 3 1 2 0 10 10 10"),
    slice_at(1, [3, 4, 5], "0 5 0 5 0 10 0 0 10 0 20 0 20 10", "2 4 0 3 20 10 20 20 10 20", "3 3 0 3 10 20 0 20 0 10",
             "5 5 4 2 20 10 10 10", "6 4 3 2 10 20 10 10", "7 3 5 2 0 10 10 10"),
    slice_at(2, [5, 6], "0 5 0 5 0 10 0 0 10 0 20 0 20 10", "2 6 0 5 20 10 20 20 10 20 0 20 0 10", "5 5 6 3 20 10 10 10 0 10"),
    slice_at(3, [7], "0 7 0 9 20 10 20 20 10 20 0 20 0 10 0 0 10 0 20 0 20 10"),
]
FOUR_ROWS = {
    3: ["step 3 5 0 6 0 7 1 1", "mend 0 0 2", "piece 2 4 6 0", "piece 0 8 5 0", "edge 5 5 6 3 20 10 10 10 0 10"],
    2: ["step 2 3 0 4 0 6 2 1", "mend 2 0 2", "piece 2 2 4 0", "piece 3 4 3 0", "mend 5 0 2", "piece 5 1 4 0", "piece 7 2 3 1", "edge 6 4 3 2 10 20 10 10"],
    1: ["step 1 1 0 2 0 5 2 1", "mend 0 0 2", "piece 0 2 1 0", "piece 1 4 2 0", "mend 7 0 1", "piece 7 1 1 0", "edge 4 1 2 2 10 0 10 10"],
}


def four_packet(first, last):
    return packet(first, last, *(row for step in range(first, last, -1) for row in FOUR_ROWS[step]))


CASES += [
    *((f"slice four_squares {step}", 0, text) for step, text in enumerate(FOUR_SLICES)),
    ("packet two_squares 1 0", 0, TWO_PACKET),
    ("packet two_squares 1 1", 0, packet(1, 1)),
    ("packet two_squares 0 0", 0, packet(0, 0)),
    ("packet no_faces 0 0", 0, packet(0, 0)),
    ("packet one_square 0 0", 0, packet(0, 0)),
    ("packet hole_with_face 1 0", 0, HOLE_PACKET),
    ("packet triangles 1 0", 0, TRIANGLES_PACKET),
    ("packet one_way_squares 1 0", 0, packet(1, 0, "step 1 2 0 1 1 3 1 1", *TWO_ROWS[1:])),
    ("packet barred_squares 1 0", 5, "step too high 0\n"),
    (["packet", "topology_0", "1", "0", "land", "rules_0"], 0, packet(1, 0, "step 1 1 0 2 1 3 1 1", *TWO_ROWS[1:])),
    *((f"packet four_squares {first} {last}", 0, four_packet(first, last)) for first in range(4) for last in range(first + 1)),
    # A step to go to that is above the other is told before one that is too high, and both after a fault of the map.
    ("packet two_squares 0 1", 5, "not coarser 0 1\n"),
    ("packet two_squares 5 9", 5, "not coarser 5 9\n"),
    ("packet two_squares 0 4294967295", 5, "not coarser 0 4294967295\n"),
    ("packet two_squares 2 0", 5, "step too high 1\n"),
    ("packet two_squares 2 2", 5, "step too high 1\n"),
    ("packet four_squares 4 3", 5, "step too high 3\n"),
    ("packet two_apart 4294967295 4294967295", 5, "step too high 0\n"),
    ("packet crossing 0 1", 4, "refused 15 meets 0 1 125 125 50\n"),
    ("packet nested 9 0", 4, "refused 17 stack 10 1 1 0\n"),
    ("packet cut 1 0", 4, "refused 18 bad-line 13\n"),
    ("packet none 1 0", 3, "load fault map\n"),
    (["packet", "topology_0", "1", "0", "land", "none"], 3, "load fault rules\n"),
]

# ---- packets that are replayed

replayed(TWO_COARSE, TWO_PACKET, 0, TWO_FINE)
replayed(HOLE_COARSE, HOLE_PACKET, 0, HOLE_FINE)
replayed(TRIANGLES_COARSE, TRIANGLES_PACKET, 0, TRIANGLES_FINE)
for first in range(4):
    for last in range(first + 1):
        replayed(FOUR_SLICES[first], four_packet(first, last), 0, FOUR_SLICES[last])

# ---- records that do not fit: the first of them, and the least rule


def changed(text, old, new):
    assert text.count(old) == 1, (text, old)
    return text.replace(old, new)


replayed(slice_at(0, [1], "0 1 0 5 0 0 10 0 10 10 0 10 0 0"), TWO_PACKET, 9, "unfit step 1 rule 1\n")
replayed(TWO_COARSE, packet(5, 5), 9, "unfit step 5 rule 1\n")
replayed(TWO_COARSE, packet(2, 1, "step 2 1 0 2 0 3 0 0"), 9, "unfit step 2 rule 1\n")
replayed(changed(TWO_COARSE, "face 3 0", "face 4 0"), TWO_PACKET, 9, "unfit step 1 rule 2\n")
replayed(changed(TWO_COARSE, "face 3 0", "face 3 1"), TWO_PACKET, 9, "unfit step 1 rule 2\n")
replayed(TWO_COARSE, changed(TWO_PACKET, "mend 0", "mend 1"), 9, "unfit step 1 rule 3\n")
replayed(TWO_COARSE, changed(TWO_PACKET, "put 3 10 0", "put 3 0 0"), 9, "unfit step 1 rule 4\n")
replayed(HOLE_COARSE, TWO_PACKET, 9, "unfit step 1 rule 5\n")
replayed(TWO_COARSE, changed(TWO_PACKET, "edge 2 1 2", "edge 2 1 0"), 9, "unfit step 1 rule 6\n")
replayed(TWO_COARSE, changed(TWO_PACKET, "edge 2 1 2", "edge 0 1 2"), 9, "unfit step 1 rule 7\n")
replayed(FOUR_SLICES[3], changed(four_packet(3, 0), "mend 5", "mend 9"), 9, "unfit step 2 rule 3\n")
replayed(FOUR_SLICES[3], changed(four_packet(3, 1), "edge 6 4 3", "edge 6 4 5"), 9, "unfit step 2 rule 6\n")

# ---- texts that are none, that of the slice before that of the packet

for cut, line in [(TWO_FINE[: -len("end\n")], 9), (TWO_FINE[:-1], 9), (TWO_FINE + "end\n", 10), ("", 1), (TWO_PACKET, 1), (LONG[1:], 1),
                  (changed(TWO_FINE, "face 2 0", "face 1 0"), 4), (changed(TWO_FINE, "edge 2", "edge 1"), 8), (changed(TWO_FINE, "2 10 0 10 10", "2 10 0 10 0"), 8)]:
    replayed(cut, "", 9, f"unfit slice line {line}\n")
for cut, line in [(TWO_PACKET[: -len("end\n")], 8), (TWO_PACKET[:-1], 8), (TWO_PACKET + "end\n", 9), ("", 1), (TWO_COARSE, 1), (LONG[1:], 1),
                  (changed(TWO_PACKET, "packet 1 0", "packet 0 1"), 1), (changed(TWO_PACKET, "step 1", "step 2"), 2),
                  (changed(TWO_PACKET, "piece 1 6 2 0", "piece 1 6 2 2"), 6), (packet(2, 0, *TWO_ROWS), 2)]:
    replayed(TWO_COARSE, cut, 9, f"unfit packet line {line}\n")

for text, line in [("slice 00\nfaces 0\nedges 0\nend\n", 1), ("slice 0\nfaces 1\nface 0 0\nedges 0\nend\n", 3),
                   ("slice 0\nfaces 4294967295\nface 1 0\nedges 0\nend\n", 4), ("slice 0\nfaces 0\nedges 1\nedge 0 1 0 4294967295 0 0\nend\n", 4),
                   ("slice 0\nfaces 0\nedges 1\nedge 0 1 0 2 0 0 0 2147483649\nend\n", 4)]:
    replayed(text, "", 9, f"unfit slice line {line}\n")
for rows, line in [([], 2), (["step 1 1 4 2 5 3 1 0"], 3), (["step 1 1 4 2 5 3 1 0", "mend 0 4294967295 1", "put 1 0 10"], 5),
                   (["step 1 1 4 2 5 3 1 0", "mend 0 1 0", "put 1 0"], 4), (["step 1 1 4 2 5 3 1 0", "mend 0 0 1", "piece 0 2 6 2"], 4),
                   (["step 1 1 4 2 5 3 0 1", "edge 2 1 2 1 10 0"], 3), (["step 1 1 4 2 5 3 0 1", "edge 2 1 2 2 10 0 10 9 "], 3)]:
    replayed(TWO_COARSE, packet(1, 0, *rows), 9, f"unfit packet line {line}\n")

# ---- the order of loads, and words

slice_file, packet_file, long_file = file(TWO_COARSE), file(TWO_PACKET), file(LONG)
CASES += [
    (["replay", "none", "none"], 3, "load fault slice\n"),
    (["replay", "none", long_file], 3, "load fault slice\n"),
    (["replay", slice_file, "none"], 3, "load fault packet\n"),
    (["replay", packet_file, "none"], 3, "load fault packet\n"),
    (["replay", long_file, "none"], 4, "refused 20 input-long 67108864\n"),
    (["replay", slice_file, long_file], 4, "refused 20 input-long 67108864\n"),
    (["replay", packet_file, long_file], 4, "refused 20 input-long 67108864\n"),
    (["replay", "/dev/zero", packet_file], 4, "refused 20 input-long 67108864\n"),
    (["replay", slice_file, "/dev/zero"], 4, "refused 20 input-long 67108864\n"),
    *((words, 2, USAGE) for words in [
        "packet", "packet two_squares", "packet two_squares 1", "packet two_squares 1 0 land", "packet two_squares 1 0 land rules_0 more",
        "packet two_squares 01 0", "packet two_squares 1 00", "packet two_squares 1 -1", "packet two_squares 4294967296 0",
        "packet two_squares 1 4294967296", "packet 1 0 two_squares", "Packet two_squares 1 0", "replay", "replay text_0", "replay text_0 text_1 land",
        "replay text_0 text_1 land rules_0", "Replay text_0 text_1", ["replay", "text_0", b"\xff"],
    ]),
]
