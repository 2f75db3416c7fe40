"""Worked topologies and rules files, and what the program answers of them, worked out by hand from docs/rules.md and docs/formats.md."""
import copy
import json

# Two squares side by side, of two kinds. Arc 3 is one point, and a geometry is null.
SQUARES = {
    "type": "Topology",
    "transform": {"scale": [0.25, 0.25], "translate": [5, 52.5]},
    "objects": {"land": {"type": "GeometryCollection", "geometries": [
        {"type": "Polygon", "arcs": [[0, 2]], "properties": {"kind": "field"}},
        {"type": "MultiPolygon", "arcs": [[[1, -3]], [[3]]], "properties": {"kind": "wood"}},
        {"type": None}]}},
    "arcs": [[[10, 10], [-10, 0], [0, -10], [10, 0]], [[10, 0], [10, 0], [0, 10], [-10, 0]], [[10, 0], [0, 10]], [[30, 30], [0, 0]]],
}
RULES = {"property": "kind", "classes": [["field", 1], ["wood", 1]], "default": 0, "compat": [[1, 1], [1, 1]], "ratio": 16}
# The borders of a large square and of a small one in it; the small one runs clockwise.
NESTED = [[[0, 0], [30, 0], [30, 30], [0, 30], [0, 0]], [[10, 10], [10, 20], [20, 20], [20, 10], [10, 10]]]

FILES = {}
CASES = []


def changed(value, *changes):
    """A copy of a JSON value, in which each member that a path of keys names has another value; None takes the member out."""
    value = copy.deepcopy(value)
    for path, new in changes:
        *keys, last = path
        place = value
        for key in keys:
            place = place[key]
        if new is None:
            del place[last]
        else:
            place[last] = new
    return value


def bytes_of(value):
    return value if isinstance(value, bytes) else json.dumps(value).encode()


def case(words, topology, rules, status, text, object_name="land"):
    """What a command, with its further words, answers of a topology and its rules."""
    command, *more = words.split()
    number = len(FILES) // 2
    FILES[f"topology_{number}"], FILES[f"rules_{number}"] = bytes_of(topology), bytes_of(rules)
    CASES.append(([command, f"topology_{number}", *more, object_name, f"rules_{number}"], status, text))


def accepted(topology, faces, arcs, points, rules=RULES):
    case("check", topology, rules, 0, f"ok faces {faces} arcs {arcs} points {points}\n")


def refused(topology, fault, rules=RULES, object_name="land"):
    case("check", topology, rules, 4, f"refused {fault}\n", object_name)


def plain(*geometries, arcs=NESTED):
    """A topology of these geometries, without a transform."""
    return {"type": "Topology", "objects": {"land": {"type": "GeometryCollection", "geometries": list(geometries)}}, "arcs": arcs}


def polygon(*rings, **properties):
    return {"type": "Polygon", "arcs": list(rings), "properties": properties}


def slice_0(classes, *edges):
    rows = [f"faces {len(classes)}", *(f"face {face} {kind}" for face, kind in enumerate(classes, 1)), f"edges {len(edges)}", *(f"edge {edge}" for edge in edges)]
    return "\n".join(["slice 0", *rows, "end"]) + "\n"


def slices(topology, rules, classes, *edges):
    case("slice 0", topology, rules, 0, slice_0(classes, *edges))


MEMBERS = ("objects", "land", "geometries")
TWO_EDGES = ("0 1 0 4 10 10 0 10 0 0 10 0", "1 2 0 4 10 0 20 0 20 10 10 10", "2 1 2 2 10 0 10 10")
ABSOLUTE = changed(SQUARES, (("transform",), None), (("arcs",), [[[10, 10], [0, 10], [0, 0], [10, 0]], [[10, 0], [20, 0], [20, 10], [10, 10]], [[10, 0], [10, 10]], [[30, 30], [30, 30]]]))

# ---- what is read
slices(SQUARES, RULES, [0, 1], *TWO_EDGES)
case("slice 1", SQUARES, RULES, 0, "slice 1\nfaces 1\nface 3 1\nedges 1\nedge 0 3 0 6 10 10 0 10 0 0 20 0 20 10 10 10\nend\n")
case("slice 2", SQUARES, RULES, 5, "step too high 1\n")
case("slice 0", SQUARES, RULES, 0, slice_0([0, 1], *TWO_EDGES), "-")
slices(ABSOLUTE, RULES, [0, 1], *TWO_EDGES)
slices({**ABSOLUTE, "transform": None}, RULES, [0, 1], *TWO_EDGES)
# the same rings the other way round: the faces stay on their sides
slices(changed(SQUARES, ((*MEMBERS, 0, "arcs"), [[-3, -1]]), ((*MEMBERS, 1, "arcs"), [[[2, -2]]])), RULES, [0, 1], *TWO_EDGES)
# repeated positions, more numbers in a position, and members that are not asked for
slices(changed(SQUARES, (("arcs", 2), [[10, 0, 7], [0, 0], [0, 10, "x"], [0, 0]]), (("bbox",), [0, 0, 1, 1])), RULES, [0, 1], *TWO_EDGES)
# the arc of one point stands in two rings
slices(changed(SQUARES, (("arcs", 3), [[10, 10], [0, 0]]), ((*MEMBERS, 0, "arcs"), [[0, 2, 3]]), ((*MEMBERS, 1, "arcs", 0), [[1, -4, -3]])), RULES, [0, 1], *TWO_EDGES)
# arcs that no ring takes are left out, and the others are numbered afresh
slices(changed(SQUARES, (("arcs",), [[[0, 50], [9, 9]], *SQUARES["arcs"]]), ((*MEMBERS, 0, "arcs"), [[1, 3]]), ((*MEMBERS, 1, "arcs"), [[[2, -4]]])), RULES, [0, 1], *TWO_EDGES)
# a hole, listed clockwise or not, with a face in it and without
slices(plain(polygon([0], [1])), RULES, [0], "0 1 0 5 0 0 30 0 30 30 0 30 0 0", "1 1 0 5 10 10 10 20 20 20 20 10 10 10")
slices(plain(polygon([0], [-2])), RULES, [0], "0 1 0 5 0 0 30 0 30 30 0 30 0 0", "1 1 0 5 10 10 10 20 20 20 20 10 10 10")
slices(plain(polygon([0], [1]), polygon([-2])), RULES, [0, 0], "0 1 0 5 0 0 30 0 30 30 0 30 0 0", "1 1 2 5 10 10 10 20 20 20 20 10 10 10")
# a hole that collapsed, and a polygon whose exterior did, are left out; so are those without a ring
accepted(plain(polygon([0], [2]), polygon([2], [0]), polygon([], [0]), polygon(), arcs=[*NESTED, [[5, 5], [5, 5]]]), 1, 1, 5)
# collections in collections; points and lines are passed over
accepted(plain({"type": "Point", "coordinates": [1, 2]}, {"type": "GeometryCollection", "geometries": [{"type": "LineString", "arcs": "none"}, polygon([0])]}, {}), 1, 1, 5)
accepted({**plain(), "objects": {"land": polygon([0])}}, 1, 1, 5)
accepted(plain(), 0, 0, 0)
# one of two objects, whose ring takes its only arc backwards
slices({"type": "Topology", "objects": {"land": polygon([-1], kind=7), "two": {}}, "arcs": [[[0, 0], [0, 10], [10, 10], [10, 0], [0, 0]]]},
       {**RULES, "classes": [["6", 1], ["7", 2]], "compat": [[1, 2], [3, 4]], "ratio": 0}, [1], "0 0 1 5 0 0 0 10 10 10 10 0 0 0")
# classes: the first of a name, a number, the default for another, for none and for what is no name
NAMES = {**RULES, "classes": [["a", 1], ["b", 1], ["a", 1], ["7", 1], ["-7", 1]], "default": 2, "compat": [[1] * 5] * 5}
SIDE_BY_SIDE = [[[40 * n, 0], [40 * n + 30, 0], [40 * n + 30, 30], [40 * n, 0]] for n in range(8)]
EDGES = [f"{n} {n + 1} 0 4 {40 * n} 0 {40 * n + 30} 0 {40 * n + 30} 30 {40 * n} 0" for n in range(8)]
slices(plain(polygon([0], kind="a"), polygon([1], kind="b"), polygon([2], kind=7), polygon([3], kind=-7), polygon([4], kind=7.0), polygon([5], kind="A"),
             polygon([6], sort="a"), {"type": "Polygon", "arcs": [[7]]}, arcs=SIDE_BY_SIDE), NAMES, [0, 1, 3, 4, 2, 2, 2, 2], *EDGES)

# ---- what is refused, in the order in which it is told
for end in range(len(bytes_of(SQUARES))):
    refused(bytes_of(SQUARES)[:end], "1 not-json")
for text in (b"[1,", b"\xff", bytes_of(SQUARES) + b"x", b"[" * 128 + b"]" * 128, b"1e999"):
    refused(text, "1 not-json")
for value in ([1], 7, "Topology", None):
    refused(bytes_of(value) if value is not None else b"null", "2 shape 1 0")
refused({**SQUARES, "type": "FeatureCollection"}, "2 shape 2 0")
refused(changed(SQUARES, (("type",), None)), "2 shape 2 0")
refused({**SQUARES, "objects": []}, "2 shape 3 0")
refused({**SQUARES, "arcs": {}}, "2 shape 4 0")
for transform in (7, [], {}, {"scale": [1, 1]}, {"scale": [1, 1], "translate": [1]}, {"scale": [1, 1, 1], "translate": [0, 0]}, {"scale": [1, "1"], "translate": [0, 0]}):
    refused({**SQUARES, "transform": transform}, "2 shape 5 0", object_name="sea")
refused(SQUARES, "3 no-object", object_name="sea")
refused(SQUARES, "3 no-object", object_name="")
refused({**SQUARES, "objects": {}}, "3 no-object", object_name="-")
refused({**SQUARES, "objects": {"a": 1, "b": 2, "-": 3}}, "4 many-objects 3", object_name="-")
refused({**SQUARES, "arcs": [7] * 65537}, "9 limit arcs 65537")
refused(changed(SQUARES, (("arcs", 1), {})), "2 shape 6 1")
for position in (7, [], [1], ["1", 2], [1, None]):
    refused(changed(SQUARES, (("arcs", 1, 2), position)), "2 shape 7 1")
refused(changed(SQUARES, (("arcs", 1, 2), [0.5, 1])), "5 not-whole 1 2")
refused(changed(SQUARES, (("arcs", 1, 2), [1, 1e3])), "5 not-whole 1 2")
refused(changed(SQUARES, (("arcs", 1, 2), [2 ** 63, 1])), "5 not-whole 1 2")
refused(changed(SQUARES, (("arcs", 1, 2), [2 ** 63 - 1, 1])), "6 out-of-range 1 2")
refused(changed(SQUARES, (("arcs", 1), [[2 ** 31, 0], [0, 1], [1, 0]])), "6 out-of-range 1 2")
refused(changed(SQUARES, (("arcs", 0), [[0, -2 ** 31], [0, -1]])), "6 out-of-range 0 1")
refused(changed(SQUARES, (("arcs", 0, 0), [2147483649, 10])), "6 out-of-range 0 0")
refused(changed(SQUARES, (("arcs", 0, 0), [268435457, 10])), "11 ring-open 0 0")
refused(changed(SQUARES, (("arcs", 2), [[10, 0]]), (("arcs", 3), [])), "7 arc-short 2")
refused(changed(SQUARES, (("arcs", 3), [])), "7 arc-short 3")
refused({**SQUARES, "arcs": [[[0, 0], *[[1, 0], [-1, 0]] * 262144], [[0, 0], [0, 0]]]}, "9 limit points 524290")
refused({**SQUARES, "objects": {"land": 7}}, "2 shape 8 0")
refused(changed(SQUARES, ((*MEMBERS, 2), 7)), "2 shape 8 3")
refused({**SQUARES, "objects": {"land": {"type": "GeometryCollection"}}}, "2 shape 8 0")
refused(plain({"type": "GeometryCollection", "geometries": [{}, {}]}, 7), "2 shape 8 4")
for rings in (None, 7, [0, 2], [[0, 2.0]], [[0, "2"]], [[[0, 2]]], [[0, 9], [2 ** 63]]):
    refused(changed(SQUARES, ((*MEMBERS, 0, "arcs"), rings)), "2 shape 9 1")
refused(changed(SQUARES, ((*MEMBERS, 1, "arcs"), [[1, -3]])), "2 shape 9 2")
refused(changed(SQUARES, ((*MEMBERS, 0, "arcs"), [[0, 4]])), "8 arc-index 0 1 4")
refused(changed(SQUARES, ((*MEMBERS, 1, "arcs"), [[[1, -3]], [[3, 3], [-5]]])), "8 arc-index 3 0 -5")
refused(changed(SQUARES, ((*MEMBERS, 0, "arcs"), [[0, -2 ** 63]])), f"8 arc-index 0 1 {-2 ** 63}")
refused(plain(*[polygon([0])] * 32769), "9 limit faces 32769")
refused(changed(SQUARES, ((*MEMBERS, 0, "arcs"), [[0]])), "11 ring-open 0 0")
refused(changed(SQUARES, ((*MEMBERS, 0, "arcs"), [[0, 2, 3]])), "11 ring-open 0 1")
refused(changed(SQUARES, ((*MEMBERS, 0, "arcs"), [[0, -3]])), "11 ring-open 0 0")
refused(plain(polygon([0], [1, 0])), "11 ring-open 1 0")
refused(changed(SQUARES, ((*MEMBERS, 0, "arcs"), [[2, -3]])), "12 ring-flat 0")
refused(changed(SQUARES, ((*MEMBERS, 1, "arcs"), [[[0, 2]]])), "13 side-taken 0 0 1 2")
refused(changed(SQUARES, ((*MEMBERS, 1, "arcs"), [[[1, -3]], [[-2, -1]]])), "13 side-taken 1 0 2 3")
refused(plain(polygon([0], [0])), "14 same-sides 0 1")
refused(changed(SQUARES, ((*MEMBERS, 0, "arcs"), [[0, 2, -3, 1]]), ((*MEMBERS, 1, "arcs"), [])), "14 same-sides 2 1")
# of the order: an arc before a geometry, a geometry before a ring, a side taken before one face at both sides
refused(changed(SQUARES, (("arcs", 2), [[10, 0]]), ((*MEMBERS, 0), 7)), "7 arc-short 2")
refused(changed(SQUARES, ((*MEMBERS, 0, "arcs"), [[0]]), ((*MEMBERS, 2), 7)), "2 shape 8 3")
refused(plain(polygon([0], [0]), polygon([0])), "13 side-taken 0 0 1 2")
refused(plain(polygon([0]), polygon([1])), "17 stack 10 1 1 0")

# ---- rules
refused(b"{", "19 bad-rules 0", b"[1")
refused(SQUARES, "19 bad-rules 1", [])
for path, place in (("property", 2), ("classes", 3), ("default", 4), ("compat", 5), ("ratio", 6)):
    refused(b"{", f"19 bad-rules {place}", changed(RULES, ((path,), None)))
    refused(b"{", f"19 bad-rules {place}", {**RULES, path: {}})
for classes in ([], [["a", 0]], [["a", 65536]], [["a"]], [["a", 1, 1]], [[1, 1]], [["a", 1.0]], [["a", 1], 7]):
    refused(SQUARES, "19 bad-rules 3", {**RULES, "classes": classes})
refused(SQUARES, "9 limit classes 257", {**RULES, "classes": [["a", 1]] * 257, "default": -1})
refused(SQUARES, "19 bad-rules 3", {**RULES, "classes": [["a", 1]] * 257 + [["a", 0]]})
for default in (2, -1, 0.0, "0"):
    refused(SQUARES, "19 bad-rules 4", {**RULES, "default": default})
for compat in ([[1, 1]], [[1, 1], [1, 1], [1, 1]], [[1, 1], [1]], [[1, 1], [1, 1001]], [[1, 1], [1, -1]], [[1, 1], 7]):
    refused(SQUARES, "19 bad-rules 5", {**RULES, "compat": compat})
refused(SQUARES, "19 bad-rules 6", {**RULES, "ratio": 65536})
accepted(SQUARES, 2, 3, 10, {**RULES, "classes": [["field", 65535], ["wood", 1]], "default": 1, "compat": [[0, 1000], [1000, 0]], "ratio": 65535, "name": "mine"})

# ---- the order of loads, and words
FILES["long_file"] = b" " * 16777217
CASES += [
    (["check", "none", "land", "none"], 3, "load fault map\n"),
    (["check", "topology_0", "land", "none"], 3, "load fault rules\n"),
    (["check", "long_file", "land", "none"], 4, "refused 20 input-long 16777216\n"),
    (["check", "topology_0", "land", "long_file"], 4, "refused 20 input-long 16777216\n"),
    (["slice", "topology_0", "0", "land", "none"], 3, "load fault rules\n"),
]
