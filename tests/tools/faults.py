"""Tests tools/where: each refusal of the program, on a map that has its fault, in the words of the one whose map it is."""
import copy

# Two squares of 10 steps, on a grid whose steps are half a unit, from (100, 200) on.
GOOD = {
    "type": "Topology", "crs": {"type": "name", "properties": {"name": "urn:ogc:def:crs:EPSG::3035"}},
    "transform": {"scale": [0.5, 0.5], "translate": [100, 200]},
    "objects": {"land": {"type": "GeometryCollection", "geometries": [
        {"type": "Polygon", "id": 11, "arcs": [[0, 2]], "properties": {"name": "Westmark", "kind": "a"}},
        {"type": "Polygon", "id": 12, "arcs": [[1, -3]], "properties": {"name": "Eastmark", "kind": "b"}}]}},
    "arcs": [[[10, 10], [-10, 0], [0, -10], [10, 0]], [[10, 0], [10, 0], [0, 10], [-10, 0]], [[10, 0], [0, 10]]],
}
RULES = {"property": "kind", "classes": [["a", 1], ["b", 1]], "default": 0, "compat": [[1, 1], [1, 1]], "ratio": 16}
WEST, EAST = "Westmark (id 11)", "Eastmark (id 12)"
GEOMETRIES = ("objects", "land", "geometries")

# The border of the eastern square with a corner that lies in the western one.
CROSSING = [[10, 0], [10, 0], [0, 10], [-15, -5], [5, 5]]

# The place in the topology that is changed, what comes there, the refusal of the program, and what is told.
CASES = [
    (("type",), "FeatureCollection", "refused 2 shape 2 0", ["'type' is not 'Topology'", "FeatureCollection"]),
    (("objects",), {"sea": {"type": "Point"}}, "refused 3 no-object", ["'sea'"]),
    (("arcs", 0, 0), [10.5, 10], "refused 5 not-whole 0 0", ["position 0 of arc 0", WEST, "[10.5, 10]"]),
    (("arcs", 2, 0), [3000000000, 0], "refused 6 out-of-range 2 0", ["position 0 of arc 2", WEST, EAST]),
    (("arcs", 2), [[10, 0]], "refused 7 arc-short 2", ["fewer than two positions", "arc 2", WEST, EAST]),
    ((*GEOMETRIES, 0, "arcs", 0, 1), 7, "refused 8 arc-index 0 1 7", ["ring 0", WEST, "index 7", "there are 3 arcs"]),
    ((*GEOMETRIES, 1, "arcs"), [[1]], "refused 11 ring-open 1 0", [EAST, "is open", "ends at 105, 205", "starts at 105, 200"]),
    ((*GEOMETRIES, 0, "arcs"), [[2, -3]], "refused 12 ring-flat 0", [WEST, "no area", "from 105, 200 to 105, 205"]),
    ((*GEOMETRIES, 1, "arcs"), [[0, 2]], "refused 13 side-taken 0 0 1 2", [f"{WEST} and {EAST} both lie at the left of arc 0"]),
    ((*GEOMETRIES,), [{"type": "Polygon", "id": 9, "arcs": [[0, 2], [0, 2]]}], "refused 14 same-sides 0 1", ["id 9 lies at both sides of arc 0"]),
    (("arcs", 1), CROSSING, "refused 15 meets 5 7 ", [f"segment 5 is in the border of {EAST} with the outside (arc 1), from 110, 205 to 102.5, 202.5",
                                                      f"segment 7 is in the border of {WEST} with {EAST}", "they meet at 105, 203.3333333"]),
]


def changed(path, value):
    document = copy.deepcopy(GOOD)
    at = document
    for step in path[:-1]:
        at = at[step]
    at[path[-1]] = value
    return document


def test(tests, examples):
    tests.write("where.rules.json", RULES)
    for path, value, refusal, told in CASES:
        tests.write("where.json", changed(path, value))
        line = tests.program("check", "where.json", "land", "where.rules.json").stdout
        tests.same(f"the program's {refusal}", line[:len(refusal)], refusal)
        tests.done(f"where is {refusal}", tests.tool("where", "where.json", "land", stdin=line), *told)
    other_files(tests)
    listings(tests, examples)
    as_geojson(tests)
    all_overlaps(tests)
    refusals(tests)


def other_files(tests):
    tests.write("where.json", '{"type": "Topology",\n "arcs": [,]}')
    tests.refused("where a file is no JSON", tests.tool("where", "where.json", "land", "refused 1 not-json"), 4, "line 2, column 11")
    tests.write("where.json", GOOD)
    tests.done("an object of several", tests.tool("where", "where.json", "-", "refused 4 many-objects 2"), "'land'")
    tests.done("a limit", tests.tool("where", "where.json", "land", "refused", "9", "limit", "points", "200000"), "200000 points")
    tests.done("rules", tests.tool("where", "where.json", "land", "refused 19 bad-rules 4"), "'default'")
    tests.done("a long file", tests.tool("where", "where.json", "land", "refused 20 input-long 16777216"), "16777216 bytes")
    tests.done("what was accepted", tests.tool("where", "where.json", "land", stdin="ok faces 2 arcs 3 points 10\n"), "was accepted")


def listings(tests, examples):
    cases = [("crossing", ["segment 0 is in the border of face 1 with the outside (arc 0), from 0, 0 to 5, 5", "they meet at 2.5, 2.5"]),
             ("exchanged_sides", ["at 10, 0 3 arcs meet", "arc 1, in the border of face 2", "arc 2, in the border of face 2 with face 1"]),
             ("nested", ["x = 10.5, below the first border, one is in face 1", "at 10.5, 20, has the outside above it", "segment 6"])]
    for name, told in cases:
        line = tests.program("check", examples / f"{name}.tgap").stdout
        tests.done(f"where in {name}", tests.tool("where", examples / f"{name}.tgap", stdin=line), *told)
    tests.write("bad.tgap", "tgap 1\ntransform 1 1 0 0\nratio x\n")
    line = tests.program("check", "bad.tgap").stdout
    tests.done("a bad line", tests.tool("where", "bad.tgap", stdin=line), "line 3 of bad.tgap is 'ratio x'")


def as_geojson(tests):
    from osgeo import ogr
    tests.write("where.json", changed(("arcs", 1), CROSSING))
    line = tests.program("check", "where.json", "land", "where.rules.json").stdout
    tests.done("a fault as GeoJSON", tests.tool("where", "where.json", "land", "--geojson", "fault.geojson", stdin=line), "wrote fault.geojson: 3 shapes")
    # A layer lives as long as its file is held, and a geometry as long as its feature.
    source = ogr.Open(str(tests.folder / "fault.geojson"))
    layer = source.GetLayer(0)
    tests.same("its shapes", sorted(feature.GetGeometryRef().GetGeometryName() for feature in layer), ["LINESTRING", "LINESTRING", "POINT"])
    tests.same("its coordinate system", layer.GetSpatialRef().GetAuthorityCode(None), "3035")
    layer.SetAttributeFilter("what = 'they meet'")
    feature = layer.GetNextFeature()
    point = feature.GetGeometryRef()
    tests.same("its point", (point.GetX(), round(point.GetY(), 9)), (105, round(200 + 10 / 3, 9)))


def all_overlaps(tests):
    """Three squares of 10 steps, each moved against the one before it: by 8, and then by 9; two steps are one unit."""
    def ring(west):
        return [[west, 0], [10, 0], [0, 10], [-10, 0], [0, -10]]

    names = ["first", "second", "third"]
    document = {**GOOD, "arcs": [ring(west) for west in (0, 8, 17)], "objects": {"land": {"type": "GeometryCollection", "geometries": [
        {"type": "Polygon", "id": at, "arcs": [[at]], "properties": {"name": name}} for at, name in enumerate(names)]}}}
    tests.write("where.json", document)
    made = tests.tool("where", "where.json", "land", "--all")
    tests.done("all overlaps", made)
    tests.same("the largest first", made.stdout.splitlines(), [
        "2 pairs of areas overlap", "  5 square units: first (id 0) and second (id 1)", "  2.5 square units: second (id 1) and third (id 2)"])


def refusals(tests):
    tests.write("where.json", GOOD)
    cases = [("no refusal", ["where.json", "land", "refused something"], 4, "is no refusal"),
             ("a refusal that there is not", ["where.json", "land", "refused 10 wrong"], 4, "no refusal 10"),
             ("a place that there is not", ["where.json", "land", "refused 15 meets 900 901 1 1 1"], 4, "it is not the map that was refused"),
             ("an object that there is not", ["where.json", "sea", "refused 12 ring-flat 0"], 4, "no object 'sea'; there is 'land'"),
             ("a map that there is not", ["nowhere.json", "land", "refused 12 ring-flat 0"], 3, "nowhere.json"),
             ("nothing to draw", ["where.json", "land", "refused 9 limit faces 40000", "--geojson", "new.geojson"], 4, "new.geojson is not written")]
    for name, words, status, told in cases:
        tests.refused(f"where: {name}", tests.tool("where", *words), status, told)
