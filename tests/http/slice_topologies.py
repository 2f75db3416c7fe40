"""Slices as topologies over HTTP: the program reads each one again and finds the slice in it, and so do GDAL and the
reader of those who made TopoJSON."""
import collections
import contextlib
import json
import pathlib
import shutil
import subprocess
import sys
import tempfile

from lib import SECONDS, TOP, Server, Skipped, arc_text, ask, listing
from model import STEPS, Model

# Maps that a server takes, each with the words of its topology where it is one.
MAPS = {"two_squares.tgap": [], "two_squares_ratio_0.tgap": [], "three_squares.tgap": [], "four_squares.tgap": [],
        "hole_with_face.tgap": [], "notch_with_island.tgap": [], "columbus.json": ["areas", "columbus.rules.json"]}

# Prints of each polygon that GDAL finds in a file its face, its area and whether it is valid. GDAL looks for the type of a
# topology at the front of a file, and here it stands at the end; so it is told.
BY_GDAL = """import json, sys
from osgeo import ogr
ogr.UseExceptions()
data = ogr.Open("TopoJSON:" + sys.argv[1])
print(json.dumps([[one.GetField("face"), one.geometry().GetArea(), one.geometry().IsValid()] for one in data.GetLayerByName("map")]))"""

# Prints of each polygon that topojson-client finds in a file its face, its class and its coordinates.
CLIENT = pathlib.Path("/usr/share/nodejs/topojson-client")
BY_TOPOJSON = f"""const reader = require("{CLIENT}"), text = require("fs").readFileSync(process.argv[1]), topology = JSON.parse(text);
const found = reader.feature(topology, topology.objects.map).features;
console.log(JSON.stringify(found.map(one => [one.properties.face, one.properties.class, one.geometry.coordinates])));"""


def rules_of_listing(listing):
    """Rules for a topology of a map that a listing has: the names of its classes are their numbers."""
    words = [line.split() for line in listing.splitlines()]
    classes = [row[2:] for row in words if row[0] == "class"]
    return {"property": "class", "classes": [[str(place), int(row[0])] for place, row in enumerate(classes)], "default": 0,
            "compat": [[int(word) for word in row[1:]] for row in classes], "ratio": next(int(row[1]) for row in words if row[0] == "ratio")}


def rules_of_topology(rules):
    """The same of a map that a topology and its rules give."""
    return {**rules, "property": "class", "classes": [[str(place), weight] for place, (_, weight) in enumerate(rules["classes"])]}


def rows_of(text):
    """The faces of the text of a slice with their classes, and its edges: key, faces at the sides, and points."""
    words = [line.split() for line in text.decode().splitlines()]
    return ({int(row[1]): int(row[2]) for row in words if row[0] == "face"},
            [(int(row[1]), int(row[2]), int(row[3]), row[5:]) for row in words if row[0] == "edge"])


def polygons_of(topology):
    return topology["objects"]["map"]["geometries"]


def is_read_again(tests, name, slice_text, topology_text, rules, folder):
    """The program makes a base map of the text. Its faces are the parts, and with each part's face in its place it has
    the faces and the edges of the slice."""
    paths = [folder / "topology", folder / "rules"]
    paths[0].write_bytes(topology_text)
    paths[1].write_text(json.dumps(rules), encoding="utf-8")
    faces, edges = rows_of(slice_text)
    parts = {0: 0, **{place: part["properties"]["face"] for place, part in enumerate(polygons_of(json.loads(topology_text)), 1)}}
    classes, again = rows_of(tests.text("slice", paths[0], 0, "map", paths[1]))
    tests.same(f"{name}: faces", {parts[part]: kind for part, kind in classes.items()}, faces)
    tests.same(f"{name}: edges", [(edges[place][0], parts[left], parts[right], points) for place, left, right, points in again], edges)


def is_compact(tests, name, text):
    """The text is JSON without a space or a line feed, its members in the order of their names."""
    tests.same(f"{name}: form", json.dumps(json.loads(text), separators=(",", ":"), sort_keys=True).encode(), text)


def each_step(tests, name, client, rules, steps):
    with tempfile.TemporaryDirectory() as folder:
        for step in steps:
            status, version, text = ask(client, "GET", f"/topo/{step}")[:3]
            tests.same(f"{name} at {step}", (status, version), (200, 0))
            is_compact(tests, f"{name} at {step}", text)
            is_read_again(tests, f"{name} at {step}", ask(client, "GET", f"/slice/{step}")[2], text, rules, pathlib.Path(folder))


def last_step(client):
    return int(ask(client, "GET", "/info")[2].split()[3])


def examples(tests):
    """Each step of the examples."""
    for name, words in MAPS.items():
        path = TOP / "examples" / name
        rules = (rules_of_topology(json.loads((TOP / "examples" / words[1]).read_text(encoding="utf-8"))) if words
                 else rules_of_listing(path.read_text(encoding="utf-8")))
        more = [words[0], TOP / "examples" / words[1]] if words else []
        with Server(tests.executable, path, 1, 1, more) as server, contextlib.closing(server.client()) as client:
            last = last_step(client)
            each_step(tests, name, client, rules, range(last + 1))
            tests.same(f"{name}: a step too high", ask(client, "GET", f"/topo/{last + 1}")[:3], (400, 0, f"step too high {last}\n".encode()))


def many_steps(tests):
    """Steps of a map of some hundred, with vertex removal and without."""
    for ratio in (0, 16):
        model = Model(ratio)
        with tempfile.TemporaryDirectory() as folder:
            path = pathlib.Path(folder) / "map"
            path.write_bytes(model.listing())
            rules = rules_of_listing(model.listing().decode())
            with Server(tests.executable, path, 1, 1) as server, contextlib.closing(server.client()) as client:
                each_step(tests, f"bent cells with ratio {ratio}", client, rules, STEPS)


def square(x, y, side):
    """The closed row of points round a square, counter-clockwise, by its corner with the least coordinates."""
    return [(x, y), (x + side, y), (x + side, y + side), (x, y + side), (x, y)]


def made(tests, name, listing, check):
    """Asks a server for a map that is made."""
    with tempfile.TemporaryDirectory() as folder:
        path = pathlib.Path(folder) / "map"
        path.write_bytes(listing)
        with Server(tests.executable, path, 1, 1) as server, contextlib.closing(server.client()) as client:
            check(name, client)


def nested(tests):
    """Each step of squares in squares, so that a face has holes in which others have holes; beside them a face of parts."""
    deep = [arc_text(face + 1, face, square(2 * face, 2 * face, 40 - 4 * face)) for face in range(9)]
    parts = [arc_text(10, 0, square(60 + 10 * place, 0, 5)) for place in range(3)]
    made_of = listing(10, [*deep, *parts], ratio=0)

    def check(name, client):
        each_step(tests, name, client, rules_of_listing(made_of.decode()), range(last_step(client) + 1))

    made(tests, "squares in squares", made_of, check)


def too_many_parts(tests):
    """A slice may have more parts than a map may have faces: then it is served, and refused where it is read."""
    faces, parts = 16400, 32800
    squares = [arc_text(1 + place % faces, 0, square(4 * (place % 200), 4 * (place // 200), 2)) for place in range(parts)]
    made_of = listing(faces, squares, version=2)

    def check(name, client):
        status, _, text = ask(client, "GET", "/topo/0")[:3]
        tests.same(name, (status, len(polygons_of(json.loads(text)))), (200, parts))
        with tempfile.TemporaryDirectory() as folder:
            paths = [pathlib.Path(folder) / "topology", pathlib.Path(folder) / "rules"]
            paths[0].write_bytes(text)
            paths[1].write_text(json.dumps(rules_of_listing(made_of.decode())), encoding="utf-8")
            run = subprocess.run([tests.executable, "check", paths[0], "map", paths[1]], capture_output=True, check=False, timeout=SECONDS)
            tests.same(f"{name}: read", (run.returncode, run.stdout), (4, f"refused 9 limit faces {parts}\n".encode()))

    made(tests, "more parts than faces", made_of, check)


def after_an_edit(tests):
    """The text is that of the version that is pinned."""
    with Server(tests.executable, TOP / "examples/two_squares.tgap", 2, 2) as server:
        with contextlib.closing(server.client()) as editor, contextlib.closing(server.client()) as reader:
            old = ask(reader, "GET", "/topo/0")[2]
            tests.same("an edit", ask(editor, "POST", "/edit", b"move 20 10 24 10\n")[:3], (200, 1, b"published 1\n"))
            new = ask(editor, "GET", "/topo/0")
            tests.same("the editor sees it", (new[0], new[1], json.loads(new[2])["arcs"][1]), (200, 1, [[10, 0], [10, 0], [4, 10], [-14, 0]]))
            tests.same("a reader stays", ask(reader, "GET", "/topo/0")[:3], (200, 0, old))


def python_with_gdal():
    for python in (sys.executable, "/usr/bin/python3"):
        if subprocess.run([python, "-c", "import osgeo.ogr"], capture_output=True, check=False).returncode == 0:
            return python
    raise Skipped("GDAL is missing")


def area_of(points):
    """What a row of points adds to the area at its left."""
    return sum(a * d - b * c for (a, b), (c, d) in zip(points, points[1:])) / 2


def areas_of(slice_text):
    """The areas of the faces of a slice, by its edges."""
    areas = collections.Counter()
    for _, left, right, words in rows_of(slice_text)[1]:
        area = area_of(list(zip(map(int, words[::2]), map(int, words[1::2]))))
        areas[left] += area
        areas[right] -= area
    del areas[0]
    return dict(areas)


def two_steps(tests):
    """The topology and the text of two slices of each example."""
    for name, words in MAPS.items():
        more = [words[0], TOP / "examples" / words[1]] if words else []
        with Server(tests.executable, TOP / "examples" / name, 1, 1, more) as server, contextlib.closing(server.client()) as client:
            for step in sorted({0, last_step(client) // 2}):
                yield f"{name} at {step}", ask(client, "GET", f"/topo/{step}")[2], ask(client, "GET", f"/slice/{step}")[2]


def read_by(tests, words_of):
    """Of two steps of each example what another reader prints that is started by the words for a file, with the text of
    the slice. All are asked for first: a connection on which nothing comes is closed, and another reader may be slow."""
    with tempfile.TemporaryDirectory() as folder:
        path = pathlib.Path(folder) / "slice.topojson"
        for name, topology, text in list(two_steps(tests)):
            path.write_bytes(topology)
            found = subprocess.run(words_of(path), capture_output=True, check=True, timeout=SECONDS)
            yield name, json.loads(found.stdout), text


def by_gdal(tests):
    """GDAL reads the polygons of a slice: all are valid, and those of a face have together its area."""
    python = python_with_gdal()
    for name, polygons, text in read_by(tests, lambda path: [python, "-W", "ignore", "-c", BY_GDAL, path]):
        areas = collections.Counter()
        for face, area, valid in polygons:
            areas[face] += area
            tests.same(f"{name}: face {face} is valid", valid, True)
        tests.same(f"{name}: areas", dict(areas), areas_of(text))


def by_topojson(tests):
    """So does topojson-client, with closed rings, and the classes."""
    if not CLIENT.exists() or not shutil.which("node"):
        raise Skipped("topojson-client or node is missing")
    for name, polygons, text in read_by(tests, lambda path: ["node", "-e", BY_TOPOJSON, path]):
        areas = collections.Counter()
        for face, _, rings in polygons:
            areas[face] += sum(map(area_of, rings))
        tests.same(f"{name}: areas", dict(areas), areas_of(text))
        tests.same(f"{name}: classes", {face: kind for face, kind, _ in polygons}, rows_of(text)[0])
        tests.same(f"{name}: rings", all(ring[0] == ring[-1] for _, _, rings in polygons for ring in rings), True)


TESTS = [examples, many_steps, nested, too_many_parts, after_an_edit, by_gdal, by_topojson]
