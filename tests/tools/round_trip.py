"""Tests tools/export: slices of real maps, as GDAL and Shapely read them, and as the program reads them again."""
import math
import os
import pathlib
import sys
import time

import lib

# The map that imports.py has made, with the ids of its areas.
MAPS = [("africa", "areas", 51), ("america", "areas", 13), ("asia", "areas", 47), ("columbus", "areas", 49)]
PARTS = 4
# A square with a hole that touches its border at (0,5), so that one ring goes round both, and two holes in it that touch each other at (14,10).
TOUCHING = """tgap 1
transform 1 1 0 0
ratio 0
classes 1
class 0 1 1
faces 4
face 1 0
face 2 0
face 3 0
face 4 0
arcs 4
arc 1 0 6 0 5 0 0 20 0 20 20 0 20 0 5
arc 2 1 5 0 5 3 3 6 5 3 7 0 5
arc 3 1 4 14 10 12 10 12 8 14 10
arc 4 1 4 14 10 16 10 16 12 14 10
end
"""
HOLES = [[(0, 5), (3, 3), (3, 7), (6, 5)], [(12, 8), (12, 10), (14, 10)], [(14, 10), (16, 10), (16, 12)]]


def test(tests, examples):
    for name, chosen, ids in MAPS:
        words = [f"{name}.json", chosen, f"{name}.rules.json"]
        last = int(tests.program("slice", words[0], 4294967295, *words[1:]).stdout.split()[-1])
        for step in [last * part // PARTS for part in range(PARTS + 1)]:
            tests.write("slice", tests.program("slice", words[0], step, *words[1:]).stdout)
            one_slice(tests, f"{name} at step {step}", words, ids)
    without_a_map(tests, examples)
    touching_holes(tests)
    servers(tests, examples)
    refusals(tests, examples)


def features(path):
    from osgeo import ogr
    import shapely.wkb
    source = ogr.Open(str(path))
    layer = source.GetLayer(0)
    crs = layer.GetSpatialRef()
    return crs and crs.Clone(), [({**feature.items()}, shapely.wkb.loads(bytes(feature.GetGeometryRef().ExportToWkb()))) for feature in layer]


def rows(path, table):
    """The rows of a table of a file."""
    from osgeo import ogr
    source = ogr.Open(str(path))
    return [feature.items() for feature in source.GetLayerByName(table)]


def one_slice(tests, name, words, ids):
    """Tests the files that are made of a slice."""
    faces = sum(line.startswith("face ") for line in (tests.folder / "slice").read_text().splitlines())
    for kind in ("topojson", "gpkg"):
        tests.done(f"{name} as {kind}", tests.tool("export", "slice", *words, "--to", kind, f"out.{kind}"), f"{faces} face")
    # The sea of Asia reaches beyond the meridian of 180 degrees.
    without = [] if words[0] == "columbus.json" else ["--without", "sea"]
    tests.done(f"{name} as geojson", tests.tool("export", "slice", *words, "--to", "geojson", "out.geojson", *without), f"of slice {name.split()[-1]}")
    if name == "asia at step 0":
        tests.refused("the sea in degrees", tests.tool("export", "slice", *words, "--to", "geojson", "new.geojson"), 4, "face 178, of class sea", "--without")
    checked = tests.program("check", "out.topojson", "areas", words[2]).stdout
    tests.same(f"{name} is accepted again", checked.split()[:3], ["ok", "faces", str(faces)])
    crs, package = features(tests.folder / "out.gpkg")
    tests.same(f"{name} has all faces", len(package), faces)
    tests.tell(f"{name} is valid", [f"face {it['face']}" for it, shape in package if not shape.is_valid])
    tests.tell(f"{name} has true areas", [f"face {it['face']}" for it, shape in package if not math.isclose(it["area"], shape.area, rel_tol=1e-9)])
    sources = rows(tests.folder / "out.gpkg", "sources")
    tests.same(f"{name} is made of all areas", len({row["id"] for row in sources}), ids)
    named = tests.read(words[0]).get("crs") is not None
    # A GeoPackage has a name for a coordinate system that is not known, and GDAL gives it.
    tests.same(f"{name} has the coordinate system of its map", crs is not None and not crs.GetName().startswith("Undefined"), named)
    longitudes(tests, name, named)


def longitudes(tests, name, named):
    _, collection = features(tests.folder / "out.geojson")
    tests.tell(f"{name} is valid as GeoJSON", [f"face {it['face']}" for it, shape in collection if not shape.is_valid])
    if named:
        tests.tell(f"{name} is in degrees as GeoJSON", [f"{shape.bounds}" for _, shape in collection if max(map(abs, shape.bounds)) > 180])


def without_a_map(tests, examples):
    tests.write("slice", tests.program("slice", examples / "two_squares.tgap", 1).stdout)
    tests.done("a slice without its map", tests.tool("export", "slice", "--to", "geojson", "out.geojson"), "1 face")
    feature = tests.read("out.geojson")["features"][0]
    tests.same("its properties", feature["properties"], {"face": 3, "class": 0, "area": 200, "name": None, "names": [], "made": None, "sources": []})
    tests.same("its corners", sorted(map(tuple, feature["geometry"]["coordinates"][0][1:])), [(0, 0), (0, 10), (10, 10), (20, 0), (20, 10)])
    tests.done("a slice with its listing", tests.tool("export", "slice", examples / "two_squares.tgap", "--to", "geojson", "out.geojson"), "1 face")
    tests.same("its sources", tests.read("out.geojson")["features"][0]["properties"]["sources"], [1, 2])
    for kind, start in (("svg", b"<svg "), ("png", b"\x89PNG")):
        tests.done(f"a picture as {kind}", tests.tool("export", "slice", "--to", kind, f"out.{kind}", "--width", 100))
        tests.same(f"it is {kind}", (tests.folder / f"out.{kind}").read_bytes()[:len(start)], start)
    from osgeo import gdal
    picture = gdal.Open(str(tests.folder / "out.png"))
    tests.same("its size", (picture.RasterXSize, picture.RasterYSize, picture.RasterCount), (100, 50, 3))


def touching_holes(tests):
    """The rings of the program's topology, and those that are put together without a map, give the same areas."""
    tests.write("touching.tgap", TOUCHING)
    tests.write("touching", tests.program("slice", "touching.tgap", 0).stdout)
    for name, words in (("with their map", ["touching.tgap"]), ("without it", [])):
        tests.done(f"touching holes {name}", tests.tool("export", "touching", *words, "--to", "geojson", "out.geojson"), "4 faces")
        _, found = features(tests.folder / "out.geojson")
        tests.same(f"touching holes {name} are valid areas", [(it["face"], it["area"], shape.is_valid) for it, shape in found],
                   [(1, 384, True), (2, 12, True), (3, 2, True), (4, 2, True)])
        tests.same(f"each is a ring of its own {name}", sorted(sorted(set(ring.coords)) for ring in found[0][1].interiors), HOLES)


def servers(tests, examples):
    """The server of a tool has a port that is free, or none, and ends with the tool, even where that is killed."""
    squares = examples / "two_squares.tgap"
    tests.write("slice", tests.program("slice", squares, 1).stdout)
    answers = {"a taken port": ("[ -e tried ] || { : >tried; echo port fault; exit 8; }", 0, ""), "no server": ("echo memory; exit 7", 1, "does not serve"),
               "a server that ends": ("echo serving $3; exit 0", 1, "does not answer")}
    for name, (serve, status, told) in answers.items():
        tests.write("program", f'#!/bin/sh\nif [ "$1" = serve ]; then {serve}; fi\nexec "{tests.executable}" "$@"\n')
        (tests.folder / "program").chmod(0o755)
        made = tests.command([lib.TOP / "tools/export", "slice", squares, "--to", "geojson", "out.geojson", "--program", "./program"])
        tests.tell(name, [f"status {made.returncode}: {made.stderr:.300}"] * (made.returncode != status or told not in made.stderr))
    killed = f"""import os, sys, types
sys.path.insert(0, {str(lib.TOP / "tools/lib")!r})
from program import Program
with Program({tests.executable!r}, types.SimpleNamespace(map={str(squares)!r}, object=None, rules=None)).serving() as server:
    print(len(server.topology(0).faces), flush=True)
    os.kill(os.getpid(), 9)"""
    tests.same("a server answers", tests.command([sys.executable, "-B", "-c", killed]).stdout, "2\n")
    tests.tell("no server is left", left_running(tests.folder))


def left_running(folder):
    """The processes that work in a folder, once they have had time to end."""
    until = time.monotonic() + lib.SECONDS
    while (left := [str(process) for process in pathlib.Path("/proc").glob("[0-9]*") if works_in(process, folder)]) and time.monotonic() < until:
        time.sleep(0.1)
    return left


def works_in(process, folder):
    try:
        return os.path.realpath(process / "cwd") == os.path.realpath(folder)
    except OSError:
        return False


def refusals(tests, examples):
    tests.write("cut", (tests.folder / "slice").read_text()[:-4])
    tests.write("other", "faces 1\nsquare 2\n")
    squares, to = examples / "two_squares.tgap", ["--to", "gpkg", "new.gpkg"]
    cases = [("a slice that is cut off", ["cut", *to], 4, "cut is no whole slice"),
             ("a text that is no slice", ["other", *to], 4, "other is no slice: line 2"),
             ("a slice of another map", ["slice", examples / "four_squares.tgap", *to], 4, "is not the slice of"),
             ("a slice that is not there", ["nowhere", *to], 3, "nowhere"),
             ("a class that there is not", ["slice", "--without", "sea", *to], 4, "no class 'sea'"),
             ("an unknown format", ["slice", squares, "--to", "dxf", "new.dxf"], 2, "'dxf' is none of"),
             ("an unknown coordinate system", ["slice", squares, "--crs", "EPSG:0", *to], 4, "EPSG:0"),
             ("a folder that is not there", ["slice", squares, "--to", "svg", "nowhere/new.svg"], 6, "nowhere/new.svg")]
    for name, words, status, told in cases:
        tests.refused(f"export: {name}", tests.tool("export", *words), status, told)
