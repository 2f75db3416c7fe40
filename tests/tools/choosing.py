"""Tests what import chooses by itself and what it tells: coordinate systems, overlaps, cracks, counts, progress; and the steps that are found by faces and scales."""
import json
import os
import pty
import subprocess

import lib
from imports import OVERLAPPING, collection, square

# Two squares of a tenth of a degree, at 50 degrees north.
DEGREES = collection(([[10, 50], [10.1, 50], [10.1, 50.1], [10, 50.1], [10, 50]], {"name": "west"}),
                     ([[10.1, 50], [10.2, 50], [10.2, 50.1], [10.1, 50.1], [10.1, 50]], {"name": "east"}))
# A square on both sides of the meridian of 180 degrees.
ACROSS = collection(([[179, -17], [180, -17], [180, -16], [179, -16], [179, -17]], {}), ([[-180, -17], [-179, -17], [-179, -16], [-180, -16], [-180, -17]], {}))
# Two areas with a crack between them, a step wide, which opens to the outside above; below they share a border.
CRACKED = collection(([[0, 0], [10, 0], [10, 20], [0, 20], [0, 0]], {"name": "west"}), ([[10, 0], [20, 0], [20, 20], [11, 20], [11, 4], [10, 4], [10, 0]], {"name": "east"}))
TWO_PARTS = {"type": "FeatureCollection", "features": [{"type": "Feature", "properties": {"name": "isles"}, "geometry": {
    "type": "MultiPolygon", "coordinates": [[square(0, 0)], [square(20, 0)], [square(40, 0)]]}}]}
ETRS, MERCATOR, FEET = "EPSG:3035", "EPSG:3857", "EPSG:2263"


def test(tests, examples):
    coordinate_systems(tests)
    overlaps(tests)
    open_cracks(tests)
    counts_and_progress(tests)
    unnamed_classes(tests, examples)
    steps_by_faces_and_scale(tests, examples)
    standard_input(tests, examples)


def in_system(tests, name, crs, scale):
    """A file of two squares in a coordinate system, as a GeoPackage."""
    from osgeo import ogr, osr
    system = None
    if crs:
        system = osr.SpatialReference()
        system.SetFromUserInput(crs)
    package = ogr.GetDriverByName("GPKG").CreateDataSource(str(tests.folder / name))
    layer = package.CreateLayer("two", system, ogr.wkbPolygon)
    for west in (0, 1):
        feature = ogr.Feature(layer.GetLayerDefn())
        ring = [[scale * x, scale * y] for x, y in square(4 + west, 3, 1)]
        feature.SetGeometry(ogr.CreateGeometryFromJson(json.dumps({"type": "Polygon", "coordinates": [ring]})))
        layer.CreateFeature(feature)
    return name


def coordinate_systems(tests):
    tests.write("degrees.geojson", DEGREES)
    made = tests.tool("import", "degrees.geojson")
    tests.done("degrees by themselves", made, "projected to an equal-area system that is centred on the data: +proj=laea +lat_0=50.05 +lon_0=10.1 ",
               "a step of the grid is 0.01 metre", "wrote degrees.json: 2 areas in 2 parts")
    crs = tests.read("degrees.meta.json")["crs"]
    tests.same("the system in the metadata", (crs["epsg"], crs["proj"].startswith("+proj=laea +lat_0=50.05 +lon_0=10.1 ")), (None, True))
    # A degree of latitude is some 111.2 km there, and one of longitude 71.5 km.
    west, south, east, north = tests.read("degrees.meta.json")["bounds"]
    tests.within("kilometres from west to east", (east - west) / 1000, 14.2, 14.4)
    tests.within("kilometres from south to north", (north - south) / 1000, 11.05, 11.2)
    tests.done("back in degrees", tests.tool("export", "degrees.json", "areas", "degrees.rules.json", "--step", 0, "--to", "geojson", "out.geojson"), "2 faces")
    corners = [point for feature in tests.read("out.geojson")["features"] for point in feature["geometry"]["coordinates"][0]]
    tests.same("the same corners", sorted({(round(x, 4), round(y, 4)) for x, y in corners}), [(x, y) for x in (10, 10.1, 10.2) for y in (50, 50.1)])
    tests.write("across.geojson", ACROSS)
    tests.done("across the meridian of 180 degrees", tests.tool("import", "across.geojson", "--t_srs", "auto", "map.json", "rules.json", "--new-rules"), "2 areas in 2 parts")
    told = {ETRS: "the coordinates are in metres and stay as they are: ETRS89", MERCATOR: "projected to an equal-area system", FEET: "projected to an equal-area system",
            None: "the file does not say its coordinate system, so its coordinates stay as they are"}
    for at, (crs, line) in enumerate(told.items()):
        name = in_system(tests, f"two{at}.gpkg", crs, 300000 if crs else 1000)
        tests.done(f"a file in {crs}", tests.tool("import", name, "map.json", "rules.json", "--new-rules"), line, "2 areas in 2 parts")
    tests.same("coordinates of nobody knows what", tests.read("map.meta.json")["crs"], None)
    tests.refused("auto, of nobody knows what", tests.tool("import", "two3.gpkg", "--t_srs", "auto", "new.json"), 4, "does not say its coordinate system", "--s_srs")
    tests.refused("the source itself", tests.tool("import", "degrees.json"), 2, "degrees.json is the source itself", "./tgap import degrees.json degrees.map.json")


def overlaps(tests):
    tests.write("overlapping.geojson", OVERLAPPING)
    words = ["overlapping.geojson", "--keep", "--cell", 0.25, "--name", "title", "lap.json"]
    tests.refused("an overlap with its width", tests.tool("import", *words), 4, "10 square units, 1 wide: west (id 0) and east (id 1)", "let --slivers 1 ", "--geojson", "--first-wins")
    tests.refused("an overlap to look at", tests.tool("import", *words, "--geojson", "seen.geojson"), 4, "wrote seen.geojson: 1 shape")
    feature = tests.read("seen.geojson")["features"][0]
    tests.same("what is seen of it", (feature["properties"], sorted(map(tuple, feature["geometry"]["coordinates"][0][1:]))),
               ({"what": "west (id 0) and east (id 1)"}, [(9, 0), (9, 10), (10, 0), (10, 10)]))
    tests.done("the first wins", tests.tool("import", *words, "--first-wins"), "gave what 1 pair of areas both claim to the first of them", "2 areas in 2 parts: 2 faces")
    tests.done("their areas", tests.tool("export", "lap.json", "areas", "lap.rules.json", "--step", 0, "--to", "geojson", "out.geojson"), "2 faces")
    tests.same("of the first and the other", [it["properties"]["area"] for it in tests.read("out.geojson")["features"]], [100, 90])
    tests.done("the width that was told", tests.tool("import", *words, "--slivers", 1, "--new-rules"), "2 areas in 2 parts, 1 sliver")


def open_cracks(tests):
    tests.write("cracked.geojson", CRACKED)
    words = ["cracked.geojson", "--keep", "--cell", 0.25, "cracked.json"]
    tests.done("a crack that is told", tests.tool("import", *words), "2 areas in 2 parts: 2 faces")
    made = tests.tool("import", *words, "--slivers", 1.5, "--new-rules")
    tests.done("a crack that is closed", made, "1 crack between areas, open to the outside: made slivers", "2 areas in 2 parts, 1 sliver: 3 faces")
    tests.same("the closed map is accepted", tests.program("check", "cracked.json", "areas", "cracked.rules.json").stdout[:11], "ok faces 3 ")
    tests.done("the area of the crack", tests.tool("export", "cracked.json", "areas", "cracked.rules.json", "--step", 0, "--to", "geojson", "out.geojson"), "3 faces")
    # It is 16 high and 1 wide, but for what the disc reaches into its mouth.
    tests.within("of the crack", tests.read("out.geojson")["features"][2]["properties"]["area"], 14.5, 16)
    wide = collection(*((ring, {}) for ring in ([[0, 0], [100, 0], [100, 200], [0, 200], [0, 0]], [[100, 0], [200, 0], [200, 200], [101, 200], [101, 4], [100, 4], [100, 0]])))
    tests.write("wide.geojson", wide)
    tests.done("a crack with nothing asked for", tests.tool("import", "wide.geojson", "--keep", "--cell", 0.25, "wide.json"),
               "1 crack between areas, open to the outside, at most 1 wide: left open (--slivers 1 makes areas of it)")


def counts_and_progress(tests):
    tests.write("parts.geojson", TWO_PARTS)
    made = tests.tool("import", "parts.geojson", "--keep", "parts.json")
    tests.done("areas and parts apart", made, "1 area in 3 parts: 3 faces", "       1 area, in 3 parts")
    # A source that is slow to read, where the standard error is a terminal and where it is none.
    slow = f"""import sys, time
sys.path.insert(0, {str(lib.TOP / "tools/lib")!r})
from command import with_progress
for item in with_progress(range(3), "reading", 0.01):
    time.sleep(0.05)"""
    words = ["/usr/bin/python3", "-B", "-c", slow]
    tests.same("no progress beside a terminal", tests.command(words).stderr, "")
    ours, theirs = pty.openpty()
    subprocess.run(words, stderr=theirs, check=True, timeout=60)
    os.close(theirs)
    seen = os.read(ours, 4096).decode()
    os.close(ours)
    tests.same("progress on a terminal", ("\rreading: 1 of 3" in seen, "\n" in seen), (True, False))
    tests.same("no line stays behind", seen.rsplit("\r", 2)[1:], [" " * len("reading: 2 of 3"), ""])


def unnamed_classes(tests, examples):
    """Areas of a class that no rule names count as the default; who asks for steps or imports anew is told."""
    tests.write("uses.geojson", collection(*((square(10 * at, 0), {"use": use}) for at, use in enumerate(["Wald", "Wald", "Feld", None, 7]))))
    tests.done("a map of three classes", tests.tool("import", "uses.geojson", "--keep", "--property", "use", "uses.json"), "2 Wald")
    wrong = {**tests.read("uses.rules.json"), "classes": [["Feld", 1], ["Wlad", 1], ["7", 1], ["unknown", 1]]}
    tests.write("uses.rules.json", wrong)
    told = "2 areas count as 'Feld', the default of uses.rules.json, which names no class for what their 'use' is: 'Wald' (2)"
    made = tests.tool("steps", "uses.json", "areas", "uses.rules.json")
    tests.same("steps tells of a typo", (made.returncode, made.stderr), (0, f"steps: {told}\n"))
    tests.done("import tells of it", tests.tool("import", "uses.geojson", "--keep", "--property", "use", "uses.json"), "kept uses.rules.json", told)
    made = tests.tool("steps", examples / "columbus.json", "areas", examples / "columbus.rules.json")
    tests.same("nothing is told where all are named", made.stderr, "")
    numbers = tests.read("uses.json")
    for geometry, value in zip(numbers["objects"]["areas"]["geometries"], [7, 7.0, True, "7", None]):
        geometry["properties"]["use"] = value
    tests.write("numbers.json", numbers)
    made = tests.tool("steps", "numbers.json", "areas", "uses.rules.json")
    tests.same("numbers are names by their decimals alone", made.stderr.partition("is: ")[2], "7.0 (1), True (1), without the property (1)\n")
    tests.refused("rules of another property", tests.tool("import", "uses.geojson", "--keep", "uses.json"), 4, "has the property 'use' in place of 'class'", "--new-rules")


def steps_by_faces_and_scale(tests, examples):
    columbus = [examples / "columbus.json", "areas", examples / "columbus.rules.json"]
    tests.done("the step of 25 faces", tests.tool("steps", *columbus, "--faces", 25), "step 24 is the first with at most 25 faces")
    tests.same("alone", tests.tool("steps", *columbus, "--faces", 25, "--alone").stdout, "24\n")
    tests.same("more faces than there are", tests.tool("steps", *columbus, "--faces", 60, "--alone").stdout, "0\n")
    # The areas of the pair are 100 and 300 square metres: at 1 : 6000 the least is 144.
    pair = ["pair.json", "areas", "pair.rules.json"]
    for asked, step in (("1:5000", 0), ("5000", 0), ("1:6000", 1)):
        tests.same(f"the step of {asked}", tests.tool("steps", *pair, "--scale", asked, "--alone").stdout, f"{step}\n")
        tests.done(f"an export at {asked}", tests.tool("export", *pair, "--scale", asked, "--to", "svg", "out.svg"), f"of slice {step}")
    tests.refused("too small a scale", tests.tool("export", *pair, "--scale", "1:9000", "--to", "svg", "new.svg"), 5, "no step has areas of 324 square units alone")
    tests.refused("too few faces", tests.tool("steps", "parts.json", "areas", "parts.rules.json", "--faces", 2), 5, "the map never has fewer than 3 faces")
    made = tests.tool("loss", *columbus, "--faces", "25,1")
    tests.same("the loss by faces", [line.split()[:2] for line in made.stdout.splitlines()[2:]], [["24", "25"], ["48", "1"]])
    made = tests.tool("loss", *pair, "--scale", "1:6000")
    tests.same("the loss by a scale", [line.split()[:2] for line in made.stdout.splitlines()[2:]], [["1", "1"]])


def standard_input(tests, examples):
    text = json.dumps(OVERLAPPING)
    tests.done("import of the standard input", tests.tool("import", "-", "--keep", "--first-wins", "input.json", stdin=text), "wrote input.json: 2 areas")
    slice_ = tests.program("slice", examples / "two_squares.tgap", 1).stdout
    tests.done("export of the standard input", tests.tool("export", "-", "--to", "svg", "out.svg", stdin=slice_), "1 face of slice 1")
    listing = (examples / "two_squares.tgap").read_text()
    tests.done("a map on the standard input", tests.tool("export", "-", "--step", 1, "--to", "svg", "out.svg", stdin=listing), "1 face of slice 1")
    tests.done("its steps", tests.tool("steps", "-", stdin=listing), "1 step, from 2 faces to 1 face")
    crossing = (examples / "crossing.tgap").read_text()
    tests.done("where on the standard input", tests.tool("where", "-", "refused", "15", "meets", "0", "1", "125", "125", "50", stdin=crossing), "they meet at 2.5, 2.5")
