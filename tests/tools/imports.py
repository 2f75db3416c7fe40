"""Tests tools/import: what becomes of small maps, drawn by hand, and what is refused with nothing written."""
import pathlib

TOOLS = pathlib.Path(__file__).resolve().parents[2] / "tools"
OUT = ("map.json", "rules.json", "--new-rules")


def square(west, south, size=10):
    return [[west, south], [west + size, south], [west + size, south + size], [west, south + size], [west, south]]


def collection(*features):
    """Features of one ring each: an outline with its properties."""
    return {"type": "FeatureCollection", "features": [
        {"type": "Feature", "properties": properties, "geometry": {"type": "Polygon", "coordinates": [ring]}} for ring, properties in features]}


# A square, and beside it one whose border has a corner more, which the first one does not have.
UNEVEN = collection((square(0, 0), {"kind": 24.0, "title": "west"}), ([[10, 0], [20, 0], [20, 10], [10, 10], [10, 4], [10, 0]], {"kind": 7, "title": None}))
OVERLAPPING = collection((square(0, 0), {"title": "west"}), (square(9, 0), {"title": "east"}))
GAPPED = collection((square(0, 0), {}), (square(11, 0), {}), ([[0, 10], [21, 10], [21, 20], [0, 20], [0, 10]], {}), ([[0, -10], [21, -10], [21, 0], [0, 0], [0, -10]], {}))
ISLANDS = collection((square(0, 0), {"kind": "land"}), (square(40, 0), {"kind": "land"}))
POINTS = {"type": "FeatureCollection", "features": [{"type": "Feature", "id": 5, "properties": {}, "geometry": {"type": "Point", "coordinates": [1, 2]}}]}
DOUBLED = collection((square(0, 0), {"title": "first"}), (square(0, 0), {"title": "second"}))


def classes(tests):
    return dict(zip([name for name, _ in tests.read("rules.json")["classes"]], tests.read("rules.json")["counts"]))


def test(tests, examples):
    words_and_files(tests)
    shared_borders(tests)
    defects(tests)
    surroundings(tests)
    refusals(tests, examples)
    real_maps(tests, examples)


def words_and_files(tests):
    for name in ("import", "where", "export", "steps", "loss"):
        tests.done(f"help of {name}", tests.command([TOOLS / name, "--help"]), f"usage: ./tgap {name}", "status:")
        tests.refused(f"{name} without a word", tests.command([TOOLS / name]), 2, "usage:")


def shared_borders(tests):
    tests.write("uneven.geojson", UNEVEN)
    made = tests.tool("import", "uneven.geojson", "--keep", "--property", "kind", "--name", "title", *OUT)
    tests.done("a border with one corner more at one side", made, "2 faces, 3 arcs, 11 points")
    tests.same("it is accepted", tests.program("check", "map.json", "areas", "rules.json").stdout, "ok faces 2 arcs 3 points 11\n")
    tests.same("whole numbers name classes without a fraction", classes(tests), {"24": 1, "7": 1})
    geometries = tests.read("map.json")["objects"]["areas"]["geometries"]
    tests.same("ids, names and classes", [(it["id"], it["properties"]) for it in geometries], [(0, {"name": "west", "kind": "24"}), (1, {"kind": "7"})])
    tests.same("coordinates stay as they are", "transform" in tests.read("map.json"), False)
    tests.same("the ratio", tests.read("rules.json")["ratio"], 1024)
    tests.done("a grid of four steps a unit", tests.tool("import", "uneven.geojson", "--keep", "--cell", "0.25", *OUT), "11 points")
    tests.same("its transform", tests.read("map.json")["transform"], {"scale": [0.25, 0.25], "translate": [0, 0]})
    tests.done("a grid by its number of steps", tests.tool("import", "uneven.geojson", "--quantize", 21, *OUT), "a step of the grid is 1 ")
    tests.done("a grid on which all falls together but one side", tests.tool("import", "uneven.geojson", "--keep", "--cell", 18, *OUT), "dropped, since nothing is left")


def defects(tests):
    tests.write("overlapping.geojson", OVERLAPPING)
    words = ["overlapping.geojson", "--keep", "--cell", 0.25, "--name", "title"]
    tests.refused("an overlap", tests.tool("import", *words, "new.json", "new.rules.json"), 4, "overlapping.geojson: 1 pair of areas overlap", "10 square units, 1 wide: west (id 0) and east (id 1)", "--slivers 1 ")
    tests.refused("an overlap that is wider than a sliver", tests.tool("import", *words, "--slivers", 0.5, "new.json", "new.rules.json"), 4, "by more than --slivers")
    tests.done("a sliver", tests.tool("import", *words, "--slivers", 1, *OUT), "3 faces", "what 1 pair of areas both claim")
    sliver = tests.read("map.json")["objects"]["areas"]["geometries"][2]
    tests.same("its sources", (sliver["id"], sliver["properties"]), ("sliver 1", {"class": "sliver", "sources": [0, 1]}))
    steps = tests.tool("steps", "map.json", "-", "rules.json")
    tests.done("it goes first", steps, "after step 1 no face of class sliver is left")
    tests.write("gapped.geojson", GAPPED)
    fine = ("--keep", "--cell", 0.25)
    tests.done("a gap that stays", tests.tool("import", "gapped.geojson", *fine, *OUT), "1 gap inside the map, the largest of 10 square units: left open", "4 faces")
    tests.done("a gap as a sliver", tests.tool("import", "gapped.geojson", *fine, "--slivers", 1.5, *OUT), "5 faces", "made slivers")
    tests.write("doubled.geojson", DOUBLED)
    tests.done("an area that is there twice", tests.tool("import", "doubled.geojson", "--keep", "--name", "title", *OUT), "left out, the same area as first (id 0): second (id 1)", "1 face,")


def surroundings(tests):
    tests.write("islands.geojson", ISLANDS)
    tests.done("islands alone", tests.tool("import", "islands.geojson", "--keep", "--property", "kind", *OUT), "2 faces")
    tests.done("have no neighbour", tests.tool("steps", "map.json", "-", "rules.json"), "0 steps, from 2 faces to 2 faces")
    tests.done("islands in the sea", tests.tool("import", "islands.geojson", "--keep", "--property", "kind", "--sea", *OUT), "3 faces, 3 arcs")
    tests.done("have the sea", tests.tool("steps", "map.json", "-", "rules.json"), "2 steps, from 3 faces to 1 face", "after step 2 no face of class land is left")
    tests.same("the classes, with the sea", classes(tests), {"land": 2, "sea": 1})


def refusals(tests, examples):
    tests.write("points.geojson", POINTS)
    new = ("new.json", "new.rules.json")
    africa, columbus = examples / "africa.geojson", examples / "columbus.json"
    cases = [
        ("a file that is not there", ["nowhere.shp", "--keep"], 3, ["nowhere.shp"]),
        ("a file that is none of areas", [tests.write("text.txt", "some text\n"), "--keep"], 3, ["text.txt"]),
        ("a point", ["points.geojson", "--keep"], 4, ["points.geojson, layer points, is none of areas but of Point"]),
        ("a property that is not there", [africa, "--keep", "--property", "kind"], 4, ["no property 'kind' for --property; there is name_long, subregion"]),
        ("a layer that is not there", [africa, "--keep", "--layer", "asia"], 4, ["no layer 'asia'; there is africa"]),
        ("no coordinate system", [columbus, "--t_srs", "EPSG:3035"], 4, ["columbus.json does not say its coordinate system", "--s_srs"]),
        ("an unknown coordinate system", [africa, "--t_srs", "EPSG:0"], 4, ["EPSG:0"]),
        ("degrees", [africa, "--t_srs", "EPSG:4326"], 4, ["counts in degrees"]),
        ("too fine a grid", [africa, "--keep", "--cell", "1e-9"], 4, ["2,147,483,648", "greater --cell"]),
        ("two grids", [africa, "--keep", "--quantize", 100], 2, ["not allowed with"]),
        ("a cell that is no number", [africa, "--keep", "--cell", "x"], 2, ["--cell"]),
    ]
    for name, words, status, told in cases:
        tests.refused(name, tests.tool("import", *words, *new), status, *told)
    tests.refused("a folder that is not there", tests.tool("import", africa, "--keep", "--cell", 0.01, "nowhere/new.json", "new.rules.json"), 6, "nowhere/new.json")


def real_maps(tests, examples):
    words = [examples / "africa.geojson", "--t_srs", "EPSG:6933", "--cell", 1000, "--property", "subregion", "--name", "name_long", "--sea"]
    tests.done("Africa", tests.tool("import", *words, "africa.json", "africa.rules.json"), "read 51 features", "53 faces")
    tests.same("it is accepted", tests.program("check", "africa.json", "areas", "africa.rules.json").stdout[:12], "ok faces 53 ")
    words = [examples / "america.geojson", "--t_srs", "EPSG:6933", "--cell", 1000, "--property", "subregion", "--name", "name_long", "--sea"]
    tests.done("South America", tests.tool("import", *words, "america.json", "america.rules.json"), "read 13 features", "16 faces")
    tests.same("it is accepted", tests.program("check", "america.json", "areas", "america.rules.json").stdout[:12], "ok faces 16 ")
    words = [examples / "asia.geojson", "--t_srs", "ESRI:102025", "--property", "subregion", "--name", "name_long", "--sea"]
    tests.refused("Asia, with its overlaps", tests.tool("import", *words, "new.json", "new.rules.json"), 4, "40 pairs of areas overlap", "Indonesia (id 2) and Malaysia")
    made = tests.tool("import", *words, "--slivers", 100000, "asia.json", "asia.rules.json")
    tests.done("Asia", made, "read 47 features", "what 40 pairs of areas both claim", "42 gaps inside the map", "14 cracks between areas", "178 faces", "104 sliver")
    tests.same("it is accepted", tests.program("check", "asia.json", "areas", "asia.rules.json").stdout[:13], "ok faces 178 ")
    tests.done("its slivers go first", tests.tool("steps", "asia.json", "areas", "asia.rules.json"), "after step 104 no face of class sliver is left")
    words = [examples / "columbus.json", "--keep", "--cell", 0.0001, "--property", "kind"]
    tests.done("Columbus", tests.tool("import", *words, "columbus.json", "columbus.rules.json"), "read 49 features", "49 faces")
