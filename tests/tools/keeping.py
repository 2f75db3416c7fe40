"""Tests that import and export keep what their user gave: classes, names, ids and attributes, through each format and back."""
import json

from imports import collection, square

# Four parcels in a row, two of a class that import itself makes too.
PARCELS = collection(*((square(10 * at, 0), {"use": use, "title": title}) for at, (use, title) in
                       enumerate([("sliver", "Long Strip"), ("field", "Field"), ("sliver", "Short Strip"), ("sea", "Salt Sea")])))
OVERLAPPING = collection(*((ring, {"use": use, "title": title}) for ring, use, title in
                           [(square(0, 0), "sliver", "west"), (square(9, 0), "sea", "east"), (square(18, 0), "field", "far")]))
# What has to survive every format: accents, scripts, quotes, nothing, dates, and numbers of 17 digits.
VALUES = [
    {"title": "Zürich \u201eÖst\u201c", "code": "a,b", "people": 12345678901234567, "share": 0.12345678901234568, "since": "2024-02-29", "open": True},
    {"title": "\u5317\u4eac 'x' \"y\"", "code": "", "people": -9007199254740993, "share": 1e-300, "since": "1999-12-31", "open": False},
    {"title": "", "code": None, "people": None, "share": None, "since": None, "open": None},
    {"title": None, "code": "back\\slash; tab\t", "people": 0, "share": 98765432109876543.0, "since": "2000-01-01", "open": True},
]
CSV_ROW = 10


def test(tests, examples):
    classes_of_the_source(tests)
    slivers_and_back(tests)
    attributes(tests)
    metadata_members(tests)
    names_and_sums(tests)
    chosen_fields(tests)
    other_metadata(tests)


def geometries(tests):
    return tests.read("map.json")["objects"]["areas"]["geometries"]


def classes_of_the_source(tests):
    """A class that is called as import calls what it makes is a class like any other."""
    tests.write("parcels.geojson", PARCELS)
    made = tests.tool("import", "parcels.geojson", "--keep", "--property", "use", "--name", "title", "map.json", "rules.json", "--new-rules")
    tests.done("classes called sliver and sea", made, "4 areas in 4 parts: 4 faces")
    tests.same("nothing of them is dropped", "nothing is left" in made.stdout, False)
    tests.same("their ids, names and classes", [(it["id"], it["properties"], it.get("made")) for it in geometries(tests)],
               [(at, {"name": title, "use": use}, None) for at, (use, title) in
                enumerate([("sliver", "Long Strip"), ("field", "Field"), ("sliver", "Short Strip"), ("sea", "Salt Sea")])])
    tests.same("their weights", tests.read("rules.json")["classes"], [["field", 1], ["sea", 1], ["sliver", 1]])
    tests.same("their compatibilities", tests.read("rules.json")["compat"], [[100, 10, 10], [10, 100, 10], [10, 10, 100]])
    tests.done("they are merged as others are", tests.tool("steps", "map.json", "areas", "rules.json"), "3 steps, from 4 faces to 1 face")


def slivers_and_back(tests):
    """Beside classes of their names what is made has others; an export that is imported again gives the map again."""
    tests.write("overlapping.geojson", OVERLAPPING)
    words = ["--keep", "--cell", 0.25, "--property", "use", "--name", "title"]
    made = tests.tool("import", "overlapping.geojson", *words, "--slivers", 1.5, "--sea", "map.json", "rules.json", "--new-rules")
    tests.done("slivers beside a class of that name", made, "3 areas in 3 parts, 2 slivers, the sea: 6 faces")
    tests.same("the marks", [(it["id"], it["properties"]["use"], it.get("made")) for it in geometries(tests)], [
        (0, "sliver", None), (1, "sea", None), (2, "field", None), ("sliver 1", "sliver_", "sliver"), ("sliver 2", "sliver_", "sliver"), ("sea", "sea_", "sea")])
    tests.same("what is made goes first and takes nothing in", [row[-1] for row in tests.read("rules.json")["compat"]], [0] * 5)
    first = tests.program("slice", "map.json", 0, "areas", "rules.json").stdout
    for kind in ("gpkg", "topojson", "geojson"):
        tests.done(f"an export as {kind}", tests.tool("export", "map.json", "areas", "rules.json", "--step", 0, "--to", kind, f"again.{kind}"), "6 faces")
        again = ["again.json", "again.rules.json", "--new-rules", "--made", "made", "--id", "face", "--property", "use", "--keep", "--cell", 0.25]
        if kind == "topojson":
            # GDAL looks for the type of such a file at its front.
            text = tests.read("again.topojson")
            tests.write("again.topojson", {"type": text.pop("type"), **text})
        tests.done(f"{kind} again", tests.tool("import", f"again.{kind}", *again), "3 areas in 3 parts, 2 slivers, the sea: 6 faces")
        tests.same(f"the map again by {kind}", tests.program("slice", "again.json", 0, "areas", "again.rules.json").stdout, first)
        tests.same(f"the rules again by {kind}", tests.read("again.rules.json"), tests.read("rules.json"))


def write_values(tests):
    """A GeoPackage with all kinds of values, as GDAL writes it."""
    from osgeo import ogr
    path = tests.folder / "values.gpkg"
    package = ogr.GetDriverByName("GPKG").CreateDataSource(str(path))
    layer = package.CreateLayer("values", None, ogr.wkbPolygon)
    for name, kind in [("title", ogr.OFTString), ("code", ogr.OFTString), ("people", ogr.OFTInteger64), ("share", ogr.OFTReal), ("since", ogr.OFTDate)]:
        layer.CreateField(ogr.FieldDefn(name, kind))
    boolean = ogr.FieldDefn("open", ogr.OFTInteger)
    boolean.SetSubType(ogr.OFSTBoolean)
    layer.CreateField(boolean)
    for at, values in enumerate(VALUES):
        feature = ogr.Feature(layer.GetLayerDefn())
        for name, value in values.items():
            if value is not None:
                feature.SetFieldInteger64(2, value) if name == "people" else feature.SetField(name, value)
        feature.SetGeometry(ogr.CreateGeometryFromJson(json.dumps({"type": "Polygon", "coordinates": [square(CSV_ROW * at, 0)]})))
        layer.CreateFeature(feature)
    return path.name


def attributes(tests):
    """The same values in the metadata, and as attributes of the faces and of the areas in each format."""
    made = tests.tool("import", write_values(tests), "--keep", "--id", "people", "values.json")
    tests.refused("an id that is empty", made, 4, "--id people is empty for an area without a name")
    tests.done("all kinds of values", tests.tool("import", "values.gpkg", "--keep", "values.json"), "6 attributes", "those of 'title'")
    found = tests.read("values.meta.json")
    tests.same("the values in the metadata", [area["attributes"] for area in found["areas"]], VALUES)
    tests.same("their kinds", found["fields"], {"title": "text", "code": "text", "people": "integer", "share": "number", "since": "date", "open": "boolean"})
    tests.same("the names", [area["name"] for area in found["areas"]], [values["title"] for values in VALUES])
    for kind in ("topojson", "geojson", "gpkg"):
        tests.done(f"the values as {kind}", tests.tool("export", "values.json", "areas", "values.rules.json", "--step", 0, "--to", kind, f"values_.{kind}",
                                                       "--fields", "all"), "4 faces")
        tests.same(f"the values in {kind}", [{name: row[name] for name in VALUES[0]} for row in values_in(tests, kind)], VALUES)
    table = [(row["face"], row["id"], row["name"], row["people"], row["share"], row["code"]) for row in package_rows(tests, "values_.gpkg", "sources")]
    tests.same("the table of sources", table, [(at + 1, at + 1, it["title"], it["people"], it["share"], it["code"]) for at, it in enumerate(VALUES)])


def package_rows(tests, name, table):
    from osgeo import ogr
    source = ogr.Open(str(tests.folder / name))
    return [feature.items() for feature in source.GetLayerByName(table)]


def values_in(tests, kind):
    """The properties of the faces of an export."""
    if kind == "gpkg":
        rows = package_rows(tests, "values_.gpkg", "areas")
        # GDAL spells dates and truths in its own way.
        return [{**row, "since": row["since"] and row["since"].replace("/", "-"), "open": None if row["open"] is None else bool(row["open"])} for row in rows]
    document = tests.read(f"values_.{kind}")
    features = document["features"] if kind == "geojson" else document["objects"]["areas"]["geometries"]
    return [feature["properties"] for feature in features]


def metadata_members(tests):
    """Each member of the metadata, of two squares whose areas are worked out by hand."""
    tests.write("pair.geojson", collection((square(0, 0), {"kind": "wood", "title": "west"}), ([[10, 0], [30, 0], [30, 10], [10, 10], [10, 0]],
                                                                                            {"kind": "town", "title": "east"})))
    words = ["--s_srs", "EPSG:3035", "--property", "kind", "--name", "title", "--title", "A pair", "--attribution", "nobody", "--cell", 1]
    tests.done("the metadata of a pair", tests.tool("import", "pair.geojson", *words, "pair.json"), "wrote pair.meta.json")
    found = tests.read("pair.meta.json")
    tests.same("its CRS", (found["crs"]["epsg"], found["crs"]["name"], "+proj=laea" in found["crs"]["proj"]), (3035, "urn:ogc:def:crs:EPSG::3035", True))
    # At 1 : N four square millimetres are 4 N N / 1e6 square metres: 100 of them at 1 : 5000.
    tests.same("its steps", found["steps"], [{"step": 0, "faces": 2, "least": 100, "scale": 5000}, {"step": 1, "faces": 1, "least": 300, "scale": 8660}])
    tests.same("its other members", {name: found[name] for name in ("metadata", "name", "attribution", "bounds", "transform", "property", "classes", "faces")}, {
        "metadata": 1, "name": "A pair", "attribution": "nobody", "bounds": [0, 0, 30, 10], "transform": {"scale": [1, 1], "translate": [0, 0]},
        "property": "kind", "classes": [["town", 1], ["wood", 1]], "faces": [0, 1]})
    tests.same("its areas", found["areas"], [{"id": 0, "name": "west", "attributes": {"kind": "wood", "title": "west"}},
                                             {"id": 1, "name": "east", "attributes": {"kind": "town", "title": "east"}}])
    rules = tests.read("pair.rules.json")
    tests.write("pair.rules.json", {**rules, "classes": [["town", 1], ["wood", 7]]})
    tests.done("the metadata by edited rules", tests.tool("steps", "pair.json", "areas", "pair.rules.json", "--meta", "pair.meta.json"), "wrote pair.meta.json")
    tests.same("have the new weights, and all else", tests.read("pair.meta.json"), {**found, "classes": [["town", 1], ["wood", 7]]})
    tests.done("the edited rules stay", tests.tool("import", "pair.geojson", *words, "pair.json"), "kept pair.rules.json as it was")
    tests.same("with their weights", tests.read("pair.rules.json")["classes"], [["town", 1], ["wood", 7]])


# Squares of 10, 20 and 30 by 10; the last one has two parts, which touch the others at either end.
SUMMED = {"type": "FeatureCollection", "features": [
    {"type": "Feature", "properties": {"title": title, "people": people, "rate": rate}, "geometry": {"type": "MultiPolygon", "coordinates": [
        [[[a, 0], [b, 0], [b, 10], [a, 10], [a, 0]]] for a, b in parts]}}
    for title, people, rate, parts in [("Aa", 100, 0.5, [(0, 10)]), ("Bb", 7, None, [(10, 30)]), ("Cc", 40, 2.0, [(30, 60), (-10, 0)])]]}


def names_and_sums(tests):
    tests.write("summed.geojson", SUMMED)
    tests.done("areas and parts", tests.tool("import", "summed.geojson", "--keep", "summed.json"), "3 areas in 4 parts: 4 faces")
    # The two faces of 100 units come first; the lesser one goes to its only neighbour, or to the one with which it is the first.
    words = ["summed.json", "areas", "summed.rules.json"]
    options = ["--sum", "people", "--mean", "rate", "--least", "people", "--greatest", "people,rate"]
    tests.done("sums", tests.tool("export", *words, "--faces", 1, *options, "--to", "geojson", "summed.out"), "1 face of slice 3")
    found = tests.read("summed.out")["features"][0]["properties"]
    wanted = {"names": ["Aa", "Bb", "Cc"], "sources": [0, 1, 2], "sum_people": 147, "mean_rate": (0.5 * 100 + 2 * 400) / 500, "least_people": 7,
              "greatest_people": 100, "greatest_rate": 2.0}
    tests.same("of all areas", {name: found[name] for name in wanted}, wanted)
    tests.done("sums of one step", tests.tool("export", *words, "--faces", 4, *options, "--to", "geojson", "summed.out"), "4 faces of slice 0")
    rows = [feature["properties"] for feature in tests.read("summed.out")["features"]]
    tests.same("an area in two faces counts by its share", sorted((row["name"], row["area"], row["sum_people"]) for row in rows),
               [("Aa", 100, 100), ("Bb", 200, 7), ("Cc", 100, 10), ("Cc", 300, 30)])
    grown = tests.program("packet", "summed.json", 1, 0, *words[1:]).stdout.splitlines()[1].split()
    names = {1: "Aa", 2: "Bb", 3: "Cc", 4: "Cc"}
    tests.done("one step", tests.tool("export", *words, "--step", 1, "--to", "geojson", "summed.out"), "3 faces of slice 1")
    rows = {feature["id"]: feature["properties"]["name"] for feature in tests.read("summed.out")["features"]}
    tests.same("the name of the one that took the other in", rows[int(grown[6])], names[int(grown[4])])
    for name, option, value, told in [("that there is not", "--sum", "peple", "no number 'peple' for --sum; there is people, rate"),
                                      ("that is a text", "--mean", "title", "no number 'title' for --mean"),
                                      ("of the origin that there is not", "--fields", "peple", "no attribute 'peple' for --fields")]:
        tests.refused(f"an attribute {name}", tests.tool("export", *words, "--step", 0, option, value, "--to", "gpkg", "new.gpkg"), 4, told)


def chosen_fields(tests):
    for name, words, kept in [("some fields", ["--keep-fields", "people,title"], ["title", "people"]), ("all but one", ["--drop-fields", "rate"], ["title", "people"])]:
        tests.done(name, tests.tool("import", "summed.geojson", "--keep", *words, "map.json", "rules.json", "--new-rules"), "2 attributes")
        tests.same(f"{name} are kept", list(tests.read("map.meta.json")["areas"][0]["attributes"]), kept)
    tests.refused("a field that is not there", tests.tool("import", "summed.geojson", "--keep", "--keep-fields", "peple", "new.json"), 4,
                  "no property 'peple' for --keep-fields; there is title, people, rate")
    tests.write("twice.geojson", collection((square(0, 0), {"code": "7", "title": "north"}), (square(10, 0), {"code": "7", "title": "south"})))
    tests.refused("an id that comes twice", tests.tool("import", "twice.geojson", "--keep", "--id", "code", "--name", "title", "new.json"), 4,
                  "1 value of --id code come more than once", "'7' is the id of north, south")


def other_metadata(tests):
    """The metadata of another map are refused, and a map has an export without any."""
    words = ["summed.json", "areas", "summed.rules.json", "--step", 0, "--to", "geojson"]
    tests.refused("the metadata of another map", tests.tool("export", *words, "new.geojson", "--meta", "pair.meta.json"), 4, "pair.meta.json is the metadata of another map")
    tests.refused("what is no metadata", tests.tool("export", *words, "new.geojson", "--meta", "summed.rules.json"), 4, "summed.rules.json is no metadata")
    tests.done("without metadata", tests.tool("export", *words, "out.geojson", "--meta", "none"), "4 faces")
    tests.same("the topology has the names", [it["properties"]["name"] for it in tests.read("out.geojson")["features"]], ["Aa", "Bb", "Cc", "Cc"])
