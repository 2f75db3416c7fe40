"""Tests import on files in which something is wrong: each is refused by a sentence with nothing written, or read as far as that is right."""
import json
import os
import resource
import subprocess

import lib
from imports import square

CURVE = "CURVEPOLYGON(COMPOUNDCURVE(CIRCULARSTRING(0 0,10 10,20 0),(20 0,0 0)))"
COLLECTION = "GEOMETRYCOLLECTION(POLYGON((0 0,10 0,10 10,0 10,0 0)),MULTIPOLYGON(((10 0,20 0,20 10,10 10,10 0))))"
MIXED = "GEOMETRYCOLLECTION(POLYGON((0 0,10 0,10 10,0 10,0 0)),LINESTRING(0 0,5 5))"
PLAIN = "POLYGON((30 0,40 0,40 10,30 10,30 0))"
MANY = 40_000


def test(tests, examples):
    geometries(tests)
    encodings(tests)
    too_many(tests)
    full_disk(tests, examples)
    an_answer_of_where(tests, examples)
    help_without_libraries(tests)


def layer_of(tests, name, kind, shapes, crs=None):
    """A GeoPackage with one layer of these shapes, each as text or none."""
    from osgeo import ogr
    package = ogr.GetDriverByName("GPKG").CreateDataSource(str(tests.folder / name))
    layer = package.CreateLayer("shapes", crs, kind)
    for shape in shapes:
        feature = ogr.Feature(layer.GetLayerDefn())
        if shape:
            feature.SetGeometry(ogr.CreateGeometryFromWkt(shape))
        layer.CreateFeature(feature)
    return name


def geometries(tests):
    from osgeo import ogr
    layer_of(tests, "curves.gpkg", ogr.wkbCurvePolygon, [CURVE])
    tests.done("curves", tests.tool("import", "curves.gpkg", "--keep", "--cell", 0.01, "curves.json"), "1 area in 1 part")
    layer_of(tests, "collections.gpkg", ogr.wkbUnknown, [COLLECTION, PLAIN])
    tests.done("collections of areas", tests.tool("import", "collections.gpkg", "--keep", "collections.json"), "2 areas in 2 parts")
    layer_of(tests, "mixed.gpkg", ogr.wkbUnknown, [PLAIN, MIXED])
    tests.refused("a collection with a line", tests.tool("import", "mixed.gpkg", "--keep", "new.json"), 4, "id 2 is no area but a GEOMETRYCOLLECTION")
    layer_of(tests, "empty.gpkg", ogr.wkbPolygon, [PLAIN, None, "POLYGON EMPTY", "POLYGON EMPTY"])
    tests.done("empty geometries", tests.tool("import", "empty.gpkg", "--keep", "empty.json"), "left out: 3 features without a geometry", "1 area in 1 part")
    layer_of(tests, "none.gpkg", ogr.wkbPolygon, [None, "POLYGON EMPTY"])
    tests.refused("nothing but empty geometries", tests.tool("import", "none.gpkg", "--keep", "new.json"), 4, "there is no area in it")
    layer_of(tests, "lines.gpkg", ogr.wkbLineString, ["LINESTRING(0 0,5 5)"])
    tests.refused("a layer of lines", tests.tool("import", "lines.gpkg", "new.json"), 4, "lines.gpkg, layer shapes, is none of areas but of Line String")
    holes = {"type": "FeatureCollection", "features": [{"type": "Feature", "properties": {"name": name}, "geometry": {"type": "Polygon", "coordinates": rings}}
                                                       for name, rings in [("ring", [square(0, 0, 30), square(10, 10)]), ("enclave", [square(10, 10)])]]}
    tests.write("holes.geojson", holes)
    tests.done("a hole and what lies in it", tests.tool("import", "holes.geojson", "--keep", "holes.json"), "2 areas in 2 parts: 2 faces, 2 arcs")
    tests.same("the hole is accepted", tests.program("check", "holes.json", "areas", "holes.rules.json").stdout, "ok faces 2 arcs 2 points 10\n")


def shapefile(tests, name, values, code_page):
    """A shapefile of squares in a row with a text each, as bytes, and a file that says how they are written."""
    from osgeo import ogr
    source = ogr.GetDriverByName("ESRI Shapefile").CreateDataSource(str(tests.folder / f"{name}.shp"))
    layer = source.CreateLayer(name, None, ogr.wkbPolygon, ["ENCODING=UTF-8"])
    layer.CreateField(ogr.FieldDefn("name", ogr.OFTString))
    for at, value in enumerate(values):
        feature = ogr.Feature(layer.GetLayerDefn())
        feature.SetField(0, "x" * len(value))
        feature.SetGeometry(ogr.CreateGeometryFromJson(json.dumps({"type": "Polygon", "coordinates": [square(10 * at, 0)]})))
        layer.CreateFeature(feature)
    layer = source = feature = None
    path = tests.folder / f"{name}.dbf"
    data = path.read_bytes()
    for value in values:
        data = data.replace(b"x" * len(value) + b" ", value + b" ", 1)
    path.write_bytes(data)
    (tests.folder / f"{name}.cpg").write_text(code_page)


def names(tests, path):
    return [area["name"] for area in tests.read(path)["areas"]]


def encodings(tests):
    """Texts of one encoding, and of two in one file."""
    shapefile(tests, "latin", ["Zürich".encode("latin-1"), b"Bern"], "ISO-8859-1")
    tests.done("a shapefile that says its encoding", tests.tool("import", "latin.shp", "--keep"), "2 areas")
    tests.same("its names", names(tests, "latin.meta.json"), ["Zürich", "Bern"])
    shapefile(tests, "mixed", ["Zürich".encode("latin-1"), "Genève".encode()], "UTF-8")
    tests.refused("a file of two encodings", tests.tool("import", "mixed.shp", "--keep", "new.json"), 4, "'name' of feature 0 is not UTF-8", "--encoding")
    tests.done("with the one of what is not UTF-8", tests.tool("import", "mixed.shp", "--keep", "--encoding", "ISO-8859-1", "encoded.json"), "2 areas")
    tests.same("both names", names(tests, "encoded.meta.json"), ["Zürich", "Genève"])
    tests.refused("an encoding that there is not", tests.tool("import", "mixed.shp", "--keep", "--encoding", "latin-99", "new.json"), 4, "cannot be read as latin-99")
    (tests.folder / "plain.shp").write_bytes((tests.folder / "latin.shp").read_bytes())
    (tests.folder / "plain.shx").write_bytes((tests.folder / "latin.shx").read_bytes())
    tests.done("a shapefile of nothing but shapes", tests.tool("import", "plain.shp", "--keep"), "2 areas")


def too_many(tests):
    """The limit is told before the borders are cut, which would take minutes."""
    features = ",".join(f'{{"type":"Feature","properties":{{}},"geometry":{{"type":"Polygon","coordinates":[{square(at % 200 * 10, at // 200 * 10)}]}}}}'
                        for at in range(MANY))
    tests.write("many.geojson", f'{{"type":"FeatureCollection","features":[{features}]}}')
    before = resource.getrusage(resource.RUSAGE_CHILDREN).ru_utime
    tests.refused("too many areas", tests.tool("import", "many.geojson", "--keep", "new.json"), 4, "40,000 areas in 40,000 parts", "at most 32,768 faces")
    tests.within("seconds of the processor until that is told", resource.getrusage(resource.RUSAGE_CHILDREN).ru_utime - before, 0, 30)
    (tests.folder / "many.geojson").unlink()


def full_disk(tests, examples):
    """A disk that is full, in memory and seen by the tool alone: it is told, and nothing is left on it."""
    disk = tests.folder / "disk"
    disk.mkdir()
    asked = ["--program", tests.executable]
    cases = [("import", [examples / "africa.geojson", "--first-wins", "disk/new.json", *asked], "20k"),
             ("export", ["columbus.json", "areas", "columbus.rules.json", "--step", 0, "--to", "gpkg", "disk/new.gpkg", *asked], "60k"),
             ("export", ["columbus.json", "areas", "columbus.rules.json", "--step", 0, "--to", "geojson", "disk/new.geojson", *asked], "8k"),
             ("export", ["columbus.json", "areas", "columbus.rules.json", "--step", 0, "--to", "png", "disk/new.png", *asked], "4k")]
    tests.tool("import", examples / "columbus.json", "--keep", "--cell", 0.0001, "--property", "kind", "columbus.json", "columbus.rules.json", "--new-rules")
    for tool, words, size in cases:
        script = f'mount -t tmpfs -o size={size} none disk || exit 99\n"$@"\nstatus=$?\nls -A disk\nexit $status'
        made = tests.command(["unshare", "-m", "sh", "-c", script, "sh", lib.TOP / "tools" / tool, *words]) if os.geteuid() == 0 else None
        if made is None or made.returncode in (99, 127) or "unshare failed" in made.stderr:
            tests.skip(f"{tool} on a full disk", "nothing can be mounted here")
        else:
            tests.refused(f"{tool} to {words[-3]} on a full disk", made, 6, "cannot be written")
    disk.rmdir()


def an_answer_of_where(tests, examples):
    """A topology that was read as a listing is told by its objects."""
    line = tests.program("check", examples / "columbus.json").stdout
    tests.same("a topology without its object", line, "refused 18 bad-line 1\n")
    tests.done("where in it", tests.tool("where", examples / "columbus.json", stdin=line), "is a topology, and was read as a listing", "check", "areas RULES", "its objects are 'areas'")


def help_without_libraries(tests):
    """The help of each tool, by a Python that has neither GDAL nor Shapely."""
    words = ["/usr/bin/python3", "-I", "-B", "-c", "import sys; sys.path.insert(0, sys.argv[1]); sys.modules.update(osgeo=None, shapely=None); "
             "from words import PARSERS; PARSERS[sys.argv[2]](['--help'])", lib.TOP / "tools/lib"]
    for name in ("import", "where", "export", "steps", "loss"):
        tests.done(f"the help of {name} without GDAL", tests.command([*words, name]), f"usage: ./tgap {name}")
    bare = tests.folder / "bare"
    bare.mkdir()
    (bare / "python3").write_text('#!/bin/sh\ncase $* in *osgeo* | *shapely*) exit 1 ;; esac\nexec /usr/bin/python3 "$@"\n')
    (bare / "python3").chmod(0o755)
    made = subprocess.run([lib.TOP / "tools/import", "-h"], env={"PATH": f"{bare}:/usr/bin:/bin"}, capture_output=True, text=True, timeout=60, check=False)
    tests.done("tools/import -h without GDAL", made, "usage: ./tgap import")
