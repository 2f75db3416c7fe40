"""Tests that real files of Debian packages go in by `import FILE` alone, with what is in them: in degrees and metres, with a coordinate system and without one, shapefiles and
GeoPackages; and that the same names come out at the first step and halfway. The packages are downloaded and not installed."""
import subprocess

PACKAGES = ["r-cran-sf", "r-cran-spdata"]
# The file, its areas and the parts in which they lie, its names by their property, and what is told of its coordinates.
KEPT, DEGREES, UNKNOWN = "are in metres and stay", "projected to an equal-area system", "does not say its coordinate system"
FILES = [
    ("sf/shape/nc.shp", 100, 108, "NAME", DEGREES), ("sf/gpkg/nc.gpkg", 100, 108, "NAME", DEGREES), ("sf/shape/olinda1.shp", 470, 470, None, DEGREES),
    ("sf/gpkg/tl.gpkg", 1, 1, None, DEGREES), ("sf/gpkg/buildings.gpkg", 158, 158, None, KEPT), ("spData/shapes/eire.shp", 26, 27, "names", UNKNOWN),
    ("spData/shapes/sids.shp", 100, 108, "NAME", UNKNOWN), ("spData/shapes/NY8_bna_utm18.gpkg", 281, 286, "AREANAME", KEPT),
    ("spData/shapes/boston_tracts.shp", 506, 506, None, DEGREES), ("spData/shapes/columbus.shp", 49, 49, None, UNKNOWN), ("spData/shapes/wheat.shp", 500, 500, None, UNKNOWN),
]


def test(tests, examples):
    folder = tests.folder / "packages"
    folder.mkdir()
    got = subprocess.run(["sh", "-c", 'apt-get -q -o APT::Sandbox::User=root download "$@" && for file in *.deb; do dpkg -x "$file" . || exit; done', "sh", *PACKAGES],
                         cwd=folder, capture_output=True, text=True, timeout=300, check=False)
    if got.returncode:
        tests.skip("real files", f"the packages {' and '.join(PACKAGES)} cannot be had: {got.stderr.strip().splitlines()[-1:]}")
        return
    library = folder / "usr/lib/R/site-library"
    for name, areas, parts, named, told in FILES:
        one_file(tests, library / name, areas, parts, named, told)
    made = tests.tool("import", library / "spData/shapes/world.gpkg", "new.json")
    tests.refused("a world with an overlap", made, 4, "1 pair of areas overlap", "12 wide: Sudan (id 15) and South Sudan (id 177)")


def one_file(tests, path, areas, parts, named, told):
    called = [f"those of {named!r}"] if named else []
    stem = path.name.split(".")[0]
    for ending in (".json", ".meta.json", ".rules.json"):
        (tests.folder / f"{stem}{ending}").unlink(missing_ok=True)
    made = tests.tool("import", path)
    tests.done(f"{path.name} alone", made, told, f"{areas} area{'s' * (areas > 1)} in {parts} part", *called)
    found = tests.read(f"{stem}.meta.json")
    names = sorted({area["name"] for area in found["areas"] if area["name"]})
    tests.same(f"{path.name} has names", bool(names), named is not None)
    words = [f"{stem}.json", "areas", f"{stem}.rules.json"]
    last = int(tests.program("slice", words[0], 4294967295, *words[1:]).stdout.split()[-1])
    for step in sorted({0, last // 2}):
        tests.done(f"{path.name} at step {step}", tests.tool("export", *words, "--step", step, "--to", "topojson", "real.json"), f"{parts - step} face")
        faces = tests.read("real.json")["objects"]["areas"]["geometries"]
        tests.same(f"the names of {path.name} at step {step}", sorted({name for face in faces for name in face["properties"]["names"]}), names)
        tests.same(f"the areas of {path.name} at step {step}", sorted({source for face in faces for source in face["properties"]["sources"]}),
                   sorted(area["id"] for area in found["areas"]))
