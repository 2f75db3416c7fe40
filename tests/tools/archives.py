"""Tests the archives of tools/publish: an example byte for byte, views of many maps by a plain reader, and that each archive with a fault is refused."""
import json
import random
import subprocess
import sys

import lib
from plain_archive import PlainArchive, face_inside, file_of, read_metadata, runs_through, told

# Behind the folder of these tests, which has modules of names that the others have too.
sys.path += [str(lib.TOP / path) for path in ("tests/sweep", "tests/trials", "bench", "tools/lib")]
import archive_check  # noqa: E402
import archive_format  # noqa: E402
import archive_metadata  # noqa: E402
import command  # noqa: E402
from maps import bent_cells, cells, coast, islands, jagged_cells, nested_rings, star, write  # noqa: E402
from plain_windows import window  # noqa: E402
from windows import Whole, some_window  # noqa: E402

SLICE = b"slice 1\nfaces 1\nface 3 0\nedges 1\nedge 0 3 0 6 10 10 0 10 0 0 20 0 20 10 10 10\nend\n"
# Of the two squares: along the frame of the cell runs the only border of step 1, and through the middle that of step 0.
CELL = b"""window-packet 1 0 0 0 20 10
step 1 1 2 3 2 1 1
face 1 0
face 2 0
mend 0 1 2
put 3 10 0
piece 0 3 1 0
piece 1 6 2 0
edge 2 1 2 2 10 0 10 10
end
inside 1
at 1 3 0
end
"""
# Each map with its size, its ratio, and how many faces a cell has.
MAPS = [(bent_cells, 5, 16, 4), (jagged_cells, 4, 1000, 2), (coast, 8, 16, 2), (islands, 3, 16, 3), (nested_rings, 6, 16, 2), (star, 4, 1, 2), (cells, 4, 0, 1),
        (bent_cells, 1, 16, 1)]
VIEWS = 20
# The example of docs/formats.md: areas, and how they stand in an archive.
AREAS = [{"id": 7, "name": "Wood", "attributes": {"height": 12}}, {"id": 8, "name": None, "attributes": {"height": 30}},
         {"id": "sea", "name": None, "made": "sea", "sources": [], "attributes": {}}]
COLUMNS = (b'"areas":{"id":[7,8,"sea"],"name":["Wood",null,null],"made":{"of":[2,1],"values":["sea"]},"sources":{"of":[2,1],"values":[[]]},'
           b'"attributes":{"height":{"of":[0,2],"values":[12,30]}}}')


def test(tests, examples):
    two_squares(tests, examples)
    empty_maps(tests, examples)
    for number, (shape, size, ratio, most) in enumerate(MAPS):
        write(tests.folder / "random.tgap", shape, size, ratio)
        views(tests, f"{shape.__name__} {size}", Whole(tests.executable, tests.folder / "random.tgap", shape, size, ratio), most, random.Random(number))
    for number in range(3):
        patches(tests, number)
    topologies(tests, examples)
    by_columns(tests)
    turned_bytes(tests, examples)
    unsound(tests, examples)


def published(tests, words, folder, *options):
    """The archive that a folder has after a map was published into it, and what map.json tells."""
    made = tests.tool("publish", *words, folder, *options)
    tests.done(f"publish {words[0]}", made, f"published {folder}/map-")
    found = json.loads((tests.folder / folder / "map.json").read_text())
    return tests.folder / folder / found["archive"], found


def two_squares(tests, examples):
    """The example of docs/formats.md, put together here from its texts."""
    (of_slice, first), (of_cell, second) = told(SLICE), told(CELL)
    index = b"archive 1 2 0 0 20 10 1\nslice 70 c97edf18\nmetadata 0 00000000\ncells 1\ncell 0 0 124 81b368bf\nend\n"
    tests.same("the lengths and sums of its chunks", (of_slice, of_cell), ("70 c97edf18", "124 81b368bf"))
    path, found = published(tests, [examples / "two_squares.tgap"], "squares")
    tests.same("the archive of two squares", path.read_bytes(), file_of(index, first, second))
    tests.same("its length and head", (len(path.read_bytes()), path.read_bytes().split(b"\n")[0]), (327, b"tgap-archive 2 97 2e78ca49 519b9622"))
    tests.same("its name", path.name, "map-19d83e60a64b1cef.archive")
    tests.same("map.json", found, {"format": 2, "archive": "map-19d83e60a64b1cef.archive", "bytes": 327, "version": 0, "history": None, "steps": 1, "faces": 2,
                                   "bounds": [0, 0, 20, 10], "transform": {"scale": [1, 1], "translate": [0, 0]}, "metadata": None})
    made = tests.tool("publish", "--check", path)
    tests.same("the check of it", (made.returncode, made.stdout), (0, "ok 2 faces 1 step 1 cell\n"))
    made = tests.tool("publish", "--check", path, examples / "two_squares.tgap")
    told_of = f"each window as the program gives it of {examples / 'two_squares.tgap'}"
    tests.same("the check with its map", (made.returncode, made.stdout), (0, f"ok 2 faces 1 step 1 cell, {told_of}\n"))


def empty_maps(tests, examples):
    """A map without a face has one cell, of a point."""
    tests.write("empty.tgap", "tgap 2\ntransform 2 3 4 5\nratio 0\nclasses 1\nclass 0 1 1\nfaces 0\narcs 0\nend\n")
    path, found = published(tests, ["empty.tgap"], "empty")
    (of_slice, first), (of_cell, second) = told(b"slice 0\nfaces 0\nedges 0\nend\n"), told(b"window-packet 0 0 0 0 0 0\nend\ninside 0\nend\n")
    index = f"archive 0 0 0 0 0 0 1\nslice {of_slice}\nmetadata 0 00000000\ncells 1\ncell 0 0 {of_cell}\nend\n".encode()
    tests.same("the archive of no face", path.read_bytes(), file_of(index, first, second))
    tests.same("its transform", found["transform"], {"scale": [2, 3], "translate": [4, 5]})
    # A cell of one unit has no inside, and tells nothing of it.
    text = (examples / "two_squares.tgap").read_text().replace("20", "2").replace("10", "1")
    tests.write("narrow.tgap", text)
    path, _ = published(tests, ["narrow.tgap"], "narrow", "--faces", 1)
    texts = [cell.text.decode() for cell in PlainArchive(path.read_bytes()).cells]
    tests.tell("a narrow map tells no inside", [text for text in texts if not text.endswith("\ninside 0\nend\n")])


def views(tests, name, whole, most, chance):
    """Of a map, at some steps: each cell has the window of the slice, and any view is the edges of the cells that it meets, each once."""
    path, found = published(tests, [whole.path], "views", "--faces", most)
    archive = PlainArchive(path.read_bytes())
    tests.same(f"{name}: steps and faces", (archive.last, archive.faces), (whole.last, len(whole.slices[0][1])))
    tests.same(f"{name}: the numbers of map.json", (found["steps"], found["faces"], tuple(found["bounds"])), (archive.last, archive.faces, archive.cells[0].area))
    tests.tell(f"{name}: deep enough", [f"{archive.depth}"] * (archive.depth < 2 < whole.last))
    for step in sorted({0, whole.last, *(chance.randint(0, whole.last) for _ in range(6))}):
        there = archive.windows(step)
        wrong = [cell.area for cell, at, _ in there if at != window(cell.area, whole.slices[step])]
        tests.tell(f"{name}: windows at step {step}", [f"another in {wrong}"] * bool(wrong))
        tests.tell(f"{name}: insides at step {step}", [fault for row in there for fault in inside_faults(*row, whole.slices[step])])
        for _ in range(VIEWS):
            area = some_window(chance, whole)
            rows = [edge for cell, (_, _, edges), _ in there if cells_meet(cell.area, area) for edge in edges]
            edges = {edge.key: edge for edge in rows}
            faces = {face: kind for cell, (_, faces, _), _ in there if cells_meet(cell.area, area) for face, kind in faces.items()}
            seen = all(edges[edge.key] == edge for edge in rows), window(area, (step, faces, sorted(edges.values())))
            tests.same(f"{name}: the view {area} at step {step}", seen, (True, window(area, whole.slices[step])))
    tests.done(f"{name}: the check", tests.tool("publish", "--check", path, whole.path), f"ok {archive.faces}")
    tests.done(f"{name}: the check without the map", tests.tool("publish", "--check", path), f"ok {archive.faces}")


def cells_meet(one, other):
    return one[0] <= other[2] and other[0] <= one[2] and one[1] <= other[3] and other[1] <= one[3]


def inside_faults(cell, found, rows, whole):
    """What is wrong with what a cell tells of its inside at a step."""
    x0, y0, x1, y1 = cell.area
    step, _, edges = found
    if min(x1 - x0, y1 - y0) < 2 or any(runs_through(cell.area, edge.points) for edge in edges):
        return []
    face = face_inside(cell.area, whole[2])
    last = ([row[1:] for row in rows if row[0] >= step] or [None])[-1]
    return [] if last == [face, whole[1].get(face, 0)] else [f"{cell.area} lies in {face}, and {last} is told"]


def patches(tests, number):
    """A map whose faces have several parts and holes: each cell of a grid belongs to any of the faces."""
    chance, side = random.Random(f"patches {number}"), 5 + number
    faces, count, arcs = lib.bent_grid(side)
    owners = [0, *(chance.randint(1, side) for _ in range(faces))]
    numbers = {owner: place for place, owner in enumerate(sorted(set(owners)))}
    rows = [lib.arc_text(numbers[owners[left]], numbers[owners[right]], points) for left, right, points in arcs if owners[left] != owners[right]]
    text = lib.listing(len(numbers) - 1, rows, ratio=chance.choice([0, 1, 16, 1000]))
    path = tests.folder / "patches.tgap"
    path.write_bytes(text)
    ok = tests.program("check", path)
    tests.same(f"patches {number} are a map", ok.returncode, 0)

    class Patches(Whole):
        """The slices of this map."""

        def __init__(self):  # pylint: disable=super-init-not-called
            self.path, self.last = path, len(numbers) - 2
            self.read_slices(tests.executable)

    views(tests, f"patches {number}", Patches(), 2, chance)


def topologies(tests, examples):
    """The metadata of a topology go with it: those beside it, each value of them, or what it tells by itself."""
    words = [examples / "columbus.json", "areas", examples / "columbus.rules.json"]
    path, found = published(tests, words, "columbus")
    whole = json.loads((examples / "columbus.meta.json").read_bytes())
    tests.same("the metadata in the archive", json.dumps(read_metadata(PlainArchive(path.read_bytes()).metadata)), json.dumps(whole))
    tests.same("those of map.json", found["metadata"], {key: value for key, value in whole.items() if key not in ("faces", "areas")})
    tests.same("the transform", found["transform"], whole["transform"])
    tests.done("the check of a topology", tests.tool("publish", "--check", path, *words), "ok 49 faces 48 steps 1 cell")
    before = path.read_bytes()
    path, found = published(tests, words, "columbus", "--meta", "none")
    told_ = read_metadata(PlainArchive(path.read_bytes()).metadata)
    tests.same("without a file", (len(told_["areas"]), told_["faces"], found["metadata"]["name"]), (49, list(range(49)), "columbus"))
    tests.same("the cells are the same", PlainArchive(before).cells[0].text, PlainArchive(path.read_bytes()).cells[0].text)
    made = tests.tool("publish", *words, "columbus", "--meta", examples / "columbus.rules.json")
    tests.refused("metadata that are none", made, 4, "is no metadata of a map")
    whole["areas"][0]["attributes"]["odd"] = float("nan")
    made = tests.tool("publish", *words, "columbus", "--meta", tests.write("odd.meta.json", whole))
    tests.refused("a number that JSON has not", made, 4, f"the metadata of {words[0]} are no JSON object")


def some_value(chance):
    return chance.choice([None, True, "", "\u00e9\"\\", "\ud800", 0, -1, 7, 2**52 - 1, 2**60, -(2**70), 0.1, 1e300, 74.0, [1, {"a": None}], {"first": 1, "by": []}])


def some_areas(chance, count):
    """Areas of which each has an id, and some of them any other members."""
    ids = [place + 1 for place in range(count)] if chance.random() < 0.5 else [some_value(chance) for _ in range(count)]
    names = ["name", "made", "__proto__", "7", "of", "first"]

    def some():
        return {name: some_value(chance) for name in names if chance.random() < 0.6}
    return [{"id": one, **some(), "attributes": some()} for one in ids]


def by_columns(tests):
    """Metadata are written by columns: the example of docs/formats.md, any others, and those whose columns are none."""
    tests.same("the areas by columns", archive_metadata.text_of({"areas": AREAS}), b"{" + COLUMNS + b"}")
    tests.same("faces that count up", archive_metadata.text_of({"faces": list(range(100, 140))}), b'{"faces":{"first":100,"by":[' + b",".join([b"1"] * 39) + b"]}}")
    for stays in ([], ["a"], [2**52] * 9, [True] * 9, [0.5] * 9, [3, 1, 2]):
        tests.same(f"faces {stays} stay a list", json.loads(archive_metadata.text_of({"faces": stays}))["faces"], stays)
    for areas in ([7], [{"attributes": {}}], [{"id": 1}], [{"id": 1, "attributes": None}], "none", None):
        text = archive_metadata.text_of({"areas": areas})
        tests.same(f"the areas {areas} stand as they are", [json.loads(text), archive_metadata.document_of(text)], [{"areas": areas}] * 2)
    chance = random.Random("columns")
    for number in range(200):
        areas = some_areas(chance, number // 8)
        document = {"name": "map", "faces": [chance.randint(0, 10 ** chance.randint(1, 12)) for _ in range(number // 8)], "areas": areas}
        text = archive_metadata.text_of(document)
        same = [json.dumps(found, sort_keys=True) for found in (document, read_metadata(text), archive_metadata.document_of(text))]
        tests.same(f"metadata of {len(areas)} areas, {number}", same[1:], [same[0]] * 2)
    for areas in ({}, {"id": [1]}, {"attributes": {}}, {"id": [1], "attributes": []}, {"id": [1], "name": [1, 2], "attributes": {}}, {"id": 7, "attributes": {}},
                  {"id": [1], "attributes": {"a": []}}, {"id": {"first": 1, "by": ["1"]}, "attributes": {}}, {"id": {"first": 0.5, "by": []}, "attributes": {}},
                  {"id": {"of": [0, 1], "values": [1]}, "attributes": {}}, *({"id": [1, 2], "attributes": {"a": {"of": runs, "values": [1]}}} for runs in
                  ([], [0], [0, 2], [2, 1], [-1, 1], [1, 1, 0, 1], [0, -1], [0, "1"], 7))):
        try:
            tests.same(f"columns that are none: {areas}", archive_metadata.document_of(json.dumps({"areas": areas})), "refused")
        except ValueError as error:
            tests.same(f"columns that are none: {areas}", str(error), "metadata")


# ---- archives with a fault


def refusal(data, served=None):
    """The sentence with which an archive is refused, or None."""
    try:
        archive_check.Check(archive_format.Archive("file", data), served, "the map").all()
        return None
    except command.Failure as failure:
        return str(failure)


def turned_bytes(tests, examples):
    """Every archive that is cut, longer, or has one byte turned is refused; on the command line with a sentence and status 4."""
    path, _ = published(tests, [examples / "three_squares.tgap"], "turned", "--faces", 1)
    data = path.read_bytes()
    tests.same("the archive itself", refusal(data), None)
    sentences = set()
    for bit in range(8):
        passed = [at for at in range(len(data)) if not (told_ := refusal(data[:at] + bytes([data[at] ^ 1 << bit]) + data[at + 1 :])) or sentences.add(told_)]
        tests.tell(f"bit {bit} of each byte turned", [f"let through at {passed}"] * bool(passed))
    passed = [at for at in range(len(data)) if not refusal(data[:at])]
    tests.tell("cut at each byte", [f"let through at {passed}"] * bool(passed))
    tests.tell("sentences of one line", [f"{one!r}" for one in sentences if "\n" in one or not one.startswith("file is ")])
    for name, changed, part in [("cut", data[:-1], "is cut: it ends within the cell"), ("long", data + b"\0", "its end is followed by 1 byte"),
                                ("head", b"tgap-archive 1" + data[14:], "of the format 1, and this tool reads format 2"), ("empty", b"", "is no archive"),
                                ("text", b"tgap 1\n", "is no archive"), ("turned", data[:-1] + bytes([data[-1] ^ 1]), "is damaged: its cell")]:
        (tests.folder / "faulty").write_bytes(changed)
        tests.refused(f"an archive with another {name}", tests.tool("publish", "--check", "faulty"), 4, part)
    (tests.folder / "map-0123456789abcdef.archive").write_bytes(data)
    tests.refused("a name of other bytes", tests.tool("publish", "--check", "map-0123456789abcdef.archive"), 4, f"its name is not that of its bytes, {path.name}")
    tests.refused("of another map", tests.tool("publish", "--check", path, examples / "two_squares.tgap"), 4, "is not the archive of", "2 faces and 1 step")
    tests.refused("an archive that is not there", tests.tool("publish", "--check", "nowhere"), 3, "nowhere cannot be read")


def unsound(tests, examples):
    """Archives whose sums are right and whose texts are not."""
    def made(slice_=SLICE, cell=CELL, index=b"archive 1 2 0 0 20 10 1", metadata=b"", row=b"cell 0 0"):
        (of_slice, first), (of_cell, second), (of_metadata, third) = told(slice_), told(cell), told(metadata)
        (of_metadata, third) = (of_metadata, third) if metadata else ("0 00000000", b"")
        text = b"%b\nslice %b\nmetadata %b\ncells 1\n%b %b\nend\n" % (index, of_slice.encode(), of_metadata.encode(), row, of_cell.encode())
        return file_of(text, first, second, third)

    tests.same("the archive that is changed", refusal(made()), None)
    tests.same("with metadata", refusal(made(metadata=b'{"faces": [0, 0]}')), None)
    idle = CELL.replace(b"packet 1 0", b"packet 2 0").replace(b"step 1", b"step 2 8 9 7 0 0 0\nstep 1").replace(b"at 1", b"at 2")
    cases = [("a point that is there already", dict(cell=CELL.replace(b"put 3 10 0", b"put 3 0 0")), "the record of step 1 breaks rule 4 in cell 0"),
             ("a class that is missing", dict(cell=CELL.replace(b"step 1 1 2 3 2", b"step 1 1 2 3 1").replace(b"face 2 0\n", b"")), "breaks rule 8"),
             ("a line too many", dict(cell=CELL + b"end\n"), "line 14 is not what must come there in cell 0"),
             ("a number in another form", dict(cell=CELL.replace(b"put 3", b"put 03")), "line 6 is not what must come there in cell 0"),
             ("a missing end", dict(cell=CELL[:-4]), "line 13 is not"),
             ("another face inside", dict(cell=CELL.replace(b"at 1 3 0", b"at 1 3 0\nat 0 2 0").replace(b"inside 1", b"inside 2")), "tells another face inside"),
             ("no face inside", dict(cell=CELL.replace(b"at 1 3 0\n", b"").replace(b"inside 1", b"inside 0")), "tells another face inside"),
             ("another area", dict(cell=CELL.replace(b"0 0 20 10", b"0 0 20 9", 1)), "the packet of cell 0 is not from step 1 to 0 of its area"),
             ("an idle record", dict(index=b"archive 2 3 0 0 20 10 1", slice_=SLICE.replace(b"slice 1", b"slice 2"), cell=idle), "change nothing"),
             ("a slice of another step", dict(slice_=SLICE.replace(b"slice 1", b"slice 0")), "in its slice"),
             ("a face without a class", dict(slice_=SLICE.replace(b"faces 1\nface 3 0\n", b"faces 0\n")), "in its slice"),
             ("an index of another depth", dict(index=b"archive 1 2 0 0 20 10 2"), "line 7 of its index"),
             ("more steps than faces", dict(index=b"archive 3 2 0 0 20 10 1"), "line 1 of its index"),
             ("children that are not there", dict(row=b"cell 1 1"), "line 5 of its index"),
             ("metadata of another map", dict(metadata=b'{"faces": [0]}'), "its metadata are not those"),
             ("metadata that are no JSON", dict(metadata=b"{"), "its metadata are not those"),
             ("columns that are none", dict(metadata=b'{"areas":{"id":[1],"name":[],"attributes":{}}}'), "its metadata are not those")]
    for name, changed, part in cases:
        sentence = refusal(made(**changed))
        tests.tell(f"an archive with {name}", [f"{sentence!r}, and not {part!r}"] * (sentence is None or part not in sentence))
    # Sound in itself, and not of the map that is named.
    wider = CELL.replace(b"0 0 20 10", b"0 0 20 11", 1).replace(b"inside 1\nat 1 3 0", b"inside 0")
    bent = CELL.replace(b"edge 2 1 2 2 10 0 10 10", b"edge 2 1 2 3 10 0 9 5 10 10")
    others = [("another slice", dict(slice_=SLICE.replace(b"face 3 0", b"face 3 5"), cell=CELL.replace(b"at 1 3 0", b"at 1 3 5")), "its slice is another"),
              ("another window", dict(cell=bent), "the window of cell 0 at step 0 is another"),
              ("another box", dict(index=b"archive 1 2 0 0 20 11 1", cell=wider), "that has another box")]
    for name, changed, part in others:
        (tests.folder / "other").write_bytes(made(**changed))
        tests.done(f"an archive with {name}, alone", tests.tool("publish", "--check", "other"), "ok 2 faces")
        tests.refused(f"an archive with {name}", tests.tool("publish", "--check", "other", examples / "two_squares.tgap"), 4, "is not the archive of", part)
