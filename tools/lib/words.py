"""The words of the tools: what each takes, and its help. Nothing here wants more than Python's own library."""
import argparse

from command import CALLED, INPUT, TOP

# Steps of a slice as its text has them, formats that export writes, rows of a table.
LAST, FORMATS, ROWS = 4_294_967_294, ("topojson", "geojson", "gpkg", "svg", "png"), 24

IMPORT = """Makes a map of any file of areas that GDAL reads, such as a shapefile, GeoPackage or GeoJSON: a topology, its rules, and
its metadata, which keep the names, ids and attributes of the areas. Borders are moved to a grid and cut where they meet,
so that neighbours share them; what had to be changed is told. Nothing is written where areas overlap, unless --slivers or
--first-wins says what to make of it."""
IMPORT_END = """Without one of --t_srs, --keep and --quantize the coordinates are kept where they are in metres already, or where nobody
knows what they are; else they are projected to an equal-area system that is centred on the data. A rules file that is
there already stays as it is.

status: 0 done, 2 words, 3 the file cannot be read, 4 refused, 6 a file cannot be written

examples: {called} import districts.shp
          {called} import africa.geojson africa.json africa.rules.json --t_srs EPSG:6933 --cell 100 --property subregion --sea"""

EXPORT = """Writes a slice as a file for other tools. With its map it has the coordinates, the coordinate system and the names of the
classes, and for each face its number, class and area, the name of the area from which it grew, and the names and ids of
all areas of which it is made; its rings are those of /topo/STEP of a server, which the tool starts for it. The slice is a
text, as {called} slice and {called} replay give it, or the step of a map. Without a map it is in grid units.

  topojson   the same points, for d3 and mapshaper; the program reads it again
  geojson    in longitude and latitude where the coordinate system is known, for MapLibre and tippecanoe
  gpkg       a GeoPackage, for QGIS and GDAL: the layer 'areas', and the table 'sources' with what each face is made of
  svg, png   a picture, a colour for each class"""
EXPORT_END = """status: 0 done, 2 words, 3 a file cannot be read, 4 refused, 5 the map has no such step, 6 OUT cannot be written

examples: {called} export africa.json areas africa.rules.json --faces 24 --to gpkg coarse.gpkg
          {called} slice africa.json 30 areas africa.rules.json | {called} export - --to svg coarse.svg"""

STEPS = """Tells how many steps a map has, and after which of them how many faces, which least area and how many points are left.
The least area is that of the faces which a later step merges, in square units of the source; a point that two edges
share counts for both, as it is sent for both."""
STEPS_END = """status: 0 done, 2 words, 3 a file cannot be read, 4 the map is refused, 5 no step suits

examples: {called} steps examples/columbus.json areas examples/columbus.rules.json
          {called} steps landuse.json areas landuse.rules.json --scale 1:50000"""

LOSS = """Tells how much of a map lies, after some steps, in another face than the union of the faces of which that face is made.
The cause is the vertex removal: each triangle that it cuts off goes from the face at one side of a border to that at the
other. The sum of those between faces that are still two is told beside it: no more can have moved. A greater ratio cuts
off less, and keeps more points."""
LOSS_END = """status: 0 done, 2 words, 3 a file cannot be read, 4 the map is refused, 5 there is no such step

example: {called} loss examples/columbus.json areas examples/columbus.rules.json --steps 16,32,48 --ratio 4,64,1024"""

WHERE = """Tells where in a map a refusal of the program is: which areas, by their id and name, and at which coordinates.
FAULT is the line 'refused ..'; without it, it is read from the standard input."""
WHERE_END = """status: 0 told, 2 words, 3 a file cannot be read, 4 the line is no refusal, or not one of this map, 6 OUT cannot be written

examples: {called} check world.json areas world.rules.json | {called} where world.json areas --geojson fault.geojson
          {called} where world.json areas refused 15 meets 9522 9612 5 3 2
          {called} where world.json areas --all
          {called} check examples/crossing.tgap | {called} where examples/crossing.tgap"""

PUBLISH = """Writes a map into a folder that any web server can give: an archive with all steps of the map, of which web pages read what they
show by range requests, and map.json, which tells the newest archive and is switched last. Whoever reads an older archive
keeps it: the one that was the newest stays, and those before it go. The map is a file, or one version of that of a server.
With --check an archive is tested: its sums, its form, and that its records fit; and with its map, that each of its windows
is the one that the program gives."""
PUBLISH_END = """status: 0 done, 2 words, 3 a file or a server cannot be read, 4 refused, 6 FOLDER cannot be written

examples: {called} publish africa.json areas africa.rules.json www/africa
          {called} publish --from http://localhost:8080/ www/map
          {called} publish --check www/africa/map-0123456789abcdef.archive africa.json areas africa.rules.json"""

JOURNAL = """Tells what stands in a journal of edits, which {called} keep writes, and makes one edit of all of them. A server has at most 64
versions, and each edit makes one; so a map that is edited for long wants its edits joined from time to time, while its
server is stopped.

  list JOURNAL
      tells each entry, whether it counts, and where the entries end; a server may hold the journal meanwhile
  check MAP JOURNAL [OBJECT RULES]
      tells what a server makes of it at its start, how many more edits have room, and in words why it is refused; it
      takes a copy, so a server may hold the journal meanwhile
  join MAP JOURNAL [OBJECT RULES]
      puts a journal with one edit in its place, which has all lines of all edits, once the program has made the same map
      of both; the journal before stays as JOURNAL.before until the next join. Where anything stops it, the old journal
      or the new one is there, whole"""
JOURNAL_END = """status: 0 done, 2 words, 3 a file cannot be read, or another program holds the journal, 4 the map or the journal is refused, or
there is nothing to join, 6 the new journal cannot be written

examples: {called} journal list columbus.journal
          {called} journal check columbus.json columbus.journal areas columbus.rules.json --versions 16
          {called} journal join columbus.json columbus.journal areas columbus.rules.json"""


def parser_of(tool, description, ending):
    """The parser of a tool. Words that it does not know end with its usage and status 2."""
    return argparse.ArgumentParser(prog=f"{CALLED} {tool}", description=description.format(called=CALLED), epilog=ending.format(called=CALLED),
                                   allow_abbrev=False, formatter_class=argparse.RawDescriptionHelpFormatter)


def add_map(parser, needed=True):
    """The words that name a map, as the program has them: a listing alone, or a topology with its object and its rules."""
    parser.add_argument("map", metavar="MAP", nargs=None if needed else "?", help="a listing, or a topology with OBJECT and RULES")
    parser.add_argument("object", metavar="OBJECT", nargs="?", help="an object of the topology, or - for the only one")
    parser.add_argument("rules", metavar="RULES", nargs="?", help="the rules file of the topology")


def add_program(parser):
    parser.add_argument("--program", metavar="FILE", default=str(TOP / "tgap"), help=f"the program to be asked (the launcher, {CALLED})")


def add_paper(parser):
    parser.add_argument("--paper", type=positive(float), metavar="MM2", default=4.0, help="the least area at a scale, in square millimetres of the paper (4)")


def positive(kind):
    """What reads a number that is greater than 0 and of a usable size."""
    def read(text):
        value = kind(text)
        if not 0 < value < 1e15:
            raise ValueError(text)
        return value
    read.__name__ = "positive number"
    return read


def scale(text):
    """N of a scale, which is written 1:N or N."""
    return positive(float)(text.removeprefix("1:"))


def listed(kind):
    """What reads words with commas between them."""
    def read(text):
        return [kind(word) for word in text.split(",")]
    read.__name__ = "list of numbers"
    return read


def number(least, most):
    def read(text):
        value = int(text)
        if not least <= value <= most:
            raise ValueError(text)
        return value
    read.__name__ = f"number from {least} to {most}"
    return read


def names(text):
    """Names with commas between them."""
    return [name for name in text.split(",") if name]


def import_words(words):
    parser = parser_of("import", IMPORT, IMPORT_END)
    parser.add_argument("file", metavar="FILE", help="the file of areas, or - for the standard input")
    parser.add_argument("topology", metavar="OUT.json", nargs="?", help="the topology (FILE's name with the ending .json, in this folder)")
    parser.add_argument("rules", metavar="OUT.rules.json", nargs="?", help="the rules (the name of the topology with the ending .rules.json)")
    parser.add_argument("--layer", metavar="L", help="the layer, where there are several")
    parser.add_argument("--encoding", metavar="E", help="how texts are written that are not UTF-8, such as ISO-8859-1")
    parser.add_argument("--s_srs", metavar="CRS", help="the coordinate system of the file, where it does not say it")
    grid = parser.add_mutually_exclusive_group()
    grid.add_argument("--t_srs", metavar="CRS", default=None,
                      help="project to this coordinate system, such as EPSG:3035, or to an equal-area one that is centred on the data (auto)")
    grid.add_argument("--quantize", metavar="Q", type=positive(int), help="keep the coordinates, with Q steps along the longer side")
    grid.add_argument("--keep", action="store_true", help="keep the coordinates, with steps of --cell of their units")
    parser.add_argument("--cell", metavar="C", type=positive(float), help="a step of the grid in units of the coordinates (1)")
    add_kept(parser)
    parser.add_argument("--sea", action="store_true", help="make the outside an area of the class 'sea', so that islands have a neighbour")
    overlaps = parser.add_mutually_exclusive_group()
    overlaps.add_argument("--slivers", metavar="WIDTH", type=positive(float),
                          help="make overlaps, gaps and open cracks that are at most so wide areas of the class 'sliver', which are merged away first")
    overlaps.add_argument("--first-wins", action="store_true", help="give what several areas claim to the first of them")
    parser.add_argument("--geojson", metavar="OUT", help="write the overlaps for which the file is refused, to look at them")
    parser.add_argument("--new-rules", action="store_true", help="write the rules anew, where they are there already")
    add_program(parser)
    chosen = parser.parse_intermixed_args(words)
    if chosen.quantize and chosen.cell:
        parser.error("--cell and --quantize are two ways to say the same")
    if chosen.file == "-" and not chosen.topology:
        parser.error("the standard input has no name, so OUT.json is to be named")
    return chosen


def add_kept(parser):
    """The options of import that say what is kept of each area."""
    parser.add_argument("--property", metavar="P", help="the property that is the class of an area")
    parser.add_argument("--id", metavar="P", help="the property that is the id of an area (the number of the feature)")
    parser.add_argument("--name", metavar="P", help="the property that is the name of an area, or - for none (one that is called so)")
    parser.add_argument("--made", metavar="P", help="the property that marks slivers and the sea of an import before, as export writes it")
    fields = parser.add_mutually_exclusive_group()
    fields.add_argument("--keep-fields", metavar="P,P..", type=names, help="keep these properties in the metadata (all)")
    fields.add_argument("--drop-fields", metavar="P,P..", type=names, default=[], help="keep all properties but these")
    parser.add_argument("--title", metavar="TEXT", help="the name of the map in its metadata (that of the topology's file)")
    parser.add_argument("--attribution", metavar="TEXT", default="", help="whose data it is, for the metadata")


def export_words(words):
    parser = parser_of("export", EXPORT, EXPORT_END)
    parser.add_argument("words", metavar="SLICE | MAP [OBJECT RULES]", nargs="+", help="a slice text, with its map behind it where that is known; or, "
                        "with --step, --faces or --scale, a map alone. - is the standard input")
    add_program(parser)
    parser.add_argument("--to", nargs=2, metavar=("FORMAT", "OUT"), required=True, help=f"one of {', '.join(FORMATS)}, and the file")
    which = parser.add_mutually_exclusive_group()
    which.add_argument("--step", metavar="STEP", type=number(0, LAST), help="the slice of the map after this step")
    which.add_argument("--faces", metavar="N", type=number(1, LAST), help="the first slice with at most N faces")
    which.add_argument("--scale", metavar="1:N", type=scale, help="the first slice for this scale, as steps has it")
    add_paper(parser)
    parser.add_argument("--meta", metavar="FILE", help="the metadata of the map, or none (that of the map's name, where it is there)")
    parser.add_argument("--fields", metavar="P,P..", type=names, default=[], help="attributes of the area from which a face grew, or all")
    for kind, what in (("sum", "the sum"), ("mean", "the mean, by area"), ("least", "the least"), ("greatest", "the greatest")):
        parser.add_argument(f"--{kind}", metavar="P,P..", type=names, default=[], help=f"{what} of these attributes of the areas in a face")
    parser.add_argument("--crs", metavar="CRS", help="the coordinate system, where the topology does not say it")
    parser.add_argument("--without", metavar="CLASS", help="leave the faces of this class out, such as the sea")
    parser.add_argument("--width", metavar="PIXELS", type=number(16, 8000), default=800, help="the width of a picture (800)")
    chosen = parser.parse_intermixed_args(words)
    chosen.format, chosen.out = chosen.to
    if chosen.format not in FORMATS:
        parser.error(f"{chosen.format!r} is none of {', '.join(FORMATS)}")
    name_slice(parser, chosen)
    return chosen


def name_slice(parser, chosen):
    """Tells the words of export apart: a slice and its map, or a map of which the step is told."""
    asked = chosen.step is not None or chosen.faces or chosen.scale
    rest = list(chosen.words) if asked else chosen.words[1:]
    chosen.slice = None if asked else chosen.words[0]
    if len(rest) not in ((1, 3) if asked else (0, 1, 3)):
        parser.error("a map is a listing, MAP, or a topology, MAP OBJECT RULES" + ("" if asked else "; behind the slice, or with --step, --faces or --scale"))
    chosen.map, chosen.object, chosen.rules = (rest + [None] * 3)[:3]


def steps_words(words):
    parser = parser_of("steps", STEPS, STEPS_END)
    add_map(parser)
    add_program(parser)
    parser.add_argument("--every", type=number(1, LAST), metavar="N", help=f"a row for every N-th step (about {ROWS} rows in all)")
    suits = parser.add_mutually_exclusive_group()
    suits.add_argument("--least", type=positive(float), metavar="AREA", help="tell the first step after which no area is smaller than AREA square units")
    suits.add_argument("--scale", type=scale, metavar="1:N", help="the same for a map of this scale, if the units of the source are metres")
    suits.add_argument("--faces", type=number(1, LAST), metavar="N", help="tell the first step after which at most N faces are left")
    add_paper(parser)
    parser.add_argument("--alone", action="store_true", help="tell the number of that step and nothing else")
    parser.add_argument("--meta", metavar="OUT", help="write the metadata of the map, or write its classes and steps anew where it is there")
    chosen = parser.parse_intermixed_args(words)
    if chosen.alone and not (chosen.least or chosen.scale or chosen.faces):
        parser.error("--alone wants one of --least, --scale and --faces")
    if chosen.meta and not chosen.rules:
        parser.error("--meta wants a topology with its OBJECT and RULES")
    return chosen


def loss_words(words):
    parser = parser_of("loss", LOSS, LOSS_END)
    add_map(parser)
    add_program(parser)
    which = parser.add_mutually_exclusive_group()
    which.add_argument("--steps", type=listed(number(0, LAST)), metavar="K,K..", help="the steps (those that leave a half, a quarter .. of the faces)")
    which.add_argument("--faces", type=listed(number(1, LAST)), metavar="N,N..", help="the first steps after which at most so many faces are left")
    which.add_argument("--scale", type=listed(scale), metavar="1:N,..", help="the first steps for these scales, as steps has them")
    add_paper(parser)
    parser.add_argument("--ratio", type=listed(number(0, 65_535)), metavar="R,R..", help="measure with these ratios in place of that of RULES")
    parser.add_argument("--by-face", action="store_true", help="tell of each face too what moved and at most how much, as twice the area on the grid")
    chosen = parser.parse_intermixed_args(words)
    if chosen.ratio and not chosen.rules:
        parser.error("--ratio wants a topology with its RULES")
    return chosen


def publish_words(words):
    parser = parser_of("publish", PUBLISH, PUBLISH_END)
    parser.add_argument("words", metavar="MAP [OBJECT RULES] FOLDER", nargs="*", help="a listing, or a topology with OBJECT and RULES, or - for the standard "
                        "input; and the folder. With --from the folder alone, with --check the map alone or nothing")
    add_program(parser)
    kinds = parser.add_mutually_exclusive_group()
    kinds.add_argument("--from", dest="source", metavar="URL", help="publish the newest version of the map that is served there")
    kinds.add_argument("--check", metavar="FILE", help="test an archive")
    parser.add_argument("--faces", type=number(1, LAST), metavar="N", default=300, help="lead each cell up to N faces (300)")
    parser.add_argument("--meta", metavar="FILE", help="the metadata of the map, or none (that of the map's name, where it is there)")
    chosen = parser.parse_intermixed_args(words)
    rest = list(chosen.words)
    chosen.folder = None if chosen.check or not rest else rest.pop()
    chosen.map, chosen.object, chosen.rules = (rest + [None] * 3)[:3]
    if chosen.folder is None and not chosen.check or len(rest) not in ((0,) if chosen.source else (0, 1, 3) if chosen.check else (1, 3)):
        parser.error("the words are MAP FOLDER, MAP OBJECT RULES FOLDER, --from URL FOLDER or --check FILE with the words of its map")
    if chosen.meta and not chosen.rules or chosen.check and chosen.meta:
        parser.error("--meta wants a topology that is published, with its OBJECT and RULES")
    return chosen


def journal_words(words):
    parser = parser_of("journal", JOURNAL, JOURNAL_END)
    parser.add_argument("what", metavar="list | check | join", choices=["list", "check", "join"])
    parser.add_argument("words", metavar="[MAP] JOURNAL [OBJECT RULES]", nargs="*", help="the journal; but for list, the map before it, and the OBJECT and "
                        "RULES of a topology behind it")
    add_program(parser)
    parser.add_argument("--versions", type=number(1, 64), metavar="N", help="check: how many VERSIONS the server has (64)")
    chosen = parser.parse_intermixed_args(words)
    if len(chosen.words) not in ((1,) if chosen.what == "list" else (2, 4)):
        parser.error(f"the words of {chosen.what} are " + ("JOURNAL" if chosen.what == "list" else "MAP JOURNAL, or MAP JOURNAL OBJECT RULES"))
    rest = list(chosen.words)
    chosen.map = rest.pop(0) if chosen.what != "list" else None
    chosen.journal, chosen.object, chosen.rules = (rest + [None] * 3)[:3]
    if chosen.what == "join" and chosen.journal == INPUT:
        parser.error("a journal that is joined is a file, and not the standard input")
    if chosen.versions and chosen.what != "check":
        parser.error("--versions is a word of check")
    chosen.versions = chosen.versions or 64
    return chosen


def where_words(words):
    parser = parser_of("where", WHERE, WHERE_END)
    parser.add_argument("map", metavar="MAP", help="the topology, or the listing")
    parser.add_argument("words", metavar="[OBJECT] [FAULT]", nargs="*", help="the object of the topology, and the line of the refusal")
    parser.add_argument("--geojson", metavar="OUT", help="write what is told as areas, lines and points too")
    parser.add_argument("--name", metavar="P", help="the property that is the name of an area (name)")
    parser.add_argument("--all", action="store_true", help="list all pairs of areas that overlap, the largest first")
    chosen = parser.parse_intermixed_args(words)
    rest = " ".join(chosen.words).split()
    chosen.object = rest.pop(0) if rest and rest[0] not in ("refused", "ok") else None
    chosen.fault = " ".join(rest) or None
    chosen.wrong = parser.error
    return chosen


PARSERS = {"import": import_words, "export": export_words, "steps": steps_words, "loss": loss_words, "publish": publish_words,
           "journal": journal_words, "where": where_words}
