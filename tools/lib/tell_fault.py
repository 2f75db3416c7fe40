"""tools/where: a refusal of the program in the words of the one whose map it is."""
import os
import re
import stat
import sys

import places
from command import CALLED, INPUT, Failure, counted, read_bytes, write_text, written
from places import Told, collection
from topology import chosen_object, load_document, load_json, polygons_of, read_listing, read_topology, walk, Feature

SHAPES = {
    1: "the file is JSON, but no object", 2: "its member 'type' is not 'Topology'", 3: "its member 'objects' is no object", 4: "its member 'arcs' is no list",
    5: "its 'transform' lacks two numbers in 'scale' or in 'translate'", 6: "arc {at} is no list", 7: "a position of arc {at} does not begin with two numbers",
    8: "geometry {at} is no object, or a collection without geometries", 9: "the arcs of geometry {at} are not lists of lists of whole numbers",
}
RULES = {0: "JSON", 1: "an object", 2: "'property', a text", 3: "'classes', pairs of a name and a weight from 1 to 65535",
         4: "'default', the number of a class", 5: "'compat', a row for each class with an entry for each class, 0 to 1000", 6: "'ratio', 0 to 65535"}


def fault_from_input(may_lack):
    """The first line of the standard input that is an answer of check."""
    if sys.stdin.isatty() or (may_lack and not stat.S_ISFIFO(os.fstat(sys.stdin.fileno()).st_mode)):
        return None
    lines = sys.stdin.read().splitlines()
    return next((line for line in lines if re.match("refused |ok ", line)), lines[0] if lines else None)


def parsed(fault):
    """The number of a refusal, and the numbers behind its name."""
    match = re.fullmatch(r"refused (\d+) ([a-z-]+)((?: \S+)*)", fault)
    if not match:
        raise Failure(f"{fault[:80]!r} is no refusal of the program")
    rest = match[3].split()
    if match[1] == "9":
        return 9, rest
    try:
        return int(match[1]), [int(word) for word in rest]
    except ValueError as error:
        raise Failure(f"{fault[:80]!r} is no refusal of the program") from error


def raw_rings(document, chosen):
    """The rings of a file in which indexes may be wrong, with their features."""
    rings = []
    for number, geometry in enumerate(walk(chosen)):
        for polygon in polygons_of(geometry):
            rings.extend((Feature(number, geometry.get("id"), geometry.get("properties") or {}), ring) for ring in polygon)
    return rings


class Raw:
    """A topology as it stands in its file, for faults that keep it from being read."""

    def __init__(self, chosen):
        self.document = load_document(chosen.map)
        self.rings = raw_rings(self.document, chosen_object(self.document, chosen.map, chosen.object))
        self.name = chosen.name

    def of_arc(self, arc):
        titles = dict.fromkeys(feature.title(self.name) for feature, ring in self.rings if arc in ring or ~arc in ring)
        return f"arc {arc}, in the border of {' and '.join(titles)}" if titles else f"arc {arc}, which no area uses"

    def position(self, arc, at):
        return f"position {at} of {self.of_arc(arc)}, is {self.document['arcs'][arc][at]}"

    def index(self, ring, place, index):
        feature, indexes = self.rings[ring]
        return f"the ring {ring}, of {feature.title(self.name)}, has the index {index} at place {place}, and there are {len(self.document['arcs'])} arcs"


def not_json(chosen, _):
    load_json(chosen.map)
    return Told([f"{chosen.map} is JSON, but is nested 128 deep or more, or it is not the file that was refused"])


def shape(chosen, numbers):
    place, at = numbers
    told = [f"{chosen.map} does not have the form of a topology: " + SHAPES[place].format(at=at)]
    document = load_json(chosen.map)
    if place == 2 and isinstance(document, dict):
        told.append(f"it is {document.get('type')!r}; {CALLED} import makes a topology of it")
    return Told(told)


def objects(chosen, _):
    return Told([f"{chosen.map} has the objects {', '.join(map(repr, load_document(chosen.map)['objects'])) or 'none'}; name one of them"])


def objects_of(path):
    """The names of the objects where a file is a topology, or None where it is none."""
    try:
        return list(load_document(path)["objects"])
    except Failure:
        return None


def bad_line(chosen, numbers):
    line, = numbers
    names = objects_of(chosen.map)
    if names:
        word = names[0] if len(names) == 1 else "OBJECT"
        return Told([f"{chosen.map} is a topology, and was read as a listing, since its object and its rules were not named: "
                     f"{CALLED} check {chosen.map} {word} RULES", f"its objects are {', '.join(map(repr, names))}"])
    lines = read_bytes(chosen.map).decode(errors="replace").split("\n")
    found = repr(lines[line - 1][:100]) if line <= len(lines) and (line < len(lines) or lines[-1]) else "the end of the file"
    return Told([f"line {line} of {chosen.map} is {found}, which must not come there; docs/formats.md has the lines of a listing"])


def sentence(text):
    return lambda chosen, numbers: Told([text.format(*numbers, map=chosen.map)])


def raw(method, text):
    return lambda chosen, numbers: Told([text.format(getattr(Raw(chosen), method)(*numbers[:3]))])


def in_map(tell):
    """A fault that is told on the map as it was read."""
    def told(chosen, numbers):
        is_listing = chosen.object is None and not read_bytes(chosen.map).lstrip().startswith(b"{")
        topology = read_listing(chosen.map) if is_listing else read_topology(chosen.map, chosen.object)
        return tell(places.Places(topology, chosen.name), *numbers)
    return told


TELLERS = {
    1: not_json, 2: shape, 3: objects, 4: objects,
    5: raw("position", "a coordinate is not whole: {}; the grid is missing, which " + CALLED + " import or topoquantize makes"),
    6: raw("position", "a coordinate is beyond 2147483648 in one direction: {}; take a coarser grid, or an origin that is nearer"),
    7: raw("of_arc", "there are fewer than two positions in {}"),
    8: raw("index", "{}"),
    9: sentence("{map} has {1} {0}, which is more than the program takes at once; take a smaller region, or simpler borders"),
    11: in_map(places.ring_open), 12: in_map(places.ring_flat), 13: in_map(places.side_taken), 14: in_map(places.same_sides),
    15: in_map(places.meets), 16: in_map(places.node), 17: in_map(places.stack),
    18: bad_line,
    19: lambda chosen, numbers: Told([f"the rules file does not have {RULES[numbers[0]]} as it must be"]),
    20: sentence("a file has more than {0} bytes; take a smaller region, or fewer digits"),
}


def told_of(chosen):
    if chosen.fault.startswith("ok "):
        return Told([f"{chosen.map} was accepted: {chosen.fault}"])
    number, numbers = parsed(chosen.fault)
    if number not in TELLERS:
        raise Failure(f"the program has no refusal {number}")
    try:
        return TELLERS[number](chosen, numbers)
    except (TypeError, IndexError, KeyError, ValueError, StopIteration) as error:
        raise Failure(f"{chosen.map} has no such place as {chosen.fault!r} names: it is not the map that was refused") from error


def main(chosen):
    if chosen.fault is None and chosen.map != INPUT:
        chosen.fault = fault_from_input(chosen.all)
    if chosen.fault is None and not chosen.all:
        chosen.wrong("there is no FAULT, neither among the words nor on the standard input")
    told = told_of(chosen) if chosen.fault else Told([])
    if chosen.all:
        # It wants Shapely.
        import overlaps
        topology = read_topology(chosen.map, chosen.object)
        told = told.with_more(overlaps.told_of(topology, chosen.name))
    if chosen.geojson and not told.shapes:
        raise Failure(f"there is no place to be drawn; {chosen.geojson} is not written: {'; '.join(told.lines)}")
    if chosen.geojson:
        with written(chosen.geojson) as (new,):
            write_text(new, collection(told.shapes, told.crs))
        told.lines.append(f"wrote {chosen.geojson}: {counted(len(told.shapes), 'shape')}")
    print("\n".join(told.lines))
