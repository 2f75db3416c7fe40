"""Where in a map a fault is: the arcs, areas and coordinates that a refusal means."""
import functools
import json
from dataclasses import dataclass, field
from fractions import Fraction


@dataclass
class Told:
    """What is told of a fault: lines of text, and shapes as GeoJSON has them, each with what it is."""
    lines: list
    shapes: list = field(default_factory=list)
    crs: str = None

    def with_more(self, other):
        return Told(self.lines + other.lines, self.shapes + other.shapes, self.crs or other.crs)


def collection(shapes, crs):
    """Shapes as GeoJSON, each with what it is; the coordinate system stands in the member that GeoJSON of 2008 has for it."""
    named = {"crs": {"type": "name", "properties": {"name": crs}}} if crs else {}
    features = [{"type": "Feature", "properties": {"what": what}, "geometry": geometry} for what, geometry in shapes]
    return json.dumps({"type": "FeatureCollection", **named, "features": features}, ensure_ascii=False) + "\n"


def spelled(number):
    return f"{number:.7f}".rstrip("0").rstrip(".")


class Places:
    """A map whose places are told in the words of its source."""

    def __init__(self, topology, name=None):
        self.topology, self.name, self.shapes = topology, name, []

    def at(self, point):
        return ", ".join(spelled(value) for value in self.topology.place(point))

    def face(self, number):
        """A face as its owner would call it."""
        if number == 0:
            return "the outside"
        face = self.topology.faces[number - 1]
        return face.feature.title(self.name)

    def border(self, arc):
        """Whose border an arc is."""
        titles = list(dict.fromkeys(face.feature.title(self.name) for face in self.topology.users.get(arc, [])))
        if not titles:
            return "which no area uses"
        between = f"of {titles[0]} with {titles[1]}" if len(titles) == 2 else f"of {' and '.join(titles)} with the outside"
        return f"in the border {between}"

    def arc(self, number):
        points = self.topology.arcs[number]
        self.line(f"arc {number}", points)
        return f"arc {number}, {self.border(number)}, from {self.at(points[0])} to {self.at(points[-1])}"

    def segment(self, number):
        arc, at = self.topology.segments()[number]
        ends = self.topology.arcs[arc][at:at + 2]
        self.line(f"segment {number}", ends)
        return f"segment {number} is {self.border(arc)} (arc {arc}), from {self.at(ends[0])} to {self.at(ends[1])}"

    def line(self, what, points):
        self.shapes.append((what, {"type": "LineString", "coordinates": [self.topology.place(point) for point in points]}))

    def point(self, what, point):
        self.shapes.append((what, {"type": "Point", "coordinates": self.topology.place(point)}))

    def area(self, number):
        """Draws a face."""
        face = self.topology.faces[number - 1]
        if face.rings:
            rings = [[self.topology.place(point) for point in self.topology.line(ring)] for ring in face.rings]
            self.shapes.append((self.face(number), {"type": "Polygon", "coordinates": rings}))

    def told(self, *lines):
        return Told(list(lines), self.shapes, self.topology.crs)


def of_ring(places, ring):
    feature, indexes = places.topology.rings[ring]
    return feature.title(places.name), indexes


def ring_open(places, ring, place):
    title, indexes = of_ring(places, ring)
    here, after = indexes[place], indexes[(place + 1) % len(indexes)]
    end, start = places.topology.line([here])[-1], places.topology.line([after])[0]
    places.point("an arc ends", end)
    places.point("the next one starts", start)
    return places.told(f"a ring of {title} (ring {ring}) is open: {places.arc(max(here, ~here))}, ends at {places.at(end)}",
                       f"and the next one, {places.arc(max(after, ~after))}, starts at {places.at(start)}")


def ring_flat(places, ring):
    title, indexes = of_ring(places, ring)
    points = places.topology.line(indexes)
    places.line(f"ring {ring}", points)
    return places.told(f"a ring of {title} (ring {ring}) has no area on the grid: it runs from {places.at(min(points))} to {places.at(max(points))} and back")


def side_taken(places, arc, side, first, second):
    for face in (first, second):
        places.area(face)
    return places.told(f"{places.face(first)} and {places.face(second)} both lie at the {'left' if side == 0 else 'right'} of {places.arc(arc)}",
                       "so they overlap, or one of them is there twice")


def same_sides(places, arc, face):
    places.area(face)
    return places.told(f"{places.face(face)} lies at both sides of {places.arc(arc)}")


def meets(places, first, second, x, y, divisor):
    point = (Fraction(x, divisor), Fraction(y, divisor))
    lines = [places.segment(first), places.segment(second), f"they meet at {places.at(point)}"]
    places.point("they meet", point)
    return places.told(*lines)


def half_turn(direction):
    return 0 if direction[1] > 0 or (direction[1] == 0 and direction[0] > 0) else 1


def earlier(one, other):
    """Whether a spoke comes before another one, counter-clockwise from the direction of positive x."""
    (ax, ay), (bx, by) = one[0], other[0]
    return half_turn((ax, ay)) - half_turn((bx, by)) or (bx * ay - by * ax > 0) - (bx * ay - by * ax < 0)


def spokes(topology, node):
    """The arcs that leave a node, counter-clockwise, as their direction and number."""
    leaving = []
    for arc in topology.users:
        points = topology.arcs[arc]
        leaving += [((after[0] - node[0], after[1] - node[1]), arc) for start, after in ((points[0], points[1]), (points[-1], points[-2])) if start == node]
    return sorted(leaving, key=functools.cmp_to_key(earlier))


def node(places, x, y, spoke, after, left, right):
    around = spokes(places.topology, (x, y))
    places.point("the node", (x, y))
    return places.told(f"at {places.at((x, y))} {len(around)} arcs meet, and the area between two of them is not the same for both:",
                       f"{places.arc(around[spoke][1])}, has {places.face(left)} there",
                       f"{places.arc(around[after][1])}, has {places.face(right)} there")


def crossings(topology, abscissa):
    """The segments that a vertical line crosses, from above, each with its height."""
    found = []
    for number, (arc, at) in enumerate(topology.segments()):
        (ax, ay), (bx, by) = topology.arcs[arc][at:at + 2]
        if min(ax, bx) < abscissa < max(ax, bx):
            found.append((ay + (by - ay) * (abscissa - ax) / (bx - ax), number))
    return sorted(found, reverse=True)


def stack(places, line, place, upper, lower):
    abscissa = Fraction(2 * line + 1, 2)
    crossed = crossings(places.topology, abscissa)
    lines = [f"down the line x = {places.at((abscissa, 0)).split(',')[0]}, below {counted_borders(place)}, one is in {places.face(upper)}"]
    if place < len(crossed):
        height, number = crossed[place]
        places.point("the faces disagree", (abscissa, height))
        lines += [f"but the next border, at {places.at((abscissa, height))}, has {places.face(lower)} above it:", places.segment(number)]
    else:
        lines.append("but no border comes any more, and below all of them must be the outside")
    if upper:
        places.area(upper)
        lines.append(f"so an area lies in {places.face(upper)}, which has no hole for it, or a ring has its faces the wrong way round")
    return places.told(*lines)


def counted_borders(count):
    return {0: "no border", 1: "the first border"}.get(count, f"{count} borders")
