"""A slow plain reader of the edits that make nodes, cut faces and fuse them, by docs/rules.md, and of the causes for which
an edit is refused. A base is one of plain_maps."""
import collections
from fractions import Fraction

from plain_maps import LIMITS, cross

# A side: the number of an arc, and whether it is gone against.
Side = collections.namedtuple("Side", "arc against")


class Cause(Exception):
    """The number of the cause for which an edit is refused."""


def wants(cause, holds):
    if not holds:
        raise Cause(cause)


def has(base, point):
    return any(point in points for _, _, points in base.arcs)


def is_node(base, point):
    return any(point in (points[0], points[-1]) for _, _, points in base.arcs)


def fits(base, faces, arcs, points):
    """Whether so many more keep a map within its limits."""
    counts = {"faces": len(base.classes) + faces, "arcs": len(base.arcs) + arcs, "points": sum(len(arc[2]) for arc in base.arcs) + points}
    return all(count <= LIMITS[kind] for kind, count in counts.items())


def add_node(base, point):
    wants(3, has(base, point))
    wants(6, not is_node(base, point))
    wants(11, fits(base, 0, 1, 1))
    at, (left, right, points) = next((at, arc) for at, arc in enumerate(base.arcs) if point in arc[2])
    place = points.index(point)
    return base._replace(arcs=[*base.arcs[:at], (left, right, points[: place + 1]), *base.arcs[at + 1 :], (left, right, points[place:])])


def fuse(base, kept, gone):
    last = len(base.classes)
    wants(2, 1 <= kept <= last and 1 <= gone <= last)
    rest = [arc for arc in base.arcs if arc[:2] not in ((kept, gone), (gone, kept))]
    wants(13, len(rest) < len(base.arcs))
    wants(14, any(face in (kept, gone) for arc in rest for face in arc[:2]))
    names = {gone: kept}
    if gone != last:
        names[last] = gone
    if kept == last:
        names = {gone: gone, last: gone}
    classes = list(base.classes)
    classes[gone - 1] = classes[last - 1]
    return base._replace(classes=classes[:-1], arcs=[(names.get(left, left), names.get(right, right), points) for left, right, points in rest])


class Walks:
    """The sides of the arcs of a base, and how they go round faces."""

    def __init__(self, arcs):
        self.arcs = arcs
        self.at = collections.defaultdict(list)
        for number, (_, _, points) in enumerate(arcs):
            self.at[points[0]].append(Side(number, False))
            self.at[points[-1]].append(Side(number, True))
        for node, spokes in self.at.items():
            self.at[node] = self.ordered(node, spokes)

    def ordered(self, node, spokes):
        """The spokes of a node counter-clockwise, those in one direction by number, a start before an end."""
        found = []
        for spoke in sorted(spokes):
            place = sum(not self.is_before(node, self.toward(spoke), self.toward(other)) for other in found)
            found.insert(place, spoke)
        return found

    def is_before(self, node, one, other):
        """Whether the direction to one point comes before that to another, going round from that of positive x."""

        def half(point):
            return (point[1] - node[1], point[0] - node[0]) < (0, 0)

        return (half(one), -cross(node, one, other)) < (half(other), 0)

    def points(self, side):
        points = self.arcs[side.arc][2]
        return points[::-1] if side.against else points

    def toward(self, side):
        return self.points(side)[1]

    def face(self, side):
        return self.arcs[side.arc][side.against]

    def next(self, side):
        """The side that leaves the node where this one arrives, by the spoke that comes before its own."""
        spokes = self.at[self.points(side)[-1]]
        return spokes[spokes.index(Side(side.arc, not side.against)) - 1]

    def row(self, side):
        """The next sides from a side on, up to its return."""
        found = [side]
        while len(found) <= 2 * len(self.arcs) and self.next(found[-1]) != side:
            found.append(self.next(found[-1]))
        return found

    def sector(self, face, node, toward):
        """The spoke with which the sector of a face begins in which a direction lies, and the spoke that ends it."""
        spokes = self.at.get(node, [])
        wants(9, spokes)
        wants(9, all(self.is_before(node, self.toward(spoke), toward) or self.is_before(node, toward, self.toward(spoke)) for spoke in spokes))
        place = sum(self.is_before(node, self.toward(spoke), toward) for spoke in spokes) - 1
        wants(9, self.face(spokes[place]) == face)
        return spokes[place], spokes[(place + 1) % len(spokes)]

    def walk(self, face, start, end):
        """From the spoke with which the end's sector begins to the one that ends the start's sector."""
        found, side = [], start
        for _ in range(2 * len(self.arcs)):
            wants(12, self.face(side) == face)
            found.append(side)
            if Side(side.arc, not side.against) == end:
                return found
            side = self.next(side)
        wants(12, False)
        return None


def segments(points):
    return list(zip(points, points[1:]))


def shoelace(points):
    return sum(x * v - u * y for (x, y), (u, v) in segments(points))


def height(segment, x):
    (ax, ay), (bx, by) = segment
    return ay + (x - ax) * Fraction(by - ay, bx - ax)


def goes_over(walks, walk, ring, area, side):
    """Whether a side that is not of the walk becomes one of the new face."""
    row = walks.row(side)
    if set(row) & set(walk):
        return False
    leaning = [segment for number in sorted({it.arc for it in row}) for segment in segments(walks.arcs[number][2]) if segment[0][0] != segment[1][0]]
    if not leaning:
        return False
    x = min(leaning[0][0][0], leaning[0][1][0]) + Fraction(1, 2)
    level = height(leaning[0], x)
    above = sum(min(a[0], b[0]) < x < max(a[0], b[0]) and height((a, b), x) > level for a, b in ring)
    return above % 2 == (1 if area > 0 else 0)


def cut(base, face, kind, points):
    wants(2, 1 <= face <= len(base.classes) and 0 <= kind < len(base.weights))
    wants(11, fits(base, 1, 1, len(points)))
    wants(10, len(set(points)) == len(points) and not any(has(base, point) for point in points[1:-1]))
    walks, new = Walks(base.arcs), len(base.classes) + 1
    _, stop = walks.sector(face, points[0], points[1])
    first, _ = walks.sector(face, points[-1], points[-2])
    walk = walks.walk(face, first, stop)
    ring = segments(points) + [it for side in walk for it in segments(walks.points(side))]
    area = shoelace(points) + sum(shoelace(walks.points(side)) for side in walk)

    def named(number, against, old):
        side = Side(number, against)
        return new if old == face and (side in walk or goes_over(walks, walk, ring, area, side)) else old

    arcs = [(named(number, False, left), named(number, True, right), line) for number, (left, right, line) in enumerate(base.arcs)]
    return base._replace(classes=[*base.classes, kind], arcs=[*arcs, (new, face, points)])
