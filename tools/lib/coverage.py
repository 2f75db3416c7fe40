"""From border lines to areas and back, by Shapely: cells between lines, and the arcs that areas share."""
from collections import Counter

from shapely.geometry import LineString
from shapely.geometry.polygon import orient
from shapely.ops import linemerge, polygonize, unary_union
from shapely.strtree import STRtree

from command import Failure

ROUNDS = 30


class Nearby:
    """Finds shapes by their boxes, as numbers. Shapely 1 gives the shapes themselves, Shapely 2 their numbers."""

    def __init__(self, shapes):
        self.tree = STRtree(shapes)
        self.numbers = {id(shape): number for number, shape in enumerate(shapes)}

    def numbers_at(self, shape):
        found = self.tree.query(shape)
        return sorted(int(it) if hasattr(it, "__index__") else self.numbers[id(it)] for it in found)


def polygons_in(shape):
    """The polygons of a shape of any kind; lines and points in it are left out."""
    if shape.is_empty:
        return []
    if shape.geom_type == "Polygon":
        return [shape]
    return [polygon for part in getattr(shape, "geoms", []) for polygon in polygons_in(part)]


def lines_in(shape):
    if shape.geom_type in ("LineString", "LinearRing"):
        return [] if shape.is_empty else [shape]
    return [line for part in getattr(shape, "geoms", []) for line in lines_in(part)]


def rings_of(polygon):
    return [polygon.exterior, *polygon.interiors]


def snapped(points):
    """Points moved to the nearest whole numbers, none twice in a row."""
    moved = [(round(point[0]), round(point[1])) for point in points]
    return [point for at, point in enumerate(moved) if at == 0 or point != moved[at - 1]]


def noded(rows):
    """Lines with whole coordinates that meet only at their ends, from rows of such points. Where two cross, the crossing moves to the grid, which may make
    new crossings; so this goes on until none comes."""
    rows = [row for row in rows if len(row) > 1]
    for _ in range(ROUNDS):
        lines = lines_in(unary_union([LineString(row) for row in rows]))
        rows = [snapped(line.coords) for line in lines]
        if all(tuple(line.coords) == tuple(map(tuple, row)) for line, row in zip(lines, rows)):
            return [line for line, row in zip(lines, rows) if len(row) > 1]
        rows = [row for row in rows if len(row) > 1]
    raise Failure("borders keep crossing each other when they are moved to the grid; take a finer grid, or clean the data before")


def cells_between(lines):
    """The areas that lines enclose, each with its shell counter-clockwise and its holes clockwise, so that it lies at the left of all its segments."""
    return [orient(cell) for cell in polygonize(lines)]


def directed(points):
    return zip(points, points[1:])


def lefts_of(cells):
    """The number of the cell at the left of each directed segment."""
    return {segment: number for number, cell in enumerate(cells) for ring in rings_of(cell) for segment in directed(list(ring.coords))}


def joined(cells):
    """The areas that cells of one kind make together, each in one piece."""
    return [orient(polygon) for polygon in polygons_in(unary_union(cells))]


def arcs_between(areas):
    """The lines that oriented areas share: from each point where three or more of them meet, the outside counted, to the next."""
    segments = {tuple(sorted(segment)) for area in areas for ring in rings_of(area) for segment in directed(list(ring.coords))}
    merged = linemerge([LineString(segment) for segment in sorted(segments)])
    arcs = sorted(tuple(line.coords) for line in lines_in(merged))
    return [[(round(x), round(y)) for x, y in arc] for arc in arcs]


def ring_indexes(points, starts):
    """A closed row of points as indexes of arcs; `starts` gives the index and the length of the arc that begins with a directed segment."""
    segments = list(directed(points))
    first = next((at for at, segment in enumerate(segments) if segment in starts), None)
    if first is None:
        raise Failure("an area does not consist of whole arcs")
    segments, indexes, at = segments[first:] + segments[:first], [], 0
    while at < len(segments):
        index, length = starts[segments[at]]
        indexes.append(index)
        at += length
    return indexes


def starts_of(arcs):
    starts = {}
    for number, arc in enumerate(arcs):
        for index, points in ((number, arc), (~number, arc[::-1])):
            starts[points[0], points[1]] = (index, len(points) - 1)
    return starts


def indexed(area, starts):
    """The rings of an oriented area as indexes of arcs, as TopoJSON has them."""
    return [ring_indexes([(round(x), round(y)) for x, y in ring.coords], starts) for ring in rings_of(area)]


def shared(areas):
    """Arcs, and for each area its rings as indexes of them."""
    arcs = arcs_between(areas)
    starts = starts_of(arcs)
    return arcs, [indexed(area, starts) for area in areas]


def repeated(values):
    return [value for value, count in Counter(values).items() if count > 1]
