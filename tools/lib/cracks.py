"""Cracks between areas that are open to the outside: gaps that nothing encloses, so that no line goes round them."""
from statistics import median

from shapely.geometry import MultiPolygon, Polygon
from shapely.ops import unary_union

from coverage import Nearby, polygons_in
from widths import is_thin

# Where no width is told, cracks are looked for that are narrower than this part of what areas mostly measure.
NARROW = 20
ROUND = 4


def looked_for(shapes):
    return median(shape.area for shape in shapes) ** 0.5 / NARROW


def cracks(shapes, width):
    """What a disc of this width cannot reach from outside, and lies along two areas or more for longer than it is wide."""
    shapes = [MultiPolygon(polygons_in(shape)) for shape in shapes]
    whole = unary_union(shapes)
    closed = whole.buffer(width / 2, resolution=ROUND).buffer(-width / 2, resolution=ROUND)
    nearby, holes = Nearby(shapes), [Polygon(ring) for polygon in polygons_in(whole) for ring in polygon.interiors]
    found = [polygon for polygon in polygons_in(closed.difference(whole).buffer(0)) if not is_thin(polygon, 1.4)]
    near_holes = Nearby(holes)
    return [polygon for polygon in found if is_open(polygon, holes, near_holes) and lies_between(polygon, shapes, nearby, width)]


def is_open(polygon, holes, near_holes):
    """Whether it lies in no hole between areas, which has a line round it by itself and counts as a gap."""
    point = polygon.representative_point()
    return not any(holes[number].contains(point) for number in near_holes.numbers_at(point))


def lies_between(polygon, shapes, nearby, width):
    reach = polygon.buffer(1e-3)
    long = [number for number in nearby.numbers_at(reach) if shapes[number].boundary.intersection(reach).length > width]
    return len(long) > 1
