"""All pairs of areas that overlap, by Shapely, as far as the areas are polygons at all."""
from shapely.geometry import Polygon, mapping
from shapely.ops import transform
from shapely.validation import explain_validity, make_valid

from command import counted, rounded, with_progress
from coverage import Nearby, polygons_in
from places import Places, Told


def polygon_of(topology, face):
    """A face as a polygon, or None where its rings are too short for one."""
    rings = [topology.line(ring) for ring in face.rings]
    rings = [ring for ring in rings if len(set(ring)) > 2]
    return Polygon(rings[0], rings[1:]) if rings else None


def pairs(shapes):
    """The pairs of shapes that overlap, with what they share."""
    nearby = Nearby(shapes)
    for first, shape in enumerate(with_progress(shapes, "comparing areas")):
        for second in nearby.numbers_at(shape):
            if second > first and shape.intersects(shapes[second]):
                common = polygons_in(shape.intersection(shapes[second]))
                if common:
                    yield first, second, common


def told_of(topology, name):
    places, lines, shapes, faces = Places(topology, name), [], [], []
    for face in topology.faces:
        polygon = polygon_of(topology, face)
        if polygon is None or not polygon.is_valid:
            lines.append(f"{places.face(face.number)} is no sound area by itself: {'too few points' if polygon is None else explain_validity(polygon)}")
        if polygon is not None:
            faces.append(face.number)
            shapes.append(polygon if polygon.is_valid else make_valid(polygon))
    found = sorted(pairs(shapes), key=lambda pair: -sum(part.area for part in pair[2]))
    unit, drawn = abs(topology.scale[0] * topology.scale[1]), []
    lines.append(f"{counted(len(found), 'pair')} of areas overlap")
    for first, second, common in found:
        title = f"{places.face(faces[first])} and {places.face(faces[second])}"
        lines.append(f"  {rounded(sum(part.area for part in common) * unit)} square units: {title}")
        drawn += [(title, mapping(transform(lambda xs, ys: tuple(zip(*map(topology.place, zip(xs, ys)))), part))) for part in common]
    return Told(lines, drawn, topology.crs)
