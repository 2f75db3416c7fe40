"""The areas of a slice as polygons, by Shapely."""
from shapely.geometry import LineString, Polygon
from shapely.geometry.polygon import orient
from shapely.validation import make_valid

from coverage import cells_between, directed, polygons_in


def face_polygons(topology):
    """For each face of a slice its polygons, in grid units and oriented, from the rings of the slice's topology."""
    faces = {}
    for part in topology.faces:
        shell, *holes = map(topology.line, part.rings)
        # A ring goes through a node twice where a hole touches it. Such a hole is a ring of its own here.
        cells = polygons_in(make_valid(Polygon(shell, holes)))
        faces.setdefault(part.feature.properties["face"], []).extend(map(orient, cells))
    return faces


def assembled_polygons(slice_):
    """The same from the edges of a slice alone, where there is no map of which a program could give the rings. Gaps, which belong to no face, are left out."""
    lefts = {}
    for _, left, right, points in slice_.edges:
        for start, end in directed(points):
            lefts[start, end], lefts[end, start] = left, right
    faces = {face: [] for face in slice_.faces}
    for cell in cells_between([LineString(points) for _, _, _, points in slice_.edges]):
        ring = list(cell.exterior.coords)
        face = lefts[tuple(map(round, ring[0])), tuple(map(round, ring[1]))]
        if face:
            faces[face].append(cell)
    return faces


def base_faces(steps, faces):
    """For each face after these steps the faces of the map itself of which it is made, the one from which it grew first."""
    made = {face: [face] for face in faces}
    for step in steps:
        made[step.made] = made.pop(step.winner) + made.pop(step.loser)
    return made
