"""A TopoJSON file as the program reads it: arcs on the grid, faces by number, and for each face the feature that it comes from. A file in which something is
wrong is read too, as far as it goes, since its faults are to be told."""
import json
from dataclasses import dataclass, field

from command import CALLED, Failure, read_text

# The program's own limits, as docs/rules.md has them.
MOST = {"faces": 32_768, "arcs": 65_536, "points": 524_288, "classes": 256}
FARTHEST = 2_147_483_648
MOST_BYTES = 16_777_216


@dataclass
class Feature:
    """A geometry of the object, by its place in the walk."""
    number: int
    id: object
    properties: dict
    # The mark of an area that import made.
    made: str = None

    def title(self, name=None):
        """How a person would call it: by its name where one is known, and by its id, or else by its place."""
        names = [self.properties.get(key) for key in ([name] if name else ["name", "NAME", "Name"])]
        known = next((str(it) for it in names if it not in (None, "")), None)
        if self.id is None:
            return known or f"geometry {self.number}"
        return f"{known} (id {self.id})" if known else f"id {self.id}"


@dataclass
class Face:
    number: int
    feature: Feature
    rings: list


@dataclass
class Topology:
    path: str
    arcs: list
    faces: list
    rings: list
    scale: tuple
    translate: tuple
    transformed: bool
    crs: str
    users: dict = field(default_factory=dict)

    def place(self, point):
        """A point of the grid in the coordinates of the source."""
        return tuple(float(at) * scale + origin for at, scale, origin in zip(point, self.scale, self.translate))

    def segments(self):
        """The segments of the map as the program counts them: through the arcs that have a face, in their order."""
        return [(arc, at) for arc in sorted(self.users) for at in range(len(self.arcs[arc]) - 1)]

    def line(self, ring):
        """The points of a ring of indexes, each common end once."""
        points = []
        for index in ring:
            arc = self.arcs[index] if index >= 0 else self.arcs[~index][::-1]
            points.extend(arc[1:] if points and points[-1] == arc[0] else arc)
        return points


def load_json(path):
    text = read_text(path)
    try:
        return json.loads(text)
    except json.JSONDecodeError as error:
        raise Failure(f"{path} is not JSON: line {error.lineno}, column {error.colno}: {error.msg}") from error
    except RecursionError as error:
        raise Failure(f"{path} is nested too deep") from error


def load_document(path):
    document = load_json(path)
    if not isinstance(document, dict) or document.get("type") != "Topology":
        kind = document.get("type") if isinstance(document, dict) else None
        raise Failure(f"{path} is no topology" + (f" but a {kind}" if isinstance(kind, str) else "") + f": {CALLED} import makes one of it")
    if not isinstance(document.get("objects"), dict) or not isinstance(document.get("arcs"), list):
        raise Failure(f"{path} is a topology without objects or without arcs")
    return document


def chosen_object(document, path, name):
    objects = document["objects"]
    if name in (None, "-") and len(objects) == 1:
        return next(iter(objects.values()))
    if name in (None, "-"):
        raise Failure(f"{path} has {len(objects)} objects, of which one is to be named: {', '.join(map(repr, objects))}")
    if name not in objects:
        raise Failure(f"{path} has no object {name!r}; there is {', '.join(map(repr, objects)) or 'none'}")
    return objects[name]


def walk(geometry):
    """The geometries of an object, collections too, in the order in which the program meets and counts them."""
    yield geometry
    if isinstance(geometry, dict) and geometry.get("type") == "GeometryCollection":
        for member in geometry.get("geometries") or []:
            yield from walk(member)


def polygons_of(geometry):
    kind = geometry.get("type") if isinstance(geometry, dict) else None
    return {"Polygon": [geometry.get("arcs")], "MultiPolygon": geometry.get("arcs")}.get(kind) or [] if kind else []


def positions_of(document):
    """The arcs as lists of grid points, as they are given; a position that repeats the one before it is still there."""
    transformed = document.get("transform") is not None
    for arc in document["arcs"]:
        points, x, y = [], 0, 0
        for position in arc:
            x, y = (x + position[0], y + position[1]) if transformed else (position[0], position[1])
            points.append((x, y))
        yield points


def without_repeats(points):
    return [point for at, point in enumerate(points) if at == 0 or point != points[at - 1]]


def coded(points, transformed):
    """An arc as a topology has it: with a transform, each position as the difference from the one before."""
    if not transformed:
        return [list(point) for point in points]
    return [list(points[0])] + [[x - before[0], y - before[1]] for before, (x, y) in zip(points, points[1:])]


def crs_of(document):
    """The name of the coordinate system, in the member that GeoJSON of 2008 has for it."""
    crs = document.get("crs")
    properties = crs.get("properties") if isinstance(crs, dict) else None
    name = properties.get("name") if isinstance(properties, dict) else None
    return name if isinstance(name, str) else None


def read_topology(path, name):
    return topology_of(load_document(path), path, name)


def topology_of(document, path, name):
    chosen = chosen_object(document, path, name)
    try:
        transform = document.get("transform") or {"scale": [1, 1], "translate": [0, 0]}
        topology = Topology(path, [without_repeats(points) for points in positions_of(document)], [], [], tuple(transform["scale"][:2]),
                            tuple(transform["translate"][:2]), document.get("transform") is not None, crs_of(document))
        read_faces(topology, chosen)
    except (TypeError, KeyError, IndexError, AttributeError) as error:
        raise Failure(f"{path} does not have the form of a topology ({error}); {CALLED} check tells the first fault") from error
    return topology


def read_faces(topology, chosen):
    """Numbers faces and rings as the program does: a polygon whose outer ring is one point on the grid is no face."""
    for number, geometry in enumerate(walk(chosen)):
        feature = None
        for rings in polygons_of(geometry):
            feature = feature or Feature(number, geometry.get("id"), geometry.get("properties") or {}, geometry.get("made"))
            if not rings:
                continue
            topology.rings.extend((feature, ring) for ring in rings)
            if len(set(topology.line(rings[0]))) < 2:
                continue
            face = Face(len(topology.faces) + 1, feature, rings)
            topology.faces.append(face)
            for index in (index for ring in rings for index in ring):
                arc = index if index >= 0 else ~index
                if len(topology.arcs[arc]) > 1 and face not in topology.users.setdefault(arc, []):
                    topology.users[arc].append(face)


def read_listing(path):
    """A listing, as far as its arcs and faces go; its faces have no ids but their numbers."""
    topology = Topology(path, [], [], [], (1, 1), (0, 0), False, None)
    for at, line in enumerate(read_text(path).splitlines(), 1):
        mark, *rest = line.split(" ")
        try:
            if mark == "face":
                number = int(rest[0])
                topology.faces.append(Face(number, Feature(number, None, {"name": f"face {number}"}), []))
            elif mark == "arc":
                numbers = [int(word) for word in rest]
                topology.users[len(topology.arcs)] = [topology.faces[side - 1] for side in numbers[:2] if side]
                topology.arcs.append(list(zip(numbers[3::2], numbers[4::2])))
        except (ValueError, IndexError) as error:
            raise Failure(f"{path} is no listing: line {at} is {line[:60]!r}") from error
    if not topology.arcs:
        raise Failure(f"{path} is neither a topology nor a listing with arcs")
    return topology
