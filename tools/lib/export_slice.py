"""tools/export: a slice as a file that other tools read."""
import json
from dataclasses import dataclass, field

from shapely.geometry import MultiPolygon, mapping
from shapely.geometry.polygon import orient
from shapely.ops import transform

import drawing
import metadata
import package
from areas import assembled_polygons, base_faces, face_polygons
from command import Failure, counted, read_text, write_text, written
from coverage import indexed, starts_of
from faces_told import Face, Teller, columns_of
from history import Suiting, grid_areas
from metadata import Source
from program import Program, read_slice
from projection import crs_named, turn_between
from rules import class_names, property_of
from topology import coded, read_topology


@dataclass
class Known:
    """What is known of a slice without its map: nothing."""
    fields: dict = field(default_factory=dict)


class Exported:
    """A slice with what its map says of it."""

    def __init__(self, chosen):
        self.topology = read_topology(chosen.map, chosen.object) if chosen.object else None
        self.names = class_names(chosen.rules) if chosen.rules else None
        self.property = property_of(chosen.rules) if chosen.rules else "class"
        self.crs_name = chosen.crs or (self.topology.crs if self.topology else None)
        self.crs = crs_named(self.crs_name, "the coordinate system") if self.crs_name else None
        if chosen.without is not None and chosen.without not in (self.names or []):
            raise Failure(f"the rules have no class {chosen.without!r} to leave out")
        self.known, self.fields = Known(), []
        faces = self.told_by_map(chosen) if chosen.map else self.told_alone(chosen)
        self.faces = [face for face in faces if chosen.without is None or face.kind != chosen.without]

    def told_alone(self, chosen):
        """The faces of a slice without its map: what they are made of is not known."""
        self.slice = read_slice(read_text(chosen.slice), chosen.slice)
        for face, cells in assembled_polygons(self.slice).items():
            yield self.face(face, cells, Source(face, None), [], {})

    def told_by_map(self, chosen):
        """The faces of a slice with what their map knows of them."""
        program = Program(chosen.program, chosen)
        step, text = self.step_and_text(program, chosen)
        self.slice, first = read_slice(text, chosen.slice or f"slice {step}"), program.slice(0)
        self.known = metadata.read_for(self.topology, chosen.meta) if self.topology else metadata.of_listing(first.faces)
        teller = Teller(self.known, grid_areas(first), base_faces(program.steps(step), first.faces), chosen)
        self.fields = teller.fields
        with program.serving() as server:
            polygons = face_polygons(server.topology(step))
        return [self.face(face, cells, *teller.of_face(face)) for face, cells in polygons.items()]

    def step_and_text(self, program, chosen):
        """The step of the slice, and its text, which has to be that of the map."""
        if chosen.slice is not None:
            text = read_text(chosen.slice)
            step = read_slice(text, chosen.slice).step
            if program.asked("slice", step) != text:
                raise Failure(f"{chosen.slice} is not the slice of {chosen.map} after {step} steps")
            return step, text
        suits = Suiting(program, self.topology, chosen.paper)
        step = suits.of_faces(chosen.faces) if chosen.faces else suits.of_scale(chosen.scale) if chosen.scale else chosen.step
        return step, program.asked("slice", step)

    def face(self, number, cells, origin, sources, summed):
        scale = abs(self.topology.scale[0] * self.topology.scale[1]) if self.topology else 1
        kind = self.slice.faces[number]
        if self.names and kind >= len(self.names):
            raise Failure(f"face {number} has the class {kind}, which the rules do not have")
        return Face(number, self.names[kind] if self.names else kind, sum(cell.area for cell in cells) * scale, origin, sources, summed, cells)

    def shape(self, face, turn=None):
        """The polygons of a face in the coordinates of the source, or turned into another system."""
        def placed(x, y):
            x, y = self.topology.place((x, y)) if self.topology else (x, y)
            return tuple(round(at, 9) for at in turn.TransformPoint(x, y)[:2]) if turn else (x, y)

        polygons = [orient(transform(lambda xs, ys: tuple(zip(*map(placed, xs, ys))), cell)) for cell in face.cells]
        return polygons[0] if len(polygons) == 1 else MultiPolygon(polygons)

    def columns(self, face):
        return columns_of(self.property, face, self.fields)


def topojson_text(exported):
    arcs = [points for _, _, _, points in exported.slice.edges]
    starts, geometries = starts_of(arcs), []
    for face in exported.faces:
        rings = [indexed(cell, starts) for cell in face.cells]
        several = len(rings) > 1
        geometries.append({"type": "MultiPolygon" if several else "Polygon", "id": face.number, "properties": exported.columns(face),
                           "arcs": rings if several else rings[0]})
    document = {"type": "Topology"}
    if exported.crs_name:
        document["crs"] = {"type": "name", "properties": {"name": exported.crs_name}}
    transformed = exported.topology is not None and exported.topology.transformed
    if transformed:
        document["transform"] = {"scale": exported.topology.scale, "translate": exported.topology.translate}
    document["objects"] = {"areas": {"type": "GeometryCollection", "geometries": geometries}}
    document["arcs"] = [coded(arc, transformed) for arc in arcs]
    return json.dumps(document, ensure_ascii=False, separators=(",", ":")) + "\n"


def geojson_text(exported):
    turn = turn_between(exported.crs, crs_named("OGC:CRS84", "the coordinate system")) if exported.crs else None
    shapes = [exported.shape(face, turn) for face in exported.faces]
    for face, shape in zip(exported.faces, shapes):
        if turn and not shape.is_valid:
            raise Failure(f"face {face.number}, of class {face.kind}, is no sound area in longitude and latitude, as where it crosses the meridian of 180 "
                          "degrees: leave its class out by --without, or take --to gpkg")
    features = [{"type": "Feature", "id": face.number, "properties": exported.columns(face), "geometry": mapping(shape)}
                for face, shape in zip(exported.faces, shapes)]
    return json.dumps({"type": "FeatureCollection", "features": features}, ensure_ascii=False) + "\n"


def write(exported, chosen, path):
    if chosen.format == "topojson":
        write_text(path, topojson_text(exported))
    elif chosen.format == "geojson":
        write_text(path, geojson_text(exported))
    elif chosen.format == "gpkg":
        package.write(exported, path)
    else:
        picture = drawing.Picture([(exported.shape(face), face) for face in exported.faces], exported.names, chosen.width)
        write_text(path, picture.svg()) if chosen.format == "svg" else picture.write_png(path)


def main(chosen):
    exported = Exported(chosen)
    with written(chosen.out) as (new,):
        write(exported, chosen, new)
    print(f"wrote {chosen.out}: {counted(len(exported.faces), 'face')} of slice {exported.slice.step}")
