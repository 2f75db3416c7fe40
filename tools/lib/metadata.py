"""The metadata of a map, MAP.meta.json: what a topology and its rules have no place for. docs/formats.md has its members."""
import json
import pathlib
import re
from dataclasses import dataclass, field

from command import CALLED, INPUT, Failure, write_text, written
from history import is_in_degrees, scale_of, short
from rules import SEA, class_weights, property_of
from topology import load_json

FORMAT = 1
PAPER = 4.0


@dataclass
class Source:
    """An area of the map as its owner knows it. What import made, slivers and the sea, has a mark."""
    id: object
    name: str
    made: str = None
    attributes: dict = field(default_factory=dict)
    # The ids of the areas that claim some of a sliver.
    claims: list = field(default_factory=list)


@dataclass
class Metadata:
    """The areas of a map, and for each face the place of its area among them; the kinds of the attributes, by name."""
    sources: list
    faces: list
    fields: dict = field(default_factory=dict)

    def source(self, face):
        return self.sources[self.faces[face - 1]]


def path_of(map_path):
    """Where the metadata of a map stands: beside it, by its name."""
    path = pathlib.Path(map_path)
    return path.with_name((path.name[:-5] if path.name.endswith(".json") else path.name) + ".meta.json")


def of_topology(topology):
    """What a topology tells of its areas by itself: their ids and names, and their other properties as attributes."""
    sources, places, faces = [], {}, []
    for face in topology.faces:
        feature = face.feature
        if feature.number not in places:
            places[feature.number] = len(sources)
            attributes = {key: value for key, value in feature.properties.items() if key != "sources" or not feature.made}
            sources.append(Source(feature.number if feature.id is None else feature.id, feature.properties.get("name"), feature.made, attributes,
                                  feature.properties.get("sources", []) if feature.made else []))
        faces.append(places[feature.number])
    return Metadata(sources, faces)


def of_listing(faces):
    """A listing tells nothing but the numbers of its faces."""
    return Metadata([Source(face, None) for face in faces], list(range(len(faces))))


def read_for(topology, named):
    """The metadata of a topology: those of the file that is named, or those beside it, or else what it tells by itself."""
    path = path_of(topology.path) if named is None and topology.path != INPUT else named
    if path in (None, "none") or (named is None and not path.exists()):
        return of_topology(topology)
    found = read(path)
    if not fits(found, of_topology(topology)):
        raise Failure(f"{path} is the metadata of another map than {topology.path}: {CALLED} steps .. --meta writes them anew, and --meta none does "
                      "without them")
    return found


def read(path):
    document = load_json(path)
    try:
        sources = [Source(area["id"], area["name"], area.get("made"), area.get("attributes", {}), area.get("sources", [])) for area in document["areas"]]
        faces = document["faces"]
        if not all(isinstance(place, int) and 0 <= place < len(sources) for place in faces):
            raise ValueError("faces")
        return Metadata(sources, faces, document["fields"])
    except (TypeError, KeyError, AttributeError, ValueError) as error:
        raise Failure(f"{path} is no metadata of a map: docs/formats.md has the members") from error


def fits(found, known):
    """Whether metadata are those of a topology: each face comes from an area of the same id."""
    return [found.source(face).id for face in range(1, len(found.faces) + 1)] == [known.source(face).id for face in range(1, len(known.faces) + 1)]


def crs_members(name, proj=None):
    """How a coordinate system is told: its number at EPSG, where it has one, its text for PROJ, and the name that the topology has."""
    epsg = re.fullmatch(r"urn:ogc:def:crs:EPSG::(\d+)|EPSG:(\d+)", name) if name else None
    return {"epsg": int(epsg[1] or epsg[2]) if epsg else None, "proj": proj, "name": name} if name else None


def steps_table(rows, in_metres, paper=PAPER):
    """Which step suits which scale, as a short table: the scale is the one at which the least area is just seen."""
    return [{"step": step, "faces": faces, "least": least, "scale": round(scale_of(least, paper)) if in_metres else None}
            for step, faces, least, _ in short(rows)]


def area_members(source):
    """An area as the metadata have it."""
    made = {"made": source.made, "sources": source.claims} if source.made else {}
    return {"id": source.id, "name": source.name, **made, "attributes": source.attributes}


def bounds_of(topology):
    """West, south, east and north of all areas but the sea, which goes round them."""
    used = [arc for arc, faces in topology.users.items() if any(face.feature.made != SEA for face in faces)]
    points = [topology.place(point) for arc in used for point in topology.arcs[arc]]
    return [f(point[axis] for point in points) for f, axis in ((min, 0), (min, 1), (max, 0), (max, 1))] if points else None


def document_of(topology, rules_path, known, told):
    """The metadata of a map, as they are written. `told` has the members that the topology does not tell: name, attribution, crs, steps."""
    return {
        "metadata": FORMAT, "name": told["name"], "attribution": told["attribution"], "bounds": bounds_of(topology),
        "transform": {"scale": list(topology.scale), "translate": list(topology.translate)}, "crs": told["crs"],
        "property": property_of(rules_path), "classes": class_weights(rules_path), "steps": told["steps"], "fields": known.fields, "faces": known.faces,
        "areas": [area_members(source) for source in known.sources],
    }


def text_of(document):
    """One member a line, and of the areas one a line."""
    rows = {key: json.dumps(value, ensure_ascii=False) for key, value in document.items() if key != "areas"}
    areas = ",\n  ".join(json.dumps(area, ensure_ascii=False) for area in document["areas"])
    return "{" + ",\n ".join([*(f"{json.dumps(key)}: {row}" for key, row in rows.items()), f'"areas": [\n  {areas}]']) + "}\n"


def refresh(chosen, topology, rows):
    """Writes the metadata of a map anew: what stood there stays, but for the classes and the steps, which go by the rules."""
    there = pathlib.Path(chosen.meta).exists()
    known = read_for(topology, chosen.meta) if there else of_topology(topology)
    old = load_json(chosen.meta) if there else {}
    crs = old.get("crs") or crs_members(topology.crs)
    table = steps_table(rows, bool(topology.crs) and not is_in_degrees(topology.crs), chosen.paper)
    told = {"name": old.get("name") or pathlib.Path(topology.path).stem, "attribution": old.get("attribution", ""), "crs": crs, "steps": table}
    with written(chosen.meta) as (new,):
        write_text(new, text_of(document_of(topology, chosen.rules, known, told)))
