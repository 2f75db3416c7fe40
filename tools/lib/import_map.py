"""tools/import: a topology, its rules and its metadata out of any file of areas."""
import json
import math
import os
import pathlib
import types
from collections import Counter
from dataclasses import dataclass

from shapely.geometry import mapping
from shapely.validation import explain_validity, make_valid

import cracks
import metadata
import unnamed
import widths
from command import CALLED, WORDS, Failure, counted, rounded, with_progress, write_text, written
from coverage import Nearby, joined, shared
from history import Suiting
from metadata import Metadata, Source
from places import collection
from program import Program
from projection import crs_code, is_in_metres
from rules import SEA, SLIVER, Kind, free_name, property_of, rules_text
from sorting import Grid, Part, claims_on, sorted_cells
from sources import read_areas
from topology import FARTHEST, MOST, MOST_BYTES, coded, topology_of

OBJECT = "areas"
SHOWN = 10
# With a step that is chosen by itself the longer side has at least so many of them, if that takes steps below 1.
FINE = 1e6


@dataclass
class Entry:
    """An area of the map: its part, its oriented polygons, and what its owner knows of it."""
    part: Part
    pieces: list
    kind: str
    source: Source


def name_outputs(chosen):
    """Names what is written where it is not named, and refuses to write over the source."""
    stem = pathlib.Path(chosen.file).name.split(".")[0] or "map"
    chosen.topology = chosen.topology or f"{stem}.json"
    path = pathlib.Path(chosen.topology)
    chosen.rules = chosen.rules or str(path.with_name((path.name[:-5] if path.name.endswith(".json") else path.name) + ".rules.json"))
    chosen.meta = str(metadata.path_of(chosen.topology))
    for out in (chosen.topology, chosen.rules, chosen.meta):
        if os.path.exists(out) and os.path.exists(chosen.file) and os.path.samefile(out, chosen.file):
            raise Failure(f"{out} is the source itself, which would be written over: name the topology, as by {CALLED} import {chosen.file} {stem}.map.json",
                          WORDS)
    if os.path.exists(chosen.rules) and not chosen.new_rules and property_of(chosen.rules) != (chosen.property or "class"):
        raise Failure(f"{chosen.rules} is there and has the property {property_of(chosen.rules)!r} in place of {chosen.property or 'class'!r}: name it by "
                      "--property, or have rules written anew by --new-rules")


def grid_of(areas, chosen, is_auto):
    bounds = [area.shape.bounds for area in areas]
    west, south = min(it[0] for it in bounds), min(it[1] for it in bounds)
    east, north = max(it[2] for it in bounds), max(it[3] for it in bounds)
    if not all(abs(at) < 1e15 for at in (west, south, east, north)):
        raise Failure("the areas have coordinates that are no usable numbers; another --t_srs may have them")
    longer = max(east - west, north - south)
    if chosen.quantize:
        return Grid(longer / max(chosen.quantize - 1, 1) or 1.0, (west, south))
    cell = chosen.cell or (fine_step(longer) if is_auto else 1.0)
    # Where it can be the origin is 0, so that the grid is the same whatever there is on it.
    if max(map(abs, (west, south, east, north))) / cell < FARTHEST / 2:
        return Grid(1 if cell == 1 else cell, (0, 0))
    return Grid(cell, (west // cell * cell, south // cell * cell))


def fine_step(longer):
    """A step of 1, or the greatest power of ten below it with which the longer side has as many steps as are wanted."""
    return min(1.0, 10.0 ** math.floor(math.log10(longer / FINE))) if longer > 0 else 1.0


def check_reach(shapes, grid):
    reach = max(abs(at) for shape in shapes for at in shape.bounds)
    if reach > FARTHEST / 2:
        raise Failure(f"the grid has {reach:,.0f} steps from its origin, and a map has at most {FARTHEST:,}: take a greater --cell than {grid.cell:g}")


def sound(shapes, areas, told):
    """The shapes, each made valid where it was not."""
    for shape, area in zip(shapes, areas):
        if not shape.is_valid:
            told.append(f"not valid by itself, and mended: {area.title}: {explain_validity(area.shape)}")
            shape = make_valid(shape)
        yield shape


def without_doubles(areas, shapes, told):
    """The areas and shapes without those that are there already."""
    known, kept = {}, []
    for area, shape in zip(areas, shapes):
        double = next((other for other, there in known.get(shape.bounds, []) if there.equals(shape)), None)
        if double:
            told.append(f"left out, the same area as {double.title}: {area.title}")
        else:
            known.setdefault(shape.bounds, []).append((area, shape))
            kept.append((area, shape))
    return [area for area, _ in kept], [shape for _, shape in kept]


def refuse_overlaps(sorting):
    pairs = sorting.overlapping()
    if not pairs:
        return
    areas, cell, chosen = sorting.areas, sorting.grid.cell, sorting.chosen
    how = "overlap by more than --slivers" if chosen.slivers else "overlap"
    lines = [f"  {rounded(area * cell ** 2)} square units, {width_of(sorting, pair)} wide: {areas[pair[0]].title} and {areas[pair[1]].title}"
             for pair, area in pairs[:SHOWN]]
    more = [f"  and {counted(len(pairs) - SHOWN, 'pair')} more"] if len(pairs) > SHOWN else []
    drawn = [f"wrote {chosen.geojson}: {counted(draw_overlaps(sorting), 'shape')}"] if chosen.geojson else []
    width = widths.told([piece for piece, _ in sorting.overlaps], cell)
    look = "" if drawn else ", look at them by --geojson OUT"
    raise Failure("\n".join([f"{chosen.file}: {counted(len(pairs), 'pair')} of areas {how}, and it is open whose the ground is:", *lines, *more, *drawn,
                             f"mend them in the source{look}, let --slivers {width} make areas of them that are merged away, or --first-wins give each "
                             "to the first area that claims it"]))


def width_of(sorting, pair):
    return widths.told([cell for cell, pairs in sorting.overlaps if pair in pairs], sorting.grid.cell)


def draw_overlaps(sorting):
    """Writes what areas share, each piece with the areas that claim it."""
    shapes = []
    for cell, pairs in sorting.overlaps:
        titles = dict.fromkeys(sorting.areas[number].title for pair in pairs for number in pair)
        shapes.append((" and ".join(titles), mapping(sorting.grid.back(cell))))
    with written(sorting.chosen.geojson) as (new,):
        write_text(new, collection(shapes, sorting.chosen.crs_name))
    return len(shapes)


def made_names(areas):
    """What the classes of made areas are called: as an import before called them, or by a name that no class of the source has."""
    marked = {area.made: area.kind for area in areas if area.made}
    taken = {area.kind for area in areas if not area.made}
    return {made: marked.get(made) or free_name(made, taken) for made in (SLIVER, SEA)}


def entries_of(sorting, names):
    """The areas of the map, in the order of the features, with slivers and the sea behind them."""
    def made_of(part):
        return part.made or sorting.areas[part.claims[0]].made

    for part in with_progress(sorted(sorting.parts.values(), key=lambda part: (made_of(part) is not None, made_of(part) == SEA, part.claims)), "joining"):
        polygons = sorted(joined(part.cells), key=lambda polygon: polygon.bounds)
        if part.made == SLIVER:
            yield from slivers(part.cells, polygons, sorting, names)
        elif part.made == SEA:
            yield Entry(part, polygons, names[SEA], Source(SEA, None, SEA))
        else:
            area = sorting.areas[part.claims[0]]
            yield Entry(part, polygons, area.kind, Source(area.id, area.name, area.made, area.attributes))


def slivers(cells, polygons, sorting, names):
    """Each sliver by itself, with the features that claim some of it."""
    nearby, taken = Nearby(cells), {str(area.id) for area in sorting.areas}
    for number, polygon in enumerate(polygons, 1):
        inner = [cells[at] for at in nearby.numbers_at(polygon) if polygon.contains(cells[at].representative_point())]
        claims = sorted({claim for cell in inner for claim in claims_on(cell, sorting.shapes, sorting.nearby)})
        identity = free_name(f"sliver {number}", taken)
        yield Entry(Part(tuple(claims), SLIVER), [polygon], names[SLIVER], Source(identity, None, SLIVER, {}, [sorting.areas[it].id for it in claims]))


def geometry_of(entry, rings, property_name):
    """An area of the map as TopoJSON has it; with several pieces it is a MultiPolygon, of which each member is a face."""
    source, several = entry.source, len(rings) > 1
    properties = {**({"name": source.name} if source.name else {}), **({"sources": source.claims} if source.made == SLIVER else {}), property_name: entry.kind}
    made = {"made": source.made} if source.made else {}
    return {"type": "MultiPolygon" if several else "Polygon", "id": source.id, **made, "properties": properties, "arcs": rings if several else rings[0]}


def topology_document(geometries, arcs, grid, crs_name):
    document = {"type": "Topology"}
    if crs_name is not None:
        document["crs"] = {"type": "name", "properties": {"name": crs_name}}
    if not grid.is_plain():
        document["transform"] = {"scale": [grid.cell, grid.cell], "translate": list(grid.origin)}
    document["objects"] = {OBJECT: {"type": "GeometryCollection", "geometries": geometries}}
    document["arcs"] = [coded(arc, not grid.is_plain()) for arc in arcs]
    return document


def check_limits(counts, text):
    over = [f"{count:,} {kind} of at most {MOST[kind]:,}" for kind, count in counts.items() if count > MOST[kind]]
    if len(text.encode()) > MOST_BYTES:
        over.append(f"{len(text.encode()):,} bytes of at most {MOST_BYTES:,}")
    if over:
        raise Failure(f"the map is larger than the program takes at once: {', '.join(over)}; take a smaller region, a coarser grid or simpler borders")


def kinds_of(entries):
    """The classes of the map by their names, those of made areas behind the others."""
    kinds = {}
    for entry in entries:
        kind = kinds.setdefault(entry.kind, Kind(entry.kind, entry.source.made))
        kind.areas, kind.faces = kind.areas + 1, kind.faces + len(entry.pieces)
    return sorted(kinds.values(), key=lambda kind: (kind.made is not None, kind.made == SLIVER, kind.name))


def main(chosen):
    name_outputs(chosen)
    layer = read_areas(chosen.file, chosen)
    areas, crs = layer.areas, layer.crs
    chosen.crs_name = crs_code(crs)
    system = crs.GetName() if crs else "an unnamed coordinate system"
    told = [f"read {counted(len(areas), 'feature')} of {chosen.file}, layer {layer.name}, in {system}", *layer.told]
    grid = grid_of(areas, chosen, layer.is_auto)
    told.append(f"a step of the grid is {grid.cell:.10g} {crs.GetLinearUnitsName() if crs and crs.IsProjected() else 'in units of the coordinates'}")
    areas, shapes = without_doubles(areas, list(sound([grid.place(area.shape) for area in areas], areas, told)), told)
    check_reach(shapes, grid)
    sorting = sorted_cells(areas, shapes, grid, chosen)
    refuse_overlaps(sorting)
    write_map(sorting, layer, told)
    print("\n".join(told))


class Made:
    """The map as it is written."""

    def __init__(self, sorting, layer):
        self.sorting, self.chosen, self.layer = sorting, sorting.chosen, layer
        self.property = self.chosen.property or "class"
        self.entries = list(entries_of(sorting, made_names(sorting.areas)))
        self.polygons = [polygon for entry in self.entries for polygon in entry.pieces]
        self.arcs, rings = shared(self.polygons)
        rest = iter(rings)
        geometries = [geometry_of(entry, [next(rest) for _ in entry.pieces], self.property) for entry in self.entries]
        self.kinds = kinds_of(self.entries)
        self.document = topology_document(geometries, self.arcs, sorting.grid, self.chosen.crs_name)
        self.points = sum(map(len, self.arcs))

    def text(self):
        text = json.dumps(self.document, ensure_ascii=False, separators=(",", ":")) + "\n"
        check_limits({"faces": len(self.polygons), "arcs": len(self.arcs), "points": self.points}, text)
        return text

    def metadata_text(self, topology_path, rules_path, told):
        """The metadata, with the steps that the program makes of what was written."""
        topology, crs = topology_of(self.document, topology_path, OBJECT), self.layer.crs
        known = Metadata([entry.source for entry in self.entries], [at for at, entry in enumerate(self.entries) for _ in entry.pieces], self.layer.fields)
        members = {"name": self.chosen.title or pathlib.Path(self.chosen.topology).stem, "attribution": self.chosen.attribution,
                   "crs": metadata.crs_members(self.chosen.crs_name, crs.ExportToProj4().strip() if crs else None),
                   "steps": steps_of(self.chosen.program, topology, topology_path, rules_path, is_in_metres(crs), told)}
        return metadata.text_of(metadata.document_of(topology, rules_path, known, members))

    def counts(self):
        """What was made, areas and parts apart."""
        owned = [entry for entry in self.entries if not entry.source.made]
        made = Counter(entry.source.made for entry in self.entries if entry.source.made)
        parts = sum(len(entry.pieces) for entry in owned)
        more = [f", {counted(made[SLIVER], 'sliver')}"] * bool(made[SLIVER]) + [", the sea"] * bool(made[SEA])
        return (f"{counted(len(owned), 'area')} in {counted(parts, 'part')}{''.join(more)}: {counted(len(self.polygons), 'face')}, "
                f"{counted(len(self.arcs), 'arc')}, {counted(self.points, 'point')}")


def steps_of(executable, topology, topology_path, rules_path, in_metres, told):
    """The table of steps and scales, or none where there is no program to be asked."""
    program = Program(executable, types.SimpleNamespace(map=str(topology_path), object=OBJECT, rules=str(rules_path)))
    try:
        return metadata.steps_table(Suiting(program, topology, metadata.PAPER).rows(), in_metres)
    except Failure as failure:
        if failure.status != 1:
            raise
        told.append(f"without a table of steps, since the program cannot be asked: {failure}")
        return None


def write_map(sorting, layer, told):
    chosen, made = sorting.chosen, Made(sorting, layer)
    keeps = os.path.exists(chosen.rules) and not chosen.new_rules
    text, rules = made.text(), None if keeps else rules_text(made.property, made.kinds)
    with written(chosen.topology, chosen.meta, *([] if keeps else [chosen.rules])) as (new_topology, new_meta, *new_rules):
        write_text(new_topology, text)
        if not keeps:
            write_text(new_rules[0], rules)
        rules_path = chosen.rules if keeps else new_rules[0]
        missing = unnamed.told_of(new_topology, OBJECT, rules_path) if keeps else []
        write_text(new_meta, made.metadata_text(new_topology, rules_path, told))
    told.extend(changes(sorting))
    told.append(f"wrote {chosen.topology}: {made.counts()}")
    told.append(f"wrote {chosen.meta}: names, ids and {counted(len(layer.fields), 'attribute')} of the areas, and the steps that suit scales")
    told.append(f"kept {chosen.rules} as it was (--new-rules writes it anew); the classes of {made.property!r} are:" if keeps else
                f"wrote {chosen.rules}, weights and compatibilities to be edited; the classes of {made.property!r} are:")
    told.extend(f"  {kind.areas:6} {kind.name}{f', in {kind.faces} parts' if kind.faces > kind.areas else ''}" for kind in made.kinds)
    told.extend(missing)


def changes(sorting):
    """What is not as it was in the source, in plain words."""
    cell, chosen = sorting.grid.cell, sorting.chosen
    kept = {number for part in sorting.parts.values() if not part.made for number in part.claims}
    lost = [area.title for number, area in enumerate(sorting.areas) if number not in kept]
    if lost:
        more = " .." if len(lost) > SHOWN else ""
        yield f"dropped, since nothing is left of it on the grid: {counted(len(lost), 'feature')}: {', '.join(lost[:SHOWN])}{more}"
    if sorting.thin:
        yield f"closed: {counted(sorting.thin, 'gap or overlap', 'gaps or overlaps')} no wider than a step of the grid"
    if sorting.mended:
        yield f"made slivers of what {counted(len(sorting.mended), 'pair')} of areas both claim"
    if sorting.won:
        yield f"gave what {counted(len(sorting.won), 'pair')} of areas both claim to the first of them"
    fates = {SLIVER: "made slivers", SEA: "made sea", None: "left open, as a part of the outside (--slivers WIDTH and --sea make areas of it)"}
    for made, gaps in sorting.gaps.items():
        if gaps:
            yield f"{counted(len(gaps), 'gap')} inside the map, the largest of {rounded(max(gap.area for gap in gaps) * cell ** 2)} square units: {fates[made]}"
    if sorting.closed:
        yield f"{counted(len(sorting.cracks), 'crack')} between areas, open to the outside: made slivers"
    elif not chosen.slivers:
        yield from open_cracks(sorting)


def open_cracks(sorting):
    """Tells of cracks that stay, as far as they are narrow beside the areas."""
    found = cracks.cracks(sorting.shapes, cracks.looked_for(sorting.shapes))
    if found:
        width = widths.told(found, sorting.grid.cell)
        yield f"{counted(len(found), 'crack')} between areas, open to the outside, at most {width} wide: left open (--slivers {width} makes areas of it)"
