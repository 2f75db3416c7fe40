"""tools/loss: how much of a map lies in another face than it should, and at most how much, step by step and for several ratios."""
import json
import pathlib
import tempfile
from dataclasses import dataclass

from shapely.ops import unary_union

from areas import base_faces, face_polygons
from bounds import bounds_at, read_records, transfers_of
from command import Failure, with_progress, write_text
from history import Suiting
from program import Program, read_steps
from topology import load_json, read_topology


@dataclass
class Row:
    """What is told of a step. Areas are twice as large as they are, in square units of the grid; of each face there are its
    own area, that of its union, what belongs to one of the two alone, and how much that is at most."""
    count: int
    points: int
    moved: float
    bound: int
    total: int
    faces: list


def halving(last, faces):
    """The steps that leave a half of the faces, a quarter, and so on, and the last one."""
    steps, left = {last}, faces // 2
    while left > 1:
        steps.add(min(faces - left, last))
        left //= 2
    return sorted(steps)


def shapes_of(topology):
    return {face: unary_union(parts) for face, parts in face_polygons(topology).items()}


def moved(polygons, unions):
    """Twice the area of what lies in a face that is not its own, the outside counted as one."""
    away = sum(unions[face].difference(polygons[face]).area for face in polygons)
    gained = unary_union(list(polygons.values())).difference(unary_union(list(unions.values()))).area
    return 2 * (away + gained)


class Measuring:
    """A map with its history, which is measured step by step."""

    def __init__(self, program, steps):
        self.program, base = program, program.slice(0)
        if not base.faces:
            raise Failure("the map has no face")
        self.steps, self.areas, self.shapes = steps or halving(program.last_step(), len(base.faces)), base.double_areas(), {}
        text = program.asked("packet", max(self.steps), 0)
        self.history, self.transfers = read_steps(text)[::-1], transfers_of(program.slice(max(self.steps)), read_records(text))

    def rows(self, server, label, by_face):
        """A row for each step."""
        self.shapes = shapes_of(server.topology(0))
        return {step: self.row(server, step, by_face) for step in with_progress(self.steps, label, 10)}

    def row(self, server, step, by_face):
        topology = server.topology(step)
        polygons, made = shapes_of(topology), base_faces(self.history[:step], self.shapes)
        unions = {face: unary_union([self.shapes[part] for part in parts]) for face, parts in made.items()}
        bounds, bound = bounds_at(self.transfers, self.history, step)
        faces = []
        if by_face:
            areas = self.program.slice(step).double_areas()
            faces = [(face, areas[face], sum(self.areas[part] for part in made[face]), 2 * polygons[face].symmetric_difference(unions[face]).area, bounds[face])
                     for face in sorted(polygons)]
        return Row(len(polygons), sum(map(len, topology.arcs)), moved(polygons, unions), bound, sum(self.areas.values()), faces)


def measured(program, steps, label, by_face):
    """A row for each step. What is wrong with the map is told before it is served."""
    measuring = Measuring(program, steps)
    with program.serving() as server:
        return measuring.rows(server, label, by_face)


def with_ratio(chosen, ratio, folder):
    """The words of the map, with rules of another ratio."""
    rules = load_json(chosen.rules)
    if not isinstance(rules, dict):
        raise Failure(f"{chosen.rules} is no rules file")
    path = pathlib.Path(folder) / f"ratio_{ratio}.json"
    write_text(path, json.dumps({**rules, "ratio": ratio}))
    changed = type(chosen)(**vars(chosen))
    changed.rules = str(path)
    return Program(chosen.program, changed)


def table(columns):
    """A row for each step; for each ratio the share in another face, the one that it is at most, and the points that are left."""
    print("area in another face, of the whole map, and at most how much; points of all edges")
    print(f"{'step':>8} {'faces':>8}" + "".join(f"   {name:>12} {'at most':>9} {'points':>8}" for name in columns))
    first = next(iter(columns.values()))
    for step, row in first.items():
        cells = "".join(f"   {share(rows[step].moved, rows[step].total)} {bound_share(rows[step]):>9} {rows[step].points:8}" for rows in columns.values())
        print(f"{step:8} {row.count:8}{cells}")


def share(part, whole):
    return f"{100 * part / whole:11.2f}%"


def bound_share(row):
    """What is moved at most, rounded up."""
    hundredths = -(-row.bound * 10_000 // row.total)
    return f"{hundredths // 100}.{hundredths % 100:02}%"


def table_by_face(name, step, row):
    """A row for each face of a slice, and one for the map."""
    print(f"\nstep {step}, {name}: twice the area on the grid of each face, of its union, of what is in one of the two alone, and at most")
    every = "all", sum(area for _, area, *_ in row.faces), row.total, row.moved, row.bound
    for face, area, union, alone, bound in [*row.faces, every]:
        print(f"{face:>8} {area:14} {union:14} {alone:16.1f} {bound:14}")


def steps_of(program, chosen):
    """The steps that are asked for: by their numbers, by numbers of faces, or by scales."""
    suits = Suiting(program, read_topology(program.map[0], chosen.object) if chosen.object else None, chosen.paper)
    return chosen.steps or [suits.of_faces(faces) for faces in chosen.faces or []] or [suits.of_scale(scale) for scale in chosen.scale or []]


def main(chosen):
    columns, steps = {}, steps_of(Program(chosen.program, chosen), chosen)
    with tempfile.TemporaryDirectory() as folder:
        for ratio in chosen.ratio or [None]:
            program = Program(chosen.program, chosen) if ratio is None else with_ratio(chosen, ratio, folder)
            name = "moved" if ratio is None else f"ratio {ratio}"
            columns[name] = measured(program, steps, name, chosen.by_face)
    table(columns)
    for name, rows in columns.items() if chosen.by_face else ():
        for step, row in rows.items():
            table_by_face(name, step, row)
