"""tools/steps: how many steps a map has, and what is left after each."""
import sys

import metadata
import unnamed
from command import counted, rounded
from history import Suiting, least_at, short, with_areas
from program import Program
from rules import class_names
from topology import read_topology


def table(rows, every):
    print(f"{'step':>8} {'faces':>8} {'least area':>14} {'points':>9}")
    for number, faces, least, points in [row for row in rows if row[0] % every == 0 or row is rows[-1]] if every else short(rows):
        print(f"{number:8} {faces:8} {rounded(least):>14} {points:9}")


def gone(first, steps, names):
    """For each class the step after which no face has it any more."""
    counts = dict.fromkeys(range(len(names)), 0)
    for kind in first.faces.values():
        counts[kind] = counts.get(kind, 0) + 1
    lines = []
    for step in steps:
        counts[step.loser_class] -= 1
        if counts[step.loser_class] == 0:
            name = names[step.loser_class] if step.loser_class < len(names) else step.loser_class
            lines.append(f"after step {step.number} no face of class {name} is left")
    return lines


def suiting(suits, chosen):
    """The step that is asked for, and a line that tells what it is."""
    if chosen.faces:
        step = suits.of_faces(chosen.faces)
        return step, f"step {step} is the first with at most {counted(chosen.faces, 'face')}"
    if chosen.scale:
        suits.of_scale(chosen.scale)
    least = chosen.least or least_at(chosen.scale, chosen.paper)
    found = with_areas(suits.rows(), least)
    return found[0], (f"step {found[0]} is the first with no area below {rounded(least)} square units: {counted(found[1], 'face')}, "
                      f"{counted(found[3], 'point')}")


def main(chosen):
    program = Program(chosen.program, chosen)
    topology = read_topology(program.map[0], chosen.object) if chosen.object else None
    suits = Suiting(program, topology, chosen.paper)
    asked = suiting(suits, chosen) if chosen.least or chosen.scale or chosen.faces else None
    if chosen.alone:
        print(asked[0])
        return
    for line in unnamed.told_of(chosen.map, chosen.object, chosen.rules) if chosen.rules else []:
        print(f"steps: {line}", file=sys.stderr)
    tell(program, suits, chosen)
    if asked:
        print(asked[1])
    if chosen.meta:
        metadata.refresh(chosen, topology, suits.rows())
        print(f"wrote {chosen.meta}")


def tell(program, suits, chosen):
    """The table, and when each class is gone."""
    rows, last = suits.rows(), suits.rows()[-1][0]
    print(f"{counted(last, 'step')}, from {counted(rows[0][1], 'face')} to {counted(rows[-1][1], 'face')}")
    table(rows, chosen.every)
    for line in gone(program.slice(0), program.steps(last), class_names(chosen.rules) if chosen.rules else []):
        print(line)
