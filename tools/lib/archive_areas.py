"""The cells of an archive: quarters of quarters of a map, and the steps through which each leads, so that none has many faces."""
from dataclasses import dataclass

from archive_format import Cell, children_of
from window_records import meets

# A cell that has many faces at its first step leads on until it has so many times as many. One that is narrower than the least side is not cut.
GROWTH, LEAST_SIDE = 1.5, 4


@dataclass
class Tree:
    """Which faces were joined into which, by the step, and the box of each face of any step."""
    steps: list
    boxes: dict

    def made(self, step):
        """The face that a step makes."""
        return self.steps[step][2]


@dataclass
class Part:
    """What is still to be cut up: a rectangle, the faces that are there at some step, and the earlier steps that make a face there, from the last one on."""
    area: tuple
    step: int
    faces: list
    steps: list


def joined(one, other):
    """The box round two boxes."""
    return min(one[0], other[0]), min(one[1], other[1]), max(one[2], other[2]), max(one[3], other[3])


def boxes_of(edges):
    """The box of each face of a slice, and of all, which is that of face 0."""
    boxes = {}
    for edge in edges:
        for face in (edge.left, edge.right, 0):
            box = boxes.get(face)
            boxes[face] = joined(box, edge.box) if box else edge.box
    return boxes


def tree_of(records, edges):
    """The tree of a map by the records of any packet of all its steps, and the edges of its slice at step 0."""
    boxes, steps = boxes_of(edges), [None]
    for record in reversed(records):
        steps.append((record.loser, record.winner, record.made))
        boxes[record.made] = joined(boxes[record.loser], boxes[record.winner])
    return Tree(steps, boxes)


def faces_at_end(tree, faces):
    """The faces that are left after the last step."""
    gone = {face for step in tree.steps[1:] for face in step[:2]}
    return [face for face in [*faces, *(step[2] for step in tree.steps[1:])] if face not in gone]


def cells_of(tree, faces, most):
    """The cells of a map in their order: breadth first, four children one behind the other. Each may have so many faces at its last step."""
    last = len(tree.steps) - 1
    bounds = tree.boxes.get(0, (0, 0, 0, 0))
    parts, cells = [Part(bounds, last, faces_at_end(tree, faces), list(range(last, 0, -1)))], [Cell(bounds, last, 0)]
    for place, cell in enumerate(cells):
        part, parts[place] = parts[place], None
        cell.last, there, rest = led(tree, part, most)
        if cell.last == 0:
            continue
        cell.child = len(cells)
        for area in children_of(cell.area):
            cells.append(Cell(area, cell.last, 0, 0, cell.depth + 1))
            parts.append(Part(area, cell.last, [face for face in there if meets(area, tree.boxes[face])],
                              [step for step in rest if meets(area, tree.boxes[tree.made(step)])]))
    return cells


def led(tree, part, most):
    """The step to which a cell leads, the faces that it has then, and the earlier steps that make a face in it."""
    x0, y0, x1, y1 = part.area
    if min(x1 - x0, y1 - y0) < LEAST_SIDE:
        return 0, [], []
    there, most = set(part.faces), max(most, GROWTH * len(part.faces), len(part.faces) + 1)
    for place, step in enumerate(part.steps):
        loser, winner, made = tree.steps[step]
        comes = [face for face in (loser, winner) if meets(part.area, tree.boxes[face])]
        if len(there) - 1 + len(comes) > most:
            return step, list(there), part.steps[place:]
        there.discard(made)
        there.update(comes)
    return 0, [], []
