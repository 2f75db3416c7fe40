"""The window of a slice, and what undoing the records of its packets makes of it, by docs/rules.md ("Records of a window")."""
from dataclasses import dataclass, field

from window_texts import edge_of, is_ascending


class Unfit(Exception):
    """A record that does not fit, and the least of the eight rules that it breaks."""

    def __init__(self, step, rule):
        super().__init__(f"the record of step {step} breaks rule {rule}")


def meets(area, box):
    """Whether two closed rectangles overlap or touch."""
    return box[0] <= area[2] and area[0] <= box[2] and box[1] <= area[3] and area[1] <= box[3]


@dataclass
class Changes:
    """What undoing a record does to the edges of a window: the keys that go, and the edges that come."""
    goes: list = field(default_factory=list)
    comes: list = field(default_factory=list)


class Window:
    """The window of a slice: the edges whose boxes meet its rectangle, and the classes of the faces beside them."""

    def __init__(self, area, step, faces, edges):
        self.area, self.step, self.edges, self.beside = area, step, {}, {}
        for edge in edges:
            if meets(area, edge.box):
                self.put(edge)
        self.faces = {face: faces[face] for face in self.beside if face}

    def part(self, area):
        """The window of the same slice in a rectangle within that of this one."""
        return Window(area, self.step, self.faces, self.edges.values())

    def put(self, edge):
        self.edges[edge.key] = edge
        for face in edge[1:3]:
            self.beside.setdefault(face, set()).add(edge.key)

    def take(self, key):
        for face in self.edges.pop(key)[1:3]:
            keys = self.beside.get(face)
            if keys:
                keys.discard(key)
                if not keys:
                    del self.beside[face]

    def undo(self, record):
        """Takes the window one step back, and tells what that changes. Unfit, where the record breaks a rule."""
        self.require_faces(record)
        pieces = self.mended(record)
        comes = [face for face, _ in record.faces]
        sound = is_ascending([edge.key for edge in record.comes]) and is_ascending([0, *comes])
        self.require(record, 6, sound and not any(face in self.faces for face in comes))
        mended = {mend.key for mend in record.mends}
        old = list(self.beside.get(record.made, ()))
        renamed = [self.renamed(self.edges[key], record) for key in old if key not in mended]
        new = [piece for piece in pieces if meets(self.area, piece.box)] + list(record.comes)
        changed = {*mended, *old}
        keys = {edge.key for edge in [*new, *renamed]}
        self.require(record, 7, len(keys) == len(new) + len(renamed) and not any(key in self.edges and key not in changed for key in keys))
        classes = {**self.faces, **dict(record.faces)}
        self.require(record, 8, all(not face or face in classes for edge in [*new, *renamed] for face in edge[1:3]))
        sides = {face for key in changed for face in self.edges[key][1:3]}
        for key in changed:
            self.take(key)
        for edge in [*new, *renamed]:
            self.put(edge)
        for face in {record.made, *comes, *sides}:
            if face in classes and face not in self.beside:
                del classes[face]
        self.faces = classes
        self.step = record.step - 1
        return Changes(list(mended), new)

    @staticmethod
    def require(record, rule, holds):
        if not holds:
            raise Unfit(record.step, rule)

    @staticmethod
    def renamed(edge, record):
        """An edge of the new face that has no mend: the winner takes that face's place."""
        left, right = (record.winner if face == record.made else face for face in edge[1:3])
        return edge._replace(left=left, right=right)

    def require_faces(self, record):
        numbers = {record.loser, record.winner, record.made, 0}
        self.require(record, 1, record.step <= self.step)
        self.require(record, 2, len(numbers) == 4 and record.loser not in self.faces and record.winner not in self.faces)

    def mended(self, record):
        """The pieces of all mended edges."""
        self.require(record, 3, is_ascending([mend.key for mend in record.mends]))
        for mend in record.mends:
            edge = self.edges.get(mend.key)
            self.require(record, 3, edge is not None and (edge.left == record.made) != (edge.right == record.made))
        longer = [self.longer(self.edges[mend.key], mend, record) for mend in record.mends]
        return [piece for mend, points in zip(record.mends, longer) for piece in self.cut(self.edges[mend.key], points, mend, record)]

    def longer(self, edge, mend, record):
        """The points of a mended edge with those that come back."""
        points = list(edge.points)
        self.require(record, 4, is_ascending([at for at, _ in mend.puts]))
        for at, point in mend.puts:
            self.require(record, 4, 1 <= at < len(points) and point not in (points[at - 1], points[at]))
            points.insert(at, point)
        return points

    def cut(self, edge, points, mend, record):
        """The pieces of a mended edge."""
        lasts = [0, *(last for _, last, _, _ in mend.pieces)]
        self.require(record, 5, mend.pieces and is_ascending(lasts) and lasts[-1] == len(points) - 1)
        pieces = []
        for start, (key, last, side, is_turned) in zip(lasts, mend.pieces):
            self.require(record, 5, side in (record.loser, record.winner))
            left, right = (side, edge.right) if edge.left == record.made else (edge.left, side)
            part = points[start : last + 1]
            pieces.append(edge_of(key, right, left, part[::-1]) if is_turned else edge_of(key, left, right, part))
        return pieces

    def text(self):
        """The text that /window gives."""
        rows = [f"window {self.step} {' '.join(map(str, self.area))}", f"faces {len(self.faces)}"]
        rows += [f"face {face} {kind}" for face, kind in sorted(self.faces.items())]
        rows.append(f"edges {len(self.edges)}")
        rows += [f"edge {edge.key} {edge.left} {edge.right} {len(edge.points)} {' '.join(f'{x} {y}' for x, y in edge.points)}"
                 for _, edge in sorted(self.edges.items())]
        return "\n".join([*rows, "end", ""])
