"""How far the faces of a slice may be from the unions of the faces of which they are made. A vertex that a step removes from
an edge takes its triangle from the face at one side of the edge to that at the other, and nothing else moves. Triangles
between faces that are one face later no longer count. All areas are twice as large as they are, so they are whole numbers."""
from collections import Counter
from dataclasses import dataclass, field


@dataclass
class Transfer:
    """A triangle that a removed vertex takes from one face to another, as the faces are after the step: twice its area."""
    step: int
    giver: int
    taker: int
    area: int


@dataclass
class Record:
    """What undoes a step: for each edge that changes its key, the vertices that come back with their places, and its pieces;
    and the edges that come back."""
    step: int
    loser: int
    winner: int
    made: int
    mends: list = field(default_factory=list)
    edges: list = field(default_factory=list)


def read_records(text):
    """The records of a packet, the last step first."""
    records = []
    for line in text.splitlines():
        mark, *rest = line.split(" ")
        numbers = list(map(int, rest))
        if mark == "step":
            number, loser, _, winner, _, made = numbers[:6]
            records.append(Record(number, loser, winner, made))
        elif mark == "mend":
            records[-1].mends.append((numbers[0], [], []))
        elif mark in ("put", "piece"):
            records[-1].mends[-1][1 if mark == "put" else 2].append(numbers)
        elif mark == "edge":
            records[-1].edges.append((*numbers[:3], list(zip(numbers[4::2], numbers[5::2]))))
    return records


class Undoing:
    """The edges of a slice while records are undone on it. The faces at the sides of an edge have marks here, and a mark
    stands for one face at a time, so that an edge which only changes the number of its face stays as it is."""

    def __init__(self, slice_):
        self.marks = {face: face for face in (0, *slice_.faces)}
        self.faces = dict(self.marks)
        self.edges = {key: (left, right, points) for key, left, right, points in slice_.edges}

    def undo(self, record):
        """Undoes a step, and gives what it transferred."""
        whole = {key: self.put_back(key, puts) for key, puts, _ in record.mends}
        found = [transfer for key, puts, _ in record.mends for transfer in self.transfers(record.step, key, whole[key], {put[0] for put in puts})]
        # The winner goes on as the face that was made, and the loser gets a mark that no face has had.
        made = self.marks.pop(record.made)
        for face, mark in ((record.winner, made), (record.loser, -record.step)):
            self.marks[face], self.faces[mark] = mark, face
        cut = [(*self.edges.pop(key)[:2], whole[key], pieces) for key, _, pieces in record.mends]
        for left, right, points, pieces in cut:
            self.cut(left, right, points, pieces, made)
        for key, left, right, points in record.edges:
            self.edges[key] = self.marks[left], self.marks[right], points
        return found

    def put_back(self, key, puts):
        """The points of an edge with those that come back."""
        points = list(self.edges[key][2])
        for place, x, y in puts:
            points.insert(place, (x, y))
        return points

    def transfers(self, step, key, points, gone):
        """The triangles of the vertices at these places: each with the last point before it that stays and with the next one."""
        left, right = (self.faces[mark] for mark in self.edges[key][:2])
        last = points[0]
        for place, (b, c) in enumerate(zip(points[1:], points[2:]), 1):
            if place not in gone:
                last = b
                continue
            turn = (b[0] - last[0]) * (c[1] - last[1]) - (b[1] - last[1]) * (c[0] - last[0])
            if turn:
                # Where the edge turns to the left, the triangle lies at its left.
                yield Transfer(step, *((left, right) if turn > 0 else (right, left)), abs(turn))

    def cut(self, left, right, points, pieces, made):
        """Cuts an edge into its pieces, each with the loser or the winner at the side of the face that was made."""
        start = 0
        for key, end, face, is_turned in pieces:
            sides = (self.marks[face], right) if left == made else (left, self.marks[face])
            piece = points[start : end + 1]
            self.edges[key] = (*sides[::-1], piece[::-1]) if is_turned else (*sides, piece)
            start = end


def transfers_of(slice_, records):
    """All that the steps up to a slice have transferred."""
    undoing = Undoing(slice_)
    return [transfer for record in records for transfer in undoing.undo(record)]


def ancestors(steps, last):
    """What the faces that steps up to this one merge or make have become after it."""
    found = {}
    for step in reversed(steps[:last]):
        into = found.get(step.made, step.made)
        for face in (step.loser, step.winner, step.made):
            found[face] = into
    return found


def bounds_at(transfers, steps, last):
    """How much at most lies in another face after a step than its union tells: of each face, what belongs to one of the two
    alone; and of the whole map, each place once. The outside is face 0."""
    into, by_face, whole = ancestors(steps, last), Counter(), 0
    for transfer in transfers:
        giver, taker = (into.get(face, face) for face in (transfer.giver, transfer.taker))
        if transfer.step <= last and giver != taker:
            by_face[giver] += transfer.area
            by_face[taker] += transfer.area
            whole += transfer.area
    return by_face, whole
