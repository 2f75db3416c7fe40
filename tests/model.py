"""A map of some hundred steps, and an own reckoning of it by docs/rules.md, as plain as it can be: its history, its
borders, the areas of its faces, and the windows of a slice. The program's answers are held to it. A quicker reckoning of
the history, which is held to the plain one, is for a map of very many steps."""
import collections
import heapq

from lib import arc_text, bent_grid, listing

# Cells a side; of the large map they are as many as a map may have.
SIDE, LARGE_SIDE = 20, 180
# So many points a listing of version 1 may have.
MOST_POINTS_1 = 131072
WEIGHTS = [1, 3, 2]
COMPATIBILITY = [[5, 1, 2], [1, 4, 3], [2, 2, 1]]
STEPS = [0, 1, 2, 17, 100, 199, 250, 333, 398, 399]
Step = collections.namedtuple("Step", "loser loser_class winner winner_class")
Slice = collections.namedtuple("Slice", "first faces edges")


def double_area(points):
    """Twice the area that a row of points adds to the face at its left."""
    return sum(a * d - b * c for (a, b), (c, d) in zip(points, points[1:]))


def length(points):
    return sum(abs(a - c) + abs(b - d) for (a, b), (c, d) in zip(points, points[1:]))


class Model:
    """A map of bent cells of three classes. Its history is reckoned step by step."""

    def __init__(self, ratio, side=SIDE):
        self.ratio = ratio
        self.count, _, arcs = bent_grid(side)
        self.arcs = list(arcs)
        self.class_of = {face: face * face % 7 % len(WEIGHTS) for face in range(1, self.count + 1)}
        self.area = collections.Counter()
        for left, right, points in self.arcs:
            self.area[left] += double_area(points)
            self.area[right] -= double_area(points)
        self.parent, self.steps = {}, []
        self.merge_all()

    def merge_all(self):
        """All steps, up to the one at which one face is left."""
        # The faces at the sides of each arc, with the length of the arc, as they are now.
        self.sides = [(left, right, length(points)) for left, right, points in self.arcs]
        live = set(range(1, self.count + 1))
        while len(live) > 1:
            live = self.merge(live)

    def listing(self):
        classes = [f"{weight} {' '.join(map(str, row))}" for weight, row in zip(WEIGHTS, COMPATIBILITY)]
        arcs = [arc_text(*arc) for arc in self.arcs]
        version = 1 if sum(len(points) for _, _, points in self.arcs) <= MOST_POINTS_1 else 2
        return listing(self.count, arcs, ratio=self.ratio, classes=classes, class_of=self.class_of, version=version)

    def merge(self, live):
        """One step: the least important face goes into the neighbour that takes it best. All faces hang together, so
        each has a neighbour."""
        loser = min(live, key=lambda face: (self.area[face] * WEIGHTS[self.class_of[face]], face))
        shared = collections.Counter()
        for left, right, long in self.sides:
            if loser in (left, right) and left != right and 0 not in (left, right):
                shared[left + right - loser] += long
        fits = COMPATIBILITY[self.class_of[loser]]
        winner = max(shared, key=lambda face: (fits[self.class_of[face]] * shared[face], -face))
        made = self.made_of(loser, winner)
        self.sides = [tuple(made if face in (loser, winner) else face for face in sides) + (long,) for *sides, long in self.sides]
        return live - {loser, winner} | {made}

    def made_of(self, loser, winner):
        """The number of the face that two become by the next step."""
        made = self.count + len(self.steps) + 1
        self.steps.append(Step(loser, self.class_of[loser], winner, self.class_of[winner]))
        self.parent[loser] = self.parent[winner] = made
        self.class_of[made], self.area[made] = self.class_of[winner], self.area[loser] + self.area[winner]
        return made

    def ancestors(self, step):
        """What each face has become by a step. A face that is made has a greater number than what it is made of."""
        last, found = self.count + step, {0: 0}
        for face in range(last, 0, -1):
            into = self.parent.get(face)
            found[face] = found.get(into, face)
        return found

    def borders(self, step):
        """The borders after a step: the faces at their sides, by arc."""
        found = self.ancestors(step)
        sides = ((found[left], found[right]) for left, right, _ in self.arcs)
        return {arc: pair for arc, pair in enumerate(sides) if pair[0] != pair[1]}

    def borders_text(self, step):
        rows = (f"border {arc} {left} {right}\n" for arc, (left, right) in self.borders(step).items())
        return "".join([f"borders {step}\n", *rows, "end\n"]).encode()

    def faces(self, step):
        """The classes of the faces after a step, by number."""
        live = set(self.ancestors(step).values()) - {0}
        return {face: self.class_of[face] for face in sorted(live)}

    def info(self, version):
        points = sum(len(points) for _, _, points in self.arcs)
        return f"version {version} steps {len(self.steps)} faces {self.count} arcs {len(self.arcs)} points {points}\n".encode()

    def check_text(self):
        return b"ok" + self.info(0).split(f"steps {len(self.steps)}".encode())[1]

    def faults_of_slice(self, step, text):
        """What is wrong with a slice, as far as borders, faces and areas tell."""
        got, borders, area = slice_of(text), self.borders(step), collections.Counter()
        faults = [] if got.first == f"slice {step}" else [f"it begins with {got.first}"]
        if got.faces != self.faces(step):
            faults.append("its faces are wrong")
        for key, (left, right, points) in got.edges.items():
            if borders.get(key) != (left, right):
                faults.append(f"edge {key} has the sides {left} and {right}, and its arc {borders.get(key)}")
            area[left] += double_area(points)
            area[right] -= double_area(points)
        # Vertices that go take area with them, but for that of the outside and of the faces together, which is none.
        if sum(area.values()) != 0 or (self.ratio == 0 and any(area[face] != self.area[face] for face in got.faces)):
            faults.append("the areas of its faces are wrong")
        return faults


class QuickModel(Model):
    """The same map, whose least important face is taken from a heap, and whose faces know their neighbours."""

    def merge_all(self):
        beside = collections.defaultdict(collections.Counter)
        for left, right, points in self.arcs:
            if 0 not in (left, right):
                beside[left][right] += length(points)
                beside[right][left] += length(points)
        heap = [self.importance(face) for face in range(1, self.count + 1)]
        heapq.heapify(heap)
        while len(beside) > 1:
            _, loser = heapq.heappop(heap)
            if loser in beside:
                heapq.heappush(heap, self.importance(self.join(loser, beside)))

    def importance(self, face):
        return self.area[face] * WEIGHTS[self.class_of[face]], face

    def join(self, loser, beside):
        """One step: the greater of two rows of neighbours takes in the other."""
        fits = COMPATIBILITY[self.class_of[loser]]
        winner = max(beside[loser], key=lambda face: (fits[self.class_of[face]] * beside[loser][face], -face))
        made = self.made_of(loser, winner)
        less, most = sorted([beside.pop(loser), beside.pop(winner)], key=len)
        most.update(less)
        for face in (loser, winner):
            del most[face]
        for face in most:
            for old in (loser, winner):
                beside[face].pop(old, None)
            beside[face][made] = most[face]
        beside[made] = most
        return made


def slice_of(text):
    """A slice or a window as its text tells it: its first line, the classes of its faces, and its edges by key, with
    the faces at their sides and their points."""
    first, *lines = text.decode().splitlines()
    rows = [line.split() for line in lines]
    faces = {int(row[1]): int(row[2]) for row in rows if row[0] == "face"}
    edges = {}
    for row in rows:
        if row[0] == "edge":
            key, left, right, _, *numbers = map(int, row[1:])
            edges[key] = left, right, list(zip(numbers[::2], numbers[1::2]))
    return Slice(first, faces, edges)


def window_of(text, box):
    """The window of a slice, from the texts of both: the edges whose bounding boxes touch the box, and the faces beside
    them."""
    whole = slice_of(text)
    return window_in(whole, bounds_of(whole), box)


def bounds_of(whole):
    """The bounding boxes of the edges of a slice, by key."""
    columns = {key: tuple(zip(*points)) for key, (_, _, points) in whole.edges.items()}
    return {key: (min(xs), min(ys), max(xs), max(ys)) for key, (xs, ys) in columns.items()}


def window_in(whole, bounds, box):
    """The same, from what the text of the slice tells, and the bounding boxes of its edges."""
    x0, y0, x1, y1 = box
    touched = [key for key, (left, low, right, high) in bounds.items() if left <= x1 and right >= x0 and low <= y1 and high >= y0]
    edges = {key: whole.edges[key] for key in touched}
    beside = {face for left, right, _ in edges.values() for face in (left, right)}
    faces = {face: number for face, number in whole.faces.items() if face in beside}
    lines = [f"window {whole.first.split()[1]} {x0} {y0} {x1} {y1}", f"faces {len(faces)}"]
    lines += [*(f"face {face} {number}" for face, number in faces.items()), f"edges {len(edges)}"]
    lines += [*(f"edge {key} {arc_text(*edge)}" for key, edge in edges.items()), "end"]
    return ("\n".join(lines) + "\n").encode()
