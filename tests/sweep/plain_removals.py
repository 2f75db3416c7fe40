"""A slow plain reckoning of the vertices that go, and of the slices where they do, by docs/rules.md. A base is one of
plain_maps."""
from plain_maps import History, cross


def sign(value):
    return (value > 0) - (value < 0)


def side(a, b, c):
    return sign(cross(a, b, c))


class Triangle:
    """Three points in a row of which the middle one may go. They are not on one line."""

    def __init__(self, a, b, c):
        self.corners, self.ends = (a, b, c), (a, c)
        # The lines of its sides, each with the corner that is not on it.
        self.lines = [(a, b, side(a, b, c)), (b, c, side(b, c, a)), (a, c, side(a, c, b))]

    def is_away(self, line, point):
        """Whether a point is beyond the line of a side, or is a or c on that line."""
        u, v, inner = line
        at = side(u, v, point)
        return at == -inner or (at == 0 and point in self.ends)

    def is_beside(self, p, q, which):
        """Whether the triangle is on this side of the line of a segment."""
        return all(side(p, q, v) == which or (v in self.ends and v in (p, q)) for v in self.corners)

    def keeps_out(self, p, q):
        """Whether a segment keeps out of it."""
        if p in self.ends and q in self.ends:
            return False
        if any(self.is_away(line, p) and self.is_away(line, q) for line in self.lines):
            return True
        return self.is_beside(p, q, 1) or self.is_beside(p, q, -1)


def segments(points):
    return list(zip(points, points[1:]))


class Removals(History):
    """The history of a map with the vertices that go: `slices` has the slice after each step, the edges by key with their faces
    and points."""

    def __init__(self, base):
        self.losers = []
        super().__init__(base)
        self.gone, self.slices = set(), []
        for step in range(len(self.labels)):
            self.slices.append(self.swept(step, self.edges_at(step)))

    def next_step(self):
        step = super().next_step()
        self.losers += [step[0]] if step else []
        return step

    def edges_at(self, step):
        """The edges after a step, less what went before it."""
        borders = self.borders(step)
        return {key: (*borders[key], [point for point in points if point not in self.gone]) for key, points in self.chains(step).items()}

    def swept(self, step, edges):
        """What is left of the edges when a step has taken its vertices."""
        if step == 0 or self.base.ratio == 0:
            return edges
        made, area = len(self.base.classes) + step, self.area[self.losers[step - 1]]
        for key, (left, right, points) in edges.items():
            if made in (left, right):
                others = [one for other, (*_, row) in edges.items() if other != key for one in segments(row)]
                edges[key] = left, right, self.kept(points, others, area)
        return edges

    def kept(self, points, others, area):
        """The points of an edge that stay, where the others are the segments of all other edges."""
        done, rest = [points[0]], points[1:]
        while len(rest) > 1:
            a, b, c = done[-1], rest[0], rest[1]
            if self.goes(a, b, c, area, [*others, *segments(done), *segments(rest[1:])]):
                self.gone.add(b)
            else:
                done.append(b)
            del rest[0]
        return done + rest

    def goes(self, a, b, c, area, segments_left):
        """Whether b goes, where these are the other segments of the map at that moment, and the loser has half of this area."""
        twice = abs(cross(a, b, c))
        if twice == 0:
            return True
        triangle = Triangle(a, b, c)
        return self.base.ratio * twice <= area and all(triangle.keeps_out(p, q) for p, q in segments_left)

    def slice_text(self, step):
        """The slice after a step."""
        self.too_high(step)
        live, edges = sorted(set(self.labels[step]) - {0}), self.slices[step]
        rows = [f"slice {step}", f"faces {len(live)}", *(f"face {face} {self.class_of[face]}" for face in live), f"edges {len(edges)}"]
        for key, (left, right, points) in edges.items():
            rows.append(f"edge {key} {left} {right} {len(points)} " + " ".join(f"{x} {y}" for x, y in points))
        return "\n".join([*rows, "end"])
