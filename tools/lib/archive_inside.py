"""In which face a cell of an archive lies where no border runs through it: its window does not tell that."""


def runs_through(area, edge):
    """Whether an edge runs through the open rectangle half a unit within an area."""
    # Twice all numbers, so that they are whole.
    x0, y0, x1, y1 = 2 * area[0] + 1, 2 * area[1] + 1, 2 * area[2] - 1, 2 * area[3] - 1
    if x0 >= x1 or y0 >= y1 or 2 * edge.box[0] >= x1 or 2 * edge.box[2] <= x0 or 2 * edge.box[1] >= y1 or 2 * edge.box[3] <= y0:
        return False
    return any(crosses((x0, y0, x1, y1), p, q) for p, q in zip(edge.points, edge.points[1:]))


def crosses(rectangle, p, q):
    """Whether a segment, of half the size, has a point in an open rectangle: no axis and no line along the segment keeps them apart."""
    x0, y0, x1, y1 = rectangle
    (px, py), (qx, qy) = (2 * p[0], 2 * p[1]), (2 * q[0], 2 * q[1])
    if max(px, qx) <= x0 or min(px, qx) >= x1 or max(py, qy) <= y0 or min(py, qy) >= y1:
        return False
    sides = [(qx - px) * (y - py) - (qy - py) * (x - px) for x in (x0, x1) for y in (y0, y1)]
    return min(sides) < 0 < max(sides)


class Inside:
    """Follows a window as records are undone on it, and tells in which face its inside lies wherever no border runs through it. `ask` gives the face and the
    class at a grid point after a step; a map has so many faces before its first step."""

    def __init__(self, window, faces, ask):
        self.area, self.faces, self.ask, self.rows = window.area, faces, ask, []
        self.has_inside = self.area[2] - self.area[0] >= 2 and self.area[3] - self.area[1] >= 2
        self.running = {key for key, edge in window.edges.items() if runs_through(self.area, edge)}
        self.tell(window.step)

    def is_told(self):
        """Whether the last row tells the face: no border does."""
        return self.has_inside and not self.running

    def tell(self, step):
        """Asks for the face after a step, where no border tells it."""
        if self.is_told():
            found = self.ask(step, self.area[0] + 1, self.area[3] - 1)
            if not self.rows or self.rows[-1][1:] != found:
                self.rows.append((step, *found))

    def go_on(self, step):
        """Goes on to a step through those that change nothing of the window. They may split a face whose borders are all beyond it."""
        while self.is_told() and (made := self.rows[-1][1] - self.faces) > step:
            self.tell(made - 1)

    def follow(self, record, changes):
        """What a record does that was just undone."""
        was_told = self.is_told()
        self.running.difference_update(changes.goes)
        self.running.update(edge.key for edge in changes.comes if runs_through(self.area, edge))
        # Where nothing ran before and nothing runs now, the face is another one only if it was the one that is split.
        if not was_told or record.made == self.rows[-1][1]:
            self.tell(record.step - 1)


def inside_text(rows):
    return "\n".join([f"inside {len(rows)}", *(f"at {step} {face} {kind}" for step, face, kind in rows), "end", ""]).encode()
