"""What is left of a map after each of its steps, and which step suits a number of faces or a scale."""
import heapq

from command import STEP, Failure, counted, rounded

# A step of a table, of about as many rows.
SHORT = 24


class History:
    """What is left after each step, from the first slice and the steps."""

    def __init__(self, first, steps, unit):
        self.steps, self.unit = steps, unit
        self.areas = grid_areas(first)
        # The faces that a step merges; the others stay to the end, as they have no neighbour, or none that may go to the other.
        self.later = {face for step in steps for face in (step.loser, step.winner)}
        for step in steps:
            self.areas[step.made] = self.areas[step.loser] + self.areas[step.winner]
        self.live, self.points = set(first.faces), first.points()
        self.going = [(self.areas[face], face) for face in self.live & self.later]
        heapq.heapify(self.going)

    def rows(self):
        """Step, faces, least area, points."""
        yield self.row(0)
        for step in self.steps:
            self.live -= {step.loser, step.winner}
            self.live.add(step.made)
            if step.made in self.later:
                heapq.heappush(self.going, (self.areas[step.made], step.made))
            self.points -= step.points
            yield self.row(step.number)

    def row(self, number):
        while self.going and self.going[0][1] not in self.live:
            heapq.heappop(self.going)
        least = self.going[0][0] if self.going else min((self.areas[face] for face in self.live), default=0)
        return number, len(self.live), least * self.unit, self.points


def grid_areas(first):
    """The area of each face in square units of the grid."""
    return {face: area / 2 for face, area in first.double_areas().items()}


def is_in_degrees(crs_name):
    """Whether the coordinates of a topology are degrees, as far as the name of its coordinate system tells."""
    return crs_name is not None and ("CRS84" in crs_name or crs_name.endswith(":4326") or crs_name.startswith(("GEOGCS", "GEOGCRS", "GEODCRS")))


def unit_area(topology):
    """How many square units of the source a square unit of the grid has."""
    return abs(topology.scale[0] * topology.scale[1]) if topology else 1.0


def least_at(scale, paper):
    """The least area, in square metres, of what is seen on a map 1 : scale."""
    return scale ** 2 * paper / 1e6


def scale_of(least, paper):
    """The scale at which this area is just seen."""
    return (least * 1e6 / paper) ** 0.5


def with_areas(rows, least):
    """The first row that has no smaller area."""
    found = next((row for row in rows if row[2] >= least), None)
    if found is None:
        raise Failure(f"no step has areas of {rounded(least)} square units alone; the greatest least area is {rounded(max(row[2] for row in rows))}", STEP)
    return found


def with_faces(faces, last, wanted):
    """The first step after which at most so many faces are left: each step takes one away."""
    if faces - last > wanted:
        raise Failure(f"the map never has fewer than {counted(faces - last, 'face')}", STEP)
    return max(faces - wanted, 0)


class Suiting:
    """Finds steps of a map by a number of faces or by a scale."""

    def __init__(self, program, topology, paper):
        self.program, self.topology, self.paper, self.table = program, topology, paper, None

    def rows(self):
        if self.table is None:
            last = self.program.last_step()
            self.table = list(History(self.program.slice(0), self.program.steps(last), unit_area(self.topology)).rows())
        return self.table

    def of_faces(self, wanted):
        return with_faces(self.program.faces(), self.program.last_step(), wanted)

    def of_scale(self, scale):
        if self.topology and is_in_degrees(self.topology.crs):
            raise Failure(f"{self.topology.path} is in degrees, so a scale says nothing of its areas: import it with --t_srs auto, or ask by --least")
        return with_areas(self.rows(), least_at(scale, self.paper))[0]


def short(rows):
    """About as many rows of a table as a page shows, the last one among them."""
    every = max(1, round(len(rows) / SHORT))
    return [row for row in rows if row[0] % every == 0 or row is rows[-1]]
