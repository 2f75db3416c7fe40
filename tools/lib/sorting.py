"""Says of each piece of ground between borders to which area it belongs, and counts what that changes."""
from collections import Counter
from dataclasses import dataclass, field
from itertools import combinations

from shapely.affinity import affine_transform
from shapely.geometry import box

import cracks
from command import with_progress
from coverage import Nearby, cells_between, noded, polygons_in, rings_of, snapped
from rules import SEA, SLIVER
from widths import is_thin


@dataclass
class Grid:
    """The grid of the map: the size of a step, and where its coordinates are 0."""
    cell: float
    origin: tuple

    def place(self, shape):
        """A shape in steps of the grid, not yet moved to whole ones."""
        return affine_transform(shape, [1 / self.cell, 0, 0, 1 / self.cell, -self.origin[0] / self.cell, -self.origin[1] / self.cell])

    def back(self, shape):
        """A shape of the grid in the coordinates of the map."""
        return affine_transform(shape, [self.cell, 0, 0, self.cell, *self.origin])

    def is_plain(self):
        return self.cell == 1 and self.origin == (0, 0)


@dataclass
class Part:
    """What cells have in common: the areas that claim them, or the mark of what is made of them."""
    claims: tuple
    made: str
    cells: list = field(default_factory=list)


def frame(shapes):
    """A box round all shapes, a twentieth larger on each side."""
    bounds = [shape.bounds for shape in shapes]
    west, south, east, north = (f(it[i] for it in bounds) for i, f in enumerate((min, min, max, max)))
    margin = max(round(max(east - west, north - south) / 20), 2)
    return box(round(west) - margin, round(south) - margin, round(east) + margin, round(north) + margin)


def claims_on(cell, shapes, nearby):
    """The numbers of the areas in which a cell lies, as they were before they were moved to the grid: then what the moving made falls to one of them."""
    point = cell.representative_point()
    return tuple(number for number in nearby.numbers_at(point) if shapes[number].contains(point))


def nearest(cell, shapes, nearby):
    """The area that is nearest to a cell, of those whose boxes touch it."""
    around = nearby.numbers_at(cell.buffer(1))
    return min(around, key=lambda number: shapes[number].distance(cell.representative_point()), default=None)


class Sorting:
    """The parts of the map as their cells come, and what was found on the way: overlaps, gaps, cracks."""

    def __init__(self, areas, shapes, grid, chosen, open_cracks):
        self.areas, self.shapes, self.grid, self.chosen, self.cracks = areas, shapes, grid, chosen, open_cracks
        self.nearby, self.near_cracks = Nearby(shapes), Nearby(open_cracks)
        self.parts, self.thin, self.overlaps, self.mended, self.won, self.closed = {}, 0, [], set(), set(), 0
        self.gaps = {SLIVER: [], SEA: [], None: []}
        self.outside = frame(shapes).bounds if chosen.sea else None

    def part(self, claims, made, cell):
        """Gives a cell to an area, or to what is made: all slivers are one part until they are joined."""
        self.parts.setdefault((claims if made is None else (), made), Part(claims, made)).cells.append(cell)

    def take(self, cell):
        claims = claims_on(cell, self.shapes, self.nearby)
        if len(claims) != 1 and is_thin(cell, 1.4) and not self.is_outside(cell):
            return self.take_thin(cell, claims)
        if len(claims) == 1:
            return self.part(claims, None, cell)
        return self.take_overlap(cell, claims) if claims else self.take_gap(cell)

    def take_thin(self, cell, claims):
        """What is no wider than the grid comes from the moving to it, or is too small for it."""
        self.thin += 1
        owner = claims[0] if claims else nearest(cell, self.shapes, self.nearby)
        if owner is not None:
            self.part((owner,), None, cell)

    def take_overlap(self, cell, claims):
        pairs = list(combinations(claims, 2))
        if self.chosen.first_wins:
            self.won.update(pairs)
            return self.part(claims[:1], None, cell)
        if self.is_sliver(cell):
            self.mended.update(pairs)
            return self.part(claims, SLIVER, cell)
        self.overlaps.append((cell, pairs))

    def is_sliver(self, cell):
        return self.chosen.slivers is not None and is_thin(cell, self.chosen.slivers / self.grid.cell)

    def is_outside(self, cell):
        return self.outside is not None and cell.bounds == self.outside

    def is_in_crack(self, cell):
        point = cell.representative_point()
        return any(self.cracks[number].contains(point) for number in self.near_cracks.numbers_at(point))

    def take_gap(self, cell):
        outside, made = self.is_outside(cell), SEA if self.chosen.sea else None
        if not outside and (self.is_sliver(cell) or (self.cracks and self.is_in_crack(cell))):
            made = SLIVER
        if made:
            self.part((), made, cell)
        if not outside and self.cracks and self.is_in_crack(cell):
            self.closed += 1
        elif not outside:
            self.gaps[made].append(cell)

    def overlapping(self):
        """The pairs of areas that overlap, with how much they share, the most first."""
        sizes = Counter()
        for cell, pairs in self.overlaps:
            for pair in pairs:
                sizes[pair] += cell.area
        return sizes.most_common()


def sorted_cells(areas, shapes, grid, chosen):
    rings = [ring for shape in shapes for polygon in polygons_in(shape) for ring in rings_of(polygon)]
    rows = [snapped(ring.coords) for ring in with_progress(rings, "moving to the grid")]
    if chosen.sea:
        rows.append(snapped(frame(shapes).exterior.coords))
    open_cracks = cracks.cracks(shapes, chosen.slivers / grid.cell) if chosen.slivers else []
    rows.extend(snapped(ring.coords) for crack in open_cracks for ring in rings_of(crack))
    sorting = Sorting(areas, shapes, grid, chosen, open_cracks)
    for cell in with_progress(cells_between(noded(rows)), "sorting"):
        sorting.take(cell)
    return sorting
