"""Maps that are large enough for an edit to take a while."""
import pathlib

from lib import arc_text, bent_grid, listing_lines

# Cells a side of a map whose edit takes a second or more, with 73,260 points.
LARGE = 110


def written(room, side):
    """The file of a map of bent cells, this many in a row."""
    faces, count, arcs = bent_grid(side)
    path = pathlib.Path(room) / f"{side}.tgap"
    path.write_text("".join(listing_lines(faces, count, (arc_text(*arc) for arc in arcs))), encoding="ascii")
    return path
