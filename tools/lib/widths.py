"""How wide a piece of ground is: the width of the largest disc in it."""
import math

ROUNDS = 12


def is_thin(cell, width):
    """Whether no disc of this width lies in a cell."""
    return cell.buffer(-width / 2).is_empty


def bound(cell):
    """A width that a cell has not, since a disc of it has a larger area."""
    return 2 * math.sqrt(cell.area / math.pi) * 1.001


def least_width(cell):
    """The least width for which a cell is thin, a little more at most."""
    low, high = 0.0, bound(cell)
    for _ in range(ROUNDS):
        middle = (low + high) / 2
        low, high = (low, middle) if is_thin(cell, middle) else (middle, high)
    return high


def widest(cells):
    """The greatest of the least widths; cells that are too small to have it are not measured."""
    found = 0.0
    for cell in sorted(cells, key=bound, reverse=True):
        if bound(cell) <= found:
            break
        found = max(found, least_width(cell))
    return found


def told(cells, unit):
    """The least width for which all these cells are thin, in units of the map, as it is told: with two digits, and never too small."""
    cells = list(cells)
    width = widest(cells) * unit
    digit = 10.0 ** (math.floor(math.log10(width)) - 1) if width > 0 else 1.0
    less = math.floor(width / digit + 1e-9) * digit
    suits = less > 0 and all(is_thin(cell, less / unit) for cell in cells)
    return f"{less if suits else math.ceil(width / digit) * digit:.10g}"
