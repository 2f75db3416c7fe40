"""A slow plain reader of batches of edits by docs/formats.md."""
from plain_cuts import Cause, add_node, cut, fits, fuse, has, is_node, wants
from plain_texts import COORDINATE, DECIMAL, Refused, number

# How many faces and classes each line names, and how many points follow them; those of `cut` are counted in the line.
LEAST_CUT, MOST_CUT = 2, 65535
WORDS = {b"class": (2, 0), b"move": (0, 2), b"add": (0, 3), b"drop": (0, 1), b"node": (0, 1), b"cut": (2, None), b"fuse": (2, 0)}


def ranged(word, least, most):
    try:
        return number(word, least, most)
    except ValueError:
        raise Cause(1) from None


def read_line(line):
    """The name of a line, the words for faces and classes, which may have any number of digits, and the points."""
    name, *words = line.split(b" ")
    wants(1, name in WORDS)
    named, count = WORDS[name]
    wants(1, len(words) >= named and all(DECIMAL.match(word) for word in words))
    named, words = words[:named], words[named:]
    if count is None:
        wants(1, words)
        count, words = ranged(words[0], LEAST_CUT, MOST_CUT), words[1:]
    wants(1, len(words) == 2 * count)
    numbers = [ranged(word, -COORDINATE, COORDINATE) for word in words]
    return name, named, list(zip(numbers[::2], numbers[1::2]))


def value(word):
    """The number of a face or a class. One of so many digits that no map has it stays one that no map has."""
    return int(word) if len(word) < 20 else -1


def set_class(base, face, kind):
    wants(2, 1 <= face <= len(base.classes) and 0 <= kind < len(base.weights))
    return base._replace(classes=[*base.classes[: face - 1], kind, *base.classes[face:]])


def move(base, old, new):
    wants(3, has(base, old))
    wants(4, not has(base, new))
    return base._replace(arcs=[(left, right, [new if point == old else point for point in points]) for left, right, points in base.arcs])


def with_points(base, arc, points):
    arcs = list(base.arcs)
    arcs[arc] = (*arcs[arc][:2], points)
    return base._replace(arcs=arcs)


def add(base, a, b, new):
    at = next(((arc, place + 1) for arc, (_, _, points) in enumerate(base.arcs) for place, ends in enumerate(zip(points, points[1:]))
               if ends in ((a, b), (b, a))), None)
    wants(5, at is not None)
    wants(4, not has(base, new))
    wants(8, fits(base, 0, 0, 1))
    arc, place = at
    points = base.arcs[arc][2]
    return with_points(base, arc, [*points[:place], new, *points[place:]])


def drop(base, old):
    wants(3, has(base, old))
    wants(6, not is_node(base, old))
    arc, points = next((arc, points) for arc, (_, _, points) in enumerate(base.arcs) if old in points)
    place = points.index(old)
    wants(7, points[place - 1] != points[place + 1])
    return with_points(base, arc, points[:place] + points[place + 1 :])


def cut_along(base, face, kind, *points):
    return cut(base, face, kind, list(points))


EDITS = {b"class": set_class, b"move": move, b"add": add, b"drop": drop, b"node": add_node, b"cut": cut_along, b"fuse": fuse}


def applied(base, line):
    """The base after one line."""
    name, named, points = read_line(line)
    return EDITS[name](base, *map(value, named), *points)


def edited(base, batch):
    """The base after a batch, which is not tested here for being a planar partition."""
    lines = batch.split(b"\n")
    for place, line in enumerate(lines, 1):
        try:
            if place == len(lines):
                wants(1, line == b"")
                return base
            base = applied(base, line)
        except Cause as cause:
            raise Refused(f"edit line {place} cause {cause}") from None
    return base
