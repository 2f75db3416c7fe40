"""Maps that are planar partitions, and hostile to the removal of vertices: corners that stay blocked, triangles that are
long or that hold much of their map in their boxes, borders that grow over all steps. A shape gives, for its size, the
numbers of faces, arcs and points and the arcs, as those of maps.py do."""
import math

from maps import BARRED, WIDE, counted, random_numbers, rim


# ---- a coast with cells behind it


def behind(xs, highs, outline=None):
    """The arcs of cells in a row below the long face 1, between these abscissas: so high, none higher than the next one,
    and with so many points more at the lower side, by the number of the cell. Their faces begin with 2."""
    for place, (x, end) in enumerate(zip(xs, xs[1:])):
        high, before = highs[place], highs[place - 1] if place else 0
        lower = [(x, -high), *(outline(place) if outline else []), (end, -high)]
        yield 1, place + 2, [(x, 0), (end, 0)]
        yield place + 2, 0, lower if high == before else [(x, -before), *lower]
        if place:
            yield place + 1, place + 2, [(x, -before), (x, 0)]
    yield len(xs), 0, [(xs[-1], -highs[-1]), (xs[-1], 0)]


def shore(coast, xs, highs, islets=(), outline=None):
    """A map of one long face between a coast, from left to right, and the level line 0; of cells below that line; and of
    islets in the long face, of which each is a closed row of points, counter-clockwise."""
    arcs = [(1, 0, [(xs[-1], 0), *reversed(coast), (0, 0)]), *behind(xs, highs, outline)]
    first = len(xs) + 1
    arcs += [(first + place, 1, points) for place, points in enumerate(islets)]
    return counted(first - 1 + len(islets), arcs)


def level(count, wide):
    """The abscissas of so many cells of one width."""
    return [wide * place for place in range(count + 1)]


def rising(count, low, high):
    """So many heights, from the one to the other."""
    return [low + (high - low) * place // max(count - 1, 1) for place in range(count)]


def toothed_coast(teeth):
    """A coast of so many teeth, with a barred islet inside the triangle of each, and behind it 0.6 times as many cells that go
    to its face one by one. Each of them is large enough for the teeth to be small, and no tooth can go."""
    coast, islets = [(0, 8)], []
    for x in range(0, 24 * teeth, 24):
        coast += [(x + 8, 8), (x + 12, 16), (x + 16, 8)]
        islets.append([(x + 11, 9), (x + 13, 9), (x + 12, 11), (x + 11, 9)])
    cells = teeth * 3 // 5
    return shore([*coast, (40 * cells, 8)], level(cells, 40), [10] * cells, islets)


def lenses(count):
    """Two long faces, and between them a row of barred lenses that touch: each has a straight side above, and below a bend
    that cannot go since the straight side would be met. Cells go to the lower face one by one."""
    cells = count * 3 // 5
    end, first = 40 * cells, cells + 2
    arcs = [(first, 0, [(end, 20), (end, 40), (0, 40), (0, 20)]), (0, 1, [(0, 0), (0, 20)]), (1, 0, [(end, 0), (end, 20)])]
    for place in range(count):
        x = 24 * place
        arcs.append((first, first + place + 1, [(x, 20), (x + 24, 20)]))
        arcs.append((first + place + 1, 1, [(x, 20), (x + 12, 16), (x + 24, 20)]))
    return counted(first + count, [*arcs, *behind(level(cells, 40), [10] * cells)])


def koch_row(count):
    """So many steps of a Koch curve, a power of two: one curve, or two halves of the greater one side by side. The curve is
    drawn in a plane that is not as high as it should be, where all its points are whole."""
    depth = (count.bit_length() - 1) // 2
    headings, a, b = [(1, 0), (0, 1), (-1, 1), (-1, 0), (0, -1), (1, -1)], 0, 0
    yield 0, 0
    for place in range(count):
        turn = sum((0, 1, -1, 0)[place >> 2 * digit & 3] for digit in range(depth))
        a, b = a + headings[turn % 6][0], b + headings[turn % 6][1]
        yield 2 * a + b, 2 * b


def koch_coast(count):
    """A Koch curve as a coast, with bends of all sizes, and cells behind it that are larger and larger."""
    coast = [(1024 * x, 1024 * y + 4096) for x, y in koch_row(count)]
    cells = count // 32
    wide = coast[-1][0] // cells
    xs = level(cells, wide)
    xs[-1] = coast[-1][0]
    return shore(coast, xs, rising(cells, wide // 32, wide - wide // 8))


def bow(count):
    """A coast that bends so little that any few of its points in a row are near one line, and cells behind it that are larger
    and larger."""
    coast = [(8192 * place, place * (count - place) // 2 + 65536) for place in range(count + 1)]
    cells = count // 8
    return shore(coast, level(cells, 65536), rising(cells, 2, cells + 2))


def comb_coast(teeth, slant=0):
    """A coast of long thin teeth side by side, each longer than the last one, and cells behind it that are larger and larger:
    the triangle of a corner is as long as a tooth. With a slant the teeth lean, so that the boxes of all overlap."""
    part, cells = max(teeth // 32, 1), teeth // 4
    coast = [(0, 8)]
    for place in range(teeth):
        x, high = (4 * place + 1) * part, teeth + place + 8
        coast += [(x, 8), (x, high), (x + part, high), (x + part, 8)]
    coast.append((4 * teeth * part, 8))
    leaning = [(x + slant * part * (y - 8), y) for x, y in coast]
    return shore(leaning, level(cells, 16 * part), rising(cells, teeth // 32, teeth // 4))


def leaning_comb(teeth):
    """The same comb, whose teeth lean as far as sixteen of them are wide."""
    return comb_coast(teeth, 1)


def growing_border(cells):
    """Cells with teeth of all sizes at their outer sides, and each cell a little larger than the last one: so each step lengthens
    one border, and takes some vertices out of it that lie anywhere along it."""
    part, numbers = max(cells // 8, 16), random_numbers()
    low, high = max(cells // 2, 8), max(3 * cells // 2, 24)
    highs = rising(cells, low, high)
    deep = [[low + next(numbers) % (high - low) for _ in range(8)] for _ in range(cells)]

    def outline(place):
        x, floor = 16 * part * place, -highs[place]
        return [(x + part * at, floor - (deep[place][at // 2] if at % 2 else 0)) for at in range(1, 16)]

    return shore([(0, 8 * cells), (16 * part * cells, 8 * cells)], level(cells, 16 * part), highs, outline=outline)


# ---- round borders


def turned_round(vectors):
    """The vectors, and then what a quarter turn makes of them, three times."""
    for _ in range(4):
        yield from vectors
        vectors = [(-y, x) for x, y in vectors]


def is_primitive(x, y):
    return math.gcd(x, y) == 1


def round_ring(count):
    """The points of a convex ring with so many corners, a multiple of four, that is as small as it can be, round (0, 0) and
    counter-clockwise; the first one is the lowest."""
    most = 2
    while most * most < count + 64:
        most += 1
    short = sorted((x + y, x, y) for x in range(1, most) for y in range(most - x) if is_primitive(x, y))[: count // 4]
    vectors, x, y, points = sorted(((x, y) for _, x, y in short), key=lambda one: math.atan2(one[1], one[0])), 0, 0, []
    for u, v in turned_round(vectors):
        points.append((x, y))
        x, y = x + u, y + v
    # The ring is as high as wide, and the middle of its lowest side and its lowest point are not far from one another.
    middle = (max(y for _, y in points) // 2, (max(x for x, _ in points) + min(x for x, _ in points)) // 2)
    return [(x - middle[1], y - middle[0]) for x, y in points]


def halves(ring, lake):
    """The arcs of two faces inside a ring, with a cut from its first point to the opposite one, and inside the lake, if there is
    one, nothing."""
    half = len(ring) // 2
    yield 1, 0, ring[: half + 1]
    yield 2, 0, [*ring[half:], ring[0]]
    if not lake:
        yield 2, 1, [ring[0], ring[half]]
        return
    yield 2, 1, [ring[0], lake[0]]
    yield 2, 1, [lake[half], ring[half]]
    yield 0, 1, lake[: half + 1]
    yield 0, 2, [*lake[half:], lake[0]]


def round_border(count):
    """Two faces with one smooth round border. Where vertices go one after the other, one corner of the triangle stays."""
    return counted(2, halves(round_ring(count), None))


def lake(count):
    """The same with half of the points in the border of a round lake in the middle, at which the triangles of the outer border
    end."""
    ring = round_ring(count // 2)
    return counted(2, halves([(2 * x, 2 * y) for x, y in ring], ring))


# ---- lines side by side


def contours(count):
    """Rings, each inside the next one, with three bends at each side."""

    def ring(place):
        side, ahead = 16 * place, (1 + place % 5, -1 - place % 3, 2 + place % 4)
        corner = [(-side, -side), *((8 * place * (at - 1), -side + ahead[at]) for at in range(3))]
        return [*turned_round(corner), corner[0]]

    return counted(count, ((place, place + 1 if place < count else 0, ring(place)) for place in range(1, count + 1)))


def chevrons(side):
    """Strips over each other, whose borders are zigzags so near to one another that each tooth has a part of the next border in
    its triangle."""
    arcs = []
    for place in range(side + 1):
        line = [(8 * at, 8 * place + 24 * (at % 2)) for at in range(2 * side + 1)]
        arcs.append((place + 1 if place < side else 0, place, line))
        if place < side:
            arcs.append((0, place + 1, [line[0], (0, 8 * place + 8)]))
            arcs.append((place + 1, 0, [line[-1], (16 * side, 8 * place + 8)]))
    return counted(side, arcs)


def ladder(cells):
    """Cells between two rails that lead to the upper right, so that the boxes of long borders overlap, and each cell has a bend at
    either rail."""
    arcs = []
    for place in range(cells + 1):
        x, bend = 16 * place, 1 + place % 8
        arcs.append((place, place + 1 if place < cells else 0, [(x, x), (x - 12, x + 12)]))
        if place < cells:
            arcs.append((place + 1, 0, [(x, x), (x + 8 + bend, x + 8 - bend), (x + 16, x + 16)]))
            arcs.append((0, place + 1, [(x - 12, x + 12), (x - 4 - bend, x + 20 + bend), (x + 4, x + 28)]))
    return counted(cells, arcs)


def spiral(cells):
    """Cells in a row that winds outwards, with a bend at either wall, so that a long border goes round all that came before."""
    turn, wide = 4096, 2048

    def at(length, off):
        """The point of the middle line there, so far from the middle outwards."""
        angle = math.sqrt(4 * math.pi * (length + 8 * turn) / turn)
        reach = turn * angle / (2 * math.pi) + off
        return round(reach * math.cos(angle)), round(reach * math.sin(angle))

    arcs = []
    for place in range(cells + 1):
        here, bend = wide * place, 64 * (place % 7 - 3)
        arcs.append((place + 1 if place < cells else 0, place, [at(here, -1024), at(here, 1024)]))
        if place < cells:
            for off, sides in [(-1024, (0, place + 1)), (1024, (place + 1, 0))]:
                arcs.append((*sides, [at(here, off), at(here + wide // 2, off + bend), at(here + wide, off)]))
    return counted(cells, arcs)


# ---- lines from one point


def bent_star(reach):
    """Arcs with a bend each, from one node to the points of a square round it, with a face between each two."""
    count, arcs = 8 * reach, []
    for place in range(count):
        (x, y), (u, v) = rim(reach, place), rim(reach, place + 1)
        off, next_face = 2 + 3 * (place % 2), (place - 1) % count + 1
        bend = 8 * x + off * (u - x), 8 * y + off * (v - y)
        arcs.append((place + 1, next_face, [(0, 0), bend, (16 * x, 16 * y)]))
        arcs.append((place + 1, 0, [(16 * x, 16 * y), (16 * u, 16 * v)]))
    return counted(count, arcs)


def fan(count):
    """Arcs with a bend each, from one node to the points of a far upright line, with a face between each two."""
    far, arcs = 16 * count, []
    for place in range(count + 1):
        arcs.append((place + 1 if place < count else 0, place, [(0, 0), (12 * count, 12 * place + 3), (far, 16 * place)]))
        if place < count:
            arcs.append((place + 1, 0, [(far, 16 * place), (far, 16 * place + 16)]))
    return counted(count, arcs)


WIDE.add(bow)
# Islets and lenses are of a class of their own, and stay.
BARRED[toothed_coast] = lambda teeth, face: int(face > teeth * 3 // 5), lambda teeth: teeth + 1
BARRED[lenses] = lambda count, face: int(face > count * 3 // 5 + 1), lambda count: count + 2


def doubled(first, last, most=None):
    """Sizes that double, from the first to the last one, and then the greatest one that a map may have."""
    sizes = [first]
    while 2 * sizes[-1] <= last:
        sizes.append(2 * sizes[-1])
    return sizes + ([most] if most else [])


# Each shape with its ratio, a small size at which plain readers follow it, and the sizes that are measured, which double up
# to what a map may have.
HOSTILE = {
    "toothed coast": (toothed_coast, 10, 20, doubled(160, 10240, 20475)),
    "lenses": (lenses, 8, 20, doubled(130, 16640)),
    "round border": (round_border, 1, 64, doubled(2000, 512000)),
    "lake": (lake, 1, 128, doubled(2000, 512000)),
    "contours": (contours, 16, 12, doubled(60, 30720)),
    "chevrons": (chevrons, 1, 10, [22, 32, 45, 64, 90, 128, 180, 256, 362, 510]),
    "bent star": (bent_star, 4, 4, doubled(16, 4096)),
    "fan 1": (fan, 1, 24, doubled(128, 16384, 32766)),
    "fan 16": (fan, 16, 24, doubled(128, 16384, 32766)),
    "fan 1000": (fan, 1000, 24, doubled(128, 16384, 32766)),
    "spiral": (spiral, 8, 40, doubled(170, 21760)),
    "ladder": (ladder, 4, 30, doubled(170, 21760)),
    "Koch coast": (koch_coast, 1, 256, doubled(1024, 262144)),
    "bow": (bow, 16, 128, doubled(1024, 65536)),
    "comb coast": (comb_coast, 1, 32, doubled(256, 65536)),
    "leaning comb": (leaning_comb, 1, 32, doubled(256, 65536)),
    "growing border": (growing_border, 16, 16, doubled(160, 20480)),
}
