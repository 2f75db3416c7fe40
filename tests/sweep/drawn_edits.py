"""Nodes, cuts and fusions that are drawn by chance on a map, and listings of such maps."""
from plain_cuts import Cause, Side, Walks, add_node, cut, fuse, is_node

# ---- maps


def listing(base, front):
    """The listing of a base map, with the first lines of another one."""
    rows = [*front, b"faces %d" % len(base.classes), *(b"face %d %d" % row for row in enumerate(base.classes, 1)), b"arcs %d" % len(base.arcs)]
    for left, right, points in base.arcs:
        rows.append(b"arc %d %d %d " % (left, right, len(points)) + b" ".join(b"%d %d" % point for point in points))
    return b"\n".join([*rows, b"end", b""])


def front_of(data):
    """The lines of a listing before its faces, in the version in which they are written."""
    lines = data.split(b"\n")
    return [b"tgap 2", *lines[1 : next(at for at, line in enumerate(lines) if line.startswith(b"faces"))]]


def widened(base):
    """The map at a larger scale, so that there is room between its points."""
    return base._replace(arcs=[(left, right, [(8 * x, 8 * y) for x, y in points]) for left, right, points in base.arcs])


# ---- single edits: their numbers


def some_face(chance, base):
    return chance.choice([chance.randrange(1, len(base.classes) + 1)] * 9 + [0, len(base.classes) + 1])


def near(chance, point):
    return tuple(place + chance.randrange(-3, 4) for place in point)


def some_node(chance, base):
    points = chance.choice(base.arcs)[2]
    return (chance.choice(points),) if chance.random() < 0.9 else (near(chance, points[0]),)


def some_fusion(chance, base):
    left, right, _ = chance.choice(base.arcs)
    return (left, right) if chance.random() < 0.5 else (right, left) if chance.random() < 0.8 else (some_face(chance, base), some_face(chance, base))


def some_ends(chance, base):
    """A face and two nodes on one of its rings; some of them at any place."""
    walks = Walks(base.arcs)
    side = Side(chance.randrange(len(base.arcs)), chance.random() < 0.5)
    face = walks.face(side) or some_face(chance, base)
    nodes = list(dict.fromkeys(walks.points(it)[0] for it in walks.row(side)))
    ends = chance.sample(nodes, 2) if len(nodes) > 1 else nodes * 2
    if chance.random() < 0.15:
        ends[1] = chance.choice(chance.choice(base.arcs)[2])
    return face if chance.random() < 0.95 else some_face(chance, base), ends


def any_cut(chance, base):
    """A cut between two nodes, with some points on the way."""
    face, ends = some_ends(chance, base)
    inner = [near(chance, chance.choice(ends)) for _ in range(chance.choice([0, 0, 0, 1, 1, 2, 3]))]
    return face, chance.choice([0] * 19 + [1]), [ends[0], *inner, ends[1]]


def some_cut(chance, base):
    """The same; most are refused, so one that is not is sought for a while."""
    for _ in range(chance.choice([1, 12, 12])):
        found = any_cut(chance, base)
        try:
            cut(base, *found)
            break
        except Cause:
            pass
    return found


KINDS = {"node": (some_node, add_node), "cut": (some_cut, cut), "fuse": (some_fusion, fuse)}


# ---- lines of batches


def node_line(point):
    return b"node %d %d\n" % point


def cut_line(face, kind, points):
    return b"cut %d %d %d " % (face, kind, len(points)) + b" ".join(b"%d %d" % point for point in points) + b"\n"


def fuse_line(kept, gone):
    return b"fuse %d %d\n" % (kept, gone)


def sides_of(walks, face):
    return [Side(number, against) for number, (left, right, _) in enumerate(walks.arcs) for against, one in enumerate((left, right)) if one == face]


def between(chance, a, b):
    """A point beside the middle of two others."""
    reach = 1 + (abs(a[0] - b[0]) + abs(a[1] - b[1])) // 6
    return tuple((u + v) // 2 + chance.randint(-reach, reach) for u, v in zip(a, b))


def drawn_cut(chance, base):
    """The lines that make nodes of the ends of a cut, where they are none, and the cut: between two points of one ring of a
    face, as the crow flies or by some points on the way."""
    walks, face = Walks(base.arcs), chance.randrange(1, len(base.classes) + 1)
    row = walks.row(chance.choice(sides_of(walks, face)))
    points = list(dict.fromkeys(point for side in row for point in walks.points(side)))
    a, b = chance.sample(points, 2)
    inner = chance.choice([[], [], [between(chance, a, b)], [between(chance, a, b), between(chance, b, a)]])
    nodes = [node_line(point) for point in (a, b) if not is_node(base, point)]
    return nodes, cut_line(face, chance.randrange(len(base.weights)), [a, *inner, b])
