"""A slow plain reader of maps by docs/rules.md and docs/formats.md: listings, topologies with their rules, the test for
a planar partition, the history, and slices without vertex removal."""
import collections
import json

from plain_texts import COORDINATE, COUNT, SIGNED, Lines, Refused

LIMITS = {"classes": 256, "faces": 32768, "arcs": 65536, "points": 524288}
# The greatest coordinate and the most points of a listing, by its version.
VERSIONS = {1: (2**28, 131072), 2: (COORDINATE, LIMITS["points"])}
Base = collections.namedtuple("Base", "ratio weights compat classes arcs")


def within(kind, count, most=None):
    if count > (most or LIMITS[kind]):
        raise Refused(f"refused 9 limit {kind} {count}")
    return count


# ---- listings


def read_listing(data):
    """The base map that is listed. An arc is its left face, its right face and its points."""
    lines = Lines(data, "refused 18 bad-line {}")
    (version,) = lines.words(b"tgap", [(1, 2)])
    coordinate, most = VERSIONS[version]
    lines.words(b"transform", [(-SIGNED, SIGNED - 1)] * 4)
    (ratio,) = lines.words(b"ratio", [(0, 65535)])
    count = within("classes", lines.words(b"classes", [(1, COUNT)])[0])
    weights, compat = [], []
    for place in range(count):
        _, weight, *row = lines.words(b"class", [(place, place), (1, 65535), *[(0, 1000)] * count])
        weights.append(weight)
        compat.append(row)
    faces = within("faces", lines.words(b"faces", [(0, COUNT)])[0])
    classes = [lines.words(b"face", [(face, face), (0, count - 1)])[1] for face in range(1, faces + 1)]
    arcs, total = [], 0
    for _ in range(within("arcs", lines.words(b"arcs", [(0, COUNT)])[0])):
        left, right, size, words = lines.words(b"arc", [(0, faces), (0, faces), (2, COUNT), None])
        if left == right:
            raise lines.bad()
        total = within("points", total + size, most)
        arcs.append((left, right, lines.points(words, size, coordinate)))
    if {face for left, right, _ in arcs for face in (left, right)} | {0} != set(range(faces + 1)):
        lines.read += 1
        raise lines.bad()
    lines.end()
    return Base(ratio, weights, compat, classes, arcs)


# ---- JSON


class NotJson(Exception):
    """The bytes are no JSON."""


def whole(text):
    """A number without a point and an exponent. What 64 bits do not hold is a fraction, and so is -0."""
    if text == "-0" or len(text) > 20 or not -(2**63) <= int(text) < 2**64:
        return fraction(text)
    return int(text)


def fraction(text):
    value = float(text)
    if value in (float("inf"), float("-inf")):
        raise NotJson
    return value


def no_number(_):
    raise NotJson


def depth(value):
    """How deep a value nests. An object is the list of its members here, and a member is a pair."""
    if isinstance(value, Members):
        return 1 + max((depth(inner) for _, inner in value), default=0)
    return 1 + max(map(depth, value), default=0) if isinstance(value, list) else 0


class Members(list):
    """The members of an object in the order of the text, repeated ones too."""


def tidied(value):
    """A value whose objects are dictionaries: of members of one name the last one counts. A text may hold no half of a
    pair of surrogates."""
    if isinstance(value, str):
        value.encode()
    if isinstance(value, Members):
        return {tidied(name): tidied(inner) for name, inner in value}
    return [tidied(inner) for inner in value] if isinstance(value, list) else value


def read_json(data):
    """The value that the bytes spell."""
    try:
        value = json.loads(data.decode(), object_pairs_hook=Members, parse_int=whole, parse_float=fraction, parse_constant=no_number)
        if depth(value) > 127:
            raise NotJson
        return tidied(value)
    except (ValueError, RecursionError, NotJson):
        raise NotJson from None


def is_whole(value, least=-(2**63), most=2**63 - 1):
    return type(value) is int and least <= value <= most


def is_number(value):
    return type(value) in (int, float)


# ---- rules


def read_rules(data):
    """The property, the names of the classes, the default, weights, compatibilities and ratio."""

    def wants(place, holds):
        if not holds:
            raise Refused(f"refused 19 bad-rules {place}")

    try:
        rules = read_json(data)
    except NotJson:
        wants(0, False)
    wants(1, isinstance(rules, dict))
    wants(2, isinstance(rules.get("property"), str))
    classes = rules.get("classes")
    wants(3, isinstance(classes, list) and classes)
    wants(3, all(isinstance(pair, list) and len(pair) == 2 and isinstance(pair[0], str) and is_whole(pair[1], 1, 65535) for pair in classes))
    count = within("classes", len(classes))
    wants(4, is_whole(rules.get("default"), 0, count - 1))
    compat = rules.get("compat")
    wants(5, isinstance(compat, list) and len(compat) == count)
    wants(5, all(isinstance(row, list) and len(row) == count and all(is_whole(one, 0, 1000) for one in row) for row in compat))
    wants(6, is_whole(rules.get("ratio"), 0, 65535))
    return rules["property"], [pair[0] for pair in classes], rules["default"], [pair[1] for pair in classes], compat, rules["ratio"]


# ---- topologies


class Topology:
    """A topology on its way to a base map."""

    def __init__(self, data, name):
        try:
            top = read_json(data)
        except NotJson:
            raise Refused("refused 1 not-json") from None
        self.shape(1, 0, isinstance(top, dict))
        self.shape(2, 0, top.get("type") == "Topology")
        self.shape(3, 0, isinstance(top.get("objects"), dict))
        self.shape(4, 0, isinstance(top.get("arcs"), list))
        transform = top.get("transform")
        self.shape(5, 0, transform is None or isinstance(transform, dict) and all(
            isinstance(pair, list) and len(pair) == 2 and all(map(is_number, pair)) for pair in (transform.get("scale"), transform.get("translate"))))
        self.object = self.chosen(top["objects"], name)
        within("arcs", len(top["arcs"]))
        self.arcs = [self.arc(number, arc, transform is not None) for number, arc in enumerate(top["arcs"])]
        within("points", sum(map(len, self.arcs)))
        self.geometries, self.rings, self.polygons = 0, 0, []
        self.walk(self.object)
        within("faces", sum(1 for rings, _, _ in self.polygons if rings))

    @staticmethod
    def shape(place, at, holds):
        if not holds:
            raise Refused(f"refused 2 shape {place} {at}")

    @staticmethod
    def chosen(objects, name):
        if name == "-" and len(objects) > 1:
            raise Refused(f"refused 4 many-objects {len(objects)}")
        if not objects if name == "-" else name not in objects:
            raise Refused("refused 3 no-object")
        return next(iter(objects.values())) if name == "-" else objects[name]

    def arc(self, number, positions, relative):
        """The points of an arc, repeated ones left out."""
        self.shape(6, number, isinstance(positions, list))
        points, x, y = [], 0, 0
        for place, position in enumerate(positions):
            self.shape(7, number, isinstance(position, list) and len(position) >= 2 and is_number(position[0]) and is_number(position[1]))
            if not (is_whole(position[0]) and is_whole(position[1])):
                raise Refused(f"refused 5 not-whole {number} {place}")
            x, y = (x + position[0], y + position[1]) if relative else position[:2]
            if max(abs(x), abs(y)) > COORDINATE:
                raise Refused(f"refused 6 out-of-range {number} {place}")
            if points[-1:] != [(x, y)]:
                points.append((x, y))
        if len(positions) < 2:
            raise Refused(f"refused 7 arc-short {number}")
        return points

    def walk(self, geometry):
        """Gathers the polygons of a geometry: the rings, the number of the first one, and the properties."""
        at, self.geometries = self.geometries, self.geometries + 1
        self.shape(8, at, isinstance(geometry, dict))
        kind = geometry.get("type")
        if kind == "GeometryCollection":
            self.shape(8, at, isinstance(geometry.get("geometries"), list))
            for member in geometry["geometries"]:
                self.walk(member)
        if kind not in ("Polygon", "MultiPolygon"):
            return
        arcs = geometry.get("arcs")
        many = [arcs] if kind == "Polygon" else arcs
        self.shape(9, at, isinstance(many, list) and all(
            isinstance(rings, list) and all(isinstance(ring, list) and all(map(is_whole, ring)) for ring in rings) for rings in many))
        for rings in many:
            self.polygons.append((rings, self.rings, geometry.get("properties")))
            for ring in rings:
                for place, index in enumerate(ring):
                    if not -len(self.arcs) <= index < len(self.arcs):
                        raise Refused(f"refused 8 arc-index {self.rings} {place} {index}")
                self.rings += 1

    def points(self, index):
        return self.arcs[index] if index >= 0 else self.arcs[-index - 1][::-1]

    def is_point(self, ring):
        """Whether all positions of a ring are one point, or there is none."""
        return len({point for index in ring for point in self.points(index)}) <= 1

    def take(self, ring, number, is_hole, face, taken):
        """A face takes the sides of a ring."""
        for place, index in enumerate(ring):
            if self.points(index)[-1] != self.points(ring[(place + 1) % len(ring)])[0]:
                raise Refused(f"refused 11 ring-open {number} {place}")
        if self.is_point(ring):
            return
        area = sum(a * d - b * c for index in ring for (a, b), (c, d) in zip(self.points(index), self.points(index)[1:]))
        if area == 0:
            raise Refused(f"refused 12 ring-flat {number}")
        on_left = (area > 0) != is_hole
        for index in ring:
            arc, side = (index, 0 if on_left else 1) if index >= 0 else (-index - 1, 1 if on_left else 0)
            if len(self.arcs[arc]) < 2:
                continue
            if (arc, side) in taken:
                raise Refused(f"refused 13 side-taken {arc} {side} {taken[arc, side]} {face}")
            taken[arc, side] = face

    def base(self, rules):
        name, names, default, weights, compat, ratio = rules
        taken, classes = {}, []
        for rings, first, properties in self.polygons:
            if not rings or self.is_point(rings[0]):
                continue
            value = properties.get(name) if isinstance(properties, dict) else None
            value = str(value) if type(value) is int else value
            classes.append(names.index(value) if isinstance(value, str) and value in names else default)
            for place, ring in enumerate(rings):
                self.take(ring, first + place, place > 0, len(classes), taken)
        sides = [(taken.get((arc, 0), 0), taken.get((arc, 1), 0)) for arc in range(len(self.arcs))]
        for arc, (left, right) in enumerate(sides):
            if left == right != 0:
                raise Refused(f"refused 14 same-sides {arc} {left}")
        arcs = [(*pair, points) for pair, points in zip(sides, self.arcs) if pair != (0, 0)]
        return Base(ratio, weights, compat, classes, arcs)


# ---- planar partitions


def cross(a, b, c):
    return (b[0] - a[0]) * (c[1] - a[1]) - (b[1] - a[1]) * (c[0] - a[0])


Segment = collections.namedtuple("Segment", "arc place last a b left right")


def segments_of(base):
    return [Segment(number, place, place == len(points) - 2, a, b, left, right)
            for number, (left, right, points) in enumerate(base.arcs) for place, (a, b) in enumerate(zip(points, points[1:]))]


def common(s, t):
    """A point that two segments have in common, as two numbers over a third, or None."""
    (ax, ay), (bx, by), (cx, cy), (dx, dy) = s.a, s.b, t.a, t.b
    if max(ax, bx) < min(cx, dx) or max(cx, dx) < min(ax, bx) or max(ay, by) < min(cy, dy) or max(cy, dy) < min(ay, by):
        return None
    turn = (bx - ax) * (dy - cy) - (by - ay) * (dx - cx)
    if turn == 0:
        if cross(s.a, s.b, t.a) != 0:
            return None
        low, high = max(min(s.a, s.b), min(t.a, t.b)), min(max(s.a, s.b), max(t.a, t.b))
        return (low[0] + high[0], low[1] + high[1], 2) if low <= high else None
    # a + (b - a) * along / turn
    along, across = (cx - ax) * (dy - cy) - (cy - ay) * (dx - cx), (cx - ax) * (by - ay) - (cy - ay) * (bx - ax)
    if turn < 0:
        turn, along, across = -turn, -along, -across
    if not (0 <= along <= turn and 0 <= across <= turn):
        return None
    return ax * turn + (bx - ax) * along, ay * turn + (by - ay) * along, turn


def is_permitted(s, t, at):
    """Whether two segments, the first before the second, may have this point in common. The middle of a longer common part
    is an end of neither."""
    x, y, over = at
    if x % over or y % over:
        return False
    point = x // over, y // over
    if point not in (s.a, s.b) or point not in (t.a, t.b):
        return False
    if s.arc == t.arc and t.place == s.place + 1 and s.b == t.a == point:
        return True
    return all((one.place == 0 and one.a == point) or (one.last and one.b == point) for one in (s, t))


def check_meetings(segments):
    for i, s in enumerate(segments):
        for j in range(i + 1, len(segments)):
            at = common(s, segments[j])
            if at is not None and not is_permitted(s, segments[j], at):
                raise Refused(f"refused 15 meets {i} {j} {at[0]} {at[1]} {at[2]}")


def turns(node, spokes):
    """Spokes counter-clockwise, beginning with the direction of positive x: the upper half first, and in each half by the
    side."""

    def half(spoke):
        x, y = spoke[0][0] - node[0], spoke[0][1] - node[1]
        return 0 if (y, x) > (0, 0) else 1

    found = []
    for spoke in spokes:
        place = sum(1 for other in found if half(other) < half(spoke) or half(other) == half(spoke) and cross(node, other[0], spoke[0]) > 0)
        found.insert(place, spoke)
    return found


def check_nodes(base):
    spokes = collections.defaultdict(list)
    for left, right, points in base.arcs:
        spokes[points[0]].append((points[1], left, right))
        spokes[points[-1]].append((points[-2], right, left))
    for node in sorted(spokes):
        around = turns(node, spokes[node])
        for place, (_, left, _) in enumerate(around):
            after = (place + 1) % len(around)
            if left != around[after][2]:
                raise Refused(f"refused 16 node {node[0]} {node[1]} {place} {after} {left} {around[after][2]}")


def check_stacks(segments):
    columns = sorted({point[0] for s in segments for point in (s.a, s.b)})
    for line in columns[:-1]:
        stack = []
        for s in segments:
            (ax, ay), (bx, by) = s.a, s.b
            if min(ax, bx) <= line < max(ax, bx):
                # The height at one half beyond the line, as twice and more of it over a common number.
                wide, upper, lower = (bx - ax, s.left, s.right) if bx > ax else (ax - bx, s.right, s.left)
                rise = (by - ay) * (2 * line + 1 - 2 * ax) * (1 if bx > ax else -1)
                stack.append((Height(2 * ay * wide + rise, wide), upper, lower))
        stack.sort(key=lambda row: row[0], reverse=True)
        inside = 0
        for place, upper in enumerate([*(row[1] for row in stack), 0]):
            if upper != inside:
                raise Refused(f"refused 17 stack {line} {place} {inside} {upper}")
            inside = stack[place][2] if place < len(stack) else 0


class Height:
    """A fraction, to be put in order."""

    def __init__(self, over, under):
        self.over, self.under = over, under

    def __lt__(self, other):
        return self.over * other.under < other.over * self.under


def check(base):
    segments = segments_of(base)
    check_meetings(segments)
    check_nodes(base)
    check_stacks(segments)


def check_text(base):
    return f"ok faces {len(base.classes)} arcs {len(base.arcs)} points {sum(len(points) for _, _, points in base.arcs)}"


# ---- history, borders and slices


class History:
    """The steps of a map, each with the labels of the base faces after it, and the classes of all faces."""

    def __init__(self, base):
        self.base, count = base, len(base.classes)
        self.labels = [list(range(count + 1))]
        self.class_of = dict(enumerate(base.classes, 1))
        self.area = collections.Counter()
        for left, right, points in base.arcs:
            part = sum(a * d - b * c for (a, b), (c, d) in zip(points, points[1:]))
            self.area[left] += part
            self.area[right] -= part
        while (step := self.next_step()) is not None:
            made, (loser, winner) = count + len(self.labels), step
            self.class_of[made], self.area[made] = self.class_of[winner], self.area[loser] + self.area[winner]
            self.labels.append([made if face in step else face for face in self.labels[-1]])

    def next_step(self):
        """The loser and the winner of the next step, if there is one."""
        now, shared = self.labels[-1], collections.defaultdict(collections.Counter)
        for left, right, points in self.base.arcs:
            a, b = now[left], now[right]
            if a != b and 0 not in (a, b):
                long = sum(abs(p[0] - q[0]) + abs(p[1] - q[1]) for p, q in zip(points, points[1:]))
                shared[a][b] += long
                shared[b][a] += long
        fits = {face: {other: self.fit(face, other) * long for other, long in beside.items() if self.fit(face, other) > 0} for face, beside in shared.items()}
        may = [face for face, scores in fits.items() if scores]
        if not may:
            return None
        loser = min(may, key=lambda face: (self.area[face] * self.base.weights[self.class_of[face]], face))
        return loser, min(fits[loser], key=lambda face: (-fits[loser][face], face))

    def fit(self, face, other):
        return self.base.compat[self.class_of[face]][self.class_of[other]]

    def borders(self, step):
        now = self.labels[step]
        return {arc: (now[left], now[right]) for arc, (left, right, _) in enumerate(self.base.arcs) if now[left] != now[right]}

    def too_high(self, step):
        if step >= len(self.labels):
            raise Refused(f"step too high {len(self.labels) - 1}")

    def borders_text(self, step):
        self.too_high(step)
        return "\n".join([f"borders {step}", *(f"border {arc} {left} {right}" for arc, (left, right) in self.borders(step).items()), "end"])

    def degrees(self, step):
        degree = collections.Counter()
        for arc in self.borders(step):
            points = self.base.arcs[arc][2]
            degree[points[0]] += 1
            degree[points[-1]] += 1
        return degree

    def chains(self, step):
        """The points of each chain by its key."""
        before = [self.degrees(k) for k in range(step + 1)]
        degree = before[-1]

        def became_two(node):
            """The step at which the degree of a node became two, and the node."""
            return max((k for k in range(step + 1) if before[k][node] == 2 and (k == 0 or before[k - 1][node] != 2)), default=0), node

        rows = [[(arc, self.base.arcs[arc][2])] for arc in self.borders(step)]
        closed = []
        while rows:
            row = rows.pop()
            start, end = row[0][1][0], row[-1][1][-1]
            if start == end and degree[end] == 2:
                closed.append(row)
            elif degree[end] == 2:
                other = next(r for r in rows if end in (r[0][1][0], r[-1][1][-1]))
                rows.remove(other)
                rows.append(row + (other if other[0][1][0] == end else turned(other)))
            elif degree[start] == 2:
                rows.append(turned(row))
            else:
                closed.append(row)
        found = {}
        for row in closed:
            key = min(arc for arc, _ in row)
            if not any(arc == key and points == self.base.arcs[key][2] for arc, points in row):
                row = turned(row)
            if row[0][1][0] == row[-1][1][-1] and degree[row[0][1][0]] == 2:
                first = max(range(len(row)), key=lambda place: became_two(row[place][1][0]))
                row = row[first:] + row[:first]
            found[key] = [row[0][1][0], *(point for _, points in row for point in points[1:])]
        return dict(sorted(found.items()))

    def slice_text(self, step):
        """The slice after a step, where no vertex was removed."""
        self.too_high(step)
        live, edges, borders = sorted(set(self.labels[step]) - {0}), self.chains(step), self.borders(step)
        rows = [f"slice {step}", f"faces {len(live)}", *(f"face {face} {self.class_of[face]}" for face in live), f"edges {len(edges)}"]
        for key, points in edges.items():
            numbers = " ".join(f"{x} {y}" for x, y in points)
            rows.append(f"edge {key} {borders[key][0]} {borders[key][1]} {len(points)} {numbers}")
        return "\n".join([*rows, "end"])


def turned(row):
    return [(arc, points[::-1]) for arc, points in reversed(row)]
