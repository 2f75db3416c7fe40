"""A slow plain reader of windows and of their packets, by docs/rules.md and docs/formats.md: what they are is told by whole slices and by packets of these."""
import collections

from plain_records import ANY, ascend, read_edge, read_mend
from plain_texts import SIGNED, Lines, Refused

WindowStep = collections.namedtuple("WindowStep", "step loser winner made faces mends comes")
END = (-SIGNED * SIGNED, SIGNED * SIGNED - 1)


def meets(area, points):
    """Whether the box of some points overlaps or touches a window."""
    (x0, y0, x1, y1), xs, ys = area, *zip(*points)
    return min(xs) <= x1 and x0 <= max(xs) and min(ys) <= y1 and y0 <= max(ys)


def beside(faces, edges):
    """The classes of the faces that stand beside one of the edges."""
    sides = {face for edge in edges for face in (edge.left, edge.right)}
    return {face: kind for face, kind in faces.items() if face in sides}


def window(area, found):
    """The part of a slice that stands in a window. A slice is its step, the classes of its faces and its edges."""
    step, faces, edges = found
    there = [edge for edge in edges if meets(area, edge.points)]
    return step, beside(faces, there), there


def window_step(area, record, coarse, fine):
    """What leads from the window of a slice to that of the slice one step before, of which this is the whole record."""
    (_, faces, there), (_, finer_faces, finer) = window(area, coarse), window(area, fine)
    keys = {edge.key for edge in there}
    outside = {edge.key for edge in coarse[2]} - keys
    pieces = {piece[0]: key for key, _, cut in record.mends for piece in cut}
    ended = {edge.key for edge in record.ended}
    comes = [edge for edge in finer if edge.key in ended or pieces.get(edge.key, edge.key) in outside]
    rows = {face: kind for face, kind in finer_faces.items() if face not in faces}
    return WindowStep(record.step, record.loser, record.winner, record.made, rows, [mend for mend in record.mends if mend[0] in keys], comes)


def numbered(*words):
    return " ".join(map(str, words))


def edge_line(edge):
    return numbered("edge", edge.key, edge.left, edge.right, len(edge.points), *(place for point in edge.points for place in point))


def step_lines(step):
    yield numbered("step", step.step, step.loser, step.winner, step.made, len(step.faces), len(step.mends), len(step.comes))
    yield from (numbered("face", face, kind) for face, kind in sorted(step.faces.items()))
    for key, puts, pieces in step.mends:
        yield numbered("mend", key, len(puts), len(pieces))
        yield from (numbered("put", *put) for put in puts)
        yield from (numbered("piece", *piece) for piece in pieces)
    yield from map(edge_line, step.comes)


def packet_text(area, first, last, records, slices):
    """The text of the packet of a window between two steps."""
    lines = [numbered("window-packet", first, last, *area)]
    for step in range(first, last, -1):
        lines += step_lines(window_step(area, records[step], slices[step], slices[step - 1]))
    return "\n".join([*lines, "end", ""]).encode()


def window_text(area, found):
    step, faces, edges = found
    rows = [numbered("window", step, *area), f"faces {len(faces)}", *(numbered("face", *row) for row in sorted(faces.items())), f"edges {len(edges)}"]
    return "\n".join([*rows, *map(edge_line, edges), "end", ""]).encode()


# ---- the client's side


def read_packet(data):
    """The window of a packet, the step that it is for, and its records."""
    lines, steps = Lines(data, "unfit window packet line {}"), []
    first, last, *area = lines.words(b"window-packet", [ANY, ANY, *[END] * 4])
    for step in range(first, last, -1):
        _, loser, winner, made, faces, mends, comes = lines.words(b"step", [(step, step), *[ANY] * 6])
        rows = [lines.words(b"face", [ANY, ANY]) for _ in range(faces)]
        steps.append(WindowStep(step, loser, winner, made, rows, [read_mend(lines) for _ in range(mends)], [read_edge(lines) for _ in range(comes)]))
    lines.end()
    return tuple(area), first, steps


def longer(edge, puts, rule):
    """The points of a mended edge, with those that are put in."""
    points = list(edge.points)
    rule(4, ascend([at for at, _, _ in puts]))
    for at, x, y in puts:
        rule(4, 1 <= at <= len(points) - 1 and (x, y) not in points[at - 1 : at + 1])
        points.insert(at, (x, y))
    return points


def cut(edge, points, pieces, made):
    """The edges into which a mended edge is cut, with the faces of its pieces in the place of the new one."""
    start = 0
    for key, last, side, is_turned in pieces:
        left, right, part = edge.left, edge.right, points[start : last + 1]
        left, right = (side, right) if left == made else (left, side)
        yield edge._replace(key=key, left=right, right=left, points=part[::-1]) if is_turned else edge._replace(key=key, left=left, right=right, points=part)
        start = last


def undone(area, found, record):
    """The window one step back. Raises the number of the least rule that the record breaks."""
    step, faces, edges = found

    def rule(which, holds):
        if not holds:
            raise Refused(f"unfit step {record.step} rule {which}")

    made, loser, winner = record.made, record.loser, record.winner
    rule(1, record.step == step >= 1)
    rule(2, loser not in faces and winner not in faces and len({made, loser, winner, 0}) == 4)
    by_key = {edge.key: edge for edge in edges}
    rule(3, ascend([key for key, _, _ in record.mends]))
    rule(3, all(key in by_key and (by_key[key].left == made) != (by_key[key].right == made) for key, _, _ in record.mends))
    mended = {key: longer(by_key[key], puts, rule) for key, puts, _ in record.mends}
    for key, _, pieces in record.mends:
        lasts = [0, *(last for _, last, _, _ in pieces)]
        rule(5, pieces and ascend(lasts) and lasts[-1] == len(mended[key]) - 1 and all(side in (loser, winner) for _, _, side, _ in pieces))
    rule(6, ascend([edge.key for edge in record.comes]) and ascend([face for face, _ in record.faces]) and all(face and face not in faces for face, _ in record.faces))
    after = list(record.comes)
    for key, _, pieces in record.mends:
        after += [edge for edge in cut(by_key[key], mended[key], pieces, made) if meets(area, edge.points)]
    after += [edge._replace(left=winner if edge.left == made else edge.left, right=winner if edge.right == made else edge.right) for edge in edges if edge.key not in mended]
    rule(7, len({edge.key for edge in after}) == len(after))
    rows = beside({**faces, **dict(record.faces)}, after)
    rule(8, all(face == 0 or face in rows for edge in after for face in (edge.left, edge.right)))
    return step - 1, rows, sorted(after)
