"""A slow plain reader of slices and packets, and the undoing of records, by docs/formats.md and docs/rules.md."""
import collections

from plain_texts import COORDINATE, COUNT, Lines, Refused

ANY, PLACE = (0, COUNT), (-COORDINATE, COORDINATE)
Step = collections.namedtuple("Step", "step loser loser_class winner winner_class made mends ended")
Edge = collections.namedtuple("Edge", "key left right points")


def read_edge(lines, least=0):
    key, left, right, size, words = lines.words(b"edge", [(least, COUNT), ANY, ANY, (2, COUNT), None])
    return Edge(key, left, right, lines.points(words, size))


def read_slice(data):
    """Its step, the classes of its faces by number, and its edges."""
    lines = Lines(data, "unfit slice line {}")
    (step,) = lines.words(b"slice", [ANY])
    faces, edges, least = {}, [], 1
    for _ in range(lines.words(b"faces", [ANY])[0]):
        face, kind = lines.words(b"face", [(least, COUNT), ANY])
        faces[face], least = kind, face + 1
    least = 0
    for _ in range(lines.words(b"edges", [ANY])[0]):
        edges.append(read_edge(lines, least))
        least = edges[-1].key + 1
    lines.end()
    return step, faces, edges


def read_packet(data):
    """The step that it is for, and its records."""
    lines, steps = Lines(data, "unfit packet line {}"), []
    first, last = lines.words(b"packet", [ANY, ANY])
    if first < last:
        raise lines.bad()
    for step in range(first, last, -1):
        _, *faces, mends, ended = lines.words(b"step", [(step, step), *[ANY] * 7])
        steps.append(Step(step, *faces, [read_mend(lines) for _ in range(mends)], [read_edge(lines) for _ in range(ended)]))
    lines.end()
    return first, steps


def read_mend(lines):
    key, puts, pieces = lines.words(b"mend", [ANY] * 3)
    puts = [lines.words(b"put", [ANY, PLACE, PLACE]) for _ in range(puts)]
    return key, puts, [lines.words(b"piece", [ANY, ANY, ANY, (0, 1)]) for _ in range(pieces)]


def ascend(numbers):
    return all(a < b for a, b in zip(numbers, numbers[1:]))


def undone(step, faces, edges, record):
    """The faces and the edges before a step. Raises the number of the least rule that the record breaks."""

    def rule(which, holds):
        if not holds:
            raise Refused(f"unfit step {record.step} rule {which}")

    made, loser, winner = record.made, record.loser, record.winner
    rule(1, record.step == step >= 1)
    rule(2, faces.get(made) == record.winner_class and loser not in faces and winner not in faces)
    rule(2, len({made, loser, winner, 0}) == 4)
    by_key = {edge.key: edge for edge in edges}
    rule(3, ascend([key for key, _, _ in record.mends]))
    rule(3, all(key in by_key and (by_key[key].left == made) != (by_key[key].right == made) for key, _, _ in record.mends))
    longer = {}
    for key, puts, _ in record.mends:
        points = list(by_key[key].points)
        rule(4, ascend([at for at, _, _ in puts]))
        for at, x, y in puts:
            rule(4, 1 <= at <= len(points) - 1 and (x, y) not in points[at - 1 : at + 1])
            points.insert(at, (x, y))
        longer[key] = points
    for key, _, pieces in record.mends:
        lasts = [0, *(last for _, last, _, _ in pieces)]
        rule(5, pieces and ascend(lasts) and lasts[-1] == len(longer[key]) - 1 and all(side in (loser, winner) for _, _, side, _ in pieces))
    rule(6, ascend([edge.key for edge in record.ended]) and all({edge.left, edge.right} == {loser, winner} for edge in record.ended))
    after = list(record.ended)
    mended = {key: pieces for key, _, pieces in record.mends}
    for edge in edges:
        if edge.key not in mended:
            after.append(edge._replace(left=winner if edge.left == made else edge.left, right=winner if edge.right == made else edge.right))
            continue
        start = 0
        for key, last, side, is_turned in mended[edge.key]:
            left, right, points = edge.left, edge.right, longer[edge.key][start : last + 1]
            left, right = (side, right) if left == made else (left, side)
            after.append(Edge(key, right, left, points[::-1]) if is_turned else Edge(key, left, right, points))
            start = last
    rule(7, len({edge.key for edge in after}) == len(after))
    rest = {face: kind for face, kind in faces.items() if face != made}
    return {**rest, loser: record.loser_class, winner: record.winner_class}, sorted(after)


def replayed(slice_data, packet_data):
    """The slice to which a packet leads."""
    step, faces, edges = read_slice(slice_data)
    first, records = read_packet(packet_data)
    if step != first:
        raise Refused(f"unfit step {first} rule 1")
    for record in records:
        faces, edges = undone(step, faces, edges, record)
        step -= 1
    rows = [f"slice {step}", f"faces {len(faces)}", *(f"face {face} {faces[face]}" for face in sorted(faces)), f"edges {len(edges)}"]
    for key, left, right, points in edges:
        rows.append(f"edge {key} {left} {right} {len(points)} " + " ".join(f"{x} {y}" for x, y in points))
    return "\n".join([*rows, "end"])
