"""The largest maps on each command: the map of 180 by 180 bent cells, held to an own reckoning of its 32,399 steps,
and generated maps, held to what the other commands say of their listings. None of them is told that memory is
wanting, and each answer comes in bounded time."""
import concurrent.futures
import pathlib

from lib import arc_text, listing
from model import LARGE_SIDE, Model, QuickModel, slice_of
from steps import steps_of

# A command takes one or two seconds of the processor.
LIMIT, SIDE_BY_SIDE = 60, 4
LAST = LARGE_SIDE**2 - 1
STEPS = [0, LAST // 2, LAST]
PAIRS = [(LAST, 0), (LAST, LAST // 2), (LAST // 2, 0)]
# Rows of generated maps, the most and some, with the vertices that go where an independent program has counted them.
GRIDS = {147: 46694, 41: None}


def done(tests, *words):
    """What a command answers in time, with status 0 and an empty standard error."""
    ended = tests.run(*words, timeout=LIMIT)
    tests.same(f"the status of {' '.join(map(str, words))}", (ended.returncode, ended.stderr), (0, b""))
    return ended.stdout


def all_done(tests, commands):
    """The answers to several commands, side by side."""
    with concurrent.futures.ThreadPoolExecutor(SIDE_BY_SIDE) as pool:
        return list(pool.map(lambda words: done(tests, *words), commands))


def a_quick_reckoning(tests):
    """The reckoning for the large map is held to the plain one."""
    plain, quick = Model(16), QuickModel(16)
    tests.same("the steps of the quick reckoning", quick.steps, plain.steps)
    tests.same("the areas of the quick reckoning", quick.area, plain.area)


def many_cells(tests):
    model, path = QuickModel(16, LARGE_SIDE), "large_map"
    pathlib.Path(path).write_bytes(model.listing())
    tests.same("the faces, arcs and steps of the large map", (model.count, len(model.arcs), len(model.steps)), (32400, 65160, LAST))
    commands = [["check", path], *(["borders", path, step] for step in STEPS), *(["slice", path, step] for step in STEPS),
                *(["packet", path, *pair] for pair in PAIRS)]
    answers = {tuple(words): text for words, text in zip(commands, all_done(tests, commands))}
    tests.same("check of the large map", answers["check", path], model.check_text())
    for step in STEPS:
        tests.same(f"borders of the large map after {step}", answers["borders", path, step], model.borders_text(step))
        tests.tell(f"slice of the large map after {step}", model.faults_of_slice(step, answers["slice", path, step]))
    # At each corner of the map two arcs are one edge; at the end there is one ring.
    for step, count in [(0, len(model.arcs) - 4), (LAST, 1)]:
        tests.same(f"the edges of the large map after {step}", answers["slice", path, step].count(b"\nedge "), count)
    for first, last in PAIRS:
        packet = answers["packet", path, first, last]
        tests.same(f"the steps of packet {first} to {last} of the large map", steps_of(packet), model.steps[last:first][::-1])
        pathlib.Path(f"coarse_{first}_{last}").write_bytes(answers["slice", path, first])
        pathlib.Path(f"packet_{first}_{last}").write_bytes(packet)
    replayed = all_done(tests, [["replay", f"coarse_{first}_{last}", f"packet_{first}_{last}"] for first, last in PAIRS])
    for (first, last), text in zip(PAIRS, replayed):
        tests.same(f"replay from {first} to {last} of the large map", text, answers["slice", path, last])


# ---- generated maps, by docs/formats.md


def generated(rows):
    """The listing of the generated map of so many rows."""

    def chance(column, row, kind):
        return (29 * kind + 151 * row + 73 * column + 17 * column * row) % 64

    def corner(column, row):
        low = chance(column, row, 0)
        return 16 * column + low % 4, 16 * row + low // 4 % 4

    def face(column, row):
        return row * rows + column + 1 if 0 <= column < rows and 0 <= row < rows else 0

    classes = {face(column, row): (column * row + 5 * column + 3 * row) % 4 for row in range(rows) for column in range(rows)}
    level = [(face(c, r), face(c, r - 1), [corner(c, r), (16 * c + 8, 16 * r + chance(c, r, 1) % 4), corner(c + 1, r)])
             for r in range(rows + 1) for c in range(rows)]
    upright = [(face(c - 1, r), face(c, r), [corner(c, r), (16 * c + chance(c, r, 2) % 4, 16 * r + 8), corner(c, r + 1)])
               for c in range(rows + 1) for r in range(rows)]
    kinds = [f"{weight} {' '.join('4' if weight == other else '1' for other in range(1, 5))}" for weight in range(1, 5)]
    return listing(rows * rows, [arc_text(*arc) for arc in level + upright], classes=kinds, class_of=classes)


def edges_of(text):
    """How many edges a slice has, and how many points they have together."""
    edges = slice_of(text).edges
    return len(edges), sum(len(points) for _, _, points in edges.values())


def generated_maps(tests):
    """What `grid` counts, beside the last slice, the packet of all steps and what it leads to by the other commands."""
    for rows, known in GRIDS.items():
        name, faces, arcs = f"generated_{rows}", rows * rows, 2 * rows * (rows + 1)
        pathlib.Path(name).write_bytes(generated(rows))
        coarse, packet, first, line = all_done(tests, [["slice", name, faces - 1], ["packet", name, faces - 1, 0], ["slice", name, 0], ["grid", rows]])
        pathlib.Path("coarse").write_bytes(coarse)
        pathlib.Path("packet").write_bytes(packet)
        fine = done(tests, "replay", "coarse", "packet")
        tests.same(f"replay of the generated map of {rows} rows", fine, first)
        removed, edges, points = packet.count(b"\nput "), *edges_of(fine)
        tests.same(f"the vertices that go from the generated map of {rows} rows", removed, known or removed)
        tests.same(f"the edges of the generated map of {rows} rows", (edges, points), (arcs - 4, 3 * arcs - 4))
        one, kept = edges_of(coarse)
        wanted = f"grid {rows} faces {faces} arcs {arcs} points {3 * arcs} steps {faces - 1} removed {removed} edges {one} kept {kept} replayed {edges} {points}\n"
        tests.same(f"grid {rows}", line, wanted.encode())


TESTS = [a_quick_reckoning, many_cells, generated_maps]
