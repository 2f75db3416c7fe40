"""Tests tools/steps and tools/loss: on small maps against what was worked out by hand, and on a real one against what must hold."""
import re

SQUARES = """tgap 1
transform 1 1 0 0
ratio {ratio}
classes 1
class 0 1 1
faces 2
face 1 0
face 2 0
arcs 3
arc 1 0 4 10 10 0 10 0 0 10 0
arc 2 0 4 10 0 20 0 20 10 10 10
arc 1 2 2 10 0 10 10
end
"""


def rows(text):
    """The rows of a table as lists of numbers; a share loses its sign."""
    return [[float(word.rstrip("%").replace(",", "")) for word in line.split()] for line in text.splitlines() if re.fullmatch(r"[ \d.,%]+", line)]


def test(tests, examples):
    small_maps(tests, examples)
    a_real_map(tests, examples)
    refusals(tests, examples)


def small_maps(tests, examples):
    tests.write("squares.tgap", SQUARES.format(ratio=16))
    made = tests.tool("steps", "squares.tgap")
    tests.done("the steps of two squares", made, "1 step, from 2 faces to 1 face")
    tests.same("their rows", rows(made.stdout), [[0, 2, 100, 10], [1, 1, 200, 6]])
    tests.same("nothing moves where vertices go on straight lines", rows(tests.tool("loss", "squares.tgap").stdout), [[1, 1, 0, 0, 6]])
    # With the ratio 1 the corners (0,10), (0,0), (10,0) go one after the other, each with a triangle of half a square, and of the two squares the
    # triangle (10,10) (20,0) (20,10) is left: a quarter of their area.
    tests.write("rough.tgap", SQUARES.format(ratio=1))
    tests.same("three quarters move where three corners go", rows(tests.tool("loss", "rough.tgap").stdout), [[1, 1, 75, 75, 4]])
    made = tests.tool("steps", examples / "three_squares.tgap", "--least", 150)
    tests.done("the step for a least area", made, "step 2 is the first with no area below 150 square units: 1 face")


def a_real_map(tests, examples):
    words = [examples / "columbus.json", "areas", examples / "columbus.rules.json"]
    made = tests.tool("steps", *words, "--every", 12)
    tests.done("the steps of Columbus", made, "48 steps, from 49 faces to 1 face")
    table = rows(made.stdout)
    tests.same("its steps and faces", [row[:2] for row in table], [[0, 49], [12, 37], [24, 25], [36, 13], [48, 1]])
    for step, _, _, points in table:
        slice_ = tests.program("slice", words[0], int(step), *words[1:]).stdout
        tests.same(f"its points at step {step:.0f}", points, sum(int(line.split()[4]) for line in slice_.splitlines() if line.startswith("edge ")))
    made = tests.tool("loss", *words, "--steps", "0,24,48", "--ratio", "4,1024,0")
    tests.done("the loss of Columbus", made, "ratio 1024")
    table = rows(made.stdout)
    tests.same("its steps", [row[0] for row in table], [0, 24, 48])
    tests.same("nothing at step 0", table[0][2::3] + table[0][3::3], [0] * 6)
    tests.same("nothing with the ratio 0", [row[8:10] for row in table], [[0, 0]] * 3)
    tests.tell("less with a greater ratio", [f"{row}" for row in table[1:] if not row[2] > 10 * row[5] > 0])
    tests.tell("no more than may be", [f"{row}" for row in table for at in (2, 5) if not row[at] <= row[at + 1] <= 2 * row[at]])


def refusals(tests, examples):
    columbus = [examples / "columbus.json", "areas", examples / "columbus.rules.json"]
    squares = examples / "two_squares.tgap"
    cases = [("steps", "of a refused map", [examples / "crossing.tgap"], 4, "refused 15 meets"),
             ("steps", "of a map that is not there", ["nowhere.tgap"], 3, "load fault map"),
             ("steps", "without rules", columbus[:2], 2, "RULES"),
             ("steps", "for an area that no face reaches", [squares, "--least", 1e9], 5, "no step has areas"),
             ("steps", "for a scale below 0", [squares, "--scale", -1], 2, "--scale"),
             ("loss", "of a refused map", [examples / "crossing.tgap"], 4, "refused 15 meets"),
             ("loss", "of a map that is not there", ["nowhere.tgap"], 3, "load fault map"),
             ("loss", "at a step that there is not", [squares, "--steps", 9], 5, "step too high 1"),
             ("loss", "with a ratio of a listing", [squares, "--ratio", 4], 2, "--ratio wants a topology"),
             ("loss", "with a ratio that is too great", [*columbus, "--ratio", 70000], 2, "--ratio")]
    for tool, name, words, status, told in cases:
        tests.refused(f"{tool} {name}", tests.tool(tool, *words), status, told)
