"""A map of some hundred steps over HTTP: its slices and packets are those of the command line, and its windows are
parts of its slices."""
import contextlib
import pathlib
import random
import tempfile

from lib import Server, ask
from model import SIDE, STEPS, Model, window_of

WINDOWS = 20


def boxes():
    """Boxes of many sizes about the map, points and lines too, and always the same ones."""
    chance = random.Random(1)
    for _ in range(WINDOWS):
        xs, ys = (sorted(chance.randint(-8, 4 * SIDE + 8) for _ in range(2)) for _ in range(2))
        yield xs[0], ys[0], xs[1], ys[1]
    yield 10, 10, 10, 10
    yield 0, 8, 4 * SIDE, 8
    yield -2147483648, -2147483648, 2147483648, 2147483648
    yield 1000, 1000, 2000, 2000


def many_steps(tests):
    model = Model(16)
    with tempfile.TemporaryDirectory() as folder:
        path = pathlib.Path(folder) / "map"
        path.write_bytes(model.listing())
        with Server(tests.executable, path, 2, 2) as server, contextlib.closing(server.client()) as client:
            tests.same("the numbers of the map", ask(client, "GET", "/info")[:3], (200, 0, model.info(0)))
            for step in STEPS:
                text = ask(client, "GET", f"/slice/{step}")[2]
                tests.same(f"/slice/{step}", text, tests.text("slice", path, step))
                packet = ask(client, "GET", f"/packet/{step}/{step // 2}")[2]
                tests.same(f"/packet/{step}/{step // 2}", packet, tests.text("packet", path, step, step // 2))
                for box in boxes():
                    window = f"/window/{step}/{'/'.join(map(str, box))}"
                    tests.same(window, ask(client, "GET", window)[:3], (200, 0, window_of(text, box)))
            tests.same("a step too high", ask(client, "GET", "/slice/400")[:3], (400, 0, b"step too high 399\n"))


TESTS = [many_steps]
