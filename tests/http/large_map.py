"""The map of 180 by 180 bent cells over HTTP: what the command line gives of it, windows of every width, its
topology, which is read again, an edit, and a slow reader. No reply says that memory is wanting, and each comes in
bounded time."""
import pathlib
import tempfile
import time

from lib import SECONDS, Server, arc_text, asked_once, bent_grid, listing, received, reply, request
from model import LARGE_SIDE, bounds_of, slice_of, window_in
from slice_topologies import is_compact, is_read_again, rules_of_listing
from slow import narrow

LAST = LARGE_SIDE**2 - 1
STEPS = [0, LAST // 2, LAST]
PACKETS = [(LAST, 0), (LAST // 2, 0)]
MIDDLE, MOST = 2 * LARGE_SIDE, 2147483648
# From one unit to more than the whole map.
WIDTHS = [2**power for power in range(11)]
MOVED, TO = (0, 0), (-1, -2)
# A slow reader takes his reply in so many pieces, with so many seconds before each. That is 16 seconds: after half of it
# more is left than the system keeps for both ends.
PIECES, PAUSE, ROOM = 160, 0.1, 65536


def boxes():
    """Boxes of all widths from the middle of the map, and the whole plane."""
    yield from ((MIDDLE, MIDDLE, MIDDLE + width, MIDDLE + width) for width in WIDTHS)
    yield -MOST, -MOST, MOST, MOST


def made_map():
    """The numbers of faces and arcs of the map, and its listing."""
    faces, count, arcs = bent_grid(LARGE_SIDE)
    return faces, count, listing(faces, [arc_text(*arc) for arc in arcs], version=2)


def many_cells(tests):
    faces, count, made = made_map()
    with tempfile.TemporaryDirectory() as folder:
        path = pathlib.Path(folder) / "map"
        path.write_bytes(made)
        with Server(tests.executable, path, 2, 2) as server:
            info = f"steps {LAST} faces {faces} arcs {count} points {3 * count}\n"
            tests.same("the numbers of the large map", asked_once(server, "GET", "/info"), (200, 0, f"version 0 {info}".encode()))
            slices = {step: as_commanded(tests, server, path, "slice", step) for step in STEPS}
            for first, last in PACKETS:
                as_commanded(tests, server, path, "packet", first, last)
            for step in STEPS[:2]:
                windows(tests, server, step, slice_of(slices[step]))
            topology = asked_once(server, "GET", "/topo/0")
            tests.same("/topo/0 of the large map", topology[:2], (200, 0))
            is_compact(tests, "the topology of the large map", topology[2])
            is_read_again(tests, "the topology of the large map", slices[0], topology[2], rules_of_listing(made.decode()), pathlib.Path(folder))
            an_edit(tests, server, info, slices[0])


def as_commanded(tests, server, path, command, *steps):
    """A reply, which is held to the answer of the command."""
    asked = f"/{command}/{'/'.join(map(str, steps))}"
    status, version, text = asked_once(server, "GET", asked)
    ended = tests.run(command, path, *steps)
    tests.same(f"{asked} of the large map", (status, version, text), (200, 0, ended.stdout))
    tests.same(f"{command} {steps} of the large map", ended.returncode, 0)
    return text


def windows(tests, server, step, whole):
    bounds = bounds_of(whole)
    for box in boxes():
        asked = f"/window/{step}/{'/'.join(map(str, box))}"
        tests.same(f"{asked} of the large map", asked_once(server, "GET", asked), (200, 0, window_in(whole, bounds, box)))


def an_edit(tests, server, info, before):
    """The corner of the map is moved: of the new version that point alone has changed."""
    batch = f"move {MOVED[0]} {MOVED[1]} {TO[0]} {TO[1]}\n".encode()
    tests.same("an edit of the large map", asked_once(server, "POST", "/edit", batch), (200, 1, b"published 1\n"))
    tests.same("the numbers after an edit of the large map", asked_once(server, "GET", "/info"), (200, 1, f"version 1 {info}".encode()))
    status, version, text = asked_once(server, "GET", "/slice/0")
    old, new = slice_of(before), slice_of(text)
    moved = {key: (left, right, [TO if point == MOVED else point for point in points]) for key, (left, right, points) in old.edges.items()}
    tests.same("the slice after an edit of the large map", (status, version, new), (200, 1, old._replace(edges=moved)))
    tests.same("the edges that an edit of the large map has changed", sum(moved[key] != old.edges[key] for key in moved), 1)


def a_steady_slow_reader(tests):
    """A client that takes a large reply little by little, for far longer than five seconds, gets all of it."""
    with tempfile.TemporaryDirectory() as folder:
        path = pathlib.Path(folder) / "map"
        path.write_bytes(made_map()[2])
        wanted = reply(200, "OK", 0, tests.text("packet", path, LAST, 0), close=True)
        with Server(tests.executable, path, 1, 1) as server, narrow(server, ROOM) as one:
            one.sendall(request("GET", f"/packet/{LAST}/0", b"", "Connection: close"))
            begun, came = time.monotonic(), bytearray()
            while len(came) < len(wanted) and (data := one.recv(ROOM)):
                came += data
                if len(came) * PIECES // len(wanted) > (len(came) - len(data)) * PIECES // len(wanted):
                    time.sleep(PAUSE)
            seconds = time.monotonic() - begun
            tests.same("a large reply to a slow reader", (bytes(came), received(one)), (wanted, (b"", True)))
            tests.within("the seconds that a slow reader takes", seconds, PIECES * PAUSE / 2, SECONDS)


TESTS = [many_cells, a_steady_slow_reader]
