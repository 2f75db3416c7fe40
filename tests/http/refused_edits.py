"""What a refused edit comes to, and that nothing is built for one that is stale or for which there is no room."""
import contextlib
import os
import pathlib
import tempfile

from lib import Server, arc_text, ask, bent_grid, listing

SIDE, TIMES = 60, 6
MOVE, MOVE_ON, NO_POINT = b"move 0 0 -1 0\n", b"move -1 0 -2 0\n", b"move -5 -5 -6 -6\n"
TICKS = os.sysconf("SC_CLK_TCK")


def spent(server):
    """The seconds of the processor that the server took until now."""
    fields = pathlib.Path(f"/proc/{server.process.pid}/stat").read_text(encoding="ascii").rpartition(") ")[2].split()
    return (int(fields[11]) + int(fields[12])) / TICKS


def cost(server, client, batch, times):
    """The reply to an edit that is sent some times, and the seconds of the processor that each takes."""
    before = spent(server)
    replies = {ask(client, "POST", "/edit", batch)[:3] for _ in range(times)}
    return replies, (spent(server) - before) / times


def refused_before_they_are_built(tests):
    """The map has many faces, so building it takes several times as long as checking it. The seconds are those of the
    processor, so that a busy machine changes little."""
    faces, _, arcs = bent_grid(SIDE)
    with tempfile.TemporaryDirectory() as folder:
        path = pathlib.Path(folder) / "map"
        path.write_bytes(listing(faces, [arc_text(*arc) for arc in arcs]))
        with Server(tests.executable, path, 2, 2) as server, contextlib.closing(server.client()) as other:
            tests.same("the pin of another client", ask(other, "GET", "/info")[:2], (200, 0))
            with contextlib.closing(server.client()) as editor:
                replies, built = cost(server, editor, MOVE, 1)
            tests.same("an edit of a large map", replies, {(200, 1, b"published 1\n")})
            costs_its_check(tests, server, other, "stale", MOVE, (409, 0, b"stale 1\n"), built)
            with contextlib.closing(server.client()) as late:
                costs_its_check(tests, server, late, "full", MOVE_ON, (507, 1, b"versions full 2\n"), built)


def costs_its_check(tests, server, client, name, batch, wanted, built):
    """A batch that is refused takes far less than the one that was published, and one at fault is told as such."""
    replies, seconds = cost(server, client, batch, TIMES)
    tests.same(f"a {name} edit of a large map", replies, {wanted})
    most = round(built / 2, 2)
    tests.within(f"the time of a {name} edit, where a published one takes {built:.2f} s", seconds, 0, most)
    fault = (422, wanted[1], b"edit line 1 cause 3\n")
    tests.same(f"a faulty batch that would be {name}", cost(server, client, NO_POINT, 1)[0], {fault})


TESTS = [refused_before_they_are_built]
