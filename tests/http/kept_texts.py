"""Texts that a worker has sent before: whoever asks again, on whichever connection, gets those of his version."""
import contextlib
import pathlib
import tempfile

from lib import TOP, Server, arc_text, ask, bent_grid, listing

TWO_SQUARES = TOP / "examples/two_squares.tgap"
ASKED = ["/slice/0", "/slice/1", "/topo/0", "/topo/1", "/packet/1/0", "/packet/0/1"]
EDITS = [b"move 20 10 24 10\n", b"move 24 10 22 10\n"]
# A slice of such a map has some 300 thousand bytes, so as many of them are more than a worker keeps.
SIDE, MANY = 57, 40


def replies(server, asked):
    """The replies to these questions, on a connection of their own."""
    with contextlib.closing(server.client()) as client:
        return [ask(client, "GET", path)[:3] for path in asked]


def each_version_has_its_own(tests):
    """One worker answers all connections. Beside it stands a server that is asked once in each version."""
    with Server(tests.executable, TWO_SQUARES, 1, 4) as server, Server(tests.executable, TWO_SQUARES, 1, 4) as other:
        for version in range(len(EDITS) + 1):
            wanted = replies(other, ASKED)
            tests.same(f"the version of the replies, {version}", {number for _, number, _ in wanted}, {version})
            for time in ["first", "again", "once more"]:
                tests.same(f"version {version}, asked {time}", replies(server, ASKED), wanted)
            for one in [server, other]:
                for batch in EDITS[version : version + 1]:
                    with contextlib.closing(one.client()) as editor:
                        tests.same("an edit", ask(editor, "POST", "/edit", batch)[0], 200)


def more_than_may_be_kept(tests):
    """The slices are asked for in turn and again the other way round, so that some are still kept and others are not."""
    faces, _, arcs = bent_grid(SIDE)
    asked = [f"/slice/{step}" for step in range(MANY)]
    with tempfile.TemporaryDirectory() as folder:
        path = pathlib.Path(folder) / "map"
        path.write_bytes(listing(faces, [arc_text(*arc) for arc in arcs]))
        with Server(tests.executable, path, 1, 2) as server:
            first = replies(server, asked)
            tests.same("slices that differ", len({text for _, _, text in first}), MANY)
            tests.same("the other way round", replies(server, asked[::-1]), first[::-1])
            tests.same("in turn", replies(server, asked), first)


TESTS = [each_version_has_its_own, more_than_may_be_kept]
