"""Nodes, cuts and fusions in a journal: what they make is made again at a start, and a batch at fault behind them is told."""
from keeper import MOVE, SQUARES, TOP, Keeper, a_folder, asked_once, entry, faults_served, folded, goes_on, journal, refusal

FOUR = TOP / "examples/four_squares.tgap"
CORNER, DIAGONAL, JOIN = b"node 0 0\n", b"cut 1 0 2 0 0 10 10\n", b"fuse 1 3\n"
# One after the other; each names faces, nodes or points that the ones before it made.
OF_TWO = [CORNER + DIAGONAL, b"node 20 0\ncut 2 0 3 20 0 14 4 10 10\nclass 4 0\n", b"move 14 4 15 4\nadd 0 0 10 10 4 5\n", b"fuse 4 2\n", JOIN,
          b"fuse 1 2\n", b"node 0 10\ncut 1 0 3 0 10 5 3 0 0\nfuse 1 2\n" + MOVE]
OF_FOUR = [b"fuse 1 2\ncut 1 0 3 20 10 15 4 10 0\n", b"fuse 3 1\nfuse 3 2\nfuse 1 2\n", b"drop 0 0\nnode 20 20\n"]
# Behind the first batch of the two squares: what is no edit there, and is one before it.
NO_MORE = [CORNER, CORNER + DIAGONAL, b"cut 1 0 3 0 0 7 4 10 10\nfuse 4 4\n", b"cut 3 0 2 0 0 10 0\n", b"fuse 2 3\n"]


def is_kept(tests, name, base, batches):
    """Each batch is published, and a refused one behind it is not kept; after another start all are served again."""
    with a_folder() as folder:
        path = folder / "journal"
        with Keeper(tests, path, base=base) as server:
            for number, batch in enumerate(batches, 1):
                tests.same(f"{batch} of {name}", server.edit(batch), (200, number, b"published %d\n" % number))
                tests.same(f"a fusion at fault behind {batch}", server.edit(batch + b"fuse 1 1\n")[:2], (422, number))
                tests.tell(f"{name} after {batch}", faults_served(server, base.read_bytes(), batches[:number]))
            finest = asked_once(server, "GET", "/slice/0")
        tests.same(f"the batches that are kept of {name}", path.read_bytes(), journal(*batches))
        with Keeper(tests, path, base=base) as server:
            tests.tell(f"{name} after another start", faults_served(server, base.read_bytes(), batches))
            tests.same(f"the slice of {name} after another start", asked_once(server, "GET", "/slice/0"), finest)


def cuts_are_kept(tests):
    is_kept(tests, "two squares", SQUARES, OF_TWO)
    is_kept(tests, "four squares", FOUR, OF_FOUR)


def joined_cuts(tests):
    """Batches that follow one another, as one batch, make the same map."""
    with a_folder() as folder:
        told = []
        for name, data in [("apart", journal(*OF_TWO)), ("joined", journal(b"".join(OF_TWO)))]:
            path = folder / name
            path.write_bytes(data)
            with Keeper(tests, path) as server:
                tests.tell(f"the batches {name}", faults_served(server, SQUARES.read_bytes(), folded(data)))
                told.append([asked_once(server, "GET", path)[2] for path in ("/slice/0", "/slice/1")])
        tests.same("the slices of both", told[0], told[1])


def cuts_at_fault(tests):
    with a_folder() as folder:
        path = folder / "journal"
        for batch in NO_MORE:
            path.write_bytes(journal(OF_TWO[0], batch))
            tests.same(f"{batch} behind a cut", refusal(tests, path), (4, b"refused 22 journal-entry 1\n"))
        path.write_bytes(entry(1, OF_TWO[0]) + entry(1, CORNER) + b"\0")
        tests.tell("a cut whose place was taken", goes_on(tests, path, [CORNER], DIAGONAL))


TESTS = [cuts_are_kept, joined_cuts, cuts_at_fault]
