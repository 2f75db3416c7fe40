"""Transcripts of a crowd that the recorder has to refuse, each beside one that it has to take: for each rule one that breaks
it alone."""
import sys

from lib import TOP
from recorder import Exchange, judged

sys.path.append(str(TOP / "tests/sweep"))
from plain_maps import read_listing  # noqa: E402

FOUR = read_listing((TOP / "examples/four_squares.tgap").read_bytes())
TWO = read_listing((TOP / "examples/two_squares.tgap").read_bytes())
MOVE, ADD, ADD_MORE, FAR = b"move 20 0 21 0\n", b"add 0 0 10 0 5 -1\n", b"add 10 0 20 0 15 -1\n", b"move 5 5 6 6\n"
# Two slices of the four squares and two packets, worked out by hand.
SLICES = {0: b"slice 0\nfaces 4\nface 1 0\nface 2 0\nface 3 0\nface 4 0\nedges 8\nedge 0 1 0 3 0 10 0 0 10 0\nedge 1 2 0 3 10 0 20 0 20 10\n"
             b"edge 2 4 0 3 20 10 20 20 10 20\nedge 3 3 0 3 10 20 0 20 0 10\nedge 4 1 2 2 10 0 10 10\nedge 5 2 4 2 20 10 10 10\n"
             b"edge 6 4 3 2 10 20 10 10\nedge 7 3 1 2 0 10 10 10\nend\n",
          3: b"slice 3\nfaces 1\nface 7 0\nedges 1\nedge 0 7 0 9 20 10 20 20 10 20 0 20 0 10 0 0 10 0 20 0 20 10\nend\n"}
PACKET = b"packet 3 2\nstep 3 5 0 6 0 7 1 1\nmend 0 0 2\npiece 2 4 6 0\npiece 0 8 5 0\nedge 5 5 6 3 20 10 10 10 0 10\nend\n"
OTHER_PACKET = PACKET.replace(b"10 10", b"10 11")
MOVED = {step: text.replace(b" 10 0 20 0 20 10", b" 10 0 21 0 20 10") for step, text in SLICES.items()}
LIMIT = 4


# ---- rows: an exchange without its times


def row(method, path, status, version, text, body=b""):
    return method, path, body, status, version, text


def got(path, version, text, status=200):
    return row("GET", path, status, version, text)


def info(version, points=20):
    return got("/info", version, b"version %d steps 3 faces 4 arcs 8 points %d\n" % (version, points))


def pinned(version, seen=""):
    return row("POST", f"/pin{seen}", 200, version, b"pin %d\n" % version)


def behind(pin, newest, seen):
    return row("POST", f"/pin/{seen}", 409, pin, b"behind %d\n" % newest)


def published(version, batch=MOVE):
    return row("POST", "/edit", 200, version, b"published %d\n" % version, batch)


def stale(pin, newest, batch=MOVE):
    return row("POST", "/edit", 409, pin, b"stale %d\n" % newest, batch)


def full(pin, limit, batch=MOVE):
    return row("POST", "/edit", 507, pin, b"versions full %d\n" % limit, batch)


def refused(pin, batch, text):
    return row("POST", "/edit", 422, pin, text, batch)


def lost(method="POST", path="/edit", batch=MOVE):
    return method, path, batch, None, None, None


def talk(start, *rows):
    """A connection: its requests are sent at this time and each 10 later, and each reply comes after 9."""
    return [Exchange(method, path, body, start + 10 * place, None if status is None else start + 10 * place + 9, status, version, text)
            for place, (method, path, body, status, version, text) in enumerate(rows)]


# One that publishes version 1 between the times 10 and 19, and one that then publishes version 2 between 30 and 39.
FIRST, SECOND = talk(0, info(0), published(1)), talk(20, pinned(1), published(2, ADD))
OF_ADD = talk(0, info(0), published(1, ADD))
THREE = talk(0, info(0), published(1), published(2, ADD), published(3, b""))
AGAIN = talk(0, info(0), published(1), published(2, b""), published(3, b""))


# ---- rules: what it is about, a transcript that keeps it, one that breaks it, and what is said of that one

VERSIONS = [
    ("each version is published", [FIRST, talk(20, pinned(1))], [talk(20, pinned(1))], "version 1 is published by nobody"),
    ("one is told a number", [FIRST, talk(0, info(0), stale(0, 1), pinned(1), published(2, ADD))], [FIRST, talk(0, info(0), published(1, ADD))],
     "connection 2, request 2: version 1 is told as published to connection 1, request 2 too"),
    ("the number follows the pin", [FIRST, SECOND], [FIRST, talk(20, info(0), published(2, ADD))],
     "connection 2, request 2: version 2 is published from version 0"),
    ("who publishes knows of no newer version", [FIRST, talk(20, info(0), stale(0, 1), pinned(1), published(2, ADD))],
     [talk(20, info(0), stale(0, 1), published(1, ADD))],
     "connection 1, request 3: version 1 is published by who knows of version 1"),
    ("a version has the batches of all before it", [OF_ADD, talk(20, pinned(1), published(2, ADD_MORE), info(2, 22))],
     [OF_ADD, talk(20, pinned(1), published(2, ADD_MORE), info(2, 21))], "connection 2, request 3: /info is not answered as version 2 does"),
    ("a batch that is published is a good one", [talk(0, info(0), published(1, b""))], [talk(0, info(0), published(1, FAR))],
     "connection 1, request 2: a batch is refused by edit line 1 cause 3 on version 0"),
    ("no more are pinned than may be kept", [THREE, talk(40, pinned(3))], [THREE, talk(0, info(0), lost()), talk(40, pinned(4))],
     "connection 3, request 1: version 4 is told where 4 may be kept"),
    ("no more are published than may be kept", [THREE], [talk(0, info(0), *(published(number, b"") for number in range(1, 5)))],
     "connection 1, request 5: version 4 is told where 4 may be kept"),
    ("an edit without a reply may have made a version", [talk(0, info(0), lost()), talk(20, pinned(1), got("/slice/0", 1, MOVED[0]))],
     [talk(0, info(0), lost()), talk(20, pinned(1), got("/slice/0", 1, SLICES[0]))], "connection 2, request 2: /slice/0 is not answered as version 1 does"),
    ("of two edits without a reply one may have made it", [talk(0, info(0), lost()), talk(0, info(0), lost(batch=ADD)), talk(20, pinned(1), info(1, 21))],
     [talk(0, info(0), lost()), talk(0, info(0), lost(batch=ADD)), talk(20, pinned(1), info(1, 22))],
     "connection 3, request 2: /info is not answered as version 1 does"),
    ("such an edit makes one version", [talk(0, lost(batch=b"")), talk(0, lost(batch=b"")), talk(20, pinned(1), pinned(2))],
     [talk(0, lost(batch=b"")), talk(20, pinned(1), pinned(2))],
     "version 2 is published by nobody"),
    ("it makes the one behind its pin", [FIRST, talk(20, pinned(1), lost(batch=ADD)), talk(40, pinned(2))],
     [FIRST, talk(0, info(0), lost(batch=ADD)), talk(20, pinned(2))],
     "version 2 is published by nobody"),
    ("what is no edit makes none", [talk(0, lost()), talk(20, pinned(1))], [talk(0, lost("GET", "/info", b"")), talk(20, pinned(1))],
     "version 1 is published by nobody"),
]
PINS = [
    ("a pin does not fall", [FIRST, talk(20, pinned(1), pinned(1))], [FIRST, talk(20, pinned(1), pinned(0))],
     "connection 2, request 2: version 0 is pinned by who knows of version 1"),
    ("a pin is not older than what was told", [FIRST, talk(20, info(0), stale(0, 1), pinned(1))], [FIRST, talk(20, info(0), stale(0, 1), pinned(0))],
     "connection 2, request 3: version 0 is pinned by who knows of version 1"),
    ("the newest is not older than what was told", [FIRST, SECOND, talk(40, info(0), stale(0, 2), stale(0, 2))],
     [FIRST, SECOND, talk(0, info(0), stale(0, 2), stale(0, 1))],
     "connection 3, request 3: version 1 is told as the newest to who knows of version 2"),
    ("a pin stays where nothing moves it", [FIRST, talk(20, info(0), pinned(1), info(1))], [FIRST, talk(20, info(0), info(1))],
     "connection 2, request 2: the reply is from version 1, and 0 is pinned"),
    ("a pin is the version of its reply", [FIRST, talk(20, pinned(1))], [FIRST, talk(20, row("POST", "/pin", 200, 0, b"pin 1\n"))],
     "connection 2, request 1: the reply is from version 0, and 1 is pinned by it"),
    ("an edit pins what it published", [FIRST], [talk(0, info(0), row("POST", "/edit", 200, 0, b"published 1\n", MOVE))],
     "connection 1, request 2: the reply is from version 0, and 1 is pinned by it"),
    ("a stale edit moves no pin", [FIRST, talk(20, info(0), stale(0, 1))], [FIRST, talk(20, info(0), stale(1, 1))],
     "connection 2, request 2: the reply is from version 1, and 0 is pinned"),
    ("want of memory moves no pin", [FIRST, talk(20, info(0), row("POST", "/pin", 503, 0, b"memory\n"))],
     [FIRST, talk(20, info(0), row("POST", "/pin", 503, 1, b"memory\n"))],
     "connection 2, request 2: the reply is from version 1, and 0 is pinned"),
    ("who asks for a version gets no older one", [FIRST, talk(20, pinned(1, "/1"))], [FIRST, talk(20, pinned(1, "/2"))],
     "connection 2, request 1: version 1 is pinned by who asked for 2"),
    ("a version that is behind is older", [FIRST, talk(20, info(0), behind(0, 1, 2))], [FIRST, talk(20, info(0), behind(0, 1, 1))],
     "connection 2, request 2: it is behind 1 without asking for a later version"),
    ("a pin is not older than the first", [FIRST, talk(20, info(1), pinned(1))], [FIRST, talk(20, info(1), pinned(0))],
     "connection 2, request 2: version 0 is pinned by who knows of version 1"),
    ("who is behind keeps its pin", [FIRST, talk(20, info(0), behind(0, 1, 2))], [FIRST, talk(20, info(0), behind(1, 1, 2))],
     "connection 2, request 2: the reply is from version 1, and 0 is pinned"),
    ("a pin has its status", [talk(0, pinned(0))], [talk(0, row("POST", "/pin", 409, 0, b"pin 0\n"))], "connection 1, request 1: it is no reply to a pin"),
    ("a pin has its own replies", [talk(0, pinned(0))], [talk(0, row("POST", "/pin", 200, 0, b"pin 00\n"))],
     "connection 1, request 1: it is no reply to a pin"),
]
EDITS = [
    ("stale is told where there is a newer version", [FIRST, SECOND, talk(20, pinned(1), stale(1, 2, ADD))], [FIRST, talk(20, pinned(1), stale(1, 1, ADD))],
     "connection 2, request 2: version 1 is stale where 1 is the newest"),
    ("a stale batch is a good one", [FIRST, talk(20, info(0), stale(0, 1))], [FIRST, talk(20, info(0), stale(0, 1, FAR))],
     "connection 2, request 2: a batch is refused by edit line 1 cause 3 on version 0"),
    ("full is told where the list is full", [AGAIN, talk(40, pinned(3), full(3, 4, ADD))], [AGAIN, talk(40, pinned(2), full(2, 4, ADD))],
     "connection 2, request 2: the versions are full at 4 where 2 is pinned and 4 may be kept"),
    ("full tells how many there may be", [AGAIN, talk(40, pinned(3), full(3, 4, ADD))], [AGAIN, talk(40, pinned(3), full(3, 5, ADD))],
     "connection 2, request 2: the versions are full at 5 where 3 is pinned and 4 may be kept"),
    ("a batch for which there is no room is a good one", [AGAIN, talk(40, pinned(3), full(3, 4, ADD))], [AGAIN, talk(40, pinned(3), full(3, 4, FAR))],
     "connection 2, request 2: a batch is refused by edit line 1 cause 3 on version 3"),
    ("a batch is refused for its fault", [talk(0, info(0), refused(0, FAR, b"edit line 1 cause 3\n"))],
     [talk(0, info(0), refused(0, FAR, b"edit line 1 cause 4\n"))],
     "connection 1, request 2: a batch is refused by edit line 1 cause 3 on version 0"),
    ("a good batch is not refused", [talk(0, info(0), published(1))], [talk(0, info(0), refused(0, MOVE, b"edit line 1 cause 3\n"))],
     "connection 1, request 2: a batch is good on version 0"),
    ("a batch is for the map of the pin", [FIRST, talk(20, pinned(1), refused(1, MOVE, b"edit line 1 cause 3\n"))],
     [FIRST, talk(20, pinned(1), published(2))], "connection 2, request 2: a batch is refused by edit line 1 cause 3 on version 1"),
    ("an edit has its own replies", [talk(0, info(0), published(1))], [talk(0, info(0), row("POST", "/edit", 200, 0, b"pin 0\n", MOVE))],
     "connection 1, request 2: it is no reply to an edit"),
]
READS = [
    ("what is told is of the pin", [OF_ADD, talk(20, pinned(1), info(1, 21))], [OF_ADD, talk(20, pinned(1), info(1))],
     "connection 2, request 2: /info is not answered as version 1 does"),
    ("a slice has its very bytes", [FIRST, talk(20, pinned(1), *(got(f"/slice/{step}", 1, text) for step, text in MOVED.items()))],
     [FIRST, talk(20, pinned(1), got("/slice/3", 1, SLICES[3]))], "connection 2, request 2: /slice/3 is not answered as version 1 does"),
    ("a window has its very bytes", [talk(0, got("/window/3/0/0/1/1", 0, SLICES[3].replace(b"slice 3\n", b"window 3 0 0 1 1\n")))],
     [talk(0, got("/window/3/0/0/1/1", 0, MOVED[3].replace(b"slice 3\n", b"window 3 0 0 1 1\n")))],
     "connection 1, request 1: /window/3/0/0/1/1 is not answered as version 0 does"),
    ("a packet leads to its slice", [talk(0, got("/packet/3/2", 0, PACKET))], [talk(0, got("/packet/3/2", 0, OTHER_PACKET))],
     "connection 1, request 1: /packet/3/2 is not answered as version 0 does"),
    ("a status is that of its text", [talk(0, got("/slice/0", 0, SLICES[0]))], [talk(0, got("/slice/0", 0, SLICES[0], 422))],
     "connection 1, request 1: /slice/0 is not answered as version 0 does"),
    ("there is no step above the last", [talk(0, got("/slice/4", 0, b"step too high 3\n", 400))], [talk(0, got("/slice/4", 0, b"step too high 4\n", 400))],
     "connection 1, request 1: /slice/4 is not answered as version 0 does"),
    ("a packet leads to a finer slice", [talk(0, got("/packet/0/1", 0, b"not coarser 0 1\n", 400))], [talk(0, got("/packet/0/1", 0, b"packet 0 1\nend\n"))],
     "connection 1, request 1: /packet/0/1 is not answered as version 0 does"),
    ("a path has one text", [talk(0, got("/topo/0", 0, b"{}")), talk(0, got("/topo/0", 0, b"{}"))],
     [talk(0, got("/topo/0", 0, b"{}")), talk(0, got("/topo/0", 0, b"[]"))],
     "connection 2, request 1: /topo/0 has two texts in version 0"),
    ("what is read is known", [talk(0, info(0))], [talk(0, got("/nothing", 0, b"no route\n", 404))], "connection 1, request 1: nothing is known of this path"),
    ("nothing comes behind a request without a reply", [talk(0, info(0), lost("GET", "/info", b""))], [talk(0, lost("GET", "/info", b""), info(0))],
     "connection 1, request 1: there is a request after one without a reply"),
]
TIMES = [
    ("a version is told while its edit is on its way", [FIRST, talk(8, pinned(1))], [FIRST, talk(0, pinned(1))], "version 1 is told before it can be there"),
    ("versions come in their order", [FIRST, talk(2, published(2, ADD))], [FIRST, talk(0, published(2, ADD))], "version 2 is told before it can be there"),
    ("stale tells the newest", [FIRST, SECOND, talk(20, info(0), stale(0, 1))], [FIRST, SECOND, talk(30, info(0), stale(0, 1))],
     "version 2 is told before it can be there"),
    ("behind tells the newest", [FIRST, talk(0, info(0), behind(0, 0, 1))], [FIRST, talk(10, info(0), behind(0, 0, 1))],
     "version 1 is told before it can be there"),
    ("stale tells what is there", [FIRST, talk(0, info(0), stale(0, 1))], [FIRST, talk(0, stale(0, 1))], "version 1 is told before it can be there"),
]


def rules(tests):
    for name, kept, broken, why in VERSIONS + PINS + EDITS + READS + TIMES:
        tests.same(f"a transcript where {name}", judged(FOUR, LIMIT, kept), [])
        tests.same(f"a transcript against the rule that {name}", judged(FOUR, LIMIT, broken), [why])


def removed_vertices(tests):
    """Where vertices are removed, a slice has to have the right faces, and its edges some points of their chains, with the
    first and the last. The edited map is no planar partition in the way that it is."""
    good = "slice 1\nfaces 1\nface 3 0\nedges 1\nedge 0 3 0 6 10 10 0 10 0 0 20 0 20 10 10 10\nend\n"
    for name, old, new, faults in [
        ("as it is", "", "", 0), ("with a vertex less", "6 10 10 0 10 0 0", "5 10 10 0 10", 0), ("of another step", "slice 1", "slice 0", 1),
         ("with another face", "face 3", "face 4", 1),
        ("with another class", "face 3 0", "face 3 1", 1), ("with another side", "edge 0 3", "edge 0 2", 1), ("with another key", "edge 0", "edge 1", 1),
        ("without its edge", good[25:-4], "edges 0\n", 1), ("with another point", "20 0", "21 0", 1),
         ("with two points in another order", "0 10 0 0", "0 0 0 10", 1),
        ("that begins elsewhere", "6 10 10 0", "5 0", 1), ("that ends elsewhere", "6 10 10 0 10 0 0 20 0 20 10 10 10", "5 10 10 0 10 0 0 20 0 20 10", 1),
        ("with another count", "0 6 10", "0 5 10", 1),
    ]:
        assert old in good, old
        text = good.replace(old, new, 1)
        tests.same(f"a slice {name}", len(judged(TWO, LIMIT, [talk(0, got("/slice/1", 0, text.encode()))])), faults)
    for number, faults in [(120, 0), (121, 1)]:
        wrong = refused(0, b"move 10 0 10 12\n", b"refused 15 meets 0 2 1000 1200 %d\n" % number)
        tests.same(f"a map that is refused by {number}", len(judged(TWO, LIMIT, [talk(0, wrong)])), faults)


def lies(tests):
    """Three servers that lie: each reply of them would be right of some map at some time."""
    nobody = talk(0, info(0), stale(0, 1), pinned(1), stale(1, 2), pinned(2), stale(2, 3), pinned(3), full(3, 4))
    tests.same("no edit is ever published", judged(FOUR, LIMIT, [nobody]), ["version 1 is published by nobody"])
    tests.same("and for several clients", judged(FOUR, LIMIT, [nobody, nobody, talk(3, info(0), stale(0, 3))]), ["version 1 is published by nobody"])
    tests.same("a map that nobody sent", judged(FOUR, LIMIT, [talk(0, pinned(1), info(1, 21))]), ["version 1 is published by nobody"])
    beside = [FIRST, talk(20, pinned(1), info(1, 21))]
    tests.same("a map that nobody sent, beside one that was", judged(FOUR, LIMIT, beside), ["connection 2, request 2: /info is not answered as version 1 does"])
    same = ["connection 2, request 2: version 1 is told as published to connection 1, request 2 too"]
    tests.same("two that published one version by one batch", judged(FOUR, LIMIT, [FIRST, FIRST]), same)


TESTS = [rules, removed_vertices, lies]
