"""64 clients at a server, whose exchanges are judged as a whole by the recorder; and the same with one reply changed, which it
refuses. tests/sweep/long_run has more requests."""
import collections
import http.client
import random
import threading

from lib import SECONDS, TOP, Server
from model import slice_of
from recorder import Recorder, judged
from transcripts import FOUR

MAP = TOP / "examples/four_squares.tgap"
CLIENTS, WORKERS, VERSIONS, REQUESTS = 64, 16, 64, 8000
# Three batches at fault in a line, and one that leaves no planar partition.
BAD = [b"drop 10", b"move 10 10 10 10\n", b"move 10 0 10 15\n", b"class 5 0\n"]
PATHS = ["/info", "/slice/0", "/slice/1", "/slice/2", "/slice/3", "/slice/4", "/window/1/0/0/9/9", "/packet/3/0", "/packet/2/1", "/packet/0/1", "/topo/2",
         "/window-packet/3/1/0/0/12/2"]


class Crowd:
    """Clients that read and edit until so many requests were sent. Versions are published over all that time."""

    def __init__(self, server, requests):
        self.recorder, self.requests, self.sent, self.wrong, self.lock = Recorder(server), requests, 0, [], threading.Lock()

    def count(self):
        with self.lock:
            self.sent += 1
            return self.sent

    def is_due(self, version):
        """Whether a version may be published by now: the last of them when a tenth is left."""
        return self.sent * VERSIONS * 10 >= version * self.requests * 9

    def client(self, number):
        """A client that comes again and again, and remembers the newest version that it was told."""
        chance, seen = random.Random(number), 0
        while self.sent < self.requests:
            try:
                with self.recorder.connection() as connection:
                    for _ in range(chance.randint(1, 24)):
                        if self.sent >= self.requests:
                            return
                        seen = max(seen, self.one(chance, connection, seen).version)
            except (OSError, http.client.HTTPException, ValueError) as error:
                with self.lock:
                    self.wrong.append(repr(error)[:200])
                return

    def one(self, chance, connection, seen):
        self.count()
        way = chance.randrange(8)
        if way < 3:
            return connection.ask("GET", chance.choice(PATHS))
        if way < 5:
            return connection.ask("POST", "/pin" if way == 3 else f"/pin/{seen + chance.randrange(2)}")
        if way == 5:
            return connection.ask("POST", "/edit", chance.choice(BAD))
        return self.edit(chance, connection)

    def edit(self, chance, connection):
        """A good batch on the version that is pinned, where it may be published by now: a corner moves away from the middle."""
        read = connection.ask("GET", "/slice/0")
        if not self.is_due(read.version + 1):
            return read
        self.count()
        edge = slice_of(read.text).edges[chance.randrange(4)]
        x, y = edge[2][1]
        to = tuple(chance.randint(20, 60) if one > 10 else chance.randint(-40, 0) for one in (x, y))
        return connection.ask("POST", "/edit", b"move %d %d %d %d\n" % (x, y, *to) if to != (x, y) else b"")


def crowded(server, requests):
    """What such a crowd has done."""
    crowd = Crowd(server, requests)
    threads = [threading.Thread(target=crowd.client, args=(number,), daemon=True) for number in range(CLIENTS)]
    for thread in threads:
        thread.start()
    for thread in threads:
        thread.join(SECONDS + requests // 100)
    return crowd


def kinds(connections):
    """How many replies there are of each kind to who edits or pins."""
    every = (exchange for exchanges in connections for exchange in exchanges)
    return collections.Counter(exchange.text.split()[0].decode() for exchange in every if exchange.method == "POST" and exchange.text)


def a_recorded_crowd(tests, requests=REQUESTS):
    with Server(tests.executable, MAP, WORKERS, VERSIONS) as server:
        crowd = crowded(server, requests)
    connections = crowd.recorder.connections
    tests.same("what broke off in a recorded crowd", crowd.wrong, [])
    tests.within("exchanges that were recorded", crowd.recorder.count(), requests, requests + 2 * CLIENTS)
    tests.same("what the recorder refuses of a real crowd", judged(FOUR, VERSIONS, connections)[:5], [])
    found = kinds(connections)
    tests.same("versions that were published", found["published"], VERSIONS - 1)
    for kind in ["stale", "versions", "behind", "pin", "edit", "refused"]:
        tests.within(f"replies that begin with {kind}", found[kind], 1, requests)
    changed(tests, connections)
    return crowd.recorder.count(), len(connections), found


# ---- one change of what was recorded


def places(connections, holds):
    return [(at, place) for at, exchanges in enumerate(connections) for place, exchange in enumerate(exchanges) if exchange.text and holds(exchange)]


def replaced(connections, at, **other):
    """The same exchanges, of which one has another reply."""
    where, place = at
    exchanges = [*connections[where]]
    exchanges[place] = exchanges[place]._replace(**other)
    return [*connections[:where], exchanges, *connections[where + 1 :]]


def changed(tests, connections):
    """What was recorded is refused once one reply is another one."""
    chance = random.Random(1)
    slices = places(connections, lambda one: one.path == "/slice/0")
    texts = {connections[at][place].version: connections[at][place].text for at, place in slices}
    a_slice = chance.choice(slices)
    other = next(text for text in texts.values() if text != connections[a_slice[0]][a_slice[1]].text)
    published = chance.choice(places(connections, lambda one: one.text.startswith(b"published")))
    number = connections[published[0]][published[1]].version
    stale = chance.choice(places(connections, lambda one: one.text.startswith(b"stale")))
    after = connections[stale[0]][stale[1]].version + 1
    for name, at, reply in [
        ("a slice is that of another version", a_slice, {"text": other}),
        ("a published batch is told as stale", published, {"status": 409, "version": number - 1, "text": b"stale %d\n" % number}),
        ("a stale batch is told as published", stale, {"status": 200, "version": after, "text": b"published %d\n" % after}),
        ("a published batch is another one", published, {"body": b"move 10 10 11 11\n"}),
        ("a version is told before the crowd came", published, {"received": 1}),
    ]:
        tests.same(f"a recorded crowd is refused where {name}", bool(judged(FOUR, VERSIONS, replaced(connections, at, **reply))), True)


TESTS = [a_recorded_crowd]
