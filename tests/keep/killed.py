"""The program is killed in the middle of a stream of edits, again and again, and started anew each time: what was acknowledged is in the map that is
served then, in its order, and at most one edit more; and the history goes on from there."""
import contextlib
import http.client
import random
import threading
import time

from keeper import Keeper, a_folder, entries, faults_kept, faults_served, folded
from lib import SECONDS, arc_text, ask, free_port, grid, listing

KILLS, CLIENTS, SIDE, UNIT = 20, 8, 9, 10
VERSIONS, WORKERS = 64, CLIENTS + 1
# A life ends before the versions do, and then another journal is begun. Where the kill comes late, on a machine that is busy, they may end before it.
MOST_OF_LIFE = 12
FULL = 507, VERSIONS - 1, b"versions full %d\n" % VERSIONS
# The kill comes anywhere in a span of some edits: so many seconds at least.
LEAST_SPAN = 0.03


def a_grid():
    """Square cells with a vertex in each corner, of which those inside may be moved by some units without a harm."""
    faces, _, arcs = grid(SIDE)
    return listing(faces, [arc_text(left, right, [(UNIT * x, UNIT * y) for x, y in points]) for left, right, points in arcs], ratio=0)


def moved(batch):
    """Where a batch moves a vertex from, and to."""
    x, y, to_x, to_y = map(int, batch.split()[1:])
    return (x, y), (to_x, to_y)


class Life:
    """The program from a start to a kill, with its clients, each of which moves the vertices of a column of its own. What was acknowledged is kept with the
    number that was told, and what a client had sent when it lost its connection."""

    def __init__(self, server, batches, chance):
        self.server, self.chance, self.lock = server, chance, threading.Lock()
        self.acknowledged, self.under_way, self.wrong, self.stale = [], [], [], 0
        self.places = {(UNIT * x, UNIT * y): (UNIT * x, UNIT * y) for x in range(1, CLIENTS + 1) for y in range(1, SIDE)}
        for start, end in map(moved, batches):
            home = next(home for home, place in self.places.items() if place == start)
            self.places[home] = end
        self.threads = [threading.Thread(target=self.client, args=(number, random.Random(chance.random())), daemon=True) for number in range(1, CLIENTS + 1)]

    def client(self, number, chance):
        batch = None
        try:
            with contextlib.closing(self.server.client()) as client:
                ask(client, "GET", "/info")
                while True:
                    home = UNIT * number, UNIT * chance.randrange(1, SIDE)
                    batch = self.a_move(home, chance)
                    if not self.sent(client, home, batch):
                        return
        except (OSError, http.client.HTTPException) as error:
            with self.lock:
                self.under_way += [batch] if batch else []
                # Whoever is told less than a reply is told so by its end.
                self.wrong += [] if isinstance(error, (ConnectionError, http.client.HTTPException)) else [repr(error)]

    def a_move(self, home, chance):
        place = self.places[home]
        to = place
        while to == place:
            to = home[0] + chance.randint(-2, 2), home[1] + chance.randint(-2, 2)
        return b"move %d %d %d %d\n" % (*place, *to)

    def sent(self, client, home, batch):
        """Sends an edit until it is published. One that is stale is pinned anew and sent again."""
        while True:
            status, version, text, _ = ask(client, "POST", "/edit", batch)
            with self.lock:
                if status == 200:
                    self.acknowledged.append((version, batch))
                    self.places[home] = moved(batch)[1]
                    self.wrong += [] if text == b"published %d\n" % version else [f"{text} of version {version}"]
                    return True
                if (status, version, text) == FULL:
                    return False
                self.stale += 1
                if status != 409 or not text.startswith(b"stale "):
                    self.wrong.append(f"{batch} is answered by {status} {text}")
                    return False
            ask(client, "POST", f"/pin/{int(text.split()[1])}")

    def killed(self):
        """Kills the program some time after so many edits were acknowledged."""
        begun, wanted = time.monotonic(), self.chance.randint(0, MOST_OF_LIFE - 2)
        for thread in self.threads:
            thread.start()
        while len(self.acknowledged) < wanted and time.monotonic() - begun < SECONDS and not self.wrong:
            time.sleep(0.0005)
        time.sleep(self.chance.random() * max(LEAST_SPAN, 2 * (time.monotonic() - begun) / (wanted + 1)))
        self.server.process.kill()
        self.server.process.wait()
        for thread in self.threads:
            thread.join(SECONDS)


class Found:
    """What came of all kills."""

    def __init__(self):
        self.kills = self.acknowledged = self.stale = self.more = self.cut = self.journals = 0

    def take(self, life, before, batches, behind):
        self.kills, self.acknowledged, self.stale = self.kills + 1, self.acknowledged + len(life.acknowledged), self.stale + life.stale
        self.more += len(batches) > len(before) + len(life.acknowledged)
        self.cut += any(behind)

    def __str__(self):
        return (f"{self.kills} kills in {self.journals} journals: {self.acknowledged} edits were acknowledged, {self.stale} sent again since they were stale; "
                f"{self.more} times one edit more was kept, {self.cut} times a part of one stood behind the entries")


def one_life(tests, name, path, port, base, chance, found):
    """From a start to the kill. The batches of the journal then."""
    before = folded(path.read_bytes()) if path.exists() else []
    with Keeper(tests, path, workers=WORKERS, versions=VERSIONS, base=base, port=port) as server:
        faults = faults_served(server, base.read_bytes(), before)
        life = Life(server, before, chance)
        life.killed()
    data = path.read_bytes()
    batches = folded(data)
    faults += life.wrong + faults_kept(batches, before, sorted(life.acknowledged), life.under_way)
    found.take(life, before, batches, data[entries(data)[1] :])
    tests.tell(name, faults[:3])
    return batches


def kills(tests, count, seed=0):
    """So many of them."""
    found, chance = Found(), random.Random(seed)
    with a_folder() as folder:
        base, port = folder / "map", free_port()
        base.write_bytes(a_grid())
        batches = [b""] * VERSIONS
        for number in range(1, count + 1):
            if len(batches) > VERSIONS - 2 * MOST_OF_LIFE:
                found.journals += 1
                path = folder / f"journal{found.journals}"
            batches = one_life(tests, f"kill {number}", path, port, base, chance, found)
        with Keeper(tests, path, workers=WORKERS, versions=VERSIONS, base=base, port=port) as server:
            tests.tell("what is served in the end", faults_served(server, base.read_bytes(), batches))
    print(found, flush=True)
    tests.within("edits that were acknowledged", found.acknowledged, count, count * VERSIONS)
    return found


def so_many(count):
    """The test of so many kills."""

    def programs_that_are_killed(tests):
        kills(tests, count)

    return programs_that_are_killed


TESTS = [so_many(KILLS)]
