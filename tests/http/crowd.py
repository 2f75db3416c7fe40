"""Many readers and editors at once: one chain of published versions, no pin falls, nothing acknowledged is lost."""
import concurrent.futures
import contextlib
import http.client
import re
import threading

from lib import SECONDS, TOP, Server, ask

FOUR = TOP / "examples/four_squares.tgap"
READERS, EDITORS, ROUNDS, VERSIONS = 32, 32, 4, 64


def corner(text):
    """How far to the right the map reaches."""
    return max(int(x) for line in text.decode().splitlines() if line.startswith("edge ") for x in line.split()[5::2])


class Crowd:
    def __init__(self, server):
        self.server = server
        self.published, self.wrong, self.texts, self.lock = [], [], {}, threading.Lock()

    def guarded(self, work):
        try:
            for _ in range(ROUNDS):
                work()
        except (OSError, http.client.HTTPException, AssertionError, ValueError) as error:
            with self.lock:
                self.wrong.append(repr(error)[:200])

    def read(self):
        """One connection that reads, pins, and reads: each version has one text, and no pin falls."""
        client, pinned = self.server.client(), -1
        for path in ["/slice/0", "/info", "/slice/3", "/slice/0"]:
            status, version, text, _ = ask(client, "GET", path)
            assert status == 200 and version >= pinned, (status, version, pinned)
            with self.lock:
                assert self.texts.setdefault((version, path), text) == text, (version, path)
            if path == "/slice/0":
                assert corner(text) == 20 + version, (corner(text), version)
            pinned = ask(client, "POST", f"/pin/{version}")[1]
            assert pinned >= version, (pinned, version)
        client.close()

    def edit(self):
        """One connection that moves the corner by one, from the newest version, until it is published or none may be."""
        client = self.server.client()
        pinned = ask(client, "GET", "/info")[1]
        for _ in range(VERSIONS):
            batch = f"move {20 + pinned} 0 {21 + pinned} 0\n".encode()
            status, version, text, _ = ask(client, "POST", "/edit", batch)
            assert version >= pinned, (version, pinned)
            if status == 200:
                assert text == f"published {version}\n".encode() and version == pinned + 1, text
                with self.lock:
                    self.published.append(version)
                break
            if status == 507:
                break
            assert status == 409 and re.fullmatch(rb"stale [0-9]+\n", text), (status, text)
            seen = int(text.split()[1])
            assert seen > pinned, (seen, pinned)
            pinned = ask(client, "POST", f"/pin/{seen}")[1]
            assert pinned >= seen, (pinned, seen)
        client.close()


def a_crowd(tests):
    with Server(tests.executable, FOUR, 16, VERSIONS) as server:
        crowd = Crowd(server)
        works = [crowd.read] * READERS + [crowd.edit] * EDITORS
        threads = [threading.Thread(target=crowd.guarded, args=(work,), daemon=True) for work in works]
        for thread in threads:
            thread.start()
        for thread in threads:
            thread.join(SECONDS)
        tests.same("what went wrong in a crowd", crowd.wrong, [])
        tests.same("one chain of versions", sorted(crowd.published), list(range(1, len(crowd.published) + 1)))
        tests.same("as many as there may be", len(crowd.published), VERSIONS - 1)
        client = server.client()
        tests.same("the newest is the last that was published", ask(client, "POST", "/pin")[1], len(crowd.published))
        # Each edit moved the corner at the right by one; none of them may be missing.
        tests.same("nothing is lost", corner(ask(client, "GET", "/slice/0")[2]), 20 + len(crowd.published))
        client.close()


def sixteen_editors(tests):
    """Sixteen clients that pinned the first version send an edit, in turn and at once: one is published, and the others are
    stale."""
    batch = b"move 20 0 21 0\n"

    def edit(client):
        return ask(client, "POST", "/edit", batch)[:3]

    for name, way in [("in turn", map), ("at once", concurrent.futures.ThreadPoolExecutor(16).map)]:
        with Server(tests.executable, FOUR, 16, VERSIONS) as server, contextlib.ExitStack() as stack:
            clients = [stack.enter_context(contextlib.closing(server.client())) for _ in range(16)]
            tests.same(f"sixteen pins {name}", [ask(client, "GET", "/info")[1] for client in clients], [0] * 16)
            answers = list(way(edit, clients))
            wanted = [(200, 1, b"published 1\n"), *[(409, 0, b"stale 1\n")] * 15]
            tests.same(f"sixteen edits {name}", answers if way is map else sorted(answers), wanted)
            tests.same(f"sixteen newest versions {name}", [ask(client, "POST", "/pin")[1] for client in clients], [1] * 16)


TESTS = [a_crowd, sixteen_editors]
