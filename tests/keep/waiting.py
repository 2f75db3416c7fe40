"""Readers do not wait for an edit that is being kept, neither those that are connected nor those that come. The times are measured by a process of its own,
tests/keep/waiting.py PORT SECONDS, which prints the medians in milliseconds: that of requests on one connection, and that of new connections."""
import contextlib
import json
import pathlib
import statistics
import subprocess
import sys
import threading
import time

sys.path.insert(0, str(pathlib.Path(__file__).resolve().parent))
from keeper import SQUARES, Keeper, a_disk, ask  # noqa: E402
from lib import SECONDS, arc_text, bent_grid, connected, listing, received, request  # noqa: E402

# A sync takes so many milliseconds, where the disk is slow. A reader is asked for so many seconds.
SYNC, SPAN, TRIES = 100, 2.0, 3
# What a reply may take beside that of a server where nobody edits: in milliseconds, or as a share.
MOST, SHARE = 5, 1.1
# Edits of any map that has a point there, one after the other; and cells a side of a map of which each edit takes a while.
THERE, BACK, SIDE = b"move 0 0 -1 0\n", b"move -1 0 0 0\n", 44


def info(one, close=False):
    one.sendall(request("GET", "/info", b"", *(["Connection: close"] if close else [])))
    return received(one)[0] if close else one.recv(65536)


def measured(port, seconds):
    """The medians of both kinds of reader, who ask in turn with pauses."""
    taken, until = {"connected": [], "new": []}, time.monotonic() + seconds
    with connected(port) as kept:
        info(kept)
        while time.monotonic() < until:
            begun = time.monotonic()
            info(kept)
            taken["connected"].append(time.monotonic() - begun)
            begun = time.monotonic()
            with connected(port) as one:
                info(one, close=True)
            taken["new"].append(time.monotonic() - begun)
            time.sleep(0.005)
    return {name: 1000 * statistics.median(times) for name, times in taken.items()}


def asked(port):
    words = [sys.executable, __file__, str(port), str(SPAN)]
    return json.loads(subprocess.run(words, capture_output=True, check=True, timeout=SECONDS).stdout)


class Editing:
    """A client that edits all the time, in a thread."""

    def __init__(self, server):
        self.server, self.over, self.replies = server, threading.Event(), []
        self.thread = threading.Thread(target=self.edit, daemon=True)

    def edit(self):
        with contextlib.closing(self.server.client()) as client:
            while not self.over.is_set() and len(self.replies) < 60:
                self.replies.append(ask(client, "POST", "/edit", BACK if len(self.replies) % 2 else THERE)[0])

    def __enter__(self):
        self.thread.start()
        return self

    def __exit__(self, *_):
        self.over.set()
        self.thread.join(SECONDS)


def readers_beside_an_editor(tests, name, disk, least, base=SQUARES, **how):
    """The times of readers alone, and beside an editor, who has published so many versions at least when they are told."""
    alone, beside = {"connected": [], "new": []}, {"connected": [], "new": []}
    for _ in range(TRIES):
        disk.file.unlink(missing_ok=True)
        with Keeper(tests, disk.file, workers=4, versions=64, base=base, **how) as server:
            for told in alone, beside:
                with Editing(server) if told is beside else contextlib.nullcontext() as editor:
                    for kind, median in asked(server.port).items():
                        told[kind].append(median)
        if all(min(beside[kind]) <= max(MOST, SHARE * min(alone[kind])) for kind in beside):
            break
    tests.same(f"{name}: the edits are published", set(editor.replies), {200})
    tests.within(f"{name}: edits", len(editor.replies), least, 60)
    for kind in beside:
        tests.within(f"{name}: the milliseconds of a {kind} reader, alone {min(alone[kind]):.2f}", min(beside[kind]), 0, max(MOST, SHARE * min(alone[kind])))


def a_slow_disk(tests):
    with a_disk() as disk:
        readers_beside_an_editor(tests, "a slow disk", disk, 4, env=disk.surroundings("slow", 0, SYNC))


def a_map_that_takes_a_while(tests):
    faces, _, arcs = bent_grid(SIDE)
    with a_disk() as disk:
        base = disk.folder / "map"
        base.write_bytes(listing(faces, [arc_text(*arc) for arc in arcs]))
        readers_beside_an_editor(tests, "a map that takes a while", disk, 2, base=base)


TESTS = [a_slow_disk, a_map_that_takes_a_while]

if __name__ == "__main__":
    print(json.dumps(measured(int(sys.argv[1]), float(sys.argv[2]))))
