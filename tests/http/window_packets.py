"""Packets of windows over HTTP: each refusal, in any order of two faults; every text beside a plain reader's, and undone by a plain client."""
import itertools
import random
import sys
import tempfile

from lib import TOP, Server, ask, asked_once

sys.path[:0] = [str(TOP / "tests/sweep"), str(TOP / "tests/trials")]
from plain_windows import packet_text, read_packet, undone, window, window_text  # noqa: E402
from windows import MAPS, Whole, some_steps, some_window  # noqa: E402

MAP = TOP / "examples/two_squares.tgap"
ROW = b"window-packet 1 0 12 2 30 4\nstep 1 1 2 3 1 1 0\nface 2 0\nmend 0 1 2\nput 3 10 0\npiece 0 3 1 0\npiece 1 6 2 0\nend\n"
PACKETS = 200


def rows_and_refusals(tests):
    with Server(tests.executable, MAP, 1, 2) as server:
        client = server.client()
        tests.same("a packet of a window", ask(client, "GET", "/window-packet/1/0/12/2/30/4")[:3], (200, 0, ROW))
        tests.same("with a query", ask(client, "GET", "/window-packet/1/0/12/2/30/4?x=1")[:3], (200, 0, ROW))
        tests.same("of no step", ask(client, "GET", "/window-packet/1/1/0/0/0/0")[:3], (200, 0, b"window-packet 1 1 0 0 0 0\nend\n"))
        for method, path, status, text in [
            ("GET", "/window-packet/1/0/12/2/30", 404, b"no route\n"), ("GET", "/window-packet/1/0/12/2/30/4/5", 404, b"no route\n"),
            ("GET", "/window-packet", 404, b"no route\n"), ("POST", "/window-packet/1/0/12/2/30/4", 405, b"wrong method\n"),
            ("DELETE", "/window-packet/x/0/12/2/30/4", 405, b"wrong method\n"), ("GET", "/window-packet/0/1/0/0/9/9", 400, b"not coarser 0 1\n"),
            ("GET", "/window-packet/2/0/0/0/9/9", 400, b"step too high 1\n"), ("GET", "/window-packet/2/3/0/0/9/9", 400, b"not coarser 2 3\n"),
        ]:
            tests.same(f"{method} {path}", ask(client, method, path)[:3], (status, 0, text))
        bad = {0: "01", 1: "4294967296", 2: "2147483649", 3: "+1", 4: "-0", 5: "x"}
        for place, steps in itertools.product(bad, [("1", "0"), ("0", "1"), ("2", "0")]):
            words = [*steps, "0", "0", "9", "9"]
            words[place] = bad[place]
            path = "/window-packet/" + "/".join(words)
            tests.same(path, ask(client, "GET", path)[:3], (400, 0, b"bad number\n"))
        for ends, steps in itertools.product(["9/0/0/9", "0/9/9/0", "9/9/0/0"], ["1/0", "0/1", "2/0"]):
            tests.same(f"{steps} {ends}", ask(client, "GET", f"/window-packet/{steps}/{ends}")[:3], (400, 0, b"bad number\n"))
        tests.same("it goes on", ask(client, "GET", "/window-packet/1/0/12/2/30/4")[:3], (200, 0, ROW))
        client.close()


def read_from_the_pin(tests):
    """A connection that pinned a version is given the packet of that version, also when another one is there."""
    with Server(tests.executable, MAP, 2, 4) as server:
        kept = server.client()
        ask(kept, "GET", "/info")
        tests.same("an edit", asked_once(server, "POST", "/edit", b"move 20 10 24 10\n")[:3], (200, 1, b"published 1\n"))
        tests.same("of the version before", ask(kept, "GET", "/window-packet/1/0/12/2/30/4")[:3], (200, 0, ROW))
        status, version, text = asked_once(server, "GET", "/window-packet/1/0/22/2/30/14")
        tests.same("of the new version", (status, version, text.split(b"\n")[0]), (200, 1, b"window-packet 1 0 22 2 30 14"))
        kept.close()


def random_packets(tests):
    """Of maps whose vertices go, the reply is the text of the definition, and leads from one window that is served to the other."""
    chance = random.Random(58)
    with tempfile.TemporaryDirectory() as folder:
        for number, (shape, size, ratio) in enumerate(MAPS):
            whole = Whole(tests.executable, f"{folder}/{number}", shape, size, ratio)
            with Server(tests.executable, whole.path, 1, 1) as server:
                client = server.client()
                for _ in range(PACKETS // len(MAPS)):
                    area, (first, last) = some_window(chance, whole), some_steps(chance, whole)
                    path = f"/window-packet/{first}/{last}/{'/'.join(map(str, area))}"
                    status, _, text = ask(client, "GET", path)[:3]
                    tests.same(f"{shape.__name__} {path}", (status, text), (200, packet_text(area, first, last, whole.records, whole.slices)))
                    ends = "/".join(map(str, area))
                    coarse, fine = (ask(client, "GET", f"/window/{step}/{ends}")[2] for step in (first, last))
                    found = window(area, whole.slices[first])
                    tests.same(f"the window at {first}", window_text(area, found), coarse)
                    for record in read_packet(text)[2]:
                        found = undone(area, found, record)
                    tests.same(f"the window at {last}", window_text(area, found), fine)
                client.close()


TESTS = [rows_and_refusals, read_from_the_pin, random_packets]
