"""Small replies come at once. A server that leaves it to the system to gather bytes sends the second of two parts only
when the first one is acknowledged, and a client's system waits for 40 milliseconds with that.

The times are measured by a process of its own, tests/http/prompt.py PORT, since in the one of the tests many threads
want the interpreter. It prints the medians in milliseconds."""
import json
import pathlib
import statistics
import subprocess
import sys
import time

sys.path.insert(0, str(pathlib.Path(__file__).resolve().parents[1]))
from lib import SECONDS, TOP, Server, connected, reply, request  # noqa: E402

MAP = TOP / "examples/two_squares.tgap"
INFO, PIN = b"version 0 steps 1 faces 2 arcs 3 points 10\n", b"pin 0\n"
TIMES, MOST, TRIES = 50, 20, 3
# What is sent at once, and what comes for it.
ASKED = {
    "/info": (request("GET", "/info"), reply(200, "OK", 0, INFO)),
    "/pin": (request("POST", "/pin"), reply(200, "OK", 0, PIN)),
    "/info and /pin at once": (request("GET", "/info") + request("POST", "/pin"), reply(200, "OK", 0, INFO) + reply(200, "OK", 0, PIN)),
}


def median(port, sent, wanted):
    """The median of the milliseconds that a reply takes, over one kept connection."""
    taken = []
    with connected(port) as one:
        for _ in range(TIMES):
            begun, came = time.monotonic(), b""
            one.sendall(sent)
            while len(came) < len(wanted) and (data := one.recv(65536)):
                came += data
            taken.append(1000 * (time.monotonic() - begun))
            if came != wanted:
                raise OSError(f"got {came!r}")
    return statistics.median(taken)


def small_replies(tests):
    """The least of a few medians, so that a loaded machine passes: what waits for an acknowledgement waits each
    time."""
    with Server(tests.executable, MAP, 1, 1) as server:
        found = {name: [] for name in ASKED}
        while len(found["/info"]) < TRIES and any(not some or min(some) > MOST for some in found.values()):
            words = [sys.executable, __file__, str(server.port)]
            told = json.loads(subprocess.run(words, capture_output=True, check=True, timeout=SECONDS).stdout)
            for name in found:
                found[name].append(told[name])
    for name, some in found.items():
        tests.within(f"the milliseconds of {name}, the median of {TIMES} over one connection", min(some), 0, MOST)


TESTS = [small_replies]

if __name__ == "__main__":
    print(json.dumps({name: median(int(sys.argv[1]), *both) for name, both in ASKED.items()}))
