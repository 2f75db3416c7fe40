"""What the front server writes down of edits: who sent which batch, when, and what came of it."""
import json
import pathlib
import signal
import tempfile

from front import COLUMBUS, HISTORY, Front, Program, exchanged, until
from large_map import LARGE, written

OWN_BATCH = b"class 1 0\n"
# The longest body that the program takes.
LONGEST = 1_048_576


def kept(front):
    """The batches that the front server has written down."""
    return [json.loads(line) for line in (front.room / "log/batches.log").read_bytes().decode("utf-8", "surrogateescape").splitlines()]


def told(rows):
    return [(row["history"], row["status"], row["version"], row["editor"]) for row in rows]


def edits_of_a_town(tests):
    """Each batch that goes to the program stands in the log, with what came of it."""
    with Program(tests.executable, COLUMBUS) as program, Front(program.port) as front:
        x, y = next(line for line in front.ask("GET", "/map/slice/0").text.decode().splitlines() if line.startswith("edge ")).split()[5:7]
        batches = [f"move {x} {y} {int(x) + 1} {y}\n".encode(), b"no line\n", b"\xff\n", b"class 2 2\n", b""]
        for batch in batches:
            front.edit(batch)
        front.ask("POST", "/map/edit", OWN_BATCH)
        # A line of the log is written when its reply was sent.
        until(lambda: len(kept(front)) >= len(batches))
        wanted = [(HISTORY, "200", "1", "anna"), (HISTORY, "422", "1", "anna"), (HISTORY, "422", "1", "anna"), (HISTORY, "200", "2", "anna"), (HISTORY, "200", "3", "anna")]
        tests.same("which edits are written down", told(kept(front)), wanted)
        tests.same("and whole", [row["batch"].encode("utf-8", "surrogateescape") for row in kept(front)], batches)
        bodies(tests, front)


def bodies(tests, front):
    tests.same("an edit of 20 KB", front.edit(OWN_BATCH * 2000).told, (200, b"published 4\n"))
    tests.same("it is written down whole", until(lambda: kept(front)[-1]["batch"] == (OWN_BATCH * 2000).decode()), True)
    lines = LONGEST // len(OWN_BATCH) - 6
    longest = OWN_BATCH * lines + b"class 10 0\n" * 6
    tests.same("the length of the longest body", len(longest), LONGEST)
    tests.same("the longest body", front.edit(longest).told, (200, b"published 5\n"))
    tests.same("a body with one byte more", front.edit(longest + b"\n").told, (413, b"too long\n"))


def lost_replies(tests):
    """A reply that is late, or that the end of the program takes away: the batch is written down without a version."""
    with tempfile.TemporaryDirectory() as room:
        with Program(tests.executable, [written(room, LARGE)]) as program, Front(program.port, hasty) as front:
            tests.same("a reply that is late", front.edit(b"move 2 1 2 2\n").told, (504, b"no reply in time\n"))
            tests.holds("its edit is published", until(lambda: front.version() == 1))
            tests.same("it is written down as one without reply", until(lambda: told(kept(front))), [(HISTORY, "504", "", "anna")])
            halt(program.process)
            tests.same("another one", front.edit(b"move 6 1 6 2\n").status, 504)
            program.process.send_signal(signal.SIGKILL)


def halt(process):
    """Has a process do nothing from here on. Its threads stop one after the other."""
    process.send_signal(signal.SIGSTOP)
    threads = pathlib.Path(f"/proc/{process.pid}/task")
    until(lambda: all(" T " in (thread / "stat").read_text() for thread in threads.iterdir()))


def hasty(text):
    return exchanged(text, [("proxy_read_timeout 120s;", "proxy_read_timeout 50ms;")])
