"""Allocations that are refused, one in each life of the program: a start ends with want of memory, or an edit is told so and not stored."""
import contextlib
import http.client
import select

from keeper import DOWN, MOVE, SQUARES, UP, a_folder, ask, folded, goes_on, journal
from lib import SECONDS, free_port
from refusing import Refusing, make_library

BEFORE, BATCHES = [UP, b""], [MOVE, DOWN]
WANT, WANTED = (7, b"memory\n"), (503, b"memory\n")
# Each so many of them is refused.
EVERY, MOST = 7, 5000


def answers(port):
    """The status and the text of the replies to the batches, each of which is sent again where memory was wanting; and how often it was."""
    told, refused = [], 0
    client = http.client.HTTPConnection("127.0.0.1", port, timeout=SECONDS)
    with contextlib.closing(client):
        for batch in BATCHES:
            for _ in range(2):
                try:
                    status, _, text, _ = ask(client, "POST", "/edit", batch)
                except (ConnectionError, http.client.HTTPException):
                    # A connection for which there is no memory ends before its first reply.
                    status, text = WANTED if not told and not refused else ("no reply", b"")
                    client.close()
                refused += (status, text) == WANTED
                if (status, text) != WANTED:
                    break
            told.append((status, text))
    return told, refused


def a_life(refusing, path, port, call):
    """What is wrong with a life in which this allocation is refused."""
    path.write_bytes(journal(*BEFORE))
    process = refusing.start(["keep", str(SQUARES), str(path), str(port), "2", "8"], call)
    try:
        select.select([process.stdout], [], [], SECONDS)
        said = process.stdout.readline()
        if said != b"serving %d\n" % port:
            got = process.wait(SECONDS), said
            return ([] if got == WANT else [f"the start gives {got}"]) + kept(path, BEFORE)
        told, refused = answers(port)
        wanted = [(200, b"published %d\n" % number) for number in (3, 4)]
        return ([] if told == wanted and refused <= 1 else [f"{told}, {refused} times without memory"]) + kept(path, [*BEFORE, *BATCHES])
    finally:
        process.terminate()
        process.wait(SECONDS)
        process.stdout.close()


def kept(path, batches):
    found = folded(path.read_bytes())
    return [] if found == batches else [f"the journal comes to {found}"]


def refused_allocations(tests):
    with a_folder() as folder:
        make_library(folder)
        path, port, refusing = folder / "journal", free_port(), Refusing(tests.executable, folder, "alloc")
        for call in range(1, MOST, EVERY):
            faults = a_life(refusing, path, port, call)
            tests.tell(f"allocation {call} is refused", faults)
            if not refusing.has_come():
                break
        tests.within("the allocations of a start and two edits", call, 300, MOST - EVERY)
        tests.tell("the journal after them", goes_on(tests, path, [*BEFORE, *BATCHES], b"class 1 0\n", port=port))


TESTS = [refused_allocations]
