"""A file that may not grow, as on a disk that gets full: an edit for which there is no room is refused, and with room again the next one is published."""
import contextlib
import resource
import signal

from keeper import DOWN, LEFT, MOVE, SQUARES, UP, Keeper, a_folder, ask, entries, faults_served, folded, goes_on, journal
from lib import SECONDS

# So many bytes the file may have, and a batch that is longer.
MOST = 4096
LONG = b"class 1 0\n" * 500


def limited(ignoring):
    """Limits the size of files. The system sends a signal beside the error, which ends a program that does not ignore it."""

    def limit():
        signal.signal(signal.SIGXFSZ, signal.SIG_IGN if ignoring else signal.SIG_DFL)
        resource.setrlimit(resource.RLIMIT_FSIZE, (MOST, MOST))

    return {"preexec_fn": limit, "restore_signals": False}


def a_batch_without_room(tests):
    with a_folder() as folder:
        path = folder / "journal"
        with Keeper(tests, path, **limited(True)) as server, contextlib.closing(server.client()) as client:
            told = [ask(client, "POST", "/edit", batch)[:3] for batch in (MOVE, LONG, LONG, DOWN)]
            fault = 500, 1, b"journal fault\n"
            tests.same("edits that have room, and that have none", told, [(200, 1, b"published 1\n"), fault, fault, (200, 2, b"published 2\n")])
            tests.tell("readers go on", faults_served(server, SQUARES.read_bytes(), [MOVE, DOWN]))
        tests.same("the file is as long as it may be", path.stat().st_size, MOST)
        tests.tell("with room again", goes_on(tests, path, [MOVE, DOWN], LONG))
        tests.tell("and again", goes_on(tests, path, [MOVE, DOWN, LONG], UP))


def no_room_at_all(tests):
    """A journal that fills the file: it is opened, each edit is refused, and none is lost."""
    fill = b"class 1 0\n" * ((MOST - 2 * 13 - len(MOVE) - 1) // 10)
    data = journal(MOVE, fill)
    with a_folder() as folder:
        path = folder / "journal"
        path.write_bytes(data)
        with Keeper(tests, path, **limited(True)) as server:
            tests.same("edits without room", [server.edit(batch) for batch in (DOWN, b"", LEFT)], [(500, 2, b"journal fault\n")] * 3)
            tests.same("an edit at fault", server.edit(MOVE), (422, 2, b"edit line 1 cause 3\n"))
        tests.same("what was there", path.read_bytes()[: len(data) - 1], data[:-1])
        tests.tell("with room again", goes_on(tests, path, [MOVE, fill], DOWN))


def a_signal(tests):
    """Where the signal is not ignored it ends the program, in the middle of an edit; what was acknowledged stays."""
    with a_folder() as folder:
        path = folder / "journal"
        with Keeper(tests, path, **limited(False)) as server:
            tests.same("an edit that has room", server.edit(MOVE), (200, 1, b"published 1\n"))
            try:
                told = server.edit(LONG)
            except ConnectionError:
                told = "no reply"
            status = server.process.wait(SECONDS) if told == "no reply" else None
        wanted = ("no reply", -signal.SIGXFSZ) if told == "no reply" else ((500, 1, b"journal fault\n"), None)
        tests.same("an edit without room", (told, status), wanted)
        tests.same("the entries", entries(path.read_bytes())[0], [(1, MOVE)])
        tests.tell("with room again", goes_on(tests, path, folded(path.read_bytes()), LONG))


TESTS = [a_batch_without_room, no_room_at_all, a_signal]
