"""Calls whose allocations are refused one after the other: each ends with want of memory, or as it does with all of its memory."""
import subprocess
import sys

from kept import SECONDS, TOP, TRIALS, Room, entry

sys.path[:0] = [str(TOP / "tests/sweep"), str(TOP / "bench")]
from maps import bent_cells, nested_rings, write  # noqa: E402
from refusing import Refusing, make_library  # noqa: E402

WANT = 7
# A call that is refused more allocations than this one takes has an end somewhere.
MOST = 5000


def refused_one_by_one(tests, name, folder, words, wanted, before=lambda: None):
    """Refuses the first allocation, the second, and so on, until all are had."""
    calls = Refusing(TRIALS, folder, "alloc")
    for call in range(1, MOST):
        before()
        with calls.start(words, call) as program:
            text, _ = program.communicate(timeout=SECONDS)
        if not calls.has_come():
            tests.same(f"{name} with all of its memory", (program.returncode, text), wanted)
            tests.tell(f"{name} takes memory", [] if call > 5 else [f"{call} allocations alone"])
            return
        faults = [] if program.returncode == WANT and wanted[1].startswith(text) or (program.returncode, text) == wanted else [f"status {program.returncode}, {text!r}"]
        tests.tell(f"{name} without allocation {call}", faults)
    tests.tell(name, ["it has no end"])


def whole(words):
    """What a call comes to with all of its memory."""
    ended = subprocess.run([TRIALS, *words], capture_output=True, timeout=SECONDS, stdin=subprocess.DEVNULL, check=False)
    return ended.returncode, ended.stdout


def want_of_memory(tests):
    with Room() as disk:
        folder = disk.folder
        make_library(folder)
        write(folder / "cells", bent_cells, 2, 16)
        write(folder / "rings", nested_rings, 3, 0)
        for name, words in [
            ("a node", ["node", "cells", "2", "1"]), ("a fusion", ["fuse", "cells", "1", "2"]), ("a cut", ["cut", "cells", "1", "0", "0", "0", "4", "4"]),
            ("a refused cut", ["cut", "rings", "1", "0", "0", "0", "1", "1"]), ("a packet of a window", ["window-packet", "cells", "3", "0", "0", "0", "5", "5"]),
        ]:
            words = [words[0], str(folder / words[1]), *words[2:]]
            refused_one_by_one(tests, name, folder, words, whole(words))


def a_journal_without_memory(tests):
    """What was there stays, and at most the batch that was under way is there as well."""
    start = entry(1, b"class 1 2\n") + b"\0"
    with Room() as disk:
        make_library(disk.folder)
        words = ["append", str(disk.file), "class 2 1\n"]
        disk.write(start)
        wanted = whole(words)
        after = disk.file.read_bytes()
        refused_one_by_one(tests, "an append", disk.folder, words, wanted, lambda: disk.write(start))
        tests.same("the journal afterwards", disk.file.read_bytes(), after)


TESTS = [want_of_memory, a_journal_without_memory]
