"""The system's calls of one edit, as strace tells them: the journal is written and made sure twice before its editor is told anything."""
import contextlib
import pathlib
import re

from keeper import DOWN, MOVE, Keeper, a_folder, ask
from accepts import may_trace

SENDING = ("write", "writev", "sendto", "sendmsg")
CALL = re.compile(r"\d+ +(?:<\.\.\. )?([a-z0-9_]+)(?:\((\d+)<([^>]*)>| resumed>)?(.*)")


def traced(log):
    """The calls on descriptors, in the order in which they were begun: the name of each, and the file or the socket."""
    found = (CALL.match(line) for line in pathlib.Path(log).read_text(encoding="utf-8", errors="replace").splitlines())
    return [(one[1], one[3]) for one in found if one and one[3]]


def one_edit(tests):
    """All calls are traced, and those on the journal are these four, before the one that puts the reply."""
    may_trace()
    with a_folder() as folder:
        path, log = folder / "journal", folder / "log"
        with Keeper(tests, path, under=["strace", "-f", "-y", "-I2", "-o", str(log)]) as server, contextlib.closing(server.client()) as client:
            ask(client, "GET", "/info")
            for number, batch in enumerate([MOVE, DOWN], 1):
                begun = len(traced(log))
                tests.same(f"edit {number}, which is traced", ask(client, "POST", "/edit", batch)[:3], (200, number, b"published %d\n" % number))
                # When this is answered all that came before it is in the log.
                ask(client, "GET", "/info")
                # A call of any name on the journal counts, and what is sent or made sure elsewhere.
                told = [(name, "journal" if file == str(path) else file.partition(":")[0]) for name, file in traced(log)[begun:]]
                told = [(name, file) for name, file in told if file == "journal" or name in SENDING or "sync" in name]
                kept = [(name, "journal") for name in ("pwrite64", "fsync", "pwrite64", "fsync")]
                tests.same(f"the calls of edit {number}, and then its reply and the next", (told[:4], [(name in SENDING, file) for name, file in told[4:]]), (kept, [(True, "socket")] * 2))


TESTS = [one_edit]
