"""Tests tools/journal: what it tells of a journal, and that a join leaves the old journal or the new one, whole, whatever stops it. The journals are written by
the program `keep`, and by hand; their form is read by the plain reader of tests/trials."""
import fcntl
import importlib.util
import os
import random
import re
import select
import shutil
import signal
import struct
import subprocess
import sys

import lib

sys.path.insert(0, str(lib.TOP / "tools/lib"))
import journal_file  # noqa: E402
from journal_format import MOST, Journal  # noqa: E402

MOVE, CLASS, BACK = b"move 20 10 24 10\n", b"class 1 0\nclass 2 0\n", b"move 24 10 20 10\n"
# The calls by which the tool changes what is stored, and those that may fail there. Each is stopped, or fails, once at each time that it comes.
CALLS = ["write", "fsync", "fchown", "fchmod", "fsetxattr", "unlink", "unlinkat", "link", "linkat", "rename", "renameat", "renameat2"]
TRACED = ["strace", "-qq", "-y", "-e", f"trace={','.join(CALLS)}"]


def plain_reader():
    """The reader of journals that tests/trials has. Another module here has the name of one of its neighbours."""
    spec = importlib.util.spec_from_file_location("kept", lib.TOP / "tests/trials/kept.py")
    module = importlib.util.module_from_spec(spec)
    spec.loader.exec_module(module)
    return module


KEPT = plain_reader()


def journal_of(*entries):
    """A journal of entries, each a number and a batch, as bytes."""
    return b"".join(KEPT.entry(*entry) for entry in entries) + b"\0"


THREE = journal_of((1, MOVE), (2, CLASS), (2, BACK))
ONE = journal_of((1, MOVE + BACK))


def test(tests, examples):
    squares = examples / "two_squares.tgap"
    forms(tests)
    listed(tests)
    checked(tests, squares)
    checked_refusals(tests, squares)
    joined(tests, squares)
    joined_topology(tests, examples)
    long_batches(tests)
    not_joined(tests, squares)
    another_map(tests, squares)
    held(tests, squares)
    rights_and_links(tests, squares)
    stopped_anywhere(tests, squares)
    failing_anywhere(tests, squares)
    stored_in_order(tests, squares)
    without_end(tests, squares)


def plain_fold(entries):
    """The batches that entries come to by the words of the documents, or the place of the first that does not follow."""
    batches = []
    for place, (number, batch) in enumerate(entries):
        if number == 0 or number > len(batches) + 1:
            return place
        batches = batches[:number - 1] + [batch]
    return batches


def forms(tests):
    """What the tool reads of any bytes is what the plain reader does."""
    chance, wrong, folds = random.Random(23), [], {True: 0, False: 0}
    whole = journal_of((1, MOVE), (2, b""), (2, CLASS), (1, BACK), (2, MOVE), (3, b""))
    cases = [whole[:size] for size in range(len(whole) + 1)] + [whole[:-1] + bytes([first]) + whole[:40] for first in range(3)]
    for _ in range(3000):
        data = journal_of(*((chance.choice([0, 1, 1, 2, 2, 3, 4]), chance.randbytes(chance.randrange(9))) for _ in range(chance.randrange(6))))
        cases.append(data[:chance.randrange(len(data) + 1)] if chance.random() < 0.3 else data + chance.randbytes(chance.randrange(4)))
    for data in cases:
        found, end = KEPT.entries(data)
        fold = plain_fold(found)
        read = Journal("a journal", data)
        got = [(entry.number, entry.batch) for entry in read.entries], read.end, read.bad if read.bad is not None else read.batches()
        wrong += [data] if got != (found, end, fold) else []
        folds[isinstance(fold, list)] += 1
    tests.same("journals that are read in another way", wrong, [])
    tests.tell("journals that follow, and others, were among them", [] if min(folds.values()) > 500 else [f"{folds}"])


# ---- list


def put(tests, name, data):
    (tests.folder / name).write_bytes(data)
    return name


def row(place, number, size, counts, line):
    """A row of the list."""
    return f"{place:8} {number:8} {size:10}  {counts:6}  {line}\n"


def listed(tests):
    """Each entry, whether it counts, and how the journal ends."""
    head = "   entry  version      bytes  counts  first line\n"
    rows = f"{head}{row(0, 1, 17, 'yes', 'move 20 10 24 10')}{row(1, 2, 20, 'no', 'class 1 0')}{row(2, 2, 17, 'yes', 'move 24 10 20 10')}"
    three, odd = f"{rows}3 entries, 2 edits; they end at byte 93 of ", "\\x1b[31m\\xff" + "x" * 54
    for name, data, told in [
            ("whole", THREE, f"{three}94, closed by a byte 0\n"), ("not closed", THREE[:-1], f"{three}93, and no byte closes them, which the program mends\n"),
            ("with more behind", THREE + b"more", f"{three}98, and 4 bytes behind the byte 0 there count for nothing\n"),
            ("with half an entry", THREE[:-1] + KEPT.entry(3, MOVE)[:20], f"{three}113, and 20 bytes of an entry that is not whole count for nothing\n"),
            ("of no bytes", b"", f"{head}0 entries, 0 edits; they end at byte 0 of 0, and no byte closes them, which the program mends\n"),
            ("of odd bytes", journal_of((1, b"\x1b[31m\xff" + b"x" * 90 + b"\n")),
             f"{head}{row(0, 1, 97, 'yes', f'{odd} ..')}1 entry, 1 edit; they end at byte 110 of 111, closed by a byte 0\n")]:
        made = tests.tool("journal", "list", put(tests, "a.journal", data))
        tests.same(f"a journal {name}", (made.returncode, made.stdout, made.stderr), (0, told, ""))
    made = tests.tool("journal", "list", put(tests, "a.journal", journal_of((1, MOVE), (3, CLASS), (1, BACK))))
    tests.done("an entry that does not follow", made, row(0, 1, 17, "no", "move 20 10 24 10"), "3 entries, no edits",
               "entry 1, at byte 30, does not follow: it makes version 3", "truncate -s 30")
    put(tests, "a.journal", b"tgap 2\n")
    tests.refused("list: what is no journal", tests.tool("journal", "list", "a.journal"), 4, "a.journal is no journal: it begins with the byte 116")
    tests.refused("list: no file", tests.tool("journal", "list", "nowhere"), 3, "nowhere cannot be read: No such file")
    for words in ([], ["list"], ["list", "a", "b"], ["check", "a"], ["join", "a", "b", "c"], ["join", "a", "-"], ["join", "a", "b", "--versions", 3],
                  ["cut", "a"]):
        tests.refused(f"the words {words}", tests.tool("journal", *words), 2, "usage: ./tgap journal")


# ---- the program that keeps a journal


class Keeper(lib.Server):
    """The program, which serves a map and keeps its edits in a journal."""

    # What it shares with a server that keeps nothing is how it is asked and stopped.
    def __init__(self, tests, path, journal, versions, rules=()):  # pylint: disable=super-init-not-called
        self.port = lib.free_port()
        words = [tests.executable, "keep", path, journal, self.port, 2, versions, *rules]
        self.process = subprocess.Popen(list(map(str, words)), cwd=tests.folder, stdout=subprocess.PIPE, stdin=subprocess.DEVNULL)
        ready, _, _ = select.select([self.process.stdout], [], [], lib.SECONDS)
        self.said = self.process.stdout.readline() if ready else b""
        if self.said != f"serving {self.port}\n".encode():
            self.stop()
            raise OSError(f"the program does not keep {journal}: it said {self.said!r}")

    def edit(self, batch):
        return lib.asked_once(self, "POST", "/edit", batch)

    def map(self):
        """The number of the version, and what is told of it and of its slice."""
        _, version, info = lib.asked_once(self, "GET", "/info")
        return version, info.split(b" ", 2)[2], lib.asked_once(self, "GET", "/slice/0")[2]


def map_of(tests, path, data, rules=()):
    """The newest map that the program makes of a journal with these bytes."""
    put(tests, "of.journal", data)
    with Keeper(tests, path, "of.journal", 64, rules) as server:
        return server.map()


def checked(tests, squares):
    """What the program makes of a journal that it writes, also while it does."""
    with Keeper(tests, squares, "a.keep", 4) as server:
        tests.same("edits are published", [server.edit(batch)[:2] for batch in (MOVE, CLASS)], [(200, 1), (200, 2)])
        made = tests.tool("journal", "check", squares, "a.keep", "--versions", 4)
        tests.same("the check while it is served", (made.returncode, made.stdout, made.stderr),
                   (0, f"ok 2 edits; room for 1 more in 4 versions, and in the journal for a batch of {MOST - 63 - 14:,} bytes\n", ""))
        tests.done("the list while it is served", tests.tool("journal", "list", "a.keep"), "2 entries, 2 edits; they end at byte 63 of 64, closed by a byte 0")
        tests.same("and it goes on", server.edit(BACK)[:2], (200, 3))
    tests.same("the journal that it wrote", (tests.folder / "a.keep").read_bytes(), journal_of((1, MOVE), (2, CLASS), (3, BACK)))
    tests.done("the check after it", tests.tool("journal", "check", squares, "a.keep"), "ok 3 edits; room for 60 more in 64 versions")
    put(tests, "a.journal", THREE[:-1] + KEPT.entry(3, MOVE)[:20])
    tests.done("a journal with half an entry", tests.tool("journal", "check", squares, "a.journal"), "ok 2 edits; room for 61 more")
    tests.same("nothing is written to it", (tests.folder / "a.journal").read_bytes(), THREE[:-1] + KEPT.entry(3, MOVE)[:20])
    put(tests, "a.journal", b"")
    tests.done("an empty journal", tests.tool("journal", "check", squares, "a.journal"), "ok 0 edits; room for 63 more", f"of {MOST - 14:,} bytes")


def checked_refusals(tests, squares):
    """Each refusal of the program in plain words."""
    crosses = b"move 10 0 10 12\n"
    for name, data, words, told in [
            ("versions", THREE, ["--versions", 2], ["refused 23 journal-long 2: 2 edits want 3 versions, and 2 are allowed", "./tgap journal join "]),
            ("a number", journal_of((1, MOVE), (3, BACK)), [],
             ["refused 22 journal-entry 1: entry 1, at byte 30, does not follow: it makes version 3", "truncate -s 30"]),
            ("a line", journal_of((1, MOVE), (1, BACK), (1, CLASS), (2, CLASS + BACK)), [],
             ["refused 22 journal-entry 3: entry 3, at byte 93, makes no version 2 of ", "the program says 'edit line 3 cause 3'"]),
            ("borders that cross", journal_of((1, crosses)), [],
             ["refused 22 journal-entry 0", "makes no version 1", "says 'refused 15 meets 0 2 1000 1200 120'"])]:
        tests.refused(f"check: {name}", tests.tool("journal", "check", squares, put(tests, "a.journal", data), *words), 4, *told)
    put(tests, "a.journal", THREE)
    os.truncate(tests.folder / "a.journal", MOST + 1)
    made = tests.tool("journal", "check", squares, "a.journal")
    tests.refused("check: too long", made, 4, f"refused 20 input-long {MOST}: a.journal has 67,108,865 bytes", "truncate -s 94")
    os.truncate(tests.folder / "a.journal", 94)
    tests.done("and cut there", tests.tool("journal", "check", squares, "a.journal"), "ok 2 edits")
    crossing = lib.TOP / "examples/crossing.tgap"
    tests.refused("check: the map", tests.tool("journal", "check", crossing, "a.journal"), 4, "refused 15 meets 0 1 125 125 50: it is the map that is refused")
    tests.refused("check: no map", tests.tool("journal", "check", "nowhere", "a.journal"), 3, "the program cannot read the map")
    tests.refused("check: no journal", tests.tool("journal", "check", squares, "nowhere"), 3, "nowhere cannot be read")


# ---- join


def join(tests, path, journal, *rules):
    return tests.tool("journal", "join", path, journal, *rules)


def joined(tests, squares):
    """After a join the map is the same, in version 1, and edits go on; the journal before stays until the next join."""
    with Keeper(tests, squares, "b.journal", 4) as server:
        tests.same("three edits, and no room", [server.edit(batch)[:2] for batch in (MOVE, CLASS, BACK, MOVE)], [(200, 1), (200, 2), (200, 3), (507, 3)])
        before = server.map()
    data = (tests.folder / "b.journal").read_bytes()
    made = join(tests, squares, "b.journal")
    tests.same("joined", (made.returncode, made.stdout, made.stderr),
               (0, "joined 3 edits to one of 54 bytes in b.journal; the journal before is b.journal.before\n", ""))
    tests.same("the one edit", (tests.folder / "b.journal").read_bytes(), journal_of((1, MOVE + CLASS + BACK)))
    tests.same("the journal before", (tests.folder / "b.journal.before").read_bytes(), data)
    with Keeper(tests, squares, "b.journal", 4) as server:
        tests.same("the map", server.map(), (1, *before[1:]))
        tests.same("edits go on", [server.edit(batch)[:2] for batch in (MOVE, b"")], [(200, 2), (200, 3)])
        before = server.map()
    data = (tests.folder / "b.journal").read_bytes()
    tests.done("joined again", join(tests, squares, "b.journal"), "joined 3 edits to one of 71 bytes")
    tests.same("the one before is the newer", (tests.folder / "b.journal.before").read_bytes(), data)
    tests.same("the map again", map_of(tests, squares, (tests.folder / "b.journal").read_bytes()), (1, *before[1:]))
    put(tests, "b.journal", THREE[:-1] + KEPT.entry(3, MOVE)[:20])
    tests.done("entries that do not count", join(tests, squares, "b.journal"), "joined 2 edits to one of 34 bytes")
    tests.same("are left out", (tests.folder / "b.journal").read_bytes(), ONE)
    put(tests, "b.journal", journal_of((1, MOVE), (1, CLASS)))
    tests.done("one edit, and one that does not count", join(tests, squares, "b.journal"), "joined 1 edit to one of 20 bytes")


def joined_topology(tests, examples):
    words = ["areas", examples / "columbus.rules.json"]
    put(tests, "c.journal", journal_of((1, b"class 1 0\n"), (2, b"class 2 1\nclass 3 1\n"), (3, b"class 1 1\n")))
    before = map_of(tests, examples / "columbus.json", (tests.folder / "c.journal").read_bytes(), words)
    tests.done("the edits of a topology", join(tests, examples / "columbus.json", "c.journal", *words), "joined 3 edits to one of 40 bytes")
    tests.same("its map", map_of(tests, examples / "columbus.json", (tests.folder / "c.journal").read_bytes(), words), (1, *before[1:]))
    tests.refused("a topology without its rules", join(tests, examples / "columbus.json", "c.journal", "areas"), 2, "the words of join are")


def long_batches(tests):
    """All edits together may be longer than a request may be."""
    squares, batch = lib.TOP / "examples/two_squares.tgap", (MOVE + BACK) * 20_000
    put(tests, "d.journal", journal_of((1, batch), (2, batch), (3, MOVE)))
    tests.done("more than the body of a request", join(tests, squares, "d.journal"), f"joined 3 edits to one of {2 * len(batch) + len(MOVE):,} bytes")
    tests.same("its map", map_of(tests, squares, (tests.folder / "d.journal").read_bytes()), (1, *map_of(tests, squares, journal_of((1, MOVE)))[1:]))


def not_joined(tests, squares):
    """Where there is nothing to join, or the program takes the journal for none of this map, it stays as it is, and nothing stands beside it."""
    for name, data, told in [
            ("of no bytes", b"", "e.journal has 0 edits: there is nothing to join"), ("of one edit", ONE, "e.journal has 1 edit: there is nothing to join"),
            ("that is none", b"tgap 2\n", "is no journal"), ("with a gap", journal_of((1, MOVE), (3, BACK)), "entry 1, at byte 30, does not follow"),
            ("with half a line", journal_of((1, MOVE), (2, b"class 1 "), (3, b"0\n")), "the batch of version 2 ends within a line"),
            ("of another map", journal_of((1, MOVE), (2, MOVE)), "refused 22 journal-entry 1: entry 1, at byte 30, makes no version 2"),
            ("of more edits than versions", journal_of(*((at, b"") for at in range(1, 65))), "e.journal has 64 edits, and no server takes more than 63")]:
        made = join(tests, squares, put(tests, "e.journal", data))
        tests.refused(f"a journal {name}", made, 4, told)
        tests.same(f"a journal {name} stays", ((tests.folder / "e.journal").read_bytes(), (tests.folder / "e.journal.before").exists()), (data, False))
    tests.refused("a journal that is not there", join(tests, squares, "nowhere"), 3, "nowhere cannot be opened: No such file")
    tests.same("and is not made", (tests.folder / "nowhere").exists(), False)
    (tests.folder / "folder").mkdir()
    tests.refused("a folder", join(tests, squares, "folder"), 3, "folder cannot be opened: Is a directory")
    os.mkfifo(tests.folder / "pipe")
    tests.refused("a pipe", join(tests, squares, "pipe"), 3, "pipe is no file of bytes")
    (tests.folder / "f.journal.before").mkdir()
    made = join(tests, squares, put(tests, "f.journal", THREE))
    tests.refused("a folder where the journal before goes", made, 6, "f.journal.before cannot be written", "as it was")
    tests.same("it stays", (tests.folder / "f.journal").read_bytes(), THREE)


def another_map(tests, squares):
    """Where the program makes another map of the joined edits nothing is joined. Here a stand-in lets it serve another journal in their place."""
    put(tests, "j.journal", THREE)
    put(tests, "other.journal", journal_of((1, MOVE)))
    program = tests.folder / put(tests, "lies", f"""#!/bin/sh
[ "$(wc -c <"$3")" -ne {len(ONE)} ] || cp '{tests.folder}/other.journal' "$3"
exec '{tests.executable}' "$@"
""".encode())
    program.chmod(0o755)
    made = tests.command([lib.TOP / "tools/journal", "join", squares, "j.journal", "--program", program])
    tests.refused("another map of the joined edits", made, 1, "the program makes another map of the joined edits of j.journal, so it stays as it is")
    tests.same("the journal stays", ((tests.folder / "j.journal").read_bytes(), (tests.folder / "j.journal.before").exists()), (THREE, False))


def held(tests, squares):
    """A journal that a program holds is left alone."""
    put(tests, "g.journal", THREE)
    with Keeper(tests, squares, "g.journal", 64):
        made = join(tests, squares, "g.journal")
        tests.refused("held by the program", made, 3, "g.journal is held by another program: stop the server of this journal first")
    with open(tests.folder / "g.journal", "rb") as file:
        fcntl.flock(file, fcntl.LOCK_SH)
        tests.refused("held for reading", join(tests, squares, "g.journal"), 3, "is held by another program")
    tests.done("and not held", join(tests, squares, "g.journal"), "joined 2 edits")
    replaced_meanwhile(tests)


def replaced_meanwhile(tests):
    """A file that another join has replaced, once it was opened and before it was held, is not taken for the journal."""
    path, lock = tests.folder / put(tests, "h.journal", THREE), fcntl.flock

    def late(handle, how):
        put(tests, "h.new", ONE)
        os.replace(tests.folder / "h.new", path)
        lock(handle, how)

    journal_file.fcntl.flock = late
    try:
        with journal_file.held(path):
            told = "it was held"
    except journal_file.Failure as failure:
        told = str(failure)
    finally:
        journal_file.fcntl.flock = lock
    tests.same("replaced meanwhile", told, f"{path} was replaced meanwhile: try again")


def rights_and_links(tests, squares):
    """Who could open the old journal can open the new one; a link goes on leading to it."""
    (tests.folder / "far").mkdir()
    path = tests.folder / put(tests, "far/i.journal", THREE)
    path.chmod(0o640)
    if os.geteuid() == 0:
        os.chown(path, 65534, 65534)
    may_have_more = gives_right(path)
    os.utime(path, (1, 1))
    wanted, rights = path.stat(), os.getxattr(path, journal_file.RIGHTS) if may_have_more else None
    (tests.folder / "link").symlink_to("far/i.journal")
    tests.done("joined by a link", join(tests, squares, "link"), f"joined 2 edits to one of 34 bytes in link; the journal before is {path.resolve()}.before")
    now = path.stat()
    tests.same("owner and rights", (now.st_mode, now.st_uid, now.st_gid), (wanted.st_mode, wanted.st_uid, wanted.st_gid))
    tests.same("rights of single users", os.getxattr(path, journal_file.RIGHTS) if may_have_more else None, rights)
    tests.same("its time is now", now.st_mtime > 1, True)
    tests.same("the link, and what it leads to", (os.readlink(tests.folder / "link"), path.read_bytes(), sorted(os.listdir(path.parent))),
               ("far/i.journal", ONE, ["i.journal", "i.journal.before"]))


def gives_right(path):
    """Gives one more user the right to read a file, where its file system can: by entries of a kind, rights and a number each."""
    entries = [(1, 6, -1), (2, 4, 65533), (4, 4, -1), (16, 4, -1), (32, 0, -1)]
    try:
        os.setxattr(path, journal_file.RIGHTS, struct.pack("<I", 2) + b"".join(struct.pack("<HHi", *entry) for entry in entries))
    except OSError:
        return False
    return True


# ---- whatever stops it


def traced(tests, squares, *how):
    """A join of a journal of two edits in a folder of its own, under strace. Gives what came of it, and what was traced."""
    folder = tests.folder / "traced"
    shutil.rmtree(folder, ignore_errors=True)
    folder.mkdir()
    put(tests, "traced/j.journal", THREE)
    put(tests, "traced/j.journal.before", b"of the join before")
    words = [*TRACED, "-o", tests.folder / "trace", *how, lib.TOP / "tools/journal", "join", squares, "traced/j.journal", "--program", tests.executable]
    room = tests.folder / "room"
    shutil.rmtree(room, ignore_errors=True)
    room.mkdir()
    made = subprocess.run(list(map(str, words)), cwd=tests.folder, capture_output=True, text=True, timeout=lib.SECONDS, check=False, stdin=subprocess.DEVNULL,
                          env={**os.environ, "TMPDIR": str(room)})
    return made, (tests.folder / "trace").read_text()


def may_trace(tests, name):
    """Whether strace may be used here; a test that is skipped for want of it is told."""
    if shutil.which("strace") and subprocess.run(["strace", "-o", "/dev/null", "true"], capture_output=True, check=False).returncode == 0:
        return True
    tests.skip(name, "strace is missing, or may not trace here")
    return False


def calls_of(trace):
    """The calls that were traced, one after the other, each by its name, its number among those of this name, and whether it is one in the journal's folder."""
    counts, found = {}, []
    for line in trace.splitlines():
        call = re.match(r"\w+", line)
        if call and call[0] in CALLS:
            counts[call[0]] = counts.get(call[0], 0) + 1
            found.append((call[0], counts[call[0]], "/traced" in line))
    return found


def left(tests):
    """What is wrong with the folder of a join that did not come to its end, and whether the new journal stands there: the journal is the old one or the new
    one, whole, and where it is the new one the old one stands beside it."""
    folder = tests.folder / "traced"
    now = (folder / "j.journal").read_bytes()
    before = (folder / "j.journal.before").read_bytes() if (folder / "j.journal.before").exists() else None
    faults = [] if now in (THREE, ONE) else [f"the journal is {now!r}"]
    if now == ONE and before != THREE:
        faults.append(f"the old one is lost: beside it stands {before!r}")
    with open(folder / "j.journal", "rb") as file:
        fcntl.flock(file, fcntl.LOCK_EX | fcntl.LOCK_NB)
    return faults, now == ONE


def again(tests):
    """What is wrong after one more join, which goes on from what was left."""
    folder = tests.folder / "traced"
    data, pause = (folder / "j.journal").read_bytes(), journal_file.PAUSE
    journal_file.PAUSE = 0
    with journal_file.held(folder / "j.journal") as (real, handle, _):
        journal_file.replace(real, handle, journal_of((1, CLASS)))
    journal_file.PAUSE = pause
    got = (folder / "j.journal").read_bytes(), (folder / "j.journal.before").read_bytes(), sorted(os.listdir(folder))
    return [] if got == (journal_of((1, CLASS)), data, ["j.journal", "j.journal.before"]) else [f"one more join leaves {got}"]


def stopped_anywhere(tests, squares):
    """The tool, killed before each of its calls that change something: the old journal or the new one is there, whole."""
    if not may_trace(tests, "stopped_anywhere"):
        return
    made, trace = traced(tests, squares)
    calls, seen = calls_of(trace), set()
    tests.same("a join that is traced", (made.returncode, left(tests)), (0, ([], True)))
    tests.same("the calls in the folder", [name for name, _, is_there in calls if is_there and name in ("fsync", "link", "linkat", "rename")].count("fsync"), 3)
    for name, number, _ in calls:
        made, _ = traced(tests, squares, "-e", f"inject={name}:signal=KILL:when={number}")
        faults, is_new = left(tests)
        seen.add(is_new)
        tests.tell(f"killed before {name} {number}", faults + again(tests) + [f"it ended with {made.returncode}"] * (made.returncode != -signal.SIGKILL))
    tests.same("old and new were seen", seen, {False, True})


def failing_anywhere(tests, squares):
    """Each call in the folder fails: a sentence, and the old journal; only where the last sync fails it is the new one, and the sentence says so."""
    if not may_trace(tests, "failing_anywhere"):
        return
    calls = [(name, number) for name, number, is_there in calls_of(traced(tests, squares)[1]) if is_there]
    for name, number in calls:
        made, _ = traced(tests, squares, "-e", f"inject={name}:error=EIO:when={number}")
        faults, is_new = left(tests)
        is_last = (name, number) == calls[-1]
        told = "is joined, and the old one is" if is_last else "cannot be written: Input/output error; the journal is as it was"
        faults += [f"{told!r} is missing in {made.stderr!r}"] * (told not in made.stderr) + [f"new: {is_new}"] * (is_new != is_last)
        faults += [f"it ended with {made.returncode}"] * (made.returncode != 6)
        faults += [f"left: {path}" for path in os.listdir(tests.folder / "traced") if path.startswith(".")]
        tests.tell(f"{name} {number} fails", faults)
    first = next(number for name, number in calls if name == "unlink")
    made, _ = traced(tests, squares, "-e", f"inject=unlink:error=EROFS:when={first}+")
    tests.same("where nothing can be written", (made.returncode, made.stderr.count("\n"), left(tests)), (6, 1, ([], False)))
    tests.same("is told", "Read-only file system; the journal is as it was" in made.stderr, True)


def stored_in_order(tests, squares):
    """A machine that stops leaves what was synced: the new journal is, before it has a name; then the old one's second name; then the new one's first."""
    if not may_trace(tests, "stored_in_order"):
        return
    order = []
    for line in traced(tests, squares)[1].splitlines():
        found = re.match(r"(write|fsync|link|linkat|rename|renameat|renameat2)\(", line)
        if found and "/traced" in line:
            what = found[1].removesuffix("2").removesuffix("at")
            order.append((what, "the new one" if what in ("write", "fsync") and journal_file.NEW in line else "the folder" if what == "fsync" else ""))
    wanted = [("write", "the new one"), ("fsync", "the new one"), ("link", ""), ("fsync", "the folder"), ("rename", ""), ("fsync", "the folder")]
    tests.same("the order of the calls", order, wanted)


# ---- editing without end


def without_end(tests, squares):
    """A server of four versions, whose edits are joined whenever it is full: after many more edits than versions the map is that of all of them in one
    batch."""
    put(tests, "k.journal", b"")
    edits = [b"move %d 10 %d 10\n" % (20 + at, 21 + at) for at in range(8)]
    rest, rounds = list(edits), 0
    while rest:
        with Keeper(tests, squares, "k.journal", 4) as server:
            while rest and server.edit(rest[0])[0] == 200:
                rest.pop(0)
            last = server.map()
        rounds += 1
        if rest:
            tests.done(f"joined after {len(edits) - len(rest)} edits", join(tests, squares, "k.journal"), "joined 3 edits to one")
    tests.same("rounds", rounds, 4)
    tests.same("the map of all edits", last[1:], map_of(tests, squares, journal_of((1, b"".join(edits))))[1:])
