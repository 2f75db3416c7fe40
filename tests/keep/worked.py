"""Worked journals: what a start answers, what is served then, and what the file has."""
import contextlib
import fcntl
import os
import socket
import stat

from keeper import (DOWN, LEFT, LOAD_FAULT, MOVE, ONE, SQUARES, TOP, UP, Keeper, a_folder, ask, asked_once, entry, faults_served, folded, for_nobody, goes_on,
                    journal, map_of, refusal)
from kept import BESIDE, MOST
from lib import Server, exchange, free_port, reply, request

COLUMBUS, RULES = TOP / "examples/columbus.json", TOP / "examples/columbus.rules.json"
CROSSING, FOUR = TOP / "examples/crossing.tgap", TOP / "examples/four_squares.tgap"
USAGE = 2
# A batch with a line at fault, and one that leaves no planar partition.
NO_POINT, MEETS = b"move 5 5 6 6\n", b"move 10 0 10 12\n"
TOO_LONG = 4, b"refused 20 input-long 67108864\n"


def bad_entry(place):
    return 4, b"refused 22 journal-entry %d\n" % place


def long_journal(batches):
    return 4, b"refused 23 journal-long %d\n" % batches


def the_first_edit(tests):
    """An edit of the two squares, its 31 bytes, and what is served after another start."""
    with a_folder() as folder:
        path = folder / "journal"
        with Keeper(tests, path) as server:
            tests.same("a journal that is made has a byte 0", path.read_bytes(), b"\0")
            tests.same("it may be read and written by its owner", stat.S_IMODE(path.stat().st_mode) & 0o600, 0o600)
            tests.same("an edit", server.edit(MOVE), (200, 1, b"published 1\n"))
            written = bytes.fromhex("01 0000000000000001 00000011") + MOVE + b"\0"
            tests.same("its bytes", (len(MOVE), len(written), path.read_bytes()), (17, 31, written))
        with Keeper(tests, path) as server:
            tests.same("after another start", asked_once(server, "GET", "/info"), (200, 1, b"version 1 steps 1 faces 2 arcs 3 points 10\n"))
            tests.same("the edit once more", server.edit(MOVE), (422, 1, b"edit line 1 cause 3\n"))
            tests.tell("the map that is served", faults_served(server, SQUARES.read_bytes(), [MOVE]))
        tests.same("the file is as it was", path.read_bytes(), ONE)


def what_is_no_edit(tests):
    """What is not published is not stored."""
    with a_folder() as folder:
        path = folder / "journal"
        with Keeper(tests, path, versions=3) as server, contextlib.closing(server.client()) as late:
            ask(late, "GET", "/info")
            tests.same("an empty batch is a version", server.edit(b""), (200, 1, b"published 1\n"))
            for batch, wanted in [(NO_POINT, b"edit line 1 cause 3\n"), (MEETS, b"refused 15 meets 0 2 1000 1200 120\n"), (MOVE[:-1], b"edit line 1 cause 1\n")]:
                tests.same(f"{batch}", server.edit(batch), (422, 1, wanted))
            tests.same("a stale edit", ask(late, "POST", "/edit", MOVE)[:3], (409, 0, b"stale 1\n"))
            tests.same("the last version", server.edit(MOVE), (200, 2, b"published 2\n"))
            tests.same("a version too many", server.edit(DOWN), (507, 2, b"versions full 3\n"))
            tests.same("what is read is not stored", asked_once(server, "GET", "/slice/0", DOWN)[0], 200)
        tests.same("the journal has both edits", path.read_bytes(), journal(b"", MOVE))


# Journals, how many versions there may be, and the answer: what they come to, or why there are none.
STARTS = [
    ("an empty file", b"", 1, []),
    ("a byte 0", b"\0", 1, []),
    ("zeros", bytes(5000), 1, []),
    ("an edit, and two versions", ONE, 2, [MOVE]),
    ("an edit, and one version", ONE, 1, long_journal(1)),
    ("three edits, and four versions", journal(MOVE, DOWN, LEFT), 4, [MOVE, DOWN, LEFT]),
    ("three edits, and three versions", journal(MOVE, DOWN, LEFT), 3, long_journal(3)),
    ("empty batches", journal(b"", b"", b""), 4, [b"", b"", b""]),
    ("63 edits", journal(*[b""] * 63), 64, [b""] * 63),
    ("64 edits", journal(*[b""] * 64), 64, long_journal(64)),
    ("70,000 edits", journal(*[b""] * 70000), 64, long_journal(70000)),
    ("an entry of number 2 alone", entry(2, MOVE) + b"\0", 4, bad_entry(0)),
    ("an entry of number 0", entry(0, MOVE) + b"\0", 4, bad_entry(0)),
    ("an entry of the greatest number", entry(1, MOVE) + entry(2**64 - 1, DOWN) + b"\0", 4, bad_entry(1)),
    ("a number that is left out", entry(1, MOVE) + entry(2, DOWN) + entry(4, LEFT) + b"\0", 4, bad_entry(2)),
    ("a number that was cut off", entry(1, MOVE) + entry(2, DOWN) + entry(1, LEFT) + entry(3, UP) + b"\0", 4, bad_entry(3)),
    ("an entry that takes the place of one", entry(1, MOVE) + entry(1, DOWN) + b"\0", 2, [DOWN]),
    ("entries that take the places of others", entry(1, MOVE) + entry(2, DOWN) + entry(2, LEFT) + entry(3, UP) + entry(1, DOWN) + entry(2, MOVE) + b"\0", 3, [DOWN, MOVE]),
    ("300 entries of two versions", b"".join(entry(1 + number % 2, MOVE if number % 2 else DOWN) for number in range(300)) + b"\0", 3, [DOWN, MOVE]),
    ("a batch at fault", journal(MOVE, NO_POINT), 4, bad_entry(1)),
    ("a batch that leaves no planar partition", journal(MEETS), 4, bad_entry(0)),
    ("a batch that is good no more", journal(MOVE, MOVE), 4, bad_entry(1)),
    ("a batch that is no text", journal(b"\xff\xfe"), 4, bad_entry(0)),
    ("two batches at fault", journal(MOVE, NO_POINT, MEETS), 4, bad_entry(1)),
    ("a batch at fault whose place was taken", entry(1, NO_POINT) + entry(1, MOVE) + b"\0", 4, [MOVE]),
    ("a batch that is at fault since its place was taken", entry(1, MOVE) + entry(2, b"move 24 10 26 10\n") + entry(1, DOWN) + entry(2, b"move 24 10 26 10\n") + b"\0", 4,
     bad_entry(3)),
    # The place of the first entry that does not follow is told before that of an earlier batch at fault, and both before too many batches.
    ("a batch at fault, and a number that does not follow", entry(1, NO_POINT) + entry(3, MOVE) + b"\0", 4, bad_entry(1)),
    ("a batch at fault, and too many batches", journal(MOVE, NO_POINT), 1, bad_entry(1)),
    ("a number that does not follow, and too many batches", journal(MOVE, DOWN)[:-1] + entry(9, LEFT) + b"\0", 1, bad_entry(2)),
    # What stands behind the entries counts for nothing.
    ("bytes behind the closing 0", ONE + b"anything \1\1\1", 4, [MOVE]),
    ("an entry behind the closing 0", ONE + entry(2, NO_POINT) + b"\0", 4, [MOVE]),
    ("an entry without its first byte", ONE + entry(2, DOWN)[1:] + b"\0", 4, [MOVE]),
    ("half of an entry without its first byte", ONE + entry(2, DOWN)[1:20], 4, [MOVE]),
    ("half of an entry", ONE[:-1] + entry(2, DOWN)[:20], 4, [MOVE]),
    ("an entry whose length points beyond the end", ONE[:-1] + b"\1" + bytes(7) + b"\2\xff\xff\xff\xff" + DOWN, 4, [MOVE]),
    ("no closing 0", ONE[:-1], 4, [MOVE]),
    ("an entry that begins with a 7", ONE[:-1] + b"\7" + entry(2, DOWN)[1:] + b"\0", 4, [MOVE, DOWN]),
    # A file that begins with neither 0 nor 1 is none.
    ("a listing", SQUARES.read_bytes(), 4, LOAD_FAULT),
    ("a topology", b"{}", 4, LOAD_FAULT),
    ("a first entry that begins with a 2", b"\2" + ONE[1:], 4, LOAD_FAULT),
]


def starts(tests):
    with a_folder() as folder:
        path = folder / "journal"
        for name, data, versions, wanted in STARTS:
            path.write_bytes(data)
            if isinstance(wanted, list):
                tests.tell(f"{name}: what is served", served(tests, path, versions, wanted))
            else:
                tests.same(name, refusal(tests, path, versions), wanted)
                kept = path.read_bytes()
                tests.same(f"{name}: the file", kept[: len(data)], data)


def served(tests, path, versions, batches):
    with Keeper(tests, path, versions=versions) as server:
        faults = faults_served(server, SQUARES.read_bytes(), batches)
        told = server.edit(UP)
    full = 507, len(batches), b"versions full %d\n" % versions
    wanted = full if len(batches) + 1 == versions else (200, len(batches) + 1, b"published %d\n" % (len(batches) + 1))
    faults += [] if told == wanted else [f"an edit is answered by {told}, expected {wanted}"]
    after = batches if wanted == full else [*batches, UP]
    return faults + ([] if folded(path.read_bytes()) == after else [f"the journal comes to {folded(path.read_bytes())}"])


def cut_at_every_byte(tests):
    """A journal that ends anywhere is taken up to its last whole entry, and goes on from there."""
    data = journal(MOVE, DOWN)
    with a_folder() as folder:
        path, port = folder / "journal", free_port()
        for size in range(len(data) + 1):
            path.write_bytes(data[:size])
            whole = [MOVE, DOWN][: sum(size >= end for end in (BESIDE + len(MOVE), 2 * BESIDE + len(MOVE) + len(DOWN)))]
            tests.tell(f"a journal cut at {size}", goes_on(tests, path, whole, UP, port=port))


def what_goes_before(tests):
    """The map's faults are told before those of the journal, which is not made then; and the journal's before the port is asked for."""
    with a_folder() as folder:
        path, bad = folder / "journal", folder / "bad"
        bad.write_bytes(entry(2, MOVE))
        for name, base, rules, wanted in [
                ("no map", folder / "none", (), (3, b"load fault map\n")), ("a map that is refused", CROSSING, (), (4, b"refused 15 meets 0 1 125 125 50\n")),
                ("no rules", COLUMBUS, ("areas", folder / "none"), (3, b"load fault rules\n")), ("bad rules", COLUMBUS, ("areas", COLUMBUS), (4, b"refused 19 bad-rules 2\n"))]:
            for journal_of in (bad, folder, path):
                tests.same(f"{name}, beside {journal_of.name}", refusal(tests, journal_of, base=base, rules=rules), wanted)
            tests.same(f"{name}: no journal is made", path.exists(), False)
        with socket.socket() as one:
            port = free_port()
            one.bind(("127.0.0.1", port))
            one.listen()
            for name, data, versions, wanted in [
                    ("a bad entry", entry(2, MOVE), 4, bad_entry(0)), ("a long journal", ONE, 1, long_journal(1)), ("a good journal", ONE, 4, (8, b"port fault\n"))]:
                path.write_bytes(data)
                tests.same(f"{name}, at a port that is taken", refusal(tests, path, versions, port=port), wanted)
            tests.same("a journal that is none, at a port that is taken", refusal(tests, SQUARES, port=port), LOAD_FAULT)


def another_map(tests):
    """A journal belongs to its map: that of another one has an entry that is refused, where it names what is not there."""
    with a_folder() as folder:
        path = folder / "journal"
        path.write_bytes(journal(b"move 20 20 22 22\n", b"class 4 0\n"))
        with Keeper(tests, path, base=FOUR) as server:
            tests.same("a journal of four squares", asked_once(server, "GET", "/info")[:2], (200, 2))
        tests.same("the same with two squares", refusal(tests, path), bad_entry(0))
        path.write_bytes(journal(DOWN, b"class 4 0\n"))
        tests.same("one whose first batch is good for both", refusal(tests, path), bad_entry(1))


def a_topology(tests):
    """A map of three files, and its journal."""
    with a_folder() as folder:
        path, how = folder / "journal", {"base": COLUMBUS, "rules": ("areas", RULES)}
        with Keeper(tests, path, **how) as server:
            slice_text = asked_once(server, "GET", "/slice/0")[2]
            tests.same("an edit of a topology", server.edit(b"class 7 1\n"), (200, 1, b"published 1\n"))
            edited = asked_once(server, "GET", "/slice/0")[2]
        tests.same("the edit changes the map", edited != slice_text, True)
        with Keeper(tests, path, **how) as server:
            tests.same("the same after another start", asked_once(server, "GET", "/slice/0"), (200, 1, edited))


def what_is_no_file(tests):
    with a_folder() as folder:
        (folder / "journal").write_bytes(ONE)
        os.mkfifo(folder / "pipe")
        with socket.socket(socket.AF_UNIX) as one:
            one.bind(str(folder / "socket"))
        for name in ("", "pipe", "socket", "none/journal", "journal/journal", "/dev/null", "/dev/zero", "/dev/full"):
            tests.same(f"a journal '{name}'", refusal(tests, folder / name), LOAD_FAULT)
        tests.same("an empty name", refusal(tests, ""), LOAD_FAULT)
        tests.same("the journal is as it was", (folder / "journal").read_bytes(), ONE)


def links(tests):
    """A link leads to the journal, which one program alone holds by either name."""
    with a_folder() as folder:
        path, link = folder / "journal", folder / "link"
        path.write_bytes(ONE)
        link.symlink_to(path)
        with Keeper(tests, link) as server:
            tests.same("an edit by a link", server.edit(DOWN), (200, 2, b"published 2\n"))
            tests.same("the journal by its own name", refusal(tests, path), LOAD_FAULT)
        tests.same("what the journal has", (path.read_bytes(), link.is_symlink()), (journal(MOVE, DOWN), True))


def the_map_itself(tests):
    """The journal is the file of the map, or of its rules: neither is written."""
    with a_folder() as folder:
        copies = [folder / path.name for path in (SQUARES, COLUMBUS, RULES)]
        for copy, path in zip(copies, (SQUARES, COLUMBUS, RULES)):
            copy.write_bytes(path.read_bytes())
        squares, columbus, rules = copies
        tests.same("a listing as its own journal", refusal(tests, squares, base=squares), LOAD_FAULT)
        for path in (columbus, rules):
            tests.same(f"{path.name} as a journal", refusal(tests, path, base=columbus, rules=("areas", rules)), LOAD_FAULT)
        tests.same("the files", [path.read_bytes() for path in copies], [path.read_bytes() for path in (SQUARES, COLUMBUS, RULES)])


def rights(tests):
    """As root no file is read-only, so the program runs as somebody else then."""
    with a_folder() as folder:
        path = folder / "journal"
        other, how = for_nobody(tests, folder)
        path.write_bytes(ONE)
        for mode in (0o444, 0o222, 0o000):
            path.chmod(mode)
            tests.same(f"a journal of mode {mode:o}", refusal(other, path, **how), LOAD_FAULT)
        path.chmod(0o666)
        tests.same("one that may be read and written", refusal(other, path, **how), "it serves")
        tests.same("one that is to be made in a folder that may not be written", (refusal(other, folder / "new", **how), (folder / "new").exists()), (LOAD_FAULT, False))
        tests.same("what it has", path.read_bytes(), ONE)


def what_another_holds(tests):
    """A journal has one program at a time, by whichever name."""
    with a_folder() as folder:
        path, name = folder / "journal", folder / "name"
        with Keeper(tests, path) as server:
            os.link(path, name)
            tests.same("an edit", server.edit(MOVE)[0], 200)
            for one in (path, name):
                tests.same(f"another program, by {one.name}", refusal(tests, one), LOAD_FAULT)
            with Keeper(tests, folder / "other") as other:
                tests.same("another journal beside it", other.edit(DOWN)[0], 200)
            tests.same("the first one goes on", server.edit(DOWN), (200, 2, b"published 2\n"))
        tests.tell("it is let go", goes_on(tests, name, [MOVE, DOWN], UP))
        with open(path, "rb") as held:
            fcntl.flock(held, fcntl.LOCK_EX)
            tests.same("a journal that some other program holds", refusal(tests, path), LOAD_FAULT)
            with Server(tests.executable, SQUARES, 1, 2) as server:
                tests.same("serve asks for no journal", asked_once(server, "GET", "/info")[0], 200)


def fill(path, size, last):
    """Makes a journal of so many bytes whose entries are all of number 1, and the last of them this one. The batches of the others are zeros, which take no
    room on the disk."""
    at = 0
    with open(path, "wb") as file:
        while at < size - len(last):
            take = min(1 << 20, size - len(last) - at)
            file.seek(at)
            file.write(entry(1, bytes(take - BESIDE))[:BESIDE])
            at += take
        file.seek(at)
        file.write(last)


def the_longest(tests):
    """A journal of 67,108,864 bytes may be there, but nothing is written past it."""
    last, need = entry(1, MOVE), BESIDE + len(DOWN) + 1
    with a_folder() as folder:
        path = folder / "journal"
        for room, wanted in [(0, 507), (need - 1, 507), (need, 200)]:
            fill(path, MOST - room, last)
            data = path.read_bytes()
            with Keeper(tests, path) as server, contextlib.closing(server.client()) as reader:
                tests.same(f"{room} bytes of room: what is served", ask(reader, "GET", "/info")[:2], (200, 1))
                published, full = (200, 2, b"published 2\n"), b"journal full 67108864\n"
                got = server.edit(DOWN)
                tests.same(f"{room} bytes of room", got, published if wanted == 200 else (507, 1, full))
                # An empty batch takes 14.
                tests.same(f"{room} bytes of room: the next edit", server.edit(b""), (507, got[1], full) if room < BESIDE + 1 or wanted == 200 else published)
                tests.same(f"{room} bytes of room: a reader", ask(reader, "GET", "/info")[:2], (200, 1))
                if not room:
                    tests.same("the bytes of 507", exchange(server, request("POST", "/edit", DOWN)), reply(507, "Insufficient Storage", 1, full))
            kept = path.read_bytes()
            tests.same(f"{room} bytes of room: the file", (len(kept) <= MOST, kept[: len(data)] == data), (True, True))
            tests.same(f"{room} bytes of room: after another start", folded(kept)[1:], [DOWN] if wanted == 200 else [b""] if room > BESIDE else [])
        fill(path, MOST, last + b"\0")
        with open(path, "ab") as file:
            file.write(b"\0")
        tests.same("a byte too long", (refusal(tests, path), path.stat().st_size), (TOO_LONG, MOST + 1))
        with open(path, "wb") as file:
            file.truncate(1 << 40)
        tests.same("a terabyte of zeros", refusal(tests, path), TOO_LONG)


def words(tests):
    """Other numbers of words, and numbers that are out of range, are no command; and no journal is made of them."""
    usage = tests.run().stdout
    tests.same("the usage line tells of it", usage.endswith(b" | keep MAP JOURNAL PORT WORKERS VERSIONS [OBJECT RULES]\n"), True)
    with a_folder() as folder:
        good, end = ["keep", SQUARES, folder / "journal", "8080", "2", "4", "areas", RULES, "more"], (USAGE, usage)
        for count in (1, 2, 3, 4, 5, 7, 9):
            ended = tests.run(*good[:count])
            tests.same(f"{count} words", (ended.returncode, ended.stdout), end)
        for place, some in [(3, ["0", "65536", "08080", "x", ""]), (4, ["0", "17", "+2", ""]), (5, ["0", "65", "4 ", "-1", ""])]:
            for word in some:
                ended = tests.run(*good[:place], word, *good[place + 1 : 6])
                tests.same(f"word {place} is '{word}'", (ended.returncode, ended.stdout), end)
        for first in ("Keep", "keep ", "KEEP"):
            ended = tests.run(first, *good[1:6])
            tests.same(f"'{first}'", (ended.returncode, ended.stdout), end)
        tests.same("no journal is made", (folder / "journal").exists(), False)


def names(tests):
    """A journal in the folder in which the program runs, one with blanks, and one in another script."""
    with a_folder() as folder:
        for name in ("journal", "./here", "a name with blanks", "carte_é", "x" * 255):
            with Keeper(tests, name, cwd=folder) as server:
                tests.same(f"an edit into '{name[:20]}'", server.edit(MOVE)[0], 200)
            tests.same(f"the file '{name[:20]}'", (folder / name).read_bytes(), ONE)
        tests.same("a name that is too long", refusal(tests, "x" * 256, cwd=folder), LOAD_FAULT)


def long_batches(tests):
    """A batch of the greatest length is kept and made again."""
    line = b"class 1 0\n"
    batch = MOVE + line * (((1 << 20) - len(MOVE)) // len(line))
    with a_folder() as folder:
        path = folder / "journal"
        with Keeper(tests, path) as server:
            tests.same("a long batch", [server.edit(batch), server.edit(DOWN)], [(200, 1, b"published 1\n"), (200, 2, b"published 2\n")])
        tests.same("a long batch is kept", path.read_bytes() == journal(batch, DOWN), True)
        with Keeper(tests, path) as server:
            # The other lines change nothing.
            wanted = map_of(SQUARES.read_bytes(), [MOVE, DOWN]).slice(0)
            tests.same("a long batch after another start", asked_once(server, "GET", "/slice/0"), (200, 2, wanted))


TESTS = [the_first_edit, what_is_no_edit, starts, cut_at_every_byte, what_goes_before, another_map, a_topology, what_is_no_file, links, the_map_itself, rights, what_another_holds,
         the_longest, words, names, long_batches]
