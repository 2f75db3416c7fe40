"""A map with a journal, by the steps of deploy/tgap-unit: edits without end, while readers read; what stays over restarts;
ends at each moment; disks and joins that fail; copies that are taken at any time."""
import contextlib
import http.client
import itertools
import os
import pathlib
import re
import shutil
import stat
import subprocess
import tempfile
import threading
import time

from front import COLUMBUS, NAME, PASSWORD, Front, Program, answer_of, exchanged, tool, until, version_of
from histories import first_point
from kept import kept
from large_map import LARGE, written
from lib import SECONDS
from live import side_by_side
from lives import USER, Unit, as_user, can_be_tried, connects_as, written_program

VERSIONS = 16
# Edits of a history whose versions are three quarters used, the joined one counted.
MOST = 12
ADDRESSES = (f"127.0.6.{low}" for low in itertools.cycle(range(1, 250)))
PAUSE = 0.2
OWN_BATCH = b"class 1 0\n"
# The longest body that the program takes.
LONGEST = 1_048_576


class Moves:
    """Edits that each move one point a unit further, so that each map has it where no other one has."""

    def __init__(self, point):
        (self.x, self.y), self.made = point, 0

    def batch(self):
        return f"move {self.x + self.made} {self.y} {self.x + self.made + 1} {self.y}\n".encode()

    def text(self, number):
        """What a slice has that comes of so many edits, and no other one."""
        return f" {self.x + number} {self.y} ".encode()

    def all(self):
        return b"".join(f"move {self.x + made} {self.y} {self.x + made + 1} {self.y}\n".encode() for made in range(self.made))


def entry(number, batch):
    return b"\1" + number.to_bytes(8, "big") + len(batch).to_bytes(4, "big") + batch


def batches_of(data):
    """The batches of a journal in which each makes the version after the one before."""
    batches, at = [], 0
    while data[at : at + 1] == b"\1":
        size = int.from_bytes(data[at + 9 : at + 13], "big")
        batches.append(data[at + 13 : at + 13 + size])
        at += 13 + size
    return batches


def slice_of(executable, words, batch):
    """The first slice of a map that was edited by a batch, by a server of its own."""
    with Program(executable, words) as program:
        reply = program.ask("POST", "/edit", batch)
        return program.ask("GET", "/slice/0").text if reply.status == 200 else reply.text


def patient(ask):
    """The answer of who asks again where he is told to."""
    answer = ask()
    end = time.monotonic() + SECONDS
    while answer.told == (503, b"busy, try again\n") and time.monotonic() < end:
        time.sleep(PAUSE)
        answer = ask()
    return answer


class Reader(threading.Thread):
    """Reads the first slice all the time, on one connection or on one for each, and takes down what came."""

    def __init__(self, front, stays):
        super().__init__()
        self.front, self.stays, self.over, self.told, self.longest = front, stays, False, [], 0
        self.start()

    def run(self):
        client = None
        while not self.over:
            begun = time.monotonic()
            try:
                client = client if client and client.sock else self.front.client(next(ADDRESSES))
                answer = answer_of(client, "GET", "/map/slice/0", close=not self.stays)
                client = client if self.stays else None
                self.told.append((answer.status, answer.headers["Tgap-History"], answer.headers["Tgap-Version"], answer.text))
            except (OSError, http.client.HTTPException) as error:
                self.told.append((0, None, None, repr(error).encode()))
                client = None
            self.longest = max(self.longest, time.monotonic() - begun)
            time.sleep(0.02)
        if client:
            client.close()


@contextlib.contextmanager
def readers(front):
    some = [Reader(front, stays) for stays in [True, True, False, False]]
    try:
        yield some
    finally:
        for reader in some:
            reader.over = True
        for reader in some:
            reader.join()


# ---- edits without end


def turned_over(tests):
    """Edits through the front server over three joins: each is published once, and no reader sees more of it than another token."""
    can_be_tried()
    moves = Moves(first_point(tests.executable))
    with tempfile.TemporaryDirectory() as room, Unit(tests.executable, room, COLUMBUS, keeps=True) as unit, Front(unit.run) as front:
        states = {(unit.token, "0"): 0}
        with readers(front) as some:
            for number in range(1, 3 * MOST + 1):
                answer = patient(lambda: front.edit(moves.batch(), source=next(ADDRESSES)))
                moves.made = number
                version = answer.headers["Tgap-Version"]
                tests.same(f"edit {number}", answer.told, (200, f"published {version}\n".encode()))
                if version == "2":
                    states[answer.headers["Tgap-History"], "1"] = number - 1
                states[answer.headers["Tgap-History"], version] = number
            until(lambda: all(any(told[1:3] == (unit.token, version) for told in reader.told) for reader in some), 20)
        told = [told for reader in some for told in reader.told]
        judge(tests, moves, states, told)
        tests.same("what the log has of the edits", [row["status"] for row in kept(front)], ["200"] * moves.made)
        tests.same("all edits are in the journal", b"".join(batches_of(unit.journal.read_bytes())), moves.all())
        tests.same("the map at the end", front.ask("GET", "/map/slice/0").text, slice_of(tests.executable, COLUMBUS, moves.all()))
        tests.holds("what is left beside the journal", sorted(os.listdir(unit.journal.parent)) == ["journal", "journal.before", "journal.history"], os.listdir(unit.journal.parent))
        tests.holds("few sockets are left", len(os.listdir(unit.socket.parent)) <= 6, os.listdir(unit.socket.parent))
        tests.same("how often it turned over", unit.log().count("turned over in "), 3)


def judge(tests, moves, states, told):
    """What readers were told: each history and version is the map of so many edits, and nothing else came."""
    tests.same("what readers are told", {status for status, *_ in told}, {200})
    tests.same("versions that nobody published", {told[1:3] for told in told} - set(states), set())
    wrong = [told[1:3] for told in told if moves.text(states.get(told[1:3], -1)) not in told[3]]
    tests.same("slices of another version than they name", wrong, [])
    tests.same("histories that were read", {history for _, history, _, _ in told}, {history for history, _ in states})
    tests.same("how many histories", len({history for history, _ in states}), 4)


def through_the_gate(tests):
    """Edits of all kinds are told by a keeper what they are told by the program."""
    can_be_tried()
    lines = LONGEST // len(OWN_BATCH) - 6
    batches = [OWN_BATCH, b"no line\n", b"\xff\n", b"class 99 0\n", b"move 1 1 2 2\n", b"", OWN_BATCH * 2000, OWN_BATCH * lines + b"class 10 0\n" * 6, OWN_BATCH * (lines + 7)]
    with tempfile.TemporaryDirectory() as room, Program(tests.executable, COLUMBUS) as program, Front(program.port) as plain:
        with Unit(tests.executable, room, COLUMBUS, keeps=True) as unit, Front(unit.run) as front:
            for batch in batches:
                answers = [each.edit(batch, source=next(ADDRESSES)) for each in [plain, front]]
                tests.same(f"an edit of {len(batch)} bytes", answers[1].told, answers[0].told)
                tests.same("its version and type", *[(answer.headers["Tgap-Version"], answer.headers["Content-Type"]) for answer in answers])
            tests.same("what the journal has", batches_of(unit.journal.read_bytes()), [batches[place] for place in (0, 5, 6, 7)])
            for place in [unit.socket, unit.socket.with_suffix(".edits")]:
                rights = stat.filemode(place.stat().st_mode), place.group(), connects_as("www-data", place), connects_as("nobody", place)
                tests.same(f"who reaches the {place.suffix} of a keeper", rights, ("srw-rw----", "www-data", True, False))


def late_requests(tests):
    """Requests whose bodies are whole only after their history has ended: an edit is told to try again, and who reads or pins is led on. An edit that names
    the history before is refused."""
    can_be_tried()
    moves = Moves(first_point(tests.executable))
    with tempfile.TemporaryDirectory() as room, Unit(tests.executable, room, COLUMBUS, keeps=True, versions=4) as unit, Front(unit.run) as front:
        before, way = unit.token, unit.socket
        with contextlib.ExitStack() as clients:
            asked = [("POST", "/map/edit"), ("GET", "/map/info"), ("POST", "/map/pin")]
            slow = [Slow(clients.enter_context(front.socket(next(ADDRESSES))), *line) for line in asked]
            edited(tests, unit, moves, 3)
            while way.exists() and slow[0].sent < len(OWN_BATCH) * 50:
                for one in slow:
                    one.send(1)
                time.sleep(0.5)
            edit, read, pin = [one.reply() for one in slow]
        tests.holds("an edit that began before", re.fullmatch(rb"HTTP/1.1 503 [\s\S]*\r\n\r\nbusy, try again\n", edit), edit)
        for name, said, text in [("who reads", read, b"version 1 steps 48 "), ("who pins", pin, b"pin 1\n")]:
            tests.holds(f"{name} and began before", said.startswith(b"HTTP/1.1 200 ") and f"Tgap-History: {unit.token}\r\n".encode() in said and text in said, said)
        tests.same("one that names the history before", front.edit(OWN_BATCH, {"Tgap-History": before}, source=next(ADDRESSES)).told, (412, b"another history\n"))
        tests.same("one that names the new one", patient(lambda: front.edit(OWN_BATCH, {"Tgap-History": unit.token}, source=next(ADDRESSES))).told, (200, b"published 2\n"))


class Slow:
    """A request whose body comes byte by byte."""

    def __init__(self, one, method, path):
        self.socket, self.body, self.sent = one, OWN_BATCH * 50, 0
        one.sendall(f"{method} {path} HTTP/1.1\r\nHost: {NAME}\r\nAuthorization: {PASSWORD['Authorization']}\r\nContent-Length: {len(self.body)}\r\n\r\n".encode())

    def send(self, many):
        self.socket.sendall(self.body[self.sent : self.sent + many])
        self.sent += many

    def reply(self):
        self.send(len(self.body))
        return self.socket.recv(65536)


def edited(tests, unit, moves, many, name="an edit"):
    """So many edits past the front server, each of which is published."""
    for _ in range(many):
        answer = patient(lambda: unit.edit(moves.batch()))
        moves.made += answer.status == 200
        tests.same(name, answer.status, 200)


# ---- what stays


def kept_over_restarts(tests):
    """The token stays with the journal, the map, its rules and the program, whatever ends the unit; else there is another one."""
    can_be_tried()
    moves = Moves(first_point(tests.executable))
    with tempfile.TemporaryDirectory() as room, Unit(tests.executable, room, COLUMBUS, keeps=True) as unit:
        token = unit.token
        for end in [unit.kill, unit.end, unit.kill]:
            edited(tests, unit, moves, 2)
            end()
            unit.start()
            tests.same(f"the token after {end.__name__}", unit.token, token)
            tests.same("its version", version_of(unit.ask("GET", "/info").text), moves.made)
        record = unit.journal.with_name("journal.history")
        tests.same("who reads the token", oct(record.stat().st_mode & 0o777), oct(0o666 & ~mask()))
        early = unit.journal.read_bytes()
        tokens = [token, *others(tests, unit, moves, record, early)]
        tests.same("tokens", len(set(tokens)), len(tokens))
        tests.same("the map", unit.ask("GET", "/slice/0").text, slice_of(tests.executable, COLUMBUS, moves.all()))


def mask():
    before = os.umask(0)
    os.umask(before)
    return before


def others(tests, unit, moves, record, early):
    """The tokens that come where something is another than before."""
    changes = {
        "the rules": lambda: appended(unit.environment["OBJECT_RULES"].split()[1], " \n"),
        "the map": lambda: appended(unit.environment["MAP"], " \n"),
        "the program": lambda: appended(unit.program, "\n"),
        "no token": record.unlink,
        "a token that is cut": lambda: record.write_bytes(record.read_bytes()[:30]),
        "an older journal": lambda: unit.journal.write_bytes(early),
        "another journal": lambda: unit.journal.write_bytes(entry(1, moves.all()) + b"\0"),
    }
    for what, change in changes.items():
        edited(tests, unit, moves, 1)
        unit.end()
        change()
        if what == "an older journal":
            moves.made = len(batches_of(early))
        unit.start()
        tests.holds(f"the edits stay with {what}", version_of(unit.ask("GET", "/info").text) in (moves.made, 1), unit.log())
        yield unit.token


def appended(path, text):
    with open(path, "a", encoding="ascii") as file:
        file.write(text)


def started_with_few_versions(tests):
    """A journal with more edits than there may be versions is joined at the start; and one that cannot be served is told."""
    can_be_tried()
    moves = Moves(first_point(tests.executable))
    with tempfile.TemporaryDirectory() as room:
        unit = Unit(tests.executable, room, COLUMBUS, keeps=True)
        with unit:
            edited(tests, unit, moves, 9)
            unit.end()
            token = record_of(unit)
            unit.environment["VERSIONS"] = "4"
            unit.start()
            tests.same("with fewer versions", (version_of(unit.ask("GET", "/info").text), unit.token == token), (1, False))
            tests.same("no edit is lost", b"".join(batches_of(unit.journal.read_bytes())), moves.all())
            unit.end()
        for name, data, status, said in [
            ("an entry of another map", entry(1, b"move 1 1 2 2\n") + b"\0", 4, "refused 22 journal-entry 0"),
            ("an entry that does not follow", entry(2, b"class 1 0\n") + b"\0", 4, "refused 22 journal-entry 0"),
            ("a journal that is too long", entry(1, b"") + b"\0" * (1 << 26), 4, "refused 20 input-long 67108864"),
        ]:
            unit.journal.write_bytes(data)
            ended = started(unit)
            tests.same(f"a start with {name}", (ended.returncode, said in ended.stderr), (status, True))


def record_of(unit):
    return re.match("history (.*)\n", unit.journal.with_name("journal.history").read_text())[1]


def started(unit):
    """The end of a start that fails."""
    unit.step("begin")
    return unit.step("serve", "unshare", "-n", "sh", "-c", 'ip link set lo up && exec "$@"', "sh", *as_user())


# ---- ends at each moment

# In the keeper's place: ends all of it before the so manieth call that changes a file or starts a program, counted from
# the copying of the journal on. Where there are fewer calls it goes on.
KILLER = """#!/usr/bin/python3 -B
import os, runpy, shutil, signal, subprocess, sys
left, counts = int(os.environ["LEFT"]), False
def counted(place, name):
    real = getattr(place, name)
    def call(*words, **more):
        global left
        left -= counts
        if counts and left < 0:
            os.killpg(0, signal.SIGKILL)
        return real(*words, **more)
    setattr(place, name, call)
def begun(real):
    def call(*words, **more):
        global counts
        counts = True
        return real(*words, **more)
    return call
for name in ["replace", "link", "unlink", "symlink", "fsync"]:
    counted(os, name)
for name in ["run", "Popen"]:
    counted(subprocess, name)
shutil.copy = begun(shutil.copy)
sys.argv = [KEEPER, *sys.argv[1:]]
runpy.run_path(KEEPER, run_name="__main__")
"""
AT_A_TIME = 4


def ended_in_a_turn(tests, every=3):
    """A crash of the unit or of the machine, at each so manieth moment of a turn, leaves a state from which the unit starts, with each edit that was
    acknowledged. tests/sweep/long_edits tries all moments."""
    can_be_tried()
    point = first_point(tests.executable)
    with tempfile.TemporaryDirectory() as folder:
        library = disk_library(tests, folder)
        for first in itertools.count(0, AT_A_TIME * every):
            moments = range(first, first + AT_A_TIME * every, every)
            ended = side_by_side([lambda left=left: ended_at(tests, point, left, library) for left in moments])
            if False in ended:
                break
    tests.within("moments of a turn", moments[ended.index(False)], 20, 60)


def disk_library(tests, folder):
    """What tells of each file of a folder what its disk has for sure, or None where it cannot be made."""
    if not tool("cc"):
        tests.skip("stops of the machine", "cc is missing")
        return None
    os.chmod(folder, 0o755)
    subprocess.run([tool("cc"), "-O1", "-shared", "-fPIC", "-o", f"{folder}/disk.so", pathlib.Path(__file__).with_name("disk.c"), "-ldl"], check=True)
    return f"{folder}/disk.so"


def ended_at(tests, point, left, library):
    """Whether the keeper was ended after so many calls."""
    moves, name = Moves(point), f"ended after {left} calls"
    with tempfile.TemporaryDirectory() as room:
        unit = Unit(tests.executable, room, COLUMBUS, keeps=True, versions=4)
        state, image = unit.journal.parent, unit.room / "image"
        image.mkdir()
        shutil.chown(image, USER, USER)
        real = unit.keeper.rename(unit.room / "real-keeper")
        written_program(unit.keeper, KILLER.replace("KEEPER", repr(str(real))))
        unit.environment |= {"LEFT": str(left), **({"LD_PRELOAD": library, "STATE": str(state), "IMAGE": str(image)} if library else {})}
        with unit:
            before = unit.token
            edited(tests, unit, moves, 3, name)
            until(lambda: unit.running.process.poll() is not None or "turned over in" in unit.log())
            was_ended = unit.running.process.poll() is not None
            unit.kill()
            real.rename(unit.keeper)
            unit.environment.pop("LD_PRELOAD", None)
            crashes = {name: contents(state)}
            if library:
                crashes |= {f"{name}, the machine too": stored(image, None), f"{name}, the machine too, whose folder was stored": stored(image, state)}
            for crash, files in crashes.items():
                left_with(state, files)
                begun_again(tests, unit, moves, before, crash)
    return was_ended


def contents(folder):
    return {path.name: path.read_bytes() for path in folder.iterdir()}


def stored(image, folder):
    """What a stop of the machine leaves: each file as it was synced last, by the names of the last sync of the folder, or by those that there were."""
    if folder:
        names = subprocess.run(["find", folder, "-type", "f", "-exec", "stat", "-c", "%i-%.9W %n", "{}", "+"], capture_output=True, text=True, check=True).stdout
    else:
        names = (image / "names").read_text()
    pairs = [line.split(" ", 1) for line in names.splitlines()]
    return {pathlib.Path(name).name: (image / key).read_bytes() if (image / key).exists() else b"" for key, name in pairs}


def left_with(folder, files):
    """Has a folder have these files alone."""
    for path in folder.iterdir():
        path.unlink()
    for name, data in files.items():
        (folder / name).write_bytes(data)
        shutil.chown(folder / name, USER, USER)


def begun_again(tests, unit, moves, before, name):
    """Starts the unit over what a crash left."""
    unit.start()
    again = Moves((moves.x, moves.y))
    again.made = moves.made
    is_joined = version_of(unit.ask("GET", "/info").text) == 1
    tests.holds(f"{name}: the edits are joined, and have another token", is_joined and unit.token != before, unit.log())
    tests.same(f"{name}: the edits", b"".join(batches_of(unit.journal.read_bytes())), again.all())
    edited(tests, unit, again, 1, f"{name}: an edit after it")
    tests.holds(f"{name}: the map", again.text(again.made) in unit.ask("GET", "/slice/0").text)
    unit.kill()


# ---- what fails


def lost_disk(tests):
    """An edit that could not be stored is told so; the program begins anew with the disk, and under the same token."""
    can_be_tried()
    moves = Moves(first_point(tests.executable))
    with tempfile.TemporaryDirectory() as room:
        unit = Unit(tests.executable, room, COLUMBUS, keeps=True)
        hasty(unit, "60, 600, 1")
        # A file that is too long is an error to it then, and not its end.
        real = pathlib.Path(unit.program).rename(unit.room / "real")
        written_program(pathlib.Path(unit.program), f'#!/bin/sh\ntrap "" XFSZ\nexec {real} "$@"\n')
        with unit, Front(unit.run) as front, readers(front) as some:
            token = unit.token
            edited(tests, unit, moves, 2)
            limit_files(real)
            tests.same("an edit that cannot be stored", unit.edit(moves.batch()).told, (500, b"journal fault\n"))
            edited(tests, unit, moves, 2, "an edit after the program has begun anew")
            tests.same("its token and version", (unit.token, version_of(unit.ask("GET", "/info").text)), (token, 4))
            disk_without_room(tests, unit, moves, real)
            tests.same("what readers are told meanwhile", {told[:2] for reader in some for told in reader.told}, {(200, token)})
        tests.same("no edit is lost", b"".join(batches_of(unit.journal.read_bytes())), moves.all())


def disk_without_room(tests, unit, moves, real):
    """Where the disk takes nothing at all the program goes on for readers, until it does."""
    unit.journal.parent.chmod(0o500)
    limit_files(real)
    time.sleep(1)
    tests.same("an edit when the disk takes nothing", {patient(lambda: unit.edit(moves.batch())).status for _ in range(3)}, {500})
    tests.holds("what is said of it", until(lambda: "takes nothing else either" in unit.log()), unit.log())
    tests.same("who reads then", unit.ask("GET", "/info").status, 200)
    unit.journal.parent.chmod(0o700)
    time.sleep(1)
    tests.holds("an edit when it takes files again", until(lambda: patient(lambda: unit.edit(moves.batch())).status == 200), unit.log())
    moves.made += 1


def hasty(unit, seconds):
    """Has a keeper try again sooner what has failed."""
    unit.keeper.write_text(exchanged(unit.keeper.read_text(), [("DISK_AGAIN_SECONDS = 60, 600, 60", f"DISK_AGAIN_SECONDS = {seconds}")]))


def limit_files(program):
    """Has the program write no byte more to any file."""
    listed = subprocess.run(["pgrep", "-f", f"^{program} keep"], capture_output=True, text=True, check=True).stdout.split()
    subprocess.run([*as_user(), "prlimit", "--pid", listed[0], "--fsize=0"], check=True)


def not_joined(tests):
    """Where edits cannot be joined they go on to the last version, and further when they can."""
    can_be_tried()
    moves = Moves(first_point(tests.executable))
    with tempfile.TemporaryDirectory() as room:
        unit = Unit(tests.executable, room, COLUMBUS, keeps=True, versions=8)
        hasty(unit, "60, 1, 60")
        tool = unit.room / "tools/journal"
        text = tool.read_text()
        written_program(tool, "#!/bin/sh\necho 'no room' >&2\nexit 6\n")
        with unit:
            token = unit.token
            edited(tests, unit, moves, 7)
            tests.same("then the versions are full", patient(lambda: unit.edit(moves.batch())).told, (507, b"versions full 8\n"))
            tests.holds("what is said of it", "the edits are not joined" in unit.log() and "no room" in unit.log(), unit.log())
            unit.kill()
            unit.start()
            tests.same("a start with as many", version_of(unit.ask("GET", "/info").text), 7)
            tests.holds("is another history, since the joined one might be", unit.token != token)
            written_program(tool, text)
            time.sleep(1)
            tests.holds("they are joined when they can be", until(lambda: patient(lambda: unit.edit(moves.batch())).status == 200), unit.log())
            moves.made += 1
        tests.same("no edit is lost", b"".join(batches_of(unit.journal.read_bytes())), moves.all())


def without_memory(tests):
    """Where there is no memory for one more version, edits are joined before their versions come to an end."""
    can_be_tried()
    with tempfile.TemporaryDirectory() as room, tempfile.TemporaryDirectory() as maps:
        unit = Unit(tests.executable, room, [written(maps, LARGE)], keeps=True)
        unit.environment |= {"WORKERS": "1", "MALLOC_ARENA_MAX": "1"}
        with unit:
            token, batches = unit.token, [b"move %d 1 %d 2\n" % (at, at) for at in (2, 6, 10)]
            tests.same("edits with memory", [unit.edit(batch).told for batch in batches[:2]], [(200, b"published 1\n"), (200, b"published 2\n")])
            (process,) = subprocess.run(["pgrep", "-f", f"^{unit.program} keep"], capture_output=True, text=True, check=True).stdout.split()
            size = re.search(r"VmSize:\s+(\d+) kB", pathlib.Path(f"/proc/{process}/status").read_text())[1]
            subprocess.run([*as_user(), "prlimit", "--pid", process, f"--as={int(size) << 10}"], check=True)
            tests.same("an edit without", unit.edit(batches[2]).told, (503, b"memory\n"))
            tests.same("and again", patient(lambda: unit.edit(batches[2])).told, (200, b"published 2\n"))
            tests.holds("another history", unit.token != token)
        tests.same("no edit is lost", b"".join(batches_of(unit.journal.read_bytes())), b"".join(batches))


def by_another_way(tests):
    """An edit that comes past the gate while the edits are joined is not lost."""
    can_be_tried()
    moves = Moves(first_point(tests.executable))
    with tempfile.TemporaryDirectory() as room, Unit(tests.executable, room, COLUMBUS, keeps=True, versions=8) as unit:
        before = unit.token
        edited(tests, unit, moves, 6)
        tests.holds("a copy is made", until(lambda: unit.journal.with_name("journal.turn").exists()))
        # By the socket of readers, as root can.
        tests.same("an edit past the gate", unit.ask("POST", "/edit", moves.batch()).told, (200, b"published 7\n"))
        moves.made += 1
        tests.holds("it turns over", until(lambda: unit.token != before and "turned over" in unit.log()), unit.log())
        tests.holds("what is said of it", "an edit has come by another way" in unit.log(), unit.log())
        tests.same("the edits", (b"".join(batches_of(unit.journal.read_bytes())), len(batches_of(unit.journal.read_bytes()))), (moves.all(), 1))


def held_by_another(tests):
    """A journal that somebody else holds is waited for."""
    can_be_tried()
    with tempfile.TemporaryDirectory() as room, Unit(tests.executable, room, COLUMBUS, keeps=True) as unit:
        unit.edit(b"class 1 0\n")
        unit.end()
        with subprocess.Popen(["flock", unit.journal, "sleep", "4"]):
            unit.start()
            tests.same("the map of a journal that was held", version_of(unit.ask("GET", "/info").text), 1)
        tests.holds("what is said of it", "load fault journal: it is tried again" in unit.log(), unit.log())


# ---- copies


def copied_at_any_time(tests):
    """A copy of the journal has what was acknowledged when it was begun, also while edits come and are joined."""
    can_be_tried()
    moves = Moves(first_point(tests.executable))
    with tempfile.TemporaryDirectory() as room, tempfile.TemporaryDirectory() as other, Unit(tests.executable, room, COLUMBUS, keeps=True) as unit:
        copies, over = [], threading.Event()

        def copy():
            while not over.is_set():
                many, path = moves.made, pathlib.Path(other) / str(len(copies))
                subprocess.run(["tar", "-C", unit.room, "-cf", path, "--exclude=journal.history", "state"], stderr=subprocess.DEVNULL, check=False)
                copies.append((many, path))

        thread = threading.Thread(target=copy)
        thread.start()
        edited(tests, unit, moves, 2 * MOST)
        over.set()
        thread.join()
        for many, path in copies:
            subprocess.run(["tar", "-C", other, "-xf", path], check=True)
            data = (pathlib.Path(other) / "state/journal").read_bytes()
            found = b"".join(batches_of(data))
            tests.holds("a copy has what was acknowledged before", moves.all().startswith(found) and found.count(b"\n") >= many, (many, found[-60:]))
        tests.holds("there are many copies", len(copies) > 5, len(copies))
