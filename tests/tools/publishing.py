"""Tests how tools/publish puts an archive into a folder: whole or not at all, whatever stops it, and how it reads a server whose map is edited meanwhile."""
import contextlib
import errno
import http.server
import json
import os
import pathlib
import resource
import signal
import subprocess
import sys
import threading

import lib

sys.path.insert(0, str(lib.TOP / "tools/lib"))
import archive_folder  # noqa: E402
import command  # noqa: E402
from archive_format import Archive  # noqa: E402

# What a process does to a folder, one call after the other.
CALLS = ["open", "mkdir", "fsync", "replace", "unlink"]


def test(tests, examples):
    stopped_anywhere(tests)
    killed(tests, examples)
    several_at_once(tests, examples)
    interrupted(tests, examples)
    no_room(tests, examples)
    full_disk(tests, examples)
    what_stays(tests, examples)
    served_maps(tests, examples)
    edited_meanwhile(tests, examples)
    refusals(tests, examples)


def whole(folder):
    """What is wrong with a folder: map.json tells an archive that is there, as long as it tells, and sound."""
    try:
        found = json.loads((folder / "map.json").read_text())
        data = (folder / found["archive"]).read_bytes()
        Archive("the archive", data)
        return [] if len(data) == found["bytes"] and archive_folder.name_of(data) == found["archive"] else ["another length or name"]
    except (OSError, ValueError, command.Failure) as error:
        return [str(error)]


def names(folder):
    return sorted(path.name for path in folder.iterdir())


def archives_of(tests, examples):
    """Three archives that differ, as bytes."""
    made = []
    for name in ("two_squares", "three_squares", "four_squares"):
        tests.tool("publish", examples / f"{name}.tgap", f"of_{name}")
        path, = (tests.folder / f"of_{name}").glob("*.archive")
        made.append(path.read_bytes())
    return made


def stopped_anywhere(tests):
    """A process that is killed before any of its calls leaves the old map whole, or the new one."""
    first, second, third = archives_of(tests, lib.TOP / "examples")
    folder = tests.folder / "stopped"
    archive_folder.put(folder, first, {})
    archive_folder.put(folder, second, {})
    before, seen, count = json.loads((folder / "map.json").read_text()), set(), 0
    while stops_at(folder, third, count):
        faults = whole(folder)
        found = json.loads((folder / "map.json").read_text())
        old = {name: (folder / name).exists() for name in (before["archive"], found["archive"])}
        tests.tell(f"killed before call {count}", faults + [f"{name} is gone" for name, there in old.items() if not there])
        seen.add(found["archive"])
        # The next one goes on from there, and takes away what was left.
        archive_folder.put(folder, second, {})
        tests.tell(f"after call {count}", whole(folder) + [f"left: {name}" for name in names(folder) if name.startswith(".")])
        count += 1
    tests.tell("there were calls", [] if count > 8 else [f"{count}"])
    tests.same("old and new were seen", len(seen), 2)


def stops_at(folder, data, count, fault=None):
    """Puts an archive by a process that kills itself before its call of this number, or to which this call has the fault; False where it came to its end."""
    child = os.fork()
    if child == 0:
        left = [count]

        def stopping(call):
            def called(*words, **more):
                left[0] -= 1
                if left[0] == -1 and fault:
                    raise fault
                if left[0] == -1:
                    os.kill(os.getpid(), signal.SIGKILL)
                return call(*words, **more)
            return called

        for name in CALLS:
            setattr(os, name, stopping(getattr(os, name)))
        archive_folder.open = stopping(open)
        pathlib.Path.unlink = stopping(pathlib.Path.unlink)
        with contextlib.suppress(KeyboardInterrupt, command.Failure):
            archive_folder.put(folder, data, {})
            os._exit(int(left[0] < 0))
        os._exit(1)
    return os.waitpid(child, 0)[1] != 0


def killed(tests, examples):
    """The tool itself, killed at some moments: the folder has the old map."""
    words = [lib.TOP / "tools/publish", examples / "columbus.json", "areas", examples / "columbus.rules.json", "killed", "--faces", "2", "--program", tests.executable]
    tests.done("publish to be replaced", tests.tool("publish", examples / "two_squares.tgap", "killed"), "published")
    for tenths in (1, 3, 6):
        with subprocess.Popen(list(map(str, words)), cwd=tests.folder, stdout=subprocess.DEVNULL, stderr=subprocess.DEVNULL) as process:
            try:
                process.wait(tenths / 10)
            except subprocess.TimeoutExpired:
                process.kill()
        tests.tell(f"killed after {tenths} tenths of a second", whole(tests.folder / "killed"))
    tests.done("and then it is published", tests.command(words), "49 faces")
    tests.tell("whole", whole(tests.folder / "killed"))


def several_at_once(tests, examples):
    """Several that publish at a time: each is whole, and the folder has one of them, with at most one before it."""
    names_of = ["two_squares", "three_squares", "four_squares", "two_squares_ratio_0"] * 2
    asked = [[str(lib.TOP / "tools/publish"), str(examples / f"{name}.tgap"), "crowd", "--program", tests.executable] for name in names_of]
    running = [subprocess.Popen(words, cwd=tests.folder, stdout=subprocess.PIPE, stderr=subprocess.PIPE, text=True) for words in asked]
    said = [process.communicate(timeout=lib.SECONDS) for process in running]
    tests.same("each was published", [(process.returncode, err) for process, (_, err) in zip(running, said)], [(0, "")] * len(running))
    folder = tests.folder / "crowd"
    tests.tell("the last one is whole", whole(folder))
    tests.within("how many archives are left", len(list(folder.glob("*.archive"))), 1, 2)
    tests.tell("it is one of them", [] if any(json.loads((folder / "map.json").read_text())["archive"] in out for out, _ in said) else ["another"])


def interrupted(tests, examples):
    """An interrupt, or a disk with a fault, at any call: the old map or the new one, whole, and nothing beside it; what was there for readers stays."""
    first, second, third = archives_of(tests, examples)
    for number, (new, fault) in enumerate((new, fault) for new in (third, first) for fault in (KeyboardInterrupt(), OSError(errno.EIO, "Input/output error"))):
        folder, count, goes_on = tests.folder / f"interrupted{number}", 0, True
        while goes_on:
            for data in (first, second):
                archive_folder.put(folder, data, {})
            before = set(names(folder))
            goes_on = stops_at(folder, new, count, fault)
            tests.tell(f"{fault!r} at call {count}", whole(folder) + beside(folder, before, archive_folder.name_of(second), archive_folder.name_of(new)))
            count += 1
        tests.tell(f"{fault!r}: there were calls", [] if count > 8 else [f"{count}"])
    interrupted_tool(tests, examples)


def beside(folder, before, old, new):
    """What is wrong with the names in a folder: with the old map those of before, and with the new one that and the old one, and no others than were there."""
    there, found = set(names(folder)), json.loads((folder / "map.json").read_text())["archive"]
    sound = there == before if found == old else {"map.json", old, new} <= there <= before | {new}
    return [] if sound else [f"{sorted(there)}, before that {sorted(before)}"]


def interrupted_tool(tests, examples):
    """The tool ends by the signal that it gets, without a word."""
    words = [lib.TOP / "tools/publish", examples / "columbus.json", "areas", examples / "columbus.rules.json", "ended", "--faces", "2", "--program", tests.executable]
    for number in (signal.SIGINT, signal.SIGTERM):
        with subprocess.Popen(list(map(str, words)), cwd=tests.folder, stdout=subprocess.PIPE, stderr=subprocess.PIPE, stdin=subprocess.DEVNULL) as process:
            with contextlib.suppress(subprocess.TimeoutExpired):
                process.wait(0.6)
            process.send_signal(number)
            _, said = process.communicate(timeout=lib.SECONDS)
        ended = process.returncode == 0 or (process.returncode, said) == (-number, b"")
        faults = [] if ended else [f"{process.returncode}: {said!r:.600}"]
        tests.tell(f"the tool at signal {number}", faults + (whole(tests.folder / "ended") if (tests.folder / "ended").exists() else []))


@contextlib.contextmanager
def small_disk(tests, size):
    """A file system of so many bytes; None where no other may be put into the tree."""
    folder = tests.folder / "disk"
    folder.mkdir(exist_ok=True)
    made = subprocess.run(["mount", "-t", "tmpfs", "-o", f"size={size},mode=755", "tmpfs", folder], capture_output=True, check=False)
    try:
        yield folder if made.returncode == 0 else None
    finally:
        if made.returncode == 0:
            subprocess.run(["umount", folder], check=True)


def full_disk(tests, examples):
    """A disk with room for some pages alone: either all is published, or a sentence tells that it is full, and the old map stays with nothing beside it."""
    words = [examples / "columbus.json", "areas", examples / "columbus.rules.json", "disk/map"]
    page, said = resource.getpagesize(), set()
    for free in range(8):
        with small_disk(tests, 16 * page) as disk:
            if not disk:
                tests.skip("a full disk", "no file system may be mounted here")
                return
            tests.tool("publish", examples / "two_squares.tgap", "disk/map")
            before = names(disk / "map")
            room = os.statvfs(disk)
            (disk / "other").write_bytes(bytes((room.f_bavail - free) * room.f_bsize))
            made = tests.tool("publish", *words)
            name = "map.json" if "map.json" in made.stderr else ".archive"
            if made.returncode:
                tests.refused(f"publish with {free} pages free", made, 6, f"{name} cannot be written: No space left on device")
                tests.same(f"what is left, with {free} pages free", names(disk / "map"), before)
            said.add(name if made.returncode else "published")
            tests.tell(f"the map with {free} pages free", whole(disk / "map"))
    tests.same("what became of them", sorted(said), [".archive", "map.json", "published"])


def no_room(tests, examples):
    """Where no more can be written: a sentence, the old map, and nothing is left of the new one."""
    tests.tool("publish", examples / "two_squares.tgap", "full")
    before = names(tests.folder / "full")
    words = list(map(str, [lib.TOP / "tools/publish", examples / "columbus.json", "areas", examples / "columbus.rules.json", "full", "--program", tests.executable]))
    for most in (2000, 0):
        made = subprocess.run(words, cwd=tests.folder, capture_output=True, text=True, timeout=lib.SECONDS, check=False, stdin=subprocess.DEVNULL,
                              preexec_fn=lambda most=most: resource.setrlimit(resource.RLIMIT_FSIZE, (most, most)))
        tests.refused(f"publish with room for {most} bytes", made, 6, ".archive cannot be written: File too large")
        tests.same("what is left", names(tests.folder / "full"), before)
    tests.tell("the old map is whole", whole(tests.folder / "full"))
    no_room_for_the_map(tests)


def no_room_for_the_map(tests):
    """Where the archive had room and map.json has none, the archive goes again."""
    first, second, _ = archives_of(tests, lib.TOP / "examples")
    folder = tests.folder / "nearly"
    archive_folder.put(folder, first, {})
    before = names(folder)
    child = os.fork()
    if child == 0:
        resource.setrlimit(resource.RLIMIT_FSIZE, (len(second), len(second)))
        try:
            archive_folder.put(folder, second, {"metadata": "x" * len(second)})
        except command.Failure as failure:
            os._exit(0 if "map.json cannot be written" in str(failure) and failure.status == 6 else 2)
        os._exit(1)
    tests.same("no room for map.json", os.waitstatus_to_exitcode(os.waitpid(child, 0)[1]), 0)
    tests.same("the folder is as it was", names(folder), before)
    tests.tell("and whole", whole(folder))


def what_stays(tests, examples):
    """The archive that was the newest stays, those before it go; the same map again changes nothing; what is not ours stays."""
    folder = tests.folder / "stays"
    seen = []
    for name in ("two_squares", "three_squares", "four_squares"):
        tests.tool("publish", examples / f"{name}.tgap", "stays")
        seen.append(json.loads((folder / "map.json").read_text())["archive"])
        (folder / "index.html").write_text("page")
        (folder / "map-of-mine.archive").write_text("mine")
    tests.same("the newest two", names(folder), sorted([*seen[1:], "index.html", "map-of-mine.archive", "map.json"]))
    again = (folder / "map.json").read_bytes()
    tests.done("once more", tests.tool("publish", examples / "four_squares.tgap", "stays"), seen[2])
    tests.same("nothing has changed", (names(folder), (folder / "map.json").read_bytes()), (sorted([*seen[1:], "index.html", "map-of-mine.archive", "map.json"]), again))


def served_maps(tests, examples):
    """A map that is served gives the archive of its file, with its version; after an edit that of the next one."""
    with lib.Server(tests.executable, examples / "two_squares.tgap", 2, 4) as server:
        made = tests.tool("publish", "--from", f"http://127.0.0.1:{server.port}/", "served")
        tests.done("publish a map that is served", made, "map-19d83e60a64b1cef.archive: 2 faces, 1 step")
        found = json.loads((tests.folder / "served/map.json").read_text())
        tests.same("what map.json tells", (found["version"], found["history"], found["metadata"]), (0, None, None))
        tests.same("an edit", lib.asked_once(server, "POST", "/edit", b"move 20 10 24 10\n")[:3], (200, 1, b"published 1\n"))
        tests.done("publish it anew", tests.tool("publish", "--from", f"http://localhost:{server.port}", "served"), "2 faces, 1 step")
        found = json.loads((tests.folder / "served/map.json").read_text())
        tests.same("the next version", (found["version"], found["bounds"]), (1, [0, 0, 24, 10]))
        tests.same("the one before stays", len(list((tests.folder / "served").glob("*.archive"))), 2)


class Front(http.server.BaseHTTPRequestHandler):
    """A front server as docs/deployment.md has it: each request has a connection of its own, so each sees the newest version. `edits` are published on the way,
    one before each request of that number; the map has a history and metadata, and now and then the front is busy."""
    protocol_version = "HTTP/1.1"

    def do_GET(self):  # pylint: disable=invalid-name
        self.server.count += 1
        if self.path == "/map/meta.json":
            self.answer(200, None, b'{"name": "front", "transform": {"scale": [2, 2], "translate": [1, 1]}, "faces": [0, 0], "areas": []}')
            return
        if self.server.count % 4 == 0:
            self.answer(503, None, b"busy, try again\n")
            return
        if self.server.edits and self.path.startswith("/map/window-packet"):
            lib.asked_once(self.server.program, "POST", "/edit", self.server.edits.pop())
        status, version, text = lib.asked_once(self.server.program, "GET", self.path.removeprefix("/map"))[:3]
        self.answer(status, version, text)

    def answer(self, status, version, text):
        self.send_response(status)
        self.send_header("Tgap-History", "0123456789abcdef")
        if version is not None:
            self.send_header("Tgap-Version", str(version))
        self.send_header("Content-Length", str(len(text)))
        self.end_headers()
        self.wfile.write(text)

    def log_message(self, *_):
        pass


def edited_meanwhile(tests, examples):
    """An edit on the way makes the tool begin again; where they do not end it says so, and the folder keeps what it had."""
    with lib.Server(tests.executable, examples / "two_squares.tgap", 2, 64) as program, http.server.ThreadingHTTPServer(("127.0.0.1", 0), Front) as front:
        front.program, front.count, front.edits = program, 0, [b"move 20 10 24 10\n"]
        threading.Thread(target=front.serve_forever, daemon=True).start()
        root = f"http://127.0.0.1:{front.server_port}/map/"
        tests.done("publish over an edit", tests.tool("publish", "--from", root, "front"), "2 faces, 1 step")
        found = json.loads((tests.folder / "front/map.json").read_text())
        tests.same("one version of it", (found["version"], found["history"], found["bounds"]), (1, "0123456789abcdef", [0, 0, 24, 10]))
        tests.same("its metadata", (found["metadata"], found["transform"]), ({"name": "front", "transform": {"scale": [2, 2], "translate": [1, 1]}},
                                                                            {"scale": [2, 2], "translate": [1, 1]}))
        before = names(tests.folder / "front")
        front.edits = [b"move %d 10 %d 10\n" % (24 + at, 25 + at) for at in range(30)][::-1]
        made = tests.tool("publish", "--from", root, "front")
        tests.refused("edits without an end", made, 1, "was edited 3 times while it was read: publish it again")
        tests.same("the folder is as it was", names(tests.folder / "front"), before)
        front.shutdown()


class Other(http.server.BaseHTTPRequestHandler):
    """A web server that has no map: it answers everything."""

    def do_GET(self):  # pylint: disable=invalid-name
        text = b"hello\n"
        self.send_response(200)
        if self.path.startswith("/odd"):
            self.send_header("Tgap-Version", "0")
        self.send_header("Content-Length", str(len(text)))
        self.end_headers()
        self.wfile.write(text)

    def log_message(self, *_):
        pass


def refusals(tests, examples):
    squares, columbus = examples / "two_squares.tgap", [examples / "columbus.json", "areas", examples / "columbus.rules.json"]
    tests.write("file", "a file")
    (tests.folder / "mine").mkdir()
    tests.write("mine/map.json", '{"type": "Topology"}')
    free = lib.free_port()
    with http.server.ThreadingHTTPServer(("127.0.0.1", 0), Other) as other:
        threading.Thread(target=other.serve_forever, daemon=True).start()
        there = f"http://127.0.0.1:{other.server_port}"
        cases = [("no word", [], 2, "the words are MAP FOLDER"), ("a map alone", [squares], 2, "the words are"),
                 ("a topology without rules", [*columbus[:2], "new"], 2, "the words are"),
                 ("a map and a server", [squares, "new", "--from", there], 2, "the words are"),
                 ("two kinds", ["new", "--from", there, "--check", "file"], 2, "not allowed"),
                 ("metadata of a listing", [squares, "new", "--meta", "none"], 2, "--meta wants a topology"),
                 ("no face", [squares, "new", "--faces", 0], 2, "--faces"),
                 ("a map that is not there", ["nowhere.tgap", "new"], 3, "load fault map"), ("a file that is no map", ["file", "new"], 4, "refused 18 bad-line 1"),
                 ("a map with a fault", [examples / "crossing.tgap", "new"], 4, "refused 15 meets"),
                 ("an object that is not there", [columbus[0], "lakes", columbus[2], "new"], 4, "no-object"),
                 ("a folder that is a file", [squares, "file"], 6, "file is no folder"),
                 ("a folder in none", [squares, "nowhere/new"], 6, "nowhere/new cannot be written: there is no folder nowhere"),
                 ("a folder in a file", [squares, "file/new"], 6, "file/new cannot be written"),
                 ("another map.json", [squares, "mine"], 4, "mine/map.json is not what publish writes, and stays as it is"),
                 ("a server that is not there", ["--from", f"http://127.0.0.1:{free}", "new"], 3, "does not answer"),
                 ("no address", ["--from", "localhost:80", "new"], 3, "is no address of a server"),
                 ("an address of a file", ["--from", "file:///etc/passwd", "new"], 3, "is no address of a server"),
                 ("a port that is none", ["--from", "http://localhost:x/", "new"], 3, "is no address of a server"),
                 ("a server of another kind", ["--from", there, "new"], 3, "is no server of a map: to /info it answers 200 hello"),
                 ("a server of another text", ["--from", f"{there}/odd", "new"], 3, "is no server of a map: to /info it answers hello")]
        for name, words, status, told in cases:
            tests.refused(f"publish: {name}", tests.tool("publish", *words), status, told)
        other.shutdown()
    tests.same("what was there stays", (tests.read("mine/map.json"), (tests.folder / "file").read_text()), ({"type": "Topology"}, "a file"))
    read_only(tests, squares)


def read_only(tests, squares):
    """A folder that may not be written to. Root may write everywhere but where nothing can be."""
    folder = tests.folder / "fixed"
    folder.mkdir(mode=0o555)
    where = "/proc/self" if os.geteuid() == 0 else "fixed"
    made = tests.tool("publish", squares, where)
    tests.refused("publish: a folder that may not be written", made, 6, f"{where}", "cannot be written")
    folder.chmod(0o755)
