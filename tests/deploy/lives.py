"""The steps of deploy/tgap-unit without systemd: the program in a network of its own, its lives, and a stop that waits for
an edit. Folders, port and user are exchanged."""
import http.client
import os
import pathlib
import re
import shutil
import signal
import socket
import stat
import subprocess
import tempfile

from front import COLUMBUS, PATH, PROXY, TOP, Front, Running, answer_of, exchanged, listens, tool, until
from kept import kept
from large_map import LARGE, written
from lib import SECONDS, Skipped, free_port
from live import AT_ONCE, OWN_BATCH, side_by_side, timed

TOOLS = ["unshare", "nsenter", "ip", "setpriv", "pkill", "systemd-socket-activate"]
USER = "daemon"


class Unit:
    """tgap@columbus, with a folder of its own for all that it writes, and with a journal there where it is to have one."""

    def __init__(self, executable, room, words, drain_seconds=30, versions=16, keeps=False):
        self.room, self.run, self.port, self.running = pathlib.Path(room), pathlib.Path(room) / "run", free_port(), None
        self.room.chmod(0o755)
        # The program's user may not be one who can reach the folder of the repository.
        files = {word: shutil.copy(word, room) for word in [executable, *words] if pathlib.Path(word).exists()}
        self.program, self.journal, self.keeper = files[executable], self.room / "state/journal", self.room / "tgap-keeper"
        text = exchanged((TOP / "deploy/tgap-unit").read_text(), [
            ("run=/run/tgap", f"run={self.run}"), ("user=tgap", f"user={USER}"), ("program=/usr/local/bin/tgap", f"program={self.program}"), ("port=8080", f"port={self.port}"),
            ("drain_seconds=30", f"drain_seconds={drain_seconds}"), ("keeper=/usr/local/lib/tgap/tgap-keeper", f"keeper={self.keeper}"),
        ])
        written_program(self.room / "steps", text)
        path, *rules = [str(files.get(word, word)) for word in words]
        self.environment = {**os.environ, "PATH": PATH, "MAP": path, "WORKERS": "4", "VERSIONS": str(versions), "OBJECT_RULES": " ".join(rules)}
        if keeps:
            self.keep()

    def keep(self):
        shutil.copy(TOP / "deploy/tgap-keeper", self.keeper)
        shutil.copytree(TOP / "tools", self.room / "tools")
        self.journal.parent.mkdir()
        shutil.chown(self.journal.parent, USER, USER)
        self.environment["JOURNAL"] = str(self.journal)

    def __enter__(self):
        self.start()
        return self

    def __exit__(self, *_):
        self.kill()

    def step(self, step, *under, name="columbus", **environment):
        words = [*under, self.room / "steps", step, name]
        return subprocess.run([str(word) for word in words], env={**self.environment, **environment}, capture_output=True, text=True, timeout=SECONDS, check=False)

    def beside(self, step):
        """A step in the network of the program, by its user."""
        process = self.running.process.pid
        return self.step(step, "nsenter", "-t", process, "-n", *as_user(), MAINPID=str(process))

    def start(self):
        if (begun := self.step("begin")).returncode:
            raise OSError(f"no life begins: {begun.stderr}")
        words = ["unshare", "-n", "sh", "-c", 'ip link set lo up && exec "$@"', "sh", *as_user(), self.room / "steps", "serve", "columbus"]
        with (self.room / "log").open("a") as log:
            self.running = Running(words, env=self.environment, stdout=subprocess.DEVNULL, stderr=log)
        # It has its network before its user; whoever enters before it is there stays outside.
        until(lambda: pathlib.Path(f"/proc/{self.running.process.pid}").owner() == USER)
        if (opened := self.beside("open")).returncode:
            self.kill()
            raise OSError(f"the program does not serve: {opened.stderr}")

    def kill(self):
        """As the unit does after a stop or a crash: nobody of this life is left. The number of one that was waited for may be another's."""
        if self.running.process.returncode is None:
            os.killpg(self.running.process.pid, signal.SIGKILL)
            self.running.process.wait(SECONDS)

    def ask(self, method, path, body=None, way="sock"):
        """Past the front server, by the sockets of the history that there is."""
        client = http.client.HTTPConnection("columbus", timeout=SECONDS)
        client.sock = socket.socket(socket.AF_UNIX)
        client.sock.settimeout(SECONDS)
        client.sock.connect(str(self.socket.with_suffix(f".{way}")))
        # As the front server, which has a connection for each request.
        return answer_of(client, method, path, body, {"Connection": "close"})

    def edit(self, batch):
        return self.ask("POST", "/edit", batch, "edits")

    def log(self):
        return (self.room / "log").read_text()

    def end(self):
        """As the unit is stopped: what has begun is finished."""
        self.beside("drain")
        self.running.process.send_signal(signal.SIGTERM)
        os.waitid(os.P_PID, self.running.process.pid, os.WEXITED | os.WNOWAIT)
        self.kill()

    @property
    def token(self):
        return os.readlink(self.run / "columbus/history")

    @property
    def socket(self):
        return self.run / "columbus" / f"{self.token}.sock"


def as_user():
    return ["setpriv", "--reuid", USER, "--regid", USER, "--clear-groups"]


def written_program(path, text):
    path.write_text(text)
    path.chmod(0o755)


def can_be_tried():
    missing = [name for name in TOOLS if not tool(name)] + [name for name in [PROXY] if not pathlib.Path(name).exists()]
    if missing:
        raise Skipped(f"{', '.join(missing)} missing")
    if subprocess.run(["unshare", "-n", "true"], capture_output=True, check=False).returncode:
        raise Skipped("a network of its own wants the rights of root")


def closed_port(tests):
    """The program in a network of its own, reached by a socket of the front server's group alone."""
    can_be_tried()
    with tempfile.TemporaryDirectory() as room, Unit(tests.executable, room, COLUMBUS) as unit, Front(unit.run) as front:
        tests.holds("nobody reaches the port of the program", not listens(unit.port))
        reply = front.ask("GET", "/map/info")
        tests.same("by the front server it is reached", (reply.status, reply.headers["Tgap-History"]), (200, unit.token))
        tests.same("and edited", front.edit(OWN_BATCH).told, (200, b"published 1\n"))
        tests.same("another user of the machine", connects_as("nobody", unit.socket), False)
        tests.same("the front server's user", connects_as("www-data", unit.socket), True)
        tests.same("the rights of the socket and its folder", [stat.filemode(path.stat().st_mode) for path in [unit.socket, unit.socket.parent]], ["srw-rw----", "drwxr-s---"])
        tests.holds("the token", re.fullmatch("[0-9a-f]{16}", unit.token), unit.token)
        for name in ["", "a b", "a;b", "a.b", "../a", "history"]:
            tests.same(f"no life of a map with the name '{name}'", (unit.step("begin", name=name).returncode, len(list(unit.run.iterdir()))), (1, 2))


def several_lives(tests):
    """Each life has a token, which leads to no other; the end of the way to the program is its end."""
    can_be_tried()
    with tempfile.TemporaryDirectory() as room, Unit(tests.executable, room, COLUMBUS) as unit, Front(unit.run) as front:
        tokens = {unit.token}
        front.edit(OWN_BATCH)
        before = unit.socket
        unit.kill()
        tests.same("where the program has been killed", front.ask("GET", "/map/info").status, 502)
        unit.start()
        tokens.add(unit.token)
        tests.same("the socket of the life before", connects_as("root", before), False)
        reply = front.ask("GET", "/map/info")
        tests.same("the front server knows the new one at once", (reply.status, reply.headers["Tgap-History"]), (200, unit.token))
        tests.same("its version", front.version(), 0)
        subprocess.run(["pkill", "-KILL", "-s", str(unit.running.process.pid), "-f", "systemd-socket"], check=True)
        tests.same("where the way ends", unit.running.process.wait(SECONDS), -signal.SIGKILL)
        unit.start()
        tests.same("tokens of three lives", len(tokens | {unit.token}), 3)


def drained(tests):
    """Before a stop an edit that is being built is waited for, while nobody else comes in."""
    can_be_tried()
    with tempfile.TemporaryDirectory() as room, tempfile.TemporaryDirectory() as maps:
        with Unit(tests.executable, room, [written(maps, LARGE)]) as unit, Front(unit.run) as front:
            edit, drain, reader = side_by_side([lambda: timed(lambda: front.edit(OWN_BATCH)), lambda: drained_meanwhile(unit), lambda: asked_meanwhile(unit, front)])
            tests.same("an edit that is being built", edit.told, (200, b"published 1\n"))
            tests.same("the stop", (drain.returncode, drain.stderr), (0, ""))
            tests.holds("waits for it", drain.ended > edit.ended, (drain.ended, edit.ended))
            tests.same("who comes meanwhile", reader.told, (502, b"the map is not served at the moment\n"))
            tests.holds("is told at once", reader.ended < edit.ended, (reader.ended, edit.ended))
            tests.same("the edit is kept", until(lambda: len(kept(front)) == 1, AT_ONCE), True)
    with tempfile.TemporaryDirectory() as room, Unit(tests.executable, room, COLUMBUS, drain_seconds=2) as unit, socket.socket(socket.AF_UNIX) as slow:
        slow.connect(str(unit.socket))
        slow.sendall(b"GET /info")
        until(lambda: unit_is_asked(unit))
        drain = timed(lambda: unit.beside("drain"))
        tests.same("the stop beside one who does not end", (drain.returncode, drain.stderr), (0, "tgap-unit: requests that were open for 2 seconds are given up\n"))
        tests.within("its seconds", drain.seconds, 1, 4)


def unit_is_asked(unit):
    """Whether a connection stands open to the program, in its network."""
    rows = [line.split() for line in pathlib.Path(f"/proc/{unit.running.process.pid}/net/tcp").read_text().splitlines()[1:]]
    return any(row[1].endswith(f":{unit.port:04X}") and row[3] == "01" for row in rows)


def drained_meanwhile(unit):
    until(lambda: unit_is_asked(unit))
    return timed(lambda: unit.beside("drain"))


def asked_meanwhile(unit, front):
    before = unit.socket
    until(lambda: not before.exists())
    return timed(lambda: front.ask("GET", "/map/info"))


def connects_as(user, place):
    text = "import socket, sys; socket.socket(socket.AF_UNIX).connect(sys.argv[1])"
    words = ["/usr/bin/python3", "-c", text, str(place)]
    return subprocess.run(words, user=user, group=user if user != "nobody" else "nogroup", extra_groups=[], capture_output=True, check=False).returncode == 0
