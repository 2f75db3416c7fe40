"""The units of deploy/, by systemd's own tools, and what the program asks of the system while it serves."""
import http.client
import os
import pathlib
import re
import shutil
import signal
import socket
import subprocess
import tempfile

from front import COLUMBUS, PATH, PROXY, TOP, Program, Running, answer_of, listens, tool, until
from lib import SECONDS, Skipped, free_port

STEPS = "/usr/local/lib/tgap/tgap-unit"
# What the unit must say, beside what systemd-analyze thinks of it.
SETTINGS = {
    "CapabilityBoundingSet": "", "SystemCallFilter": "@system-service", "RestrictNamespaces": "yes", "LockPersonality": "yes", "MemoryDenyWriteExecute": "yes",
    "UMask": "0077", "NoNewPrivileges": "yes", "PrivateNetwork": "yes", "Restart": "on-failure", "User": "tgap",
    "ProtectSystem": "strict", "TemporaryFileSystem": "/run:ro", "KillMode": "mixed", "StateDirectory": "tgap/%i", "StateDirectoryMode": "0700",
}
# Of ten, where ten is a unit without any of this.
EXPOSURE = 1.5


def settings(tests):
    told = settings_of("tgap.service")
    tests.same("settings of the unit", {key: told.get(key) for key in SETTINGS}, SETTINGS)
    tests.same("when the map server is not started again", told.get("RestartPreventExitStatus"), "2 3 4")
    tests.same("the memory of large replies goes back", told.get("Environment"), "MALLOC_MMAP_THRESHOLD_=131072 MALLOC_TRIM_THRESHOLD_=131072")
    tests.holds("the address spaces of two programs end before the memory does", 2 * megabytes(told["LimitAS"]) < megabytes(told["MemoryMax"]))
    drained = int(re.search(r"^drain_seconds=(\d+)$", (TOP / "deploy/tgap-unit").read_text(), re.MULTILINE)[1])
    tests.holds("a stop waits for longer than its requests have", int(told["TimeoutStopSec"].removesuffix("s")) >= drained + 10, told["TimeoutStopSec"])


def settings_of(name):
    return dict(line.split("=", 1) for line in (TOP / "deploy" / name).read_text().splitlines() if re.match(r"[A-Z]\w*=", line))


def megabytes(text):
    found = re.fullmatch(r"(\d+)([MG])", text)
    return int(found[1]) * {"M": 1, "G": 1024}[found[2]]


def by_systemd(tests):
    """The unit under the name that it is installed by, with its steps in their place."""
    if not tool("systemd-analyze"):
        raise Skipped("systemd-analyze is missing")
    with tempfile.TemporaryDirectory() as room:
        text = (TOP / "deploy/tgap.service").read_text().replace(STEPS, str(TOP / "deploy/tgap-unit"))
        (pathlib.Path(room) / "tgap@.service").write_text(text)
        unit = f"{room}/tgap@columbus.service"
        for words in [["verify"], ["security", "--offline=yes", "--no-pager", f"--threshold={int(EXPOSURE * 10)}"]]:
            told = subprocess.run([tool("systemd-analyze"), *words, unit], capture_output=True, text=True, timeout=60, check=False)
            tests.same(f"systemd-analyze {words[0]}", (told.returncode, told.stderr), (0, ""))


def system_calls(tests):
    """While it serves, reads and publishes, the program makes no call that the unit forbids."""
    with tempfile.TemporaryDirectory() as room:
        trace = pathlib.Path(room) / "trace"
        with Program(tests.executable, COLUMBUS, under=traced(trace)) as program:
            for method, path, body in [("GET", "/slice/0", None), ("POST", "/edit", b"class 1 0\n"), ("GET", "/packet/48/0", None), ("POST", "/edit", b"no line\n")]:
                program.ask(method, path, body)
        judge(tests, "the program", trace, {"AF_INET"})


def calls_of_the_keeper(tests):
    """Nor does what keeps a journal, and all that it starts while edits are joined."""
    if not pathlib.Path(PROXY).exists():
        raise Skipped(f"{PROXY} is missing")
    with tempfile.TemporaryDirectory() as folder:
        room, port = pathlib.Path(folder), free_port()
        (room / "run").mkdir()
        environment = {**os.environ, "PATH": PATH, "MAP": str(COLUMBUS[0]), "OBJECT_RULES": f"areas {COLUMBUS[2]}", "JOURNAL": f"{room}/journal", "WORKERS": "4", "VERSIONS": "4"}
        shutil.copy(TOP / "deploy/tgap-keeper", room)
        (room / "tools").symlink_to(TOP / "tools")
        words = [*traced(room / "trace"), room / "tgap-keeper", room / "run", tests.executable, port, PROXY, 5]
        with Running(words, env=environment, stderr=subprocess.PIPE) as keeper:
            until((room / "run/serves").exists)
            before = os.readlink(room / "run/history")
            for number in range(3):
                client = http.client.HTTPConnection("columbus", timeout=SECONDS)
                client.sock = socket.socket(socket.AF_UNIX)
                client.sock.connect(f"{room}/run/{before}.edits")
                tests.same("an edit of a keeper that is watched", answer_of(client, "POST", "/edit", b"class %d 0\n" % (number + 1), {"Connection": "close"}).status, 200)
            tests.holds("it turns over", until(lambda: os.readlink(room / "run/history") != before and listens(port)))
            keeper.process.send_signal(signal.SIGTERM)
            keeper.process.communicate(timeout=SECONDS)
        judge(tests, "the keeper", room / "trace", {"AF_INET", "AF_UNIX"})


def traced(trace):
    if not tool("strace") or not tool("systemd-analyze"):
        raise Skipped("strace or systemd-analyze is missing")
    return [tool("strace"), "-I2", "-f", "-qq", "-o", trace]


def judge(tests, who, trace, families):
    """What a trace has of calls that the unit forbids."""
    listed = subprocess.run([tool("systemd-analyze"), "syscall-filter"], capture_output=True, text=True, timeout=60, check=False).stdout
    allowed = calls_of(listed, "@system-service")
    lines = [line.split(None, 1)[1] for line in trace.read_text(encoding="utf-8", errors="replace").splitlines()]
    made = {found[1] for line in lines if (found := re.match(r"(\w+)\(", line))}
    tests.holds(f"the trace has the calls of {who}", {"execve", "socket", "write"} <= made and {"accept", "accept4"} & made)
    tests.same(f"system calls of {who} that the unit forbids", made - allowed, set())
    tests.same(f"{who}: memory that may be written and run", [line for line in lines if "PROT_WRITE|PROT_EXEC" in line], [])
    tests.same(f"{who}: memory that may be run later", [line for line in lines if line.startswith(("mprotect", "pkey_mprotect")) and "PROT_EXEC" in line], [])
    tests.same(f"{who}: sockets of another kind", [line for line in lines if line.startswith("socket(") and not line.startswith(tuple(f"socket({family}," for family in families))], [])


def calls_of(listed, name):
    """The calls of a set of systemd's, with those of the sets in it."""
    calls = set()
    for line in f"\n{listed}".split(f"\n{name}\n", 1)[1].split("\n\n")[0].splitlines():
        word = line.strip()
        if word.startswith("@"):
            calls |= calls_of(listed, word)
        elif word and not word.startswith("#"):
            calls.add(word)
    return calls
