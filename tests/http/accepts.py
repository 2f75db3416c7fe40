"""Accepts that fail. What went wrong with the connection that was coming is passed over, a want of descriptors or
memory is waited out, and only a broken listener ends a worker."""
import contextlib
import http.client
import os
import pathlib
import resource
import shutil
import subprocess
import tempfile
import time

from lib import SECONDS, TOP, Server, Skipped, ask, asked_once, free_port

MAP = TOP / "examples/two_squares.tgap"
INFO = b"version 0 steps 1 faces 2 arcs 3 points 10\n"
PASSED_OVER = ["ECONNABORTED", "EPROTO", "ENETDOWN", "EHOSTUNREACH", "EPERM", "EAGAIN", "EINTR", "ENONET", "ENOPROTOOPT",
               "EOPNOTSUPP", "ENETUNREACH", "ECONNRESET", "ETIMEDOUT", "EHOSTDOWN"]
WAITED_OUT = ["EMFILE", "ENFILE", "ENOBUFS", "ENOMEM"]
BROKEN = ["EBADF", "EINVAL", "ENOTSOCK", "EFAULT", "EIO"]
PORT_FAULT = 8
# So long a worker that is there may let a client wait.
WAIT = 30
WORKERS = 3


def injecting(error, log):
    """The words under which the first accept of each thread fails by this error, and each accept is kept in a file."""
    return ["strace", "-f", "-I2", "-o", log, "-e", "trace=accept,accept4", "-e", f"inject=accept,accept4:error={error}:when=1"]


def may_trace():
    """Skips a test where strace is missing or not allowed."""
    if not shutil.which("strace"):
        raise Skipped("strace is missing")
    tried = subprocess.run(["strace", "-f", "-o", "/dev/null", "true"], capture_output=True, check=False, timeout=SECONDS)
    if tried.returncode != 0:
        raise Skipped("strace may not trace here")


def answers_of_all(server):
    """The answers on as many kept connections as there are workers: each holds a worker, so all of them come only where
    no worker has ended."""
    with contextlib.ExitStack() as stack:
        clients = [stack.enter_context(contextlib.closing(server.client(WAIT))) for _ in range(WORKERS)]
        return [ask(client, "GET", "/info")[:3] for client in clients]


def injected(log):
    return pathlib.Path(log).read_text(encoding="utf-8").count("(INJECTED)")


def failed_accepts(tests):
    """The first accept of each worker fails: the server goes on with all of them."""
    may_trace()
    with tempfile.TemporaryDirectory() as folder:
        for error in [*PASSED_OVER, *WAITED_OUT]:
            log = f"{folder}/{error}"
            with Server(tests.executable, MAP, WORKERS, 1, under=injecting(error, log)) as server:
                tests.same(f"all workers after {error}", guarded(answers_of_all, server), [(200, 0, INFO)] * WORKERS)
                tests.same(f"the accepts that failed by {error}", injected(log), WORKERS)


def guarded(work, server):
    """What a call gives, or in its place what broke it off."""
    try:
        return work(server)
    except (OSError, http.client.HTTPException) as error:
        return repr(error)


def a_broken_listener(tests):
    """The only worker ends, and with it the program."""
    may_trace()
    with tempfile.TemporaryDirectory() as folder:
        for error in BROKEN:
            port = free_port()
            words = [*injecting(error, f"{folder}/{error}"), tests.executable, "serve", str(MAP), str(port), "1", "1"]
            ended = subprocess.run(words, capture_output=True, check=False, timeout=SECONDS)
            wanted = PORT_FAULT, f"serving {port}\nport fault\n".encode()
            tests.same(f"a listener that is broken by {error}", (ended.returncode, ended.stdout), wanted)


def a_taken_port(tests):
    """Where somebody listens at the port already, the program ends and says so."""
    with Server(tests.executable, MAP, 1, 1) as server:
        ended = tests.run("serve", MAP, server.port, 2, 4)
        tests.same("a port that is taken", (ended.returncode, ended.stdout), (PORT_FAULT, b"port fault\n"))
        tests.same("who listens there goes on", asked_once(server, "GET", "/info"), (200, 0, INFO))


def seconds_of_processor(process):
    """How long a process has run on a processor."""
    fields = pathlib.Path(f"/proc/{process}/stat").read_text(encoding="utf-8").rpartition(") ")[2].split()
    return (int(fields[11]) + int(fields[12])) / os.sysconf("SC_CLK_TCK")


def no_descriptors(tests):
    """While there are no descriptors the workers wait, without work for the processor; when there are some again all of
    them go on."""
    with Server(tests.executable, MAP, WORKERS, 1) as server, contextlib.closing(server.client()) as waiting:
        own = server.process.pid
        before = resource.prlimit(own, resource.RLIMIT_NOFILE, (3, resource.getrlimit(resource.RLIMIT_NOFILE)[1]))
        # A worker that waits in accept has its descriptor already, so that each of them may take one client more.
        taken = 0
        while taken <= WORKERS and is_answered(server):
            taken += 1
        tests.within("the clients that are answered without descriptors", taken, 0, WORKERS)
        waiting.request("GET", "/info")
        begun = seconds_of_processor(own)
        time.sleep(1)
        tests.within("the seconds of the processor in one second without descriptors", seconds_of_processor(own) - begun, 0, 0.5)
        resource.prlimit(own, resource.RLIMIT_NOFILE, before)
        tests.same("the client that has waited", waiting.getresponse().read(), INFO)
        waiting.close()
        tests.same("all workers after a want of descriptors", answers_of_all(server), [(200, 0, INFO)] * WORKERS)
        tests.same("it goes on", asked_once(server, "GET", "/info"), (200, 0, INFO))


def is_answered(server):
    """Whether a new client is answered within a second."""
    client = server.client(1)
    with contextlib.closing(client):
        try:
            return ask(client, "GET", "/info", None, {"Connection": "close"})[0] == 200
        except TimeoutError:
            return False


TESTS = [failed_accepts, a_broken_listener, a_taken_port, no_descriptors]
