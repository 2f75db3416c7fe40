"""What stops the launcher stops the program, in whichever way it is stopped, and what stops the program ends the launcher."""
import contextlib
import http.client
import os
import pathlib
import select
import signal
import socket
import time

from lib import SECONDS, ask, free_port

TWO = "examples/two_squares.tgap"


def children(pid):
    return [int(child) for child in pathlib.Path(f"/proc/{pid}/task/{pid}/children").read_text(encoding="ascii").split()]


def is_served(port):
    with socket.socket() as one:
        return one.connect_ex(("127.0.0.1", port)) == 0


def ends_soon(happens):
    """Whether something comes to be within a minute: what ends with its parent ends a moment after it."""
    until = time.monotonic() + 60
    while not happens() and time.monotonic() < until:
        time.sleep(0.01)
    return happens()


@contextlib.contextmanager
def serving(tests, command=("serve", TWO), **how):
    """The launcher, once it serves, and its port. It has a process group of its own, of which nothing is left behind."""
    port = free_port()
    with tests.checkout.start(*command, str(port), "2", "4", start_new_session=True, **how) as started:
        try:
            ready, _, _ = select.select([started.stdout], [], [], SECONDS)
            said = started.stdout.readline() if ready else b""
            if said != f"serving {port}\n".encode():
                raise OSError(f"it does not serve: {said!r}")
            yield started, port
        finally:
            with contextlib.suppress(ProcessLookupError):
                os.killpg(started.pid, signal.SIGKILL)


def signals_stop_the_server(tests):
    for tools in (tests.checkout.bare, tests.checkout.unbound):
        for sent in (signal.SIGTERM, signal.SIGINT, signal.SIGHUP, signal.SIGKILL):
            with serving(tests, tools=tools) as (started, port):
                started.send_signal(sent)
                tests.same(f"{sent.name}, {tools.name}: the end of the launcher", started.wait(SECONDS), -sent)
                tests.same(f"{sent.name}, {tools.name}: the port is given back", ends_soon(lambda: not is_served(port)), True)
                tests.same(f"{sent.name}, {tools.name}: nothing more is said", (started.stdout.read(), started.stderr.read()), (b"", b""))


def signals_let_a_journal_go(tests):
    """Each edit that was acknowledged is there when the journal is kept again by the next launcher."""
    for number, sent in enumerate((signal.SIGTERM, signal.SIGINT, signal.SIGKILL)):
        with serving(tests, ("keep", TWO, tests.checkout.room / "kept")) as (started, port), contextlib.closing(http.client.HTTPConnection("127.0.0.1", port, SECONDS)) as client:
            told = ask(client, "GET", "/info")[1], ask(client, "POST", "/edit", b"")[1]
            tests.same(f"{sent.name}: the versions before an edit and after it", told, (number, number + 1))
            started.send_signal(sent)
            tests.same(f"{sent.name}: the end of who kept a journal", started.wait(SECONDS), -sent)
            tests.same(f"{sent.name}: the port is given back", ends_soon(lambda: not is_served(port)), True)


def signals_to_the_program_end_the_launcher(tests):
    for sent in (signal.SIGTERM, signal.SIGHUP, signal.SIGKILL):
        with serving(tests) as (started, _):
            (program,) = children(started.pid)
            os.kill(program, sent)
            tests.same(f"{sent.name} to the program", started.wait(SECONDS), 128 + sent)


def standard_input_is_passed_on(tests):
    """The program may be given its map through the standard input."""
    with (tests.checkout.top / TWO).open("rb") as listing:
        answer = tests.checkout.run("check", "/dev/stdin", stdin=listing)
    tests.same("a map on the standard input", answer, (0, b"ok faces 2 arcs 3 points 10\n", ""))
    answer = tests.checkout.run("check", TWO, preexec_fn=lambda: os.close(0))
    tests.same("with no standard input", answer, (0, b"ok faces 2 arcs 3 points 10\n", ""))


TESTS = [signals_stop_the_server, signals_let_a_journal_go, signals_to_the_program_end_the_launcher, standard_input_is_passed_on]
