"""Ways to send what forms.py has: over HTTP/1.1 and HTTP/2, and whole connections as bytes. Each is from many addresses
of this machine, so that no limit of an address hides an answer."""
import contextlib
import itertools
import json
import pathlib
import signal
import subprocess
import time

import forms
from front import Running, tool

SECOND = pathlib.Path(__file__).with_name("second.mjs")
# What an address may send in a row: so many edits, and of other requests as many as one likes.
EDITS_IN_A_ROW, IN_A_ROW = 10, 200
# What is not answered by then waits for more of a body; the front server gives it up after five seconds.
ODD_SECONDS = 1
# The addresses from which requests come, one after the other.
ADDRESSES = (f"127.0.{high}.{low}" for high, low in itertools.cycle(itertools.product(range(1, 250), range(1, 250))))
FIRST_OF_HTTP_2 = itertools.count(0, 4096)


class Wire:
    """Requests of HTTP/1.1 one after the other, over connections of one address after the other."""

    def __init__(self, target):
        self.target, self.socket, self.stream, self.left = target, None, None, 0

    def __enter__(self):
        return self

    def __exit__(self, *_):
        if self.socket:
            self.stream.close()
            self.socket.close()

    def renew(self):
        self.__exit__()
        self.socket, self.left = self.target.connect(next(ADDRESSES)), IN_A_ROW
        self.stream = self.socket.makefile("rb")

    def ask(self, form):
        """Status, headers and text of the answer; the status is 0 where there is none, over a new connection too."""
        fresh = self.left <= 0
        if fresh:
            self.renew()
        answer = self.asked_here(form)
        if answer[0] or fresh:
            return answer
        self.renew()
        return self.asked_here(form)

    def asked_here(self, form):
        self.left -= cost(form, self.target)
        headers = {"Host": self.target.host, "Content-Length": len(form.body), **dict(self.target.headers), **dict(form.headers)}
        lines = [f"{form.method} {form.target} HTTP/1.1", *(f"{name}: {value}" for name, value in headers.items()), "", ""]
        try:
            self.socket.sendall(("\r\n".join(lines) + form.body).encode("latin-1"))
            return self.taken(form.method)
        except OSError:
            self.left = 0
            return 0, {}, ""

    def taken(self, method):
        first, headers = self.stream.readline(), {}
        while line := self.stream.readline().strip():
            name, _, value = line.decode("latin-1").partition(":")
            headers[name.lower()] = value.strip()
        if headers.get("connection") == "close" or not first.startswith(b"HTTP/1.1 "):
            self.left = 0
        length = 0 if method == "HEAD" else int(headers.get("content-length", 0))
        return int(first[9:12] or 0) if first.startswith(b"HTTP/1.1 ") else 0, headers, self.stream.read(length).decode("latin-1")


def cost(form, target):
    """What of the requests in a row of an address a form takes."""
    return IN_A_ROW // EDITS_IN_A_ROW if forms.may_mean_an_edit(form.target, target.root) else 1


class Second(Running):
    """second.mjs, which asks over HTTP/2."""

    def __init__(self, front):
        words = [tool("node"), SECOND, front.port, front.room / "etc/certificate.pem", next(FIRST_OF_HTTP_2), IN_A_ROW]
        super().__init__(words, stdin=subprocess.PIPE, stdout=subprocess.PIPE)

    def stop(self, by=signal.SIGTERM):
        self.process.stdin.close()
        super().stop(by)
        self.process.stdout.close()

    def ask(self, asked):
        """Status, headers and text for each of some headers with a body and their cost."""
        lines = "".join(json.dumps({"headers": headers, "body": body, "cost": cost}) + "\n" for headers, body, cost in asked)
        self.process.stdin.write(lines.encode())
        self.process.stdin.flush()
        told = [json.loads(self.process.stdout.readline()) for _ in asked]
        return [(one["status"], one["headers"], one["text"]) for one in told]


def second_headers(target, form):
    names = {":method": form.method, ":path": form.target, ":scheme": "https", ":authority": target.host}
    more = {name.lower(): value for name, value in [*target.headers, *form.headers]}
    return {**names, **more}, form.body, cost(form, target)


def by_second(second, target):
    return lambda some: second.ask([second_headers(target, form) for form in some])


def received_by(sockets):
    """All that comes on some connections, up to their ends or until it is time."""
    came, end = [b""] * len(sockets), time.monotonic() + ODD_SECONDS
    for place, one in enumerate(sockets):
        with contextlib.suppress(OSError):
            one.settimeout(max(0.01, end - time.monotonic()))
            while part := one.recv(65536):
                came[place] += part
                one.settimeout(max(0.01, end - time.monotonic()))
    return came


def sent_whole(target, some):
    """What came back on connections of their own for these bytes."""
    with contextlib.ExitStack() as open_ones:
        sockets = [open_ones.enter_context(target.connect(next(ADDRESSES))) for _ in some]
        for one, sent in zip(sockets, some):
            with contextlib.suppress(OSError):
                one.sendall(sent)
        return received_by(sockets)
