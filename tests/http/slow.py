"""Clients that send nothing, stop in the middle, never read, or stop reading. After five seconds without a byte in
either direction the server ends their connection, so that none of them holds a worker for long. Who goes on, however
slowly, is heard to the end."""
import contextlib
import pathlib
import socket
import tempfile
import threading
import time

from lib import SECONDS, TOP, Server, arc_text, asked_once, grid, listing, received, reply, request

MAP = TOP / "examples/two_squares.tgap"
INFO = b"version 0 steps 1 faces 2 arcs 3 points 10\n"
# The server waits for five seconds, and begins anew with each byte that still fits into the buffers of the system. A
# loaded machine adds some; what takes longer is measured once more.
LEAST, MOST = 4.5, 10
CELLS, MANY = 60, 200


def silent(server):
    """A client that sends nothing."""
    return server.socket()


def half_a_head(server):
    """A client that stops in the middle of a head."""
    one = server.socket()
    one.sendall(request("GET", "/info")[:-3])
    return one


def half_a_body(server):
    """A client that stops in the middle of a body."""
    one = server.socket()
    one.sendall(request("POST", "/edit", b"class 1 0\n")[:-3])
    return one


def silent_after_a_reply(server):
    """A client that takes one reply, and asks no more."""
    one = server.socket()
    one.sendall(request("GET", "/info"))
    if one.recv(65536) != reply(200, "OK", 0, INFO):
        raise OSError("the first request was not answered")
    return one


def narrow(server, room=4096):
    """A client for which the system keeps little."""
    one = socket.socket()
    one.setsockopt(socket.SOL_SOCKET, socket.SO_RCVBUF, room)
    one.settimeout(SECONDS)
    one.connect(("127.0.0.1", server.port))
    return one


def never_reads(server):
    """A client that asks for far more than the system keeps for it, and reads nothing."""
    one = narrow(server)
    one.sendall(request("GET", "/slice/0") * MANY)
    return one


SLOW = [silent, half_a_head, half_a_body, never_reads]


def large_map(folder):
    """A map whose finest slice is some hundred thousand bytes long."""
    faces, _, arcs = grid(CELLS)
    path = pathlib.Path(folder) / "map"
    path.write_bytes(listing(faces, [arc_text(*arc) for arc in arcs], ratio=0))
    return path


def answered_after(server, begun):
    """The seconds from a moment until a new client is answered, and the status."""
    status = asked_once(server, "GET", "/info")[0]
    return time.monotonic() - begun, status


def in_time(measured):
    """The seconds of a measurement that gives them first, and the rest of it; where they are too many, of a second
    one."""
    seconds, *rest = measured()
    return (seconds, *rest) if seconds <= MOST else measured()


def one_slow_client(tests, name, start, path=MAP):
    """A slow client of the only worker loses its connection, and then the next one is answered."""

    def measured():
        begun = time.monotonic()
        with start(server) as slow:
            # The worker takes the clients in the order in which they came.
            seconds, status = answered_after(server, begun)
            slow.settimeout(SECONDS)
            return seconds, status, received(slow)[0]

    with Server(tests.executable, path, 1, 2) as server:
        seconds, status, came = in_time(measured)
        tests.within(f"the seconds after which the next client is answered, behind {name}", seconds, LEAST, MOST)
        tests.same(f"its status, behind {name}", status, 200)
        tests.same(f"nothing is sent to {name} but replies", came[:12] in (b"", b"HTTP/1.1 200"), True)


def a_silent_client(tests):
    one_slow_client(tests, "a silent client", silent)


def a_client_that_is_silent_after_a_reply(tests):
    one_slow_client(tests, "a client that is silent after a reply", silent_after_a_reply)


def a_client_that_stops_in_a_head(tests):
    one_slow_client(tests, "a client that stops in a head", half_a_head)


def a_client_that_stops_in_a_body(tests):
    one_slow_client(tests, "a client that stops in a body", half_a_body)


def a_client_that_never_reads(tests):
    with tempfile.TemporaryDirectory() as folder:
        one_slow_client(tests, "a client that never reads", never_reads, large_map(folder))


def a_client_that_stops_reading(tests):
    """A client that has taken a part of its replies and then takes no more loses its connection after the same time.
    What came is a front of the replies."""

    def measured():
        with narrow(server) as slow:
            slow.sendall(request("GET", "/slice/0") * MANY)
            came = bytearray()
            while len(came) < len(one_reply) * 3 // 2:
                came += slow.recv(65536)
            seconds, status = answered_after(server, time.monotonic())
            return seconds, status, bytes(came) + received(slow)[0]

    with tempfile.TemporaryDirectory() as folder:
        path = large_map(folder)
        one_reply = reply(200, "OK", 0, tests.text("slice", path, 0))
        with Server(tests.executable, path, 1, 2) as server:
            seconds, status, came = in_time(measured)
    tests.within("the seconds after which the next client is answered, behind one that stops reading", seconds, LEAST, MOST)
    tests.same("its status, behind one that stops reading", status, 200)
    whole = one_reply * MANY
    tests.same("a front of the replies comes to a client that stops reading", (whole.startswith(came), len(came) < len(whole)), (True, True))


def as_many_as_workers(tests):
    """Slow clients of each kind, one for each worker, stop the server for no longer than one of them."""

    def measured():
        with contextlib.ExitStack() as clients:
            begun = time.monotonic()
            for start in SLOW:
                clients.enter_context(start(server))
            return answered_after(server, begun)

    with tempfile.TemporaryDirectory() as folder, Server(tests.executable, large_map(folder), len(SLOW), 2) as server:
        seconds, status = in_time(measured)
        tests.within("the seconds after which a client is answered, behind a slow one for each worker", seconds, LEAST, MOST)
        tests.same("its status, behind a slow one for each worker", status, 200)


def a_steady_slow_client(tests):
    """A client that sends a byte each half second is heard out, though its head takes longer than five seconds."""
    head = request("GET", "/info", b"", "Connection: close")
    with Server(tests.executable, MAP, 1, 1) as server, server.socket() as one:
        one.sendall(head[:-14])
        for at in range(len(head) - 14, len(head)):
            time.sleep(0.5)
            one.sendall(head[at : at + 1])
        tests.same("a head that comes byte by byte", received(one), (reply(200, "OK", 0, INFO, close=True), True))


def a_client_that_sends_on(tests):
    """A client that goes on to send, little by little, after its head was refused holds the worker for no longer."""
    done = threading.Event()

    def send():
        with contextlib.suppress(OSError):
            one.sendall(request("POST", "/edit", b"", "Transfer-Encoding: chunked"))
            while not done.wait(0.1):
                one.sendall(b"x")

    with Server(tests.executable, MAP, 1, 1) as server, server.socket() as one:
        sender = threading.Thread(target=send, daemon=True)
        sender.start()
        time.sleep(0.2)
        seconds, status = answered_after(server, time.monotonic())
        done.set()
        sender.join()
        tests.within("the seconds after which a client is answered, behind one that sends on", seconds, 0, MOST)
        tests.same("its status, behind one that sends on", status, 200)


TESTS = [a_silent_client, a_client_that_is_silent_after_a_reply, a_client_that_stops_in_a_head, a_client_that_stops_in_a_body,
         a_client_that_never_reads, a_client_that_stops_reading, as_many_as_workers, a_steady_slow_client,
         a_client_that_sends_on]
