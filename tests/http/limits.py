"""Where the server listens, and its limits: requests of a connection, the length of a head and of a body, the number of
headers. The reply to what is too long arrives whole although the client is still sending."""
import contextlib
import pathlib
import socket
import threading

from lib import TOP, Server, Skipped, asked_once, exchange, received, reply, request

MAP = TOP / "examples/two_squares.tgap"
INFO = b"version 0 steps 1 faces 2 arcs 3 points 10\n"
GOOD, LAST = reply(200, "OK", 0, INFO), reply(200, "OK", 0, INFO, close=True)
BAD = reply(400, "Bad Request", 0, b"bad request\n", close=True)
TOO_LONG = reply(413, "Content Too Large", 0, b"too long\n", close=True)
REQUESTS, HEAD, HEADERS, BODY = 10000, 8192, 64, 1048576
LISTENS = "0A"
TIMES = 10


def listeners(table, port):
    """The addresses at which somebody listens at a port, from a table of the system's sockets."""
    rows = [line.split() for line in pathlib.Path(table).read_text(encoding="ascii").splitlines()[1:]]
    return [row[1].split(":")[0] for row in rows if row[3] == LISTENS and int(row[1].split(":")[1], 16) == port]


def is_refused(family, address, port):
    with socket.socket(family) as one:
        try:
            one.connect((address, port))
        except ConnectionRefusedError:
            return True
        return False


def one_address(tests):
    """It listens at 127.0.0.1 alone."""
    with Server(tests.executable, MAP, 2, 1) as server:
        # 127.0.0.1 as the system shows it: the bytes of the address as a number of this machine.
        own = f"{int.from_bytes(bytes([127, 0, 0, 1]), 'little'):08X}"
        tests.same("the listeners at the port", listeners("/proc/net/tcp", server.port), [own])
        for address in ["127.0.0.2", "127.255.255.254"]:
            tests.same(f"a connection to {address} is refused", is_refused(socket.AF_INET, address, server.port), True)
        tests.same("it answers at 127.0.0.1", asked_once(server, "GET", "/info"), (200, 0, INFO))
        if not pathlib.Path("/proc/net/tcp6").exists():
            raise Skipped("this machine has no IPv6")
        tests.same("the listeners of IPv6", listeners("/proc/net/tcp6", server.port), [])


def requests_of_a_connection(tests):
    """The connection ends after 10,000 replies, whether the requests come one after the other or all at once."""
    with Server(tests.executable, MAP, 2, 1) as server:
        one = request("GET", "/info")
        tests.same("10,001 requests at once", sent_beside(server, one * (REQUESTS + 1)), (GOOD * (REQUESTS - 1) + LAST, True))
        tests.same("10,000 requests at once", sent_beside(server, one * REQUESTS), (GOOD * (REQUESTS - 1) + LAST, True))
        tests.same("10,001 requests one by one", one_by_one(server, one), (REQUESTS, LAST))


def one_by_one(server, sent):
    """How many replies there are to one request after the other, and the last of them."""
    last = b""
    with server.socket() as one:
        for count in range(REQUESTS + 1):
            with contextlib.suppress(BrokenPipeError, ConnectionResetError):
                one.sendall(sent)
            came = one.recv(65536)
            if not came:
                return count, last
            last = came
    return REQUESTS + 1, last


def sent_beside(server, sent):
    """What comes while all of this is sent by another thread, and whether the connection was closed in good order."""

    def send():
        with contextlib.suppress(BrokenPipeError, ConnectionResetError):
            one.sendall(sent)

    with server.socket() as one:
        sender = threading.Thread(target=send, daemon=True)
        sender.start()
        came = received(one)
        with contextlib.suppress(OSError):
            one.shutdown(socket.SHUT_RDWR)
        sender.join()
        return came


def sent_first(server, sent):
    """What comes to a client that reads only when all is sent, or can be sent no more."""
    with server.socket() as one:
        with contextlib.suppress(BrokenPipeError, ConnectionResetError):
            one.sendall(sent)
        return received(one)[0]


def padded(length):
    """A request with a head of this length."""
    return request("GET", "/info", b"", "H: " + "x" * (length - len(request("GET", "/info", b"", "H: "))))


def heads(tests):
    """The longest head and the most headers are taken, and one more is not."""
    headers = [f"H{number}: x" for number in range(HEADERS)]
    # Each request has a header of its own already.
    most, more = request("GET", "/info", b"", *headers[1:]), request("GET", "/info", b"", *headers)
    endless = b"GET /info HTTP/1.1\r\nH: ".ljust(HEAD, b"x")
    with Server(tests.executable, MAP, 2, 1) as server:
        for name, sent, wanted in [
            ("a head of 8,192 bytes", padded(HEAD), GOOD), ("two heads of 8,192 bytes", padded(HEAD) * 2, GOOD * 2),
            ("a head of 8,193 bytes", padded(HEAD + 1), BAD), ("a head of 9,000 bytes", padded(9000), BAD),
            ("64 headers", most, GOOD), ("65 headers", more, BAD),
            ("8,192 bytes of a header without an end", endless, BAD), ("8,191 bytes of it", endless[:-1], b""),
        ]:
            tests.same(name, exchange(server, sent), wanted)
            tests.same(f"{name}, in pieces", exchange(server, sent, 1000), wanted)


def longest_body(tests):
    """An edit of 1,048,576 bytes is published."""
    # Each line is as long as it must be for the sum.
    first, last = b"class 1 0\n", b"move 20 10 20 9\n"
    body = first * ((BODY - len(last)) // len(first)) + last
    tests.same("the length of the longest body", len(body), BODY)
    with Server(tests.executable, MAP, 1, 2) as server:
        tests.same("the longest body", asked_once(server, "POST", "/edit", body), (200, 1, b"published 1\n"))
        status, version, text = asked_once(server, "GET", "/slice/1")
        tests.same("its last line was done", (status, version, b" 20 9 " in text), (200, 1, True))


def each_time(tests, name, way, wanted):
    """Tests that a way of asking gives the same each time."""
    tests.same(f"{name}, {TIMES} times", [way() for _ in range(TIMES)], [wanted] * TIMES)


def bodies_that_are_too_long(tests):
    """The reply arrives whole, each time, though the client goes on to send."""
    with Server(tests.executable, MAP, 2, 1) as server:
        one_more, huge = b"x" * (BODY + 1), request("POST", "/edit", b"x" * 50_000_000)
        announced = request("POST", "/edit", b"", f"Content-Length: {BODY + 1}")
        half, refused = announced + one_more[: BODY // 2], (413, 0, b"too long\n")
        tests.same("a body of one byte too much, none of it sent", exchange(server, announced), TOO_LONG)
        each_time(tests, "half of such a body", lambda: sent_beside(server, half), (TOO_LONG, True))
        each_time(tests, "the whole of it", lambda: asked_once(server, "POST", "/edit", one_more), refused)
        each_time(tests, "a body of 50 MB", lambda: sent_first(server, huge), TOO_LONG)
        each_time(tests, "50 MB from a client that reads meanwhile", lambda: sent_beside(server, huge)[0], TOO_LONG)
        tests.same("it goes on", asked_once(server, "GET", "/info"), (200, 0, INFO))


def bad_heads_before_more(tests):
    """After a bad head nothing is read as a request, and though half a megabyte follows, the end is in good order."""
    with Server(tests.executable, MAP, 2, 1) as server:
        sent = request("POST", "/edit", b"", "Transfer-Encoding: chunked") + request("GET", "/info") * 12000
        each_time(tests, "a bad head, to a client that reads meanwhile", lambda: sent_beside(server, sent), (BAD, True))
        each_time(tests, "a bad head, to a client that sends first", lambda: sent_first(server, sent), BAD)


TESTS = [one_address, requests_of_a_connection, heads, longest_body, bodies_that_are_too_long, bad_heads_before_more]
