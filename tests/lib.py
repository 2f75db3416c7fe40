"""What the suites of tests and the measurements share: the executable, the counting of tests, a port, the server,
requests and replies over HTTP, and listings of maps."""
import contextlib
import http.client
import itertools
import os
import pathlib
import select
import signal
import socket
import subprocess
import sys
import threading
import time

TOP = pathlib.Path(__file__).resolve().parents[1]
RELEASED = TOP / "release/tgap-x86_64-linux"
# A test that waits longer than this waits in vain, on a loaded machine too.
SECONDS = 120


# ---- the executable, and the counting of tests


def an_executable(path):
    """The executable of this name. Without one the suite ends with status 1."""
    path = pathlib.Path(path).resolve()
    if not path.is_file() or not os.access(path, os.X_OK):
        sys.exit(f"there is no executable {path}")
    return str(path)


def named_executable(usage):
    """The executable that the command line names, or the released one."""
    if len(sys.argv) > 2:
        sys.exit(usage)
    return an_executable(sys.argv[1] if len(sys.argv) == 2 else RELEASED)


class Skipped(Exception):
    """A test that this machine does not allow."""


def shown(data):
    """A value as it is told in one line: bytes without their mark, and of a long one the front and the end."""
    text = repr(data)[1:] if isinstance(data, bytes) else repr(data)
    return text if len(text) <= 300 else f"{text[:160]} .. {text[-80:]} (length {len(data)})"


class Tests:
    """Counts the tests of a suite over an executable. Several threads may count at a time."""

    def __init__(self, executable):
        self.executable, self.passed, self.failed, self.skipped, self.lock = executable, 0, 0, 0, threading.Lock()

    def tell(self, name, faults):
        """Counts a test, and prints what was wrong."""
        with self.lock:
            if faults:
                print(f"FAILED {name}: {'; '.join(faults)}", flush=True)
            self.passed, self.failed = self.passed + (not faults), self.failed + bool(faults)

    def same(self, name, got, wanted):
        self.tell(name, [] if got == wanted else [f"got {shown(got)}, expected {shown(wanted)}"])

    def within(self, name, got, least, most):
        self.tell(name, [] if least <= got <= most else [f"got {got:.2f}, expected {least} to {most}"])

    def skip(self, name, why):
        with self.lock:
            print(f"skipped {name}: {why}", flush=True)
            self.skipped += 1

    def whole(self, test):
        """Runs a test that may be skipped here. One that cannot be made, or that another end of a connection breaks,
        has failed."""
        try:
            test(self)
        except Skipped as why:
            self.skip(test.__name__, why)
        except (OSError, ValueError, subprocess.SubprocessError, http.client.HTTPException) as error:
            self.tell(test.__name__, [f"it broke off by {error!r:.300}"])

    def end(self):
        """Ends the suite by its closing line."""
        print(f"{self.passed} passed, {self.failed} failed, {self.skipped} skipped", flush=True)
        sys.exit(self.failed > 0)

    def run(self, *words, **how):
        """The program on these words, when it has ended."""
        how = {"stdin": subprocess.DEVNULL, "capture_output": True, "timeout": SECONDS, **how}
        return subprocess.run([self.executable, *map(str, words)], check=False, **how)

    def text(self, *words):
        """What the program writes on these words."""
        return self.run(*words).stdout


# ---- the server


def ports():
    """Ports that the system gives nobody by itself, below those of outgoing connections, beginning at one that differs
    from process to process."""
    first = int(pathlib.Path("/proc/sys/net/ipv4/ip_local_port_range").read_text(encoding="ascii").split()[0])
    low, high = (10000, first) if first > 12000 else (61000, 65536)
    start = os.getpid() * 37
    return itertools.cycle(low + (start + place) % (high - low) for place in range(high - low))


PORTS, TAKEN, PORT_LOCK = ports(), [], threading.Lock()


def bound(one, address):
    """Whether a socket could be bound to an address."""
    try:
        one.bind(address)
    except OSError:
        return False
    return True


def is_free(port):
    with socket.socket() as one:
        one.setsockopt(socket.SOL_SOCKET, socket.SO_REUSEADDR, 1)
        return bound(one, ("127.0.0.1", port))


def free_port():
    """A port of this machine that nobody uses. Until this process ends no other suite is given it: each port that was
    given out has a socket of its name, which one process alone can have."""
    with PORT_LOCK:
        for port in itertools.islice(PORTS, 20000):
            name = socket.socket(socket.AF_UNIX)
            if bound(name, f"\0tests-port-{port}") and is_free(port):
                TAKEN.append(name)
                return port
            name.close()
    raise OSError("no port is free")


def connected(port):
    """A connection to a port of this machine, whose bytes are sent at once."""
    one = socket.create_connection(("127.0.0.1", port), SECONDS)
    one.setsockopt(socket.IPPROTO_TCP, socket.TCP_NODELAY, 1)
    return one


class NotServed(OSError):
    """The program does not serve: the line that it said, and the status with which it ended."""

    def __init__(self, said, status):
        super().__init__(f"the program does not serve: it said {said!r} and ended with {status}")
        self.said, self.status = said, status


class Server:
    """The program, serving a map until it is stopped by its own process id; with a journal, where one is named. `under` are words before its own,
    `seconds` is how long it may take until it serves, and `how` what else is said of the process."""

    def __init__(self, executable, path, workers, versions, rules=(), under=(), journal=None, port=None, seconds=SECONDS, **how):
        self.port = port or free_port()
        command = ["serve", path] if journal is None else ["keep", path, journal]
        words = [*under, executable, *map(str, [*command, self.port, workers, versions, *rules])]
        self.process = subprocess.Popen(words, stdout=subprocess.PIPE, stdin=subprocess.DEVNULL, **how)
        ready, _, _ = select.select([self.process.stdout], [], [], seconds)
        self.said = self.process.stdout.readline() if ready else b""
        if self.said != f"serving {self.port}\n".encode():
            if ready:
                # It ends by itself.
                with contextlib.suppress(subprocess.TimeoutExpired):
                    self.process.wait(SECONDS)
            self.stop()
            raise NotServed(self.said, self.process.returncode)

    def __enter__(self):
        return self

    def __exit__(self, *_):
        self.stop()

    def stop(self):
        self.process.terminate()
        try:
            self.process.wait(SECONDS)
        except subprocess.TimeoutExpired:
            self.process.send_signal(signal.SIGKILL)
            self.process.wait()
        self.process.stdout.close()

    def client(self, seconds=SECONDS):
        return http.client.HTTPConnection("127.0.0.1", self.port, timeout=seconds)

    def socket(self):
        return connected(self.port)


def processor(process):
    """The seconds that all threads of a process have had of the processor; the clock has the number by which the
    system knows it."""
    return time.clock_gettime((~process << 3) | 2)


# ---- requests and replies


def ask(client, method, path, body=None, headers=None):
    """Status, version, body and head of the reply to one request."""
    client.request(method, path, body, headers or {})
    answer = client.getresponse()
    text = answer.read()
    return answer.status, int(answer.headers["Tgap-Version"]), text, answer.headers


def asked_once(server, method, path, body=None):
    """Status, version and body of the reply to a request on a connection of its own."""
    with contextlib.closing(server.client()) as client:
        return ask(client, method, path, body, {"Connection": "close"})[:3]


def received(one):
    """All that comes until the other end closes the connection, and whether it closed it in good order."""
    came = bytearray()
    try:
        while data := one.recv(65536):
            came += data
    except ConnectionResetError:
        return bytes(came), False
    return bytes(came), True


def exchange(server, sent, in_pieces_of=None):
    """All that comes back for these bytes, up to the end of the connection."""
    size = in_pieces_of or max(len(sent), 1)
    with server.socket() as one:
        for at in range(0, len(sent), size):
            one.sendall(sent[at : at + size])
        one.shutdown(socket.SHUT_WR)
        return received(one)[0]


def request(method, path, body=b"", *headers):
    lines = [f"{method} {path} HTTP/1.1", "Host: t", *headers]
    if body:
        lines.append(f"Content-Length: {len(body)}")
    return "\r\n".join([*lines, "", ""]).encode() + body


def reply(status, reason, version, body, close=False, allow=None):
    """The bytes of a reply, by the documents."""
    head = [f"HTTP/1.1 {status} {reason}", "Content-Type: text/plain", f"Tgap-Version: {version}"]
    head += [f"Allow: {allow}"] if allow else []
    head += ["Connection: close"] if close else []
    return "\r\n".join([*head, f"Content-Length: {len(body)}", "", ""]).encode() + body


# ---- listings


def listing_lines(faces, count, arcs, ratio=16, classes=("1 1",), class_of=None, version=1):
    """The lines of the listing of a base map: the classes without their numbers, the number of arcs and the arcs
    without their word, and the classes that are not 0 by face."""
    yield f"tgap {version}\ntransform 1 1 0 0\nratio {ratio}\nclasses {len(classes)}\n"
    yield from (f"class {number} {row}\n" for number, row in enumerate(classes))
    yield f"faces {faces}\n"
    yield from (f"face {face} {(class_of or {}).get(face, 0)}\n" for face in range(1, faces + 1))
    yield f"arcs {count}\n"
    yield from (f"arc {arc}\n" for arc in arcs)
    yield "end\n"


def listing(faces, arcs, **more):
    """The listing of a base map, from its arcs without their word, as bytes."""
    return "".join(listing_lines(faces, len(arcs), arcs, **more)).encode()


def arc_text(left, right, points):
    """An arc as a listing has it, without its word."""
    return f"{left} {right} {len(points)} " + " ".join(f"{x} {y}" for x, y in points)


def grid(side):
    """The faces, the number of arcs and the arcs of square cells, side by side: the cell at (column, row) is face row *
    side + column + 1, and each arc, with its left face, right face and points, is one side of a cell."""

    def face(column, row):
        return row * side + column + 1 if 0 <= column < side and 0 <= row < side else 0

    def arcs():
        for a in range(side + 1):
            for b in range(side):
                yield face(a - 1, b), face(a, b), [(a, b), (a, b + 1)]
                yield face(b, a), face(b, a - 1), [(b, a), (b + 1, a)]

    return side * side, 2 * side * (side + 1), arcs()


def bent_grid(side):
    """The same cells, four times as wide, where each side has a bend that a larger neighbour of it does not need."""
    faces, count, arcs = grid(side)

    def bent(points):
        (x, y), (u, v) = points
        return [(4 * x, 4 * y), (4 * x + 1, 4 * y + 2) if x == u else (4 * x + 2, 4 * y + 1), (4 * u, 4 * v)]

    return faces, count, ((left, right, bent(points)) for left, right, points in arcs)
