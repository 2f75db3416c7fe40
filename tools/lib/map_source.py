"""Where an archive comes from: a map that the program serves, or a server elsewhere, of which one version is read."""
import contextlib
import http.client
import json
import re
import time
from urllib.parse import urlsplit

from command import FILE, REFUSED, STEP, Failure
from window_texts import Texts

TOP_ORDINATE, SECONDS = 2**31, 600
# How often a front server is asked again that has too much to do, and after how many seconds.
AGAIN, PAUSE = 60, 0.5
INFO = re.compile(r"version (\d+) steps (\d+) faces (\d+) arcs \d+ points \d+\n")


class Edited(Exception):
    """The map was edited while it was read: what came before is of an older version."""


class Served:
    """One version of a map on a server. All is asked on one connection, which a server of maps lets see one version; another one is refused."""

    def __init__(self, root):
        self.root, self.seen, self.history, self.client = root, None, None, None
        parts = urlsplit(root)
        kind = {"http": http.client.HTTPConnection, "https": http.client.HTTPSConnection}.get(parts.scheme)
        try:
            if not kind or not parts.hostname or parts.query or parts.fragment:
                raise ValueError(root)
            port = parts.port
        except ValueError as error:
            raise Failure(f"{root} is no address of a server: one begins with http:// or https:// and a host", FILE) from error
        self.connect = lambda: kind(parts.hostname, port, timeout=SECONDS)
        self.path = parts.path.rstrip("/")

    def reply(self, path):
        """The answer to a request, which is made again where a front server has too much to do."""
        for _ in range(AGAIN):
            answer, data = self.reply_now(path)
            if answer.status != 503 or answer.headers["Tgap-Version"] is not None:
                break
            time.sleep(PAUSE)
        return answer, data

    def reply_now(self, path):
        """The answer to a request. A server may end a connection at any time; then there is a new one."""
        for is_last in (False, True):
            client = self.client or self.connect()
            try:
                client.request("GET", f"{self.path}{path}")
                answer = client.getresponse()
                data = answer.read()
                self.client = client
                if answer.will_close:
                    self.close()
                return answer, data
            except (OSError, UnicodeError, http.client.HTTPException) as error:
                client.close()
                self.client = None
                if is_last:
                    raise Failure(f"{self.root} does not answer: {error or type(error).__name__}", FILE) from error

    def close(self):
        if self.client:
            self.client.close()
        self.client = None

    def forget(self):
        """Begins again, with the newest version."""
        self.close()
        self.seen = None

    def text(self, path):
        """What is asked for of the map. Edited, where it is of another version than what was asked before."""
        answer, data = self.reply(path)
        version, history = answer.headers["Tgap-Version"], answer.headers["Tgap-History"]
        if version is None or not version.isdigit():
            raise Failure(f"{self.root} is no server of a map: to {path} it answers {answer.status} {said(data)}".rstrip(), FILE)
        if answer.status != 200:
            raise Failure(f"{self.root} answers {path} with {answer.status} {said(data)}", {400: STEP, 422: REFUSED}.get(answer.status, 1))
        if self.seen not in (None, (version, history)):
            raise Edited
        self.seen = version, history
        self.history = history
        return data

    def info(self):
        """The numbers of the version, of the steps and of the faces of the map."""
        text = self.text("/info").decode("utf-8", "replace")
        found = INFO.fullmatch(text)
        if not found:
            raise Failure(f"{self.root} is no server of a map: to /info it answers {said(text.encode())}", FILE)
        return [int(number) for number in found.groups()]

    def slice(self, step):
        return self.text(f"/slice/{step}")

    def window(self, step, area):
        return self.text(f"/window/{step}/{'/'.join(map(str, area))}")

    def packet(self, first, last, area):
        return self.text(f"/window-packet/{first}/{last}/{'/'.join(map(str, area))}")

    def face_at(self, step, x, y):
        """The face at a grid point and its class (docs/formats.md, "The face at a point"); 0 outside."""
        _, _, faces, edges = Texts(self.window(step, (x, y, x, TOP_ORDINATE))).window()
        face = face_below(edges, x, y)
        return face, faces.get(face, 0)

    def metadata(self):
        """The metadata that a front server gives beside the map, as they stand there; none where there are none."""
        answer, data = self.reply("/meta.json")
        return data if answer.status == 200 and answer.headers["Tgap-Version"] is None else b""

    def transform(self):
        """From grid units to the coordinates of the map, as far as the topology of a slice tells it."""
        _, steps, _ = self.info()
        try:
            found = json.loads(self.text(f"/topo/{steps}"))["transform"]
            return {"scale": found["scale"], "translate": found["translate"]}
        except Failure as failure:
            if failure.status != REFUSED:
                raise
            return {"scale": [1, 1], "translate": [0, 0]}


def said(data):
    """The first line of what a server answered."""
    return (data.decode("utf-8", "replace").strip().splitlines() or ["nothing"])[0][:80]


def face_below(edges, x, y):
    """The face below the lowest segment that crosses the vertical line just to the right of x at the height y or above; 0 without one."""
    best = None
    for edge in edges:
        for p, q in zip(edge.points, edge.points[1:]):
            (ax, ay), (bx, by), face = (p, q, edge.right) if p[0] < q[0] else (q, p, edge.left)
            if not ax <= x < bx:
                continue
            # The height is ay + (by - ay) * (x - ax) / width.
            width, height = bx - ax, ay * (bx - ax) + (by - ay) * (x - ax)
            if height >= y * width and (best is None or is_lower((height, by - ay, width), best[0])):
                best = (height, by - ay, width), face
    return best[1] if best else 0


def is_lower(one, other):
    """Whether a crossing lies below another: its height, and of two at one point the rise to the right, each over the width of the segment."""
    (height, rise, width), (other_height, other_rise, other_width) = one, other
    return (height * other_width, rise * other_width) < (other_height * width, other_rise * width)


@contextlib.contextmanager
def served_by(program):
    """A map that the program serves for as long as the context lasts: nobody else knows its port, and it has one version only."""
    with program.serving() as server:
        with contextlib.closing(Served(f"http://127.0.0.1:{server.port}")) as served:
            yield served
