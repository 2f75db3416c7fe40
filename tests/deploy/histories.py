"""Two histories at the front server: the program ends and begins again with other edits under the same numbers of
versions, while readers ask without a pause. Each reply that has a text names the history that the text is of."""
import contextlib
import http.client
import itertools
import threading
import time

from front import COLUMBUS, HISTORY, Front, Program, answer_of, until

TOKENS = [HISTORY, *(f"{number:016x}" for number in range(1, 6))]
READERS = 3
# How long each version is read, and how long two programs run side by side where the later begins before the earlier
# ends.
SECONDS = 0.2
ADDRESSES = (f"127.0.5.{low}" for low in itertools.cycle(range(1, 250)))


class Life:
    """A program with a history of its own: a point is moved in it to where no other history has it."""

    def __init__(self, executable, number, point):
        self.token, self.program, self.number, self.point, self.texts = TOKENS[number], Program(executable, COLUMBUS), number, point, {}
        self.keep()
        self.publish(1 + number, 0)

    def publish(self, right, up):
        (x, y), to = self.point, (self.point[0] + right, self.point[1] + up)
        reply = self.program.ask("POST", "/edit", f"move {x} {y} {to[0]} {to[1]}\n".encode())
        if reply.status != 200:
            raise OSError(f"the program does not take an edit: {reply.told}")
        self.point = to
        self.keep()

    def keep(self):
        """Notes what belongs to the newest version."""
        for path in paths(*self.point):
            reply = self.program.ask("GET", path)
            self.texts[self.token, reply.headers["Tgap-Version"], path] = reply.text


def paths(x, y):
    # The same window in each life, since the point is moved by little.
    left, low = x // 1000 * 1000, y // 1000 * 1000
    return ["/info", "/slice/0", f"/window/0/{left}/{low}/{left + 1000}/{low + 1000}"]


class Reader(threading.Thread):
    """Asks without a pause, over a connection that it keeps or over new ones."""

    def __init__(self, front, asked, keeps):
        super().__init__()
        self.front, self.asked, self.keeps, self.replies, self.read, self.over, self.client = front, asked, keeps, [], set(), False, None
        self.start()

    def run(self):
        for path in itertools.cycle(self.asked):
            if self.over:
                break
            # A connection that ends gives no reply.
            with contextlib.suppress(OSError, http.client.HTTPException):
                self.ask(path)
        if self.client:
            self.client.close()

    def ask(self, path):
        if not self.client or not self.client.sock or not self.keeps:
            self.client = self.front.client(next(ADDRESSES))
        client, self.client = self.client, None
        reply = answer_of(client, "GET", f"/map{path}", close=not self.keeps)
        self.client = client
        self.replies.append((path, reply.status, reply.headers.get_all("Tgap-History"), reply.headers["Tgap-Version"], reply.text))
        self.read.add((reply.headers["Tgap-History"], reply.status, reply.headers["Tgap-Version"]))


def strays(replies, texts):
    """The replies whose text is not that of the history and version that they name."""
    return [reply for reply in replies if reply[1] != 502 and not belongs(*reply, texts)]


def belongs(path, status, tokens, version, text, texts):
    return status == 200 and tokens is not None and len(tokens) == 1 and texts.get((tokens[0], version, path)) == text


def first_point(executable):
    with Program(executable, COLUMBUS) as program:
        line = next(line for line in program.ask("GET", "/slice/0").text.decode().splitlines() if line.startswith("edge "))
    return tuple(map(int, line.split()[5:7]))


def histories(tests):
    point, lives = first_point(tests.executable), []
    with contextlib.ExitStack() as running:
        lives.append(begun(running, tests.executable, 0, point))
        front = running.enter_context(Front(lives[0].program.port))
        readers = [Reader(front, paths(*point), keeps) for keeps in [True, False] for _ in range(READERS)]
        try:
            for number in range(1, len(TOKENS)):
                lived(lives[-1], readers)
                lives.append(followed(running, tests.executable, front, lives[-1], number, point, readers))
            lived(lives[-1], readers)
        finally:
            for reader in readers:
                reader.over = True
            for reader in readers:
                reader.join()
        verdict(tests, readers, lives)
        told_apart(tests, front, point, lives)


def begun(running, executable, number, point):
    life = Life(executable, number, point)
    running.enter_context(life.program)
    return life


def come(readers, token, status, version):
    """Whether one of the readers is told this, which is waited for; and a while more."""
    found = until(lambda: any((token, status, version) in reader.read for reader in readers))
    time.sleep(SECONDS)
    return found


def lived(life, readers):
    """A history of which a further version is published while it is read."""
    come(readers, life.token, 200, "1")
    life.publish(0, 1)
    come(readers, life.token, 200, "2")


def followed(running, executable, front, before, number, point, readers):
    """The history after another one: begun when that has ended, or while its program still answers."""
    if number % 2:
        before.program.stop()
        come(readers, before.token, 502, None)
    life = begun(running, executable, number, point)
    front.begin("columbus", life.program.port, life.token)
    if not number % 2:
        time.sleep(SECONDS)
        before.program.stop()
    return life


def verdict(tests, readers, lives):
    replies = [reply for reader in readers for reply in reader.replies]
    texts = {key: text for life in lives for key, text in life.texts.items()}
    tests.same("replies that name another history than that of their text", strays(replies, texts), [])
    read = set().union(*(reader.read for reader in readers))
    tests.same("what was read of each history", {told for told in read if told[1] == 200}, {(token, 200, version) for token in TOKENS for version in "12"})
    tests.holds("readers without a program are told which history they would have read", (TOKENS[0], 502, None) in read, read)


def told_apart(tests, front, point, lives):
    """That a stray would be seen: the front server is told another history of the program that is there."""
    texts = {key: text for life in lives for key, text in life.texts.items()}
    front.begin("columbus", lives[-1].program.port, TOKENS[1])
    reader = Reader(front, paths(*point)[1:], False)
    come([reader], TOKENS[1], 200, "2")
    reader.over = True
    reader.join()
    found = strays(reader.replies, texts)
    tests.holds("a text of another history is found", found and found[0][2] == [TOKENS[1]], found)
