"""Records what many clients ask one server and what it replies, and judges the whole by docs/formats.md, with no other
order between two connections than that of time.

There is one list of versions. The first is the map that is served; each other one is told as published by one connection
alone, and is the version before it, edited by the batch of that connection. Where a reply is missing, an edit may have
been published all the same. A pin goes forward alone, to a version that is there by then; all that is read, and what a
batch is refused for, is what the pinned version gives; stale, behind and full are told only where they are true. An edit
makes its version, and a telling of the newest version is true, at some moment between sending and receipt, in one order
for all of them."""
import collections
import contextlib
import http.client
import re
import threading
import time

from lib import ask
from plain_answers import NUMBERS, PlainAnswers

# A request with its times of sending and receipt, and the reply. Where no reply came, the last four are None.
Exchange = collections.namedtuple("Exchange", "method path body sent received status version text")
NEVER = float("inf")


# ---- recording


class Recorder:
    """Connections to one server, each with its exchanges in their order. Clients may connect at the same time."""

    def __init__(self, server):
        self.server, self.connections, self.lock = server, [], threading.Lock()

    @contextlib.contextmanager
    def connection(self):
        """A connection of a client, which ends with what is done with it."""
        exchanges = []
        with self.lock:
            self.connections.append(exchanges)
        with contextlib.closing(self.server.client()) as client:
            client.connect()
            # A further connection would have another pin.
            client.auto_open = False
            yield RecordedClient(client, exchanges)

    def count(self):
        return sum(map(len, self.connections))


class RecordedClient:
    def __init__(self, client, exchanges):
        self.client, self.exchanges = client, exchanges

    def ask(self, method, path, body=b""):
        """The exchange of one request. It is recorded too where no reply comes, and then the failure goes on."""
        sent = time.monotonic_ns()
        try:
            status, version, text, _ = ask(self.client, method, path, body or None)
        except (OSError, http.client.HTTPException):
            self.exchanges.append(Exchange(method, path, body, sent, None, None, None, None))
            raise
        self.exchanges.append(Exchange(method, path, body, sent, time.monotonic_ns(), status, version, text))
        return self.exchanges[-1]


# ---- judging one connection


class Wrong(Exception):
    """Why a transcript is refused."""


def wants(holds, why):
    if not holds:
        raise Wrong(why)


def told_number(exchange, status, words):
    """The number behind these words of a reply, or nothing where it is another reply."""
    found = re.fullmatch(words.encode() + rb" (0|[1-9][0-9]*)\n", exchange.text)
    return int(found[1]) if exchange.status == status and found else None


class Talk:
    """What one connection was told, by its own order: its pin, and the newest version that it knows of."""

    def __init__(self, whole, place):
        self.whole, self.place, self.pin, self.known = whole, place, None, 0

    def judge(self, exchanges):
        for place, exchange in enumerate(exchanges, 1):
            where = f"connection {self.place}, request {place}"
            try:
                wants(exchange.received is not None or place == len(exchanges), "there is a request after one without a reply")
                self.take(exchange, where)
            except Wrong as why:
                self.whole.faults.append(f"{where}: {why}")
                # What comes behind it has no pin that is sure.
                return

    def take(self, exchange, where):
        word = exchange.path.partition("?")[0].split("/")[1]
        if exchange.received is None:
            if word == "edit":
                self.whole.unanswered[self.pin].append(exchange)
            return
        memory = exchange.status == 503 and exchange.text == b"memory\n"
        if word == "pin" and not memory:
            self.pinned(exchange)
        elif word == "edit" and not memory:
            self.edited(exchange, where)
        else:
            wants(word in NUMBERS or memory, "nothing is known of this path")
            self.stays(exchange)
            if not memory:
                self.whole.asked[self.pin].setdefault(("read", exchange.path, exchange.status, exchange.text), where)
        self.whole.is_there(exchange.version, exchange)

    def stays(self, exchange):
        """The pin is what it was; what it was at first the first reply tells."""
        self.pin = exchange.version if self.pin is None else self.pin
        wants(exchange.version == self.pin, f"the reply is from version {exchange.version}, and {self.pin} is pinned")
        self.known = max(self.known, self.pin)

    def moves(self, exchange, number):
        wants(number >= self.known, f"version {number} is pinned by who knows of version {self.known}")
        wants(exchange.version == number, f"the reply is from version {exchange.version}, and {number} is pinned by it")
        self.pin = self.known = number

    def knows(self, exchange, number):
        """It is told that this version is the newest."""
        wants(number >= self.known, f"version {number} is told as the newest to who knows of version {self.known}")
        self.known = number
        self.whole.is_there(number, exchange)
        self.whole.newest[number] = max(self.whole.newest.get(number, 0), exchange.sent)

    def pinned(self, exchange):
        seen = [int(one) for one in exchange.path.split("/")[2:]]
        number, behind = told_number(exchange, 200, "pin"), told_number(exchange, 409, "behind")
        if behind is not None:
            self.stays(exchange)
            wants(seen and behind < seen[0], f"it is behind {behind} without asking for a later version")
            self.knows(exchange, behind)
            return
        wants(number is not None, "it is no reply to a pin")
        wants(not seen or number >= seen[0], f"version {number} is pinned by who asked for {seen and seen[0]}")
        self.moves(exchange, number)

    def edited(self, exchange, where):
        published, stale = told_number(exchange, 200, "published"), told_number(exchange, 409, "stale")
        if published is not None:
            self.publishes(exchange, where, published)
            return
        self.stays(exchange)
        asked = self.whole.asked[self.pin]
        if exchange.status == 422:
            asked.setdefault(("refused", exchange.body, exchange.status, exchange.text), where)
            return
        full = told_number(exchange, 507, "versions full")
        if stale is not None:
            wants(stale > self.pin, f"version {self.pin} is stale where {stale} is the newest")
            self.knows(exchange, stale)
        else:
            wants(full is not None, "it is no reply to an edit")
            wants(full == self.whole.limit == self.pin + 1, f"the versions are full at {full} where {self.pin} is pinned and {self.whole.limit} may be kept")
        asked.setdefault(("good", exchange.body, None, None), where)

    def publishes(self, exchange, where, number):
        before = number - 1 if self.pin is None else self.pin
        wants(number == before + 1, f"version {number} is published from version {before}")
        wants(number > self.known, f"version {number} is published by who knows of version {self.known}")
        self.moves(exchange, number)
        self.whole.asked[before].setdefault(("good", exchange.body, None, None), where)
        wants(number not in self.whole.makers, f"version {number} is told as published to {self.whole.makers.get(number, ['nobody'])[0]} too")
        self.whole.makers[number] = where, exchange


# ---- judging the list of versions


class Whole:
    """All that was told, and the list of versions that explains it."""

    def __init__(self, limit):
        self.limit, self.faults = limit, []
        # Who published a version; the edits without a reply, by their pin; what was asked of a version, with who did.
        self.makers, self.unanswered, self.asked = {}, collections.defaultdict(list), collections.defaultdict(dict)
        # By when a version was there, and until when it was the newest.
        self.there, self.newest = {0: NEVER}, {}

    def is_there(self, number, exchange):
        wants(number < self.limit, f"version {number} is told where {self.limit} may be kept")
        self.there[number] = min(self.there.get(number, NEVER), exchange.received)

    def reads(self, number, answers):
        """What is wrong with what was asked of a version."""
        for (what, asked, status, text), where in self.asked[number].items():
            if what == "read":
                if not answers.is_read(asked, status, text):
                    yield f"{where}: {asked} is not answered as version {number} does"
                continue
            refusal = answers.edited(asked)[1]
            if text != refusal:
                yield f"{where}: a batch is {'good' if refusal is None else 'refused by ' + refusal.decode().strip()} on version {number}"
        yield from self.two_texts(number)

    def two_texts(self, number):
        """One path has one text in one version."""
        first = {}
        for (what, asked, status, text), where in self.asked[number].items():
            if what == "read" and first.setdefault(asked, (status, text)) != (status, text):
                yield f"{where}: {asked} has two texts in version {number}"

    def chain(self, number, base, earliest, used=()):
        """What is wrong with this version and all later ones, where its map is this one and it comes no earlier, after these
        edits without a reply."""
        if earliest > self.there.setdefault(number, NEVER):
            return [f"version {number} is told before it can be there"]
        answers = PlainAnswers(number, base)
        faults = list(self.reads(number, answers))
        if faults or number == max(self.there):
            return faults
        for edit in self.makers_of(number + 1, used):
            made = answers.edited(edit.body)[0]
            if made is not None:
                found = self.chain(number + 1, made, max(earliest, edit.sent, self.newest.get(number, 0)), (*used, edit))
                if not found:
                    return []
                faults = faults or found
        return faults or [f"version {number + 1} is published by nobody"]

    def makers_of(self, number, used):
        """The edits that may have made a version: the one that was told so, or else those without a reply."""
        if number in self.makers:
            return [self.makers[number][1]]
        return [edit for edit in self.unanswered[number - 1] + self.unanswered[None] if all(edit is not one for one in used)]


def judged(base, limit, connections):
    """What is wrong with the exchanges of some connections to a server of this map, which may keep so many versions; nothing
    where the rules allow them."""
    whole = Whole(limit)
    for place, exchanges in enumerate(connections, 1):
        Talk(whole, place).judge(exchanges)
    return whole.faults or whole.chain(0, base, 0)
