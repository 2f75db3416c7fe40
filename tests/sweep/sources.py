"""The inputs that are damaged, what is asked of the program with each, and what it has to answer by the plain readers."""
import contextlib

import packets
import topologies
from drawn_edits import KINDS, cut_line, fuse_line, node_line
from lib import request
from maps import MAPS
from model import window_of
from plain_cuts import Cause
from plain_edits import applied, edited
from plain_heads import replies
from plain_maps import History, Topology, check, check_text, read_listing, read_rules
from plain_records import read_packet, read_slice, replayed
from plain_texts import Refused
from plain_windows import packet_text
from damage import OF_JSON, OF_TEXT, damaged


def refusal(data):
    """Why a listing is refused; nothing where it is not."""
    try:
        check(read_listing(data))
    except Refused as why:
        return str(why)
    return ""


# Longer ones are maps at a limit.
LISTINGS = [data for data in MAPS.values() if len(data) < 4000 and "bad-line" not in refusal(data)]
SOUND = [data for data in LISTINGS if not refusal(data) and b"arcs 0" not in data]
PAIRS = [(topologies.FILES[words[1]], topologies.FILES[words[-1]]) for words, status, _ in topologies.CASES if status == 0]
REPLAYS = [(packets.FILES[words[1]], packets.FILES[words[2]]) for words, status, _ in packets.CASES if words[0] == "replay" and status == 0]
STATUSES = {"refused": 4, "step": 5, "unfit": 9}


def outcome(work):
    """Status and text of a command by what a plain reader gives, or by why it refuses."""
    try:
        return 0, work()
    except Refused as why:
        return STATUSES[str(why).split()[0]], str(why)


# ---- commands: each gives the words, with files by their numbers, the files, and the outcome


def asked(command, step, read):
    """What a command answers of a map. Of a map whose vertices may be removed the slice before the first step alone is
    known here, and its last step."""

    def work():
        base = read()
        if command == "borders":
            return History(base).borders_text(step)
        check(base)
        if command == "check":
            return check_text(base)
        history = History(base)
        history.too_high(step)
        return history.slice_text(step)

    return work


def steps_of(command, chance, read):
    """The step that is asked for, as a list of words."""
    if command == "check":
        return []
    step = chance.choice([0, 0, 1, 1, 2, 3, 4])
    if command == "borders" or step == 0:
        return [step]
    try:
        base = read()
    except Refused:
        return [step]
    return [step if base.ratio == 0 or step >= len(History(base).labels) else 0]


def damaged_listing(chance):
    data = damaged(chance, chance.choice(LISTINGS), OF_TEXT)
    command = chance.choice(["check", "slice", "borders"])
    steps = steps_of(command, chance, lambda: read_listing(data))
    return [command, 0, *map(str, steps)], [data], outcome(asked(command, *(steps or [0]), lambda: read_listing(data)))


def of_topology(chance, data, rules):
    """What is asked of a topology. The rules are read first."""
    name = chance.choice(["land", "land", "land", "land", "-", "sea"])

    def read():
        told = read_rules(rules)
        return Topology(data, name).base(told)

    command = chance.choice(["check", "slice"])
    steps = steps_of(command, chance, read)
    return [command, 0, *map(str, steps), name, 1], [data, rules], outcome(asked(command, *(steps or [0]), read))


def damaged_topology(chance):
    data, rules = chance.choice(PAIRS)
    return of_topology(chance, damaged(chance, data, OF_JSON), rules)


def damaged_rules(chance):
    data, rules = chance.choice(PAIRS)
    return of_topology(chance, data, damaged(chance, rules, OF_JSON))


def damaged_slice(chance):
    first, packet = chance.choice(REPLAYS)
    first = damaged(chance, first, OF_TEXT)
    return ["replay", 0, 1], [first, packet], outcome(lambda: replayed(first, packet))


def damaged_packet(chance):
    first, packet = chance.choice(REPLAYS)
    packet = damaged(chance, packet, OF_TEXT)
    return ["replay", 0, 1], [first, packet], outcome(lambda: replayed(first, packet))


COMMANDS = {"listing": damaged_listing, "topology": damaged_topology, "rules": damaged_rules, "slice": damaged_slice, "packet": damaged_packet}


# ---- requests, to a server of four squares that publishes no version

SERVED = MAPS["four_squares"]
BASE = read_listing(SERVED)
LAST = len(packets.FOUR_SLICES) - 1
SLICES = [read_slice(text.encode()) for text in packets.FOUR_SLICES]
RECORDS = {record.step: record for record in read_packet(packets.four_packet(LAST, 0).encode())[1]}
BATCHES = [b"", b"class 1 0\n", b"move 20 20 25 25\n", b"add 0 0 10 0 5 -1\ndrop 0 0\n", b"move 10 10 11 11\nmove 11 11 10 10\nclass 4 0\n"]


def served(name, numbers, body):
    """Status and text of a good request."""
    if name == "edit":
        try:
            check(edited(BASE, body))
        except Refused as why:
            return 422, str(why)
        return 507, "versions full 1"
    if name == "info":
        return 200, f"version 0 steps {LAST} faces 4 arcs 8 points 20"
    if name == "pin":
        return (409, "behind 0") if numbers and numbers[0] > 0 else (200, "pin 0")
    if name in ("packet", "window-packet") and numbers[0] < numbers[1]:
        return 400, f"not coarser {numbers[0]} {numbers[1]}"
    if numbers[0] > LAST:
        return 400, f"step too high {LAST}"
    if name == "window-packet":
        return 200, packet_text(tuple(numbers[2:]), *numbers[:2], RECORDS, SLICES).decode()[:-1]
    text = packets.FOUR_SLICES[numbers[0]]
    if name == "window":
        text = window_of(text.encode(), numbers[1:]).decode()
    return 200, (packets.four_packet(*numbers) if name == "packet" else text)[:-1]


HEADERS = ["Connection: close", "Connection: keep-alive", "connection: x, Close ,y", "Content-Length: 0", "content-length: 5", "Expect: 100-continue",
           "Accept: */*", "X: \t a b \t", "Transfer-Encoding: chunked", "User-Agent: caf\u00e9"]
PATHS = [
    ("GET", "/info"), ("GET", "/info?a=/b"), ("GET", "/slice/0"), ("GET", "/slice/3"), ("GET", "/slice/4"), ("GET", "/packet/3/0"), ("GET", "/packet/0/1"),
    ("GET", "/packet/2/2"), ("GET", "/window/0/12/2/30/4"), ("GET", "/window/3/-5/-5/0/0"), ("GET", "/window/1/-2147483648/0/2147483648/0"), ("POST", "/pin"),
    ("POST", "/pin/0"), ("POST", "/pin/1"), ("POST", "/edit"), ("POST", "/edit"), ("DELETE", "/info"), ("GET", "/nothing"), ("GET", "/caf\u00e9"),
]


def one_request(chance):
    method, path = chance.choice(PATHS)
    headers = [chance.choice(HEADERS) for _ in range(chance.choice([0, 0, 0, 1, 1, 2]))] + ["A: b"] * chance.choice([0, 0, 0, 0, 61, 62, 63, 64])
    data = request(method, path, chance.choice(BATCHES) if path == "/edit" else b"", *headers)
    return data.replace(b"HTTP/1.1", b"HTTP/1.0", 1) if chance.random() < 0.05 else data


def damaged_request(chance):
    """A row of requests, and all that may come back for it."""
    data = b"".join(one_request(chance) for _ in range(chance.choice([1, 1, 2, 3])))
    if chance.random() < 0.9:
        data = damaged(chance, data, OF_TEXT)
    return data, replies(data, 0, served)


# ---- batches of edits, each on what the ones before it left


def some_point(chance, base):
    return chance.choice(chance.choice(base.arcs)[2])


LINES = {"node": node_line, "cut": cut_line, "fuse": fuse_line}


def line_of_edit(chance, base):
    """A line that is near to one that can be applied."""
    x, y = some_point(chance, base)
    name = chance.choice(["class", "move", "move", "add", "drop", "node", "cut", "cut", "fuse"])
    if name in LINES:
        return LINES[name](*KINDS[name][0](chance, base)).decode()
    near = x + chance.randint(-3, 3), y + chance.randint(-3, 3)
    if name == "class":
        return f"class {chance.randint(0, len(base.classes) + 1)} {chance.randint(0, len(base.weights))}\n"
    if name == "add":
        points = chance.choice(base.arcs)[2]
        at = chance.randrange(len(points) - 1)
        a, b = points[at : at + 2] if chance.random() < 0.5 else points[at : at + 2][::-1]
        middle = (a[0] + b[0]) // 2 + chance.randint(-1, 1), (a[1] + b[1]) // 2 + chance.randint(-1, 1)
        return f"add {a[0]} {a[1]} {b[0]} {b[1]} {middle[0]} {middle[1]}\n"
    return f"move {x} {y} {near[0]} {near[1]}\n" if name == "move" else f"drop {x} {y}\n"


def some_batch(chance, base):
    """Lines one after the other, each near to one that can be applied to what the ones before it left."""
    lines = []
    for _ in range(chance.choice([0, 1, 1, 1, 2, 3])):
        lines.append(line_of_edit(chance, base).encode())
        with contextlib.suppress(Cause):
            base = applied(base, lines[-1][:-1])
    return b"".join(lines)


def damaged_batch(chance, base):
    """A batch, and the base that it leaves or the text that refuses it."""
    batch = some_batch(chance, base)
    if chance.random() < 0.5:
        batch = damaged(chance, batch, OF_TEXT)
    try:
        left = edited(base, batch)
        check(left)
        return batch, left, None
    except Refused as why:
        return batch, None, str(why)
