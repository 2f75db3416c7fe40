"""A disk that fails under the server, by the library of tests/trials: calls that are refused, writes that are torn, and machines that stop."""
import concurrent.futures
import contextlib
import http.client
import itertools
import random

from keeper import DOWN, LEFT, LOAD_FAULT, MOVE, SQUARES, UP, Keeper, NoFold, NotServed, a_disk, ask, faults_kept, faults_served, folded, goes_on, journal
from kept import ENDED
from lib import SECONDS, exchange, free_port, reply, request

# What the journal has before, and what is sent then, one after the other by one client.
BEFORE, BATCHES = [UP], [MOVE, DOWN, LEFT]
START = journal(*BEFORE)
# What is done to open it: its bytes are written over themselves, and made sure twice, and read three times.
OPENING_WRITES, OPENING_SYNCS = 1, 2
# What no other batch stands in the way of.
LAST = b"class 1 0\n"
UNKEPT, FAULTY = (500, b"journal fault\n"), (422, b"edit line 1 cause 3\n")
AT_ONCE = 4


class Told:
    """What the program told of a life on a disk: the status and the line where it did not serve; the replies to the batches, as far as they came, and the
    status where it ended by itself."""

    def __init__(self):
        self.refused, self.replies, self.status = None, [], None

    def acknowledged(self):
        return [(version, batch) for batch, (status, version, _) in zip(BATCHES, self.replies) if status == 200]

    def others(self):
        """The batches that were sent and are not acknowledged."""
        sent = BATCHES[: len(self.replies) + 1] if self.refused is None else []
        return [batch for batch in sent if batch not in [batch for _, batch in self.acknowledged()]]


def lived(tests, disk, fault=None, call=0, size=0, beside=lambda server: None, port=None):
    """Starts the program on a journal with a fault of its disk, sends it the batches, and ends it."""
    disk.write(START)
    told = Told()
    try:
        with Keeper(tests, disk.file, env=disk.surroundings(fault, call, size), port=port) as server, contextlib.closing(server.client()) as client:
            with contextlib.suppress(ConnectionError, http.client.HTTPException):
                for batch in BATCHES:
                    told.replies.append(ask(client, "POST", "/edit", batch)[:3])
                beside(server)
            with contextlib.suppress(ConnectionError, http.client.HTTPException):
                # Whoever lost his connection gets no other one.
                ask(client, "GET", "/info")
                return told
            told.status = server.process.wait(SECONDS)
    except NotServed as refused:
        told.refused = refused.status, refused.said
    return told


def sound(tests, path, told, port=None):
    """What is wrong with a journal that a life left: what was acknowledged is there and is served, and an edit that is sent again is published."""
    try:
        batches = folded(path.read_bytes())
    except NoFold as place:
        return [f"the number of entry {place} does not follow"]
    faults = faults_kept(batches, BEFORE, told.acknowledged(), told.others())
    again = next((batch for batch in told.others() if batch not in batches), LAST)
    return faults or goes_on(tests, path, batches, again, port=port)


def of_both(tests, name, disk, told, port=None):
    """The file, which the program finds that is started again, and the image, which the machine finds that was started again."""
    for path in (disk.file, disk.image):
        tests.tell(f"{name}: {path.name}", sound(tests, path, told, port))


def calls_of(tests, disk):
    """How many writes and syncs the batches take, and the sizes of the writes."""
    told = lived(tests, disk)
    tests.same("on a disk that is right", told.acknowledged(), list(enumerate(BATCHES, len(BEFORE) + 1)))
    lines = disk.calls_told()
    return [int(line.split()[2]) for line in lines if line.startswith("write")], lines.count("sync")


def side_by_side(every, work):
    """Some of the cases at a time, each with a disk and a port of its own."""
    every = list(every)

    def some(cases):
        with a_disk() as disk:
            port = free_port()
            for case in cases:
                work(disk, port, *case)

    with concurrent.futures.ThreadPoolExecutor(AT_ONCE) as pool:
        list(pool.map(some, [every[at::AT_ONCE] for at in range(AT_ONCE)]))


def the_order_of_calls(tests):
    """A start makes its journal sure, and closes it where it is not. An edit is two writes and two syncs."""
    at, sizes = len(START) - 1, [len(batch) + 13 for batch in BATCHES]
    edits = []
    for size in sizes:
        edits += [f"write {at + 1} {size}", "sync", f"write {at} 1", "sync"]
        at += size
    with a_disk() as disk:
        lived(tests, disk)
        tests.same("the calls of a start and three edits", disk.calls_told(), [f"write 0 {len(START)}", "sync", "sync", "put", *edits])


def refused_writes(tests):
    """A write that is refused is told to its editor, and no edit is published then; the next one is. One that moves a byte, or is
    interrupted, goes on."""
    with a_disk() as disk:
        sizes, _ = calls_of(tests, disk)

    def one(disk, port, fault, call):
        name = f"{fault} at write {call}"
        told = lived(tests, disk, fault, call, port=port)
        goes_on_with_it = fault in ("short", "interrupted")
        if call <= OPENING_WRITES and not goes_on_with_it:
            tests.same(name, told.refused, LOAD_FAULT)
        else:
            wanted = [(200, number, b"published %d\n" % number) for number in range(2, 5)]
            failed = (call - OPENING_WRITES - 1) // 2
            tests.same(name, told.replies, wanted if goes_on_with_it else [*wanted[:failed], (500, failed + 1, b"journal fault\n"), *wanted[failed:-1]])
        of_both(tests, name, disk, told, port)

    side_by_side(itertools.product(("full", "broken", "denied", "short", "interrupted"), range(1, len(sizes) + 1)), one)


def torn_writes(tests):
    """The process, or the machine, stops within a write, when any of its bytes have reached the file."""
    with a_disk() as disk:
        sizes, _ = calls_of(tests, disk)

    def one(disk, port, call, count):
        name = f"torn at byte {count} of write {call}"
        told = lived(tests, disk, "torn", call, count, port=port)
        tests.same(name, (told.refused or (told.status, b""))[0], ENDED)
        of_both(tests, name, disk, told, port)

    # The last edit is as the one before it.
    side_by_side(((call, count) for call, size in enumerate(sizes[:-2], 1) for count in range(size + 1)), one)


def machines_that_stop(tests):
    """The machine stops before a sync, or after it. The disk has what was made sure, and any bytes of what was written since then."""
    chance = random.Random(7)
    with a_disk() as disk:
        _, syncs = calls_of(tests, disk)

    def one(disk, port, fault, call):
        name = f"{fault} at sync {call}"
        told = lived(tests, disk, fault, call, port=port)
        tests.same(name, (told.refused or (told.status, b""))[0], ENDED)
        sure, written = disk.image.read_bytes(), disk.file.read_bytes()
        for number in range(6 if fault == "ended" else 0):
            disk.image.write_bytes(mixed(sure, written, chance))
            tests.tell(f"{name}: what may be left, {number}", sound(tests, disk.image, told, port))
        disk.image.write_bytes(sure)
        of_both(tests, name, disk, told, port)

    side_by_side(itertools.product(("ended", "gone"), range(1, syncs + 1)), one)


def mixed(sure, written, chance):
    """What a crash may leave where these bytes were sure and these are written: any bytes where they differ, and any length between the two."""
    size = chance.randint(min(len(sure), len(written)), max(len(sure), len(written)))
    both = itertools.zip_longest(sure, written)
    return bytes(chance.choice([one or 0, other or 0, chance.randrange(256)]) if one != other else one for one, other in itertools.islice(both, size))


def syncs_that_fail(tests):
    """After a sync that failed every edit gets 500 until the program is started again, and readers go on. What is acknowledged after that start is on the
    disk."""
    with a_disk() as disk:
        _, syncs = calls_of(tests, disk)

    def one(disk, port, call):
        name = f"sync {call} fails"
        kept = (call - OPENING_SYNCS - 1) // 2

        def beside(server):
            with contextlib.closing(server.client()) as reader:
                for batch, wanted in [(MOVE if kept == 0 else LAST, UNKEPT), (b"move 5 5 6 6\n", FAULTY), (LAST, UNKEPT), (b"", UNKEPT)]:
                    status, version, text, _ = ask(reader, "POST", "/edit", batch)
                    tests.same(f"{name}: a later edit", (status, version, text), (wanted[0], kept + 1, wanted[1]))
            tests.tell(f"{name}: readers go on", faults_served(server, SQUARES.read_bytes(), [*BEFORE, *BATCHES[:kept]]))

        told = lived(tests, disk, "unsynced", call, beside=beside, port=port)
        if call <= OPENING_SYNCS:
            tests.same(name, told.refused, LOAD_FAULT)
        else:
            wanted = [*((200, number, b"published %d\n" % number) for number in range(2, kept + 2)), *[(500, kept + 1, b"journal fault\n")] * (len(BATCHES) - kept)]
            tests.same(name, told.replies, wanted)
        tests.tell(f"{name}: what the disk has", faults_kept(folded(disk.image.read_bytes()), BEFORE, told.acknowledged(), []))
        started_again(tests, name, disk, told, port)

    side_by_side(((call,) for call in range(1, syncs + 1)), one)


def started_again(tests, name, disk, told, port):
    """The program is started again after a sync that failed: it serves what the file gives, and brings that to the disk, which the system may count as done."""
    found = folded(disk.file.read_bytes())
    again = next((batch for batch in told.others() if batch not in found), LAST)
    tests.tell(f"{name}: the program is started again", goes_on(tests, disk.file, found, again, env=disk.surroundings(), port=port))
    tests.tell(f"{name}: the machine stops after that", goes_on(tests, disk.image, [*found, again], b"", port=port))


def starts_that_fail(tests):
    """A read, or the sync of the folder, fails while the journal is opened: it is as it was."""
    with a_disk() as disk:
        reads = 0
        while told := lived(tests, disk, "unread", reads + 1).refused:
            reads += 1
            tests.same(f"read {reads} fails", (told, disk.file.read_bytes()), (LOAD_FAULT, START))
        tests.within("the reads of a start", reads, 3, 9)
        tests.same("the sync of the folder fails", (lived(tests, disk, "folder", 1).refused, disk.file.read_bytes()), (LOAD_FAULT, START))
        of_both(tests, "the sync of the folder fails", disk, Told())


def an_edit_that_was_refused_and_stored(tests):
    """A write tells that it failed when all of its bytes are in the file. The next edit makes the version of the same number, and takes its place."""
    with a_disk() as disk:
        told = lived(tests, disk, "denied", OPENING_WRITES + 2)
        tests.same("the first edit is refused", [reply[:2] for reply in told.replies], [(500, 1), (200, 2), (200, 3)])
        tests.same("its entry stands in the file, and another one of its number", disk.file.read_bytes().count(MOVE), 1)
        tests.same("what the journal comes to", folded(disk.file.read_bytes()), [*BEFORE, DOWN, LEFT])
        tests.tell("the next start", goes_on(tests, disk.file, [*BEFORE, DOWN, LEFT], MOVE))


def the_bytes_of_a_refusal(tests):
    """500 as it is sent, on a connection that goes on and on one that ends."""
    with a_disk() as disk:
        disk.write(START)
        with Keeper(tests, disk.file, env=disk.surroundings("unsynced", OPENING_SYNCS + 1)) as server:
            for close in (False, True):
                sent = request("POST", "/edit", MOVE, *(["Connection: close"] if close else []))
                tests.same(f"500, {'and the end' if close else 'going on'}", exchange(server, sent), reply(500, "Internal Server Error", 1, b"journal fault\n", close))


def a_disk_that_lies(tests):
    """What the judges of these tests are for: a sync that tells that it was done, and was not, loses an edit, and that is seen."""
    with a_disk() as disk:
        for call in (OPENING_SYNCS + 1, OPENING_SYNCS + 2):
            told = lived(tests, disk, "lied", call)
            tests.same(f"all edits are acknowledged where sync {call} lies", len(told.acknowledged()), len(BATCHES))
            tests.tell(f"sync {call} lies: the file", sound(tests, disk.file, told))
            tests.same(f"sync {call} lies: the loss is seen", bool(sound(tests, disk.image, told)), True)
    for batches, before, acknowledged, others, is_right in [
            ([UP, MOVE], [UP], [(2, MOVE)], [], True), ([UP, MOVE, DOWN], [UP], [(2, MOVE)], [DOWN], True), ([UP], [UP], [], [MOVE], True),
            ([UP], [UP], [(2, MOVE)], [], False), ([MOVE], [UP], [(2, MOVE)], [], False), ([UP, DOWN], [UP], [(2, MOVE)], [DOWN], False),
            ([UP, DOWN, MOVE], [UP], [(2, MOVE), (3, DOWN)], [], False), ([UP, MOVE, DOWN], [UP], [(2, MOVE)], [LEFT], False),
            ([UP, MOVE, DOWN, LEFT], [UP], [(2, MOVE)], [DOWN, LEFT], False), ([UP, MOVE], [UP], [(3, MOVE)], [], False), ([UP, MOVE], [UP], [(2, MOVE), (2, DOWN)], [], False)]:
        tests.same(f"of {before} and {acknowledged} with {others} there is {batches}", not faults_kept(batches, before, acknowledged, others), is_right)


TESTS = [torn_writes, machines_that_stop, refused_writes, syncs_that_fail, the_order_of_calls, starts_that_fail,
         an_edit_that_was_refused_and_stored, the_bytes_of_a_refusal, a_disk_that_lies]
