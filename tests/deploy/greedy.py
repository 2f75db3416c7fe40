"""What one address can take from another one: many connections that ask for the longest texts, one after the other, which
the program makes anew each time, beside a reader who asks for little."""
import collections
import contextlib
import http.client
import itertools
import multiprocessing
import statistics
import tempfile
import threading
import time

from front import Front, Program, answer_of, exchanged
from large_map import LARGE, written
from live import side_by_side

GREEDY, READER, STEADY = "127.0.0.5", "127.0.0.6", "127.0.0.7"
CONNECTIONS = 16
SECONDS, WARM = 3, 1
WINDOWS = 400
# More than the program keeps.
STEPS = 10000
# A reader waits no longer than this beside the greedy address, on a loaded machine too; and no more than a part of what
# he waits where that one may have all workers.
NEAR, FACTOR, PART = 0.05, 5, 0.5
LIMITS = "            # Fewer than the program has workers.\n            limit_conn texts_at_once 3;\n            limit_req zone=texts burst=60 delay=40;\n"


def without_limits(text):
    """The configuration in which texts count as all other requests."""
    return exchanged(text, [(LIMITS, "")])


def over_and_over(front, over, told):
    """The greedy address. It is another process, so that it does not take the reader's time here."""
    counts, asked = collections.Counter(), itertools.cycle(range(STEPS))

    def one():
        client = None
        while not over.is_set():
            try:
                client = client if client and client.sock else front.client(GREEDY)
                answer = answer_of(client, "GET", f"/map/topo/{next(asked)}", close=False)
                counts[answer.status if answer.status == 200 else answer.told] += 1
            except (OSError, http.client.HTTPException) as error:
                counts[type(error).__name__], client = counts[type(error).__name__] + 1, None

    side_by_side([one] * CONNECTIONS)
    told.put(counts)


@contextlib.contextmanager
def greedy(front):
    """While it lasts the greedy address asks; then what it was told stands in the counts, by status and text."""
    fork = multiprocessing.get_context("fork")
    over, told, counts = fork.Event(), fork.Queue(), collections.Counter()
    process = fork.Process(target=over_and_over, args=(front, over, told))
    process.start()
    try:
        yield counts
    finally:
        over.set()
        counts.update(told.get())
        process.join()


def waited(front, seconds):
    """The statuses that a reader is told who asks for the numbers again and again, and what each took."""
    client, taken, statuses, end = front.client(READER), [], collections.Counter(), time.monotonic() + seconds
    while time.monotonic() < end:
        begun = time.monotonic()
        statuses[answer_of(client, "GET", "/map/info", close=False).status] += 1
        taken.append(time.monotonic() - begun)
        time.sleep(0.01)
    client.close()
    return statuses, taken


def beside_a_greedy_one(front, seconds):
    """The statuses of the reader and what each took, and what the greedy address was told."""
    with greedy(front) as counts:
        # Until the greedy address has all that it gets.
        time.sleep(WARM)
        statuses, taken = waited(front, seconds)
    return statuses, taken, counts


def windows(front):
    """What a client is told who asks for one window after the other, as fast as it is answered."""
    client, statuses = front.client(STEADY), collections.Counter()
    for number in range(WINDOWS):
        left = number % LARGE
        statuses[answer_of(client, "GET", f"/map/window/0/{left}/0/{left + 4}/4", close=False).status] += 1
    client.close()
    return statuses


def greed(tests):
    with tempfile.TemporaryDirectory() as room, Program(tests.executable, [written(room, LARGE)]) as program:
        with Front(program.port) as front:
            steady = []
            thread = threading.Thread(target=lambda: steady.append(windows(front)))
            thread.start()
            _, alone = waited(front, SECONDS)
            statuses, beside, counts = beside_a_greedy_one(front, SECONDS)
            thread.join()
        with Front(program.port, without_limits) as front:
            _, unlimited, _ = beside_a_greedy_one(front, SECONDS)
    alone, beside, unlimited = map(statistics.median, [alone, beside, unlimited])
    tests.same("what a reader is told beside a greedy address", set(statuses), {200})
    tests.within("the seconds that he waits, by the median", beside, 0, NEAR + FACTOR * alone)
    tests.holds("without the limits he waits longer", beside < PART * unlimited, (alone, beside, unlimited))
    tests.same("the greedy address gets texts, and is told where it is too much", set(counts), {200, (503, b"busy, try again\n")})
    tests.same("windows one after the other", steady, [{200: WINDOWS}])
