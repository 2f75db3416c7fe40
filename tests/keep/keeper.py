"""The program that keeps a journal, and what its journal comes to by plain readers: those of entries in tests/trials, and those of maps and edits in
tests/sweep."""
import contextlib
import itertools
import os
import pathlib
import shutil
import sys
import tempfile
import types

TESTS = pathlib.Path(__file__).resolve().parents[1]
sys.path += [str(TESTS), *(str(TESTS / name) for name in ("trials", "http", "sweep"))]
from lib import TOP, NotServed, Server, ask, asked_once  # noqa: E402
from kept import entries, entry, make_disk  # noqa: E402
from plain_answers import PlainAnswers  # noqa: E402
from plain_edits import edited  # noqa: E402
from plain_maps import read_listing  # noqa: E402

SQUARES = TOP / "examples/two_squares.tgap"
# Batches of the two squares, of which any are good in any order: each moves another corner.
MOVE, DOWN, LEFT, UP = b"move 20 10 24 10\n", b"move 20 0 24 0\n", b"move 0 0 -4 0\n", b"move 0 10 -4 10\n"
ONE = entry(1, MOVE) + b"\0"
LOAD_FAULT = 3, b"load fault journal\n"
NOBODY = 65534


# ---- what a journal comes to


def journal(*batches):
    """A journal of these batches, one for each version, as the program leaves it."""
    return b"".join(itertools.starmap(entry, enumerate(batches, 1))) + b"\0"


class NoFold(ValueError):
    """The place of the first entry whose number does not follow."""


def folded(data):
    """The batches that the entries of a journal come to: each takes the place of the one of its number and of all behind that one."""
    batches = []
    for place, (number, batch) in enumerate(entries(data)[0]):
        if not 1 <= number <= len(batches) + 1:
            raise NoFold(place)
        batches[number - 1 :] = [batch]
    return batches


def map_of(listing, batches):
    """What the map of a listing answers after these batches."""
    base = read_listing(listing)
    for batch in batches:
        base = edited(base, batch)
    return PlainAnswers(len(batches), base)


def faults_served(server, listing, batches):
    """What is wrong where a server is to serve the map of a listing after these batches."""
    wanted, faults = map_of(listing, batches), []
    with contextlib.closing(server.client()) as client:
        for path in ("/info", "/slice/0", f"/slice/{wanted.last}", f"/packet/{wanted.last}/0"):
            status, version, text, _ = ask(client, "GET", path)
            if version != len(batches) or not wanted.is_read(path, status, text):
                faults.append(f"{path} gives {status}, {text[:200]!r} of version {version}, and the journal comes to {len(batches)} batches")
    return faults


def faults_kept(batches, before, acknowledged, others):
    """What is wrong with the batches of a journal that had some before: behind them stand those that were acknowledged, each by the number that was told,
    and at most one more, which is one of the others."""
    numbers = [number for number, _ in acknowledged]
    if numbers != list(range(len(before) + 1, len(before) + len(numbers) + 1)):
        return [f"the numbers that were told are {numbers}, after {len(before)}"]
    wanted = [*before, *(batch for _, batch in acknowledged)]
    if batches[: len(wanted)] != wanted:
        return [f"of {wanted} there is {batches}"]
    more = batches[len(wanted) :]
    return [] if len(more) <= 1 and all(batch in others for batch in more) else [f"there is more than was given: {more}"]


# ---- the program


class Keeper(Server):
    """The program, keeping a journal of the two squares, or of another map."""

    def __init__(self, tests, path, workers=2, versions=16, base=SQUARES, **how):
        super().__init__(tests.executable, base, workers, versions, journal=path, **how)

    def edit(self, batch):
        """Status, version and text of the reply to a batch on a connection of its own."""
        return asked_once(self, "POST", "/edit", batch)


def refusal(tests, path, versions=16, base=SQUARES, rules=(), **how):
    """The status and the text of a start that is refused, or what is served in its place."""
    try:
        with Server(tests.executable, base, 1, versions, rules, journal=path, **how):
            return "it serves"
    except NotServed as refused:
        return refused.status, refused.said


def goes_on(tests, path, batches, batch, **how):
    """What is wrong where the program is to serve a journal that comes to these batches, and to publish one more."""
    data = path.read_bytes()
    if folded(data) != batches:
        return [f"the journal comes to {folded(data)}, expected {batches}"]
    with Keeper(tests, path, **how) as server:
        faults = faults_served(server, SQUARES.read_bytes(), batches)
        told = server.edit(batch)
    wanted = 200, len(batches) + 1, b"published %d\n" % (len(batches) + 1)
    faults += [] if told == wanted else [f"{batch} is answered by {told}"]
    return faults + ([] if folded(path.read_bytes()) == [*batches, batch] else [f"it is not kept: {folded(path.read_bytes())}"])


@contextlib.contextmanager
def a_disk():
    """A folder with a journal and the library that stands for a disk, for the program itself. The files lie in memory, where that may be: the library
    alone says what is on the disk."""
    memory = "/dev/shm" if os.access("/dev/shm", os.W_OK) else None
    with tempfile.TemporaryDirectory() as folder, tempfile.TemporaryDirectory(dir=memory) as room:
        disk = make_disk(folder)
        disk.file, disk.image, disk.calls = (pathlib.Path(room) / name for name in ("journal", "image", "calls"))
        yield disk


@contextlib.contextmanager
def a_folder():
    """A folder that everybody may enter."""
    with tempfile.TemporaryDirectory() as folder:
        os.chmod(folder, 0o755)
        yield pathlib.Path(folder)


def for_nobody(tests, folder):
    """What runs the program as somebody who is not root, and how the process is told so. A copy, since he may not reach the repository."""
    copy = folder / "program"
    shutil.copyfile(tests.executable, copy)
    copy.chmod(0o755)
    return types.SimpleNamespace(executable=str(copy)), {"user": NOBODY, "group": NOBODY, "extra_groups": []} if os.geteuid() == 0 else {}
