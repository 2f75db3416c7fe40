"""A journal as it is read by its form alone, and the program that keeps one, over a disk that is right or that fails."""
import pathlib
import shutil
import subprocess
import sys
import tempfile

sys.path.insert(0, str(pathlib.Path(__file__).resolve().parents[1]))
from lib import SECONDS, TOP, Skipped  # noqa: E402

TRIALS = TOP / "crates/trials/out/trials"
HERE = pathlib.Path(__file__).resolve().parent
# The most bytes of a journal, and what an entry has beside its batch.
MOST, BESIDE = 67_108_864, 13
# The status with which the library ends the program.
ENDED = 77


# ---- the form


def entry(number, batch):
    """An entry in bytes."""
    return b"\x01" + number.to_bytes(8, "big") + len(batch).to_bytes(4, "big") + batch


def entries(data):
    """The entries of a journal, each a number and a batch, and the place where they end."""
    found, at = [], 0
    while len(data) - at >= BESIDE and data[at] != 0:
        end = at + BESIDE + int.from_bytes(data[at + 9 : at + BESIDE], "big")
        if end > len(data):
            break
        found.append((int.from_bytes(data[at + 1 : at + 9], "big"), bytes(data[at + BESIDE : end])))
        at = end
    return found, at


def told(found):
    """What the program tells of entries."""
    return b"entries %d\n" % len(found) + b"".join(b"entry %d %d\n%s" % (number, len(batch), batch) for number, batch in found)


# ---- what may be left


def batches_of(data):
    return [batch for _, batch in entries(data)[0]]


def faults_of(data, before, batches, outcomes):
    """What is wrong with a journal that had some batches before, and to which others were given: each that was told as kept is there, in order, and of the
    others at most the one that was under way, or one that was told as failed, in its place."""
    found, kept = batches_of(data), iter([*outcomes, *["under way"], *["not begun"] * len(batches)])
    if found[: len(before)] != before:
        return [f"the batches from before are not there: {found}"]
    rest = found[len(before) :]
    for batch, outcome in zip(batches, kept):
        if rest and rest[0] == batch and outcome != "not begun":
            rest.pop(0)
        elif outcome.startswith("kept"):
            return [f"{batch} was told as {outcome}, and is not there: {found}"]
    return [f"there is more than was given: {rest}"] if rest else []


# ---- the program


class Disk:
    """A folder with a journal and the library that stands for a disk."""

    def __init__(self, folder):
        self.folder = pathlib.Path(folder)
        self.file, self.image, self.calls = (self.folder / name for name in ("journal", "image", "calls"))

    def write(self, data):
        """Makes the journal one with these bytes, which the disk has too."""
        for path in (self.file, self.image):
            path.write_bytes(data)
        self.calls.unlink(missing_ok=True)

    def surroundings(self, fault=None, call=0, size=0):
        """The environment in which a program has this disk; with a fault at the call of that number, where one is named."""
        wanted = {"LD_PRELOAD": str(self.folder / "disk.so"), "DISK_FILE": str(self.file), "DISK_IMAGE": str(self.image), "DISK_CALLS": str(self.calls)}
        return wanted | ({"DISK_FAULT": fault, "DISK_CALL": str(call), "DISK_BYTES": str(size)} if fault else {})

    def calls_told(self):
        """The calls that reached the disk."""
        return self.calls.read_text(encoding="ascii").splitlines()

    def run(self, *words, path=None, fault=None, call=0, size=0, **how):
        """Runs the program on the journal; with a fault at the call of that number, where one is named."""
        command, *rest = words
        wanted = self.surroundings(fault, call, size)
        return subprocess.run([TRIALS, command, path or self.file, *rest], env=wanted, capture_output=True, timeout=SECONDS, stdin=subprocess.DEVNULL, check=False, **how)

    def entries(self, path=None):
        """What the program tells of the entries of a journal."""
        return subprocess.run([TRIALS, "entries", path or self.file], capture_output=True, timeout=SECONDS, stdin=subprocess.DEVNULL, check=False).stdout

    def append(self, batches, **how):
        """The status with which the program ends that appends batches, and what it told of each."""
        ended = self.run("append", *(batch.decode() for batch in batches), **how)
        return ended.returncode, ended.stdout.decode().splitlines()[1:]


def make_disk(folder):
    """A disk in a folder, with its library."""
    compiler = shutil.which("cc")
    if not compiler:
        raise Skipped("there is no C compiler")
    subprocess.run([compiler, "-O1", "-shared", "-fPIC", "-o", f"{folder}/disk.so", HERE / "disk.c", "-ldl"], check=True)
    return Disk(folder)


def has_trials():
    """Skips a test where the program that keeps a journal by itself is not built."""
    if not TRIALS.is_file():
        raise Skipped(f"there is no {TRIALS.relative_to(TOP)}: ./tgap build makes it")


class Room:
    """A folder for a test of that program, with a disk."""

    def __enter__(self):
        has_trials()
        self.folder = tempfile.TemporaryDirectory()
        try:
            return make_disk(self.folder.name)
        except BaseException:
            self.folder.cleanup()
            raise

    def __exit__(self, *_):
        self.folder.cleanup()
