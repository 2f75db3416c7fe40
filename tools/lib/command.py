"""What the tools share as commands: failures with a status, files that are written whole or not at all, and the line that tells progress."""
import contextlib
import functools
import os
import pathlib
import shutil
import sys
import tempfile
import time

# The statuses are those of the program where it has one for the same case.
WORDS, FILE, REFUSED, STEP, OUTPUT = 2, 3, 4, 5, 6
TOP = pathlib.Path(__file__).resolve().parents[2]
# What the user calls the launcher, which tells it to the tools.
CALLED = os.environ.get("TGAP_CALLED") or "./tgap"
INPUT = "-"


class Failure(Exception):
    """Why a tool ends without a result: one sentence for its user, and the status."""

    def __init__(self, text, status=REFUSED):
        super().__init__(text)
        self.status = status


@functools.lru_cache(maxsize=None)
def standard_input():
    """All that stands on the standard input, which can be read once."""
    return sys.stdin.buffer.read()


def read_bytes(path):
    """What stands in a file; - is the standard input."""
    try:
        return standard_input() if path == INPUT else pathlib.Path(path).read_bytes()
    except OSError as error:
        raise Failure(f"{path} cannot be read: {error.strerror}", FILE) from error


def read_text(path):
    try:
        return read_bytes(path).decode("utf-8")
    except UnicodeDecodeError as error:
        raise Failure(f"{path} is no text: byte {error.start} is not UTF-8") from error


@contextlib.contextmanager
def written(*paths):
    """Paths in a folder of their own, to be written to; they take the place of the files that are meant once all is done."""
    folders = []
    try:
        for path in map(pathlib.Path, paths):
            try:
                folders.append(tempfile.mkdtemp(prefix=".tgap-", dir=path.parent))
            except OSError as error:
                raise Failure(f"{path} cannot be written: {error.strerror}", OUTPUT) from error
        news = [pathlib.Path(folder) / pathlib.Path(path).name for folder, path in zip(folders, paths)]
        yield news
        for new, path in zip(news, paths):
            try:
                os.replace(new, path)
            except OSError as error:
                raise Failure(f"{path} cannot be written: {error.strerror}", OUTPUT) from error
    finally:
        for folder in folders:
            shutil.rmtree(folder, ignore_errors=True)


def write_text(path, text):
    try:
        pathlib.Path(path).write_text(text, encoding="utf-8")
    except OSError as error:
        raise Failure(f"{path} cannot be written: {error.strerror}", OUTPUT) from error


def with_progress(items, what, every=1.0):
    """The items, one after the other; where they take long, a line on the terminal tells how many are done, and goes when all are."""
    items, begun = list(items), time.monotonic()
    if not sys.stderr.isatty():
        yield from items
        return
    told, width = begun + every, 0
    for done, item in enumerate(items):
        if time.monotonic() > told:
            line = f"{what}: {done} of {len(items)}"
            print(f"\r{line:{width}}", end="", file=sys.stderr, flush=True)
            told, width = time.monotonic() + every, len(line)
        yield item
    print(f"\r{'':{width}}\r" if width else "", end="", file=sys.stderr, flush=True)


def counted(count, one, many=None):
    return f"{count:,} {one if count == 1 else many or one + 's'}"


def rounded(number):
    """A number as it is told: with six digits, and none that say nothing."""
    return f"{number:,.0f}" if abs(number) >= 1e5 else f"{number:.6g}"
