"""The stamp that spares the launcher the sums of all sources: when it is written, when it is trusted, and what is seen all the same."""
import contextlib
import os
import shutil
import time

from checkout import NOBODY
from running import ANSWER, SOURCE, WORDS, warning

RIGHT = (0, ANSWER, "")
TRUSTED, SUMMED = (RIGHT, False), (RIGHT, True)


def settled(checkout):
    """Calls the launcher until it trusts its stamp, which wants a second since the last change. It gives all that was answered."""
    answers, until = [checkout.counted(*WORDS)], time.monotonic() + 60
    while answers[-1][1] and time.monotonic() < until:
        answers.append(checkout.counted(*WORDS))
    return answers


@contextlib.contextmanager
def stamped(tests, name):
    """A stamp that is trusted."""
    tests.same(f"a stamp, before {name}", settled(tests.checkout)[-1], TRUSTED)
    yield
    tests.checkout.stamp.unlink(missing_ok=True)


def stamp_is_written(tests):
    checkout = tests.checkout
    answers = settled(checkout)
    tests.same("the first calls, and the last", (set(answers[:-1]), answers[-1]), ({SUMMED}, TRUSTED))
    begun = time.time()
    checkout.stamp.unlink()
    tests.same("with no stamp", checkout.counted(*WORDS), SUMMED)
    found = checkout.stamp.stat()
    tests.within("seconds from the time of the stamp to the call", begun - found.st_mtime, 0.5, 1.1)
    tests.same("what it holds", checkout.stamp.read_text(encoding="ascii"), f"{found.st_mtime_ns // 10**9}.{found.st_mtime_ns % 10**9:09}0\n")
    tests.same("the files beside it", sorted(path.name for path in checkout.stamp.parent.glob(".*")), [".checked"])
    status, told = checkout.counted("--version")
    tests.same("the version takes sums all the same", (status[0], told), (0, True))
    tests.same("the stamp after that", checkout.counted(*WORDS), TRUSTED)


def changes_are_seen(tests):
    checkout = tests.checkout
    source, found = checkout.top / SOURCE, (checkout.top / SOURCE).stat()
    text = source.read_bytes()
    other = text[:-2] + bytes([text[-2] ^ 1]) + text[-1:]
    missing = warning(f"{SOURCE} is missing")
    spare = checkout.top / "spare"
    shutil.copytree(checkout.top / "crates/lemmas", spare)
    (spare / "src/lib.rt").write_bytes(other)
    first = checkout.sums.read_text(encoding="ascii").split()
    of_crate, of_folder = (min(name for name in first if name.startswith(start)) for start in ("crates/lemmas/", "crates/map_server/proofs/"))

    @contextlib.contextmanager
    def replaced():
        """A crate in whose place another one was moved, which was written before the stamp."""
        with checkout.moved("crates/lemmas"), checkout.moved("spare", "crates/lemmas"):
            yield

    rows = [
        ("a source of other bytes", lambda: checkout.altered(SOURCE, other), warning(f"{SOURCE} is another")),
        ("a source more", lambda: checkout.altered("crates/lemmas/src/added.rt", b""), warning("crates/lemmas/src/added.rt is not in release/SOURCES")),
        ("a source less", lambda: checkout.altered(SOURCE), missing),
        ("a source that was renamed", lambda: checkout.moved(SOURCE, "crates/lemmas/src/other.rt"), missing),
        ("a folder less", lambda: checkout.moved("crates/map_server/proofs"), warning(f"{of_folder} is missing")),
        ("a crate less", lambda: checkout.moved("crates/lemmas"), warning(f"{of_crate} is missing")),
        ("a crate that was replaced", replaced, warning(f"{SOURCE} is another")),
        ("other crates", lambda: checkout.altered("crates.txt", b"lemmas:\n"), warning("crates.txt is another")),
        ("other sums", lambda: checkout.altered(checkout.sums, checkout.sums.read_bytes().replace(b"lib.rt\n", b"lab.rt\n", 1)), None),
    ]
    for name, change, said in rows:
        with stamped(tests, name), change():
            (status, out, told), summed = checkout.counted(*WORDS)
            tests.same(f"{name}, with a stamp", (status, out, told if said else told.count("\n"), summed), (0, ANSWER, said or 1, True))
            tests.same(f"{name}: the stamp is gone", checkout.stamp.exists(), False)
    with stamped(tests, "an old time"), checkout.altered(SOURCE, other):
        os.utime(source, ns=(found.st_atime_ns, found.st_mtime_ns))
        tests.same("a source of other bytes and the old time, with a stamp", checkout.counted(*WORDS), ((0, ANSWER, warning(f"{SOURCE} is another")), True))
    with stamped(tests, "damage"), checkout.altered(checkout.released, checkout.released.read_bytes()[:-1]):
        (status, out, _), summed = checkout.counted(*WORDS)
        tests.same("a released executable that is cut, with a stamp", (status, out, summed), (1, b"", True))
    with stamped(tests, "a right less"):
        checkout.released.chmod(0o644)
        tests.same("a released executable that may not be executed, with a stamp", checkout.counted(*WORDS)[0][0], 1)
        checkout.released.chmod(0o755)
    with stamped(tests, "a time that was set"):
        os.utime(source, ns=(found.st_atime_ns, found.st_mtime_ns - 10**12))
        tests.same("a source of an older time and the same bytes, with a stamp", checkout.counted(*WORDS), SUMMED)
        os.utime(source, ns=(found.st_atime_ns, found.st_mtime_ns))
    shutil.rmtree(spare)


def links_are_not_trusted(tests):
    """What a link leads to may change, and the link does not."""
    checkout = tests.checkout
    source, other = checkout.top / SOURCE, checkout.room / "other"
    text = source.read_bytes()
    other.write_bytes(text)
    with checkout.moved(SOURCE):
        source.symlink_to(other)
        time.sleep(1.2)
        tests.same("a source that is a link", [checkout.counted(*WORDS) for _ in range(3)], [SUMMED] * 3)
        other.write_bytes(text + b"\n")
        tests.same("one that leads to other bytes", checkout.run(*WORDS), (0, ANSWER, warning(f"{SOURCE} is another")))
        source.unlink()


def other_stamps_are_not_trusted(tests):
    checkout = tests.checkout
    with stamped(tests, "a copy"):
        copied = checkout.stamp.read_bytes()
        checkout.stamp.unlink()
        checkout.stamp.write_bytes(copied)
        tests.same("a copy of a stamp, of another time", checkout.counted(*WORDS), SUMMED)
    with stamped(tests, "a stamp of tomorrow"):
        ahead = int(time.time()) + 86400
        checkout.stamp.write_text(f"{ahead}.0000000000\n", encoding="ascii")
        os.utime(checkout.stamp, (ahead, ahead))
        tests.same("a stamp of tomorrow", checkout.counted(*WORDS), SUMMED)
    for data in (b"", b"\n", b"\xff\n"):
        with stamped(tests, "a stamp of no time"):
            checkout.stamp.write_bytes(data)
            tests.same(f"a stamp that holds {data!r}", checkout.counted(*WORDS), SUMMED)


def stamp_is_not_written(tests):
    """In a folder that may not be written, and with a touch that does not know a time beside another one."""
    checkout = tests.checkout
    checkout.stamp.unlink(missing_ok=True)
    folder = checkout.stamp.parent
    user = {"user": NOBODY, "group": NOBODY, "extra_groups": []} if os.geteuid() == 0 else {}
    folder.chmod(0o555)
    try:
        tests.same("in a folder that may not be written", [checkout.counted(*WORDS, **user) for _ in range(2)], [SUMMED] * 2)
        tests.same("the stamp there", checkout.stamp.exists(), False)
    finally:
        folder.chmod(0o755)
    with stamped(tests, "another user"):
        tests.same("another user trusts the stamp", checkout.counted(*WORDS, **user), TRUSTED)
    touch = checkout.counting / "touch"
    real = os.readlink(touch)
    touch.unlink()
    touch.write_text(f'#!/bin/sh\n[ "$1" != -r ] || {{ echo "no such word" >&2; exit 1; }}\nexec {real} "$@"\n', encoding="ascii")
    touch.chmod(0o755)
    tests.same("with another touch", [checkout.counted(*WORDS) for _ in range(2)], [SUMMED] * 2)
    tests.same("the stamp with another touch", checkout.stamp.exists(), False)
    touch.unlink()
    touch.symlink_to(real)


TESTS = [stamp_is_written, changes_are_seen, links_are_not_trusted, other_stamps_are_not_trusted, stamp_is_not_written]
