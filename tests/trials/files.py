"""Journals in real files: what is read of any bytes, and files that are no journals."""
import fcntl
import os
import random
import resource
import signal

from kept import BESIDE, MOST, Room, batches_of, entries, entry, told

ONE = entry(1, b"move 20 10 24 10\n") + b"\0"
THREE = entry(1, b"class 1 2\n") + entry(2, b"") + entry(2, b"drop 5 5\nmove 0 0 1 1\n") + b"\0"
NEW = b"class 2 1\n"


def holds(disk, data):
    """What is wrong where the program opens a journal with these bytes, tells its entries, and appends one: the entries are those of the bytes."""
    disk.write(data)
    found, _ = entries(data)
    wanted = [*(batch for _, batch in found), NEW]
    got = disk.entries(), *disk.append([NEW]), batches_of(disk.file.read_bytes()), batches_of(disk.image.read_bytes())
    wanted = told(found), 0, [f"kept {len(found) + 1}"], wanted, wanted
    return [] if got == wanted else [f"{data!r} came to {got}, expected {wanted}"]


def a_new_file(tests):
    with Room() as disk:
        tests.same("the bytes of a first entry", (disk.append([b"move 20 10 24 10\n"]), disk.file.read_bytes()), ((0, ["kept 1"]), ONE))
        tests.same("the entry is found again", disk.entries(), told(entries(ONE)[0]))


def cut_at_every_byte(tests):
    with Room() as disk:
        for size in range(len(THREE) + 1):
            tests.tell(f"a journal cut at {size}", holds(disk, THREE[:size]))


def first_bytes_of_entries(tests):
    """The first byte of an entry is any but 0, as a torn write may leave it; at the begin of a file it is 1."""
    with Room() as disk:
        second = len(entry(1, b"class 1 2\n"))
        for first in (0, 1, 2, 77, 255):
            tests.tell(f"a second entry that begins with {first}", holds(disk, THREE[:second] + bytes([first]) + THREE[second + 1 :]))


def anything_behind(tests):
    chance = random.Random(19)
    with Room() as disk:
        for number in range(100):
            tests.tell(f"bytes {number} behind the entries", holds(disk, THREE[:-1] + chance.choice([b"\0", b"", b"\1", b"\1" + bytes(7)]) + chance.randbytes(chance.randrange(64))))
        tests.tell("a length that points beyond the end", holds(disk, THREE[:-1] + b"\1" + bytes(8) + b"\0\0\0\5four"))


def is_refused(disk, path, data=None):
    """What is wrong where a path is to be refused, and a file with these bytes left as it is."""
    ended = disk.run("append", NEW.decode(), path=path)
    got = ended.returncode, ended.stdout, data and path.read_bytes()
    return [] if got == (3, b"", data) else [f"got {got}"]


def what_is_no_journal(tests):
    with Room() as disk:
        for data in (b"tgap 1\n", b"{}", b"\2" + ONE[1:], b" "):
            disk.file.write_bytes(data)
            tests.tell(f"a file that begins with {data[:1]!r}", is_refused(disk, disk.file, data))
        tests.tell("a folder", is_refused(disk, disk.folder))
        tests.tell("a file in no folder", is_refused(disk, disk.folder / "none" / "journal"))
        os.mkfifo(disk.folder / "pipe")
        tests.tell("a pipe", is_refused(disk, disk.folder / "pipe"))


def links(tests):
    with Room() as disk:
        disk.write(ONE)
        (disk.folder / "link").symlink_to(disk.file)
        ended = disk.run("append", NEW.decode(), path=disk.folder / "link")
        tests.same("a link to a journal", (ended.stdout, batches_of(disk.file.read_bytes())), (b"entries 1\nkept 2\n", [*batches_of(ONE), NEW]))


def what_may_not_be_written(tests):
    """As root no file is read-only, so the program runs as somebody else then."""
    other = {"user": 65534, "group": 65534, "extra_groups": []} if os.getuid() == 0 else {}
    with Room() as disk:
        disk.write(ONE)
        disk.folder.chmod(0o755), disk.file.chmod(0o444)
        ended = disk.run("append", NEW.decode(), **other)
        tests.same("a file that is only to be read", (ended.returncode, ended.stdout, disk.file.read_bytes()), (3, b"", ONE))


def what_another_holds(tests):
    with Room() as disk:
        disk.write(ONE)
        with open(disk.file, "rb") as held:
            fcntl.flock(held, fcntl.LOCK_EX)
            tests.tell("a journal that another program holds", is_refused(disk, disk.file, ONE))
        tests.same("it is let go", disk.append([NEW]), (0, ["kept 2"]))


def filled(size):
    """A journal of so many bytes, of entries alone."""
    data, left = bytearray(), size
    while left:
        take = left if left <= 1 << 20 else min(1 << 20, left - BESIDE)
        data += entry(1, bytes(take - BESIDE))
        left -= take
    return bytes(data)


def the_longest(tests):
    with Room() as disk:
        for short, wanted in [(0, (0, [f"full {MOST}"])), (BESIDE + 1 + len(NEW), (0, ["kept 66"])), (BESIDE + len(NEW), (0, [f"full {MOST}"]))]:
            data = filled(MOST - short)
            disk.write(data)
            got = disk.append([NEW])
            tests.same(f"{short} bytes of room", (got[0], [got[1][0].split()[0]]), (wanted[0], [wanted[1][0].split()[0]]))
            tests.same(f"{short} bytes of room, the entries before", disk.file.read_bytes()[: len(data)], data)
        disk.write(filled(MOST) + b"\0")
        ended = disk.run("append", NEW.decode())
        tests.same("a byte too long", (ended.returncode, ended.stdout, disk.file.stat().st_size), (4, b"", MOST + 1))


def small_room(tests):
    """Where the system gives a file no more room, an append fails, and all before it stay. With room again the next one is kept."""

    def limited():
        signal.signal(signal.SIGXFSZ, signal.SIG_IGN)
        resource.setrlimit(resource.RLIMIT_FSIZE, (4096, 4096))

    batches = [b"class 1 2\n", b"#" * 5000 + b"\n", b"class 2 1\n"]
    with Room() as disk:
        disk.write(b"")
        got = disk.append(batches, preexec_fn=limited)
        tests.same("a batch that is larger than the room", got, (0, ["kept 1", "failed", "kept 2"]))
        tests.same("what is kept then", batches_of(disk.file.read_bytes()), [batches[0], batches[2]])
        tests.same("and with room again", (disk.append([batches[1]]), batches_of(disk.image.read_bytes())), ((0, ["kept 3"]), [batches[0], batches[2], batches[1]]))


TESTS = [
    a_new_file, cut_at_every_byte, first_bytes_of_entries, anything_behind, what_is_no_journal, links, what_may_not_be_written, what_another_holds,
    the_longest, small_room,
]
