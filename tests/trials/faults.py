"""Journals on a disk that fails: calls that are refused, writes that are torn, and machines that stop."""
import itertools
import signal
import subprocess

from kept import ENDED, TRIALS, Room, batches_of, entries, entry, faults_of, told

BEFORE = [b"class 1 2\n", b"drop 5 5\n"]
START = b"".join(entry(number, batch) for number, batch in enumerate(BEFORE, 1)) + b"\0"
# What is done to open it: its bytes are written over themselves, and made sure twice.
OPENING_WRITES, OPENING_SYNCS = 1, 2
BATCHES = [b"move 20 10 24 10\n", b"class 2 1\n", b"insert 1 1 2 2 3 3\n"]


def order_of_calls(tests):
    """A journal that is opened is made sure, and closed by a byte 0 where it is not. An entry is two writes and two syncs: all but its first byte, and then
    that byte; the answer comes after both."""
    at, first, second = len(START) - 1, *(len(entry(1, batch)) for batch in BATCHES[:2])
    appended = [f"write {at + 1} {first}", "sync", f"write {at} 1", "sync", "put", f"write {at + first + 1} {second}", "sync", f"write {at + first} 1", "sync", "put"]
    with Room() as disk:
        disk.write(START)
        disk.append(BATCHES[:2])
        tests.same("the calls of two appends", disk.calls_told(), [f"write 0 {at + 1}", "sync", "sync", "put", *appended])
        disk.write(START[:-1])
        disk.append(BATCHES[:2])
        tests.same("where the journal was not closed", disk.calls_told(), [f"write 0 {at}", "sync", "sync", f"write {at} 1", "sync", "put", *appended])


def is_sound(disk, name, tests, outcomes, paths):
    """Each of the files has what was acknowledged, and the program reads it so and goes on with it."""
    for path in paths:
        data = path.read_bytes()
        faults = faults_of(data, BEFORE, BATCHES, outcomes)
        if disk.entries(path) != told(entries(data)[0]):
            faults.append("the program reads other entries")
        found = batches_of(data)
        ended = subprocess.run([TRIALS, "append", path, "node 1 1\n"], capture_output=True, check=False)
        if ended.stdout != b"entries %d\nkept %d\n" % (len(found), len(found) + 1) or batches_of(path.read_bytes()) != [*found, b"node 1 1\n"]:
            faults.append(f"it does not go on: {ended.stdout}")
        tests.tell(f"{name}, {path.name}", faults)


def with_fault(disk, fault, call, size=0):
    """The status with which the program ends that appends the batches with a fault, and what it told of each."""
    disk.write(START)
    return disk.append(BATCHES, fault=fault, call=call, size=size)


def calls_of(disk):
    """How many writes and syncs the batches take."""
    disk.write(START)
    disk.append(BATCHES)
    lines = disk.calls_told()
    return sum(line.startswith("write") for line in lines), lines.count("sync")


def refused_writes(tests):
    """A write that is refused is told as failed, and the next append settles the journal first. One that moves a byte goes on."""
    with Room() as disk:
        writes, _ = calls_of(disk)
        for fault, call in itertools.product(("full", "broken", "short"), range(1, writes + 1)):
            status, outcomes = with_fault(disk, fault, call)
            wanted = (0, 0, 3) if fault == "short" else (0, 1, 3) if call > OPENING_WRITES else (3, 0, 0)
            tests.same(f"{fault} at write {call}, the answers", (status, outcomes.count("failed"), len(outcomes)), wanted)
            is_sound(disk, f"{fault} at write {call}", tests, outcomes, [disk.file, disk.image])


def torn_writes(tests):
    """The process, or the machine, stops within a write, when any of its bytes have reached the file."""
    with Room() as disk:
        writes, _ = calls_of(disk)
        sizes = [int(line.split()[2]) for line in disk.calls_told() if line.startswith("write")]
        for call in range(1, writes + 1):
            for count in range(sizes[call - 1] + 1):
                status, outcomes = with_fault(disk, "torn", call, count)
                tests.same(f"torn at byte {count} of write {call}", status, ENDED)
                is_sound(disk, f"torn at byte {count} of write {call}", tests, outcomes, [disk.file, disk.image])


def machines_that_stop(tests):
    """The machine stops before a sync, or after it: the disk has what was made sure, and the file may have more."""
    with Room() as disk:
        _, syncs = calls_of(disk)
        for fault, call in itertools.product(("ended", "gone"), range(1, syncs + 1)):
            status, outcomes = with_fault(disk, fault, call)
            tests.same(f"{fault} at sync {call}", status, ENDED)
            is_sound(disk, f"{fault} at sync {call}", tests, outcomes, [disk.file, disk.image])


def syncs_that_fail(tests):
    """After a sync that fails the system may never bring to the disk what it gives to reads. So nothing is acknowledged from then on, until the journal is
    opened anew; and what is acknowledged after that is on the disk, though the file was never read from it."""
    with Room() as disk:
        _, syncs = calls_of(disk)
        for call in range(1, syncs + 1):
            status, outcomes = with_fault(disk, "unsynced", call)
            kept = (call - OPENING_SYNCS - 1) // 2
            wanted = (0, [*(f"kept {number}" for number in range(3, 3 + kept)), *["failed"] * (len(BATCHES) - kept)]) if call > OPENING_SYNCS else (3, [])
            tests.same(f"sync {call} fails, the answers", (status, outcomes), wanted)
            tests.tell(f"sync {call} fails, what the disk has", faults_of(disk.image.read_bytes(), BEFORE, BATCHES, outcomes))
            found = batches_of(disk.file.read_bytes())
            again = disk.append([b"node 1 1\n"])
            tests.same(f"sync {call} fails, and the journal is opened again", again, (0, [f"kept {len(found) + 1}"]))
            tests.same(f"sync {call} fails, what the disk has then", batches_of(disk.image.read_bytes()), [*found, b"node 1 1\n"])


def programs_that_are_killed(tests):
    """The program is killed at any time."""
    batches = [b"class 1 %d\n" % number for number in range(400)]
    with Room() as disk:
        for number in range(40):
            disk.write(START)
            with subprocess.Popen([TRIALS, "append", disk.file, *batches], stdout=subprocess.PIPE, stdin=subprocess.DEVNULL) as program:
                lines = [program.stdout.readline() for _ in range(1 + number * 7)]
                program.send_signal(signal.SIGKILL)
                lines += program.stdout.readlines()
            outcomes = [line.decode().strip() for line in lines[1:] if line.endswith(b"\n")]
            tests.tell(f"killed after {number * 7} batches", faults_of(disk.file.read_bytes(), BEFORE, batches, outcomes))


TESTS = [order_of_calls, refused_writes, torn_writes, machines_that_stop, syncs_that_fail, programs_that_are_killed]
