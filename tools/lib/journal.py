"""tools/journal: what a journal of edits has, what the program makes of it, and all its edits as one."""
import contextlib
import http.client
import os
import shlex
import tempfile

import journal_file
from command import CALLED, FILE, OUTPUT, REFUSED, Failure, counted
from journal_format import BESIDE, MOST, Journal, joined, read_journal
from map_source import Served, said
from program import NotServed, Program

# How much of a line is shown.
WIDTH = 60
# The most versions of a server, and the longest body of a request.
VERSIONS, LONGEST = 64, 1_048_576


def main(chosen):
    {"list": list_entries, "check": check, "join": join}[chosen.what](chosen)


# ---- list


def list_entries(chosen):
    journal = read_journal(chosen.journal)
    print(f"{'entry':>8} {'version':>8} {'bytes':>10}  counts  first line")
    for place, entry in enumerate(journal.entries):
        print(f"{place:8} {entry.number:8} {len(entry.batch):10}  {'yes' if entry.counts else 'no':6}  {first_line(entry.batch)}".rstrip())
    edits = counted(len(journal.batches()), "edit") if journal.bad is None else "no edits, since one does not follow"
    print(f"{counted(len(journal.entries), 'entry', 'entries')}, {edits}; they end at byte {journal.end:,} of {journal.size:,}, {ending(journal)}")
    if journal.bad is not None:
        print(unfollowing(journal))
    if journal.size > MOST:
        print(too_long(journal))


def first_line(batch):
    """The first line of a batch, as far as it is shown, in characters that each terminal has."""
    line = batch.split(b"\n", 1)[0]
    shown = ascii(line[:WIDTH].decode("latin-1"))[1:-1]
    return f"{shown} .." if len(line) > WIDTH else shown


def ending(journal):
    behind = counted(journal.behind(), "byte")
    if journal.closed:
        closing = "closed by a byte 0" if journal.end < MOST else "where it is full"
        return f"and {behind} behind the byte 0 there count for nothing" if journal.behind() else closing
    return f"and {behind} of an entry that is not whole count for nothing" if journal.behind() else "and no byte closes them, which the program mends"


def unfollowing(journal):
    """What is wrong with the first entry that does not follow those before it."""
    entry = journal.entries[journal.bad]
    return (f"entry {journal.bad}, at byte {entry.at:,}, does not follow: it makes version {entry.number:,}, and those before it make no version "
            "that has this one behind it. The program refuses such a journal; what comes before it is left where a copy of the journal is cut there: "
            f"truncate -s {entry.at}")


def too_long(journal):
    return (f"{journal.path} has {journal.size:,} bytes, and a journal at most {MOST:,}: the program refuses it. What stands behind its entries counts for "
            f"nothing and may be cut off: truncate -s {min(journal.end + 1, MOST)}")


# ---- check


def check(chosen):
    journal, program = read_journal(chosen.journal), Program(chosen.program, chosen)
    with explained(program, journal, chosen.versions), kept(program, journal.data, chosen.versions) as served:
        newest = served.info()[0]
    require_same(newest, len(journal.batches()), journal.path)
    room = f"a batch of {counted(journal.room(), 'byte')}" if journal.room() >= 0 else "none"
    print(f"ok {counted(newest, 'edit')}; room for {chosen.versions - 1 - newest} more in {counted(chosen.versions, 'version')}, and in the journal for {room}")


def require_same(newest, edits, name):
    if newest != edits:
        raise Failure(f"the program finds {counted(newest, 'edit')} in {name}, and by its form it has {edits}", 1)


@contextlib.contextmanager
def kept(program, data, versions):
    """A server that keeps a copy of a journal: so nobody who has it is hindered, and nothing is written to it."""
    with copy_of(data) as copy, program.keeping(copy.name, versions) as server, contextlib.closing(Served(f"http://127.0.0.1:{server.port}")) as served:
        yield served


def copy_of(data):
    """A file with these bytes, which goes when it is closed."""
    try:
        copy = tempfile.NamedTemporaryFile(prefix="tgap-")
        copy.write(data)
        copy.flush()
        return copy
    except OSError as error:
        raise Failure(f"a copy of the journal cannot be written to {tempfile.gettempdir()}: {error.strerror}", OUTPUT) from error


@contextlib.contextmanager
def explained(program, journal, versions):
    """Says in words why the program does not serve a map with a journal."""
    try:
        yield
    except NotServed as refused:
        status = FILE if refused.said.startswith("load fault") else REFUSED if refused.said.startswith("refused") else refused.status
        raise Failure(meaning(refused, program, journal, versions), status) from refused


def meaning(refused, program, journal, versions):
    """What it means that the program does not serve a map with a journal."""
    words = refused.said.split()
    if words[:2] == ["load", "fault"]:
        return f"the program cannot read the {' '.join(words[2:])}" + (f", a copy of {journal.path}" if words[2:] == ["journal"] else "")
    if words == ["refused", "20", "input-long", str(MOST)]:
        return f"{refused.said}: {too_long(journal)}"
    if words[:2] == ["refused", "22"]:
        return f"{refused.said}: {unfollowing(journal) if journal.bad is not None else unfit(program, journal, int(words[3]))}"
    if words[:2] == ["refused", "23"]:
        return f"{refused.said}: {too_many(program, journal, versions)}"
    if words[:1] == ["refused"]:
        return f"{refused.said}: it is the map that is refused, or its rules; {CALLED} where tells the place"
    return str(refused)


def unfit(program, journal, place):
    """Why the batch of an entry makes no map: what the program says to it as an edit of the version before."""
    entry, before = journal.entries[place], [entry.batch for entry in journal.entries[:place] if entry.counts]
    why = "it is too long to be tried alone"
    if len(entry.batch) <= LONGEST:
        with kept(program, joined(before) if before else b"", VERSIONS) as served:
            why = f"to its batch the program says '{edited(served, entry.batch)}'"
    return (f"entry {place}, at byte {entry.at:,}, makes no version {entry.number:,} of {program.given}: {why}. Either the map or its rules are not those "
            "that were edited, or the journal was changed by hand")


def edited(served, batch):
    """What a server says to an edit."""
    try:
        client = served.connect()
        with contextlib.closing(client):
            client.request("POST", "/edit", batch)
            return said(client.getresponse().read())
    except (OSError, http.client.HTTPException) as error:
        raise Failure(f"the program does not answer to an edit: {error}", 1) from error


def too_many(program, journal, versions):
    edits = len(journal.batches())
    return (f"{counted(edits, 'edit')} want {counted(edits + 1, 'version')}, and {versions} are allowed: serve it with more, or make one edit of all: "
            f"{CALLED} journal join {shlex.join([program.given, str(journal.path), *program.map[1:]])}")


# ---- join


def join(chosen):
    program = Program(chosen.program, chosen)
    with journal_file.held(chosen.journal) as (real, handle, content):
        journal = Journal(chosen.journal, content)
        data = joined(batches_to_join(journal))
        require_same_maps(program, journal, data)
        before = journal_file.replace(real, handle, data)
    edits, size = counted(len(journal.batches()), "edit"), counted(len(data) - BESIDE - 1, "byte")
    name = before if os.path.islink(chosen.journal) else f"{chosen.journal}{journal_file.BEFORE}"
    print(f"joined {edits} to one of {size} in {chosen.journal}; the journal before is {name}")


def batches_to_join(journal):
    """The batches of a journal, where there is something to join and they can be: each is empty or ends with a line feed, as all do that were accepted."""
    batches = journal.batches()
    if journal.size > MOST:
        raise Failure(too_long(journal))
    if journal.bad is not None:
        raise Failure(unfollowing(journal))
    if len(batches) < 2 and len(journal.entries) == len(batches):
        raise Failure(f"{journal.path} has {counted(len(batches), 'edit')}: there is nothing to join, and it stays as it is")
    if len(batches) >= VERSIONS:
        raise Failure(f"{journal.path} has {counted(len(batches), 'edit')}, and no server takes more than {VERSIONS - 1}: it was not written by one")
    for entry in journal.entries:
        if entry.counts and entry.batch[-1:] not in (b"", b"\n"):
            raise Failure(f"{journal.path}: the batch of version {entry.number:,} ends within a line, so no server has taken it: the journal was changed by "
                          "hand")
    return batches


def require_same_maps(program, journal, data):
    """Asks the program for the newest map of a journal and for that of the joined one: the numbers of both, and all their faces and edges, are one."""
    edits = len(journal.batches())
    with explained(program, journal, VERSIONS):
        before = map_of(program, journal.data, edits)
    if map_of(program, data, 1) != before:
        raise Failure(f"the program makes another map of the joined edits of {journal.path}, so it stays as it is: this is a fault of the program or of the "
                      "tool", 1)


def map_of(program, data, edits):
    """The newest map of a journal with so many edits: its numbers of steps, faces, arcs and points, and its first slice."""
    with kept(program, data, min(edits + 1, VERSIONS)) as served:
        newest, *numbers = [int(word) for word in served.text("/info").split()[1::2]]
        require_same(newest, edits, "the journal")
        return numbers, served.slice(0)
