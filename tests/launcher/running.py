"""Which program the launcher runs: the released one where it is that of the sources, however the checkout lies there; else the one that was built
there where it is newer than they; else the released one, with a warning. It proves nothing."""
import os
import pathlib

from checkout import NOBODY, script
from lib import Skipped

WORDS = ["borders", "examples/two_squares.tgap", "1"]
ANSWER = b"borders 1\nborder 0 3 0\nborder 1 3 0\nend\n"
# Seconds of the processor for one answer: its wall clock says more of what else a machine does.
MOST_SECONDS = 0.3
SOURCE = "crates/lemmas/src/lib.rt"
BRING_BACK, BUILD = "git checkout -- release", "./tgap build"


def answers(tests, name, **how):
    tests.same(name, tests.checkout.run(*how.pop("words", WORDS), **how), (0, ANSWER, ""))


def warning(source):
    """The one line of a launcher that runs the released program of older sources."""
    return f"tgap: the released program is that of older sources: {source}; it is run, and ./tgap build proves and builds that of this checkout\n"


def warns(tests, name, source, **how):
    """The answer is the program's own, and one line says which source differs."""
    tests.same(name, tests.checkout.run(*WORDS, **how), (0, ANSWER, warning(source)))


def refuses(tests, name, *fragments, **how):
    """The launcher ends with 1 and nothing on the standard output, and says each of these in one line."""
    status, out, said = tests.checkout.run(*WORDS, **how)
    faults = [] if (status, out) == (1, b"") else [f"got status {status} and {out!r}, expected 1 and nothing"]
    faults += [] if said.count("\n") == 1 else [f"it is not one line: {said!r}"]
    tests.tell(name, faults + [f"{fragment!r} is not said: {said!r}" for fragment in fragments if fragment not in said])


def answers_at_once(tests):
    answers(tests, "with no toolchain and no python3, in a path with a blank")
    tests.same("over all crates", tests.whole_checkout.run(*WORDS), (0, ANSWER, ""))
    with tests.whole_checkout.start(*WORDS) as started:
        _, status, used = os.wait4(started.pid, 0)
        started.returncode = os.waitstatus_to_exitcode(status)
    tests.within("seconds of the processor for one answer", used.ru_utime + used.ru_stime, 0, MOST_SECONDS)


def answers_from_elsewhere(tests):
    room = tests.checkout.room
    (room / "map of mine").write_bytes((tests.checkout.top / WORDS[1]).read_bytes())
    words = ["borders", "map of mine", "1"]
    answers(tests, "in the caller's folder", words=words, folder=room)
    link = room / "link to it"
    link.symlink_to("a checkout/tgap")
    (room / "second").symlink_to(link)
    answers(tests, "through a link", words=words, folder=room, launcher=link)
    answers(tests, "through a link to a link", words=words, folder=room, launcher=room / "second")
    answers(tests, "by a path from another folder", words=words, folder=room, launcher=pathlib.Path("a checkout/tgap"))


def answers_without_writing(tests):
    top = tests.checkout.top
    before = {path: path.stat().st_mtime_ns for path in top.rglob("*")}
    answers(tests, "with nothing written", more={"TMPDIR": "/nowhere"})
    tests.same("the files of the checkout", {path: path.stat().st_mtime_ns for path in top.rglob("*")}, before)


def answers_another_user(tests):
    """A checkout that belongs to the administrator is read by a user who may write nothing in it."""
    if os.geteuid() != 0:
        raise Skipped("only the administrator can become another user")
    user = {"user": NOBODY, "group": NOBODY, "extra_groups": []}
    answers(tests, "as another user", **user)
    with tests.checkout.altered(SOURCE, b"// other\n"):
        warns(tests, "as another user, with other sources", f"{SOURCE} is another", **user)


def decides_by_content(tests):
    checkout = tests.checkout
    source = checkout.top / SOURCE
    text, found = source.read_bytes(), source.stat()
    os.utime(source)
    answers(tests, "with a source that is newer and the same")
    with checkout.altered(SOURCE, text[:-2] + bytes([text[-2] ^ 1]) + text[-1:]):
        os.utime(source, ns=(found.st_atime_ns, found.st_mtime_ns))
        warns(tests, "with a source of the same size and time, and one other byte", f"{SOURCE} is another")
    with checkout.altered(SOURCE):
        warns(tests, "with a source less", f"{SOURCE} is missing")
    with checkout.altered("crates/lemmas/specs/Added.antt", b""):
        warns(tests, "with a source more", "crates/lemmas/specs/Added.antt is not in release/SOURCES")
    with checkout.moved("crates/map_server/proofs"):
        (first,) = sorted(name for name in checkout.sums.read_text(encoding="ascii").split() if name.startswith("crates/map_server/proofs/"))[:1]
        warns(tests, "with a folder less", f"{first} is missing")
    with checkout.altered("crates.txt", b"lemmas:\n"):
        warns(tests, "with other crates", "crates.txt is another")
    answers(tests, "with the sources as they were")


def leaves_the_program_alone(tests):
    """With a warning too the status is the program's, its sentence follows, and no toolchain is asked."""
    checkout = tests.checkout
    with checkout.altered("crates/lemmas/src/.lib.rt.swp", b""), checkout.toolchain("exit 1"):
        warned = warning("crates/lemmas/src/.lib.rt.swp is not in release/SOURCES")
        warns(tests, "with a toolchain", "crates/lemmas/src/.lib.rt.swp is not in release/SOURCES", tools=checkout.full)
        status, out, said = checkout.run("slice", WORDS[1], "2", tools=checkout.full)
        tests.same("a refusal behind a warning", (status, out, said.startswith(warned), said.count("\n")), (5, b"step too high 1\n", True, 2))
        tests.same("with no standard error", checkout.run(*WORDS, tools=checkout.full, preexec_fn=lambda: os.close(2)), (0, ANSWER, ""))
        tests.same("the calls of the toolchain", checkout.calls(), [])


def notices_damage(tests):
    checkout = tests.checkout
    program = checkout.released.read_bytes()
    damaged = ["release/tgap-x86_64-linux is missing, cut or another", BRING_BACK, BUILD]
    with checkout.altered(checkout.released, program[: len(program) // 2]):
        refuses(tests, "with a released executable that is cut", *damaged)
        with checkout.altered(SOURCE, b"// other\n"):
            refuses(tests, "with one that is cut, and other sources", *damaged)
    with checkout.altered(checkout.released, program[:-1] + bytes([program[-1] ^ 1])):
        refuses(tests, "with a released executable of one other byte", *damaged)
    with checkout.altered(checkout.released):
        refuses(tests, "with no released executable", *damaged)
    with checkout.altered(checkout.sums):
        refuses(tests, "with no sums", "release/SOURCES is missing", BRING_BACK, BUILD)
    with checkout.altered(checkout.sums, b""):
        refuses(tests, "with sums that are empty", "release/SOURCES cannot be read", BRING_BACK, BUILD)
    with checkout.altered(checkout.sums, checkout.source_lines().encode()):
        refuses(tests, "with sums that do not tell the executable", "is not in release/SOURCES", BRING_BACK, BUILD)
    checkout.released.chmod(0o644)
    try:
        refuses(tests, "with a released executable that may not be executed", "chmod +x")
        with checkout.altered(SOURCE, b"// other\n"):
            refuses(tests, "with one that may not be executed, and other sources", "chmod +x")
    finally:
        checkout.released.chmod(0o755)
    answers(tests, "with the released executable as it was")


def runs_what_was_built(tests):
    """Where the released executable is not that of the sources, the one that was built there is run while no source is newer."""
    checkout = tests.checkout
    with checkout.toolchain("exit 1"):
        checkout.built.parent.mkdir()
        script(checkout.built, "echo built")
        wanted = (0, b"built\n", "")
        answers(tests, "with a built one, where the released one is that of the sources")
        with checkout.altered(checkout.released):
            tests.same("with a built one, and no released one", checkout.run(*WORDS), wanted)
        with checkout.altered(checkout.sums):
            tests.same("with a built one, and no sums", checkout.run(*WORDS), wanted)
        with checkout.altered(SOURCE, b"// other\n"):
            warns(tests, "with a built one that is older than a source", f"{SOURCE} is another")
            os.utime(checkout.built)
            tests.same("with a built one that is newer than all sources", checkout.run(*WORDS), wanted)
            with checkout.altered(checkout.released, b"cut"):
                os.utime(checkout.top / SOURCE)
                refuses(tests, "with a built one that is older, and a released one that is cut", BRING_BACK, BUILD)
        tests.same("the calls of the toolchain", checkout.calls(), [])


def tells_what_it_wants(tests):
    checkout = tests.checkout
    other = checkout.room / "tools of another system"
    other.mkdir()
    for tool in checkout.bare.iterdir():
        (other / tool.name).symlink_to(tool.resolve())
    (other / "uname").unlink()
    script(other / "uname", 'case $1 in -sm) echo "Darwin arm64" ;; *) echo Darwin ;; esac')
    refuses(tests, "on another system", "Darwin arm64", "Linux on x86-64", tools=other)
    status, out, _ = checkout.run("--help", tools=other)
    tests.same("the help on another system", (status, b"./tgap borders" in out), (0, True))
    program = checkout.released.read_bytes()
    checkout.release(b"#!/no/such/loader\n")
    try:
        status, out, said = checkout.run(*WORDS)
        tests.same("with no loader for the executable", (status, out, "GNU C library" in said), (127, b"", True))
    finally:
        checkout.release(program)


TESTS = [
    answers_at_once,
    answers_from_elsewhere,
    answers_without_writing,
    answers_another_user,
    decides_by_content,
    leaves_the_program_alone,
    notices_damage,
    runs_what_was_built,
    tells_what_it_wants,
]
