"""What `./tgap build` does, and how it ends: with its caller, whichever way that ends. A stand-in takes the place of the toolchain."""
import contextlib
import os
import pathlib
import signal
import subprocess
import time

from checkout import NOBODY, default_signals
from lib import SECONDS, Skipped
from running import ANSWER, SOURCE, WORDS, warning

# Seconds after which nothing of a build is left, once its caller is gone.
MOST_SECONDS = 5
CALLS = ["lib", "all check", "run -- check ../../examples/two_squares.tgap"]


def build(checkout, *words, **how):
    """What `./tgap build` answers. What it puts for a while has a folder of its own."""
    return checkout.run("build", *words, **{"tools": checkout.full, **how}, more=for_a_while(checkout))


def for_a_while(checkout):
    folder = checkout.room / "for a while"
    folder.mkdir(exist_ok=True)
    folder.chmod(0o777)
    return {"TMPDIR": str(folder)}


def left(checkout):
    return sorted(path.name for path in (checkout.room / "for a while").iterdir())


def refuses(tests, name, *fragments, **how):
    status, out, said = build(tests.checkout, **how)
    faults = [] if (status, out) == (1, b"") else [f"got status {status} and {out!r}, expected 1 and nothing"]
    tests.tell(name, faults + [f"{fragment!r} is not said: {said!r}" for fragment in fragments if fragment not in said])


def stat_of(pid):
    """What the system tells of a process from its state on, if it is there."""
    with contextlib.suppress(OSError):
        return pathlib.Path(f"/proc/{pid}/stat").read_text(encoding="utf-8", errors="replace").rpartition(")")[2].split()
    return None


def of_session(session):
    """The processes of a session that have not ended."""
    stats = {int(name): stat_of(name) for name in os.listdir("/proc") if name.isdigit()}
    return sorted(pid for pid, stat in stats.items() if stat and stat[0] not in "XZ" and int(stat[3]) == session)


def builds_once(tests):
    checkout = tests.checkout
    told = "[ \"$1\" != all ] || printf '== lemmas\\nrt: waiting for another rt to finish in here\\n== map_server\\n== summary\\n'"
    count = sum(1 for line in (checkout.top / "crates.txt").read_text(encoding="ascii").splitlines() if line[:1].isalpha() and ":" in line)
    noted = f'cut -d " " -f 6 </proc/$$/stat >"{checkout.room}/session"'
    with checkout.altered(SOURCE, b"// other\n"), checkout.toolchain(f'{noted}; {told}; [ "$1" != run ] || {{ {checkout.leaves()}; }}'):
        status, out, said = build(checkout)
        session = int((checkout.room / "session").read_text(encoding="ascii"))
        tests.same("no process is left by a build", of_session(session), [])
        tests.same("no file is left by a build", left(checkout), [])
        tests.same("a build", (status, out, said.splitlines()[1:]), (0, b"", [
            "tgap: proving tgap_model, on which the other crates stand", f"tgap: done 1 of {count}: lemmas", "tgap: waiting for another rt that works here",
            f"tgap: done 2 of {count}: map_server", "tgap: building the program", f"tgap: the program of these sources stands at {checkout.built}"]))
        tests.same("the calls of the toolchain", [call.split(" --jobs")[0] for call in checkout.calls()], CALLS)
        tests.same("the answer of what was built", checkout.run(*WORDS, tools=checkout.full), (0, ANSWER, ""))
        tests.same("a build where it is done", build(checkout), (0, b"", f"tgap: the program of these sources is built: {checkout.built}\n"))
        tests.same("the calls of the toolchain after that", len(checkout.calls()), 3)
        os.utime(checkout.top / SOURCE)
        tests.same("the answer after a change", checkout.run(*WORDS, tools=checkout.full), (0, ANSWER, warning(f"{SOURCE} is another")))
        tests.same("the calls of the toolchain after a change", len(checkout.calls()), 3)
        tests.same("a build after a change", (build(checkout)[0], len(checkout.calls())), (0, 6))


def builds_what_is_released(tests):
    """A build can be asked for where the released executable is that of the sources too."""
    checkout = tests.checkout
    with checkout.toolchain(f'[ "$1" != run ] || {{ {checkout.leaves()}; }}'):
        tests.same("a build of what is released", (build(checkout)[0], len(checkout.calls())), (0, 3))


def says_why_it_does_not(tests):
    checkout = tests.checkout
    with checkout.toolchain("echo 'lib.rt:1:1: error: no proof'; echo 'a: proved'; exit 1"):
        refuses(tests, "a build with sources that are not proved", "error: no proof", "could not be proved and built")
        tests.same("no file is left by one that fails", left(checkout), [])
        tests.same("the calls of the toolchain, where the first fails", len(checkout.calls()), 1)
    with checkout.toolchain("exit 0"):
        refuses(tests, "a build that leaves no program", "could not be proved and built")
    with checkout.toolchain(f'[ "$1" != run ] || {{ {checkout.leaves()}; sleep 0.1; touch "{checkout.top / SOURCE}"; }}'):
        refuses(tests, "a build during which a source changes", "changed meanwhile", "./tgap build again")
    with checkout.toolchain("exit 1"):
        tests.same("a build with a word", build(checkout, "all"), (1, b"", "usage: ./tgap build\n"))
        tests.same("a build with --help", build(checkout, "--help"), (1, b"", "usage: ./tgap build\n"))
        tests.same("the calls of the toolchain", checkout.calls(), [])
    refuses(tests, "a build with no toolchain", "rt, the command of the Rattle toolchain, is not found")


def wants_to_write(tests):
    if os.geteuid() != 0:
        raise Skipped("only the administrator can become another user")
    with tests.checkout.toolchain("exit 1"):
        refuses(tests, "a build by another user", "may not be written", user=NOBODY, group=NOBODY, extra_groups=[])


@contextlib.contextmanager
def building(checkout, start):
    """A build that is in the middle of its proofs: what start gave, and its session. The stand-in of rt does not end by TERM, and has a process below."""
    note = checkout.room / "session"
    note.unlink(missing_ok=True)
    with checkout.toolchain(f"trap '' TERM HUP INT; sleep 300 & cut -d ' ' -f 6 </proc/$$/stat >'{note}.new'; mv '{note}.new' '{note}'; wait; sleep 300"):
        (checkout.full / "mv").symlink_to("/bin/mv")
        session = None
        try:
            with start() as started:
                until = time.monotonic() + SECONDS
                while not note.exists() and time.monotonic() < until:
                    time.sleep(0.01)
                session = int(note.read_text(encoding="ascii"))
                yield started, session
        finally:
            (checkout.full / "mv").unlink()
            for pid in of_session(session) if session else []:
                with contextlib.suppress(ProcessLookupError):
                    os.kill(pid, signal.SIGKILL)


def ends(tests, name, session):
    """Nothing of a build is left after a few seconds."""
    begun = time.monotonic()
    while (of_session(session) or left(tests.checkout)) and time.monotonic() < begun + SECONDS:
        time.sleep(0.05)
    tests.within(f"{name}: seconds until nothing of the build is left", time.monotonic() - begun, 0, MOST_SECONDS)


def ends_with_the_launcher(tests):
    checkout = tests.checkout
    for sent in (signal.SIGTERM, signal.SIGINT, signal.SIGHUP, signal.SIGKILL):
        with building(checkout, lambda: checkout.start("build", tools=checkout.full, more=for_a_while(checkout))) as (started, session):
            tests.same(f"{sent.name}: the build is under way", len(of_session(session)) > 2, True)
            started.send_signal(sent)
            tests.same(f"{sent.name}: the end of the launcher", started.wait(SECONDS), -sent)
            ends(tests, f"{sent.name} to the launcher", session)


def ends_with_its_caller(tests):
    """A shell calls the launcher and is killed; the launcher that is left, and all below it, end."""
    checkout = tests.checkout
    environment = {"PATH": str(checkout.full), "LANG": "C.UTF-8", **for_a_while(checkout)}
    pipe = subprocess.PIPE

    def call():
        words = ["/bin/sh", "-c", '"$0" build; echo ended', checkout.launcher]
        return subprocess.Popen(words, cwd=checkout.top, env=environment, stdin=subprocess.DEVNULL, stdout=pipe, stderr=pipe, preexec_fn=default_signals)

    for waits in (True, False):
        with building(checkout, call) as (caller, session):
            (launcher,) = [int(stat_of(pid)[1]) for pid in of_session(session) if pid == session]
            caller.kill()
            # A caller that has ended and that nobody has waited for is gone as well.
            if waits:
                caller.wait(SECONDS)
            name = f"a caller that is killed{'' if waits else ' and not yet forgotten'}"
            ends(tests, name, session)
            until = time.monotonic() + SECONDS
            while stat_of(launcher) and stat_of(launcher)[0] not in "XZ" and time.monotonic() < until:
                time.sleep(0.05)
            tests.same(f"{name}: the launcher has ended", (stat_of(launcher) or "Z")[0] in "XZ", True)


TESTS = [builds_once, builds_what_is_released, says_why_it_does_not, wants_to_write, ends_with_the_launcher, ends_with_its_caller]
