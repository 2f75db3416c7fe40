"""What release/make makes, and refuses; and how the gate's own script ends. A stand-in takes the place of the toolchain."""
import subprocess

from checkout import TOOLCHAIN, script, sum_of
from lib import SECONDS, Skipped

SOURCE = "crates/lemmas/src/lib.rt"
PASSED = "echo '7 passed, 0 failed'"


def git(checkout, *words):
    """git with nothing of the user's own settings."""
    environment = {"PATH": str(checkout.full), "HOME": str(checkout.room), "GIT_CONFIG_NOSYSTEM": "1"}
    author = ["-c", "user.name=t", "-c", "user.email=t@example.org", "-c", "init.defaultBranch=main"]
    return subprocess.run(["git", *author, *words], cwd=checkout.top, env=environment, stdin=subprocess.DEVNULL, capture_output=True, timeout=SECONDS, check=True)


def make(checkout):
    """Status, standard output and standard error of release/make."""
    return checkout.run(launcher=checkout.top / "release/make", tools=checkout.full, more={"HOME": str(checkout.room), "GIT_CONFIG_NOSYSTEM": "1"})


def is_refused(tests, name, *fragments):
    """release/make ends with 1, says why, and leaves what was released."""
    checkout = tests.checkout
    before = checkout.released.read_bytes(), checkout.sums.read_bytes()
    status, _, said = make(checkout)
    faults = [] if status == 1 else [f"got status {status}"]
    faults += [f"{fragment!r} is not said: {said!r}" for fragment in [*fragments, "nothing was written"] if fragment not in said]
    faults += [] if (checkout.released.read_bytes(), checkout.sums.read_bytes()) == before else ["what was released was changed"]
    tests.tell(f"release/make, {name}", faults)


def release_is_made(tests):
    checkout = tests.checkout
    if not (checkout.full / "git").exists():
        raise Skipped("there is no git")
    with checkout.toolchain(f"{checkout.leaves()}; {PASSED}"):
        is_refused(tests, "in no checkout of git", "git cannot tell")
        git(checkout, "init", "-q")
        git(checkout, "add", "-A")
        git(checkout, "commit", "-q", "-m", "all")
        with checkout.altered(checkout.released), checkout.altered(checkout.sums):
            status, out, said = make(checkout)
            tests.same("release/make", (status, said, out.decode().splitlines()[-1]), (0, "", "release/make: release/tgap-x86_64-linux and release/SOURCES are "
                       f"those of the sources {sum_of(checkout.source_lines().encode())}"))
            program = checkout.released.read_bytes()
            tests.same("the executable that is released", program, checkout.executable.read_bytes())
            tests.same("the sums that are released", checkout.sums.read_text(encoding="ascii").splitlines()[1:], checkout.listing(program).splitlines()[1:])
            tests.same("the launcher runs it", checkout.run("check", "examples/two_squares.tgap", tools=checkout.full), (0, b"ok faces 2 arcs 3 points 10\n", ""))
            tests.same("its stamp, which is not committed", checkout.stamp.exists(), True)
            before = checkout.sums.read_bytes()
            tests.same("release/make again: its status, and the same sums", (make(checkout)[0], checkout.sums.read_bytes()), (0, before))
    unproved_trees_are_refused(tests)


def unproved_trees_are_refused(tests):
    checkout = tests.checkout
    good = f"{checkout.leaves()}; {PASSED}"
    with checkout.toolchain(good):
        with checkout.altered(SOURCE, b"// other\n"):
            is_refused(tests, "with a source that is not committed", "not committed", SOURCE)
        with checkout.altered("crates/lemmas/src/added.rt", b""):
            is_refused(tests, "with a source that git does not know", "not committed", "added.rt")
        tests.same("the gate was not asked", [call for call in checkout.calls() if call == "ci"], [])
    with checkout.toolchain(f"{checkout.leaves()}; echo '6 passed, 1 failed'; exit 1"):
        is_refused(tests, "where a proof failed", "the gate failed")
    with checkout.toolchain(f"{checkout.leaves()}; echo '6 passed, 1 failed'"):
        is_refused(tests, "where the last line tells of one that failed", "the gate failed")
    with checkout.toolchain(f"{checkout.leaves()}; echo killed"):
        is_refused(tests, "where the last line tells nothing", "the gate failed")
    with checkout.toolchain(PASSED):
        is_refused(tests, "where no executable is left", "no executable")
    with checkout.toolchain(f"mkdir -p '{checkout.built.parent}'; : >'{checkout.built}'; {PASSED}"):
        is_refused(tests, "where what is left is no executable", "no executable")
    with checkout.altered(SOURCE, (checkout.top / SOURCE).read_bytes()), checkout.toolchain(f"echo >>{SOURCE}; {good}"):
        is_refused(tests, "where a source changes meanwhile", "changed while")
    is_refused(tests, "with no toolchain", "is not found")


def gate(checkout, proofs, status, text):
    """Status and lines of the gate's script, where the proofs do the first and the tests from outside end with the other two."""
    tests_run = checkout.top / "tests/run"
    was = tests_run.read_bytes() if tests_run.exists() else None
    script(tests_run, f'[ "$*" = crates/map_server/out/map_server ] || exit 9\necho "{text}"\nexit {status}')
    try:
        with checkout.toolchain(proofs):
            ended, out, said = checkout.run(launcher=checkout.top / ".ci/run", tools=checkout.full)
    finally:
        tests_run.unlink()
        if was is not None:
            tests_run.write_bytes(was)
    return ended, out.decode().splitlines(), said


def gate_ends_as_it_must(tests):
    checkout = tests.checkout
    good, passed = f"{checkout.leaves()}; {PASSED}", "5 passed, 0 failed, 1 skipped"
    other = script(checkout.room / "another program", "exit 0")
    rows = [
        ("all is well", good, 0, passed, 0, "12 passed, 0 failed"),
        ("a proof fails", f"{checkout.leaves()}; echo '6 passed, 1 failed'; exit 1", 0, passed, 1, "11 passed, 1 failed"),
        ("the proofs end without a count", f"{checkout.leaves()}; exit 2", 0, passed, 1, "5 passed, 1 failed"),
        ("the proofs end with a status alone", f"{good}; exit 1", 0, passed, 1, "12 passed, 1 failed"),
        ("a test fails", good, 1, "4 passed, 1 failed, 1 skipped", 1, "11 passed, 1 failed"),
        ("the tests end without a count", good, 1, "broken", 1, "7 passed, 1 failed"),
        ("a bad edit", f"echo 'rt: must-fail a/b.edit: BAD EDIT: no'; {good}", 0, passed, 1, "12 passed, 1 failed"),
        ("an edit at a limit", f"echo 'rt: must-fail a/b.edit: refused, as it must be (only by a limit of it)'; {good}", 0, passed, 1, "12 passed, 1 failed"),
        ("an edit that says little", f"echo 'rt: must-fail a/b.edit: refused (so this says little of the contract)'; {good}", 0, passed, 1, "12 passed, 1 failed"),
        ("another executable", f"{checkout.leaves(other)}; {PASSED}", 0, passed, 1, "12 passed, 1 failed"),
    ]
    for name, proofs, status, text, wanted, last in rows:
        ended, lines, said = gate(checkout, proofs, status, text)
        tests.same(f"the gate, where {name}", (ended, lines[-1], said), (wanted, last, ""))
        tests.same(f"the gate, where {name}: what the tests say is shown", text in lines, True)
    with checkout.altered(SOURCE, b"// other\n"):
        ended, lines, _ = gate(checkout, f"{checkout.leaves(other)}; {PASSED}", 0, passed)
        tests.same("the gate over newer sources", (ended, lines[-1]), (0, "12 passed, 0 failed"))
        tests.same("what it says of them", [line for line in lines if "newer" in line and SOURCE in line], [f"gate: the sources are newer than the released executable: {SOURCE} is another"])
    with checkout.altered(checkout.released, checkout.executable.read_bytes()[:1000]):
        ended, lines, _ = gate(checkout, good, 0, passed)
        tests.same("the gate over a released executable that is cut", (ended, lines[-1]), (1, "12 passed, 1 failed"))


def gate_compares_by_one_toolchain(tests):
    """Another toolchain may give other bytes, so there the released executable is held to its sum alone."""
    checkout = tests.checkout
    other, maker = script(checkout.room / "another program", "exit 0"), "another-toolchain logic 0123456789abcdef"
    proofs, passed = f"{checkout.leaves(other)}; {PASSED}", "5 passed, 0 failed"
    with checkout.altered(checkout.sums, checkout.sums.read_bytes().replace(TOOLCHAIN.encode(), maker.encode())):
        ended, lines, _ = gate(checkout, proofs, 0, passed)
        tests.same("the gate over a released executable of another toolchain", (ended, lines[-1]), (0, "12 passed, 0 failed"))
        tests.same("what it says of that", [line for line in lines if maker in line],
                   [f"gate: release/tgap-x86_64-linux is of another toolchain, {maker}, and not compared with what {TOOLCHAIN} built"])
        with checkout.altered(checkout.released, checkout.executable.read_bytes()[:1000]):
            ended, lines, _ = gate(checkout, proofs, 0, passed)
            tests.same("the gate over one of another toolchain that is cut", (ended, lines[-1]), (1, "12 passed, 1 failed"))


def gate_has_its_plain_line(tests):
    lines = (tests.checkout.top / ".ci/run").read_text(encoding="ascii").splitlines()
    tests.same("lines of the gate that are rt ci alone", [line.strip() for line in lines if "rt ci" in line and not line.lstrip().startswith(("#", "echo"))], ["rt ci"])


def only_the_launcher_trusts_the_stamp(tests):
    texts = {name: (tests.checkout.top / name).read_text(encoding="utf-8") for name in ("tgap", "release/make", ".ci/run", "release/build")}
    tests.same("who looks at the stamp", [name for name, text in texts.items() if "stamp" in text], ["tgap"])


TESTS = [gate_ends_as_it_must, gate_compares_by_one_toolchain, gate_has_its_plain_line, only_the_launcher_trusts_the_stamp, release_is_made]
