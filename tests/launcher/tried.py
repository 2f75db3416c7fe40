"""The record of the edits that no gate tries: what comes into it, and when it is not of the crates any more. A stand-in
takes the place of the toolchain."""
import pathlib
import shutil
import subprocess
import tempfile

from lib import SECONDS, TOP

REFUSED = "refused, as it must be: the clause exact"
CRATES = "low: lib_of_the_toolchain\nhigh: low\n"


class Tree:
    """A repository of two crates with an edit each, in a folder of its own, and a stand-in for rt."""

    def __init__(self, folder):
        self.top, self.tools = pathlib.Path(folder) / "top", pathlib.Path(folder) / "tools"
        for name in ("docs/crates.py", "tests/sweep/edits/run"):
            (self.top / name).parent.mkdir(parents=True, exist_ok=True)
            shutil.copy2(TOP / name, self.top / name)
        self.put("crates.txt", CRATES)
        self.put("HANDLES", "Handles allowed: none.\n")
        for crate in ("low", "high"):
            self.put(f"crates/{crate}/src/lib.rt", "fn one() {}\n")
            self.put(f"crates/{crate}/must-fail/gate.edit", "an edit of the gate\n")
            self.put(f"tests/sweep/edits/{crate}/wrong.edit", "file: src/lib.rt\nold: one\nnew: two\n")
        self.tools.mkdir()
        self.say({"low": REFUSED, "high": REFUSED})

    def put(self, name, text):
        path = self.top / name
        path.parent.mkdir(parents=True, exist_ok=True)
        path.write_text(text, encoding="utf-8")

    def say(self, words):
        """Lets the stand-in say this of the edit of each crate that it is asked for, and of what lies in its folder."""
        lines = [f'case " $* " in *" {crate} "*) echo "rt: must-fail {crate}/wrong.edit: {word}" ;; esac' for crate, word in words.items()]
        rows = ["#!/bin/sh", '[ "$1" != version ] || { echo "stand-in logic 1"; exit; }', f'(echo "$*" && ls crates/*/must-fail) >"{self.tools}/seen"', *lines]
        (self.tools / "rt").write_text("\n".join(rows) + "\n", encoding="utf-8")
        (self.tools / "rt").chmod(0o755)

    def run(self, *words):
        """Status and lines of the program."""
        path = f"{self.tools}:/usr/local/bin:/usr/bin:/bin"
        program = ["python3", str(self.top / "tests/sweep/edits/run"), *words]
        done = subprocess.run(program, env={"PATH": path}, stdin=subprocess.DEVNULL, capture_output=True, text=True, timeout=SECONDS, check=False)
        return done.returncode, done.stdout.splitlines()

    def tried(self):
        path = self.top / "tests/sweep/TRIED"
        rows = path.read_text(encoding="utf-8").splitlines() if path.exists() else []
        return [row.split()[0] for row in rows if not row.startswith("#")]

    def seen(self):
        return (self.tools / "seen").read_text(encoding="utf-8").split()


def edits_are_tried_and_noted(tests):
    with tempfile.TemporaryDirectory() as folder:
        tree = Tree(folder)
        tests.same("nothing was tried yet", (tree.run("--check")[0], tree.tried()), (1, []))
        tests.same("one crate by its name", (tree.run("low"), tree.tried()), ((0, ["1 passed, 0 failed"]), ["low"]))
        tests.same("its edits alone lie in the copy", tree.seen(), ["ci", "low", "wrong.edit"])
        tests.same("the others without a name", (tree.run(), tree.tried()), ((0, ["1 passed, 0 failed"]), ["high", "low"]))
        tests.same("nothing is left to try", (tree.run(), tree.run("--check")), ((0, ["0 passed, 0 failed"]), (0, ["2 passed, 0 failed"])))
        tests.same("a crate without edits", tree.run("other")[0], 1)


def a_record_is_held_to_the_crates(tests):
    with tempfile.TemporaryDirectory() as folder:
        tree = Tree(folder)
        tree.run()
        changes = [("crates/high/src/lib.rt", "high"), ("crates/high/specs/Words.antt", "high"), ("crates/high/proofs/One.antt", "high"),
                   ("tests/sweep/edits/high/wrong.edit", "high"), ("tests/sweep/edits/high/more.edit", "high"), ("crates/low/src/lib.rt", "low")]
        for name, crate in changes:
            path = tree.top / name
            was = path.read_bytes() if path.exists() else None
            tree.put(name, "fn other() {}\n")
            status, lines = tree.run("--check")
            said = [line for line in lines if f"{crate} has changed" in line]
            tests.same(f"a change of {name}", (status, len(said), lines[-1]), (1, 1, "1 passed, 1 failed"))
            below = [line for line in lines if "below these crates" in line]
            tests.same(f"a change of {name}: what stands on it", below != [], crate == "low")
            path.unlink()
            if was is not None:
                path.write_bytes(was)
        tests.same("put back as it was", tree.run("--check"), (0, ["2 passed, 0 failed"]))
        tree.put("crates/low/must-fail/gate.edit", "another\n")
        tests.same("an edit of the gate is no part of it", tree.run("--check"), (0, ["2 passed, 0 failed"]))
        tree.put("crates.txt", CRATES.replace("low: lib_of_the_toolchain", "low:"))
        status, lines = tree.run("--check")
        tests.same("another line of crates.txt is told", (status, any("below these crates" in line for line in lines)), (0, True))


def what_is_not_refused_is_not_noted(tests):
    rows = [("is proved", "NOT REFUSED: the crate is still proved"), ("is refused for its form", "BAD EDIT: the text does not stand there"),
            ("was not tried", "NOT TRIED: run this again"), ("is refused at a limit", "refused, as it must be (only by a limit of the prover)"),
            ("is refused for a name", "refused, as it must be (only because a proof names it, so this says little of the contract)")]
    for name, word in rows:
        with tempfile.TemporaryDirectory() as folder:
            tree = Tree(folder)
            tree.say({"low": REFUSED, "high": word})
            status, lines = tree.run()
            tests.same(f"an edit that {name}", (status, lines[-1], tree.tried()), (1, "1 passed, 1 failed", ["low"]))
            tests.same(f"an edit that {name} is named", any("FAILED high/wrong" in line for line in lines), True)
    with tempfile.TemporaryDirectory() as folder:
        tree = Tree(folder)
        tree.say({"low": REFUSED})
        status, lines = tree.run()
        tests.same("an edit of which nothing is said", (status, lines[-1], tree.tried()), (1, "1 passed, 1 failed", ["low"]))


TESTS = [edits_are_tried_and_noted, a_record_is_held_to_the_crates, what_is_not_refused_is_not_noted]
