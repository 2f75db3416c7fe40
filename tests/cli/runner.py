"""What tests/run says of suites: it is copied beside made-up ones, which print what they are given to print."""
import os
import pathlib
import shutil
import subprocess

from lib import SECONDS, TOP

# The tools of the shell that tests/run uses; python3 is none of them.
TOOLS = ["sh", "cat", "dirname", "grep", "head", "id", "mktemp", "mv", "rm", "sed", "tail", "tee", "timeout", "tr"]
SUITES = ["cli", "tools", "http", "deploy", "launcher", "web", "sweep_first", "growth", "package", "trials", "keep"]
LINE = "{} passed, {} failed, {} skipped"
# Each case: what the suites print, with their statuses, and the closing line of all with the status.
CASES = [
    ("no suite", {}, LINE.format(0, 0, 0), 0),
    ("one suite", {"cli": ("some words\n" + LINE.format(3, 0, 1), 0)}, LINE.format(3, 0, 1), 0),
    ("suites of several rows", {name: (LINE.format(1, 0, 2), 0) for name in SUITES}, LINE.format(len(SUITES), 0, 2 * len(SUITES)), 0),
    ("one of two with a test that failed", {"cli": (LINE.format(3, 2, 0), 1), "http": (LINE.format(5, 0, 0), 0)},
     LINE.format(8, 2, 0), 1),
    ("a test that failed, and yet the status 0", {"http": (LINE.format(3, 1, 0), 0)}, LINE.format(3, 1, 0), 1),
    ("a suite without its line", {"cli": ("3 passed, 0 failed", 0)}, LINE.format(0, 1, 0), 1),
    ("a suite that prints nothing", {"web": ("", 0)}, LINE.format(0, 1, 0), 1),
    ("a line in the middle", {"cli": (LINE.format(3, 0, 0) + "\nthen it broke", 1)}, LINE.format(0, 1, 0), 1),
    ("a status that its line does not say", {"cli": (LINE.format(3, 0, 0), 7)}, LINE.format(3, 1, 0), 1),
]


def made_up(folder, suites):
    """A copy of tests/run, and of what it reads, beside made-up suites, each a script of the shell."""
    tests, release = (pathlib.Path(folder).resolve() / name for name in ("tests", "release"))
    tests.mkdir(parents=True)
    release.mkdir()
    shutil.copy(TOP / "tests/run", tests / "run")
    shutil.copy(TOP / "release/library.sh", release / "library.sh")
    for name, (text, status) in suites.items():
        path = tests / name / "run"
        path.parent.mkdir()
        path.write_text(f"#!/bin/sh\n[ -x \"$1\" ] || exit 9\ncat <<'END'\n{text}\nEND\nexit {status}\n", encoding="ascii")
        path.chmod(0o755)
    return tests / "run"


def outcome(script, *words, **more):
    """The last line of the standard output of tests/run, its standard error and its status. It installs nothing."""
    how = {"env": {**os.environ, "TESTS_INSTALL": "no", **more}, "stdin": subprocess.DEVNULL, "timeout": SECONDS}
    ended = subprocess.run([script, *words], capture_output=True, text=True, check=False, **how)
    return (ended.stdout.splitlines() or [""])[-1], ended.stderr, ended.returncode


def sums_of_suites(tests):
    for number, (name, suites, line, status) in enumerate(CASES):
        last, _, code = outcome(made_up(f"made_up_{number}", suites), tests.executable)
        tests.same(f"tests/run over {name}", (last, code), (line, status))


def executables_that_are_none(tests):
    """Before a suite is run, and before anything is installed."""
    script = made_up("made_up_none", {"cli": (LINE.format(1, 0, 0), 0)})
    pathlib.Path("plain_file").write_bytes(b"")
    wrong = {"none": os.path.abspath("none"), "a folder": str(script.parent), "a plain file": os.path.abspath("plain_file")}
    released = script.parents[1] / "release/tgap-x86_64-linux"
    for name, path in {**wrong, "no released one": str(released)}.items():
        words = [path] if name in wrong else []
        last, error, code = outcome(script, *words)
        told = error.startswith(f"tests/run: there is no executable {path}\n")
        tests.same(f"tests/run with an executable that is none: {name}", (last, told, code), ("", True, 1))
    tests.same("tests/run with two words", outcome(script, "a", "b"), ("", "usage: tests/run [EXECUTABLE]\n", 1))
    released.symlink_to(tests.executable)
    last, _, code = outcome(script)
    tests.same("tests/run takes the released executable", (last, code), (LINE.format(1, 0, 0), 0))


def no_python(tests):
    """A suite that wants python3 is skipped where there is none, and the line that installs it is named."""
    script = made_up("made_up_python", {"cli": (LINE.format(1, 0, 0), 0), "web": (LINE.format(2, 0, 0), 0)})
    (script.parent / "cli/run").write_text("#!/usr/bin/env python3\n", encoding="ascii")
    os.mkdir("tools")
    for tool in TOOLS:
        os.symlink(shutil.which(tool), f"tools/{tool}")
    last, error, code = outcome(script, tests.executable, PATH=os.path.abspath("tools"))
    told = "for want of python3" in error and "apt-get install" in error
    tests.same("tests/run without python3", (last, told, code), (LINE.format(2, 0, 1), True, 0))


TESTS = [sums_of_suites, executables_that_are_none, no_python]
