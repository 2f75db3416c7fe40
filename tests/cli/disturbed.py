"""A long answer whose write is interrupted, cut short, or moves nothing, and a large map of which a read is
interrupted or cut short: the answer is whole, or its status tells that it is not. One call is disturbed in each run,
by the library that tests/sweep has for it."""
import os
import subprocess

from lib import SECONDS, shown
from maps import large_borders
from refusing import Refusing, make_library

WORDS = ["borders", "large", "0"]
CUT = 6
# What a call comes to, which calls there are, and whether the answer has to be whole then.
WRITES = [("interrupt", [1], True), ("short", [1], True), ("nought", [1], False)]
# The map has some 4 MB, so there are some hundred reads of it: these are the first ones and one in the middle.
READS = [("interrupt", [1, 2, 250], True), ("short", [1, 2, 250], True)]


def disturbed(tests, name, kinds):
    """The program on a large map, with one call of this name disturbed."""
    make_library(".")
    whole = large_borders()
    for kind, calls, has_to in kinds:
        for call in calls:
            refusing = Refusing(tests.executable, os.getcwd(), kind, name)
            with refusing.start(WORDS, call) as process:
                try:
                    text, _ = process.communicate(timeout=SECONDS)
                except subprocess.TimeoutExpired:
                    process.kill()
                    raise
            got = process.returncode, text
            told = got == (0, whole) or (not has_to and got[0] == CUT and whole.startswith(text))
            faults = [] if told else [f"got {shown(got)}, expected the whole answer{'' if has_to else ' or a front of it with status 6'}"]
            tests.tell(f"{name} number {call} of a large map, {kind}", faults if refusing.has_come() else ["the call did not come"])


def a_disturbed_write(tests):
    disturbed(tests, "write", WRITES)


def a_disturbed_read(tests):
    disturbed(tests, "read", READS)


TESTS = [a_disturbed_write, a_disturbed_read]
