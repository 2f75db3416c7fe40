"""What the launcher says: the help, the version, and a sentence for each status; the standard output and the status are the program's own."""
import fcntl
import pathlib
import re
import socket
import subprocess
import sys

from checkout import TOOLCHAIN, sum_of
from lib import SECONDS, TOP, free_port

sys.path.append(str(TOP / "tests/trials"))
from kept import entry  # noqa: E402

TWO, COLUMBUS, RULES = "examples/two_squares.tgap", "examples/columbus.json", "examples/columbus.rules.json"
COMMANDS = ["borders", "check", "slice", "packet", "replay", "grid", "serve", "keep"]
TOOLS = ["import", "where", "export", "steps", "loss", "publish", "journal"]
OWN_WORDS = ["build", "--help", "--version"]

# The words of a command line, its status, and what the sentence has to name.
SENTENCES = [
    (["frobnicate"], 2, ["'frobnicate' is no command", "--help", "docs/formats.md"]),
    (["grid"], 2, ["grid", "N", "got 0"]),
    (["grid", "0"], 2, ["N", "'0'", "1 to 147"]),
    (["grid", "148"], 2, ["N", "'148'", "1 to 147"]),
    (["borders"], 2, ["borders", "MAP STEP", "got 0"]),
    (["check", TWO, "land"], 2, ["check", "MAP [OBJECT RULES]", "got 2"]),
    (["borders", TWO, "01"], 2, ["STEP", "'01'", "0 to 4294967295"]),
    (["slice", TWO, "4294967296"], 2, ["STEP", "'4294967296'"]),
    (["packet", TWO, "1", "-1"], 2, ["TO", "'-1'"]),
    (["packet", TWO, "", "1"], 2, ["FROM", "''"]),
    (["serve", TWO, "0", "1", "1"], 2, ["PORT", "'0'", "1 to 65535"]),
    (["serve", TWO, "8080", "17", "1"], 2, ["WORKERS", "'17'", "1 to 16"]),
    (["serve", TWO, "8080", "1", "65"], 2, ["VERSIONS", "'65'", "1 to 64"]),
    (["keep", TWO, "8080", "1", "1"], 2, ["keep", "MAP JOURNAL PORT WORKERS VERSIONS [OBJECT RULES]", "got 4"]),
    (["keep", TWO, "journal", "0", "1", "1"], 2, ["PORT", "'0'", "1 to 65535"]),
    (["keep", TWO, "journal", "8080", "17", "1"], 2, ["WORKERS", "'17'", "1 to 16"]),
    (["keep", TWO, "journal", "8080", "1", "65"], 2, ["VERSIONS", "'65'", "1 to 64"]),
    (["check", b"\xff"], 2, ["UTF-8"]),
    (["keep", b"\xff", "journal", "8080", "1", "1"], 2, ["UTF-8"]),
    (["borders", "no such map", "1"], 3, ["no file 'no such map'", "docs/formats.md"]),
    (["check", "examples"], 3, ["'examples' is a folder"]),
    (["check", COLUMBUS, "areas", "no such rules"], 3, ["no file 'no such rules'"]),
    (["replay", "no such slice", TWO], 3, ["no file 'no such slice'"]),
    (["check", "examples/crossing.tgap"], 4, ["'examples/crossing.tgap'", "./tgap where 'examples/crossing.tgap' on", "docs/formats.md", "docs/guide.md"]),
    (["check", COLUMBUS, "areas", COLUMBUS], 4, [f"'{COLUMBUS}' or its rules in '{COLUMBUS}'", f"./tgap where '{COLUMBUS}' 'areas' on"]),
    (["slice", TWO, "2"], 5, [f"'{TWO}'", "2 steps"]),
    (["packet", TWO, "0", "1"], 5, ["FROM, 0", "TO, 1"]),
    (["packet", TWO, "3", "1"], 5, [f"'{TWO}'", "3 steps"]),
    (["replay", TWO, RULES], 9, [f"'{TWO}'", f"'{RULES}'", "docs/formats.md"]),
]


def both(tests, words, **how):
    """The launcher's status and texts, and the program's status and answer."""
    ran = subprocess.run([tests.executable, *words], cwd=tests.checkout.top, stdin=subprocess.DEVNULL, capture_output=True, timeout=SECONDS, check=False)
    return tests.checkout.run(*words, **how), (ran.returncode, ran.stdout)


def is_sentence(said, status, fragments):
    """What is wrong with a sentence: it is one line of the launcher's that names the status and these."""
    faults = [f"{fragment!r} is not said" for fragment in [*fragments, f"(status {status};"] if fragment not in said]
    if not re.fullmatch(r"tgap: [^\n]+\n", said):
        faults.append("it is not one line")
    return [f"{fault}: {said!r}" for fault in faults]


def help_is_given(tests):
    texts = [tests.checkout.run(*words) for words in (["--help"], ["-h"], ["help"])]
    tests.same("the help by three words", [text[0::2] for text in texts], [(0, "")] * 3)
    tests.same("one help", len({text[1] for text in texts}), 1)
    help_text = texts[0][1].decode()
    for command in COMMANDS:
        tests.same(f"an example of {command}", f"\n      ./tgap {command} " in help_text, True)
    for word in TOOLS:
        tests.same(f"the help names {word}", f"\n  {word} " in help_text, True)
    for word in OWN_WORDS:
        tests.same(f"the help names {word}", re.search(rf"\n  {word}[ ,]", help_text) is not None, True)
    tests.same("lines of the help that are too wide", [line for line in help_text.splitlines() if len(line) > 84], [])


def examples_of_the_help_work(tests):
    """Each example is a command line that ends with 0, in the order of the help; `serve` and `keep`, which do not end, are tested with the signals."""
    lines = [line.strip() for line in tests.checkout.run("--help")[1].decode().splitlines() if line.startswith("      ./tgap")]
    environment = {"PATH": str(tests.checkout.bare)}
    try:
        for line in lines:
            if " serve " not in line and " keep " not in line:
                ran = subprocess.run(["/bin/sh", "-c", line], cwd=tests.checkout.top, env=environment, capture_output=True, timeout=SECONDS, check=False)
                tests.same(line, (ran.returncode, ran.stderr), (0, b""))
    finally:
        for name in ("coarse", "packet"):
            (tests.checkout.top / name).unlink(missing_ok=True)


def help_of_one_command(tests):
    """By each of its words, without a tool or a program; the commands of the tools by their own help, which wants no library."""
    checkout = tests.checkout
    for command in COMMANDS:
        texts = [checkout.run(*words) for words in (["help", command], [command, "--help"], [command, "-h"])]
        tests.same(f"the help of {command} by three words", texts[1:], texts[:1] * 2)
        status, out, said = texts[0]
        text = out.decode()
        tests.same(f"the help of {command}", (status, text.startswith(f"usage: ./tgap {command} "), f"\n      ./tgap {command} " in text, said), (0, True, True, ""))
        tests.same(f"the help of {command} has no other", [other for other in COMMANDS if f"\n  {other} " in text], [])
    for tool in TOOLS:
        status, out, _ = checkout.run("help", tool, tools=checkout.python)
        tests.same(f"the help of {tool}", (status, out.decode().startswith(f"usage: ./tgap {tool} ")), (0, True))
    tests.same("the help of what is no command", checkout.run("help", "frobnicate"), (2, b"", "tgap: 'frobnicate' is no command (./tgap --help lists them)\n"))


def standard_input_is_a_file(tests):
    """For a map, its rules, a slice or a packet - is the standard input; for an object it is the only one."""
    checkout = tests.checkout
    top = checkout.top
    slice_, packet = tests.text("slice", top / TWO, "1"), tests.text("packet", top / TWO, "1", "0")
    (checkout.room / "packet").write_bytes(packet)
    columbus = tests.text("check", top / COLUMBUS, "areas", top / RULES)
    for name, words, given, answer in [
            ("a listing", ["check", "-"], (top / TWO).read_bytes(), tests.text("check", top / TWO)), ("a slice of one", ["slice", "-", "1"], (top / TWO).read_bytes(), slice_),
            ("a topology", ["check", "-", "-", RULES], (top / COLUMBUS).read_bytes(), columbus), ("rules", ["check", COLUMBUS, "-", "-"], (top / RULES).read_bytes(), columbus),
            ("a slice", ["replay", "-", checkout.room / "packet"], slice_, tests.text("slice", top / TWO, "0"))]:
        with checkout.start(*words, stdin=subprocess.PIPE) as started:
            out, said = started.communicate(given, timeout=SECONDS)
        tests.same(f"{name} on the standard input", (started.returncode, out, said), (0, answer, b""))


def steps_by_a_measure(tests):
    """A slice by its number of faces or by a scale, wherever the option stands."""
    checkout = tests.checkout
    wanted = tests.text("slice", checkout.top / COLUMBUS, "24", "areas", checkout.top / RULES)
    for words in (["slice", COLUMBUS, "--faces", "25", "areas", RULES], ["slice", "--faces", "25", COLUMBUS, "areas", RULES], ["slice", COLUMBUS, "areas", RULES, "--faces", "25"]):
        tests.same(f"{words}", checkout.run(*words, tools=checkout.python), (0, wanted, ""))
    # The two squares have 100 square units each: at 1 : 6000 the least area is 144.
    for scale, step in (("1:5000", "0"), ("1:6000", "1")):
        tests.same(f"a slice at {scale}", checkout.run("slice", TWO, "--scale", scale, tools=checkout.python), (0, tests.text("slice", checkout.top / TWO, step), ""))
    status, out, said = checkout.run("slice", TWO, "--faces", "0", tools=checkout.python)
    tests.same("no faces", (status, out, "--faces" in said), (2, b"", True))
    status, out, said = checkout.run("slice", "-", "--faces", "1", tools=checkout.python)
    tests.same("faces of the standard input", (status, out, "standard input" in said), (2, b"", True))


def typos_in_rules_are_told(tests):
    """The answer is the program's; a line tells which areas count as the default, where a Python is there."""
    checkout = tests.checkout
    with checkout.altered("typo.json", (checkout.top / RULES).read_bytes().replace(b'"wood"', b'"wodo"')):
        for words in (["check", COLUMBUS, "areas"], ["slice", COLUMBUS, "24", "areas"], ["packet", COLUMBUS, "24", "23", "areas"]):
            answer = tests.text(*(checkout.top / word if word == COLUMBUS else word for word in words), checkout.top / "typo.json")
            status, out, said = checkout.run(*words, "typo.json", tools=checkout.python)
            tests.same(f"{words[0]} with a typo: what the program answers", (status, out), (0, answer))
            tests.tell(f"{words[0]} with a typo", [] if re.fullmatch(r"tgap: \d+ areas count as 'field', the default of typo\.json, .*: 'wood' \(\d+\)\n", said) else [f"got {said!r}"])
            tests.same(f"{words[0]} with a typo, without a Python", checkout.run(*words, "typo.json"), (0, answer, ""))
        for command in (["serve", COLUMBUS], ["keep", COLUMBUS, checkout.room / "journal of a typo"]):
            port = str(free_port())
            with checkout.start(*command, port, "1", "1", "areas", "typo.json", tools=checkout.python) as started:
                served = started.stdout.readline()
                started.terminate()
                tests.same(f"{command[0]} with a typo", (served, b"'wood'" in started.stderr.read()), (f"serving {port}\n".encode(), True))
    tests.same("nothing is told where all are named", checkout.run("check", COLUMBUS, "areas", RULES, tools=checkout.python)[2], "")


def no_words_give_the_help_too(tests):
    (status, out, said), of_program = both(tests, [])
    tests.same("no words: what the program answers", (status, out), of_program)
    tests.same("no words: the help on the standard error", said.encode(), tests.checkout.run("--help")[1])


def version_is_told(tests):
    checkout = tests.checkout
    version = (checkout.top / "VERSION").read_text(encoding="ascii")
    wanted = f"tgap {version}sources {sum_of(checkout.source_lines().encode())}\ntoolchain {TOOLCHAIN}\n"
    tests.same("the version", checkout.run("--version"), (0, wanted.encode(), ""))
    with checkout.altered("crates/lemmas/src/lib.rt", b"// other\n"):
        status, out, said = checkout.run("--version")
        changed = f"sources {sum_of(checkout.source_lines().encode())}\n"
        tests.same("the version of other sources", (status, changed in out.decode(), "that of older sources: crates/lemmas/src/lib.rt is another" in said), (0, True, True))


def statuses_have_sentences(tests):
    for words, status, fragments in SENTENCES:
        (got, out, said), of_program = both(tests, words)
        tests.same(f"{words}: what the program answers", (got, out), of_program)
        tests.tell(f"{words}: its sentence", is_sentence(said, status, fragments))


def unwritten_answer_has_a_sentence(tests):
    with open("/dev/full", "wb") as full:
        status, _, said = tests.checkout.run("check", TWO, stdout=full)
    tests.tell("an answer that could not be written", is_sentence(said, 6, ["standard output", "docs/formats.md"]) + ([] if status == 6 else [f"got {status}"]))


def taken_port_has_a_sentence(tests):
    port = free_port()
    with socket.socket() as one:
        one.bind(("127.0.0.1", port))
        one.listen()
        for words in (["serve", TWO], ["keep", TWO, str(tests.checkout.room / "journal")]):
            (status, out, said), of_program = both(tests, [*words, str(port), "1", "1"])
            tests.same(f"a port that is taken, {words[0]}: what the program answers", (status, out), of_program)
            tests.tell(f"a port that is taken, {words[0]}: its sentence", is_sentence(said, 8, [f"port {port}", "docs/deployment.md"]))


def refused_journals_have_sentences(tests):
    """Of a command that keeps a journal the map is told of where it is at fault, and else the journal."""
    room, port = tests.checkout.room, str(free_port())
    follows, other, long, held = (str(room / name) for name in ("a journal", "another's", "a long one", "one that is held"))
    for path, data in [(follows, entry(2, b"class 1 0\n")), (other, entry(1, b"drop 5 5\n")), (long, entry(1, b"") + entry(2, b"")), (held, b"")]:
        pathlib.Path(path).write_bytes(data)
    edits = ["cannot be made again", "journal-entry I", f"the map in '{TWO}'", "journal-long N", "VERSIONS, 2,", "docs/formats.md, \"A journal of edits\""]
    with open(held, "rb") as locked:
        fcntl.flock(locked, fcntl.LOCK_EX)
        for map_, path, status, fragments in [
                (TWO, "examples", 3, ["'examples' is a folder and no journal"]), (TWO, "no folder/journal", 3, ["there is no folder 'no folder'"]),
                (TWO, TWO, 3, [f"'{TWO}' does not begin as a journal"]), (TWO, "/dev/null", 3, ["'/dev/null' is no plain file"]),
                (TWO, held, 3, [f"'{held}' is held by another program"]), ("no such map", held, 3, ["no file 'no such map'"]),
                (TWO, follows, 4, [f"journal '{follows}'", *edits]), (TWO, other, 4, edits), (TWO, long, 4, edits),
                ("examples/crossing.tgap", follows, 4, ["'examples/crossing.tgap'", "./tgap where 'examples/crossing.tgap' on"])]:
            words = ["keep", map_, path, port, "1", "2"]
            (got, out, said), of_program = both(tests, words)
            tests.same(f"{words}: what the program answers", (got, out), of_program)
            tests.tell(f"{words}: its sentence", is_sentence(said, status, fragments))


def rare_statuses_have_sentences(tests):
    """Statuses that a test cannot bring about come from a stand-in for the program."""
    checkout = tests.checkout
    program = checkout.released.read_bytes()
    try:
        for status, fragments in [(7, [f"memory for '{TWO}'", "docs/performance.md"]), (77, ["ended with status 77"])]:
            checkout.release(f"#!/bin/sh\necho answer\nexit {status}\n".encode())
            got, out, said = checkout.run("check", TWO)
            tests.same(f"status {status}: the answer", (got, out), (status, b"answer\n"))
            tests.tell(f"status {status}: its sentence", is_sentence(said, status, fragments))
    finally:
        checkout.release(program)


TESTS = [
    help_is_given,
    help_of_one_command,
    examples_of_the_help_work,
    standard_input_is_a_file,
    steps_by_a_measure,
    typos_in_rules_are_told,
    no_words_give_the_help_too,
    version_is_told,
    statuses_have_sentences,
    unwritten_answer_has_a_sentence,
    taken_port_has_a_sentence,
    refused_journals_have_sentences,
    rare_statuses_have_sentences,
]
