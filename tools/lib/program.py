"""Asks the program: slices and packets of a map, as texts that are read, and the topologies of slices."""
import contextlib
import http.client
import json
import random
import re
import shutil
import subprocess
import tempfile
from dataclasses import dataclass

from command import CALLED, FILE, INPUT, REFUSED, STEP, WORDS, Failure, standard_input
from topology import topology_of

BEYOND = 4_294_967_295
# Ports that the system gives nobody by itself, and how many of them are tried.
PORTS, TRIES = range(10_000, 32_768), 20
# A server is not to outlive its tool, however that ends.
BOUND = ["setpriv", "--pdeathsig", "KILL"] if shutil.which("setpriv") else []


@dataclass
class Slice:
    """The map after some steps: the class of each face, and the edges as key, left face, right face and points."""
    step: int
    faces: dict
    edges: list

    def points(self):
        return sum(len(points) for _, _, _, points in self.edges)

    def double_areas(self):
        """Twice the area of each face, as the sum of what its edges contribute."""
        areas = dict.fromkeys(self.faces, 0)
        for _, left, right, points in self.edges:
            part = sum(a[0] * b[1] - a[1] * b[0] for a, b in zip(points, points[1:]))
            for face, sign in ((left, 1), (right, -1)):
                if face:
                    areas[face] += sign * part
        return areas


@dataclass
class Step:
    """A merger: its number, the faces that it joins, their classes, the face that it makes, and how many points it takes away."""
    number: int
    loser: int
    winner: int
    loser_class: int
    winner_class: int
    made: int
    points: int


def pairs(numbers):
    return list(zip(numbers[::2], numbers[1::2]))


def read_slice(text, path):
    """A slice text. What is none is refused by its line."""
    step, faces, edges = None, {}, []
    lines = text.splitlines()
    for at, line in enumerate(lines, 1):
        mark, *rest = line.split(" ")
        try:
            numbers = [int(word) for word in rest]
            if mark == "slice":
                step, = numbers
            elif mark == "face":
                faces[numbers[0]] = numbers[1]
            elif mark == "edge":
                edges.append((*numbers[:3], pairs(numbers[4:])))
            elif mark not in ("faces", "edges", "end"):
                raise ValueError(line)
        except (ValueError, IndexError) as error:
            raise Failure(f"{path} is no slice: line {at} is {line[:60]!r}") from error
    if step is None or not lines or lines[-1] != "end":
        raise Failure(f"{path} is no whole slice: it has no line {'end' if step is not None else 'slice'}")
    return Slice(step, faces, edges)


def read_steps(text):
    """The steps that a packet undoes, the last one first."""
    steps = []
    for line in text.splitlines():
        mark, *rest = line.split(" ")
        numbers = [int(word) for word in rest]
        if mark == "step":
            number, loser, loser_class, winner, winner_class, made = numbers[:6]
            steps.append(Step(number, loser, winner, loser_class, winner_class, made, 0))
        elif mark == "mend":
            # Where an edge is cut, both pieces have the point.
            steps[-1].points += numbers[1] + numbers[2] - 1
        elif mark == "edge":
            steps[-1].points += numbers[3]
    return steps


def copy_of_input():
    """A file with what stands on the standard input."""
    copy = tempfile.NamedTemporaryFile(prefix="tgap-")
    copy.write(standard_input())
    copy.flush()
    return copy


class Program:
    """The program, with the words that name a map."""

    def __init__(self, executable, words):
        if words.object and not words.rules:
            raise Failure("a topology wants its OBJECT and its RULES, a listing neither", WORDS)
        self.executable, self.given = executable, words.map
        # The program asks for a file again and again; it goes when this does.
        self.copy = copy_of_input() if words.map == INPUT else None
        self.map = [self.copy.name if self.copy else words.map] + ([words.object, words.rules] if words.object else [])

    def words(self, command, *numbers):
        return [self.executable, command, self.map[0], *map(str, numbers), *self.map[1:]]

    def run(self, command, *numbers):
        try:
            return subprocess.run(self.words(command, *numbers), stdin=subprocess.DEVNULL, capture_output=True, text=True)
        except OSError as error:
            raise Failure(f"the program {self.executable} cannot be run: {error.strerror}", FILE) from error

    def asked(self, command, *numbers):
        done = self.run(command, *numbers)
        if done.returncode == 0:
            return done.stdout
        told = (done.stdout.strip() or done.stderr.strip()).splitlines()
        advice = f"; {CALLED} where {' '.join([self.given, *self.map[1:2]])} tells where" if done.returncode == REFUSED else ""
        raise Failure(f"the program, asked to {command} {self.given}, ends with status {done.returncode}: {told[0] if told else 'no word'}{advice}",
                      done.returncode if done.returncode in (FILE, REFUSED, STEP) else 1)

    def faces(self):
        """How many faces the map has."""
        return int(self.asked("check").split()[2])

    def last_step(self):
        done = self.run("slice", BEYOND)
        found = re.fullmatch(r"step too high (\d+)\n", done.stdout)
        if done.returncode == STEP and found:
            return int(found[1])
        self.asked("slice", BEYOND)
        raise Failure("the program gave a slice where no step can be", 1)

    def slice(self, step):
        return read_slice(self.asked("slice", step), f"slice {step}")

    def steps(self, last):
        """The steps of the map up to this one, the first one first."""
        return read_steps(self.asked("packet", last, 0))[::-1]

    def serving(self):
        """A server of the map, for as long as the context lasts. It may have one version only, so nobody can edit the map meanwhile."""
        return self.answering("serve", None, 1)

    def keeping(self, journal, versions):
        """A server of the map with the edits of a journal, for as long as the context lasts. It holds the journal, and may write to it."""
        return self.answering("keep", journal, versions)

    @contextlib.contextmanager
    def answering(self, command, journal, versions):
        """A server by one of the two commands, at a port that it finds free."""
        before = [journal] if journal else []
        for port in random.sample(PORTS, TRIES):
            words = [*BOUND, *self.words(command, *before, port, 1, versions)]
            with subprocess.Popen(words, stdin=subprocess.DEVNULL, stdout=subprocess.PIPE, stderr=subprocess.DEVNULL, text=True) as process:
                try:
                    said = process.stdout.readline()
                    if said == f"serving {port}\n":
                        yield Server(port)
                        return
                finally:
                    process.terminate()
            if said != "port fault\n":
                break
        raise NotServed(self.map[0], said.strip())


class NotServed(Failure):
    """The program refused to serve a map, and what it said."""

    def __init__(self, name, said):
        super().__init__(f"the program does not serve {name}: {said or 'no word'}", 1)
        self.said = said


class Server:
    """A map that the program serves on this machine."""

    def __init__(self, port):
        self.port = port

    def topology(self, step):
        """The slice after a step as a topology: its arcs are the edges, and its faces the parts of the slice's faces."""
        try:
            # A connection of its own for each, since the server ends those on which nothing is asked for a while.
            with contextlib.closing(http.client.HTTPConnection("127.0.0.1", self.port)) as client:
                client.request("GET", f"/topo/{step}", headers={"Connection": "close"})
                answer = client.getresponse()
                text = answer.read().decode()
        except (OSError, http.client.HTTPException) as error:
            raise Failure(f"the program, asked for the topology of slice {step}, does not answer: {error}", 1) from error
        if answer.status != 200:
            raise Failure(f"the program, asked for the topology of slice {step}, answers {answer.status} {text.strip()}",
                          {400: STEP, 422: REFUSED}.get(answer.status, 1))
        return topology_of(json.loads(text), f"slice {step}", "map")
