"""What a version of a map replies to who reads it or edits it, by the plain programs of tests/sweep: byte for byte where
they can give it, and else as far as they can tell."""
import sys

from lib import TOP, arc_text
from model import slice_of, window_of

sys.path.append(str(TOP / "tests/sweep"))
from plain_edits import edited  # noqa: E402
from plain_maps import History, check  # noqa: E402
from plain_records import replayed  # noqa: E402
from plain_texts import Refused  # noqa: E402

# How many numbers stand in the path of what is read.
NUMBERS = {"info": 0, "slice": 1, "topo": 1, "packet": 2, "window": 5, "window-packet": 6}


def parts_of(path):
    """The word and the numbers of a path."""
    word, *rest = path.partition("?")[0].removeprefix("/").split("/")
    return word, [int(one) for one in rest]


def is_in_order(points, whole):
    """Whether points are some of a row, in its order, with its first and its last."""
    rest = iter(whole)
    return points[0] == whole[0] and points[-1] == whole[-1] and all(point in rest for point in points)


class PlainAnswers:
    """What one version answers. Where vertices may be removed, slices after the first step are not told byte for byte."""

    def __init__(self, number, base):
        self.number, self.base, self.history = number, base, History(base)
        self.last = len(self.history.labels) - 1
        self.slices, self.batches = {}, {}

    def info(self):
        points = sum(len(points) for _, _, points in self.base.arcs)
        return f"version {self.number} steps {self.last} faces {len(self.base.classes)} arcs {len(self.base.arcs)} points {points}\n".encode()

    def slice(self, step):
        """The slice after a step, or nothing where it is not known."""
        if step > 0 and self.base.ratio > 0:
            return None
        if step not in self.slices:
            self.slices[step] = f"{self.history.slice_text(step)}\n".encode()
        return self.slices[step]

    def refusal(self, word, numbers):
        """The status and the text for what cannot be read, by the numbers of its path."""
        if "packet" in word and numbers[0] < numbers[1]:
            return 400, f"not coarser {numbers[0]} {numbers[1]}\n".encode()
        if numbers and numbers[0] > self.last:
            return 400, f"step too high {self.last}\n".encode()
        return None

    def is_read(self, path, status, text):
        """Whether this may be the reply to who reads this path."""
        word, numbers = parts_of(path)
        refusal = self.refusal(word, numbers)
        if refusal or word == "topo":
            # A topology whose face is no polygon is told so, by another status.
            return (status, text) == refusal if refusal else status in (200, 422)
        return status == 200 and self.is_text(word, numbers, text)

    def is_text(self, word, numbers, text):
        """Whether a text is the one that is asked for, as far as that is known."""
        if word == "info":
            return text == self.info()
        if word == "packet":
            return self.is_packet(*numbers, text)
        known = self.slice(numbers[0])
        if word == "slice":
            return self.is_coarser(numbers[0], text) if known is None else text == known
        return word != "window" or known is None or text == window_of(known, numbers[1:])

    def is_packet(self, first, last, text):
        """Whether the packet leads from one slice to the other, where both are known."""
        coarse, fine = self.slice(first), self.slice(last)
        if coarse is None or fine is None:
            return text.startswith(f"packet {first} {last}\n".encode())
        try:
            return f"{replayed(coarse, text)}\n".encode() == fine
        except Refused:
            return False

    def is_coarser(self, step, text):
        """Whether a text is that of the slice, where each edge may have some points of its chain alone."""
        chains, borders = self.history.chains(step), self.history.borders(step)
        try:
            edges = slice_of(text).edges
        except ValueError:
            return False
        if list(edges) != list(chains):
            return False
        points = {key: edge[2] for key, edge in edges.items()}
        live = sorted(set(self.history.labels[step]) - {0})
        rows = [f"slice {step}", f"faces {len(live)}", *(f"face {face} {self.history.class_of[face]}" for face in live), f"edges {len(chains)}"]
        rows += [*(f"edge {key} {arc_text(*borders[key], points[key])}" for key in chains), "end"]
        return text == "\n".join([*rows, ""]).encode() and all(is_in_order(points[key], chains[key]) for key in chains)

    def edited(self, batch):
        """The map that a batch makes of this one, and why it is refused; one of the two is nothing."""
        if batch not in self.batches:
            try:
                made = edited(self.base, batch)
                check(made)
                self.batches[batch] = made, None
            except Refused as why:
                self.batches[batch] = None, f"{why}\n".encode()
        return self.batches[batch]
