"""A slow plain reader of texts by docs/formats.md: numbers, lines and words. It is made to be compared with the program,
and shares nothing with it."""
import re

COUNT, COORDINATE, SIGNED = 2**32 - 1, 2**31, 2**31
DECIMAL = re.compile(rb"(0|-?[1-9][0-9]*)\Z")


class Refused(Exception):
    """Why an input is refused: the text that tells it, without its line feed."""


def number(word, least, most):
    """The number that a word spells the shortest way, where it is in the range."""
    if not DECIMAL.match(word) or len(word) > 20 or not least <= int(word) <= most:
        raise ValueError
    return int(word)


class Lines:
    """The lines of a text, read one after the other. `told` makes of a line's number the text of its fault."""

    def __init__(self, data, told):
        *self.lines, self.rest = data.split(b"\n")
        self.read, self.told = 0, told

    def bad(self):
        """The fault of the line that was read last, or that should have come."""
        return Refused(self.told.format(self.read))

    def words(self, first, form):
        """The words after the first one of the next line, each by its form: the least and the most that it may be, or
        None for the rest of the line. The next line may be missing, and may have other words."""
        self.read += 1
        if self.read > len(self.lines):
            raise self.bad()
        word, *words = self.lines[self.read - 1].split(b" ")
        open_ended = bool(form) and form[-1] is None
        ranges = form[:-1] if open_ended else form
        if word != first or len(words) < len(ranges) or (len(words) > len(ranges) and not open_ended):
            raise self.bad()
        try:
            numbers = [number(one, *limits) for one, limits in zip(words, ranges)]
        except ValueError:
            raise self.bad() from None
        return [*numbers, words[len(ranges) :]] if open_ended else numbers

    def points(self, words, count, most=COORDINATE):
        """So many points, no two in a row equal and no coordinate beyond the greatest, which are the rest of the line."""
        if len(words) != 2 * count:
            raise self.bad()
        try:
            numbers = [number(word, -most, most) for word in words]
        except ValueError:
            raise self.bad() from None
        points = list(zip(numbers[::2], numbers[1::2]))
        if any(a == b for a, b in zip(points, points[1:])):
            raise self.bad()
        return points

    def end(self):
        """The line `end`, and nothing after it."""
        self.words(b"end", [])
        if self.read < len(self.lines) or self.rest:
            self.read += 1
            raise self.bad()
