"""Writes the texts of an archive: everything in them is asked from the program, as it serves one version of a map."""
from archive_areas import cells_of, tree_of
from archive_format import file_of
from archive_inside import Inside, inside_text
from command import Failure, with_progress
from window_records import Unfit, Window
from window_texts import BadText, Texts, without_idle

# Far from all borders a packet has the faces of each step and little else.
AWAY = (2**31,) * 4


def depth_first(cells):
    """The places of the cells, each before its children, and these before what stands beside it; so few windows are held at a time."""
    waiting = [0]
    while waiting:
        place = waiting.pop()
        yield place
        if cells[place].child:
            waiting += range(cells[place].child + 3, cells[place].child - 1, -1)


def parents_of(cells):
    """The place of the cell of which each is a part."""
    parents = [None] * len(cells)
    for place, cell in enumerate(cells):
        if cell.child:
            parents[cell.child : cell.child + 4] = [place] * 4
    return parents


class Windows:
    """The windows of the cells, from that of the first one on: each begins as a part of what its parent's has become."""

    def __init__(self, cells, first):
        self.cells, self.parents, self.first = cells, parents_of(cells), first
        # What a cell's window has become, and how many of its children still want it.
        self.ended = {}

    def begin(self, place):
        """The window of a cell at its first step."""
        parent = self.parents[place]
        if parent is None:
            return self.first
        window = self.ended[parent].part(self.cells[place].area)
        if place == self.cells[parent].child + 3:
            del self.ended[parent]
        return window

    def end(self, place, window):
        if self.cells[place].child:
            self.ended[place] = window


def undone(records, window, last, faces, ask):
    """Undoes the records of a cell on its window, which then is at its last step. Gives the rows of its inside."""
    inside = Inside(window, faces, ask)
    for record in records:
        inside.go_on(record.step)
        window.step = record.step
        inside.follow(record, window.undo(record))
    inside.go_on(last)
    window.step = last
    return inside.rows


class Writer:
    """An archive of one version of a map."""

    def __init__(self, served, most):
        self.served, self.most = served, most
        self.version, self.steps, self.faces = served.info()

    def cells(self):
        """The cells of the map, by all its steps and its slice before them."""
        *_, records = Texts(self.served.packet(self.steps, 0, AWAY)).packet()
        _, faces, edges = Texts(self.served.slice(0)).slice()
        return cells_of(tree_of(records, edges), faces, self.most)

    def text_of(self, cell, window):
        """The text of a cell, given its window, which then is that of its last step."""
        packet = without_idle(self.served.packet(cell.first, cell.last, cell.area))
        *_, records = Texts(packet).packet()
        return packet + inside_text(undone(records, window, cell.last, self.faces, self.served.face_at))

    def file(self, metadata):
        """The bytes of the archive, and its bounds."""
        try:
            cells, text = self.cells(), self.served.slice(self.steps)
            _, faces, edges = Texts(text).slice()
            windows, texts = Windows(cells, Window(cells[0].area, self.steps, faces, edges)), [b""] * len(cells)
            for place in with_progress(depth_first(cells), "cells"):
                window = windows.begin(place)
                texts[place] = self.text_of(cells[place], window)
                windows.end(place, window)
        except (BadText, Unfit) as error:
            raise Failure(f"what the server answers is no map: {error}", 1) from error
        return file_of(self.steps, self.faces, cells, [text, metadata, *texts]), cells[0].area
