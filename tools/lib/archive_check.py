"""The check of an archive: its sums, its form, and that each record fits; and where its map is named, that all its windows are those of the map."""
import contextlib
import pathlib

import archive_metadata
from archive_areas import boxes_of
from archive_folder import NAME, name_of
from archive_format import Archive
from archive_writer import Windows, depth_first, undone
from command import Failure, counted, read_bytes, with_progress
from map_source import served_by
from program import Program
from window_records import Unfit, Window
from window_texts import BadText, Texts, without_idle


def main(chosen):
    data = read_bytes(chosen.check)
    name = pathlib.Path(chosen.check).name
    archive = Archive(chosen.check, data)
    if NAME.fullmatch(name) and name != name_of(data):
        raise Failure(f"{chosen.check} is damaged: its name is not that of its bytes, {name_of(data)}")
    with served_by(Program(chosen.program, chosen)) if chosen.map else contextlib.nullcontext() as served:
        Check(archive, served, chosen.map).all()
    index = archive.index
    against = f", each window as the program gives it of {chosen.map}" if chosen.map else ""
    print(f"ok {counted(index.faces, 'face')} {counted(index.steps, 'step')} {counted(len(index.cells), 'cell')}{against}")


class Check:
    """The check of an archive whose sums are sound. `served` is its map, where it is there."""

    def __init__(self, archive, served, name):
        self.archive, self.index, self.served, self.name = archive, archive.index, served, name

    def all(self):
        window = self.first_window()
        if self.served:
            self.compare_map()
        self.metadata()
        windows = Windows(self.index.cells, window)
        for place in with_progress(depth_first(self.index.cells), "cells"):
            window = windows.begin(place)
            self.cell(place, self.index.cells[place], window)
            windows.end(place, window)

    def wrong(self, what):
        return Failure(f"{self.archive.path} is no sound archive: {what}")

    def other(self, what):
        return Failure(f"{self.archive.path} is not the archive of {self.name}: {what}")

    def first_window(self):
        """The window of the first cell at its first step: the slice."""
        texts = Texts(self.archive.text(0))
        try:
            step, faces, edges = texts.slice()
            texts.is_over()
            texts.require(step == self.index.steps and all(not face or face in faces for edge in edges for face in edge[1:3]))
        except BadText as error:
            raise self.wrong(f"{error} in its slice") from error
        return Window(self.index.cells[0].area, step, faces, edges)

    def compare_map(self):
        """The numbers of the map, its slice and its bounds."""
        _, steps, faces = self.served.info()
        if (steps, faces) != (self.index.steps, self.index.faces):
            raise self.other(f"that has {counted(faces, 'face')} and {counted(steps, 'step')}")
        if self.served.slice(steps) != self.archive.text(0):
            raise self.other("its slice is another")
        *_, edges = Texts(self.served.slice(0)).slice()
        if boxes_of(edges).get(0, (0,) * 4) != self.index.cells[0].area:
            raise self.other("that has another box")

    def metadata(self):
        text = self.archive.text(1)
        try:
            document = archive_metadata.document_of(text or b"{}")
            if text and len(document.get("faces", [])) not in (0, self.index.faces):
                raise ValueError(text)
        except (ValueError, TypeError, RecursionError) as error:
            raise self.wrong("its metadata are not those of a map of so many faces") from error

    def cell(self, place, cell, window):
        """A cell: its text is of the form, its records fit, and its window is that of the map in the end."""
        text = self.archive.text(place + 2)
        texts = Texts(text)
        try:
            first, last, area, records = texts.packet()
            told = texts.inside()
            texts.is_over()
            if (first, last, area) != (cell.first, cell.last, cell.area):
                raise self.wrong(f"the packet of cell {place} is not from step {cell.first} to {cell.last} of its area")
            if without_idle(text) != text:
                raise self.wrong(f"cell {place} has records that change nothing")
            found = undone(records, window, last, self.index.faces, self.served.face_at if self.served else lambda step, *_: self.face_told(told, step))
        except BadText as error:
            raise self.wrong(f"{error} in cell {place}") from error
        except Unfit as error:
            raise self.wrong(f"{error} in cell {place}") from error
        if found != told:
            raise (self.other if self.served else self.wrong)(f"cell {place} tells another face inside than there is")
        if self.served and window.text().encode() != self.served.window(last, area):
            raise self.other(f"the window of cell {place} at step {last} is another")

    def face_told(self, rows, step):
        """The face and the class that rows tell of the inside of a cell at a step, at which no face is there that a later step makes."""
        return next((row[1:] for row in reversed(rows) if row[0] >= step and row[1] <= self.index.faces + step), (-1, -1))
