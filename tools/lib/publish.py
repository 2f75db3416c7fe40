"""tools/publish: a map as one file that any web server can give, and the check of such a file."""
import contextlib
import json
import pathlib

import archive_check
import archive_metadata
import metadata
from archive_folder import put, require_folder
from archive_writer import Writer
from command import INPUT, Failure, counted, read_bytes
from map_source import Edited, Served, served_by
from program import Program
from topology import read_topology

TRIES = 3


def main(chosen):
    if chosen.check:
        archive_check.main(chosen)
        return
    folder = pathlib.Path(chosen.folder)
    require_folder(folder)
    source = OfServer(chosen) if chosen.source else OfFile(chosen)
    with source.serving() as served:
        data, told = written(served, source, chosen.faces)
    name = put(folder, data, told)
    print(f"published {folder / name}: {counted(told['faces'], 'face')}, {counted(told['steps'], 'step')}, {counted(len(data), 'byte')}")


def written(served, source, most):
    """The archive of one version of a map and what map.json tells of it. An edit that is published meanwhile makes it begin again."""
    for _ in range(TRIES):
        try:
            writer, text = Writer(served, most), source.metadata(served)
            document = document_of(text, source)
            data, bounds = writer.file(archive_metadata.text_of(document) if text else b"")
            return data, {
                "version": writer.version, "history": served.history, "steps": writer.steps, "faces": writer.faces, "bounds": bounds,
                "transform": document.get("transform") or source.transform(served),
                "metadata": {key: value for key, value in document.items() if key not in ("faces", "areas")} or None}
        except Edited:
            served.forget()
    raise Failure(f"{source.name} was edited {TRIES} times while it was read: publish it again", 1)


def document_of(text, source):
    """The metadata of a map; without a text there are none."""
    def none(constant):
        raise ValueError(constant)

    try:
        # Python knows numbers that JSON has not.
        document = json.loads(text or b"{}", parse_constant=none)
        if not isinstance(document, dict):
            raise ValueError(text)
        return document
    except (ValueError, RecursionError) as error:
        raise Failure(f"the metadata of {source.name} are no JSON object") from error


class OfServer:
    """A map that is served elsewhere."""

    def __init__(self, chosen):
        self.name = chosen.source

    def serving(self):
        return contextlib.closing(Served(self.name))

    @staticmethod
    def metadata(served):
        return served.metadata()

    @staticmethod
    def transform(served):
        return served.transform()


class OfFile:
    """A map of a file."""

    def __init__(self, chosen):
        self.name, self.chosen, self.program = chosen.map, chosen, Program(chosen.program, chosen)
        self.program.asked("check")
        self.topology = read_topology(chosen.map, chosen.object) if chosen.object else None

    def serving(self):
        return served_by(self.program)

    def metadata(self, _):
        """The metadata of a topology: those beside it as they stand there, or else what it tells by itself. A listing has none."""
        if not self.topology:
            return b""
        path = self.chosen.meta or (metadata.path_of(self.chosen.map) if self.chosen.map != INPUT else "none")
        if path != "none" and (self.chosen.meta or path.exists()):
            metadata.read_for(self.topology, path)
            return read_bytes(path)
        told = {"name": pathlib.Path(self.chosen.map).stem, "attribution": "", "crs": metadata.crs_members(self.topology.crs), "steps": None}
        return metadata.text_of(metadata.document_of(self.topology, self.chosen.rules, metadata.of_topology(self.topology), told)).encode()

    def transform(self, served):
        if self.topology:
            return {"scale": list(self.topology.scale), "translate": list(self.topology.translate)}
        return served.transform()
