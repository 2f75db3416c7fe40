"""A folder with an archive: which one is the newest is told by map.json, which is switched last, so that whoever reads never finds half of one."""
import contextlib
import fcntl
import hashlib
import json
import os
import re

from archive_format import FORMAT
from archive_metadata import compact
from command import OUTPUT, REFUSED, Failure

MAP, NAME, NEW = "map.json", re.compile(r"map-[0-9a-f]{16}\.archive"), ".tgap-new-"


def name_of(data):
    """The name of an archive, by its bytes: it never stands for two."""
    return f"map-{hashlib.sha256(data).hexdigest()[:16]}.archive"


@contextlib.contextmanager
def locked(folder):
    """The folder, made where it is not there, for one process alone. What a process holds is let go when it ends, however it does."""
    try:
        folder.mkdir(exist_ok=True)
        handle = os.open(folder, os.O_RDONLY | os.O_DIRECTORY)
    except FileExistsError as error:
        raise Failure(f"{folder} is no folder", OUTPUT) from error
    except OSError as error:
        raise Failure(f"{folder} cannot be written: {error.strerror}", OUTPUT) from error
    try:
        fcntl.flock(handle, fcntl.LOCK_EX)
        yield handle
    except OSError as error:
        raise Failure(f"{error.filename or folder} cannot be written: {error.strerror}", OUTPUT) from error
    finally:
        os.close(handle)


def written_whole(path, data):
    """Writes a file beside its place, has it stored, and puts it there. What is left of one that could not be written is taken away."""
    new = path.with_name(f"{NEW}{path.name}")
    try:
        with taken_back(new):
            with open(new, "wb") as file:
                file.write(data)
                file.flush()
                os.fsync(file.fileno())
            os.replace(new, path)
    except OSError as error:
        raise Failure(f"{path} cannot be written: {error.strerror}", OUTPUT) from error


@contextlib.contextmanager
def taken_back(path):
    """Takes a file away where the work on it does not come to its end, whatever the reason is."""
    try:
        yield
    except BaseException:
        path.unlink(missing_ok=True)
        raise


def newest(folder):
    """What map.json tells, or None where it is not there. Another file of this name is not written over."""
    path = folder / MAP
    try:
        told = json.loads(path.read_bytes())
        if not NAME.fullmatch(told["archive"]) or not isinstance(told["format"], int):
            raise ValueError(path)
        return told
    except FileNotFoundError:
        return None
    except OSError as error:
        raise Failure(f"{path} cannot be read: {error.strerror}", OUTPUT) from error
    except (ValueError, TypeError, KeyError) as error:
        raise Failure(f"{path} is not what publish writes, and stays as it is: choose another folder", REFUSED) from error


def require_folder(folder):
    """Refuses a place into which no archive can be put, before there is one."""
    if folder.exists() and not folder.is_dir():
        raise Failure(f"{folder} is no folder", OUTPUT)
    place = folder if folder.exists() else folder.parent
    if not place.is_dir():
        raise Failure(f"{folder} cannot be written: there is no folder {place}", OUTPUT)
    if not os.access(place, os.W_OK):
        raise Failure(f"{folder} cannot be written: you may not write to {place}", OUTPUT)
    newest(folder)


@contextlib.contextmanager
def told_or_gone(folder, name):
    """Takes an archive away that was put into a folder, where the work does not come to its end and map.json does not tell it."""
    try:
        yield
    except BaseException:
        told = newest(folder)
        if not told or told["archive"] != name:
            (folder / name).unlink(missing_ok=True)
        raise


def put(folder, data, told):
    """Puts an archive into a folder and makes it the newest one. The one that was the newest stays, for those who read it; older ones go."""
    name = name_of(data)
    with locked(folder) as handle:
        before = newest(folder)
        # Whoever holds the lock is the only one who writes: these are of processes that were stopped.
        for path in folder.glob(f"{NEW}*"):
            path.unlink()
        document = {"format": FORMAT, "archive": name, "bytes": len(data), **told}
        # One that is there already is read by somebody, perhaps, and stays in any case.
        with contextlib.nullcontext() if (folder / name).exists() else told_or_gone(folder, name):
            written_whole(folder / name, data)
            os.fsync(handle)
            written_whole(folder / MAP, compact(document) + b"\n")
        os.fsync(handle)
        if before and before["archive"] != name:
            for path in folder.iterdir():
                if NAME.fullmatch(path.name) and path.name not in (name, before["archive"]):
                    path.unlink()
    return name
