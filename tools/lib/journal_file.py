"""A journal's file: held by one program at a time, and replaced so that a crash at any moment leaves the old journal or the new one, whole."""
import contextlib
import fcntl
import os
import pathlib
import stat
import time

from command import FILE, OUTPUT, Failure

NEW, BEFORE = ".tgap-joined-", ".before"
# Rights of single users, beside those of a file's owner and group.
RIGHTS = "system.posix_acl_access"
# For how many seconds the old file is held after the new one has taken its place.
PAUSE = 1


@contextlib.contextmanager
def held(path):
    """A journal that is opened and held as the program does it: its real path, to which links lead, its handle and its bytes. No program can open it
    meanwhile."""
    real = pathlib.Path(os.path.realpath(path))
    try:
        handle = os.open(real, os.O_RDWR | os.O_NONBLOCK)
    except OSError as error:
        raise Failure(f"{path} cannot be opened: {error.strerror}", FILE) from error
    with os.fdopen(handle, "rb") as file:
        if not stat.S_ISREG(os.fstat(handle).st_mode):
            raise Failure(f"{path} is no file of bytes", FILE)
        try:
            fcntl.flock(handle, fcntl.LOCK_EX | fcntl.LOCK_NB)
            # Another join may have put a new file there before this one could hold the old.
            if not os.path.samestat(os.fstat(handle), os.stat(real)):
                raise Failure(f"{path} was replaced meanwhile: try again", FILE)
            data = file.read()
        except BlockingIOError as error:
            raise Failure(f"{path} is held by another program: stop the server of this journal first", FILE) from error
        except OSError as error:
            raise Failure(f"{path} cannot be held and read: {error.strerror}", FILE) from error
        yield real, handle, data


def replace(real, handle, data):
    """Puts a journal with these bytes in the place of the one that is held, which stays beside it until this is called again. At each moment the name leads
    to one of the two, whole and stored."""
    new, before = real.with_name(f"{NEW}{real.name}"), real.with_name(f"{real.name}{BEFORE}")
    with folder_of(real) as folder:
        try:
            write_stored(new, data, handle)
            before.unlink(missing_ok=True)
            os.link(real, before)
            # The old one has its second name for good before it loses the first.
            os.fsync(folder)
            os.replace(new, real)
        except OSError as error:
            with contextlib.suppress(OSError):
                new.unlink(missing_ok=True)
            raise Failure(f"{error.filename or real} cannot be written: {error.strerror}; the journal is as it was", OUTPUT) from error
        try:
            os.fsync(folder)
        except OSError as error:
            raise Failure(f"{real} is joined, and the old one is {before}; but {real.parent} could not be stored ({error.strerror}), so a crash of the machine "
                          "may bring the old one back", OUTPUT) from error
        finally:
            # A program that opened the old file just before, and has not asked for its lock yet, finds it held still, and ends.
            time.sleep(PAUSE)
    return before


@contextlib.contextmanager
def folder_of(real):
    """The folder of a file, open to be stored."""
    try:
        folder = os.open(real.parent, os.O_RDONLY | os.O_DIRECTORY)
    except OSError as error:
        raise Failure(f"{real.parent} cannot be opened: {error.strerror}; the journal is as it was", OUTPUT) from error
    try:
        yield folder
    finally:
        os.close(folder)


def write_stored(new, data, old):
    """Writes a file with the owner and the rights of an open one, so that who could open that can open this, and has it stored."""
    new.unlink(missing_ok=True)
    with open(os.open(new, os.O_WRONLY | os.O_CREAT | os.O_EXCL | os.O_NOFOLLOW, 0o600), "wb") as file:
        file.write(data)
        file.flush()
        owner = os.fstat(old)
        os.fchown(file.fileno(), owner.st_uid, owner.st_gid)
        # After the owner, since a change of that takes rights away; and by the open file, since its name may lead elsewhere by then.
        os.fchmod(file.fileno(), stat.S_IMODE(owner.st_mode))
        if RIGHTS in names_of_more(old):
            os.setxattr(file.fileno(), RIGHTS, os.getxattr(old, RIGHTS))
        os.fsync(file.fileno())


def names_of_more(handle):
    """The names of what a file has beside its bytes; none where its file system knows of no such thing."""
    try:
        return os.listxattr(handle)
    except OSError:
        return []
