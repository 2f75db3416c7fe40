"""A checkout of the repository in a folder of its own, with a released executable, for tests that change it and put it back."""
import contextlib
import hashlib
import os
import pathlib
import shutil
import signal
import stat
import subprocess
import tempfile

from lib import SECONDS, TOP

NOBODY = 65534
TOOLCHAIN = "toolchain-of-the-tests logic 0123456789abcdef"
# What the launcher needs of a machine beside its shell: no toolchain, no python3, no git.
TOOLS = ["awk", "cat", "chmod", "cut", "find", "grep", "head", "readlink", "sed", "setpriv", "sha256sum", "sort", "tr", "true", "uname", "wc", "xargs"]
# What a build and the gate need beside these.
BUILD_TOOLS = ["cmp", "cp", "dirname", "git", "install", "mkdir", "mktemp", "nproc", "rm", "setsid", "sh", "sleep", "tail", "tee", "timeout", "touch"]
# What it needs to write its stamp.
STAMP_TOOLS = ["rm", "touch"]
PARTS = ("src", "specs", "proofs")
# That of the system, which needs nothing of its user's environment.
PYTHON = "/usr/bin/python3"


def sum_of(data):
    return hashlib.sha256(data).hexdigest()


def folder_of_tools(folder, names):
    """A folder for PATH with these programs of the system alone."""
    folder.mkdir()
    for name in names:
        found = shutil.which(name)
        if found:
            (folder / name).symlink_to(found)
    return folder


def script(path, text):
    """Writes a shell script."""
    path.write_text(f"#!/bin/sh\n{text}\n", encoding="utf-8")
    path.chmod(0o755)
    return path


def left_out(crates):
    """What is not copied: what was built, what the launcher has nothing to do with, and all crates but these, if any are named."""

    def names(folder, found):
        others = set(found) - set(crates or found) if pathlib.Path(folder) == TOP / "crates" else set()
        return others | ({".git", ".checked", "out", "__pycache__", "docs", "bench", "must-fail"} & set(found))

    return names


def default_signals():
    """Has a new process stopped by the signals that a test sends, which one that was started in the background ignores."""
    for number in (signal.SIGHUP, signal.SIGINT, signal.SIGTERM):
        signal.signal(number, signal.SIG_DFL)


class Checkout:
    """The copy, of all crates or of a few, which are summed sooner. Its path has a blank, and other users may read it."""

    def __init__(self, room, executable, crates=None):
        self.room, self.top = room, room / "a checkout"
        room.mkdir(exist_ok=True)
        room.chmod(0o755)
        shutil.copytree(TOP, self.top, ignore=left_out(crates), copy_function=shutil.copyfile)
        for folder, _, names in os.walk(self.top):
            os.chmod(folder, 0o755)
            for name in names:
                os.chmod(f"{folder}/{name}", 0o644)
        self.executable = pathlib.Path(executable)
        self.launcher, self.released, self.sums = self.top / "tgap", self.top / "release/tgap-x86_64-linux", self.top / "release/SOURCES"
        self.stamp = self.top / "release/.checked"
        self.built = self.top / "crates/map_server/out/map_server"
        for path in (self.launcher, self.top / "release/make", self.top / ".ci/run", *(path for path in (self.top / "tools").iterdir() if path.is_file())):
            path.chmod(0o755)
        self.bare = folder_of_tools(room / "tools", TOOLS)
        self.unbound = folder_of_tools(room / "tools without setpriv", [name for name in TOOLS if name != "setpriv"])
        self.full = folder_of_tools(room / "tools with rt", TOOLS + BUILD_TOOLS)
        self.python = folder_of_tools(room / "tools with python3", [*TOOLS, "dirname"])
        if os.access(PYTHON, os.X_OK):
            (self.python / "python3").symlink_to(PYTHON)
        self.counting = folder_of_tools(room / "tools that count sums", [name for name in TOOLS + STAMP_TOOLS if name != "sha256sum"])
        script(self.counting / "sha256sum", f'echo >>"{room}/sums"\nexec {shutil.which("sha256sum")} "$@"')
        self.release(self.executable.read_bytes())

    def release(self, program):
        """Puts an executable there as the released one of the sources as they are."""
        self.released.write_bytes(program)
        self.released.chmod(0o755)
        self.sums.write_text(self.listing(program), encoding="ascii")

    def sources(self):
        """The names of all sources, in the order of their bytes."""
        parts = [part for crate in (self.top / "crates").iterdir() for part in crate.iterdir() if part.name in PARTS]
        return sorted(str(path.relative_to(self.top)) for part in parts for path in part.rglob("*") if not path.is_dir())

    def source_lines(self):
        return "".join(f"{sum_of((self.top / name).read_bytes())}  {name}\n" for name in ["crates.txt", *self.sources()])

    def listing(self, program):
        """What SOURCES has to be, but for its first line."""
        return f"# a line of words\n# toolchain {TOOLCHAIN}\n{sum_of(program)}  release/tgap-x86_64-linux\n{self.source_lines()}"

    def start(self, *words, tools=None, folder=None, **how):
        how = {"stdin": subprocess.DEVNULL, "stdout": subprocess.PIPE, "stderr": subprocess.PIPE, "preexec_fn": default_signals, **how}
        environment = {"PATH": str(tools or self.bare), "LANG": "C.UTF-8", **how.pop("more", {})}
        return subprocess.Popen([how.pop("launcher", self.launcher), *words], cwd=folder or self.top, env=environment, **how)

    def run(self, *words, **how):
        """Status, standard output and standard error of the launcher on these words."""
        with self.start(*words, **how) as started:
            out, said = started.communicate(timeout=SECONDS)
        return started.returncode, out, said.decode()

    @contextlib.contextmanager
    def altered(self, path, data=None):
        """A file with other bytes, or none, until the end of a test."""
        path = self.top / path
        was = (path.read_bytes(), path.stat()) if path.exists() else None
        if data is None:
            path.unlink(missing_ok=True)
        else:
            path.write_bytes(data)
        try:
            yield
        finally:
            path.unlink(missing_ok=True)
            if was:
                path.write_bytes(was[0])
                path.chmod(stat.S_IMODE(was[1].st_mode))
                os.utime(path, ns=(was[1].st_atime_ns, was[1].st_mtime_ns))

    @contextlib.contextmanager
    def moved(self, path, to=None):
        """A file or folder elsewhere, by default outside, until the end of a test."""
        path, to = self.top / path, self.top / to if to else self.room / "moved"
        path.rename(to)
        try:
            yield
        finally:
            to.rename(path)

    @contextlib.contextmanager
    def toolchain(self, text):
        """A stand-in for the toolchain's command: what it does is the text of a shell script, and RT_CALLS lists its calls."""
        rt = script(self.full / "rt", f'echo "$*" >>"{self.room}/calls"\n[ "$1" != version ] || {{ echo "{TOOLCHAIN}"; exit; }}\n{text}')
        (self.room / "calls").write_text("", encoding="ascii")
        try:
            yield
        finally:
            rt.unlink()
            shutil.rmtree(self.built.parent, ignore_errors=True)

    def calls(self):
        return (self.room / "calls").read_text(encoding="ascii").splitlines()

    def counted(self, *words, **how):
        """What the launcher answers on these words, where it may write a stamp, and whether it took sums."""
        counts = self.room / "sums"
        counts.write_bytes(b"")
        counts.chmod(0o666)
        return self.run(*words, tools=self.counting, **how), counts.read_bytes() != b""

    def leaves(self, executable=None):
        """What a stand-in does to leave an executable where the toolchain does."""
        return f'mkdir -p "{self.built.parent}" && cp "{executable or self.executable}" "{self.built}" && chmod 755 "{self.built}"'


@contextlib.contextmanager
def checkouts(executable):
    """A copy with a few crates, and one with all of them."""
    with tempfile.TemporaryDirectory(prefix="launcher-") as room:
        os.chmod(room, 0o755)
        room = pathlib.Path(room)
        yield Checkout(room / "few", executable, ["lemmas", "tgap_model", "map_server"]), Checkout(room / "all", executable)
