"""Runs the program with one call refused, by the library that refuse.c makes."""
import pathlib
import shutil
import subprocess

from lib import Skipped

HERE = pathlib.Path(__file__).resolve().parent


def make_library(folder):
    """Makes the library in a folder."""
    compiler = shutil.which("cc")
    if not compiler:
        raise Skipped("there is no C compiler")
    subprocess.run([compiler, "-O1", "-shared", "-fPIC", "-o", f"{folder}/refuse.so", HERE / "refuse.c", "-ldl"], check=True)


class Refusing:
    """Runs the program in a folder that has the library, with one call of a kind refused; of those that move bytes
    it is one of this name, where one is given."""

    def __init__(self, executable, folder, kind, of=None):
        self.executable, self.folder, self.kind, self.of = executable, pathlib.Path(folder), kind, of

    def start(self, words, call):
        self.told = self.folder / "told"
        self.told.unlink(missing_ok=True)
        wanted = {"LD_PRELOAD": str(self.folder / "refuse.so"), "REFUSE_KIND": self.kind, "REFUSE_CALL": str(call), "REFUSE_TOLD": str(self.told)}
        wanted |= {"REFUSE_OF": self.of} if self.of else {}
        streams = {"stdin": subprocess.DEVNULL, "stdout": subprocess.PIPE, "stderr": subprocess.STDOUT}
        return subprocess.Popen([self.executable, *words], env=wanted, cwd=self.folder, **streams)

    def has_come(self):
        """Whether the call that was to be refused came."""
        return self.told.exists()
