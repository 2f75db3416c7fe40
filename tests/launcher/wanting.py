"""What the launcher and tests/run say on a system that has no GNU C library, or an older one: in a root of nothing but busybox, and with a loader that
tells another version."""
import os
import pathlib
import re
import shutil
import subprocess

from checkout import script
from lib import SECONDS, TOP, Skipped

BUSYBOX = "/bin/busybox"
WORDS = ["borders", "examples/two_squares.tgap", "1"]


def is_static(path):
    """Whether a program wants no loader: it has no name of one."""
    return os.access(path, os.X_OK) and b"/ld-linux" not in pathlib.Path(path).read_bytes()[:4096]


def lay_out(tests):
    """A root with busybox and a copy of the launcher and of tests/run."""
    room = tests.checkout.room / "busybox root"
    (room / "bin").mkdir(parents=True)
    shutil.copy(BUSYBOX, room / "bin/busybox")
    for name in subprocess.run([BUSYBOX, "--list"], capture_output=True, text=True, check=True).stdout.split():
        if name != "busybox":
            (room / "bin" / name).symlink_to("busybox")
    for name in ("proc", "tmp", "lib64", "dev"):
        (room / name).mkdir()
    (room / "dev/null").touch()
    shutil.copytree(tests.checkout.top, room / "checkout", ignore=shutil.ignore_patterns("crates"))
    # Without its sources the copy is what a package has.
    (room / "checkout/crates.txt").unlink()
    shutil.copytree(TOP / "tests", room / "checkout/tests", dirs_exist_ok=True, ignore=shutil.ignore_patterns("__pycache__"))
    (room / "checkout/tests/run").chmod(0o755)
    return room


def within(room, *words):
    """Status and texts of a command in the root."""
    inside = 'cd /checkout && exec "$@"'
    enter = ["unshare", "-r", "-m", "sh", "-c", 'mount --bind /dev/null "$0/dev/null" && exec chroot "$0" /bin/sh -c "$@"', room, inside, "sh", *words]
    return subprocess.run(enter, capture_output=True, text=True, timeout=SECONDS, check=False, env={"PATH": "/bin:/usr/bin:/usr/sbin:/sbin"})


def tells_of_the_library(tests):
    if not is_static(BUSYBOX):
        raise Skipped("there is no static busybox (apt-get install busybox-static)")
    room = lay_out(tests)
    if within(room, "true").returncode:
        raise Skipped("nobody may enter another root here")
    made = within(room, "./tgap", *WORDS)
    tests.same("without a C library", (made.returncode, made.stdout), (1, ""))
    tests.same("its sentence", made.stderr, "tgap: this system has no GNU C library (/lib64/ld-linux-x86-64.so.2 is missing), and the program wants it, in version 2.34 or newer\n")
    for words, text in ((["--help"], "\n      ./tgap borders "), (["--version"], "tgap "), (["slice", "-h"], "usage: ./tgap slice ")):
        made = within(room, "./tgap", *words)
        tests.same(f"{words} there", (made.returncode, text in made.stdout, made.stderr), (0, True, ""))
    made = within(room, "./tests/run")
    # Each suite is skipped, and counts once.
    suites = re.split("[ ,]", re.search(r'^rows="(.*)"$', (TOP / "tests/run").read_text(encoding="utf-8"), re.MULTILINE)[1])
    tests.same("tests/run there", (made.returncode, made.stdout.splitlines()[-1:]), (0, [f"0 passed, 0 failed, {len(suites)} skipped"]))
    tests.same("tests/run says why", "no GNU C library" in made.stdout, True)
    loader = room / "lib64/ld-linux-x86-64.so.2"
    for told, wanted in (("ld.so (GNU libc) stable release version 2.31.", "2.31"), ("ld.so (Debian GLIBC 2.33-7) stable release version 2.33.", "2.33")):
        script(loader, f'echo "{told}"')
        made = within(room, "./tgap", *WORDS)
        tests.same(f"with the C library {wanted}", (made.returncode, made.stdout, made.stderr.startswith(f"tgap: the GNU C library here is version {wanted}, and")), (1, "", True))
    # One before 2.33 does not know the word; getconf tells its version.
    script(loader, "exit 127")
    script(room / "bin/getconf", 'echo "glibc 2.28"')
    tests.same("with one that does not tell", "here is version 2.28, and" in within(room, "./tgap", *WORDS).stderr, True)
    for told in ("ld.so (GNU libc) stable release version 2.34.", "ld.so (Ubuntu GLIBC 2.39-0ubuntu8) stable release version 2.39.", "musl libc (x86_64)", "ld.so version 3.0."):
        script(loader, f'echo "{told}"')
        tests.same(f"with {told!r} the program is run", "C library here is" in within(room, "./tgap", *WORDS).stderr, False)


TESTS = [tells_of_the_library]
