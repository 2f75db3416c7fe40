"""The commands of docs/deployment.md and the units of deploy/ with systemd itself: a copy of this machine's folders, in
memory, is booted in a container with a network of its own, and inside.py works in it."""
import contextlib
import json
import os
import pathlib
import shutil
import signal
import subprocess
import tempfile

import rehearsal
from front import PATH, PROXY, TOP, tool, until
from large_map import written
from lib import Skipped

TOOLS = ["systemd-nspawn", "systemctl", "nginx", "openssl", "jq", "curl", "setpriv", "unshare", "mount", "useradd", "systemd-socket-activate"]
SECONDS = 900
OWN_NAME = f"tgap-booted-{os.getpid()}"
# Cells a side of a map whose edit takes two seconds or more.
LARGE = 147
# Nothing of the machine is changed: what is written goes to the memory that is mounted here alone.
BOOT = r"""
mount -t tmpfs tmpfs "$ROOM/memory"
mkdir "$ROOM/memory/over" "$ROOM/memory/work" "$ROOM/memory/root"
mount -t overlay overlay -o "lowerdir=/,upperdir=$ROOM/memory/over,workdir=$ROOM/memory/work" "$ROOM/memory/root" || { echo no folder of its own; exit 9; }
mkdir -p /run/systemd/nspawn
mount -t tmpfs tmpfs /run/systemd/nspawn
cd "$ROOM/memory/root"
: >etc/fstab
rm -rf etc/systemd/system/*.wants etc/systemd/system/tgap* etc/tgap var/log/tgap srv/tgap
cp "$ROOM"/units/* etc/systemd/system
ln -sf /etc/systemd/system/booted.target etc/systemd/system/default.target
[ -s etc/machine-id ] || echo 0123456789abcdef0123456789abcdef >etc/machine-id
# It ends with this status where the machine in it is to begin again.
again=133 status=133
while [ $status = $again ]; do
    status=0
    systemd-nspawn --quiet --boot --directory="$ROOM/memory/root" --machine="$MACHINE" --private-network --register=no --keep-unit \
        --link-journal=no --bind="$ROOM/shared:/shared" --bind="$ROOM/repository:/repository" || status=$?
done
"""
TARGET = "[Unit]\nRequires=basic.target booted.service\nAfter=basic.target\n"
SERVICE = """[Unit]
After=basic.target
[Service]
Type=oneshot
# Where each resource has control groups of its own, those of memory are not given to the container.
ExecStartPre=-/bin/sh -c '[ ! -d /sys/fs/cgroup/memory ] || { mount -o remount,bind,rw /sys/fs/cgroup/memory && systemctl daemon-reexec; }'
ExecStart=/usr/bin/python3 -B /repository/tests/deploy/inside.py
StandardOutput=append:/shared/said
StandardError=append:/shared/said
TimeoutStartSec=infinity
# It has set off itself where the machine is to begin again.
ExecStopPost=/bin/sh -c '[ -e /shared/boots ] || systemctl --no-block poweroff'
"""


def booted(tests):
    missing = [name for name in TOOLS if not tool(name)] + [name for name in [PROXY] if not pathlib.Path(name).exists()]
    if missing or os.geteuid() != 0:
        raise Skipped(f"{', '.join(missing)} missing" if missing else "it wants the rights of root")
    with tempfile.TemporaryDirectory(prefix="tgap-booted-") as folder, groups_of_its_own() as enter:
        room = pathlib.Path(folder)
        lay_out(room, tests.executable)
        console = boot(room, enter)
        said, told = [text_of(room / "shared" / name) for name in ["said", "told"]]
        if not said and not told:
            raise Skipped(f"no container can be booted: {console[-300:]}")
        count(tests, [json.loads(line) for line in told.splitlines()], said)


def text_of(path):
    return path.read_text() if path.exists() else ""


def count(tests, told, said):
    for name, *results in told:
        if len(results) == 2:
            tests.same(f"booted: {name}", *results)
        else:
            tests.skip(f"booted: {name}", *results)
    tests.holds("booted: all of it was done", told and told[-1][0] == "the end", said[-300:])


def lay_out(room, executable):
    for name in ["memory", "shared", "units"]:
        (room / name).mkdir()
    rehearsal.lay_out(room, executable)
    (room / "repository/tests").mkdir()
    shutil.copytree(TOP / "tests/deploy", room / "repository/tests/deploy")
    shutil.copy(TOP / "tests/lib.py", room / "repository/tests")
    shutil.copytree(TOP / "docs", room / "repository/docs")
    (room / "shared/bin").mkdir()
    shutil.move(room / "bin/apt-get", room / "shared/bin")
    (room / "shared/script").write_text(rehearsal.commands())
    written(room / "shared", LARGE)
    (room / "units/booted.target").write_text(TARGET)
    (room / "units/booted.service").write_text(SERVICE)


def boot(room, enter):
    """What the container says of itself, when it has gone."""
    how = {"stdin": subprocess.DEVNULL, "stdout": subprocess.PIPE, "stderr": subprocess.STDOUT, "text": True, "start_new_session": True, "preexec_fn": enter}
    # All of it ends with this process, whatever ends that.
    words = [tool("setpriv"), "--pdeathsig", "KILL", tool("unshare"), "-m", "-p", "-f", "--kill-child", "--mount-proc", "sh", "-eu", "-c", BOOT]
    environment = {**os.environ, "PATH": PATH, "ROOM": str(room), "MACHINE": OWN_NAME}
    with subprocess.Popen(words, env=environment, **how) as container:
        try:
            return container.communicate(timeout=SECONDS)[0]
        except subprocess.TimeoutExpired:
            os.killpg(container.pid, signal.SIGKILL)
            return container.communicate()[0]


@contextlib.contextmanager
def groups_of_its_own():
    """What has the calling process leave this one's control groups for new ones below, in which the container makes its
    own."""
    made = list(new_groups(OWN_NAME))

    def enter():
        for group in made:
            (group / "cgroup.procs").write_text("0")

    try:
        yield enter
    finally:
        for group in made:
            until(lambda group=group: is_gone(group), 10)


def is_gone(group):
    """Whether a group could be taken away with those in it, as it can when no process is left in them."""
    for folder, _, _ in os.walk(group, topdown=False):
        with contextlib.suppress(OSError):
            os.rmdir(folder)
    return not group.exists()


def new_groups(name):
    """One in each hierarchy that systemd uses, where that may be made."""
    top = pathlib.Path("/sys/fs/cgroup")
    places = {"memory": top / "memory", "name=systemd": top / "systemd", "": top / "unified" if (top / "unified").exists() else top}
    for line in pathlib.Path("/proc/self/cgroup").read_text().splitlines():
        _, kind, path = line.split(":", 2)
        with contextlib.suppress(OSError, KeyError):
            group = places[kind] / path.lstrip("/") / name
            group.mkdir()
            yield group
