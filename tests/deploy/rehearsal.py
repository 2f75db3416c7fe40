"""The commands of docs/deployment.md, run as they stand in a copy of this machine's folders and in a network of its own, where `systemctl` is the one beside this file."""
import os
import pathlib
import re
import shutil
import subprocess
import tempfile

from front import PATH, PROXY, TOP, tool
from lib import Skipped

TOOLS = ["nginx", "openssl", "jq", "curl", "unshare", "nsenter", "setpriv", "prlimit", "ip", "useradd", "systemd-socket-activate"]
FOLDERS = ["/etc", "/usr/local", "/srv", "/var", "/run"]
SECONDS = 300
# The last line tells that all of it has been done; the ports are asked for from outside the program's network. The front
# server learns of the last life a moment after it has begun.
AFTER = r"""
echo "stands $(stat -c '%U %G %a' /srv/tgap/maps /etc/tgap/editors /run/tgap/columbus/*.sock | tr '\n' ' ')"
curl -fsS --retry 20 --retry-delay 1 --cacert /etc/tgap/certificate.pem --resolve "$NAME:443:127.0.0.1" "https://$NAME/map/info"
curl -sS --cacert /etc/tgap/certificate.pem --resolve "$NAME:443:127.0.0.1" -o page "https://$NAME/" && cmp page examples/web/index.html && echo 'the page'
curl -sS --cacert /etc/tgap/certificate.pem --resolve "$NAME:443:127.0.0.1" -o known "https://$NAME/map/meta.json" && cmp known examples/columbus.meta.json && echo 'the metadata'
for path in run nginx.conf settings.py; do
    curl -sS --cacert /etc/tgap/certificate.pem --resolve "$NAME:443:127.0.0.1" -o /dev/null -w "$path %{http_code}\n" "https://$NAME/$path"
done
curl -sS http://127.0.0.1:8080/info 2>/dev/null || echo 'the port is closed'
ps -o user= -C tgap | sort | uniq -c | tr -s ' '
tar -tzf /var/backups/tgap.tar.gz | grep -c -e columbus.json -e editors -e batches.log -e columbus/journal
"""
SAID = [
    r"ok faces 49 arcs 134 points 877", r"version 0 steps 48 faces 49 .*", r"version 0 steps 48 faces 49 .*", r"published 1", r" *entry .*", r" *0 +1 +0 .*", r"1 entry, 1 edit; .*",
    r"stands root tgap 750 root www-data 640 tgap www-data 660 ", r"version 1 steps 48 faces 49 .*", r"the page", r"the metadata", r"run 404", r"nginx.conf 404", r"settings.py 404",
    r"the port is closed", r" 1 tgap", r"4",
]


def rehearsal(tests):
    missing = [name for name in TOOLS if not tool(name)] + [name for name in [PROXY] if not pathlib.Path(name).exists()]
    if missing or os.geteuid() != 0:
        raise Skipped(f"{', '.join(missing)} missing" if missing else "it wants the rights of root")
    with tempfile.TemporaryDirectory(prefix="tgap-rehearsal-") as folder:
        room = pathlib.Path(folder)
        room.chmod(0o755)
        (room / "script").write_text(script(room))
        lay_out(room, tests.executable)
        words = [tool("unshare"), "-m", "-n", "-p", "-f", "--kill-child", "--mount-proc", "sh", "-eu", room / "script"]
        told = subprocess.run([str(word) for word in words], capture_output=True, text=True, timeout=SECONDS, check=False, cwd=room / "repository",
                              env={**os.environ, "PATH": f"{room}/bin:{PATH}"})
        if "no folder of its own" in told.stderr:
            raise Skipped("there are no file systems over others")
        said = told.stdout.splitlines()
        tests.same("the commands of docs/deployment.md", (told.returncode, len(said), told.stderr[-500:] if told.returncode else ""), (0, len(SAID), ""))
        for line, wanted in zip(said, SAID):
            tests.holds(f"the document's commands say {wanted}", re.fullmatch(wanted, line), line)


def commands():
    """The document's, and what tells that all of it has been done."""
    return "".join(re.findall(r"^```sh\n([\s\S]*?)^```$", (TOP / "docs/deployment.md").read_text(), re.MULTILINE)) + AFTER


def script(room):
    """The document's commands, after a network and folders of their own."""
    own = "".join(f"mkdir -p {room}/over{path} {room}/work{path}\n"
                  f"mount -t overlay overlay -o lowerdir={path},upperdir={room}/over{path},workdir={room}/work{path} {path} || {{ echo no folder of its own >&2; exit 1; }}\n"
                  for path in FOLDERS)
    return own + "ip link set lo up\n" + commands()


def lay_out(room, executable):
    """A copy of what the document takes from the repository, and the tools that stand in for the system's."""
    repository = room / "repository"
    for name in ["deploy", "examples", "clients", "tools"]:
        if (TOP / name).exists():
            shutil.copytree(TOP / name, repository / name)
    shutil.copy(TOP / "VERSION", repository)
    (repository / "release").mkdir()
    shutil.copy(executable, repository / "release/tgap-x86_64-linux")
    (room / "bin").mkdir()
    shutil.copy(pathlib.Path(__file__).with_name("systemctl"), room / "bin")
    # What is to be installed must be there.
    (room / "bin/apt-get").write_text('#!/bin/sh\n[ "$1" = update ] || { shift 2; dpkg -s "$@" >/dev/null; }\n')
    (room / "bin/apt-get").chmod(0o755)
