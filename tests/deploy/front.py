"""The program with a front server before it, as the tests of deploy/ want them: nginx with deploy/nginx.conf, in which
ports and folders are exchanged, and examples/web/run as it stands."""
import base64
import contextlib
import http.client
import os
import pathlib
import re
import resource
import shutil
import signal
import socket
import ssl
import subprocess
import sys
import tempfile
import time

sys.path.insert(0, str(pathlib.Path(__file__).resolve().parents[1]))
import lib  # noqa: E402
from lib import SECONDS, TOP, free_port  # noqa: E402

NAME = "map.example"
PASSWORD = {"Authorization": "Basic " + base64.b64encode(b"anna:secret").decode()}
PATH = os.environ.get("PATH", "") + ":/usr/local/sbin:/usr/sbin:/sbin"
PROXY = "/lib/systemd/systemd-socket-proxyd"
HISTORY = "0123456789abcdef"
COLUMBUS = [TOP / "examples/columbus.json", "areas", TOP / "examples/columbus.rules.json"]


def tool(name):
    """Where a tool is, or None."""
    return shutil.which(name, path=PATH)


def until(holds, seconds=SECONDS):
    """Whether something comes to hold in time."""
    end = time.monotonic() + seconds
    while not (held := holds()) and time.monotonic() < end:
        time.sleep(0.02)
    return held


def listens(port):
    with socket.socket() as one:
        return one.connect_ex(("127.0.0.1", port)) == 0


def has_ipv6():
    with contextlib.suppress(OSError), socket.socket(socket.AF_INET6) as one:
        one.bind(("::1", 0))
        return True
    return False


HAS_IPV6 = has_ipv6()


class Running:
    """A process with a group of its own, which is stopped at the end."""

    def __init__(self, words, **rest):
        self.process = subprocess.Popen([str(word) for word in words], start_new_session=True, **{"stdin": subprocess.DEVNULL, **rest})

    def __enter__(self):
        return self

    def __exit__(self, *_):
        self.stop()

    def stop(self, by=signal.SIGTERM):
        if self.process.poll() is None:
            os.killpg(self.process.pid, by)
        self.process.wait(SECONDS)


class Program(lib.Server):
    """The program, serving a map: `words` are the map, its object and its rules."""

    def __init__(self, executable, words, workers=4, versions=16, under=()):
        super().__init__(executable, words[0], workers, versions, words[1:], under)

    @contextlib.contextmanager
    def limited_address_space(self):
        """Lets it have no more than it has, for a while."""
        has = int(re.search(r"VmSize:\s+(\d+) kB", pathlib.Path(f"/proc/{self.process.pid}/status").read_text())[1]) << 10
        before = resource.prlimit(self.process.pid, resource.RLIMIT_AS)
        resource.prlimit(self.process.pid, resource.RLIMIT_AS, (has, before[1]))
        yield
        resource.prlimit(self.process.pid, resource.RLIMIT_AS, before)

    def ask(self, method, path, body=None):
        """Past the front server."""
        return answer_of(http.client.HTTPConnection("127.0.0.1", self.port, timeout=SECONDS), method, path, body)


class Answer:
    def __init__(self, status, headers, text):
        self.status, self.headers, self.text = status, headers, text

    @property
    def told(self):
        return self.status, self.text


def answer_of(client, method, path, body=None, headers=None, close=True):
    try:
        client.request(method, path, body, headers or {})
        reply = client.getresponse()
        return Answer(reply.status, reply.headers, reply.read())
    finally:
        if close:
            client.close()


def version_of(text):
    """The version that a reply to /info tells."""
    return int(re.match(rb"version (\d+) ", text)[1])


def exchanged(text, pairs):
    """The text with each first word of a pair, which must be in it, replaced by the second."""
    for old, new in pairs:
        if old not in text:
            raise OSError(f"there is no '{old}' to be exchanged")
        text = text.replace(old, str(new))
    return text


# Where programs have ports and no sockets the link leads to a file of the token in a folder of the port.
PLACE = """map $realpath_root $spot_of_{of} {{
    default "";
    "~^(.*)$" $1;
}}
map $spot_of_{of} $place_of_{of} {{
    default 127.0.0.1:{nobody};
    "~^{room}/run/p([0-9]+)/" 127.0.0.1:$1;
}}
"""


def temporary_folders(room):
    return "".join(f"{name}_temp_path {room}/{name};\n" for name in ["client_body", "proxy", "fastcgi", "uwsgi", "scgi"])


class Front(Running):
    """nginx with deploy/nginx.conf. `upstream` is the port of the program of the one map, the ports of the programs by
    the names of the maps, or the folder that stands for /run/tgap."""

    def __init__(self, upstream, change=lambda text: text):
        self.room = pathlib.Path(tempfile.mkdtemp(prefix="tgap-front-"))
        # Where root starts nginx, its workers are another user.
        self.room.chmod(0o755)
        self.plain, self.port = free_port(), free_port()
        for folder in ["etc", "log", "page", "acme", "run"]:
            (self.room / folder).mkdir()
        (self.room / "page/index.html").write_text("the page\n")
        (self.room / "page/meta.json").write_text("what is known\n")
        make_certificate(self.room / "etc")
        make_password(self.room / "etc/editors")
        if isinstance(upstream, pathlib.Path):
            own, of_programs = "", [("/run/tgap/", f"{upstream}/")]
        else:
            for name, port in (upstream if isinstance(upstream, dict) else {"columbus": upstream}).items():
                self.begin(name, port, HISTORY)
            own = "".join(PLACE.format(of=of, room=self.room, nobody=free_port()) for of in ["history", "later"])
            sockets = [("sock", "history"), ("edits", "history"), ("sock", "later")]
            of_programs = [*((f"unix:/run/tgap/$map/${of}.{way}", f"$place_of_{of}") for way, of in sockets),
                           *((f"map $realpath_root ${of} ", f"map $spot_of_{of} ${of} ") for of in ["history", "later"]), ("/run/tgap/", f"{self.room}/run/")]
        text = exchanged(change((TOP / "deploy/nginx.conf").read_text()), [
            ("pid /run/nginx.pid", f"daemon off;\npid {self.room}/pid"), ("http {", "http {\n" + own + temporary_folders(self.room)),
            ("/var/log/nginx/", f"{self.room}/log/"), ("/var/log/tgap/", f"{self.room}/log/"), ("/etc/tgap/", f"{self.room}/etc/"),
            ("/srv/tgap/page", f"{self.room}/page"), ("/var/www/acme", f"{self.room}/acme"), *of_programs,
            *([("listen [::]:80", f"listen [::1]:{self.plain}"), ("listen [::]:443", f"listen [::1]:{self.port}")] if HAS_IPV6 else []),
            ("listen 80", f"listen 127.0.0.1:{self.plain}"), ("listen 443", f"listen 127.0.0.1:{self.port}"),
        ])
        self.conf = self.room / "nginx.conf"
        self.conf.write_text(text if HAS_IPV6 else re.sub(r"\n *listen \[::\].*", "", text))
        self.words = [tool("nginx"), "-e", self.room / "log/error.log", "-p", self.room, "-c", self.conf]
        super().__init__(self.words, stderr=subprocess.DEVNULL)
        if not until(lambda: listens(self.port) or self.process.poll() is not None) or self.process.poll() is not None:
            why = (self.room / "log/error.log").read_text()
            self.stop()
            raise OSError(f"nginx does not start: {why}")

    def begin(self, name, port, history):
        """Has the link of a map lead to a history, and to the port of its program."""
        link, place = self.room / "run" / name, self.room / f"run/p{port}"
        for folder in [link, place]:
            folder.mkdir(exist_ok=True)
        (place / history).touch()
        (link / "new").symlink_to(place / history)
        os.replace(link / "new", link / "history")

    def stop(self, by=signal.SIGTERM):
        super().stop(by)
        shutil.rmtree(self.room, ignore_errors=True)

    def tested(self):
        """What `nginx -t` says, status and text."""
        told = subprocess.run([str(word) for word in [*self.words, "-t"]], capture_output=True, text=True, check=False)
        return told.returncode, told.stderr

    def socket(self, source="127.0.0.1", room=None):
        """A connection with TLS, over which nothing has been sent, from an address of this machine, with this much room for what comes."""
        one = socket.socket()
        if room:
            one.setsockopt(socket.SOL_SOCKET, socket.SO_RCVBUF, room)
        one.settimeout(SECONDS)
        one.bind((source, 0))
        one.connect(("127.0.0.1", self.port))
        return ssl.create_default_context(cafile=str(self.room / "etc/certificate.pem")).wrap_socket(one, server_hostname=NAME)

    def client(self, source="127.0.0.1"):
        # Over a socket that has TLS already, so that no certificates of the system are read.
        client = http.client.HTTPConnection(NAME, timeout=SECONDS)
        client.sock = self.socket(source)
        return client

    def ask(self, method, path, body=None, headers=None, source="127.0.0.1"):
        return answer_of(self.client(source), method, path, body, headers)

    def edit(self, batch, headers=None, path="/map/edit", source="127.0.0.1"):
        return self.ask("POST", path, batch, {**PASSWORD, **(headers or {})}, source)

    def version(self):
        return version_of(self.ask("GET", "/map/info").text)


def make_certificate(folder):
    words = [tool("openssl"), "req", "-x509", "-newkey", "ec", "-pkeyopt", "ec_paramgen_curve:prime256v1", "-nodes", "-days", "2", "-subj", f"/CN={NAME}",
             "-addext", f"subjectAltName=DNS:{NAME}", "-keyout", folder / "key.pem", "-out", folder / "certificate.pem"]
    subprocess.run([str(word) for word in words], check=True, stderr=subprocess.DEVNULL)


def make_password(file):
    kept = subprocess.run([tool("openssl"), "passwd", "-6", "secret"], capture_output=True, text=True, check=True).stdout
    file.write_text(f"anna:{kept}")


class Example(Running):
    """examples/web/run over the program, as a user starts it."""

    def __init__(self, executable, path=PATH):
        environment = {**os.environ, "TGAP_SERVER": str(executable), "PATH": path}
        super().__init__([TOP / "examples/web/run"], stdout=subprocess.PIPE, env=environment)
        said = self.process.stdout.readline().decode()
        if not (found := re.fullmatch(r"http://127\.0\.0\.1:(\d+)/\n", said)):
            raise OSError(f"examples/web/run says {said!r}")
        self.port = int(found[1])

    def stop(self, by=signal.SIGTERM):
        # It stops what it started.
        if self.process.poll() is None:
            self.process.send_signal(by)
        self.process.wait(SECONDS)
        self.process.stdout.close()

    def ask(self, method, path, body=None, headers=None):
        return answer_of(http.client.HTTPConnection("127.0.0.1", self.port, timeout=SECONDS), method, path, body, headers)


class Tests(lib.Tests):
    def holds(self, name, is_so, told=""):
        self.tell(name, [] if is_so else [f"it does not hold: {lib.shown(told)}"])
