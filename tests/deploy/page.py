"""The page behind deploy/nginx.conf, under its policy and over HTTP/2, in a headless browser."""
import json
import pathlib
import shutil
import subprocess
import sys

from front import COLUMBUS, HISTORY, NAME, TOP, Front, Program, Running, tool
from lib import Skipped

LEAFLET = pathlib.Path("/usr/share/javascript/leaflet/leaflet.min.js")
BROWSERS = ["chromium", "chromium-browser", "google-chrome"]
# Browsers hold each file to its type.
TYPES = {"html": "text/html", "css": "text/css", "js": "text/javascript", "json": "application/json"}


def page(tests):
    browser = next(filter(None, map(tool, BROWSERS)), None)
    missing = [name for name, there in [("chromium", browser), ("node", tool("node")), ("libjs-leaflet", LEAFLET.exists())] if not there]
    if missing:
        raise Skipped(f"{', '.join(missing)} missing")
    with Program(tests.executable, COLUMBUS) as program, Front(program.port) as front:
        for path in [*laid_out(front.room / "page"), "leaflet/leaflet.css", LEAFLET.relative_to(LEAFLET.parents[1])]:
            reply = front.ask("GET", f"/{path}")
            tests.same(f"the type of {path}", (reply.status, reply.headers["Content-Type"]), (200, TYPES[str(path).rsplit(".", 1)[1]]))
        in_a_browser(tests, browser, program, front)


def laid_out(folder):
    """The files of the page, as the document has them installed."""
    for source, names, place in [(TOP / "examples/web", "*.html *.css *.js", folder), (TOP / "clients/js", "*.js", folder / "clients/js")]:
        place.mkdir(parents=True, exist_ok=True)
        for pattern in names.split():
            for path in source.glob(pattern):
                shutil.copy(path, place)
    settings = subprocess.run([sys.executable, TOP / "examples/web/settings.py", *COLUMBUS], capture_output=True, check=True).stdout
    (folder / "settings.json").write_bytes(settings)
    return sorted(path.relative_to(folder) for path in folder.rglob("*.*"))


def in_a_browser(tests, browser, program, front):
    words = [tool("node"), "--experimental-websocket", pathlib.Path(__file__).with_suffix(".mjs"), browser, NAME, front.port]
    with Running(words, stdout=subprocess.PIPE, stderr=subprocess.DEVNULL, stdin=subprocess.PIPE) as look:
        lines = iter(look.process.stdout.readline, b"")
        told = dict(json.loads(next(lines, b"[null, null]")) for _ in range(3))
        program.stop()
        look.process.stdin.write(b"\n")
        look.process.stdin.close()
        told |= dict(map(json.loads, lines))
        look.process.stdout.close()
    wanted = {
        "a map is shown": True, "its history": HISTORY, "by which protocol all of it came": "h2", "what is told without the program": True, "what is in the console": [],
    }
    for name, value in wanted.items():
        tests.same(f"the page: {name}", told.get(name), value)
