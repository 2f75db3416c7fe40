"""Pages of other origins behind deploy/nginx.conf with the lines of docs/deployment.md, in a headless browser: what the client of clients/js reads and edits there."""
import json
import pathlib
import subprocess

from fragments import edited_elsewhere, pieces_of, read_elsewhere
from front import COLUMBUS, HISTORY, NAME, PASSWORD, TOP, Front, Program, exchanged, tool
from lib import Skipped
from page import BROWSERS

WANTED = {
    "its page reads": ["0", HISTORY], "its page edits": {"version": 1, "foreseen": True}, "its page sees the new version": 1, "its page without a password": "Refused 401",
    "another page reads": ["1", HISTORY], "another page edits": "Unreachable null", "and nothing is published": 1,
}


def elsewhere(tests):
    browser = next(filter(None, map(tool, BROWSERS)), None)
    missing = [name for name, there in [("chromium", browser), ("node", tool("node"))] if not there]
    if missing:
        raise Skipped(f"{', '.join(missing)} missing")
    pieces = pieces_of((TOP / "docs/deployment.md").read_text())
    changes = [*read_elsewhere(pieces), *edited_elsewhere(pieces)]
    with Program(tests.executable, COLUMBUS) as program, Front(program.port, lambda text: exchanged(text, changes)) as front:
        words = [tool("node"), "--experimental-websocket", pathlib.Path(__file__).with_suffix(".mjs"), browser, NAME, front.port, PASSWORD["Authorization"]]
        ran = subprocess.run(list(map(str, words)), capture_output=True, check=False, timeout=120)
    told = dict(map(json.loads, ran.stdout.splitlines()))
    for name, value in WANTED.items():
        tests.same(f"a page of another origin: {name}", told.get(name), value)
