"""The front server of examples/web."""
import pathlib
import threading

from front import PATH, TOP, Example, version_of

LEAFLET = pathlib.Path("/usr/share/javascript/leaflet/leaflet.js")
OWN_BATCH = b"class 1 0\n"


def example(tests):
    with Example(tests.executable) as served:
        files(tests, served)
        foreign_edits(tests, served)
        heads_and_bodies(tests, served)
        crowd(tests, served)
    # nginx is found where PATH has no folder of an administrator's.
    with Example(tests.executable, ":".join(part for part in PATH.split(":") if not part.endswith("sbin"))) as served:
        tests.same("the example of a user whose PATH has no sbin", served.ask("GET", "/map/info").status, 200)


def files(tests, served):
    """The page's files are served and nothing else of the repository."""
    page = [path for path in (TOP / "examples/web").iterdir() if path.suffix in (".html", ".css", ".js")]
    modules = list((TOP / "clients/js").glob("*.js"))
    for path, route in [(path, f"/{path.name}") for path in page] + [(path, f"/clients/js/{path.name}") for path in modules]:
        tests.same(f"the example serves {route}", served.ask("GET", route).told, (200, path.read_bytes()))
    tests.same("the example serves its page", served.ask("GET", "/").told, (200, (TOP / "examples/web/index.html").read_bytes()))
    known = (TOP / "examples/columbus.meta.json").read_bytes()
    reply = served.ask("GET", "/map/meta.json")
    tests.same("the example serves what is known of its map", (reply.told, reply.headers["Content-Type"]), ((200, known), "application/json"))
    tests.same("and takes nothing for it", (served.ask("POST", "/map/meta.json", b"{}").status, served.ask("PUT", "/map/meta.json").status), (405, 405))
    for route in ["/run", "/nginx.conf", "/README.md", "/../web/run", "/..%2frun", "/page", "/.git/config", "/error.log", "/said", "/leaflet/../said"]:
        tests.holds(f"the example keeps {route}", served.ask("GET", route).status in (400, 404), served.ask("GET", route).told)
    if LEAFLET.exists():
        tests.same("the example serves Leaflet", served.ask("GET", "/leaflet/leaflet.js").told, (200, LEAFLET.read_bytes()))
    else:
        tests.skip("the example serves Leaflet", "libjs-leaflet is missing")


def foreign_edits(tests, served):
    """What a page of another origin, or one that took this address under its own name, could send."""
    own = f"http://127.0.0.1:{served.port}"
    before = version_of(served.ask("GET", "/map/info").text)
    for headers in [{"Origin": "http://evil.example"}, {"Origin": "null"}, {"Origin": f"http://evil.example:{served.port}"}, {"Origin": own + ".evil.example"},
                    {"Origin": own.replace("http:", "https:")}, {"Host": "evil.example"}, {"Host": f"evil.example:{served.port}"}]:
        tests.same(f"the example refuses an edit with {headers}", served.ask("POST", "/map/edit", OWN_BATCH, headers).status, 403)
    for path in ["/map/%65dit", "/map//edit", "/map/x/../edit", "/map/edit?a=b", "/map/./edit"]:
        tests.same(f"the example refuses a foreign edit by {path}", served.ask("POST", path, OWN_BATCH, {"Origin": "http://evil.example"}).status, 403)
    tests.same("the example refuses readers of another name", served.ask("GET", "/map/info", None, {"Host": "evil.example"}).status, 403)
    tests.same("nothing foreign was published", version_of(served.ask("GET", "/map/info").text), before)
    for number, headers in enumerate([{"Origin": own}, {"Origin": own.replace("127.0.0.1", "localhost"), "Host": f"localhost:{served.port}"}, {}], before + 1):
        tests.same(f"the example takes an edit with {headers}", served.ask("POST", "/map/edit", OWN_BATCH, headers).told, (200, b"published %d\n" % number))


def heads_and_bodies(tests, served):
    tests.same("two headers of 5,000 bytes", served.ask("GET", "/map/info", None, {"X-A": "a" * 5000, "X-B": "b" * 5000}).status, 200)
    tests.same("70 headers", served.ask("GET", "/map/info", None, {f"X-{i}": "x" for i in range(70)}).status, 200)
    tests.same("an edit of 20 KB", served.ask("POST", "/map/edit", OWN_BATCH * 2000).status, 200)


def crowd(tests, served):
    """More readers than the program has workers."""
    told = []
    threads = [threading.Thread(target=lambda: told.extend(served.ask("GET", f"/map/slice/{step}").status for step in range(0, 48, 8))) for _ in range(6)]
    for thread in threads:
        thread.start()
    for thread in threads:
        thread.join()
    tests.same("six readers of the example", told, [200] * 36)
