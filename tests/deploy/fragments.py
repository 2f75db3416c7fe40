"""The pieces of nginx's configuration in docs/deployment.md, each put where it says, with requests that only it answers."""
import re

from front import COLUMBUS, HISTORY, NAME, PASSWORD, TOP, Front, Program, exchanged, until

SQUARES = [TOP / "examples/two_squares.tgap"]
OTHER = "holland.example"
PAGE = "https://page.example"
EVIL = {"Origin": "http://evil.example"}
OWN_BATCH = b"class 1 0\n"
# The history of the map that is on the machine itself.
HERE = "fedcba9876543210"
CHOICE = """    map $host $map {
        map.example columbus;
    }
"""
# The first lines of the locations of readers, which take what the document puts there.
READING = ["        location /map/ {\n", '        location ~ "^/map/pin(/[0-9]+)?\\z" {\n']
EXPOSED = "Tgap-Version, Tgap-History"


def fragments(tests):
    pieces = pieces_of((TOP / "docs/deployment.md").read_text())
    tests.same("pieces in docs/deployment.md", len(pieces), 7)
    with Program(tests.executable, COLUMBUS) as columbus, Program(tests.executable, SQUARES) as squares:
        readers_elsewhere(tests, pieces, columbus)
        editors_elsewhere(tests, pieces, columbus)
        by_host(tests, pieces, columbus, squares)
        by_path(tests, pieces, columbus, squares)
        another_machine(tests, pieces, columbus, squares)


def pieces_of(text):
    """Each piece by its first line, a comment."""
    blocks = re.findall(r"^```nginx\n# (.*)\n([\s\S]*?)^```$", text, re.MULTILINE)
    return dict(blocks)


def piece(pieces, begin):
    """The piece whose comment begins like this."""
    (found,) = [text for comment, text in pieces.items() if comment.startswith(begin)]
    return found


def read_elsewhere(pieces):
    """What lets pages of other origins read."""
    added = piece(pieces, "reading: in location /map/")
    return [(line, line + added) for line in READING]


def readers_elsewhere(tests, pieces, program):
    with Front(program.port, lambda text: exchanged(text, read_elsewhere(pieces))) as front:
        for method, path in [("GET", "/map/info"), ("GET", "/map/slice/99"), ("POST", "/map/pin")]:
            reply = front.ask(method, path, None, EVIL)
            tests.same(f"a page of another origin reads {path}", (reply.headers["Access-Control-Allow-Origin"], reply.headers["Access-Control-Expose-Headers"]), ("*", EXPOSED))
        reply = front.edit(OWN_BATCH, EVIL)
        tests.same("and edits nothing", (reply.status, reply.headers["Access-Control-Allow-Origin"]), (403, None))
    with Front(program.port) as front:
        reply = front.ask("GET", "/map/info", None, EVIL)
        tests.same("without these lines no page reads", [name for name in reply.headers if name.startswith("Access-Control")], [])


def edited_elsewhere(pieces):
    """What lets the page of one other origin edit."""
    origin, headers = piece(pieces, "editing: in map"), piece(pieces, "editing: in location = /map/edit")
    own = f"        https://{NAME} 0;\n"
    first, last = "                return 403;\n            }\n", "            limit_conn editors 1;\n"
    return [(own, own + origin), (first, first + headers), (last, last + headers)]


def editors_elsewhere(tests, pieces, program):
    with Front(program.port, lambda text: exchanged(text, edited_elsewhere(pieces))) as front:
        asked = front.ask("OPTIONS", "/map/edit", None, {"Origin": PAGE, "Access-Control-Request-Method": "POST", "Access-Control-Request-Headers": "authorization"})
        told = [asked.headers[f"Access-Control-Allow-{name}"] for name in ["Origin", "Credentials", "Headers"]]
        tests.same("the browser asks for a page that may edit", (asked.status, told), (204, [PAGE, "true", "Authorization, Tgap-History"]))
        reply = front.edit(OWN_BATCH, {"Origin": PAGE})
        tests.same("its edit", (reply.status, reply.headers["Access-Control-Allow-Origin"], reply.headers["Access-Control-Expose-Headers"]), (200, PAGE, EXPOSED))
        tests.same("its edit without a password", front.ask("POST", "/map/edit", OWN_BATCH, {"Origin": PAGE}).status, 401)
        for method in ["OPTIONS", "POST"]:
            refused = front.ask(method, "/map/edit", None, {**PASSWORD, **EVIL})
            tests.same(f"{method} of any other page", (refused.status, refused.headers["Access-Control-Allow-Origin"]), (403, None))


def faces_of(reply):
    return reply.status, int(re.search(rb"faces (\d+)", reply.text)[1]) if reply.status == 200 else None


def chosen_by_host(pieces):
    """What makes it choose the map by the host."""
    names = [(f"server_name {NAME};", f"server_name {NAME} {OTHER};"), (f"        https://{NAME} 0;\n", f"        https://{NAME} 0;\n        https://{OTHER} 0;\n")]
    return [(CHOICE, piece(pieces, "by host")), *names]


def by_host(tests, pieces, columbus, squares):
    with Front({"columbus": columbus.port, "holland": squares.port}, lambda text: exchanged(text, chosen_by_host(pieces))) as front:
        tests.same("the map of the first host", faces_of(front.ask("GET", "/map/info")), (200, 49))
        tests.same("the map of the second", faces_of(front.ask("GET", "/map/info", None, {"Host": OTHER})), (200, 2))
        tests.same("no map of a third", front.ask("GET", "/map/info", None, {"Host": "other.example"}).status, 403)
        before = squares.ask("GET", "/info").text
        tests.same("an edit of the second", front.edit(OWN_BATCH, {"Host": OTHER, "Origin": f"https://{OTHER}"}).status, 200)
        tests.holds("is one of that map", squares.ask("GET", "/info").text != before)


def chosen_by_path(pieces):
    """What makes deploy/nginx.conf choose the map by the path: the document's lines in place of those that begin alike."""
    alike = ["location = /map/edit {", 'location ~ "^/map/pin(/[0-9]+)?\\z" {', "location = /map/meta.json {", "location /map/ {", "location = /health {", 'rewrite "(?s)^/map/(.*)\\z" /$1 break;']
    lines = piece(pieces, "by path: in place of the lines").splitlines()
    return [(CHOICE, piece(pieces, "by path: in place of map")), *zip(alike, lines, strict=True)]


def by_path(tests, pieces, columbus, squares):
    with Front({"columbus": columbus.port, "holland": squares.port}, lambda text: exchanged(text, chosen_by_path(pieces))) as front:
        tests.same("the map of the first path", faces_of(front.ask("GET", "/columbus/map/info")), (200, 49))
        tests.same("the map of the second path", faces_of(front.ask("GET", "/holland/map/info?a=b")), (200, 2))
        tests.same("the metadata by path", front.ask("GET", "/holland/map/meta.json").told, (200, b"what is known\n"))
        tests.same("a window by path", front.ask("GET", "/holland/map/window/0/0/0/1/1").status, 200)
        tests.same("the health of each by path", [faces_of(front.ask("GET", f"/{name}/health")) for name in ["columbus", "holland"]], [(200, 49), (200, 2)])
        for path in ["/other/map/info", "/other/map/edit", "/map/info", "/holland/info"]:
            tests.same(f"no map at {path}", front.ask("GET", path).status, 404)
        before = squares.ask("GET", "/info").text
        for path in ["/holland/map/edit", "/holland/map//edit", "/holland/map/%65dit", "/columbus/../holland/map/edit"]:
            tests.same(f"no edit without a password by {path}", front.ask("POST", path, OWN_BATCH).status, 401)
            tests.same(f"no foreign edit by {path}", front.edit(OWN_BATCH, EVIL, path).status, 403)
        tests.same("nothing was published by path", squares.ask("GET", "/info").text, before)
        tests.same("an edit by path", front.edit(OWN_BATCH, path="/holland/map/edit").status, 200)
        tests.holds("is one of the map of that path", squares.ask("GET", "/info").text != before)


def passed_on(pieces, far):
    """What passes reading on to the front server of another machine."""
    added = exchanged(piece(pieces, "on another machine"), [
        (f"https://{OTHER}", f"https://127.0.0.1:{far.port}"), (OTHER, NAME), ("/etc/ssl/certs/ca-certificates.crt", far.room / "etc/certificate.pem"),
    ])
    place = "        location = /map/edit {\n"
    return [(place, added + place)]


def another_machine(tests, pieces, columbus, squares):
    """One front server before another, which has the second map."""
    with Front(squares.port) as far:
        with Front(columbus.port, lambda text: exchanged(text, passed_on(pieces, far))) as front:
            front.begin("columbus", columbus.port, HERE)
            tests.holds("the history of this machine is another one", until(lambda: front.ask("GET", "/map/info").headers["Tgap-History"] == HERE))
            tests.same("the map of this machine", faces_of(front.ask("GET", "/map/info")), (200, 49))
            for method, path in [("GET", "/holland/map/info"), ("POST", "/holland/map/pin")]:
                reply = front.ask(method, path)
                tests.same(f"the map of another machine by {path}", (reply.status, reply.headers.get_all("Tgap-History"), reply.headers.get_all("Cache-Control")), (200, [HISTORY], ["no-store"]))
            tests.same("it is that map", faces_of(front.ask("GET", "/holland/map/info")), (200, 2))
            tests.same("no edit goes there", front.edit(OWN_BATCH, path="/holland/map/edit").status, 405)
