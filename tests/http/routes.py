"""Every route over kept connections, every byte of replies, bad heads, edits, a topology, and curl."""
import shutil
import subprocess

from lib import SECONDS, TOP, Server, Skipped, ask, exchange, reply, request
from model import window_of

MAP = TOP / "examples/two_squares.tgap"
INFO = b"version 0 steps 1 faces 2 arcs 3 points 10\n"
WIDEST = "/window/0/-2147483648/-2147483648/2147483648/2147483648"
TOPOLOGY = (b'{"arcs":[[[10,10],[-10,0],[0,-10],[10,0]],[[10,0],[10,0],[0,10],[-10,0]],[[10,0],[0,10]]],"objects":{"map":{"geometries":['
            b'{"arcs":[[0,2]],"properties":{"class":0,"face":1},"type":"Polygon"},{"arcs":[[1,-3]],"properties":{"class":0,"face":2},"type":"Polygon"}],'
            b'"type":"GeometryCollection"}},"transform":{"scale":[1,1],"translate":[0,0]},"type":"Topology"}')
ONE_FACE = (b'{"arcs":[[[10,10],[-10,0],[0,-10],[20,0],[0,10],[-10,0]]],"objects":{"map":{"geometries":['
            b'{"arcs":[[0]],"properties":{"class":0,"face":3},"type":"Polygon"}],"type":"GeometryCollection"}},'
            b'"transform":{"scale":[1,1],"translate":[0,0]},"type":"Topology"}')
WINDOW = b"window 0 12 2 30 4\nfaces 1\nface 2 0\nedges 1\nedge 1 2 0 4 10 0 20 0 20 10 10 10\nend\n"


def each_route(tests):
    """Each route over one kept connection, against the texts of the command line."""
    with Server(tests.executable, MAP, 1, 1) as server:
        client = server.client()
        for path, text in [("/info", INFO), ("/slice/0", tests.text("slice", MAP, 0)), ("/slice/1?x=1", tests.text("slice", MAP, 1)),
                           ("/topo/0", TOPOLOGY), ("/topo/1?x=1", ONE_FACE),
                           ("/packet/1/0", tests.text("packet", MAP, 1, 0)), ("/packet/0/0", b"packet 0 0\nend\n")]:
            tests.same(path, ask(client, "GET", path)[:3], (200, 0, text))
        tests.same("a window", ask(client, "GET", "/window/0/12/2/30/4")[:3], (200, 0, WINDOW))
        tests.same("the widest window", ask(client, "GET", WIDEST)[:3], (200, 0, window_of(tests.text("slice", MAP, 0), (-2147483648, -2147483648, 2147483648, 2147483648))))
        tests.same("pin", ask(client, "POST", "/pin")[:3], (200, 0, b"pin 0\n"))
        tests.same("behind", ask(client, "POST", "/pin/1")[:3], (409, 0, b"behind 0\n"))
        for method, path, status, text in [
            ("GET", "/nothing", 404, b"no route\n"), ("GET", "/slice/", 404, b"no route\n"), ("GET", "/slice/0/1", 404, b"no route\n"),
            ("GET", "/slice/01", 400, b"bad number\n"), ("GET", "/slice/4294967296", 400, b"bad number\n"),
            ("GET", "/window/0/2/0/1/0", 400, b"bad number\n"), ("GET", "/slice/2", 400, b"step too high 1\n"),
            ("GET", "/window/0/0/0/2147483649/0", 400, b"bad number\n"), ("GET", "/window/0/-2147483649/0/0/0", 400, b"bad number\n"),
            ("GET", "/topo", 404, b"no route\n"), ("GET", "/topo/0/1", 404, b"no route\n"), ("POST", "/topo/x", 405, b"wrong method\n"),
            ("GET", "/topo/x", 400, b"bad number\n"), ("GET", "/topo/2", 400, b"step too high 1\n"),
            ("GET", "/packet/0/1", 400, b"not coarser 0 1\n"), ("GET", "/packet/2/0", 400, b"step too high 1\n"),
        ]:
            tests.same(f"{method} {path}", ask(client, method, path)[:3], (status, 0, text))
        status, _, text, headers = ask(client, "DELETE", "/info")
        tests.same("another method", (status, text, headers["Allow"]), (405, b"wrong method\n", "GET"))
        tests.same("a body on a GET", ask(client, "GET", "/info", b"not looked at")[:3], (200, 0, INFO))
        tests.same("it goes on", ask(client, "GET", "/info")[:3], (200, 0, INFO))
        client.close()


def bytes_of_replies(tests):
    """Every byte of replies, however the requests are cut."""
    with Server(tests.executable, MAP, 1, 1) as server:
        sent = (request("GET", "/info") + request("DELETE", "/info") + request("POST", "/pin/7")
                + request("GET", "/slice/1", b"", "Connection: close"))
        wanted = (reply(200, "OK", 0, INFO) + reply(405, "Method Not Allowed", 0, b"wrong method\n", allow="GET")
                  + reply(409, "Conflict", 0, b"behind 0\n") + reply(200, "OK", 0, tests.text("slice", MAP, 1), close=True))
        for size in [None, 1, 7]:
            tests.same(f"pipelined requests in pieces of {size}", exchange(server, sent, size), wanted)
        old = b"GET /info HTTP/1.0\r\n\r\n" + request("GET", "/info")
        tests.same("HTTP/1.0 closes", exchange(server, old), reply(200, "OK", 0, INFO, close=True))
        tests.same("a cut request", exchange(server, request("GET", "/info") + b"GET /info HTT"), reply(200, "OK", 0, INFO))
        tests.same("nothing", exchange(server, b""), b"")


def bad_heads(tests):
    bad = reply(400, "Bad Request", 0, b"bad request\n", close=True)
    with Server(tests.executable, MAP, 2, 1) as server:
        for name, sent in [
            ("a line feed in the request line", b"GET\n/ HTTP/1.1\r\n\r\n"), ("garbage", b"\x00\x01\x02\x03" * 10 + b"\r\n\r\n"),
            ("an encoding", request("POST", "/edit", b"", "Transfer-Encoding: chunked")),
            ("two lengths", request("POST", "/edit", b"", "Content-Length: 1", "Content-Length: 1")),
            ("a signed length", request("POST", "/edit", b"", "Content-Length: +1")),
            ("a length of eleven digits", request("POST", "/edit", b"", "Content-Length: 00000000001")),
        ]:
            tests.same(name, exchange(server, sent), bad)


def edits(tests):
    """What an edit comes to, and what others see of it."""
    with Server(tests.executable, MAP, 2, 2) as server:
        a, b = server.client(), server.client()
        for client in (a, b):
            tests.same("the first version", ask(client, "GET", "/info")[:3], (200, 0, INFO))
        edit = b"move 20 10 24 10\n"
        tests.same("a bad line", ask(a, "POST", "/edit", b"move 5 5 6 6\n")[:3], (422, 0, b"edit line 1 cause 3\n"))
        tests.same("a faulty map", ask(a, "POST", "/edit", b"move 20 0 0 5\n")[:3], (422, 0, b"refused 15 meets 1 3 0 500 100\n"))
        tests.same("published", ask(a, "POST", "/edit", edit)[:3], (200, 1, b"published 1\n"))
        tests.same("stale", ask(b, "POST", "/edit", edit)[:3], (409, 0, b"stale 1\n"))
        tests.same("a reader stays", ask(b, "GET", "/info")[:3], (200, 0, INFO))
        tests.same("pin", ask(b, "POST", "/pin/1")[:3], (200, 1, b"pin 1\n"))
        moved = b"edge 0 3 0 6 10 10 0 10 0 0 20 0 24 10 10 10\n"
        tests.same("the moved vertex", moved in ask(b, "GET", "/slice/1")[2], True)
        tests.same("its topology", ask(b, "GET", "/topo/0")[:3], (200, 1, TOPOLOGY.replace(b"[10,0],[0,10],[-10,0]]", b"[10,0],[4,10],[-14,0]]")))
        tests.same("full", ask(b, "POST", "/edit", b"move 20 0 20 1\n")[:3], (507, 1, b"versions full 2\n"))
        tests.same("behind", ask(b, "POST", "/pin/9")[:3], (409, 1, b"behind 1\n"))
        a.close()
        b.close()


def a_topology(tests):
    words = [TOP / "examples/two_squares.json", "land", TOP / "examples/two_squares.rules.json"]
    with Server(tests.executable, words[0], 1, 1, words[1:]) as server:
        client = server.client()
        tests.same("a topology", ask(client, "GET", "/slice/0")[2], tests.text("slice", words[0], 0, *words[1:]))
        client.close()


def curl(tests):
    if not shutil.which("curl"):
        raise Skipped("it is missing")
    with Server(tests.executable, MAP, 1, 1) as server:
        words = ["curl", "-s", "-i", "-m", str(SECONDS), f"http://127.0.0.1:{server.port}/info"]
        tests.same("curl", subprocess.run(words, capture_output=True, check=False).stdout, reply(200, "OK", 0, INFO))


TESTS = [each_route, bytes_of_replies, bad_heads, edits, a_topology, curl]
