"""What the front server tells with each reply, its own errors among them, by HTTP/1.1 and HTTP/2, over IPv4 and IPv6;
what it writes into its log; and whether the map is served."""
import collections
import contextlib
import ctypes
import re
import socket
import ssl
import subprocess
import threading

from forms import BATCH
from front import COLUMBUS, HAS_IPV6, HISTORY, NAME, PASSWORD, Front, Program, exchanged, tool, until
from lib import SECONDS, Skipped
from live import side_by_side
from wires import EDITS_IN_A_ROW, IN_A_ROW, Second

ALWAYS = {
    "tgap-history": HISTORY, "x-content-type-options": "nosniff", "x-frame-options": "DENY", "strict-transport-security": "max-age=31536000",
    "content-security-policy": "default-src 'none'; script-src 'self'; style-src 'self'; img-src 'self' data:; connect-src 'self'; "
                               "base-uri 'none'; form-action 'none'; frame-ancestors 'none'",
}
NUMBERS = b"version 0 steps 48 faces 49 arcs 134 points "
OTHER_HISTORY = {"Tgap-History": "fedcba9876543210"}
LOG_LINE = re.compile(r'(\d{4}-\d\d-\d\dT\d\d:\d\d:\d\d\S+) (\S+) (\S+) "([^"]*)" (\d+) (\d+) (\d+\.\d+) (\d+|-) (\d+|-) (\S+) (\d+\.\d+|-)')
CLONE_NEWNET = 0x40000000
# Two addresses of one network, and one of another.
NETWORK, OTHER_NETWORK = ["2001:db8:0:1::1", "2001:db8:0:1:ffff::2"], ["2001:db8:0:2::1"]

# What is asked, and what is told: the text, what caches are told, and further headers.
Row = collections.namedtuple("Row", ["method", "path", "status", "text", "cached", "more", "headers", "body"], defaults=["no-store", {}, {}, b""])

WHILE_IT_SERVES = [
    Row("GET", "/", 200, b"the page\n", "no-cache"),
    Row("GET", "/nothing", 404, b"nothing here\n", "no-cache"),
    Row("POST", "/", 405, b"wrong method\n", "no-cache", {"allow": "GET, HEAD"}),
    Row("GET", "/map/slice/49", 400, b"step too high 48\n", more={"tgap-version": "0"}),
    Row("GET", "/map/nothing", 404, b"no route\n", more={"tgap-version": "0"}),
    Row("GET", "/map/meta.json", 200, b"what is known\n", "no-cache"),
    Row("POST", "/map/meta.json", 405, b"wrong method\n", "no-cache", {"allow": "GET, HEAD"}),
    Row("POST", "/map/pin", 200, b"pin 0\n", more={"tgap-version": "0"}),
    Row("POST", "/map/info", 405, b"wrong method\n", more={"allow": "GET"}),
    Row("GET", "/map/pin", 405, b"wrong method\n", more={"allow": "POST"}),
    Row("GET", "/map/edit", 405, b"wrong method\n", more={"allow": "POST"}),
    Row("POST", "/health", 405, b"wrong method\n", more={"allow": "GET, HEAD"}),
    Row("POST", "/map/edit", 401, b"a password is wanted\n", more={"www-authenticate": 'Basic realm="Edits of the map"'}, body=BATCH.encode()),
    Row("POST", "/map/edit", 403, b"not from here\n", headers={**PASSWORD, "Origin": "http://evil.example"}, body=BATCH.encode()),
    Row("POST", "/map/edit", 412, b"another history\n", headers={**PASSWORD, **OTHER_HISTORY}, body=BATCH.encode()),
    Row("POST", "/map/edit", 412, b"another history\n", headers=OTHER_HISTORY, body=BATCH.encode()),
    Row("POST", "/map/edit", 413, b"too long\n", headers=PASSWORD, body=BATCH.encode() * 105000),
]
WHEN_IT_HAS_GONE = [Row(method, path, 502, b"the map is not served at the moment\n", headers=headers) for method, path, headers in
                    [("GET", "/map/info", {}), ("GET", "/map/slice/0", {}), ("POST", "/map/pin", {}), ("POST", "/map/edit", PASSWORD), ("GET", "/health", {})]]
WHEN_IT_IS_SILENT = [row._replace(status=504, text=b"no reply in time\n") for row in WHEN_IT_HAS_GONE]


def told(tests):
    with Program(tests.executable, COLUMBUS) as program, Front(program.port) as front:
        by_both(tests, front, WHILE_IT_SERVES)
        busy(tests, front)
        health(tests, program, front)
        access_log(tests, front)
        over_ipv6(tests, front)
        histories_of_edits(tests, program, front)
        program.stop()
        by_both(tests, front, WHEN_IT_HAS_GONE)
        tests.same("the health of a program that has gone, by HEAD", front.ask("HEAD", "/health").status, 502)
    with silent() as port, Front(port, impatient) as front:
        by_both(tests, front, WHEN_IT_IS_SILENT)


def by_one(front, rows):
    """The answers of HTTP/1.1, each with its headers by their names; of several with one name the values stand together."""
    for number, row in enumerate(rows):
        answer = front.ask(row.method, row.path, row.body, row.headers, f"127.0.2.{number + 1}")
        yield answer.status, {name.lower(): ", ".join(answer.headers.get_all(name)) for name in answer.headers}, answer.text


def by_two(front, rows):
    """The answers of HTTP/2 in the same form."""
    with Second(front) as second:
        for row in rows:
            names = {":method": row.method, ":path": row.path, ":scheme": "https", ":authority": NAME}
            more = {name.lower(): value for name, value in row.headers.items()}
            ((status, headers, text),) = second.ask([(names | more, row.body.decode(), IN_A_ROW)])
            yield status, headers, text.encode()


def by_both(tests, front, rows):
    ways = {"HTTP/1.1": by_one, **({"HTTP/2": by_two} if tool("node") else {})}
    for way, ask in ways.items():
        for row, (status, headers, text) in zip(rows, ask(front, rows)):
            name = f"{row.method} {row.path} is told {row.status} by {way}"
            wanted = {**ALWAYS, "cache-control": row.cached, **({"content-type": "text/plain"} if row.cached == "no-store" else {}), **row.more}
            tests.same(name, (status, text), (row.status, row.text))
            tests.same(f"{name}, with its headers", {key: headers.get(key) for key in wanted}, wanted)
            tests.same(f"{name}, and no others", [key for key in ["allow", "www-authenticate", "tgap-version"] if key in headers and key not in wanted], [])
    if len(ways) == 1:
        tests.skip("what is told by HTTP/2", "node is missing")


def busy(tests, front):
    """Who tries passwords too fast."""
    replies = [front.ask("POST", "/map/edit", source="127.0.3.1") for _ in range(3 * EDITS_IN_A_ROW)]
    refused = [reply for reply in replies if reply.status != 401]
    tests.same("passwords too fast", {reply.told for reply in refused}, {(503, b"busy, try again\n")})
    headers = refused[0].headers
    tests.same("with the headers", {name: ", ".join(headers.get_all(name, [])) for name in [*ALWAYS, "cache-control"]}, {**ALWAYS, "cache-control": "no-store"})


def health(tests, program, front):
    got, looked = front.ask("GET", "/health"), front.ask("HEAD", "/health")
    tests.same("the health of a program that serves", got.told, (200, program.ask("GET", "/info").text))
    tests.same("the same by HEAD", (looked.told, looked.headers["Content-Length"]), ((200, b""), str(len(got.text))))
    tests.holds("it has the numbers", got.text.startswith(NUMBERS), got.text)


def access_log(tests, front):
    reply = front.ask("GET", "/map/window/0/0/0/50000/50000", source="127.0.2.77")
    log = front.room / "log/access.log"
    until(lambda: "127.0.2.77" in log.read_text())
    lines = log.read_text().splitlines()
    (line,) = [line for line in lines if "127.0.2.77" in line]
    fields = LOG_LINE.fullmatch(line)
    tests.holds("a line of the log", fields, line)
    if fields:
        tests.same("what it says", fields.group(2, 3, 4, 5, 8, 9, 10), ("127.0.2.77", NAME, "GET /map/window/0/0/0/50000/50000 HTTP/1.1", "200", "200", "0", HISTORY))
        tests.holds("the bytes are those of the reply with its head", len(reply.text) < int(fields[6]) < len(reply.text) + 2000, (fields[6], len(reply.text)))
        tests.holds("the program took a part of the time", float(fields[11]) <= float(fields[7]) + 0.01, line)
    tests.same("each line has all of them", [line for line in lines if not LOG_LINE.fullmatch(line)], [])
    tests.same("asking for the health is not logged", [line for line in lines if '"GET /health' in line], [])


def histories_of_edits(tests, program, front):
    before = program.ask("GET", "/info").text
    tests.same("an edit of another history", front.edit(BATCH.encode(), OTHER_HISTORY, source="127.0.3.2").status, 412)
    for token in [HISTORY[:-1], HISTORY + "0", HISTORY.replace("a", "A"), f"{HISTORY}, {HISTORY}", f"{HISTORY}:{HISTORY}", "x", "0", ":", f":{HISTORY}"]:
        tests.same(f"an edit of {token}", front.edit(BATCH.encode(), {"Tgap-History": token}, source="127.0.3.3").status, 412)
    tests.same("they publish nothing", program.ask("GET", "/info").text, before)
    tests.same("an edit of this history", front.edit(BATCH.encode(), {"Tgap-History": HISTORY}, source="127.0.3.4").told, (200, b"published 1\n"))
    tests.same("an edit that names none", front.edit(BATCH.encode(), source="127.0.3.4").told, (200, b"published 2\n"))
    if tool("node"):
        row = Row("POST", "/map/edit", 200, b"published 3\n", headers={**PASSWORD, "Tgap-History": HISTORY}, body=BATCH.encode())
        tests.same("an edit of this history by HTTP/2", next(by_two(front, [row]))[::2], (row.status, row.text))


@contextlib.contextmanager
def silent():
    """The port of something that takes connections and says nothing."""
    with socket.create_server(("127.0.0.1", 0)) as one:
        yield one.getsockname()[1]


def impatient(text):
    """The configuration that gives a program up sooner."""
    last = "    proxy_buffers 16 64k;\n"
    soon = "proxy_read_timeout 1s;"
    return exchanged(text, [("proxy_read_timeout 120s;", soon), ("proxy_read_timeout 2s;", soon), (last, f"{last}    {soon}\n")])


def connected(port, source="::1"):
    return socket.create_connection(("::1", port), SECONDS, source_address=(source, 0))


def said_over_ipv6(front, sent, source="::1"):
    """All that comes back over TLS, to the end of the connection."""
    context = ssl.create_default_context(cafile=str(front.room / "etc/certificate.pem"))
    with connected(front.port, source) as one, context.wrap_socket(one, server_hostname=NAME) as secure:
        secure.sendall(sent)
        return b"".join(iter(lambda: secure.recv(65536), b""))


def over_ipv6(tests, front):
    if not HAS_IPV6:
        tests.skip("IPv6", "the machine has none")
        return
    asked = f"GET /map/info HTTP/1.1\r\nHost: {NAME}\r\nConnection: close\r\n\r\n".encode()
    said = said_over_ipv6(front, asked)
    tests.holds("a reader over IPv6", said.startswith(b"HTTP/1.1 200 ") and NUMBERS in said, said)
    with connected(front.plain) as one:
        one.sendall(asked)
        said = b"".join(iter(lambda: one.recv(65536), b""))
    tests.holds("without TLS over IPv6", said.startswith(b"HTTP/1.1 301 "), said)
    other = asked.replace(NAME.encode(), b"evil.example")
    tests.holds("another name over IPv6", said_over_ipv6(front, other).startswith(b"HTTP/1.1 403 "))


def networks(tests):
    """A network of IPv6 counts as one address."""
    if not HAS_IPV6 or not tool("ip"):
        raise Skipped("the machine has no IPv6" if not HAS_IPV6 else "ip is missing")
    faults = []

    def apart():
        # The network is that of this thread alone, and of what it starts.
        if ctypes.CDLL(None, use_errno=True).unshare(CLONE_NEWNET):
            faults.append(Skipped("a network of its own wants the rights of root"))
            return
        try:
            counted_networks(tests)
        except (OSError, subprocess.SubprocessError) as error:
            faults.append(error)

    thread = threading.Thread(target=apart)
    thread.start()
    thread.join()
    for fault in faults:
        raise fault


def counted_networks(tests):
    subprocess.run([tool("ip"), "link", "set", "lo", "up"], check=True)
    for address in [*NETWORK, *OTHER_NETWORK]:
        subprocess.run([tool("ip"), "-6", "address", "add", f"{address}/64", "dev", "lo", "nodad"], check=True)
    sent = f"POST /map/edit HTTP/1.1\r\nHost: {NAME}\r\nContent-Length: 0\r\nConnection: close\r\n\r\n".encode()
    with Program(tests.executable, COLUMBUS) as program, Front(program.port) as front:
        # Side by side, since on a loaded machine they come slowly one after the other.
        told_there = side_by_side([lambda source=source: said_over_ipv6(front, sent, source)[9:12] for source in NETWORK] * EDITS_IN_A_ROW)
        tests.same("two addresses of one network try passwords", set(told_there), {b"401", b"503"})
        told_elsewhere = [said_over_ipv6(front, sent, *OTHER_NETWORK)[9:12] for _ in range(EDITS_IN_A_ROW)]
        tests.same("another network as often as each of them", set(told_elsewhere), {b"401"})
