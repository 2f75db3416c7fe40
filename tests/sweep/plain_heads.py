"""A slow plain reader of requests by docs/formats.md and RFC 9112: heads, routes, and the replies to them."""
import codecs
import re

from lib import reply
from plain_texts import COORDINATE, COUNT, number

HEAD, HEADERS, BODY = 8192, 64, 1048576
TOKEN = rb"[!#$%&'*+\-.^_`|~0-9A-Za-z]"
# A byte of a target, and of a value.
VISIBLE, VALUE = rb"[\x21-\x7e\x80-\xff]", rb"[\t\x20-\x7e\x80-\xff]"
BLANK = re.compile(rb"(?:\r?\n)*")
START = re.compile(rb"(" + TOKEN + rb"+) (" + VISIBLE + rb"+) HTTP/1\.([01])\r?\n")
FIELD = re.compile(rb"(" + TOKEN + rb"+):(" + VALUE + rb"*)\r?\n")
LAST = re.compile(rb"\r?\n")
# The fronts of each of them that are not yet whole.
FRONT_OF_START = re.compile(rb"\r|" + TOKEN + rb"*|" + TOKEN + rb"+ " + VISIBLE + rb"*|" + TOKEN + rb"+ " + VISIBLE
                            + rb"+ (?:H(?:T(?:T(?:P(?:/(?:1(?:\.(?:[01]\r?)?)?)?)?)?)?)?)?")
FRONT_OF_FIELD = re.compile(rb"\r|" + TOKEN + rb"*|" + TOKEN + rb"+:" + VALUE + rb"*\r?")
WHOLE, MORE, BAD, OPEN = "whole", "more", "bad", "more or bad"


def is_text(target, whole=True):
    """Whether bytes are UTF-8, or, where they are not whole, may yet become it."""
    try:
        codecs.getincrementaldecoder("utf-8")().decode(target, whole)
    except UnicodeDecodeError:
        return False
    return True


def read_head(data):
    """What stands at the front: a whole head, with its method, target, whether it is HTTP/1.0, headers and length; that
    more bytes may make it one; or that none can. The reader of heads may tell the one or the other where the bytes end
    in a target that is no UTF-8, and where there are too many headers already."""
    at = BLANK.match(data).end()
    start = START.match(data, at)
    if not start:
        if not FRONT_OF_START.fullmatch(data, at):
            return BAD, None
        method, _, target = data[at:].partition(b" ")
        target, closed, _ = target.partition(b" ")
        if closed:
            return (MORE if is_text(target) else BAD), None
        return (MORE if is_text(target, whole=False) else OPEN), None
    if not is_text(start[2]):
        return BAD, None
    at, headers = start.end(), []
    while field := FIELD.match(data, at):
        headers.append((field[1].lower(), field[2].strip(b" \t")))
        at = field.end()
    last = LAST.match(data, at)
    if last:
        return WHOLE, (start[1], start[2], start[3] == b"0", headers, last.end())
    if not FRONT_OF_FIELD.fullmatch(data, at):
        return BAD, None
    return (OPEN if len(headers) > HEADERS else MORE), None


def told(data):
    """What is told of the front of the data: a head with the length of its body, more, or a status."""
    state, head = read_head(data[:HEAD])
    if state != WHOLE:
        return (BAD, 400) if state == BAD or len(data) >= HEAD else (state, None)
    values = [value for name, value in head[3] if name == b"content-length"]
    names = [name for name, _ in head[3]]
    if len(names) > HEADERS or b"transfer-encoding" in names or len(values) > 1 or (values and not re.fullmatch(rb"[0-9]{1,10}", values[0])):
        return BAD, 400
    body = int(values[0]) if values else 0
    return (BAD, 413) if body > BODY else (WHOLE, (head, body))


def closes(is_old, headers):
    members = [member for name, value in headers if name == b"connection" for member in value.split(b",")]
    return is_old or any(member.strip(b" \t").lower() == b"close" for member in members)


# ---- routes

STEP, PLACE = (0, COUNT), (-COORDINATE, COORDINATE)
# The method of each route, by its word and the number of its parameters.
ROUTES = {(b"info", 0): "GET", (b"pin", 0): "POST", (b"pin", 1): "POST", (b"slice", 1): "GET", (b"packet", 2): "GET",
          (b"window", 5): "GET", (b"window-packet", 6): "GET", (b"edit", 0): "POST"}
FORMS = {b"window": [STEP, PLACE, PLACE, PLACE, PLACE], b"window-packet": [STEP, STEP, PLACE, PLACE, PLACE, PLACE]}
REASONS = {200: "OK", 400: "Bad Request", 404: "Not Found", 405: "Method Not Allowed", 409: "Conflict", 413: "Content Too Large",
           422: "Unprocessable Content", 507: "Insufficient Storage"}


def answer(method, target, body, served):
    """Status, body and the method that is allowed. `served` answers good requests by their name and numbers."""
    path = target.partition(b"?")[0]
    first, *words = path.split(b"/")
    name, *parameters = words or [b""]
    allowed = ROUTES.get((name, len(parameters)))
    if first or allowed is None or b"" in parameters:
        return 404, "no route", None
    if method != allowed.encode():
        return 405, "wrong method", allowed
    try:
        numbers = [number(word, *limits) for word, limits in zip(parameters, FORMS.get(name, [STEP, STEP]))]
    except ValueError:
        return 400, "bad number", None
    if name in (b"window", b"window-packet") and (numbers[-4] > numbers[-2] or numbers[-3] > numbers[-1]):
        return 400, "bad number", None
    return (*served(name.decode(), numbers, body), None)


def replies(data, version, served):
    """All that may come back for these bytes, up to the end of the connection: one row of replies, or two where the last
    bytes may be told as a fault or not."""
    sent = b""
    bad = {status: reply(status, REASONS[status], version, text, close=True) for status, text in ((400, b"bad request\n"), (413, b"too long\n"))}
    while True:
        state, found = told(data)
        if state in (MORE, OPEN):
            return [sent] if state == MORE else [sent, sent + bad[400]]
        if state == BAD:
            return [sent + bad[found]]
        (method, target, is_old, headers, end), size = found
        if len(data) < end + size:
            return [sent]
        status, text, allow = answer(method, target, data[end : end + size], served)
        close = closes(is_old, headers)
        sent += reply(status, REASONS[status], version, text.encode() + b"\n", close=close, allow=allow)
        data = data[end + size :]
        if close:
            return [sent]
