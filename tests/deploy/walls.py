"""That nothing reaches an edit but a POST at the place of edits with a password: what forms.py has, sent to
deploy/nginx.conf, to each way in which docs/deployment.md changes it, and to the front server of the example. What
counts is the version of the program, asked for past the front server."""
import re
import socket

import forms
from front import COLUMBUS, NAME, PASSWORD, TOP, Example, Front, Program, exchanged, tool, version_of
from fragments import EVIL, OTHER, PAGE, SQUARES, chosen_by_host, chosen_by_path, edited_elsewhere, passed_on, pieces_of, read_elsewhere
from lib import SECONDS
from wires import IN_A_ROW, Second, Wire, by_second, sent_whole

# So many requests are sent between two looks at the version. Where it rose, each is sent once more by itself.
AT_A_TIME = 256
CONNECTIONS_AT_A_TIME = 400
# What a pin says, and so a program that was reached.
PINNED = re.compile(r"pin \d+\n|behind \d+\n|bad number\n")
# What it says of an edit that it took, and no page does.
PUBLISHED = re.compile(r"published \d+\n")


class Target:
    """A front server as it is attacked: how it is reached, the path before /map/, the host, the headers of each request,
    the programs behind it, and whether those who may edit do it there."""

    def __init__(self, name, connect, programs, root="", host=NAME, headers=(), edited=True):
        self.name, self.connect, self.programs, self.root, self.host, self.headers, self.edited = name, connect, programs, root, host, list(headers), edited
        self.versions = self.now()

    def now(self):
        return [version_of(program.ask("GET", "/info").text) for program in self.programs]

    def has_risen(self):
        """Whether something was published since this was asked last."""
        before, self.versions = self.versions, self.now()
        return before != self.versions


def parts(things, size):
    things = list(things)
    return [things[at : at + size] for at in range(0, len(things), size)]


def went_through(form, answer):
    """Whether a form that is no reading reached the program, but for a pin, or was not answered at all. The program alone
    tells a version. A CONNECT has no path by HTTP/2, and so is not sent."""
    status, headers, text = answer
    if status == 0 and form.method != "CONNECT":
        return True
    return bool(PUBLISHED.search(text)) or (form.method not in ("GET", "HEAD") and "tgap-version" in headers and not PINNED.fullmatch(text) and status != 204)


def faults_of(target, some, ask):
    """Those of some forms that got through, and what came of them."""
    answers = ask(some)
    faults = [(form, answer) for form, answer in zip(some, answers) if went_through(form, answer)]
    if target.has_risen():
        for form in some:
            (answer,) = ask([form])
            if target.has_risen():
                faults.append((form, answer))
        # Where it does not publish once more, it is one of these.
        faults = faults or [(some, (0, {}, ""))]
    return faults


def attack(tests, target, groups, ask, how):
    """Sends groups of forms, each of which must reach nothing, and gives what got through."""
    all_faults = []
    for name, group in groups:
        faults = [fault for some in parts(group, AT_A_TIME) for fault in faults_of(target, some, ask)]
        tests.holds(f"{target.name}: {name}, by {how}", not faults, faults)
        all_faults += faults
    return all_faults


def over_one(tests, target, groups):
    with Wire(target) as wire:
        return attack(tests, target, groups, lambda some: [wire.ask(form) for form in some], "HTTP/1.1")


def over_two(tests, target, front):
    """The same forms, and those that only HTTP/2 has."""
    if not tool("node"):
        tests.skip(f"{target.name}: HTTP/2", "node is missing")
        return
    with Second(front) as second:
        attack(tests, target, forms.groups(target.root, target.host), by_second(second, target), "HTTP/2")
        faults = []
        for headers, body in forms.second_forms(target.root, target.host):
            (answer,) = second.ask([(headers | {name.lower(): value for name, value in target.headers}, body, IN_A_ROW)])
            if target.has_risen() or PUBLISHED.search(answer[2]):
                faults.append((headers, answer))
        tests.holds(f"{target.name}: what only HTTP/2 has", not faults, faults)
        (answer,) = by_second(second, target)([forms.Form("POST", f"{target.root}/map/edit", PASSWORD.items())])
        tests.same(f"{target.name}: the right edit by HTTP/2", (answer[0] == 200, target.has_risen()), (target.edited, target.edited))


def whole_connections(tests, target, asked=lambda name: True):
    """What needs a connection of its own."""
    more = "".join(f"\r\n{name}: {value}" for name, value in target.headers)
    sent = {name: text.replace("\r\nHost:", f"{more}\r\nHost:").encode("latin-1") for name, text in forms.connections(target.root, target.host) if asked(name)}
    faults = []
    for some in parts(sent, CONNECTIONS_AT_A_TIME):
        came = sent_whole(target, [sent[name] for name in some])
        faults += [(name, text) for name, text in zip(some, came) if PUBLISHED.search(text.decode("latin-1"))]
        if target.has_risen():
            faults += [(name, text) for name in some for text in sent_whole(target, [sent[name]]) if target.has_risen()] or [("one of", some)]
    tests.holds(f"{target.name}: whole connections", not faults, faults)
    return [name for name, _ in faults]


def all_of(tests, target, front):
    over_one(tests, target, forms.groups(target.root, target.host))
    over_two(tests, target, front)
    whole_connections(tests, target)


def taken_with_a_password(tests, target):
    """That these attacks would be seen: the right edit is one."""
    with Wire(target) as wire:
        answer = wire.ask(forms.Form("POST", f"{target.root}/map/edit", PASSWORD.items()))
    tests.same(f"{target.name}: the right edit", (answer[0], answer[2][:10], target.has_risen()), (200, "published ", True))


def walls(tests):
    pieces = pieces_of((TOP / "docs/deployment.md").read_text())
    with Program(tests.executable, COLUMBUS) as columbus, Program(tests.executable, SQUARES) as squares:
        as_it_is(tests, columbus)
        of_other_origins(tests, pieces, columbus)
        by_host(tests, pieces, columbus, squares)
        by_path(tests, pieces, columbus, squares)
        on_another_machine(tests, pieces, columbus, squares)
    with_a_loose_cut(tests)
    of_the_example(tests)


def as_it_is(tests, program):
    with Front(program.port) as front:
        target = Target("deploy/nginx.conf", front.socket, [program])
        all_of(tests, target, front)
        taken_with_a_password(tests, target)


def of_other_origins(tests, pieces, program):
    with Front(program.port, lambda text: exchanged(exchanged(text, read_elsewhere(pieces)), edited_elsewhere(pieces))) as front:
        target = Target("with other origins", front.socket, [program], headers=[("Origin", PAGE)])
        all_of(tests, target, front)
        taken_with_a_password(tests, target)


def by_host(tests, pieces, columbus, squares):
    with Front({"columbus": columbus.port, "holland": squares.port}, lambda text: exchanged(text, chosen_by_host(pieces))) as front:
        for host in [NAME, OTHER]:
            target = Target(f"by host, {host}", front.socket, [columbus, squares], host=host)
            all_of(tests, target, front)
            taken_with_a_password(tests, target)


def by_path(tests, pieces, columbus, squares):
    with Front({"columbus": columbus.port, "holland": squares.port}, lambda text: exchanged(text, chosen_by_path(pieces))) as front:
        for root in ["/columbus", "/holland"]:
            target = Target(f"by path, {root}", front.socket, [columbus, squares], root=root)
            all_of(tests, target, front)
            taken_with_a_password(tests, target)


def on_another_machine(tests, pieces, columbus, squares):
    """There nothing goes even with the password, which is one for the map of this machine."""
    with Front(squares.port) as far, Front(columbus.port, lambda text: exchanged(text, passed_on(pieces, far))) as front:
        all_of(tests, Target("on another machine", front.socket, [columbus, squares], root="/holland", edited=False), front)
        knowing = Target("on another machine, with a password", front.socket, [columbus, squares], root="/holland", headers=PASSWORD.items())
        over_one(tests, knowing, elsewhere(forms.groups("/holland", NAME)))


def elsewhere(groups):
    """Groups of forms without those that are an edit of a map of this server."""
    return [(name, [form for form in group if not forms.may_mean_an_edit(form.target, "")]) for name, group in groups]


def cut_loosely(text):
    """The configuration with a cut that takes a last line feed away, and no wall by method before it."""
    wall = "            set $allowed GET;\n            if ($request_method != GET) {\n                return 405;\n            }\n"
    return exchanged(text, [('rewrite "(?s)^/map/(.*)\\z" /$1 break;', "rewrite ^/map/(.*)$ /$1 break;"), (wall, "")])


def with_a_loose_cut(tests):
    """That these forms find a hole where there is one."""
    hole, version = ["/map/edit%0A", "/map/edit%0a"], "/map/edit%0a by HTTP/1.0"
    some = [(name, group) for name, group in forms.groups("", NAME) if name == "a byte after edit"]
    with Program(tests.executable, COLUMBUS) as program, Front(program.port, cut_loosely) as front:
        target = Target("with a hole", front.socket, [program])
        tests.same("the hole is found", published(over_one(Untold(), target, some)), hole)
        tests.same("by an older version of HTTP too", whole_connections(Untold(), target, lambda name: name == version), [version] * 2)
        if tool("node"):
            with Second(front) as second:
                tests.same("and by HTTP/2", published(attack(Untold(), target, some, by_second(second, target), "HTTP/2")), hole)


def published(faults):
    """The targets of the forms that were published."""
    return sorted({form.target for form, answer in faults if PUBLISHED.search(answer[2])})


class Untold:
    """Where a fault is what is looked for."""

    def holds(self, *_):
        pass


class Behind:
    """The program of the example, which nobody else knows the port of."""

    def __init__(self, served):
        self.served = served

    def ask(self, method, path):
        return self.served.ask(method, "/map" + path)


def of_the_example(tests):
    """There an edit wants no password; but one of another page, and one at any other place, is none."""
    with Example(tests.executable) as served:
        behind, host = Behind(served), f"127.0.0.1:{served.port}"

        def connect(source):
            return socket.create_connection(("127.0.0.1", served.port), SECONDS, source_address=(source, 0))

        foreign = Target("the example, of another page", connect, [behind], host=host, headers=EVIL.items())
        over_one(tests, foreign, forms.groups("", host))
        whole_connections(tests, foreign)
        own = Target("the example, at other places", connect, [behind], host=host)
        over_one(tests, own, elsewhere(forms.groups("", host)))
        whole_connections(tests, own, lambda name: " within " in name or not re.search("edit(?!%0a)", name))
        taken_with_a_password(tests, own)
