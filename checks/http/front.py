"""The built program as a server with a front for HTTP, what its clients send by hand, and what they are answered."""
import base64
import os
import re
import socket
import subprocess
import sys
from collections import namedtuple

from lib.cases import same, short
from lib.server import SECONDS, HttpServer
from lib.sites import HOST, Requests, Site, reset, response

# a port at which nothing listens
NO_PORT = 1
# what a front's own answers say, for each of its tests of a request: the status, the type of error and the details
MISASKED = {
    "method": 405, "host": 421, "browser": 403, "field twice": 400, "no credentials": 407, "no token": 400,
    "token": 400,
    "cut": 400, "url long": 400, "url bad": 400, "url scheme": 400, "url user": 400, "authority": 308,
}
VALUE = re.compile(r'crawlgate(?:; received-status=(\d+))?(?:; error=([a-z_]+))?; details="((?:[^"\\]|\\.)*)"')
Told = namedtuple("Told", "received error details")


class Answer(namedtuple("Answer", "version status fields body")):
    """A response: its fields are pairs of a name in lower case and a value, in order."""

    def values(self, name):
        return [value for it, value in self.fields if it == name]

    def value(self, name):
        """Returns the value of a field that stands once, or None."""
        values = self.values(name)
        assert len(values) < 2, f"{name} stands {len(values)} times: {short(self)}"
        return values[0] if values else None

    def told(self):
        """Returns what Proxy-Status says: the site's status, the type of error, and the details."""
        value = self.value("proxy-status")
        found = value is not None and VALUE.fullmatch(value)
        assert found, f"no Proxy-Status that is the gate's: {short(self)}"
        return Told(found[1] and int(found[1]), found[2], re.sub(r"\\(.)", r"\1", found[3]))

    def outcome(self):
        """Returns the status, the type of error, and the details without the number of a permit."""
        told = self.told()
        if told.received is None:
            return self.status, told.error, told.details
        same(told.received, self.status)
        return self.status, told.error, re.sub(r"^\d+ ", "N ", told.details)


class Front(HttpServer):
    """A server with a front, whose numbers are read."""

    def descriptors(self):
        return len(os.listdir(f"/proc/{self.process.pid}/fd"))

    def metrics(self):
        """Returns the numbers by their names, without the prefix."""
        with Talk(self) as it:
            answer = it.ask(head("/metrics", host="localhost"))
        same((answer.status, answer.value("content-type")), (200, "text/plain; version=0.0.4; charset=utf-8"))
        rows = [line.split(" ") for line in answer.body.decode().splitlines() if line[:1] not in ("", "#")]
        return {name.partition("{")[0].removeprefix("crawlgate_"): float(value) for name, value in rows}


class Talk:
    """A client's connection to a front."""

    def __init__(self, server, seconds=SECONDS):
        if server.http_path:
            self.peer = socket.socket(socket.AF_UNIX)
            self.peer.settimeout(seconds)
            self.peer.connect(server.http_path)
        else:
            self.peer = socket.create_connection((HOST, server.http), seconds)
            self.peer.setsockopt(socket.IPPROTO_TCP, socket.TCP_NODELAY, 1)
        self.unread, self.interim = b"", 0

    def __enter__(self):
        return self

    def __exit__(self, *_):
        self.peer.close()

    def send(self, octets):
        self.peer.sendall(octets)

    def reset(self):
        reset(self.peer)
        self.peer.close()

    def _read(self):
        try:
            piece = self.peer.recv(262_144)
        except ConnectionError:
            # (what a server has not read when it closes breaks the connection off)
            piece = b""
        self.unread += piece
        return bool(piece)

    def _up_to(self, mark):
        """Returns what comes up to the mark and after it, or nothing where the connection ends before."""
        while mark not in self.unread:
            if not self._read():
                return b""
        found, _, self.unread = self.unread.partition(mark)
        return found

    def _body(self, count):
        while len(self.unread) < count:
            assert self._read(), f"the body ends after {len(self.unread)} octets of {count}"
        body, self.unread = self.unread[:count], self.unread[count:]
        return body

    def answer(self, is_of_head=False):
        """Returns the next answer; None where the connection ends first."""
        text = self._up_to(b"\r\n\r\n")
        if not text:
            same(self.unread, b"")
            return None
        first, *lines = text.decode("latin-1").split("\r\n")
        found = re.fullmatch(r"HTTP/(1\.[01]) ([1-9]\d\d) [^\r\n]*", first)
        assert found, f"the first line is {first!r}"
        status, fields = int(found[2]), []
        for line in lines:
            name, colon, value = line.partition(": ")
            assert colon and re.fullmatch("[a-z0-9-]+", name.lower()), f"a field is {line!r}"
            fields.append((name.lower(), value))
        if status == 100:
            self.interim += 1
            return self.answer(is_of_head)
        lengths = [value for name, value in fields if name == "content-length"]
        bodiless = is_of_head or status in (204, 304)
        assert bodiless or len(lengths) == 1, f"the lengths are {lengths}: {first}"
        return Answer(found[1], status, fields, b"" if bodiless else self._body(int(lengths[0])))

    def ask(self, octets):
        """Sends a request, and returns its answer."""
        self.send(octets)
        answer = self.answer(octets.startswith(b"HEAD "))
        assert answer, f"no answer to {short(octets)}"
        return answer

    def ends(self):
        """Whether the connection has ended, once nothing is left to read."""
        return not self.unread and not self._read()

    def goes_on(self):
        """Whether the connection answers one more request."""
        self.send(head("/metrics", host="localhost"))
        answer = self.answer()
        return answer is not None and answer.outcome() == (200, None, "metrics")


def basic(pair="foobot:x"):
    return f"Proxy-Authorization: Basic {base64.b64encode(pair.encode()).decode()}"


def authority_of(url):
    return re.sub(r"^[^/]*//([^/?#]*).*", r"\1", url, flags=re.S)


def head(target, *fields, host=None, method="GET", version="1.1"):
    """Returns a request with these fields, and a Host if one is given."""
    lines = [f"{method} {target} HTTP/{version}", *([f"Host: {host}"] if host is not None else []), *fields, "", ""]
    return "\r\n".join(lines).encode("latin-1")


def absolute(url, *fields, pair="foobot:x", **how):
    """Returns a request in absolute form, as of a client that has the gate for its proxy."""
    how.setdefault("host", authority_of(url))
    return head(url, basic(pair), *fields, **how)


def by_path(url, *fields, token="foobot", **how):
    """Returns a request in path form."""
    how.setdefault("host", HOST)
    return head(f"/{url}", f"Crawlgate-Token: {token}", *fields, **how)


FORMS = (absolute, by_path)
# values of Host that are the loopback's
LOOPBACK_FIELDS = ["127.0.0.1", "127.0.0.1:80", "127.0.0.1:", "[::1]", "[::1]:4080", "localhost", "LocalHost:4080"]


def outcome(server, octets):
    """Returns what one request is told, on a connection of its own."""
    with Talk(server) as it:
        return it.ask(octets).outcome()


class Echo(Site):
    """A site whose pages say what was asked for, and by whom, unless another one is given for a target. It keeps who
    asked for what."""

    def __init__(self, pages=(), host=HOST):
        self.seen = []
        super().__init__({"/robots.txt": response(404), **dict(pages)}, host)

    def answer(self, peer, octets, target):
        agent = re.search(rb"(?i)\r\nuser-agent: ([^\r]*)", octets)[1].decode()
        self.seen.append((agent, target))
        if target in self.pages:
            return super().answer(peer, octets, target)
        return peer.sendall(response(200, f"{target} by {agent}".encode()))

    def fetched(self):
        """Returns who asked for which page."""
        return [(agent, target) for agent, target in self.seen if agent != "crawlgate"]


class Reply(Requests):
    """A site without a robots.txt that does what it is asked for each page, with the peer's socket."""

    def __init__(self, act):
        self.act, self.count = act, 0
        super().__init__()

    def answer(self, peer, octets, target):
        if target == "/robots.txt":
            return peer.sendall(response(404))
        self.count += 1
        return self.act(peer)


def running(server):
    """Fails where the server has ended, and says with what."""
    if server.process.poll() is not None:
        raise AssertionError(f"the server ended: {server.process.returncode}, {short(server.process.stderr.read())}")


def python_with(module):
    """Returns a Python that has a module, or None."""
    for it in dict.fromkeys((sys.executable, "/usr/bin/python3")):
        try:
            if subprocess.run([it, "-c", f"import {module}"], capture_output=True).returncode == 0:
                return it
        except OSError:
            pass
    return None
