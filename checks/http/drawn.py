"""Cases of checks/http with drawn requests: a second reading says what each asks for, and so what it must be told. No
page of a site without a start of its token and URL in the history, and no request that is read in two ways."""
import itertools
import os
import random
import re
import sys
import tempfile
from collections import Counter
from concurrent.futures import ThreadPoolExecutor

import asked
from front import HOST, LOOPBACK_FIELDS, MISASKED, NO_PORT, Echo, Front, Talk, basic, running
from lib import reading
from lib.cases import same, short
from lib.server import Session
from lib.sites import response

sys.path.append(f"{os.path.dirname(os.path.dirname(os.path.realpath(__file__)))}/serve")
from journals import audit, text_of

SEED, FEW, MANY = 20261130, 2_000, 10_000
# (the options of the script)
seed, count = SEED, FEW
CLIENTS = 4
RULES = (
    b"User-agent: *\nDisallow: /private\nAllow: /private/map\nDisallow: /*.gif$\n\nUser-agent: barbot\nDisallow: "
    b"/b\n"
)
KINDS = {"rules": response(200, RULES), "open": response(404), "closed": response(503)}
SCHEMES = ["http://", "HTTP://", "Http://", "http:/", "http:", "http:\\\\", "https://", "ftp://", "", "//", "http:///"]
# how an authority of the loopback may be written: the first way is the gate's
SPELLINGS = [
    "127.0.0.1:{}", "127.1:{}", "127.0.0.1:0{}", "0x7f.1:{}", "%3127.0.0.1:{}", "user@127.0.0.1:{}", "@127.0.0.1:{}",
    "user:x@127.0.0.1:{}", "127.0.0.1.:{}", "2130706433:{}",
]
PIECES = [
    "a", "b", "x", "/", "/", "?", "=", "&", "#", "%", ".gif", "private", "private/map", "robots.txt", "//", "/./",
    "/../", "%2e%2e", "%2E", "%2f", "%2F", "%7e", "%C3%A9", "é", "日", ";", ":", "@", "[", "]", "{", "}", "|", "\\", "^",
    "`", '"', "<", "'", "~", "*", "$", "+", ",", "http://",
]
METHODS = ["GET", "HEAD", "POST", "OPTIONS", "CONNECT", "PUT", "get", "G,ET", "TRACE"]
VERSIONS = [
    "HTTP/1.1", "HTTP/1.0", "HTTP/1.0", "HTTP/1.0", "HTTP/1.2", "HTTP/2.0", "http/1.1", "HTTP/1.1 ", "HTTP/01.1",
]
TOKENS = ["foobot", "barbot", "FooBot", "foo bot", "foobot/1.0", "", "x" * 64, "x" * 65, "*"]
HOSTS = ["a.example", "127.0.0.1:80x", "localhost.", "127.0.0.2", "", "a b", "[::1", "[::2]", "LOCALHOST:1"]
MORE = [
    "Origin: http://a.example", "Origin:", "Sec-Fetch-Site: cross-site", "sec-fetch-site: none", "Crawlgate-Cut: pass",
    "crawlgate-cut: PASS",
    "Crawlgate-Cut: cut", "Crawlgate-Token: barbot", "Connection: close", "Connection: keep-alive",
    "Connection: x, close", "Host: a.example",
    "Content-Length: 0", "Content-Length: 5", "Content-Length: 0, 0", "Content-Length: -1", "Content-Length: 00",
    "Transfer-Encoding: chunked",
    "Transfer-Encoding: gzip", "Transfer-Encoding: gzip, chunked", "Transfer-Encoding: chunked, chunked",
    "transfer-encoding:chunked", "Expect: x",
    "Accept: */*", "Cookie: a=b", "X: \t y \t", "X:", " folded", "No colon", "Sp ace: x", "X : y", ": empty",
    "X-\xff: y", "X: \x01", "X: \xff", "Upgrade: h2c",
    "X-Forwarded-For: 127.0.0.1", "Forwarded: host=127.0.0.1", "If-None-Match: *", "Range: bytes=0-1",
    "Proxy-Connection: keep-alive",
]
CREDENTIALS = [
    "Proxy-Authorization: Basic", "Proxy-Authorization: Basic ====", "Proxy-Authorization: Bearer Zm9vYm90Ong=",
    "Proxy-Authorization: basic   Zm9vYm90Ong=",
    "Proxy-Authorization: Basic Zm9vYm90Ong", "Proxy-Authorization: Basic Zm9vYm90Onh=",
    "Authorization: Basic Zm9vYm90Ong=", "proxy-authorization:BASIC Zm9vYm90Og==",
]
BODIES = [
    b"", b"0\r\n\r\n", b"hello", b"5\r\nhello\r\n0\r\n\r\n", b"0;a=b\r\nX: y\r\n\r\n", b"x\r\n", b"\r\n", b"\n",
    b"0\n\n",
]


class Drawn:
    """Requests that are drawn from dice, of pages of these sites."""

    def __init__(self, dice, ports):
        self.dice, self.ports = dice, ports

    def one_in(self, count):
        return self.dice.randrange(count) == 0

    def stream(self):
        """Returns the octets of up to five requests, of which one may be changed."""
        octets = b"".join(self.request() for _ in range(self.dice.randrange(1, 6)))
        return self.changed(octets) if self.one_in(6) else octets

    def changed(self, octets):
        """Returns the octets with one that is changed, left out or more, or cut."""
        at, kind = self.dice.randrange(len(octets)), self.dice.randrange(4)
        other = bytes([self.dice.choice(b"\r\n\t :/?#%@[]{}\\\x00\x7f\xffA0")])
        return octets[:at] + [other + octets[at + 1 :], octets[at + 1 :], other + octets[at:], b""][kind]

    def request(self):
        """Returns a request, of which each part is right mostly."""
        self.form = self.dice.choice(["absolute", "path"])
        line = f"{self.drawn(METHODS, 20)} {self.target()} {self.drawn(VERSIONS, 20)}\r\n"
        fields = self.fields()
        self.dice.shuffle(fields)
        lines = "".join(f"{it}\r\n" for it in fields)
        return line.encode() + lines.encode("latin-1") + b"\r\n" + self.drawn(BODIES, 30)

    def drawn(self, values, count):
        """Returns the first value, but for one in that many."""
        return self.dice.choice(values) if self.one_in(count) else values[0]

    def target(self):
        if self.one_in(40):
            return self.dice.choice(
                ["*", "/metrics", "/", "//", "/metrics?x", "127.0.0.1:80", "/http%3A//x/", "://x/", "/*"]
            )
        page = self.drawn(SCHEMES, 15) + self.drawn(SPELLINGS, 10).format(self.dice.choice(self.ports))
        page += self.drawn(["/", "", "?", "#"], 10) + "".join(self.dice.choices(PIECES, k=self.dice.randrange(5)))
        return page if self.form == "absolute" else f"/{page}"

    def fields(self):
        """Returns fields that fit the form, mostly, and others."""
        token = self.dice.choice(TOKENS if self.one_in(10) else TOKENS[:2])
        names = [
            basic(f"{token}:{self.dice.choice(['x', '', 'a:b'])}")
        ] if self.form == "absolute" else [f"Crawlgate-Token: {token}"]
        if self.one_in(20):
            names = self.dice.choices([*names, *CREDENTIALS], k=self.dice.randrange(3))
        hosts = [f"Host: {self.dice.choice(HOSTS if self.one_in(4) else LOOPBACK_FIELDS)}"] * (not self.one_in(40))
        return [*hosts, *names, *self.dice.choices(MORE, k=self.dice.randrange(1, 3) if self.one_in(4) else 0)]

    def pieces(self, octets):
        """Returns the octets in pieces."""
        if self.one_in(3):
            return [octets]
        places = sorted(self.dice.choices(range(len(octets) + 1), k=self.dice.choice([1, 1, 3, 8])))
        return [octets[one:other] for one, other in itertools.pairwise([0, *places, len(octets)])]


class Play:
    """The sites, what each is asked for, and what the server tells."""

    def __init__(self):
        self.sites = {kind: Echo({"/robots.txt": robots}) for kind, robots in KINDS.items()}
        self.kinds = {site.authority: kind for kind, site in self.sites.items()}
        self.records = [reading.record_of(line) for line in reading.lines_of(RULES)]
        self.told = Counter()

    def ports(self):
        return [
            it.partition(":")[2] for it in self.kinds for _ in range(2 + 3 * (self.kinds[it] == "rules"))
        ] + [str(NO_PORT)]

    def verdict(self, page):
        """Returns whether a page is allowed, and why; None where that is not known."""
        authority, target = parts_of(page.url)
        kind = self.kinds.get(authority, "closed" if authority == f"{HOST}:{NO_PORT}" else None)
        if kind == "rules":
            return reading.verdict(self.records, page.token, target.encode())
        return kind and (kind == "open", kind)

    def wanted(self, page):
        """Returns what a page is told, and its body; None where that is not known."""
        found = self.verdict(page)
        if found is None:
            return None
        (authority, target), (is_allowed, why) = parts_of(page.url), found
        if not is_allowed:
            return (403, "http_request_denied", f"{authority} {why}"), b""
        if target == "/robots.txt":
            robots = KINDS[self.kinds[authority]]
            return (int(robots[9:12]), None, f"N {why}"), robots.partition(b"\r\n\r\n")[2]
        return (200, None, f"N {why}"), f"{target} by {page.token}".encode()


def parts_of(url):
    """Returns the authority and the target of a page."""
    return re.fullmatch("http://([^/]*)(/.*)", url).groups()


def expect_answer(play, wish, answer):
    """Fails if the answer to a request is not the one that is due, and returns what was told."""
    if isinstance(wish, asked.Ends):
        assert answer and answer.status in wish.statuses and answer.value(
            "connection"
        ) == "close", f"{short(answer)} for {wish}"
        return "refused"
    assert answer, f"the connection ended at {wish}"
    if isinstance(wish, asked.Untold):
        return "not told here"
    if isinstance(wish, asked.Page):
        return expect_page(play, wish, answer)
    if isinstance(wish, asked.Metrics):
        same(answer.outcome(), (200, None, "metrics"))
        return "numbers"
    error = "proxy_internal_response" if wish.details == "authority" else "http_request_error"
    same((answer.outcome(), answer.value("location")), ((MISASKED[wish.details], error, wish.details), wish.location))
    return wish.details


def expect_page(play, page, answer):
    wanted = play.wanted(page)
    if wanted is None:
        return "another site"
    same((answer.outcome(), answer.body), wanted)
    return "denied" if answer.status == 403 else "page"


def drawn_streams(play):
    """Returns streams in pieces, whose requests are that many together as are to be read."""
    streams, requests, number = [], 0, 0
    while requests < count:
        drawn = Drawn(random.Random(f"{seed} {number}"), play.ports())
        pieces = drawn.pieces(drawn.stream())
        streams.append((number, pieces, asked.requests_of(b"".join(pieces))))
        requests, number = requests + len(streams[-1][2]), number + 1
    return streams


def try_stream(play, server, number, pieces, requests):
    """Sends a stream, and compares each answer, and whether the connection goes on, with the second reading. Returns
    each page's answer."""
    answers = []
    try:
        with Talk(server) as it:
            try:
                for piece in pieces:
                    it.send(piece)
                it.peer.shutdown(1)
            except OSError:
                # (it may end before all is sent)
                pass
            for request in requests:
                answers.append(it.answer(request.method == b"HEAD"))
                play.told[expect_answer(play, request.wish, answers[-1])] += 1
                # (to a client of HTTP/1.0 nothing need be said of it)
                is_last = answers[-1].value("connection") == "close" or request.minor == b"0" and not request.goes_on
                same(is_last, not request.goes_on)
            same(it.ends(), True)
    except (AssertionError, OSError) as error:
        running(server)
        raise AssertionError(f"stream {number}: {error}; sent {b''.join(pieces)!r}; read as {requests}") from error
    return [
        (answer, request.wish) for answer, request in zip(answers, requests) if isinstance(request.wish, asked.Page)
    ]


def pages_of(told):
    """Returns how often each page of a site was told, by token and URL."""
    return Counter((wish.token, wish.url) for answer, wish in told if answer.told().received is not None)


def starts_of(text):
    """Returns how often each token and URL stands in the history as started."""
    grants, found = {}, Counter()
    for line in text.splitlines():
        words = line.split(" ")
        if words[0] == "G":
            grants[words[2]] = tuple(words[3:5])
        elif words[0] == "S":
            found[grants[words[2]]] += 1
    return found


def drawn_requests():
    """Each stream's answers are those that a second reading wants. Each page that was answered has its start, each
    start its page, and each request of a site its start."""
    play, told = Play(), []
    with tempfile.TemporaryDirectory() as folder:
        words = ["--journal", f"{folder}/journal", "--journal-sync", "never", "--fetchers", "8", "--connections", "1"]
        with Front(*words) as server, Session(server) as line:
            for authority in play.kinds:
                assert line.say(f"REFRESH {authority}").startswith("TAKEN "), authority
            with ThreadPoolExecutor(CLIENTS) as pool:
                for found in pool.map(lambda it: try_stream(play, server, *it), drawn_streams(play)):
                    told += found
            same(line.say("QUIT"), "BYE")
            output, status, error = server.end()
            text = text_of(f"{folder}/journal")
        events = re.fullmatch(rb"SERVED connections 1 events (\d+)\n", output)
        assert events and (status, error) == (0, b""), short((output, status, error))
        starts = starts_of(text)
        same(audit(text), f"OK events {int(events[1])} starts {starts.total()}\n")
    same(pages_of(told), starts)
    seen = Counter(it for site in play.sites.values() for it in seen_by(site))
    assert not seen - starts, f"asked of the sites without a start: {short(seen - starts)}"
    counts = ", ".join(f"{number:,} {what}" for what, number in play.told.most_common())
    return f"seed {seed}: {counts}; {starts.total():,} starts"


def seen_by(site):
    """Returns the token and the URL of each request of a page, as the site got it."""
    return [(agent, site.url(target)) for agent, target in site.fetched()]


CASES = [drawn_requests]
