"""Cases of checks/http about the ways to a front and from it: its port or its socket, the numbers, what a site sees of
a client, https, and line clients beside."""
import contextlib
import http.server
import os
import re
import tempfile
import threading

from answers import RULES
from front import FORMS, HOST, Echo, Front, Talk, absolute, by_path, head, outcome
from lib import tls
from lib.cases import Skipped, same
from lib.server import Session
from lib.sites import Site, response

METRICS = [
    "entries", "entries_total", "starts_total", "permits", "running", "turns", "authorities", "room",
    "connections_total", "clients", "waiting",
    "denied_by_lines_total", "denied_closed_total", "denied_unknown_total", "denied_expired_total",
    "denied_spent_total", "failed_pages_total",
    "failed_robots_total", "journal_octets_total", "journal_syncs_total", "journal_slowest_sync_microseconds",
    "robots_no_name_total", "robots_refused_total", "robots_timed_out_total", "robots_tls_total", "robots_status_total",
    "robots_other_total",
    "http_connections", "http_waiting", "http_waiting_visits", "http_visits",
]


def metrics():
    """The numbers are INFO's, in the text of Prometheus."""
    site = Echo()
    with Front() as server, Session(server) as line:
        for _ in range(3):
            same(outcome(server, absolute(site.url("/x")))[0], 200)
        found = server.metrics()
        missing = [it for it in METRICS if it not in found]
        assert not missing, f"there is no {missing} among {sorted(found)}"
        words = line.say("INFO").split(" ")
        numbers = dict(zip(words[1::2], words[2::2]))
        for name, other in [
            ("entries", "entries"), ("ever", "entries_total"), ("starts", "starts_total"), ("permits", "permits"),
            ("running", "running"), ("turns", "turns"), ("authorities", "authorities"),
        ]:
            same((name, float(numbers[name])), (name, found[other]))
        same((found["entries_total"], found["starts_total"], found["authorities"], found["clients"]), (11, 3, 1, 1))
        with Talk(server) as it:
            text = it.ask(head("/metrics", host="localhost")).body.decode()
        for line_of in text.splitlines():
            assert re.fullmatch(
                r"# (HELP|TYPE) crawlgate_[a-z_]+ .+|crawlgate_[a-z_]+(\{.*\})? -?[0-9.e+-]+", line_of,
            ), line_of


class Heads(Site):
    """A site that keeps the heads of the requests for its pages, and answers 304 to a condition."""

    def __init__(self):
        self.heads = []
        super().__init__({})

    def answer(self, peer, octets, target):
        if target != "/robots.txt":
            self.heads.append(octets.decode("latin-1").split("\r\n"))
        is_known = b'\r\nIf-None-Match: "a"\r\n' in octets
        peer.sendall(response(404) if target == "/robots.txt" else response(304 if is_known else 200, b"", 'ETag: "a"'))


# fields of a client, and those of which --forward hands on
GIVEN = [
    'If-None-Match: "a"', "If-Modified-Since: Mon, 30 Nov 2026 00:00:00 GMT", "Accept: text/html",
    "Accept-Language: de",
]
OTHERS = [
    "User-Agent: Mozilla", "Cookie: a=b", "Referer: http://a.example/", "Range: bytes=0-1", "Accept-Encoding: gzip",
    "Authorization: Basic Zm9vYm90Ong=",
    "X-Forwarded-For: 10.0.0.1", "If-Match: *", "If-Range: x", "Via: 1.1 a", "From: a@a.example",
    "Connection: keep-alive, accept", "TE: trailers",
]
ODD = [
    [it] for it in ("Accept: ", f"Accept: {'x' * 1_025}", "Accept: \t\xe9", "Accept-Language: d\xe9")
] + [["Accept: a", "Accept: b"], ['If-None-Match: "a"'] * 2]


def request_to_the_site():
    """A site sees no field of a client; with --forward four of them, as they came, unless they stand twice or are
    long."""
    site = Heads()
    own = [f"Host: {site.authority}", "User-Agent: foobot", "Accept: */*", "Accept-Encoding: identity"]
    rows = [
        ([], [*GIVEN, *OTHERS], []), (["--forward"], [*OTHERS, *GIVEN], GIVEN), (["--forward"], GIVEN[3:], GIVEN[3:]),
        *((["--forward"], it, []) for it in ODD),
    ]
    for words, fields, forwarded in rows:
        with Front(*words) as server, Talk(server) as it:
            for form in FORMS:
                answer = it.ask(form(site.url("/x?y"), *fields))
                is_known = GIVEN[0] in forwarded
                same(
                    (answer.outcome(), answer.value("etag"), answer.body),
                    ((304 if is_known else 200, None, "N open"), '"a"', b""),
                )
                same(site.heads.pop(), ["GET /x?y HTTP/1.1", *own, *forwarded, "Connection: close", "", ""])


def https_in_path_form():
    """A page of https is fetched by a plain GET in path form, through the program of --tls-by."""
    if tls.missing():
        raise Skipped(tls.missing())
    with tempfile.TemporaryDirectory() as folder:
        contexts = tls.make_certificates(folder)
        with https_site(contexts["good"]) as url, tls.by_stand_in(folder) as address, Front(
            "--tls-by", address,
        ) as server:
            authority = url.partition("//")[2]
            with Talk(server) as it:
                answer = it.ask(by_path(f"{url}/x"))
                same((answer.outcome(), answer.body), ((200, None, "N norule"), b"hello"))
                same(
                    it.ask(by_path(f"{url}/private/x")).outcome(),
                    (403, "http_request_denied", f"https://{authority} line 2"),
                )
                same(it.ask(by_path(f"{url}/moved")).value("location"), f"/{url}/x")
                # (a proxy's client sends CONNECT for https, or is no proxy's client)
                same(it.ask(absolute(f"{url}/x")).outcome(), (200, None, "N norule"))


@contextlib.contextmanager
def https_site(context):
    """A site of https with rules, and its URL."""

    class Handler(http.server.BaseHTTPRequestHandler):
        pages = {
            "/robots.txt": response(200, RULES), "/x": response(200, b"hello"),
            "/moved": response(302, b"", "Location: /x"),
        }

        def do_GET(self):
            self.wfile.write(self.pages.get(self.path, response(404)))

        def log_message(self, *_):
            pass

    server = http.server.ThreadingHTTPServer((HOST, 0), Handler)
    server.socket = context.wrap_socket(server.socket, server_side=True, do_handshake_on_connect=False)
    threading.Thread(target=server.serve_forever, daemon=True).start()
    try:
        yield f"https://localhost:{server.server_port}"
    finally:
        server.shutdown()


def at_a_socket():
    """The front may be at the path of a socket."""
    site = Echo()
    with tempfile.TemporaryDirectory() as folder, Front(path=f"{folder}/http") as server:
        for form in FORMS:
            same(outcome(server, form(site.url("/x"))), (200, None, "N open"))
        assert os.stat(f"{folder}/http").st_mode & 0o077 == 0, oct(os.stat(f"{folder}/http").st_mode)


def lines_beside():
    """Line clients and clients of HTTP share one gate: an answer that one of them had fetched, and one history."""
    site = Echo({"/robots.txt": response(200, RULES)})
    a, x = site.authority, site.url("/x")
    with Front("--connections", "1") as server, Session(server) as line:
        same(outcome(server, absolute(x)), (200, None, "N norule"))
        same(line.say(f"STATE {a}"), f"STATE {a} rules idle")
        number = line.say(f"ASK foobot {x}").removeprefix("PERMIT ")
        same(line.say(f"START {number} foobot {x}"), f"GO {number} norule")
        same(outcome(server, by_path(x)), (200, None, "N norule"))
        same(line.say(f"DONE {number}"), f"DONE {number}")
        same(line.say("QUIT"), "BYE")
        same(server.end(), (b"SERVED connections 1 events 11\n", 0, b""))
    same(site.asked.count("/robots.txt"), 1)


CASES = [metrics, request_to_the_site, https_in_path_form, at_a_socket, lines_beside]
