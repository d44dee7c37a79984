"""Cases of checks/examples with clients of a front for HTTP: Front of crawlgate_front.py, and crawlgate.sh by curl; and
the types of the clients in Python."""
import contextlib
import os
import re
import shutil
import subprocess
import sys
import tempfile

from lib.cases import Skipped, same
from lib.program import ROOT
from lib.server import SECONDS, HttpServer, RestartedFront, side_by_side
from lib.sites import Site, response

CLIENTS = f"{ROOT}/examples/clients"
sys.path.insert(0, CLIENTS)
from crawlgate import Front, Page

RULES = b"user-agent: *\ndisallow: /private/\n"
FIELDS = [("content-type", "text/html"), ("etag", '"a"'), ("link", "</y>"), ("link", "</z>")]
LONG = 1_048_577


def site_of(more=()):
    lines = [f"{name.title()}: {value}" for name, value in FIELDS]
    return Site({
        "/robots.txt": response(200, RULES), "/x": response(200, b"page", *lines, "Set-Cookie: a=b"),
        "/none": response(404, b"none"), "/moved": response(302, b"", "Location: x?a=\xe9#y"),
        "/to-private": response(302, b"", "Location: /private/x"), "/long": response(200, b"x" * LONG),
        "/coded": response(200, b"", "Content-Encoding: br"), **dict(more),
    })


def outcome(front, url):
    """Returns the status and the reason of a page, or the kind of what is raised, and its words."""
    try:
        page = front.fetch(url)
    except Exception as error:
        return type(error).__name__, str(error)
    return page.status, page.reason


def pages_by_http():
    """A page has its status, fields and body; what is none is denied, refused or failed, as the gate says."""
    site = site_of()
    a, x = site.authority, site.url("/x")
    with HttpServer() as server, Front(server.front, "FooBot") as front:
        same(front.fetch(f"{x}#y"), Page(x, 200, FIELDS, b"page", 65536, "norule", False))
        page = front.fetch(site.url("/moved"))
        same((page.status, page.location), (302, site.url("/x?a=%C3%A9#y")))
        same(page.field("Location"), "x?a=\u00c3\u00a9#y")
        page = front.fetch(site.url("/long"))
        same((len(page.body), page.is_cut, page.location), (LONG - 1, True, None))
        # (the gate decides a host as it writes it, and some characters stand escaped in a request)
        same(front.fetch(x.replace("127.0.0.1", "127.1")).url, x)
        same(front.fetch(site.url("/<`>?<`>\"")).url, site.url("/%3C%60%3E?%3C`%3E%22"))
        rows = {
            site.url("/none"): (404, "norule"), site.url("/private/x"): ("Denied", f"{a}: line 2"),
            "ftp://a.example/": ("Refused", "url scheme"), "http://u:p@a.example/": ("Refused", "url user"),
            "http://a.example/a b": ("Refused", "url chars"), "/metrics": ("Refused", "url bad"),
            f"http://a.example/{'x' * 4096}": ("Refused", "url long"), "http://[/": ("Refused", "status 400"),
            site.url("/coded"): ("Failed", "http_response_content_coding: the body is in a coding that is not read"),
            "http://127.0.0.1:1/": ("Denied", "127.0.0.1:1: closed"), x: (200, "norule"),
        }
        for url, wanted in rows.items():
            same((url, outcome(front, url)), (url, wanted))
        same(outcome(Front(server.front, "no token"), x), ("Refused", "token"))
    same([it for it in site.asked if it.startswith("/private")], [])


class Fatal(Site):
    """A site that makes a call, once, when its page /5 is asked for."""

    def __init__(self, call):
        self.call = call
        super().__init__({f"/{it}": response(200, b"page") for it in range(9)})

    def page(self, target):
        if target == "/5" and self.asked.count(target) == 1:
            self.call()
        return super().page(target)


def a_front_that_comes_back():
    """All pages arrive though the server is killed while one is under way, and started again two seconds later; one
    that stays away is an error."""

    def play(is_socket):
        folder = stack.enter_context(tempfile.TemporaryDirectory())
        with RestartedFront(path=f"{folder}/http" if is_socket else None) as server:
            site = Fatal(server.restart)
            with Front(server.front, "foobot", away=20) as front:
                same([front.fetch(site.url(f"/{it}")).body for it in range(9)], [b"page"] * 9)
            same((site.asked.count("/5"), len(site.asked)), (2, 9 + 1 + 2))
            with Front(server.front, "foobot", away=1) as front:
                same(outcome(front, site.url("/1")), (200, "open"))
                server.timer.join()
                server.kill()
                same(outcome(front, site.url("/1"))[0], "ConnectionRefusedError")
                server.start()
                same(outcome(front, site.url("/1")), (200, "open"))

    with contextlib.ExitStack() as stack:
        side_by_side(play, [False, True])


def kept_connections_end():
    """A front that has closed an idle connection is connected to again, and each page is asked for once."""
    site = site_of()
    with HttpServer("--patience", "1") as server, Front(server.front, "foobot") as front:
        for _ in range(2):
            same(outcome(front, site.url("/x")), (200, "norule"))
            # (longer than the server's patience)
            subprocess.run(["sleep", "2"])
    same(site.asked, ["/robots.txt", "/x", "/x"])


def client_by_curl():
    """crawlgate.sh fetches a page and what it leads to, at a port and at a socket, and says of each what the gate
    says."""
    if not shutil.which("curl"):
        raise Skipped("there is no curl")
    site = site_of({"/loop": response(302, b"", "Location: /loop"), "/[a-b]{c}": response(200, b"braces")})
    denied = f'error=http_request_denied; details="{site.authority} line 2"'
    rows = [
        ("/x", b"page", ["received-status=200; details=\"N norule\""], 0),
        ("/y/../<x>", b"", ["received-status=404; details=\"N norule\""], 0),
        ("/to-private", b"", ["received-status=302; details=\"N norule\"", denied], 1),
        ("/private/x", b"", [denied], 1),
        ("/long", b"", ["error=http_response_body_size; details=\"cut\""], 1),
        ("/loop", b"", ["curl: (47) Maximum (5) redirects followed", "crawlgate.sh: no page"], 1),
        ("/%5Ba-b%5D%7Bc%7D", b"", ["received-status=404; details=\"N norule\""], 0),
        ("/[a-b]{c}", b"", ["received-status=404; details=\"N norule\""], 0),
    ]
    with tempfile.TemporaryDirectory() as folder:
        for path in (None, f"{folder}/http"):
            with HttpServer(path=path) as server:
                for target, body, told, status in rows:
                    same((target, *by_curl(server.front, site.url(target))), (target, body, told, status))
                same(by_curl(server.front, "ftp://a/"), (b"", ['error=http_request_error; details="url scheme"'], 1))
        same(by_curl("1", site.url("/x"))[::2], (b"", 1))
    same([it for it in site.asked if it.startswith("/private")], [])


def by_curl(place, url):
    """Returns what crawlgate.sh writes, the lines of its standard error without the numbers of permits, and its status.
    Nothing of the environment leads it past the gate."""
    proxies = dict.fromkeys(("http_proxy", "https_proxy", "all_proxy"), "http://127.0.0.1:1/")
    words = [f"{CLIENTS}/crawlgate.sh", place, "fetch", "foobot", url]
    ran = subprocess.run(words, capture_output=True, timeout=SECONDS, env={**os.environ, **proxies})
    lines = [re.sub(r'^(received-status=.*; details=")\d+', r"\1N", it) for it in ran.stderr.decode().splitlines()]
    return ran.stdout, lines, ran.returncode


def clients_have_types():
    """mypy finds nothing in the clients, as strict as it is."""
    if not shutil.which("mypy"):
        raise Skipped("there is no mypy")
    with tempfile.TemporaryDirectory() as folder:
        files = [f"{CLIENTS}/{it}.py" for it in ("crawlgate", "crawlgate_base", "crawlgate_front", "crawlgate_threads")]
        words = ["mypy", "--strict", "--cache-dir", folder, *files, f"{ROOT}/examples/archive.py"]
        environment = {**os.environ, "MYPYPATH": CLIENTS}
        ran = subprocess.run(words, capture_output=True, text=True, timeout=4 * SECONDS, env=environment)
    same((ran.returncode, ran.stderr), (0, ""))


CASES = [pages_by_http, a_front_that_comes_back, kept_connections_end, client_by_curl, clients_have_types]
