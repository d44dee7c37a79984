"""Cases of checks/serve with a server that is killed and started again, under the client in Python."""
import contextlib
import itertools
import tempfile
import time

from lib.cases import in_time, same
from lib.server import SECONDS, Restarted, side_by_side
from lib.sites import Site, response
from clients import python_client

CLIENT = python_client()
PAGES = 40
RULES = b"user-agent: *\ndisallow: /private/\n"


class Fatal(Site):
    """A site whose page /20 is asked for when something ends, which is called then, once."""

    def __init__(self, ends):
        self.ends = ends
        numbers = [f"/{it}" for it in range(PAGES)]
        super().__init__({"/robots.txt": response(200, RULES), **{it: response(200, it.encode()) for it in numbers}})

    def page(self, target):
        if target == "/20" and self.asked.count(target) == 1:
            self.ends()
        return super().page(target)

    def urls(self):
        return [self.url(f"/private/{it}" if it % 7 == 3 else f"/{it}") for it in range(PAGES)]


def gate_of(restarted, **named):
    return CLIENT.Gate.at(str(restarted.place), SECONDS, **named)


def by_permit(gate, url):
    with gate.permit("foobot", url) as permit:
        return permit.open(SECONDS).read()


def by_fetch(gate, url):
    fetched = gate.fetch("foobot", url)
    return fetched.body if fetched.is_page else fetched.hops[-1].encode()


def what_came(gate, urls, get):
    """Returns what came of each URL."""
    got = []
    for url in urls:
        try:
            got.append(get(gate, url))
        except CLIENT.Denied as denied:
            got.append(f"NO {denied}".encode())
    return got


def comes_back():
    """All allowed pages arrive, by permits and by FETCH, with a journal and without, though the server is killed while
    a page is under way, and is started again two seconds later."""

    def play(get, is_journal, is_socket):
        with tempfile.TemporaryDirectory() as folder, contextlib.ExitStack() as stack:
            words = ["--journal", f"{folder}/journal"] if is_journal else []
            server = stack.enter_context(Restarted(*words, path=f"{folder}/gate" if is_socket else None))
            site = Fatal(server.restart)
            wanted = [it.removeprefix(site.url("")).encode() for it in site.urls()]
            denied = f"NO {site.authority}".encode()
            with gate_of(server) as gate:
                got = what_came(gate, site.urls(), get)
            same(
                [denied if it.startswith(denied) else it for it in got],
                [denied if b"private" in it else it for it in wanted],
            )
            # (the page under way is fetched again where the gate fetches it)
            asked = [it for it in site.asked if it != "/robots.txt"]
            same(
                (len(asked), len(set(asked))),
                (len(set(asked)) + (get is by_fetch), sum(b"private" not in it for it in wanted)),
            )

    side_by_side(lambda row: play(*row), list(itertools.product((by_permit, by_fetch), (False, True), (False, True))))


def stays_away():
    """A server that is away for longer than it is waited for is an error, at once from then on; and once it is there
    again, the next line is answered."""
    site = Fatal(None)
    with Restarted() as server, gate_of(server, away=1) as gate:
        same(by_permit(gate, site.url("/1")), b"/1")
        server.kill()
        for least, most in ((1, 10), (0, 0.9)):
            began = time.monotonic()
            same(error_of(by_permit, gate, site.url("/2")), "ConnectionRefusedError")
            in_time(time.monotonic() - began, most, least)
        server.start()
        same(by_permit(gate, site.url("/2")), b"/2")
        gate.close()
        same(error_of(gate.state, site.authority), "ConnectionError")


def error_of(call, *words):
    try:
        return f"none, but {call(*words)!r}"
    except OSError as error:
        return type(error).__name__


def numbers_of_before():
    """A server without a journal grants the numbers of before again: the end of an old fetch does not end another
    page's."""
    site = Fatal(None)
    with Restarted() as server, gate_of(server) as gate:
        first = contextlib.ExitStack()
        first.enter_context(gate.permit("foobot", site.url("/1")))
        old = gate.ask("foobot", site.url("/2"))
        server.kill()
        server.start()
        with gate.permit("foobot", site.url("/3")):
            first.close()
            same(gate.info()["running"], 1)
            same(error_of(gate.start, old, "foobot", site.url("/2")), "ConnectionError")
            new = gate.ask("foobot", site.url("/2"))
            same((new, gate.start(new, "foobot", site.url("/2"))), (old, "norule"))
            gate.done(new)
        same(gate.info()["running"], 0)


CASES = [comes_back, stays_away, numbers_of_before]
