"""Cases of checks/serve in which the clocks of the server are moved (lib/clocks.c): the wall clock is ahead for a
while, or set back, and no answer lasts longer for it than a day of the steady clock; or seconds pass at which a closed
site is tried anew (--retry-closed). They need a C compiler."""
import functools
import inspect
import socket
import tempfile
import time
import urllib.error
import urllib.request

from journals import Recorded, audit
from lib.cases import same
from lib.clocks import Clocks
from lib.server import SECONDS, HttpServer, Server, Session
from lib.sites import HOST, Site, free_port, open_site, response

DAY = 86_400
TEN_YEARS = 3_650 * DAY
DENIED = response(200, b"User-agent: *\nDisallow: /\n")


def with_clocks(case):
    @functools.wraps(case)
    def made():
        with tempfile.TemporaryDirectory() as folder:
            clocks = Clocks(folder)
            clocks.begin()
            try:
                return case(folder, clocks)
            finally:
                clocks.end()

    # (what the case has it has of this one)
    made.__signature__ = inspect.Signature()
    return made


def say(server, *lines):
    """Returns the replies to these lines, in a session of their own: one that waits while the steady clock is moved is
    ended."""
    with Session(server) as it:
        return it.say_all(lines)


def is_past(server, site):
    """Whether the site's answer is past its life; a sweep may have dropped it since."""
    return say(server, f"STATE {site.authority}")[0].split(" ")[2] in ("expired", "unknown")


@with_clocks
def clock_ahead_for_one_fetch(_folder, clocks):
    """A robots.txt that was fetched while the wall clock was ten years ahead counts for a day, and is then fetched
    anew."""
    site = open_site()
    a, x = site.authority, site.url("/x")
    with Server() as server:
        same(say(server, f"REFRESH {a}"), [f"TAKEN {a} open"])
        clocks.move(wall=TEN_YEARS)
        same(say(server, f"REFRESH {a}"), [f"TAKEN {a} open"])
        site.pages["/robots.txt"] = DENIED
        clocks.move(steady=DAY - 60)
        same(say(server, f"STATE {a}", f"ASK foobot {x}"), [f"STATE {a} open idle", "PERMIT 65536"])
        clocks.move(steady=DAY + 1)
        assert is_past(server, site)
        assert say(server, f"ASK foobot {x}")[0] in (f"NO {a} expired", f"NO {a} unknown")
        same(say(server, f"FETCH foobot {x}")[0], f"HOP 1 NO {a} line 2")


@with_clocks
def clock_set_back_meanwhile(_folder, clocks):
    """Each hour the wall clock is set back by an hour: a day later the answer has expired all the same."""
    site = open_site()
    a = site.authority
    with Server() as server:
        same(say(server, f"REFRESH {a}"), [f"TAKEN {a} open"])
        for hour in range(1, 24):
            clocks.move(wall=-3_600 * hour, steady=3_600 * hour)
            same(say(server, f"STATE {a}"), [f"STATE {a} open idle"])
        clocks.move(wall=-DAY, steady=DAY + 1)
        assert is_past(server, site)


def restarted(folder, clocks, wall):
    """Has a server fetch a robots.txt with its wall clock ten years ahead, and another go on with the clock moved so.
    Returns the state of the site then, what is said of the clock, and the audit."""
    site = open_site()
    a = site.authority
    clocks.move(wall=TEN_YEARS)
    with Recorded(folder) as server:
        same(say(server, f"REFRESH {a}"), [f"TAKEN {a} open"])
        server.stop()
    clocks.move(wall=wall)
    with Recorded(folder, "--connections", "2") as server:
        state = say(server, f"STATE {a}")[0].removeprefix(f"STATE {a} ")
        site.pages["/robots.txt"] = DENIED
        hop = say(server, f"FETCH foobot {site.url('/x')}")[0].split(" ")[2]
        _, status, error = server.end()
        same(status, 0)
        return state, hop, error.decode(), audit(server.text()).split(" ")[0]


@with_clocks
def clock_set_back_before_a_start(folder, clocks):
    """A server that goes on with a wall clock that was set back says so, and believes no answer of before; nor does the
    next."""
    state, hop, error, audited = restarted(folder, clocks, 40 * DAY)
    same((state, hop, audited), ("expired idle", "NO", "OK"))
    behind = int(error.removeprefix("crawlgate: journal: the clock is ").split(" ")[0])
    assert abs(behind - (TEN_YEARS - 40 * DAY)) < 60, error
    same(error.partition(" s behind ")[2], "the last entry, so each robots.txt is fetched anew\n")
    clocks.move(wall=41 * DAY)
    with Recorded(folder) as server:
        known = next(it.split(" ")[2] for it in server.text().splitlines() if it.startswith("B "))
        same(say(server, f"STATE {known}"), [f"STATE {known} expired idle"])


@with_clocks
def clock_a_little_behind_goes_on(folder, clocks):
    """A wall clock that is less than a minute behind the last entry is as good as one on time."""
    for wall in (TEN_YEARS - 50, TEN_YEARS, TEN_YEARS + 3_600):
        with tempfile.TemporaryDirectory(dir=folder) as other:
            same(restarted(other, clocks, wall), ("open idle", "PAGE", "", "OK"))


@with_clocks
def moments_are_the_wall_clocks(folder, clocks):
    """The entries of a journal have the moments of the wall clock."""
    site = open_site()
    for wall in (0, 5 * DAY):
        clocks.move(wall=wall)
        with tempfile.TemporaryDirectory(dir=folder) as other, Recorded(other) as server:
            least = int(time.time()) + wall
            same(say(server, f"REFRESH {site.authority}"), [f"TAKEN {site.authority} open"])
            begun = next(it for it in server.text().splitlines() if it.startswith("B "))
            moment = int(begun.split(" ")[1])
            assert least <= moment <= time.time() + wall, f"{begun} at {least}"


MINUTE = 60
PAGE = {"/x": response(200, b"hello")}


def fetched(server, url):
    """Returns what is told of the page, without the word before it."""
    return say(server, f"FETCH foobot {url}")[0].removeprefix("HOP 1 ")


@with_clocks
def closed_site_is_tried_anew(folder, clocks):
    """A site that is down when its robots.txt is fetched, and up again at once. Without --retry-closed it stays closed
    for a day; with 60 until a page is wanted a minute after the fetch began, with 3600 an hour. What only asks has
    nothing fetched."""
    for words, seconds in ([], DAY + 1), (["--retry-closed", "60"], MINUTE), (["--retry-closed", "3600"], 60 * MINUTE):
        port = free_port()
        a, x = f"{HOST}:{port}", f"http://{HOST}:{port}/x"
        clocks.move()
        with tempfile.TemporaryDirectory(dir=folder) as other, Recorded(other, *words) as server:
            same(fetched(server, x), f"NO {a} closed")
            site = Site(PAGE, port=port)
            for moved in 0, seconds - 30:
                clocks.move(moved, moved)
                same(say(server, f"STATE {a}")[0], f"STATE {a} closed idle")
                same(fetched(server, x), f"NO {a} closed")
            clocks.move(seconds, seconds)
            if seconds > DAY:
                assert is_past(server, site)
            else:
                same(say(server, f"STATE {a}", f"ASK foobot {x}"), [f"STATE {a} closed idle", f"NO {a} closed"])
            same(site.asked, [])
            same(fetched(server, x), "PAGE open 200 5 whole")
            same(site.asked, ["/robots.txt", "/x"])
            same(fetched(server, x), "PAGE open 200 5 whole")
            same(site.asked, ["/robots.txt", "/x", "/x"])
            server.stop()
            same(audit(server.text()).split(" ")[0], "OK")


def visited(server, url):
    """Returns the status of a page that an HTTP client asks for."""
    asked = urllib.request.Request(server.url(url), headers={"Crawlgate-Token": "foobot"})
    try:
        with urllib.request.urlopen(asked, timeout=SECONDS) as response:
            return response.status
    except urllib.error.HTTPError as error:
        return error.code


@with_clocks
def closed_site_for_http_clients(_folder, clocks):
    """The same for clients of HTTP."""
    port = free_port()
    x = f"http://{HOST}:{port}/x"
    with HttpServer("--retry-closed", "60") as server:
        same(visited(server, x), 403)
        site = Site(PAGE, port=port)
        clocks.move(MINUTE - 30, MINUTE - 30)
        same((visited(server, x), site.asked), (403, []))
        clocks.move(MINUTE, MINUTE)
        same((visited(server, x), site.asked), (200, ["/robots.txt", "/x"]))


@with_clocks
def site_that_stays_down(_folder, clocks):
    """A site that is down each time is tried once in a minute, and closed again."""
    port = free_port()
    a, x = f"{HOST}:{port}", f"http://{HOST}:{port}/x"
    with Server("--retry-closed", "60") as server:
        turns = []
        for seconds in 0, MINUTE, 2 * MINUTE - 30, 2 * MINUTE:
            clocks.move(seconds, seconds)
            same(fetched(server, x), f"NO {a} closed")
            turns.append(say(server, f"WHY {a}")[0].split(" ")[2])
        same(turns, ["1", "2", "2", "3"])


@with_clocks
def closed_by_a_status(_folder, clocks):
    """A site that a status closed stays closed for a day, though it has a robots.txt again; and one that is open stays
    open."""
    shut, free = Site({**PAGE, "/robots.txt": response(503)}), open_site()
    with Server("--retry-closed", "60") as server:
        same(fetched(server, shut.url("/x")), f"NO {shut.authority} closed")
        same(fetched(server, free.url("/x")), "PAGE open 200 5 whole")
        shut.pages = PAGE
        for seconds in MINUTE, DAY - 30:
            clocks.move(seconds, seconds)
            same(fetched(server, shut.url("/x")), f"NO {shut.authority} closed")
            same(fetched(server, free.url("/x")), "PAGE open 200 5 whole")
        same((shut.asked, free.asked.count("/robots.txt")), (["/robots.txt"], 1))
        clocks.move(DAY + 1, DAY + 1)
        same(fetched(server, shut.url("/x")), "PAGE open 200 5 whole")


@with_clocks
def closed_by_the_tls_program(_folder, clocks):
    """The program that opens TLS is down for a while: the sites of https that are asked for meanwhile are tried anew a
    minute later. (It answers by itself, and connects to nobody.)"""
    port = free_port()
    a, x = "https://192.0.2.1", "https://192.0.2.1/x"
    with socket.create_server((HOST, port)) as listener:
        server = Server("--tls-by", f"{HOST}:{port}", "--retry-closed", "60")
        listener.close()
    with server:
        same(fetched(server, x), f"NO {a} closed")
        opener = Site(PAGE, port=port)
        clocks.move(MINUTE - 30, MINUTE - 30)
        same(fetched(server, x), f"NO {a} closed")
        same(opener.asked, [])
        clocks.move(MINUTE, MINUTE)
        same(fetched(server, x), "PAGE open 200 5 whole")
        same(opener.asked, ["/robots.txt", "/x"])


CASES = [
    clock_ahead_for_one_fetch, clock_set_back_meanwhile, clock_set_back_before_a_start, clock_a_little_behind_goes_on,
    moments_are_the_wall_clocks, closed_site_is_tried_anew, closed_site_for_http_clients, site_that_stays_down,
    closed_by_a_status,
    closed_by_the_tls_program,
]
