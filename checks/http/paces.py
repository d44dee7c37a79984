"""Cases of checks/http about sites: that a slow one holds no other, and how far apart visits to one begin."""
import threading
import time

from front import FORMS, Echo, Front, Reply, Talk, absolute, by_path, outcome
from lib.cases import OutOfTime, in_time, same
from lib.server import Session, side_by_side
from lib.sites import Requests, response

CLIENTS, FETCHERS = 8, 4
# many clients of one site, and for how many seconds
MANY, FAIR = 48, 4
# how long a request waits for its turn at a site, in seconds
LATER = 30


class Timed(Echo):
    """A site that keeps when it was asked for pages."""

    def __init__(self, pages=()):
        self.moments = []
        super().__init__(pages)

    def answer(self, peer, octets, target):
        if target != "/robots.txt":
            self.moments.append(time.monotonic())
        super().answer(peer, octets, target)

    def gaps(self):
        return [later - one for one, later in zip(self.moments, self.moments[1:])]


class SilentRobots(Requests):
    """A site whose robots.txt does not come."""

    def answer(self, peer, octets, target):
        time.sleep(20)


def refreshed(server, *sites):
    with Session(server) as line:
        for site in sites:
            assert line.say(f"REFRESH {site.authority}").startswith(f"TAKEN {site.authority} "), site.authority


def expect_others_served(server, good, silent):
    """Has clients ask a silent site for pages, and times another site's answer to a client that came later."""
    them = [Talk(server) for _ in range(CLIENTS)]
    for at, it in enumerate(them):
        it.send(FORMS[at % 2](silent.url(f"/{at}")))
    time.sleep(0.3)
    began = time.monotonic()
    for _ in range(3):
        same(outcome(server, absolute(good.url("/x"))), (200, None, "N open"))
    in_time(time.monotonic() - began, 2)
    for it in them:
        it.peer.close()


def silent_site():
    """Clients of a site whose pages do not come hold no client of another site: one site has half of the fetchers at
    most."""
    silent, good = Reply(lambda peer: time.sleep(20)), Echo()
    with Front("--fetchers", str(FETCHERS), "--read-timeout", "20") as server:
        refreshed(server, silent, good)
        expect_others_served(server, good, silent)
        same(silent.count, FETCHERS // 2)


def silent_robots_file():
    """Nor do clients of a site whose robots.txt does not come: one of them fetches it, and the others wait for it, each
    in its place."""
    silent, good = SilentRobots(), Echo()
    with Front("--fetchers", str(FETCHERS), "--read-timeout", "20") as server:
        expect_others_served(server, good, silent)


def waits_for_an_answer():
    """Many clients ask at once for pages of a site that is not known yet: its robots.txt is fetched once, and each page
    comes."""
    site = Echo({"/robots.txt": (0.5, response(200, b"user-agent: *\ndisallow: /private\n"))})
    with Front("--fetchers", "8") as server:
        found = side_by_side(lambda at: outcome(server, FORMS[at % 2](site.url(f"/{at}"))), range(20))
        same(found, [(200, None, "N norule")] * 20)
    same(site.asked.count("/robots.txt"), 1)


def many_clients_of_one_site():
    """Of many clients that ask one site for page after page, each is answered. (They are not answered equally
    often.)"""
    site, until, counts, waits = Echo(), time.monotonic() + FAIR, [], []

    def play(server):
        count = 0
        with Talk(server) as it:
            while time.monotonic() < until:
                began = time.monotonic()
                same(it.ask(absolute(site.url("/x"))).outcome(), (200, None, "N open"))
                waits.append(time.monotonic() - began)
                count += 1
        counts.append(count)

    with Front("--fetchers", str(FETCHERS)) as server:
        refreshed(server, site)
        threads = [threading.Thread(target=play, args=(server,)) for _ in range(MANY)]
        for it in threads:
            it.start()
        for it in threads:
            it.join()
    same(len(counts), MANY)
    told = f"{sum(counts):,} pages, {min(counts)} to {max(counts)} a client, at most {max(waits):.1f} s for one"
    if not min(counts):
        raise OutOfTime(told)
    return told


def delay_between_visits():
    """With --delay visits to one site begin that many seconds apart, and two sites are visited at once; whoever waits
    holds no fetcher."""
    one, other, third = Timed(), Timed(), Timed()
    with Front("--delay", "2", "--fetchers", "2") as server:
        refreshed(server, one, other, third)
        urls = [site.url(f"/{at}") for at in range(3) for site in (one, other)]
        threads = [threading.Thread(target=lambda url=url: outcome(server, absolute(url))) for url in urls]
        began = time.monotonic()
        for it in threads:
            it.start()
        time.sleep(0.5)
        same(outcome(server, by_path(third.url("/x"))), (200, None, "N open"))
        in_time(time.monotonic() - began, 1.5)
        for it in threads:
            it.join()
        same((len(one.moments), len(other.moments)), (3, 3))
        for site in (one, other):
            for gap in site.gaps():
                # (a request may reach its site later than it was let in)
                in_time(gap, 3.5, 1.8)
        in_time(abs(one.moments[0] - other.moments[0]), 1)


def waits_no_longer():
    """A request that would wait longer than thirty seconds then has to come again later; one that waits less is
    answered."""
    side_by_side(lambda case: case(), (waits_for_the_delay, waits_for_the_pause))


def waits_for_the_delay():
    """Of three visits twenty seconds apart the third one would wait for forty."""
    site = Timed()
    with Front("--delay", "20", "--fetchers", "4") as server:
        refreshed(server, site)
        began, them = time.monotonic(), [Talk(server, 60) for _ in range(3)]
        for it in them:
            it.send(absolute(site.url("/x")))
        took = []
        for it in them:
            threading.Thread(
                target=lambda it=it: took.append((it.answer(), time.monotonic() - began)), daemon=True,
            ).start()
        while len(took) < 3 and time.monotonic() - began < 50:
            time.sleep(0.1)
        assert len(took) == 3, f"after 50 s only {len(took)} of three are answered"
        answers = [(it.outcome(), it.value("retry-after")) for it, _ in took]
        later = (503, "proxy_internal_response", "site busy"), "1"
        same(answers, [((200, None, "N open"), None)] * 2 + [later])
        in_time(took[1][1], 24, 19.5)
        in_time(took[2][1], LATER + 5, LATER - 0.5)
        same(them[2].goes_on(), True)
    same(len(site.moments), 2)


def heeds_retry_after():
    """With --heed-retry-after a site that asks for a pause is visited again after it, and another one meanwhile.
    Without it, and where the field says no seconds, there is no pause."""
    rows = [
        (
            503, "3", ["--heed-retry-after"], 3,
        ), (429, "3", ["--heed-retry-after"], 3), (503, "3", [], 0), (200, "3", ["--heed-retry-after"], 0),
        (
            503, "Mon, 30 Nov 2037 00:00:00 GMT", ["--heed-retry-after"], 0,
        ), (503, "-3", ["--heed-retry-after"], 0), (503, "", ["--heed-retry-after"], 0),
    ]

    def try_row(row):
        status, value, words, pause = row
        site, other = Timed({"/x": response(status, b"", f"Retry-After: {value}")}), Timed()
        with Front(*words) as server:
            refreshed(server, site, other)
            same(outcome(server, absolute(site.url("/x"))), (status, None, "N open"))
            began = time.monotonic()
            same(outcome(server, absolute(other.url("/y"))), (200, None, "N open"))
            in_time(time.monotonic() - began, 1)
            same(outcome(server, absolute(site.url("/y"))), (200, None, "N open"))
        in_time(site.gaps()[0], pause + 1.5, max(0, pause - 0.05))

    side_by_side(try_row, rows)


def waits_for_the_pause():
    """A site asks for an hour."""
    site = Timed({"/x": response(503, b"", "Retry-After: 3600")})
    with Front("--heed-retry-after") as server:
        refreshed(server, site)
        same(outcome(server, absolute(site.url("/x")))[0], 503)
        with Talk(server, 60) as it:
            began = time.monotonic()
            answer = it.ask(absolute(site.url("/y")))
            same((answer.outcome(), answer.value("retry-after")), ((503, "proxy_internal_response", "site busy"), "1"))
            in_time(time.monotonic() - began, LATER + 5, LATER - 0.5)
    same(len(site.moments), 1)


CASES = [
    waits_no_longer, delay_between_visits, heeds_retry_after, silent_site, silent_robots_file,
    waits_for_an_answer, many_clients_of_one_site,
]
