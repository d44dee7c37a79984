"""Crawls of hostile sites: each robots.txt, page and redirect is drawn, and the report of a shift must be the one that
docs/FORMATS.md and the second reading of RFC 9309 tell."""
import re
import time

from lib import reading
from lib.cases import short
from lib.sites import Requests, reset
from auditor import audit
import pages
import responses
import texts

HOSTS = ["127.0.0.1", "127.0.0.2", "127.0.0.3"]
TARGETS = ["/", "/a", "/ab", "/b", "/a/b", "/ab?c", "/c", "/%2A", "/robots.txt", "/a$", "/x*y", "/|"]
PAGE_LIMIT, ROBOTS_LIMIT, MOST_REDIRECTS = 1_048_576, 512_001, 5
NOWHERE = ["", "https://a.example/", "ftp://x/y", "http://", "http://u@h/", "mailto:x"]


class DrawnSite(Requests):
    """A site on a host of the loopback, whose responses change with each case."""

    def __init__(self, host):
        self.responses = {}
        super().__init__(host)

    def answer(self, peer, head, target):
        response = self.responses[target]
        time.sleep(response.seconds)
        peer.sendall(response.octets)
        if response.is_reset:
            reset(peer)


class World:
    """What a shift must report of some sites."""

    def __init__(self, sites):
        self.sites = {it.authority: it.responses for it in sites}
        self.answers = {}

    def response(self, url):
        """Returns a response, or None where nobody listens."""
        authority = pages.read(url)[0]
        return self.sites[authority].get(pages.target_of(url)) if authority in self.sites else None

    def lead(self, url, location, followed):
        """Returns where a redirect leads, or the word of why it leads nowhere."""
        if followed == MOST_REDIRECTS:
            return None, "toomany"
        if location is None:
            return None, "redirect"
        try:
            return pages.read(location if ":" in location else f"http://{pages.read(url)[0]}{location}")[1], None
        except pages.Refused as refused:
            return None, "scheme" if refused.word == "scheme" else "redirect"

    def walk(self, authority):
        """Returns the records that bind, or the word of an answer without any."""
        url = f"http://{authority}/robots.txt"
        for followed in range(MOST_REDIRECTS + 1):
            response = self.response(url)
            fault, body, _ = response.reply(ROBOTS_LIMIT) if response else ("H8", b"", True)
            if fault:
                return "closed"
            if 200 <= response.status < 300:
                return [reading.record_of(it) for it in reading.lines_of(body)]
            if response.status not in responses.REDIRECTS:
                return "open" if 400 <= response.status < 500 else "closed"
            url, word = self.lead(url, response.location, followed)
            if url is None:
                return "open" if word == "toomany" else "closed"

    def ruling(self, token, url):
        """Returns whether a page may be fetched, and why."""
        authority = pages.read(url)[0]
        if authority not in self.answers:
            self.answers[authority] = self.walk(authority)
        answer = self.answers[authority]
        if isinstance(answer, str):
            return answer == "open", answer
        return reading.verdict(answer, token, pages.target_of(url).encode())

    def hops(self, token, url):
        """Yields the hops of a job."""
        for followed in range(MOST_REDIRECTS + 1):
            is_allowed, why = self.ruling(token, url)
            if not is_allowed:
                yield f"NO {pages.read(url)[0]} {why}"
                return
            response = self.response(url)
            fault, body, is_whole = response.reply(PAGE_LIMIT) if response else ("H8", b"", True)
            if fault:
                yield f"FAULT {fault}"
                return
            yield f"PAGE {why} {response.status} {len(body)} {'whole' if is_whole else 'cut'}"
            if response.status not in responses.REDIRECTS:
                return
            url, word = self.lead(url, response.location, followed)
            if url is None:
                yield f"STOP {word}"
                return

    def report(self, jobs):
        lines, starts = [], 0
        for number, (token, url) in enumerate(jobs, 1):
            hops = list(self.hops(token, url))
            starts += sum(it.startswith(("PAGE", "FAULT")) for it in hops)
            lines += [f"{number} {at} {it}" for at, it in enumerate(hops, 1)]
        return "".join(
            f"{it}\n" for it in [*lines, f"SHIFT jobs {len(jobs)} hops {len(lines)} starts {starts}"]
        ).encode()


SITES = []


def robots_of(dice):
    kind = dice.randrange(10)
    if kind < 4:
        return b"User-agent: *\nDisallow: /a\nAllow: /ab\nDisallow: /*c$\nUser-agent: barbot\nDisallow: /b\n"
    return dice.choices(
        [it for _, it in texts.KINDS], [it for it, _ in texts.KINDS],
    )[0](dice) if kind < 9 else dice.randbytes(300)


def body_of(dice):
    return dice.randbytes(
        dice.choice([0, 1, 5, 300, 20_000])
    ) if dice.randrange(60) else b"x" * (PAGE_LIMIT + dice.randrange(-1, 3))


def page_of(dice, locations):
    if dice.randrange(60) == 0:
        return responses.broken(dice, body_of(dice))
    return responses.drawn(dice, body_of(dice), locations)


def draw(dice, site, locations):
    """Has a site answer otherwise than before."""
    robots = responses.drawn(
        dice, robots_of(dice), locations, dice.choice([200, 200, 200, 200, None]),
    ) if dice.randrange(60) else responses.broken(dice, b"x" * 20)
    site.responses.clear()
    site.responses.update({pages.target_of(pages.read(f"http://a{it}")[1]): page_of(dice, locations) for it in TARGETS})
    site.responses["/robots.txt"] = robots


def try_crawl(tried, dice):
    """Compares the report of a shift, whatever the number of its workers, and has its history be audited."""
    SITES.extend(DrawnSite(it) for it in HOSTS[len(SITES) :])
    urls = [f"http://{site.authority}{target}" for site in SITES for target in TARGETS]
    locations = [*urls, *(dice.choice(TARGETS) for _ in range(8)), *NOWHERE[: dice.randrange(len(NOWHERE) + 1)]]
    for site in SITES:
        draw(dice, site, locations)
    jobs = [(dice.choice(texts.TOKENS), dice.choice(urls)) for _ in range(dice.choice([1, 5, 40]))]
    given = "".join(f"{token} {url}\n" for token, url in jobs).encode()
    words = ["shift", "--read-timeout", "1", "--workers", str(dice.choice([1, 2, 16]))]
    wanted = World(SITES).report([(token.lower(), url) for token, url in jobs])
    tried.same("a crawl", given, words, wanted)
    tried.count("jobs", len(jobs))
    tried.count("hops", wanted.count(b"\n") - 1)
    history, status, error = tried.run([*words, "--export"], given)
    told, ended, _ = tried.run(["audit"], history)
    starts = int(wanted.rsplit(b" ", 1)[1])
    is_right = (status, ended) == (0, 0) and re.fullmatch(
        rb"OK events \d+ starts %d\n" % starts, told,
    ) and told.decode() == audit(history) + "\n"
    tried.expect(
        "the history of a crawl", given, is_right, f"status {status}, {short(error)}, {short(told)}, {audit(history)}",
        words,
    )
