"""Spiders for checks/scrapy, and its cases with fifty hosts: ten of them are dead, and the pages of the others come as
fast as without them; or the gate is killed and started again in the middle."""
import itertools
import os
import re
import subprocess
import threading
import time
from collections import Counter

from lib.cases import OutOfTime, same
from lib.example_sites import in_folder as in_new_folder
from lib.program import ROOT
from lib.server import SECONDS, HttpServer, RestartedFront, Server, Session
from lib.sites import Late, Site, response

HOSTS, DEAD = 50, 10
# pages of each host, as many as the check says, and of the check at its full size
pages, MANY = 8, 40
SPIDER = '''
import os, scrapy
class Spider(scrapy.Spider):
    name = "spider"
    def start_requests(self):
        for url in os.environ["FIRST"].split():
            yield scrapy.Request(url, errback=self.fails)
    def parse(self, response):
        print("PAGE", response.status, response.url, flush=True)
        for link in response.css("a::attr(href)").getall():
            yield response.follow(link, errback=self.fails)
    def fails(self, failure):
        print("FAILS", failure.request.url, failure.value, flush=True)
'''
# settings of a spider that fetches by itself
WITHOUT_GATE = {"ROBOTSTXT_OBEY": "True", "DOWNLOADER_MIDDLEWARES": "{}"}


def in_folder(case):
    """A case with a folder that is there."""

    def made(folder):
        os.mkdir(folder)
        return case(folder)

    made.__name__ = case.__name__
    return in_new_folder(made)


def spider(folder, urls, settings):
    """Runs a spider from these URLs with the settings of the example and these, and returns how it ended."""
    with open(f"{folder}/spider.py", "w") as file:
        file.write(SPIDER)
    words = ["scrapy", "runspider", f"{folder}/spider.py", "-s", "LOG_LEVEL=ERROR"]
    for name, value in settings.items():
        words += ["-s", f"{name}={value}"]
    # (a proxy of the environment is not used)
    proxies = dict.fromkeys(("http_proxy", "https_proxy"), "http://127.0.0.1:1/")
    environment = {**os.environ, **proxies, "FIRST": " ".join(urls), "PYTHONPATH": f"{ROOT}/examples/scrapy"}
    environment["SCRAPY_SETTINGS_MODULE"] = "settings"
    return subprocess.run(words, env=environment, capture_output=True, timeout=20 * SECONDS, cwd=folder)


def crawl(folder, urls, server, **settings):
    """Returns the lines that the spider writes, and the seconds that it took. With no server it fetches by itself."""
    front = {"CRAWLGATE_FRONT": f"http://127.0.0.1:{server.http}"} if server else {"HTTPPROXY_ENABLED": "False"}
    began = time.monotonic()
    ran = spider(folder, urls, front | settings)
    same((ran.returncode, ran.stderr.decode()), (0, ""))
    return ran.stdout.decode().splitlines(), time.monotonic() - began


def starts_of(server, *words):
    """Returns how many starts the server's history has, which is audited."""
    with Session(server) as it:
        it.send(b"SEAL\nQUIT\n")
        text = it.rest().split(b"\n", 1)[1].removesuffix(b"BYE\n")
    ran = subprocess.run([Server.program, "audit", *words], input=text, capture_output=True, timeout=SECONDS)
    return int(re.fullmatch(r"OK events \d+ starts (\d+)\n", ran.stdout.decode())[1])


class Timed(Site):
    """A site with rules and a page for each target, that keeps when it was asked for them. All of them share a count,
    at which a call is made."""

    def __init__(self, host, count, at=0, call=None):
        self.times, self.count, self.at, self.call = [], count, at, call
        super().__init__({"/robots.txt": response(200, b"user-agent: *\ndisallow: /private/\n")}, host)

    def page(self, target):
        if target == "/robots.txt":
            return super().page(target)
        self.times.append(time.monotonic())
        if next(self.count) == self.at:
            self.call()
        return response(200, b"page", "Content-Type: text/html")


def hosts(**how):
    """Returns the sites that live, each at an address of its own."""
    count = itertools.count(1)
    return [Timed(f"127.0.1.{number}", count, **how) for number in range(1, HOSTS - DEAD + 1)]


def dead_hosts():
    """Returns sites that take connections, and answer nothing."""
    never = threading.Event()
    return [Late(never, None, host=f"127.0.2.{number}") for number in range(1, DEAD + 1)]


def urls_of(sites):
    """Returns the pages of all sites, of each in turn. One in eight is denied."""
    targets = [f"/{'private' if number % 8 == 7 else 'page'}/{number}" for number in range(pages)]
    return [site.url(it) for it in targets for site in sites]


def seconds_of(sites):
    """Returns how long the pages of these sites took, from the first to the last."""
    times = [it for site in sites for it in site.times]
    return max(times) - min(times)


def outcome(sites, lines):
    """Returns how many lines are of each kind, and how many denied pages were asked for."""
    denied = [it for site in sites for it in site.asked if it.startswith("/private/")]
    return Counter(it.split(" ")[0] for it in lines), len(denied)


@in_folder
def dead_hosts_hold_nobody(folder):
    """Ten of fifty hosts are silent, until their robots.txt is given up: the pages of the others come as fast as
    without them."""
    words, denied = ("--fetchers", "32", "--read-timeout", "10"), pages // 8
    # (what waits for a dead host counts as under way in Scrapy)
    room = {"CONCURRENT_REQUESTS": 200 + DEAD * pages}
    living = hosts()
    with HttpServer(*words) as server:
        lines, _ = crawl(folder, urls_of(living), server, **room)
        alone = seconds_of(living)
    same(outcome(living, lines), ({"PAGE": len(living) * (pages - denied), "FAILS": len(living) * denied}, 0))
    living, dead = hosts(), dead_hosts()
    with HttpServer(*words) as server:
        lines, _ = crawl(folder, urls_of(dead + living), server, **room)
        beside, starts = seconds_of(living), starts_of(server)
    fails = len(living) * denied + DEAD * pages
    same(outcome(living, lines), ({"PAGE": len(living) * (pages - denied), "FAILS": fails}, 0))
    same(starts, sum(len(it.times) for it in living))
    rates = [f"{starts / it:.0f}" for it in (beside, alone)]
    if beside > 1.5 * alone + 2:
        raise OutOfTime(f"{rates[0]} pages a second beside dead hosts, and {rates[1]} without them")
    return f"{HOSTS * pages} pages: {rates[0]} a second of living hosts beside dead ones, {rates[1]} without them"


@in_folder
def gate_is_killed_in_the_middle(folder):
    """Fifty hosts, ten of them dead, and the gate is killed when half of the pages have come: all allowed pages
    arrive."""
    with RestartedFront("--fetchers", "32", "--read-timeout", "10") as server:
        living = hosts(at=(HOSTS - DEAD) * pages // 2, call=server.restart)
        lines, _ = crawl(folder, urls_of(dead_hosts() + living), server)
        assert server.timer, "the gate was not killed"
    denied = pages // 8
    kinds = {"PAGE": len(living) * (pages - denied), "FAILS": len(living) * denied + DEAD * pages}
    same(outcome(living, lines), (kinds, 0))
    asked = [len(set(it.asked) - {"/robots.txt"}) for it in living]
    same(asked, [pages - denied] * len(living))


CASES = [dead_hosts_hold_nobody, gate_is_killed_in_the_middle]
