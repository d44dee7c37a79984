"""Crawls over connections that stay open after a page (`--keep-alive`): how many connections a site gets, and what it
may do to those that are kept."""
import asyncio
import re
import shutil
import subprocess
import tempfile
import types

from lib.cases import Skipped
from lib.program import ROOT
from lib.sites import HOST
from loopback import NO_ROBOTS, PAGE, AsyncSite, crawl

PAGES = 30
MOST_REQUESTS = 100
FORGED = b"HTTP/1.1 200 OK\r\nContent-Length: 6\r\n\r\nforged"


class LastingSite(AsyncSite):
    """A site that answers requests of a connection until one asks for its end. It keeps the heads of each connection.
    What it does behind a response says whether the connection goes on."""

    def __init__(self, robots=NO_ROBOTS, page=PAGE, seconds=0.0, behind=None):
        super().__init__(None)
        self.replies, self.seconds, self.behind = {"/robots.txt": robots}, seconds, behind
        self.page, self.connections = page, []

    async def serve(self, reader, writer):
        heads = []
        self.connections.append(heads)
        try:
            while await self.reply(heads, reader, writer):
                pass
        except (OSError, asyncio.IncompleteReadError, asyncio.CancelledError):
            pass
        finally:
            writer.close()

    async def reply(self, heads, reader, writer):
        heads.append(await reader.readuntil(b"\r\n\r\n"))
        target = heads[-1].split(b" ")[1].decode()
        if target != "/robots.txt":
            await asyncio.sleep(self.seconds)
        writer.write(self.replies.get(target, self.page))
        await writer.drain()
        if b"\r\nConnection: close\r\n" in heads[-1]:
            return False
        return self.behind is None or await self.behind(writer)

    def counts(self):
        """Returns how many requests each connection had that had a page's, the fewest first."""
        return sorted(len(heads) for heads in self.connections if not is_robots(heads[0]))

    def targets(self):
        return [head.split(b" ")[1].decode() for heads in self.connections for head in heads]


def is_robots(head):
    return head.startswith(b"GET /robots.txt ")


async def crawled(site, words, pages=PAGES):
    """Has one worker fetch pages of the site, each of which must come whole and be asked for once. Each robots.txt must
    have a connection of its own."""
    await site.listen()
    report, _, _ = await crawl(["--workers", "1", *words], [(site, f"/{n}") for n in range(pages)])
    wanted = "".join(f"{n} 1 PAGE open 200 5 whole\n" for n in range(1, pages + 1))
    assert report == f"{wanted}SHIFT jobs {pages} hops {pages} starts {pages}\n", report
    site.connections = [heads for heads in site.connections if heads]
    for heads in site.connections:
        if any(is_robots(head) for head in heads):
            assert len(heads) == 1 and b"\r\nConnection: close\r\n" in heads[0], heads
    asked = [target for target in LastingSite.targets(site) if target != "/robots.txt"]
    assert asked == [f"/{n}" for n in range(pages)], asked
    return site


async def connections_of_a_site():
    """Without --keep-alive each page has its own connection, and its request says so. With it all pages share one, and
    their requests say nothing of it."""
    site = await crawled(LastingSite(), [])
    assert site.counts() == [1] * PAGES, site.counts()
    assert all(head.endswith(b"\r\nConnection: close\r\n\r\n") for heads in site.connections for head in heads)
    site = await crawled(LastingSite(), ["--keep-alive"])
    heads = [head for heads in site.connections for head in heads if not is_robots(head)]
    assert not any(re.search(rb"(?im)^connection:", head) for head in heads), heads
    return f"connections for {PAGES} pages of a site, with --keep-alive", len(site.counts()), 1


async def requests_of_a_connection():
    """A connection has at most a hundred requests."""
    site = await crawled(LastingSite(), ["--keep-alive"], 2 * MOST_REQUESTS + 50)
    assert sum(site.counts()) == 2 * MOST_REQUESTS + 50, site.counts()
    return "requests of a connection that is kept", max(site.counts()), MOST_REQUESTS


async def close_unsaid(writer):
    return False


async def closed_behind_each_page():
    """A site closes each connection behind a response, and does not say so. No page fails, and none is asked for
    twice."""
    site = await crawled(LastingSite(behind=close_unsaid), ["--keep-alive"])
    return "pages over a connection that the site closed behind each", max(site.counts()), 1


async def say_more(writer):
    writer.write(FORGED)
    await writer.drain()
    return True


async def say_more_later(writer):
    await asyncio.sleep(0.3)
    return await say_more(writer)


async def octets_unasked():
    """What a site sends behind a response, at once or a while later, is the response to no request."""
    site = await crawled(LastingSite(page=PAGE + FORGED), ["--keep-alive"], 3)
    counts = site.counts()
    for behind in (say_more, say_more_later):
        site = await crawled(LastingSite(behind=behind), ["--keep-alive", "--delay", "1"], 3)
        counts += site.counts()
    return "requests of a connection behind whose first response octets came unasked", max(counts), 1


async def ends_that_are_said():
    """No connection is kept behind a response that says so, of HTTP/1.0, with both a coding and a length, or which the
    end of the connection ends."""
    counts = []
    head, _, body = PAGE.partition(b"\r\n\r\n")
    framed_twice = head + b"\r\nTransfer-Encoding: chunked\r\n\r\n%x\r\n%s\r\n0\r\n\r\n" % (len(body), body)
    for page in (
        PAGE.replace(b"\r\n", b"\r\nConnection: x, Close\r\n", 1), PAGE.replace(b"HTTP/1.1", b"HTTP/1.0"),
        framed_twice,
    ):
        counts += (await crawled(LastingSite(page=page), ["--keep-alive"], 5)).counts()
    to_end = LastingSite(page=PAGE.replace(b"Content-Length: 5\r\n", b""), behind=close_unsaid)
    counts += (await crawled(to_end, ["--keep-alive"], 5)).counts()
    return "requests of a connection that may not go on", max(counts), 1


async def connections_of_many_workers():
    """Sixteen workers have no more connections to a site than it serves at once, which are twenty: no page waits for one
    that is idle. The site is fast, so that workers are often done at the same moment."""
    if not shutil.which("cc"):
        raise Skipped("there is no C compiler")
    failed = 0
    with tempfile.TemporaryDirectory() as folder:
        program = f"{folder}/site"
        subprocess.run(["cc", "-O2", "-pthread", "-o", program, f"{ROOT}/bench/site.c"], check=True)
        for _ in range(5):
            with subprocess.Popen([program, "20", "1000"], stdout=subprocess.PIPE, text=True) as process:
                site = types.SimpleNamespace(scheme="http", address=f"{HOST}:{int(process.stdout.readline())}")
                site.server = types.SimpleNamespace(close=process.kill)
                words = ["--workers", "16", "--read-timeout", "3", "--keep-alive"]
                report, _, _ = await crawl(words, [(site, f"/{n}") for n in range(4_000)])
            assert report.endswith("SHIFT jobs 4000 hops 4000 starts 4000\n"), report[-200:]
            failed += report.count("FAULT")
    return "pages that failed, of 20,000 of a site that serves twenty connections, for 16 workers", failed, 0


CRAWLS = [
    connections_of_a_site, connections_of_many_workers, requests_of_a_connection, closed_behind_each_page, octets_unasked, ends_that_are_said,
]
