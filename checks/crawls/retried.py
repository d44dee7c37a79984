"""Crawls of sites that are down at first (`--retry-closed`), by clocks that are moved (lib/clocks.c). They need a C
compiler."""
import asyncio
import tempfile

from lib.clocks import Clocks
from loopback import answer, crawl, sites_of

JOBS = 10


class Mover:
    """A site behind whose first page another one is up again, and a minute is over. Its other pages take a while."""

    def __init__(self, down, clocks):
        self.down, self.clocks = down, clocks

    async def __call__(self, site, writer, target):
        if target not in ("/robots.txt", "/0"):
            await asyncio.sleep(0.1)
        await answer(site, writer, target)
        if target == "/0":
            await writer.drain()
            self.down.server.close()
            await self.down.listen("127.0.0.1", self.down.port)
            self.clocks.move(60, 60)


async def pages_of_a_site_up_again(words):
    """One worker has two sites take turns: the first is down when its robots.txt is fetched, and up again behind the
    first page of the second. Returns the report, and how often the first was asked for its robots.txt, and for
    pages."""
    with tempfile.TemporaryDirectory() as folder:
        clocks = Clocks(folder)
        (down,) = await sites_of(answer)
        down.leave()
        (mover,) = await sites_of(Mover(down, clocks))
        jobs = [(site, f"/{n}") for n in range(JOBS) for site in (down, mover)]
        before = ["env", *(f"{name}={value}" for name, value in clocks.words.items())]
        report, _, _ = await crawl(["--workers", "1", *words], jobs, before)
        return report, down.robots, len(down.pages)


async def closed_site_up_again():
    """Without --retry-closed all pages of the site are denied; with it those that are wanted once a minute is over are
    fetched, and its robots.txt is fetched once more for all of them. (The page next to the first may be asked for just
    before.)"""
    report, robots, pages = await pages_of_a_site_up_again([])
    assert (report.count(" closed\n"), robots, pages) == (JOBS, 0, 0), report
    assert report.endswith(f"SHIFT jobs {2 * JOBS} hops {2 * JOBS} starts {JOBS}\n"), report
    report, robots, pages = await pages_of_a_site_up_again(["--retry-closed", "60"])
    denied = report.count(" closed\n")
    assert (robots, pages) == (1, JOBS - denied), report
    assert report.startswith("1 1 NO ") and report.endswith(f"starts {2 * JOBS - denied}\n"), report
    return f"of {JOBS} pages of a site that is up again, those that are denied", denied, 2


CRAWLS = [closed_site_up_again]
