"""Crawls with a pause between the fetches at a site (`--delay`)."""
from lib.cases import in_time
from loopback import NO_ROBOTS, Replies, answer, be_mixed, crawl, redirect, sites_of, turn_aside


def seconds_of(sites):
    """The seconds from the first request of these sites to the last."""
    moments = [moment for site in sites for moment in site.moments]
    return max(moments) - min(moments)


def least_pause(sites):
    """The least seconds from one request of a site to the next."""
    return min(later - before for site in sites for before, later in zip(site.moments, site.moments[1:]))


async def paced():
    """With a delay of a second each of two sites is asked once in a second, by four workers: for its robots.txt, and
    for three pages. Each is asked while the other rests, and pages that are denied take no turn. (A request may come
    late, and then the next one the sooner after it.)"""
    sites = await sites_of(be_mixed, turn_aside)
    jobs = [(sites[0], f"/private/{n}") for n in range(40)] + [(sites[0], f"/{n}") for n in range(3)]
    report, _, _ = await crawl(["--workers", "4", "--delay", "1"], jobs + [(sites[1], "/x"), (sites[1], "/z")])
    assert report.endswith("SHIFT jobs 45 hops 46 starts 6\n"), report[-200:]
    assert [len(site.moments) for site in sites] == [4, 4], [site.targets for site in sites]
    in_time(least_pause(sites), 60, 0.75)
    return "seconds from the first request to the last of two sites with four each, one in a second", seconds_of(
        sites
    ), 4.5


async def paced_over_redirects():
    """A site that no job names, to which other sites lead, is asked once in a second too."""
    (end,) = await sites_of(answer)
    target = f"http://{end.address}/".encode()
    sites = await sites_of(*[Replies(NO_ROBOTS, redirect(target))] * 3)
    report, _, _ = await crawl(["--workers", "4", "--delay", "1"], [(site, "/x") for site in sites])
    end.server.close()
    assert report.endswith("SHIFT jobs 3 hops 6 starts 6\n"), report
    assert len(end.moments) == 4, end.moments
    in_time(least_pause([end]), 60, 0.75)
    return "seconds from the first request to the last where three redirects lead to a site", seconds_of(
        [*sites, end]
    ), 5.5


async def paced_denials():
    """Pages that are denied take no turn, but the first of them waits until its site has rested from the fetch of its
    robots.txt."""
    (site,) = await sites_of(be_mixed)
    report, took, _ = await crawl(["--workers", "4", "--delay", "1"], [(site, f"/private/{n}") for n in range(3)])
    assert report.endswith("SHIFT jobs 3 hops 3 starts 0\n") and report.count(" line 2\n") == 3, report
    in_time(took, 60, 0.75)
    return "seconds of three pages of a site, one in a second, that are denied", took, 2.5


CRAWLS = [paced, paced_over_redirects, paced_denials]
