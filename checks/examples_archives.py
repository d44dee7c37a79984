"""Cases of checks/examples with the archive: what its records have, and how it goes on."""
import os
import re
import shutil
import subprocess
import sys
import threading
import time

from lib.cases import same
from lib.example_sites import MOST_OF_A_PAGE, TRAP, Sites, archive, check_pages, in_folder, octets_of
from lib.program import ROOT
from lib.server import SECONDS, HttpServer
from lib.sites import Site, response
from lib.warc import pages_of

# fields of a site that are in its records, and others
PASSED = [
    ("content-type", "text/html; charset=utf-8"), ("etag", '"a"'),
    ("link", "</y>; rel=next"), ("link", "</z>; rel=prev"),
]
DROPPED = ["Set-Cookie: a=b", "Server: site", "Connection: close", "Proxy-Status: crawlgate; details=\"1 open\""]


@in_folder
def each_page_has_its_record(folder):
    """Redirects, and pages that are denied, missing, long, empty, or look like a record, each with its start in the
    journal."""
    paths = ["/", "/docs", "/private/map.html", "/private/letters.html", "/none", "/long", "/trap", "/empty", "/"]
    with Sites() as sites, HttpServer("--journal", f"{folder}-journal") as server:
        urls = [sites.url(it) for it in paths]
        said = archive(server, folder, urls + ["https://a.example/"])
        denied = f"{urls[3]}: NO {sites.authorities[0]} line 2\n"
        same(said, ("pages 8\n", f"{denied}https://a.example/: ERR url scheme\n", 0))
        pages = check_pages(folder, f"{folder}-journal")
    statuses = {"/docs": 301, "/none": 404}
    paths = ["/", "/docs", "/docs/", "/private/map.html", "/none", "/long", "/trap", "/empty"]
    wanted = [(sites.url(it), "line 3" if "private" in it else "norule", statuses.get(it, 200)) for it in paths]
    same([(it.fields["WARC-Target-URI"], it.fields["WARC-Crawlgate-Reason"], it.status) for it in pages], wanted)
    same([it.body for it in pages][5:], [b"x" * MOST_OF_A_PAGE, TRAP, b""])
    same([it.fields.get("WARC-Truncated") for it in pages], [None] * 5 + ["length"] + [None] * 2)


@in_folder
def fields_of_the_site(folder):
    """A record has the fields of the site that the gate passes on, as they came, and none of the gate's own."""
    lines = [f"{name.title()}: {value}" for name, value in PASSED]
    site = Site({"/x": response(200, b"page", *lines, *DROPPED), "/y": response(302, b"", "Location: x#y")})
    with HttpServer("--journal", f"{folder}-journal") as server:
        # (capitals in a host are another way to write it)
        other = site.url("/y").replace("127.0.0.1", "127.1")
        same(archive(server, folder, [other]), ("pages 2\n", "", 0))
        same(archive(server, folder, [other, site.url("/y"), site.url("/x")]), ("pages 0\n", "", 0))
        moved, page = check_pages(folder, f"{folder}-journal")
    same((moved.head, moved.fields["WARC-Crawlgate-Asked"]), ([("location", "x#y")], other))
    same((page.head, page.body, page.fields.get("WARC-Crawlgate-Asked")), (PASSED, b"page", None))


@in_folder
def runs_go_on(folder):
    """A later run fetches what no file has, and a file of the size is followed by another one."""
    site = Site({f"/{it}": response(200, b"x" * 600) for it in range(9)})
    urls = [site.url(f"/{it}") for it in range(9)]
    with HttpServer("--journal", f"{folder}-journal") as server:
        same(archive(server, folder, urls[:3] * 2), ("pages 3\n", "", 0))
        same(archive(server, folder, urls[:3]), ("pages 0\n", "", 0))
        same(sorted(os.listdir(folder)), ["00000.warc"])
        same(archive(server, folder, urls, "--size", "2000"), ("pages 6\n", "", 0))
        same(sorted(os.listdir(folder)), [f"{it:05}.warc" for it in range(1 + 3)])
        same([it.fields["WARC-Target-URI"] for it in check_pages(folder, f"{folder}-journal")], urls)
    same(sorted(it for it in site.asked if it != "/robots.txt"), [f"/{it}" for it in range(9)])


def archive_at_work(server, folder, urls):
    """Returns the process of an archive that has filed some pages."""
    words = [sys.executable, f"{ROOT}/examples/archive.py", server.front, "foobot", folder]
    process = subprocess.Popen(words, stdin=subprocess.PIPE, stdout=subprocess.PIPE, stderr=subprocess.PIPE)
    process.stdin.write("".join(f"{it}\n" for it in urls).encode())
    process.stdin.close()
    path, until = f"{folder}/00000.warc", time.monotonic() + SECONDS
    while time.monotonic() < until and not (os.path.exists(path) and os.path.getsize(path) > 5_000):
        time.sleep(0.01)
    return process


class Pages(Site):
    """A site that has a page for each target."""

    def page(self, target):
        return response(404 if target == "/robots.txt" else 200, target.encode())

    def fetched(self):
        return [it for it in self.asked if it != "/robots.txt"]


class HeldPages(Pages):
    """Such a site, whose pages from the fiftieth on wait until they are let go."""

    def __init__(self):
        self.let = threading.Event()
        super().__init__({})

    def page(self, target):
        if target[1:].isdigit() and int(target[1:]) >= 50:
            self.let.wait(SECONDS)
        return super().page(target)


@in_folder
def a_killed_archive_goes_on(folder):
    """The same command after a kill: each page has one record, and one page at most was fetched twice. An archive that
    is at work is left alone."""
    site = HeldPages()
    urls = [site.url(f"/{it}") for it in range(200)]
    with HttpServer("--journal", f"{folder}-journal") as server:
        killed = archive_at_work(server, folder, urls)
        said = archive(server, folder, urls)
        same((said[0], said[2], "another archive is at work" in said[1]), ("", 1, True))
        killed.kill()
        killed.wait(SECONDS)
        site.let.set()
        before = len(site.fetched())
        said = archive(server, folder, urls)
        pages = check_pages(folder, f"{folder}-journal")
    same((said[2], [it.fields["WARC-Target-URI"] for it in pages]), (0, urls))
    assert 9 < before < 200 <= len(site.fetched()) <= 201, (before, len(site.fetched()))
    return f"killed after {before} of 200 pages"


@in_folder
def what_a_kill_has_left(folder):
    """A record that is cut at any place is moved to a file of its own, and its page is fetched anew."""
    site = Pages({})
    urls = [site.url("/1"), site.url("/2")]
    with HttpServer("--journal", f"{folder}-journal") as server:
        same(archive(server, folder, urls), ("pages 2\n", "", 0))
        whole = octets_of(folder, ".warc")[0]
        first = whole.rindex(b"WARC/1.1")
        for end in (first - 1, first + 1, first + 40, len(whole) - 10, len(whole) - 1):
            shutil.rmtree(folder)
            os.mkdir(folder)
            with open(f"{folder}/00000.warc", "wb") as file:
                file.write(whole[:end])
            said = archive(server, folder, urls)
            kept = first if end >= first else whole[:first].rindex(b"WARC/1.1")
            why = rf"archive\.py: \S+\.cut has the {end - kept} bytes of a record that was cut\n"
            same((said[0], said[2]), (f"pages {1 if kept == first else 2}\n", 0))
            assert re.fullmatch(why, said[1]), said[1]
            same(octets_of(folder, ".cut"), [whole[kept:end]])
            same([it.fields["WARC-Target-URI"] for it in check_pages(folder, f"{folder}-journal")], urls)


@in_folder
def damaged_files_are_named(folder):
    """A file with a byte that changed, one that is none, and a link are left as they are."""
    site = Pages({})
    with HttpServer() as server:
        same(archive(server, folder, [site.url("/1"), site.url("/2")])[2], 0)
        whole = octets_of(folder, ".warc")[0]
        other = whole.replace(b"\r\n\r\n/1\r\n", b"\r\n\r\n/3\r\n")
        rows = [(other, "another block than its digest says"), (b"a text\n", "no record of WARC/1.1")]
        for octets, why in rows:
            with open(f"{folder}/00000.warc", "wb") as file:
                file.write(octets)
            said = archive(server, folder, [site.url("/3")])
            same((said[0], said[2], why in said[1], octets_of(folder, ".warc")), ("", 1, True, [octets]))
        os.rename(f"{folder}/00000.warc", f"{folder}/other")
        os.symlink(f"{folder}/other", f"{folder}/00000.warc")
        said = archive(server, folder, [site.url("/3")])
        same((said[0], said[2], octets_of(folder, "other")), ("", 1, [octets]))
    same(site.fetched(), ["/1", "/2"])


@in_folder
def signals_lose_nothing(folder):
    """SIGTERM ends it after the page under way."""
    site = Pages({})
    with HttpServer("--journal", f"{folder}-journal") as server:
        process = archive_at_work(server, folder, [site.url(f"/{it}") for it in range(5_000)])
        process.terminate()
        said = process.stdout.read().decode()
        same((process.wait(SECONDS), process.stderr.read()), (1, b""))
        found = re.fullmatch(r"pages (\d+)\n", said)
        same((len(check_pages(folder, f"{folder}-journal")), len(site.fetched())), (int(found[1]), int(found[1])))
        return f"{found[1]} of 5,000 pages"


@in_folder
def bad_lines_are_told(folder):
    """URLs that the gate does not take, sites that fail, redirects in a circle, and a page; and no gate at all."""
    site = Pages({"/loop": response(302, b"", "Location: /loop?a")})
    site.page = lambda target: site.pages["/loop"] if target.startswith("/loop") else Pages.page(site, target)
    rows = {
        "http://a.example/a b": "ERR url chars", "ftp://a.example/": "ERR url scheme", "a.example": "ERR url bad",
        "http://[/": "ERR status 400", "http://127.0.0.1:1/": "NO 127.0.0.1:1 closed",
        "http://a.example/é": "ERR url chars",
    }
    with HttpServer() as server:
        said = archive(server, folder, [*rows, "\udcff", site.url("/x")])
        told = "".join(f"{url}: {why}\n" for url, why in rows.items()) + "\\udcff: ERR url chars\n"
        same(said, ("pages 1\n", told, 0))
        said = archive(server, folder, [site.url("/loop")])
        same(said, ("pages 2\n", f"{site.url('/loop?a')}: STOP toomany\n", 0))
    said = archive(server, folder, [site.url("/y")])
    same((said[0], said[2], "no answer of a gate" in said[1]), ("", 1, True))


@in_folder
def reader_is_strict(folder):
    """The reader that is used here refuses what is no WARC file."""
    with Sites() as sites, HttpServer() as server:
        same(archive(server, folder, [sites.url("/trap"), sites.url("/")])[2], 0)
    whole = octets_of(folder, ".warc")[0]
    same(len(pages_of(whole)), 2)
    damaged = {
        "the last octet is missing": whole[:-1],
        "an octet more": whole + b"\n",
        "another version": whole.replace(b"WARC/1.1", b"WARC/1.0", 1),
        "a field less": re.sub(rb"WARC-Date: [^\r]*\r\n", b"", whole, count=1),
        "lines without CR": whole.replace(b"\r\n", b"\n"),
        "another body": whole.replace(b"A page", b"A pace"),
        "a record twice": whole + whole[whole.index(b"WARC/1.1", 1) :],
        "another length": re.sub(rb"Content-Length: (\d)", rb"Content-Length: 1\1", whole, count=1),
    }
    for name, octets in damaged.items():
        try:
            pages_of(octets)
        except (AssertionError, KeyError):
            continue
        assert False, f"it takes {name}"


CASES = [
    each_page_has_its_record, fields_of_the_site, runs_go_on, a_killed_archive_goes_on, what_a_kill_has_left,
    damaged_files_are_named, signals_lose_nothing, bad_lines_are_told, reader_is_strict,
]
