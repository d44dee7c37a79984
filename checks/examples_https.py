"""The examples over https: the clients, the archive and the crawl on many machines, by way of stand_in.py."""
import contextlib
import functools
import os
import re
import shutil
import subprocess
import sys
import tempfile

from lib import tls
from lib.cases import Skipped, same
from lib.example_sites import Sites, archive, check_pages, crawl, in_folder, jobs_of
from lib.program import ROOT
from lib.server import SECONDS, HttpServer, Server

CLIENTS = f"{ROOT}/examples/clients"
# a program that fetches pages by permits, and writes what came of each
BY_PERMITS = """
import sys
from crawlgate import Denied, Gate
with Gate.at(sys.argv[1]) as gate:
    for url in sys.argv[2:]:
        try:
            with gate.permit("foobot", url) as permit, permit.open(timeout=30) as response:
                print(permit.url, permit.reason, response.status, len(response.read()), response.headers["Location"])
        except Denied as denied:
            print(denied)
        except OSError as error:
            print(type(error.reason).__name__)
"""


class Https:
    """A folder, sites of https with the good certificate, and the address of what opens TLS for a server."""

    def __init__(self, folder, address, sites):
        self.folder, self.address, self.sites = folder, address, sites
        self.authority_file = f"{folder}/ca.pem"

    def server(self, *words):
        return HttpServer("--tls-by", self.address, *words)


def over_https(count):
    """Makes a case that has that many sites of https."""

    def made(case):
        @functools.wraps(case)
        def call():
            why = tls.missing()
            if why:
                raise Skipped(why)
            with contextlib.ExitStack() as stack:
                folder = stack.enter_context(tempfile.TemporaryDirectory())
                contexts = tls.make_certificates(folder)
                address = stack.enter_context(tls.by_stand_in(folder))
                return case(Https(folder, address, stack.enter_context(Sites(count, contexts["good"]))))

        return call

    return made


def ran(words, **environment):
    """Returns what a program writes, its standard error, and its status."""
    environment = {**os.environ, **environment}
    said = subprocess.run(words, capture_output=True, timeout=SECONDS, stdin=subprocess.DEVNULL, env=environment)
    return said.stdout.decode(), said.stderr.decode(), said.returncode


@over_https(1)
def permits_over_https(https):
    """The Python client opens a page by a permit, with the authority that SSL_CERT_FILE names, and follows no redirect.
    It opens none where it does not know that authority. A URL is opened as the gate writes it."""
    paths = ["/", "/docs", "/private/letters.html"]
    with https.server() as server:
        page, moved, private = map(https.sites.url, paths)
        words = [sys.executable, "-c", BY_PERMITS, str(server.port)]
        said = ran([*words, page.upper(), moved, private], PYTHONPATH=CLIENTS, SSL_CERT_FILE=https.authority_file)
        lines = [f"{page} norule 200 {size_of('/index.html')} None", f"{moved} norule 301 0 /docs/"]
        same(said, ("\n".join([*lines, f"https://{https.sites.authorities[0]}: line 2\n"]), "", 0))
        same(https.sites.asked, ["/robots.txt", "/", "/docs"])
        none = f"{https.folder}/none"
        said = ran([*words, page], PYTHONPATH=CLIENTS, SSL_CERT_FILE=none, SSL_CERT_DIR=none)
        same(said, ("SSLCertVerificationError\n", "", 0))
    same(len(https.sites.asked), 3)


def size_of(path):
    return os.path.getsize(f"{ROOT}/examples/site{path}")


@over_https(1)
def clients_fetch_over_https(https):
    """Both clients have the gate fetch a page, to which a redirect leads, and one that is denied."""
    with open(f"{ROOT}/examples/site/docs/index.html") as file:
        text = file.read()
    with https.server() as server:
        words = [sys.executable, f"{CLIENTS}/crawlgate.py", str(server.port), "foobot"]
        page = f"PAGE norule 301 0 whole\nPAGE norule 200 {len(text)} whole\n"
        same(ran([*words, https.sites.url("/docs")]), (text, page, 0))
        denied = f"https://{https.sites.authorities[0]} line 2"
        same(ran([*words, https.sites.url("/private/letters.html")]), ("", f"NO {denied}\n", 1))
        words = ["bash", f"{CLIENTS}/crawlgate.sh", server.front, "fetch", "foobot"]
        said, told, status = ran([*words, https.sites.url("/docs")])
        same((said, re.findall(r"^received-status=(\d+); ", told, re.M), status), (text, ["301", "200"], 0))
        denied = f'error=http_request_denied; details="{denied}"\n'
        same(ran([*words, https.sites.url("/private/letters.html")]), ("", denied, 1))
    same(https.sites.asked, ["/robots.txt"] + ["/docs", "/docs/"] * 2)


@over_https(1)
def shell_client_over_https(https):
    """The shell client runs a command by a permit, with the URL as the gate writes it; curl is one, where it is
    installed."""
    page = https.sites.url("/")
    with https.server() as server:
        words = ["bash", f"{CLIENTS}/crawlgate.sh", str(server.port), "run", "foobot"]
        same(ran([*words, page.upper(), "sh", "-c", 'echo "$CRAWLGATE_URL"']), (f"{page}\n", "", 0))
        if not shutil.which("curl"):
            return "without curl"
        curl = ["curl", "--globoff", "--silent", "--noproxy", "*", "--cacert", https.authority_file]
        curl += ["--write-out", "%{http_code}"]
        got = ran([*words, https.sites.url("/docs"), *curl, "{}"])
        same(got, ("301", "", 0))
        denied = f"crawlgate.sh: NO https://{https.sites.authorities[0]} line 2\n"
        same(ran([*words, https.sites.url("/private/letters.html"), *curl, "{}"]), ("", denied, 1))
    same(https.sites.asked, ["/robots.txt", "/docs"])


@over_https(2)
def archive_over_https(https):
    """An archive of two sites of https and one of http: each page has a start in the journal, which is audited as one
    of https."""
    paths = ["/", "/docs/", "/private/letters.html", "/trap"]
    folder, journal = f"{https.folder}/archive", f"{https.folder}/journal"
    with Sites() as plain, https.server("--journal", journal) as server:
        urls = [https.sites.url(path, at) for path in paths for at in (0, 1)] + [plain.url("/")]
        denied = [f"{url}: NO {url[: url.index('/private')]} line 2\n" for url in urls[4:6]]
        same(archive(server, folder, urls), ("pages 7\n", "".join(denied), 0))
        found = [(it.fields["WARC-Target-URI"], it.status) for it in check_pages(folder, journal, "--https")]
    same(found, [(url, 200) for url in urls[:4] + urls[6:]])


@over_https(6)
def parts_over_https(https):
    """The report of several parts over https is that of one shift of all jobs, and more than one part has jobs."""
    given, folder, words = jobs_of(https.sites), f"{https.folder}/out", ["--tls-by", https.address]
    one = subprocess.run([Server.program, "shift", *words], input=given.encode(), capture_output=True, timeout=SECONDS)
    same(crawl(given, "report", "4", folder, *words), (one.stdout.decode(), 0))
    assert len(parts_of(folder)) > 1, "all jobs are in one part"


@over_https(6)
def histories_over_https(https):
    said, status = crawl(jobs_of(https.sites), "history", "4", f"{https.folder}/out", "--tls-by", https.address)
    found = re.findall(r"^part-\d{3} OK events \d+ starts (\d+)$", said, re.M)
    # of each site: four pages, and the one to which /docs leads
    same((status, len(found), sum(map(int, found))), (0, said.count("\n"), 6 * 5))


def parts_of(folder):
    """Returns the URLs of each part that has some."""
    found = {}
    for name in os.listdir(folder):
        if name.startswith("part-") and "." not in name:
            with open(f"{folder}/{name}") as file:
                found[name] = [line.split()[1] for line in file]
    return found


@in_folder
def parts_of_https_by_site(folder):
    """Sites of https come into different parts, and what names the same site into one. Nothing is fetched."""
    one = [
        "https://a.example:443/x", "https://a.example/y", "HTTPS://A.Example:/z", "https://a.example?q",
        "https://a.example",
    ]
    other = ["https://b.example/x", "https://c.example/x", "https://a.example:8443/x"]
    given = "".join(f"foobot {url}\n" for url in one + other)
    same(crawl(given, "report", "1000", folder, program=shutil.which("true"))[1], 0)
    parts = parts_of(folder)
    same(sorted(map(sorted, parts.values())), sorted(map(sorted, [one, *[[url] for url in other]])))


CASES = [
    permits_over_https, clients_fetch_over_https, shell_client_over_https, archive_over_https, parts_over_https,
    histories_over_https, parts_of_https_by_site,
]
