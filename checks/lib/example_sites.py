"""What the examples are tried with: sites of the example's pages, an archive that is read back, and a crawl in
parts."""
import functools
import http.server
import os
import re
import shutil
import subprocess
import sys
import tempfile
import threading

from lib.cases import same
from lib.program import ROOT
from lib.server import SECONDS, Server
from lib.sites import HOST
from lib.warc import pages_of, read_by_warcio

MOST_OF_A_PAGE = 1_048_576
# what a careless reader would take for the next record
TRAP = b"\r\n\r\nWARC/1.1\r\nWARC-Type: response\r\nContent-Length: 0\r\n\r\n"


class Quiet(http.server.SimpleHTTPRequestHandler):
    def log_message(self, *_):
        pass


class Keeping(Quiet):
    """It keeps the targets that it was asked for."""

    def __init__(self, *words, asked, **named):
        self.asked = asked
        super().__init__(*words, **named)

    def do_GET(self):
        self.asked.append(self.path)
        super().do_GET()


class Sites:
    """The site of the examples with three pages more, on that many ports. With a context of TLS they are sites of
    https. The requests that came are kept."""

    def __init__(self, count=1, context=None):
        self.count, self.context, self.asked = count, context, []

    def __enter__(self):
        self.folder = tempfile.mkdtemp()
        root = shutil.copytree(f"{ROOT}/examples/site", f"{self.folder}/site")
        for name, octets in [("long", b"x" * (MOST_OF_A_PAGE + 1)), ("trap", TRAP), ("empty", b"")]:
            with open(f"{root}/{name}", "wb") as file:
                file.write(octets)
        handler = functools.partial(Keeping, asked=self.asked, directory=root)
        self.servers = [http.server.ThreadingHTTPServer((HOST, 0), handler) for _ in range(self.count)]
        for it in self.servers:
            if self.context:
                # (whoever reads first shakes hands, in a thread of its own)
                words = {"server_side": True, "do_handshake_on_connect": False}
                it.socket = self.context.wrap_socket(it.socket, **words)
                it.handle_error = lambda *_: None
            threading.Thread(target=it.serve_forever, daemon=True).start()
        host = "localhost" if self.context else HOST
        self.authorities = [f"{host}:{it.server_port}" for it in self.servers]
        return self

    def __exit__(self, *_):
        for it in self.servers:
            it.shutdown()
            it.server_close()
        shutil.rmtree(self.folder)

    def url(self, path, at=0):
        return f"{'https' if self.context else 'http'}://{self.authorities[at]}{path}"


def archive(server, folder, urls, *words):
    """Returns what archive.py writes, its standard error, and its status."""
    given = "".join(f"{it}\n" for it in urls).encode("utf-8", "surrogateescape")
    words = [sys.executable, f"{ROOT}/examples/archive.py", server.front, "FooBot", folder, *words]
    ran = subprocess.run(words, input=given, capture_output=True, timeout=SECONDS)
    return ran.stdout.decode(), ran.stderr.decode(), ran.returncode


def octets_of(folder, end):
    """Returns the octets of the files of a folder that end so, one after the other."""
    found = []
    for name in sorted(it for it in os.listdir(folder) if it.endswith(end) and not it.startswith(".")):
        with open(f"{folder}/{name}", "rb") as file:
            found.append(file.read())
    return found


def audited(text, *words):
    """Returns the starts of texts that are audited as right: the moment, the reason and the URL by the number."""
    ran = subprocess.run([Server.program, "audit", *words], input=text, capture_output=True, timeout=SECONDS)
    said = re.fullmatch(r"OK events \d+ starts (\d+)\n", ran.stdout.decode())
    assert said, f"the audit says {ran.stdout!r}"
    lines = [line.split(" ") for line in text.decode().split("\n")]
    urls = {words[2]: words[4] for words in lines if words[0] == "G"}
    starts = {words[2]: (int(words[1]), " ".join(words[3:]), urls[words[2]]) for words in lines if words[0] == "S"}
    same(len(starts), int(said[1]))
    return starts


def check_pages(folder, journal, *words):
    """Returns the pages of an archive, each of which has a start of its own in the journal, which is audited."""
    starts = audited(b"".join(octets_of(journal, "")), *words)
    pages = [page for octets in octets_of(folder, ".warc") for page in pages_of(octets)]
    for name in os.listdir(folder):
        if name.endswith(".warc"):
            read_by_warcio(f"{folder}/{name}")
    numbers = [it.fields["WARC-Crawlgate-Permit"] for it in pages]
    same(len(set(numbers)), len(numbers))
    for number, page in zip(numbers, pages):
        assert number in starts, f"no start of {number}"
        same(starts[number][1:], (page.fields["WARC-Crawlgate-Reason"], page.fields["WARC-Target-URI"]))
    return pages


def in_folder(case):
    @functools.wraps(case)
    def call():
        with tempfile.TemporaryDirectory() as folder:
            return case(f"{folder}/out")

    return call


def jobs_of(sites):
    paths = ["/", "/docs", "/private/map.html", "/private/letters.html", "/none"]
    pages = [sites.url(path, at) for path in paths for at in range(sites.count)]
    jobs = [f"{token} {page}" for page in pages for token in ("foobot", "barbot")]
    return "".join(f"{it}\n" for it in jobs)


def crawl(given, *words, program=None, descriptors=None, **environment):
    """Returns what many-machines/crawl writes, and its status. It has only that many descriptors, where that is
    told."""
    environment = {**os.environ, "CRAWLGATE": program or Server.program, "AT_ONCE": "3", **environment}
    environment.pop("MACHINES", None)
    words = [f"{ROOT}/examples/many-machines/crawl", *words]
    if descriptors:
        words = ["sh", "-c", f'ulimit -n {descriptors} && exec "$@"', "sh", *words]
    ran = subprocess.run(words, input=given.encode(), capture_output=True, timeout=8 * SECONDS, env=environment)
    return ran.stdout.decode(), ran.returncode
