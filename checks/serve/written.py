"""Cases of checks/serve: what the clients of examples/clients send to a site is the URL that was decided, or nothing is
sent."""
import http.client
import io
import random
import shutil
import string
from unittest import mock
from urllib.parse import quote

from lib.cases import Skipped, same
from lib.drawn_urls import as_written, compared, drawn_urls, is_word
from lib.server import Server, Session
from lib.sites import open_site, response
from clients import client_of, python_client

COUNT, SEED = 100_000, 20261129
WORDS = string.digits + string.ascii_letters + string.punctuation

# options of curl, and whether curl then reads [..] and {..} of a URL as they are
OPTIONS = [
    ("none", [], False),
    ("--globoff", ["--globoff", "--silent"], True),
    ("behind another option", ["--silent", "--globoff"], True),
    ("behind an option's value", ["--user-agent", "foobot", "-g", "-s"], True),
    ("-g", ["-s", "-g"], True),
    ("-g among others", ["-sg"], True),
    ("a value with a g", ["-sAgoogle"], False),
    ("-g as a value", ["-s", "-A", "-g"], False),
    ("-g as a long option's value", ["-s", "--user-agent", "-g"], False),
    ("turned off again", ["-sg", "--no-globoff"], False),
]
LINKS = ["/[p-p]rivate/x", "/x?{private,open}", "/pub[1-5]", "/{x}"]


def curl_reads_no_patterns():
    """A site has links that are patterns of curl, some of denied pages. Each start is one request for the page that was
    decided; where curl would read a pattern there is neither, and no permit is asked for."""
    if not shutil.which("curl"):
        raise Skipped("there is no curl")
    site = open_site({"/robots.txt": response(200, b"user-agent: *\ndisallow: /private/\ndisallow: /x?private\n")})
    with Server() as server, Session(server) as gate:
        same(gate.say(f"REFRESH {site.authority}"), f"TAKEN {site.authority} rules")
        wanted, starts = [], 0
        for (name, options, is_exact), before in [
            (row, before) for row in OPTIONS for before in ([], ["timeout", "20"])
        ]:
            for link in LINKS + ["/x"]:
                words = [*before, "curl", *options, "--output", "/dev/null", "{}"]
                written = gate.say(f"URL {site.url(link)}").split(" ")[1]
                _, error, status = client_of("sh", server, "run", "foobot", site.url(link), *words, no_proxy="*")
                if is_exact or not set(written) & set("[]{}"):
                    wanted.append(written.removeprefix(f"http://{site.authority}"))
                    same((name, link, status), (name, link, 0))
                    starts += 1
                else:
                    told = f"crawlgate.sh: curl reads patterns in {written}: put --globoff right behind curl\n"
                    same((name, link, error.decode(), status), (name, link, told, 1))
        words = gate.say("INFO").split(" ")[1:]
        info = {key: int(words[words.index(key) + 1]) for key in ("starts", "permits", "running")}
        same([it for it in site.asked if it != "/robots.txt"], wanted)
        same(info, {"starts": starts, "permits": 0, "running": 0})
    return f"{starts} starts"


class Wire:
    """Stands for a connection: it keeps what was sent, and no reply comes."""

    def __init__(self):
        self.octets = b""

    def sendall(self, octets):
        self.octets += octets

    def makefile(self, *_):
        return io.BytesIO()

    def close(self):
        pass


def sent_by_urllib(client, url):
    """Returns the URL for which the client asks by urllib, from what it writes to the connection, or None where it
    refuses."""
    peers = []

    def connect(self):
        self.sock = Wire()
        peers.append((self.host, self.port, self.sock))

    with mock.patch.object(http.client.HTTPConnection, "connect", connect):
        try:
            client.Permit("foobot", url, "open").open(1).close()
        except client.Refused:
            return None
        except ConnectionError:
            pass
    ((host, port, wire),) = peers
    first, *fields = wire.octets.decode("latin-1").split("\r\n")
    hosts = [it.split(": ", 1)[1] for it in fields if it.lower().startswith("host: ")]
    host = f"[{host}]" if ":" in host else host
    same(hosts, [host if port == 80 else f"{host}:{port}"])
    return f"http://{hosts[0]}{first.split(' ')[1]}"


def urllib_sends_what_was_written():
    """Of drawn URLs each is sent as the gate writes it, and what urllib would send otherwise is refused."""
    client = python_client()
    texts = drawn_urls(random.Random(SEED), COUNT)
    # (a URL with other characters is no word of a line; here a client has escaped them)
    words = [it if is_word(it) else quote(it.strip(), safe=WORDS) for it in texts]
    with Server() as server:
        written = as_written(server, words)
    assert len(written) > COUNT / 2, len(written)
    told = compared(written, [sent_by_urllib(client, it) for it in written])
    for url in ("http://%61.example/x", "http://a.example/x#y", "HTTP://a.example/x", "<http://a.example/x>"):
        same((url, sent_by_urllib(client, url)), (url, None))
    return told


CASES = [curl_reads_no_patterns, urllib_sends_what_was_written]
