"""Cases of checks/serve with the clients of examples/clients, and those clients for other cases."""
import importlib
import os
import subprocess
import sys
import tempfile
import time

from lib.cases import same
from lib.program import ROOT
from lib.server import SECONDS, Server, Session, side_by_side
from lib.sites import HOST, OCTETS, open_site, response, site_with_rules

CLIENTS = f"{ROOT}/examples/clients"

# A command that fetches the URL of its first word, and follows nothing.
FETCH = """
import http.client, sys, urllib.parse
url = urllib.parse.urlsplit(sys.argv[1])
connection = http.client.HTTPConnection(url.netloc)
connection.request("GET", url.path)
connection.getresponse().read()
"""


def python_client():
    """Returns the module of the client in Python."""
    if CLIENTS not in sys.path:
        sys.path.append(CLIENTS)
    return importlib.import_module("crawlgate")


def client_of(kind, server, *words, **environment):
    """Returns what a client writes as a program, its standard error, and its status."""
    words = [f"{CLIENTS}/crawlgate.{kind}", server.path or str(server.port), *words]
    ran = subprocess.run(words, capture_output=True, timeout=SECONDS, env={**os.environ, **environment})
    return ran.stdout, ran.stderr, ran.returncode


def client_in_python():
    client = python_client()
    site, ruled = open_site(), site_with_rules()
    a, x = site.authority, site.url("/x")

    def refusal_of(kind, call, *words):
        try:
            return f"none, but {call(*words)!r}"
        except kind as error:
            return str(error)

    with Server("--slots", "1") as server:
        with client.Gate(HOST, server.port, SECONDS) as gate:
            same(gate.state(a), ("unknown", False))
            same(refusal_of(client.Denied, gate.ask, "foobot", x), f"{a}: unknown")
            with gate.permit("foobot", x) as permit:
                same((permit.token, permit.url, permit.reason), ("foobot", x, "open"))
                same(permit.open(SECONDS).read(), b"hello")
                same(refusal_of(client.Refused, gate.ask, "foobot", x), "permits")
            gate.back(gate.ask("foobot", x))
            number = gate.ask("foobot", x)
            same(gate.start(number, "foobot", x), "open")
            same(refusal_of(client.Denied, gate.start, number, "foobot", x), f"{a}: spent")
            gate.done(number)
            same(refusal_of(client.Refused, gate.back, number), "notout")
            same(gate.refresh(ruled.authority), "rules")
            same(refusal_of(client.Denied, gate.ask, "foobot", ruled.url("/private")), f"{ruled.authority}: line 2")
            same(gate.fetch("foobot", ruled.url("/moved")).body, OCTETS)
            same(gate.fetch("foobot", ruled.url("/private")).hops, [f"NO {ruled.authority} line 2"])
            same(refusal_of(ValueError, gate.state, "a.example\nQUIT"), "no word of a line: 'a.example\\nQUIT'")
            text = gate.seal()
            same((text.split(b"\n")[0], text[-1:], gate.seal()), (b"V 2", b"\n", b""))
            # what is left out goes back at the end
            gate.ask("foobot", x)
        with client.Gate(HOST, server.port, SECONDS) as gate:
            gate.ask("foobot", x)
            gate.quit()
    with Server() as server:
        same(client_of("py", server, "foobot", x), (b"hello", b"PAGE open 200 5 whole\n", 0))


def client_in_bash():
    site, ruled = open_site(), site_with_rules()
    x, private = site.url("/x"), ruled.url("/private")
    with Server("--slots", "1") as server:
        rows = [
            (["run", "foobot", x, "echo", "page"], (b"page\n", b"", 0)),
            (["run", "foobot", x, "echo", "{}", x, "-{}"], (f"{x} {x} -{{}}\n".encode(), b"", 0)),
            (
                ["run", "foobot", site.url("/y/../x#z"), "sh", "-c", 'echo "$CRAWLGATE_URL"'],
                (f"{x}\n".encode(), b"", 0),
            ),
            (["run", "foobot", x, "sh", "-c", "exit 7"], (b"", b"", 7)),
            (
                ["run", "foobot", private, "echo", "page"],
                (b"", f"crawlgate.sh: NO {ruled.authority} line 2\n".encode(), 1),
            ),
            (["run", "foobot", f"{x}\nQUIT", "echo"], (b"", f"crawlgate.sh: no URL: {x}\nQUIT\n".encode(), 2)),
            (["run", "foobot", "https://a.example/", "echo"], (b"", b"crawlgate.sh: ERR url scheme\n", 1)),
            (["fetch", "foobot", x, "echo"], (b"", b"crawlgate.sh: fetch takes a token and a URL\n", 2)),
            (["seal", "foobot", x], (b"", b"crawlgate.sh: seal takes nothing\n", 2)),
        ]
        for words, wanted in rows:
            same((words, client_of("sh", server, *words)), (words, wanted))
        text, _, status = client_of("sh", server, "seal")
        same((text.split(b"\n")[0], text[-1:], status), (b"V 2", b"\n", 0))
        same(client_of("sh", server, "seal"), (b"", b"", 0))


def fetches_what_was_decided():
    """The clients fetch the URL that the gate has decided, whatever text they were given, and follow nothing."""

    def play(kind):
        ruled = site_with_rules()
        site = open_site({"/moved": response(302, b"", f"Location: {ruled.url('/private')}")})
        authority = site.authority
        texts = [f"http://{authority}\\@{ruled.authority}/private", site.url("/y/%2e%2e/x"), site.url("/moved")]
        with Server() as server:
            for text in texts:
                if kind == "sh":
                    client_of("sh", server, "run", "foobot", text, sys.executable, "-c", FETCH, "{}")
                else:
                    with python_client().Gate(
                        HOST, server.port, SECONDS,
                    ) as gate, gate.permit("foobot", text) as permit:
                        permit.open(SECONDS).read()
        asked = [f"/@{ruled.authority}/private", "/x", "/moved"]
        same([it for it in site.asked if it != "/robots.txt"], asked)
        same(ruled.asked, [])

    side_by_side(play, ["sh", "py"])


def client_looks_inside():
    """The client in Python has the numbers of INFO by name, and a script writes them for Prometheus."""
    site = open_site()
    with Server() as server, tempfile.TemporaryDirectory() as folder:
        with python_client().Gate(HOST, server.port, SECONDS) as gate, gate.permit("foobot", site.url("/x")):
            told = {"entries": 5, "ever": 5, "starts": 1, "permits": 0, "running": 1, "turns": 0, "authorities": 1,
                    "room": 999_994,
                    "connections": 1, "clients": 1, "denied_line": 0, "denied_closed": 0, "denied_unknown": 1,
                    "denied_expired": 0,
                    "denied_spent": 0, "failed_pages": 0, "failed_robots": 0, "journal_octets": 0, "journal_syncs": 0,
                    "slowest_sync": 0, "robots_no_name": 0, "robots_refused": 0, "robots_timed_out": 0, "robots_tls": 0,
                    "robots_status": 0, "robots_other": 0, "waiting": 0}
            same(gate.info(), told)
            subprocess.run(
                [f"{CLIENTS}/prometheus.py", str(server.port), f"{folder}/gate.prom"], check=True, timeout=SECONDS,
            )
        with open(f"{folder}/gate.prom", encoding="utf-8") as file:
            text = file.read()
        same(os.listdir(folder), ["gate.prom"])
        same(text.count("\n"), 84)
        assert "# TYPE crawlgate_up gauge\ncrawlgate_up 1\n" in text, text
        assert "# TYPE crawlgate_starts_total counter\ncrawlgate_starts_total 1\n" in text, text
        assert "# TYPE crawlgate_room gauge\ncrawlgate_room 999994\n" in text, text


def client_goes_on():
    """The client in Python connects anew where the server has ended its session and nothing was out."""
    site = open_site()
    with Server("--patience", "1") as server, python_client().Gate(HOST, server.port, SECONDS) as gate:
        same(gate.refresh(site.authority), "open")
        time.sleep(1.5)
        with gate.permit("foobot", site.url("/x")) as permit:
            same(permit.reason, "open")
        number = gate.ask("foobot", site.url("/x"))
        time.sleep(1.5)
        # (with a permit out it is told)
        try:
            same(gate.start(number, "foobot", site.url("/x")), "an error")
        except ConnectionError:
            pass
        same(gate.state(site.authority), ("open", False))


def closed_site_is_tried_again():
    """The client in Python has the robots.txt of a closed site fetched again for a permit, once its time has come."""
    client = python_client()

    def play(retry_closed, wanted):
        site = open_site({"/robots.txt": response(503)})
        with Server() as server, client.Gate(HOST, server.port, SECONDS, retry_closed) as gate:
            same(gate.refresh(site.authority), "closed")
            site.pages["/robots.txt"] = response(404)
            time.sleep(1.0)
            try:
                with gate.permit("foobot", site.url("/x")) as permit:
                    told = permit.reason
            except client.Denied as denied:
                told = denied.cause
            same((retry_closed, told), (retry_closed, wanted))

    side_by_side(lambda row: play(*row), [(None, "closed"), (600, "closed"), (0.5, "open")])


def clients_wait_for_a_robots_fetch():
    """A client that has no answer while another session has the robots.txt fetched does without a fetch of its own."""

    def play(kind):
        site = open_site({"/robots.txt": (1.0, response(404))})
        with Server() as server, Session(server) as other:
            other.send(f"REFRESH {site.authority}\n".encode())
            time.sleep(0.3)
            if kind == "sh":
                same(client_of("sh", server, "run", "foobot", site.url("/x"), "echo", "page"), (b"page\n", b"", 0))
            else:
                with python_client().Gate(
                    HOST, server.port, SECONDS,
                ) as gate, gate.permit("foobot", site.url("/x")) as permit:
                    same(permit.reason, "open")
            same(other.lines(1), [f"TAKEN {site.authority} open"])
        same(site.asked.count("/robots.txt"), 1)

    side_by_side(play, ["sh", "py"])


CASES = [
    client_in_python, client_in_bash, client_looks_inside, client_goes_on, closed_site_is_tried_again,
    fetches_what_was_decided,
    clients_wait_for_a_robots_fetch,
]
