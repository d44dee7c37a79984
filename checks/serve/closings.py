"""Cases of checks/serve about sites that are closed: what WHY names, and what INFO counts."""
import socket
import tempfile
import time

from lib.cases import same
from lib.server import Server, Session
from lib.sites import HOST, Requests, Site, free_port, response
from sessions import numbers_of


class Drip(Requests):
    """A site that sends an octet now and then, and no whole response."""

    def answer(self, peer, head, target):
        for octet in response(200, b"x" * 50):
            peer.sendall(bytes([octet]))
            time.sleep(0.3)


def rows_of(port):
    """Returns the rows: what closes a site, its authority, the words of WHY behind the moment, and what INFO counts it
    as, if it is a failed fetch. Nothing listens at the port."""
    elsewhere = f"Location: http://{HOST}:{port}/robots.txt"
    sites = {
        "a status": (Site({"/robots.txt": response(503)}), "C server 503", "status"),
        "another status": (Site({"/robots.txt": response(304)}), "C other 304", None),
        "another scheme": (
            Site({"/robots.txt": response(302, b"", "Location: ftp://x/")}),
            "C scheme redirect to another scheme", None,
        ),
        "no target": (Site({"/robots.txt": response(301)}), "C redirect redirect to no page", None),
        "a redirect to nobody": (Site({"/robots.txt": response(302, b"", elsewhere)}), "C network refused", "refused"),
        "no HTTP": (Site({"/robots.txt": b"HTTP 200\r\n\r\n"}), "C network bad head", "other"),
        "a coding": (
            Site({"/robots.txt": response(200, b"x", "Content-Encoding: gzip")}), "C coding coded", "other",
        ),
        "no octet": (Site({"/robots.txt": b""}), "C network ended early", "other"),
        "silence": (Site({"/robots.txt": (5, response(404))}), "C network silent 1 s", "timed_out"),
        "octets now and then": (Drip(), "C network unfinished 3 s", "timed_out"),
    }
    rows = [(name, site.authority, words, count) for name, (site, words, count) in sites.items()]
    return rows + [
        ("a port where nobody is", f"{HOST}:{port}", "C network refused", "refused"),
        ("a name that nobody has", f"{'a' * 64}.invalid", "C network no such name", "no_name"),
        ("no TLS program", "https://192.0.2.1", "C network no TLS program", "tls"),
    ]


CAUSES = ["no_name", "refused", "timed_out", "tls", "status", "other"]


def counts_of(it):
    """Returns the counts by cause, and all together."""
    numbers = numbers_of(it)
    return {name: numbers[f"robots_{name}"] for name in CAUSES}, numbers["failed_robots"]


def server_without_tls():
    """A server whose program for TLS is gone once it has begun, and the port where that was."""
    port = free_port()
    with socket.create_server((HOST, port)):
        return Server("--tls-by", f"{HOST}:{port}", "--read-timeout", "1", "--fetch-timeout", "3"), port


def why_a_site_is_closed():
    """WHY names what closed a site behind the answer, and INFO counts the failed fetches by cause."""
    counts = dict.fromkeys(CAUSES, 0)
    server, opener = server_without_tls()
    with server, Session(server) as it:
        same(counts_of(it), (counts, 0))
        for name, authority, words, count in rows_of(free_port()):
            same((name, it.say(f"REFRESH {authority}")), (name, f"TAKEN {authority} closed"))
            same((name, it.say(f"WHY {authority}").split(" ", 4)[4]), (name, words))
            counts.update({count: counts[count] + 1} if count else {})
            same((name, counts_of(it)), (name, (counts, sum(counts.values()))))
        # (what opens TLS is there again, and ends each connection without an octet)
        Site({"/robots.txt": b""}, port=opener)
        same(it.say("REFRESH https://192.0.2.2"), "TAKEN https://192.0.2.2 closed")
        same(it.say("WHY https://192.0.2.2").split(" ", 4)[4], "C network no TLS connection")
        same(counts_of(it)[0]["tls"], 2)


def a_later_answer_has_its_own_cause():
    """Each answer of a site has the words of its own fetch; one that closes nothing has none."""
    site = Site({"/robots.txt": response(503)})
    a = site.authority
    with Server() as server, Session(server) as it:
        for page, answer, words in [
            (response(503), "closed", "C server 503"), (response(504), "closed", "C server 504"),
            (response(404), "open", "O unavailable"), (b"HTTP 200\r\n\r\n", "closed", "C network bad head"),
            (response(302, b"", "Location: https://x/"), "closed", "C scheme redirect to https"),
        ]:
            site.pages["/robots.txt"] = page
            same(it.say(f"REFRESH {a}"), f"TAKEN {a} {answer}")
            same(it.say(f"WHY {a}").split(" ", 4)[4], words)


def a_cause_of_before_is_not_told():
    """A server that goes on from a journal knows the answers of before, and not what closed their sites; the next fetch
    tells it again."""
    site = Site({"/robots.txt": response(503)})
    a = site.authority
    with tempfile.TemporaryDirectory() as folder:
        with Server("--journal", f"{folder}/journal", "--connections", "1") as server:
            with Session(server) as it:
                same(it.say(f"REFRESH {a}"), f"TAKEN {a} closed")
                told = it.say(f"WHY {a}")
                same(told.split(" ", 4)[4], "C server 503")
                same(it.say("QUIT"), "BYE")
            same(server.end()[1], 0)
        with Server("--journal", f"{folder}/journal") as server, Session(server) as it:
            same(f"{it.say(f'WHY {a}')} 503", told)
            same(it.say(f"REFRESH {a}"), f"TAKEN {a} closed")
            same(it.say(f"WHY {a}").split(" ", 4)[4], "C server 503")


CASES = [why_a_site_is_closed, a_later_answer_has_its_own_cause, a_cause_of_before_is_not_told]
