"""Cases of checks/serve in which somebody looks into a server: WHY, and the port of --seal-port."""
import contextlib
import os
import re
import tempfile
import time

from journals import Recorded, audit
from lib.cases import in_time, same, short
from lib.server import SECONDS, Server, Session
from lib.sites import HOST, open_site, response
from clients import python_client
from sessions import sealed


class Overseen(Server):
    """A server with a port for overseers, which its second line names."""

    def __init__(self, *words):
        super().__init__("--seal-port", "0", *words)
        self.clients = self.port
        # (it may be read with the first already, so that nothing is there to be waited for)
        line = self.process.stdout.readline()
        found = re.fullmatch(rb"SEAL 127\.0\.0\.1:(\d+)\n", line)
        assert found, short(line)
        self.overseers = int(found[1])

    def overseer(self):
        self.port = self.overseers
        try:
            return Session(self)
        finally:
            self.port = self.clients


def why_an_answer_stands(session):
    """WHY answers with the answer that stands, as the text of the history has it, with its turn and its beginning."""
    rows = [
        (response(404), "O unavailable"),
        (response(503), "C server 503"),
        (response(302, b"", "Location: ftp://x/"), "C scheme redirect to another scheme"),
        (response(200, b"gzip", "Content-Encoding: gzip"), "C coding coded"),
        (response(200, b"User-agent: *\nDisallow: /x y\n"), "R 86400 User-agent%3A%20%2A%0ADisallow%3A%20%2Fx%20y%0A"),
        (response(200, b"", "Cache-Control: max-age=70"), "R 70 -"),
        (response(200, b"-"), "R 86400 %2D"),
    ]
    for number, (page, answer) in enumerate(rows):
        site = open_site({"/robots.txt": page})
        a = site.authority
        same(session.say(f"WHY {a}"), f"WHY {a} unknown")
        before = int(time.time())
        assert session.say(f"REFRESH {a}").startswith(f"TAKEN {a} "), a
        words = session.say(f"WHY {a}").split(" ")
        assert before <= int(words[3]) <= time.time(), words
        same([*words[:3], *words[4:]], ["WHY", a, str(2 * number + 1), *answer.split(" ")])
        same(session.say(f"REFRESH {a}").split(" ")[0], "TAKEN")
        same(session.say(f"WHY {a}").split(" ")[2], str(2 * number + 2))
        # (the base of a next segment has the same words)
    sealed(session)
    standing = [line.split(" ", 1)[1] for line in base_lines(session, site)]
    same(session.say(f"WHY {a}").split(" ", 1)[1] in standing, True)
    same(
        [session.say(line) for line in ("WHY", "WHY a b", "WHY a/b", "why a")],
        ["ERR words", "ERR words", "ERR authority", "ERR verb"],
    )


def base_lines(it, site):
    """Returns the lines of answers in the base of the next segment."""
    it.say(f"ASK foobot {site.url('/x')}")
    return [line for line in sealed(it) if line.startswith("H ")]


def client_asks_why():
    """The client in Python has the answer that stands."""
    site = open_site({"/robots.txt": response(200, b"User-agent: *\nDisallow: /x\n")})
    with Server() as server, python_client().Gate(HOST, server.port, SECONDS) as gate:
        same(gate.why(site.authority), None)
        same(gate.refresh(site.authority), "rules")
        turn, begun, *answer = gate.why(site.authority)
        same((turn, answer), (1, ["R", "86400", "User-agent%3A%20%2A%0ADisallow%3A%20%2Fx%0A"]))
        assert time.time() - 60 <= begun <= time.time(), begun


def seal_port_beside_clients():
    """Who sees to the gate is served though clients have all workers, and has five verbs."""
    site = open_site()
    a, x = site.authority, site.url("/x")
    with Overseen("--workers", "1", "--connections", "2") as server:
        with Session(server) as it:
            same(it.say(f"REFRESH {a}"), f"TAKEN {a} open")
            same(it.say(f"ASK foobot {x}"), "PERMIT 65536")
            with Session(server) as waiting, server.overseer() as other:
                waiting.send(b"INFO\n")
                began = time.monotonic()
                same(other.say("INFO").split(" ")[:5], ["INFO", "entries", "3", "ever", "3"])
                in_time(time.monotonic() - began, 5)
                same(other.say(f"STATE {a}"), f"STATE {a} open idle")
                same(other.say(f"WHY {a}").split(" ")[4:], ["O", "unavailable"])
                lines = [f"ASK foobot {x}", f"START 65536 foobot {x}", "BACK 65536", "DONE 65536", f"URL {x}",
                         f"REFRESH {a}",
                         f"FETCH foobot {x}", "BEGIN a.example", "SWEEP", "5 SEAL"]
                same([other.say(line) for line in lines], ["ERR verb"] * len(lines))
                same(len(sealed(other)), 4)
                same(other.say("INFO").split(" ")[:9], "INFO entries 0 ever 3 starts 0 permits 1".split(" "))
                same(other.say("QUIT"), "BYE")
                same(waiting.is_answered(), False)
                with server.overseer() as one, server.overseer() as next_one:
                    next_one.send(b"STATE a.example\n")
                    same(one.say("QUIT"), "BYE")
                    same(next_one.lines(1), ["STATE a.example unknown idle"])
                    next_one.send(b"QUIT\n")
                same(it.say(f"START 65536 foobot {x}"), "GO 65536 open")
                same(it.say("QUIT"), "BYE")
                same(waiting.lines(1)[0].split(" ")[:5], ["INFO", "entries", "2", "ever", "5"])
                same(waiting.say("QUIT"), "BYE")
        same(server.end(), (b"SERVED connections 2 events 5\n", 0, b""))


def told_waiting(overseer):
    """Returns the clients that INFO says are served, and those that it says wait."""
    words = overseer.say("INFO").split(" ")
    counts = dict(zip(words[1::2], map(int, words[2::2])))
    return counts["clients"], counts["waiting"]


def reached(read, wanted):
    """Waits until that value is read."""
    deadline = time.monotonic() + SECONDS
    while (found := read()) != wanted:
        assert time.monotonic() < deadline, f"{found}, wanted {wanted}"
        time.sleep(0.02)


def clients_wait_in_line(server):
    """INFO counts the clients for which no worker is free, and no longer once they are served or gone."""
    with server.overseer() as overseer, contextlib.ExitStack() as stack:
        first, *others = [stack.enter_context(Session(server)) for _ in range(4)]
        same(first.say("STATE a.example"), "STATE a.example unknown idle")
        reached(lambda: told_waiting(overseer), (1, 3))
        same(first.say("QUIT"), "BYE")
        reached(lambda: told_waiting(overseer), (1, 2))
        for it in others:
            same(it.say("QUIT"), "BYE")
        same(overseer.say("QUIT"), "BYE")
    same(server.end(), (b"SERVED connections 4 events 0\n", 0, b""))


def waiting_clients_are_counted():
    """As clients_wait_in_line, at a port."""
    with Overseen("--workers", "1", "--connections", "4") as server:
        clients_wait_in_line(server)


def silent_overseer_leaves():
    """An overseer that is silent for five seconds, or sends half a line and stays, leaves its place to the next one;
    one that sends lines goes on, and so does a silent one for which nobody waits."""
    with Overseen() as server, Session(server) as it:
        same(it.say("ASK foobot http://a.example/"), "NO a.example unknown")
        for sent in (b"", b"INF"):
            with server.overseer() as silent, server.overseer() as next_one:
                silent.send(sent)
                began = time.monotonic()
                sealed(next_one)
                in_time(time.monotonic() - began, 7)
                same(silent.lines(1), [])
                same(next_one.say("QUIT"), "BYE")
        with server.overseer() as busy, server.overseer() as next_one:
            next_one.send(b"STATE a.example\n")
            for _ in range(4):
                time.sleep(2)
                same(busy.say("STATE b.example"), "STATE b.example unknown idle")
            same(next_one.is_answered(), False)
            same(busy.say("QUIT"), "BYE")
            same(next_one.lines(1), ["STATE a.example unknown idle"])
            time.sleep(6)
            same(next_one.say("QUIT"), "BYE")


def seal_port_with_a_journal():
    """A seal there begins the journal's next file."""

    class Both(Overseen):
        folder = None

        def text(self):
            return Recorded.text(self)

    with tempfile.TemporaryDirectory() as folder:
        Both.folder = f"{folder}/journal"
        with Both(
            "--journal", Both.folder, "--connections", "1",
        ) as server, Session(server) as it, server.overseer() as other:
            same(it.say("ASK foobot http://a.example/"), "NO a.example unknown")
            same(len(sealed(other)), 2)
            same(other.say("QUIT"), "BYE")
            same(it.say("QUIT"), "BYE")
            same(server.end(), (b"SERVED connections 1 events 1\n", 0, b""))
            same(sorted(os.listdir(server.folder)), [".lock", "0" * 20, f"{1:020}.log"])
            same(audit(server.text()), "OK events 1 starts 0\n")


def seal_port_that_is_taken():
    with Server() as server:
        words = ["--seal-port", str(server.port), "--connections", "1"]
        other = Server(*words, without="2>&1", port=0)
        output, status, _ = other.end()
        same((output, status), (f"crawlgate: device: port {server.port}: address in use\n".encode(), 3))


CASES = [
    why_an_answer_stands, client_asks_why, seal_port_beside_clients, waiting_clients_are_counted, silent_overseer_leaves,
    seal_port_with_a_journal, seal_port_that_is_taken,
]
