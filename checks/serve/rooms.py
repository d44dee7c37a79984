"""Cases of checks/serve on what a server and a client may keep: octets of a journal's files and of robots.txt files,
entries."""
import os
import re
import tempfile
import time

from journals import Recorded, audit, text_of
from lib.cases import OutOfRoom, same
from lib.fixtures import served
from lib.server import Server, Session
from lib.sites import Requests, open_site, response
from sessions import sealed

# a page of 4,000 octets, of a site that is not known: an ASK of it makes an entry that is as long
UNKNOWN = f"ASK foobot http://a.example/{'x' * 4_000}"
ROOM = 1 << 23
# what a server may have of memory where there is little
OCTETS = 100_000_000


def octets_of(folder):
    return sum(os.stat(f"{folder}/{it}").st_size for it in os.listdir(folder))


def filled(it):
    """Asks until the journal has no more room, and returns how often."""
    count = 0
    while True:
        replies = set(it.say_all([UNKNOWN] * 50))
        if "ERR log" in replies:
            assert replies <= {"ERR log", "NO a.example unknown"}, replies
            return count
        same(replies, {"NO a.example unknown"})
        count += 50


def journal_with_room():
    """Past its room nothing is entered that is not out already, and sessions go on; once files were moved away there is
    room again, in the same session."""
    site = open_site({"/robots.txt": response(404)})
    a, x = site.authority, site.url("/x")
    words = ["--journal-room", str(ROOM), "--journal-sync", "never"]
    with tempfile.TemporaryDirectory() as folder, Recorded(
        folder, *words,
    ) as server, Session(server) as it, Session(server) as other:
        same(it.say(f"REFRESH {a}"), f"TAKEN {a} open")
        same(it.say_all([f"ASK foobot {x}"] * 2), ["PERMIT 65536", "PERMIT 65537"])
        same(set(it.say_all([UNKNOWN] * 1_000)), {"NO a.example unknown"})
        assert sealed(it)
        assert 500 < filled(it) < 1_100
        assert ROOM - 500_000 < octets_of(server.folder) < ROOM + 500_000, octets_of(server.folder)
        same(
            [other.say(line) for line in (UNKNOWN, f"ASK foobot {x}", f"REFRESH {a}", "SEAL")],
            ["ERR log"] * 3 + ["ERR memory"],
        )
        it.send(f"FETCH foobot {x}\n".encode())
        same(it.lines(3), ["HOP 1 ERR log", "BODY 0", ""])
        same(it.say(f"STATE {a}"), f"STATE {a} open idle")
        same(
            it.say_all([f"START 65536 foobot {x}", "DONE 65536", "BACK 65537"]),
            ["GO 65536 open", "DONE 65536", "BACK 65537"],
        )
        first, *left = sorted(name for name in os.listdir(server.folder) if not name.startswith("."))
        os.rename(f"{server.folder}/{first}", f"{folder}/{first}")
        deadline = time.monotonic() + 5
        while other.say(f"ASK foobot {x}") == "ERR log":
            assert time.monotonic() < deadline
            time.sleep(0.1)
        same(it.say("STATE a.example"), "STATE a.example unknown idle")
        server.stop()
        with open(f"{folder}/{first}") as file:
            whole = file.read() + text_of(server.folder)
        assert left
        assert audit(whole).startswith("OK events "), audit(whole)


@served("--texts", "700000")
def texts_with_room(session):
    """A robots.txt for which there is no room closes its site; one that stands already takes none, and a seal gives
    back the room of those that stand no more."""
    rules = b"User-agent: *\nDisallow: /x\n" + b"#" * 300_000
    sites = [open_site({"/robots.txt": response(200, rules + b"#" * at)}) for at in range(3)]
    one, two, three = (it.authority for it in sites)
    same(session.say(f"REFRESH {one}"), f"TAKEN {one} rules")
    # (the same text is in memory once)
    same(session.say_all([f"REFRESH {one}"] * 5), [f"TAKEN {one} rules"] * 5)
    same(session.say(f"REFRESH {two}"), f"TAKEN {two} rules")
    same(session.say(f"REFRESH {three}"), f"TAKEN {three} closed")
    same(session.say(f"ASK foobot {sites[2].url('/y')}"), f"NO {three} closed")
    same(session.say(f"ASK foobot {sites[1].url('/y')}").split(" ")[0], "PERMIT")
    # the first site's text becomes short, so after a seal there is room for the third one's
    sites[0].pages["/robots.txt"] = response(200, b"User-agent: *\nDisallow: /x\n")
    same(session.say(f"REFRESH {one}"), f"TAKEN {one} rules")
    same(session.say(f"REFRESH {three}"), f"TAKEN {three} closed")
    sealed(session)
    deadline = time.monotonic() + 5
    while session.say(f"REFRESH {three}") == f"TAKEN {three} closed":
        assert time.monotonic() < deadline
        time.sleep(0.1)
    same(session.say(f"STATE {three}"), f"STATE {three} rules idle")


@served("--client-entries", "4")
def client_with_entries(server, session, other):
    """A client that made its entries is refused further ones, but goes on with what it has out; the next one has as
    many, and others have theirs meanwhile."""
    site = open_site({"/robots.txt": response(404)})
    a, x = site.authority, site.url("/x")
    same(session.say(f"REFRESH {a}"), f"TAKEN {a} open")
    same(session.say_all([f"ASK foobot {x}"] * 3), ["PERMIT 65536", "PERMIT 65537", "ERR log"])
    same([session.say(line) for line in (UNKNOWN, f"REFRESH {a}")], ["ERR log"] * 2)
    session.send(f"FETCH foobot {x}\n".encode())
    same(session.lines(3), ["HOP 1 ERR log", "BODY 0", ""])
    same(
        session.say_all([f"START 65536 foobot {x}", "DONE 65536", "BACK 65537"]),
        ["GO 65536 open", "DONE 65536", "BACK 65537"],
    )
    same(session.say(f"STATE {a}"), f"STATE {a} open idle")
    # (a seal makes no room for a session that has had it)
    assert len(sealed(other)) > 4
    same(session.say(f"ASK foobot {x}"), "ERR log")
    same(set(other.say_all([UNKNOWN] * 4)), {"NO a.example unknown"})
    same(other.say(UNKNOWN), "ERR log")
    same(session.say("QUIT"), "BYE")
    with Session(server) as third:
        same(set(third.say_all([UNKNOWN] * 4)), {"NO a.example unknown"})
        same(third.say(UNKNOWN), "ERR log")


class LongRules(Requests):
    """A site of each host of 127.0.0.0/8 at one port, with a long robots.txt of its own."""

    def __init__(self):
        super().__init__("0.0.0.0")
        self.port = self.authority.split(":")[1]

    def authorities(self, count):
        return [f"127.0.1.{at}:{self.port}" for at in range(1, count + 1)]

    def answer(self, peer, head, target):
        host = re.search(rb"Host: (\S+)", head)[1]
        lines = [b"disallow: /no/%s/%d" % (host, at) for at in range(15_000)]
        peer.sendall(response(200, b"\n".join([b"user-agent: *", *lines])[:500_000]))


def drop_lines(it, count):
    """Reads that many lines, which are long and the last that come, and keeps none."""
    piece, it.unread = it.unread, b""
    while piece.count(b"\n") < count:
        count -= piece.count(b"\n")
        piece = it.peer.recv(1 << 20)
        assert piece


def roomy(reply):
    """Returns a reply that found room: where even a turn or a permit finds none, the case has nothing to show."""
    if reply == "ERR memory":
        raise OutOfRoom("no room for a turn or a permit")
    return reply


def little_memory(*words):
    """A robots.txt for which there is no memory closes its site; the others' sites, what is out, seals, and with a
    journal its files, go on. (It has two workers: what sixteen threads take as they start leaves the first site now
    room, now none.)"""
    sites = LongRules()
    first, *more = sites.authorities(240)
    words = ("--workers", "2", *words)
    with tempfile.TemporaryDirectory() as folder, Recorded(
        folder, *words, octets=OCTETS,
    ) as server, Session(server) as it:
        same(it.say(f"REFRESH {first}"), f"TAKEN {first} rules")
        same(it.say(f"ASK foobot http://{first}/x"), "PERMIT 65536")
        taken = [roomy(it.say(f"REFRESH {site}")).split(" ")[2] for site in more]
        if taken.count("rules") <= 20:
            raise OutOfRoom(f"{taken.count('rules')} sites found room")
        assert taken.count("closed") > 20, taken
        for _ in range(2):
            sealing = it.say("SEAL")
            if sealing != "ERR memory":
                drop_lines(it, int(sealing.split(" ")[1]))
            same(roomy(it.say(f"REFRESH {more[taken.index('closed')]}")).split(" ")[0], "TAKEN")
        same(it.say_all([f"START 65536 foobot http://{first}/x", "DONE 65536"]), ["GO 65536 norule", "DONE 65536"])
        same(roomy(it.say(f"ASK foobot http://{more[0]}/x")).split(" ")[0], "PERMIT")
        with Session(server) as other:
            # (a worker that has done nothing before may have no memory for its first lines: they are answered so)
            told = other.say(f"ASK foobot http://{more[0]}/x")
            assert told == "ERR memory" or told.startswith("PERMIT "), told
            same(other.say("QUIT"), "BYE")
        server.stop()
        assert audit(server.text()).startswith("OK events "), audit(server.text())


def little_memory_with_a_journal():
    little_memory()


def little_memory_with_a_journal_of_a_second():
    little_memory("--journal-sync", "second")


def pages_with_a_limit():
    """Of a page that many octets are read as --page-limit says: more than without it, or fewer, and the rest is cut."""
    long = 1_500_000
    site = open_site({"/robots.txt": response(404), "/long": response(200, b"x" * long)})
    for words, count, end in (
        ((), 1 << 20, "cut"), (("--page-limit", "2097152"), long, "whole"), (("--page-limit", "100"), 100, "cut"),
    ):
        with Server(*words) as server, Session(server) as it:
            it.send(f"FETCH foobot {site.url('/long')}\nQUIT\n".encode())
            same(it.rest(), f"HOP 1 PAGE open 200 {count} {end}\nBODY {count}\n".encode() + b"x" * count + b"\nBYE\n")


CASES = [
    journal_with_room, texts_with_room, pages_with_a_limit, client_with_entries, little_memory_with_a_journal,
    little_memory_with_a_journal_of_a_second,
]
