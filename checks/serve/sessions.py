"""Cases of checks/serve with good clients: what is replied to lines, of whatever form."""
import glob
import socket
import tempfile
import threading
import time

from lib.cases import same
from lib.fixtures import served
from lib.server import Server, Session, side_by_side
from lib.sites import HOST, OCTETS, RULES, Site, free_port, open_site, response, site_with_rules

# the end of INFO where nothing was denied, nothing failed, and there is no journal
NOTHING_COUNTED = (
    " denied_line 0 denied_closed 0 denied_unknown 0 denied_expired 0 denied_spent 0 failed_pages 0 failed_robots 0"
    " journal_octets 0 journal_syncs 0 slowest_sync 0"
    " robots_no_name 0 robots_refused 0 robots_timed_out 0 robots_tls 0 robots_status 0 robots_other 0 waiting 0"
)


@served("--connections", "2", "--workers", "2")
def quits(server):
    for _ in range(2):
        with Session(server) as it:
            it.send(b"QUIT\n")
            same(it.rest(), b"BYE\n")
    same(server.end(), (b"SERVED connections 2 events 0\n", 0, b""))


def connections_are_counted():
    """A session may last while others come and go; workers that draw no connection end."""
    with Server("--connections", "3", "--workers", "2") as server, Session(server) as long:
        same(long.say("BACK 7"), "ERR notout")
        for _ in range(2):
            with Session(server) as it:
                it.finish()
                same(it.rest(), b"")
        same(long.say("BACK 7"), "ERR notout")
        long.finish()
        same(server.end(), (b"SERVED connections 3 events 0\n", 0, b""))
    site = open_site()
    with Server("--connections", "1", "--workers", "4") as server, Session(server) as it:
        it.send(f"FETCH foobot {site.url('/x')}\nQUIT\n".encode())
        same(it.rest(), b"HOP 1 PAGE open 200 5 whole\nBODY 5\nhello\nBYE\n")
        same(server.end(), (b"SERVED connections 1 events 5\n", 0, b""))


@served("--endless", "--workers", "2")
def without_end(server):
    """A client that connects anew each time is served more often than connections can be counted."""
    for _ in range(5000):
        with Session(server) as it:
            it.send(b"QUIT\n")
            same(it.rest(), b"BYE\n")
    same(server.process.poll(), None)


def usual_end_is_told():
    """A server that will end after the usual number of connections says so when it starts; one whose end was chosen
    does not."""
    usual = b"crawlgate: serve: ends after 4096 connections; with --endless it does not end by itself\n"
    for words, told in (([], usual), (["--endless"], b""), (["--connections", "4095"], b"")):
        with Server(*words) as server:
            server.process.kill()
            same((words, server.process.communicate()[1]), (words, told))


@served("--connections", "2", "--workers", "2", "--slots", "1")
def two_sessions(server, site):
    a, x = site.authority, site.url("/x")
    with Session(server) as first, Session(server) as second:
        same(first.say(f"REFRESH {a}"), f"TAKEN {a} open")
        same(first.say(f"ASK foobot {x}"), "PERMIT 65536")
        same(second.say(f"ASK foobot {x}"), "ERR permits")
        same(second.say(f"START 65536 foobot {x}"), f"NO {a} spent")
        same(first.say("QUIT"), "BYE")
        same(second.say(f"ASK foobot {x}"), "PERMIT 131072")
    same(server.end(), (b"SERVED connections 2 events 6\n", 0, b""))


def sealed(it):
    """Returns the lines of what a client is handed out, or none."""
    word, count = it.say("SEAL").split(" ")
    same(word, "SEALED")
    return it.lines(int(count))


def segments_are_what_was_served():
    """Clients seal while others work: all that they are handed out, in order, is each entry once, as many as SERVED
    counts."""
    site = open_site()
    with Server("--connections", "6", "--workers", "6") as server:
        with Session(server) as first:
            same(first.say(f"REFRESH {site.authority}"), f"TAKEN {site.authority} open")

        def rounds(client):
            page, texts = site.url(f"/{client}"), []
            with Session(server) as it:
                for turn in range(60):
                    number = it.say(f"ASK foobot {page}").removeprefix("PERMIT ")
                    same(it.say(f"START {number} foobot {page}"), f"GO {number} open")
                    if turn % 10 == client:
                        texts.append(sealed(it))
                    # the last one is left running, and QUIT ends it
                    if turn < 59:
                        same(it.say(f"DONE {number}"), f"DONE {number}")
                same(it.say("QUIT"), "BYE")
            return texts

        texts = [text for texts in side_by_side(rounds, range(4)) for text in texts]
        with Session(server) as last:
            texts.append(sealed(last))
            same(last.say("QUIT"), "BYE")
        ended = server.end()
    count = 0
    for text in sorted(filter(None, texts), key=lambda text: int(text[1].split(" ")[1]) if text[0] == "V 3" else 0):
        if text[0] == "V 3":
            same(text[1].split(" ")[:2], ["T", str(count)])
            text = text[text.index("E") :]
        count += len(text) - 1
    same((ended, count), ((f"SERVED connections 6 events {count}\n".encode(), 0, b""), 2 + 4 * 60 * 3))


def fetches(site, session):
    ruled = site_with_rules()
    a, b = site.authority, ruled.authority
    rows = [
        (f"FETCH foobot {site.url('/x')}", b"HOP 1 PAGE open 200 5 whole\nBODY 5\nhello\n"),
        (f"STATE {a}", f"STATE {a} open idle\n".encode()),
        (f"FETCH foobot {site.url('/none')}", b"HOP 1 PAGE open 404 0 whole\nBODY 0\n\n"),
        (f"FETCH foobot {ruled.url('/private')}", f"HOP 1 NO {b} line 2\nBODY 0\n\n".encode()),
        (
            f"FETCH foobot {ruled.url('/moved')}",
            b"HOP 1 PAGE norule 302 0 whole\nHOP 2 PAGE norule 200 768 whole\nBODY 768\n" + OCTETS + b"\n",
        ),
        (
            f"FETCH foobot {ruled.url('/long')}",
            b"HOP 1 PAGE norule 200 1048576 cut\nBODY 1048576\n" + b"x" * 1_048_576 + b"\n",
        ),
        (f"STATE {b}", f"STATE {b} rules idle\n".encode()),
        ("QUIT", b"BYE\n"),
    ]
    session.send("".join(f"{line}\n" for line, _ in rows).encode())
    same(session.rest(), b"".join(reply for _, reply in rows))


def faults_of_lines(session):
    rows = [
        ("BEGIN a.example", "ERR verb"), ("SWEEP", "ERR verb"), ("1 QUIT", "ERR verb"), ("quit", "ERR verb"),
        ("", "ERR words"), ("QUIT now", "ERR words"), ("STATE  a.example", "ERR words"), ("QUIT\t", "ERR chars"),
        ("BACK x", "ERR number"), ("BACK 7", "ERR notout"), ("DONE 7", "ERR notout"), ("REFRESH a/b", "ERR authority"),
        ("ASK foo2 http://a.example/", "ERR token"), ("FETCH foobot https://a.example/", "ERR url scheme"),
        ("ASK foobot http://a.example/", "NO a.example unknown"), ("STATE a.example", "STATE a.example unknown idle"),
        ("START 65536 foobot http://a.example/", "NO a.example spent"), ("QUIT", "BYE"),
    ]
    for line, reply in rows:
        same((line, session.say(line)), (line, reply))


def site_is_down(session):
    with socket.create_server((HOST, 0)) as listener:
        a = f"{HOST}:{listener.getsockname()[1]}"
    same(session.say(f"REFRESH {a}"), f"TAKEN {a} closed")
    same(session.say(f"ASK foobot http://{a}/x"), f"NO {a} closed")
    same(session.say(f"STATE {a}"), f"STATE {a} closed idle")


def one_robots_fetch_at_a_time(session, other):
    site = open_site({"/robots.txt": (1.0, response(404))})
    a, x = site.authority, site.url("/x")
    session.send(f"REFRESH {a}\n".encode())
    until = time.monotonic() + 0.8
    while other.say(f"STATE {a}") == f"STATE {a} unknown idle" and time.monotonic() < until:
        pass
    same(other.say(f"STATE {a}"), f"STATE {a} unknown fetching")
    same(other.say(f"REFRESH {a}"), "ERR inflight")
    # a fetch waits for the answer
    other.send(f"FETCH foobot {x}\n".encode())
    same(other.lines(3), ["HOP 1 PAGE open 200 5 whole", "BODY 5", "hello"])
    same(session.lines(1), [f"TAKEN {a} open"])
    same(site.asked, ["/robots.txt", "/x"])


def answers_are_waited_for():
    """Sixteen clients have the same pages fetched at the same time: a session that does not fetch a robots.txt waits
    for the answer of the one that does, and each file is fetched once."""
    sites = [open_site({"/robots.txt": (0.02, response(404))}) for _ in range(100)]

    def play(client):
        with Session(server) as it:
            for site in sites:
                it.send(f"FETCH foobot {site.url('/x')}\n".encode())
                same(it.lines(3), ["HOP 1 PAGE open 200 5 whole", "BODY 5", "hello"])

    with Server("--workers", "16") as server:
        side_by_side(play, range(16))
    same([site.asked.count("/robots.txt") for site in sites], [1] * len(sites))


def urls_as_written(session):
    """A client learns how the gate writes a URL."""
    rows = [
        ("http://A.example:80/a/../%7Eb?c#d", "URL http://a.example/%7Eb?c"),
        ("http://a.example\\@b.example/x", "URL http://a.example/@b.example/x"),
        ("http://a.example", "URL http://a.example/"),
        ("https://a.example/", "ERR url scheme"),
        ("http://u@a.example/", "ERR url user"),
        ("http://", "ERR url bad"),
        ("", "ERR words"),
        ("http://a.example/ http://a.example/", "ERR words"),
    ]
    same([session.say(f"URL {url}".rstrip(" ")) for url, _ in rows], [reply for _, reply in rows])


@served("--log", "100")
def look_inside(site, session, other):
    """INFO counts what there is in the gate, of all sessions; it makes no entry, and a seal leaves what is open."""

    def info(entries, ever, starts, permits, running, authorities, room, clients=2):
        return (f"INFO entries {entries} ever {ever} starts {starts} permits {permits} running {running} turns 0 "
                f"authorities {authorities} room {room} connections 2 clients {clients}{NOTHING_COUNTED}")

    a, x = site.authority, site.url("/x")
    same([each.say("STATE a.example") for each in (session, other)], ["STATE a.example unknown idle"] * 2)
    same(session.say("INFO"), info(0, 0, 0, 0, 0, 0, 100))
    same(session.say(f"REFRESH {a}"), f"TAKEN {a} open")
    same(
        session.say_all([f"ASK foobot {x}", f"ASK foobot {x}", f"START 65536 foobot {x}"]),
        ["PERMIT 65536", "PERMIT 65537", "GO 65536 open"],
    )
    # two entries of the robots.txt, two grants, a start; a start and an end are promised to a permit, an end to a fetch
    same([each.say("INFO") for each in (other, session)], [info(5, 5, 1, 1, 1, 1, 92)] * 2)
    same(len(sealed(session)), 6)
    same(other.say("INFO"), info(0, 5, 1, 1, 1, 1, 97))
    same([other.say("INFO x"), other.say("info")], ["ERR words", "ERR verb"])
    same(session.say("QUIT"), "BYE")
    same(session.rest(), b"")
    while not (told := other.say("INFO")).endswith(f" clients 1{NOTHING_COUNTED}"):
        assert told.endswith(f" connections 2 clients 2{NOTHING_COUNTED}"), told


def numbers_of(it):
    """Returns the numbers of INFO by name."""
    words = it.say("INFO").split(" ")
    return {name: int(number) for name, number in zip(words[1::2], words[2::2])}


def events_are_counted():
    """INFO counts denials by cause, pages and robots.txt files that could not be fetched, and what the journal
    writes."""
    ruled, good = site_with_rules(), open_site({"/gone": b""})
    broken = Site({"/robots.txt": response(503)})
    dead = f"{HOST}:{free_port()}"
    counted = [it for it in NOTHING_COUNTED.split(" ") if it and it != "0"]
    with tempfile.TemporaryDirectory() as folder, Server(
        "--journal", f"{folder}/journal",
    ) as server, Session(server) as it:
        begun = numbers_of(it)
        same([begun[name] for name in counted[:7]], [0] * 7)
        same([it.say(f"REFRESH {site}") for site in (ruled.authority, good.authority, broken.authority, dead)],
             [
                 f"TAKEN {ruled.authority} rules", f"TAKEN {good.authority} open", f"TAKEN {broken.authority} closed",
                 f"TAKEN {dead} closed",
             ])
        same(numbers_of(it)["failed_robots"], 2)
        private, x = ruled.url("/private"), good.url("/x")
        it.send(f"FETCH foobot {private}\n".encode())
        same(it.lines(3), [f"HOP 1 NO {ruled.authority} line 2", "BODY 0", ""])
        same(it.say_all([
            f"ASK foobot {private}", f"ASK foobot http://{dead}/", "ASK foobot http://a.example/", f"ASK foobot {x}",
            f"START 65536 foobot {x}", f"START 65536 foobot {x}", "DONE 65536",
        ]), [
            f"NO {ruled.authority} line 2", f"NO {dead} closed", "NO a.example unknown", "PERMIT 65536",
            "GO 65536 open", f"NO {good.authority} spent", "DONE 65536",
        ])
        it.send(f"FETCH foobot {good.url('/gone')}\n".encode())
        same(it.lines(3)[0].split(" ")[:3], ["HOP", "1", "FAULT"])
        ended = numbers_of(it)
        same([ended[name] for name in counted[:7]], [2, 1, 1, 0, 1, 1, 2])
        with open(max(glob.glob(f"{folder}/journal/0*")), "rb") as file:
            octets = len(file.read())
        same((ended["journal_octets"], begun["journal_octets"] < octets), (octets, True))
        assert ended["journal_syncs"] > begun["journal_syncs"] > 0 and 0 < ended["slowest_sync"] < 60_000_000, ended


class Heads(Site):
    """A site that keeps the heads of its requests."""

    def __init__(self, pages):
        self.heads = []
        super().__init__(pages)

    def answer(self, peer, head, target):
        self.heads.append(head)
        super().answer(peer, head, target)


def robots_file_elsewhere(session):
    """A robots.txt that redirects to a page which its own site denies is read there, as crawlgate, and no start tells
    of it; the text is in WHY and in the history."""
    other = Heads({"/robots.txt": response(200, RULES), "/private/letters": response(200, b"the letters")})
    site = open_site({"/robots.txt": response(302, b"", f"Location: {other.url('/private/letters')}")})
    session.send(f"FETCH foobot {other.url('/private/letters')}\n".encode())
    same(session.lines(3), [f"HOP 1 NO {other.authority} line 2", "BODY 0", ""])
    same(session.say(f"REFRESH {site.authority}"), f"TAKEN {site.authority} rules")
    same(session.say(f"WHY {site.authority}").split(" ")[-3:], ["R", "86400", "the%20letters"])
    words = session.say("INFO").split(" ")
    same(words[words.index("starts") + 1], "0")
    session.send(b"SEAL\nQUIT\n")
    assert b" R 86400 the%20letters\n" in session.rest(), "the text is not in the history"
    same(other.asked, ["/robots.txt", "/private/letters"])
    assert b"\r\nuser-agent: crawlgate\r\n" in other.heads[1].lower(), other.heads


def thousand_lines_at_once(session):
    same(session.say_all(["STATE a.example"] * 1000), ["STATE a.example unknown idle"] * 1000)
    assert session.reads <= 100, f"a thousand replies came in {session.reads} pieces"
    return f"their replies came in {session.reads} pieces"


def million_lines(session):
    sender = threading.Thread(target=session.send, args=(b"\n" * 1_000_001,), daemon=True)
    sender.start()
    same(session.rest(), b"ERR words\n" * 1_000_000 + b"ERR lines\n")
    sender.join()


def line_by_octets(session):
    for octet in b"STATE a.example\r\nQUIT\n":
        session.send(bytes([octet]))
        time.sleep(0.005)
    same(session.rest(), b"STATE a.example unknown idle\nBYE\n")


def ends_of_lines(server):
    state = b"STATE a.example unknown idle\n"
    rows = [
        (b"STATE a.example\r\nQUIT\r\n", state + b"BYE\n"),
        (b"STATE a.example\r\r\n", b"ERR chars\n"),
        (b"STATE a.example", state),
        (b"STATE a.example\nSTATE a.example", state * 2),
        (b"STATE a.example\nQUIT", state + b"BYE\n"),
        (b"QUIT\r", b"ERR chars\n"),
        (b"\n", b"ERR words\n"),
        (b"", b""),
        (b"x" * 8192 + b"\nQUIT\n", b"ERR verb\nBYE\n"),
        (b"x" * 8192 + b"\r\nQUIT\n", b"ERR verb\nBYE\n"),
        (b"x" * 8192, b"ERR verb\n"),
        (b"x" * 8193 + b"\nQUIT\n", b"ERR long\n"),
        (b"x" * 8193, b"ERR long\n"),
        (b"QUIT\nQUIT\n", b"BYE\n"),
    ]
    for given, wanted in rows:
        with Session(server) as it:
            it.send(given)
            it.finish()
            same((given, it.rest()), (given, wanted))


CASES = [
    quits, connections_are_counted, without_end, usual_end_is_told, two_sessions, segments_are_what_was_served, fetches,
    faults_of_lines, site_is_down, one_robots_fetch_at_a_time, answers_are_waited_for, robots_file_elsewhere,
    urls_as_written, look_inside, events_are_counted, thousand_lines_at_once, million_lines, line_by_octets,
    ends_of_lines,
]
