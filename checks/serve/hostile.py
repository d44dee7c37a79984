"""Cases of checks/serve with bad clients, and with little of what the program needs."""
import contextlib
import resource
import socket
import subprocess
import sys
import threading
import time

from lib.cases import in_time, same
from lib.fixtures import served
from lib.program import ROOT
from lib.server import SECONDS, Server, Session, side_by_side, suppressed
from lib.sites import free_port, open_site, response


def numbers_of_others():
    """Sixteen clients have four permits each, two of them started, and try out those of all others."""
    site = open_site()
    a, x = site.authority, site.url("/x")
    with Server("--workers", "16", "--slots", "64") as server, contextlib.ExitStack() as stack:
        clients = [stack.enter_context(Session(server)) for _ in range(16)]
        same(clients[0].say(f"REFRESH {a}"), f"TAKEN {a} open")
        owned = {it: [int(reply.split()[1]) for reply in it.say_all([f"ASK foobot {x}"] * 4)] for it in clients}
        numbers = sorted(number for own in owned.values() for number in own)
        same(numbers, list(range(65536, 65600)))
        for it, own in owned.items():
            same(it.say_all(f"START {n} foobot {x}" for n in own[:2]), [f"GO {n} open" for n in own[:2]])

        def attack(it):
            others = [n for n in [0, *range(65536, 65664), *range(131072, 131200), 2**64 - 1] if n not in owned[it]]
            for verb in ("START", "BACK", "DONE"):
                words, reply = (f" foobot {x}", f"NO {a} spent") if verb == "START" else ("", "ERR notout")
                same(it.say_all([f"{verb} {n}{words}" for n in others]), [reply] * len(others))

        side_by_side(attack, clients)
        for it, own in owned.items():
            same(it.say_all(f"DONE {n}" for n in own[:2]), [f"DONE {n}" for n in own[:2]])
            same(it.say(f"START {own[2]} foobot {x}"), f"GO {own[2]} open")
            same(it.say(f"BACK {own[3]}"), f"BACK {own[3]}")


def killed_clients():
    """Behind a thousand clients that were killed, one client gets as many permits as there are slots."""
    slots, parts, site = 16, 8, open_site()
    x = site.url("/x")
    with Server("--workers", "16", "--slots", str(slots), "--endless") as server:
        with Session(server) as it:
            same(it.say(f"REFRESH {site.authority}"), f"TAKEN {site.authority} open")
        words = [sys.executable, f"{ROOT}/checks/serve/victims.py", str(server.port), x, str(1000 // parts)]
        began = time.monotonic()
        for it in [subprocess.Popen([*words, str(seed)]) for seed in range(parts)]:
            same(it.wait(), 0)
        took = time.monotonic() - began
        with Session(server) as it:
            numbers, until = set(), time.monotonic() + 10
            while len(numbers) < slots and time.monotonic() < until:
                word, number = it.say(f"ASK foobot {x}").split()
                numbers.update({number} if word == "PERMIT" else ())
                # (a worker may not have seen yet that its client is gone)
                time.sleep(0 if word == "PERMIT" else 0.02)
            same(len(numbers), slots)
            same(it.say(f"ASK foobot {x}"), "ERR permits")
        same(server.process.poll(), None)
    return f"killed in {took:.1f} s, the greatest generation is {max(map(int, numbers)) // 65536}"


ENDS = [(b"QUIT\n", b"BYE\n"), (b"x" * 8193 + b"\n", b"ERR long\n"), (b"x" * 8200, b"ERR long\n")]


@served("--workers", "16")
def unread_behind_the_end(server):
    """The last reply arrives, whatever the client sent after its end and whenever it reads."""

    def play(row):
        (given, wanted), more = row
        with Session(server) as it:
            it.send(given + b"y" * more)
            time.sleep(0.5)
            same(it.rest(), wanted)

    def flood(row):
        given, wanted = row
        with Session(server) as it:
            sender = threading.Thread(target=suppressed, args=(it.send, given + b"y" * 8_000_000), daemon=True)
            sender.start()
            same(it.lines(1), [wanted[:-1].decode()])
        sender.join()

    side_by_side(play, [(row, more) for row in ENDS for more in (1, 1_000, 50_000)])
    side_by_side(flood, ENDS)


def be_silent(it):
    pass


def stop_in_a_line(it):
    it.send(b"STATE a.exam")


def send_octets(it):
    for _ in range(60):
        it.send(b"x")
        time.sleep(0.5)


def read_nothing(it):
    it.peer.setsockopt(socket.SOL_SOCKET, socket.SO_RCVBUF, 4096)
    while True:
        it.send(b"STATE a.example\n" * 1000)


def stay_behind_the_end(it):
    it.send(b"QUIT\n")
    send_octets(it)


# how a client behaves, and for how many seconds it may hold a worker: from the patience on, but for one that has quit
HOLDERS = [
    (be_silent, 1.5, 6), (stop_in_a_line, 1.5, 6), (send_octets, 1.5, 6), (read_nothing, 1.5, 6),
    (stay_behind_the_end, 0, 4),
]


def nobody_holds_a_worker():
    """With one worker and a patience of two seconds the next client is served in good time, and gets the only slot."""
    site = open_site()
    ask = f"ASK foobot {site.url('/x')}"
    words = ["--patience", "2", "--workers", "1", "--slots", "1"]

    def seconds_held_by(row):
        with Server(*words) as server, Session(server) as held, Session(server) as following:
            same(held.say(f"REFRESH {site.authority}"), f"TAKEN {site.authority} open")
            same(held.say(ask), "PERMIT 65536")
            began = time.monotonic()
            threading.Thread(target=suppressed, args=(row[0], held), daemon=True).start()
            same(following.say(ask), "PERMIT 131072")
            return time.monotonic() - began

    took = side_by_side(seconds_held_by, HOLDERS)
    for (_, least, most), seconds in zip(HOLDERS, took):
        in_time(seconds, most, least)
    return ", ".join(f"{row[0].__name__} {seconds:.1f} s" for row, seconds in zip(HOLDERS, took))


def gone_during_a_fetch():
    """A client that leaves while the gate fetches for it: the next one gets the worker, and the only slot."""
    site = open_site({"/slow": (1.5, response(200, b"hello"))})
    with Server("--workers", "1", "--slots", "1") as server, Session(server) as gone, Session(server) as following:
        gone.send(f"FETCH foobot {site.url('/slow')}\n".encode())
        time.sleep(0.5)
        gone.reset()
        began = time.monotonic()
        same(following.say(f"ASK foobot {site.url('/x')}"), "PERMIT 131072")
        took = time.monotonic() - began
    in_time(took, 4)


def fetches_for_nobody():
    """Of what a client has sent ahead, two pages at most are fetched after it has gone: replies are written after
    each."""
    site = open_site()
    with Server("--workers", "1") as server:
        with Session(server) as it:
            same(it.say(f"REFRESH {site.authority}"), f"TAKEN {site.authority} open")
            it.send(f"FETCH foobot {site.url('/x')}\n".encode() * 2000)
        with Session(server) as it:
            # (the one worker is here now)
            same(it.say("STATE a.example"), "STATE a.example unknown idle")
    # (some are fetched while it still sends)
    fetched = site.asked.count("/x")
    assert fetched <= 10, fetched
    return f"{fetched} of 2,000 pages were fetched"


def lines_sent_ahead():
    """With `--ahead 2` a client whose lines are all there before it reads keeps its worker for little more than two
    seconds; one that waits for each reply keeps it for as long as it likes."""
    site = open_site({"/slow": (0.4, response(200, b"hello"))})
    line = f"FETCH foobot {site.url('/slow')}\n".encode()
    reply = ["HOP 1 PAGE open 200 5 whole", "BODY 5", "hello"]
    with Server("--workers", "1", "--ahead", "2") as server:
        with Session(server) as it:
            same(it.say(f"REFRESH {site.authority}"), f"TAKEN {site.authority} open")
            began = time.monotonic()
            it.send(line * 2000)
            # each reply that there is comes whole
            replies = it.rest().decode().splitlines()
            took = time.monotonic() - began
        count = len(replies) // 3
        same((replies, count in range(4, 8)), (reply * count, True))
        same(site.asked.count("/slow"), count)
        with Session(server) as it:
            for _ in range(8):
                it.send(line)
                same(it.lines(3), reply)
            same(it.say("STATE a.example"), "STATE a.example unknown idle")
            # lines for which the gate fetches nothing do not count
            same(it.say_all(["STATE a.example"] * 2000), ["STATE a.example unknown idle"] * 2000)
    in_time(took, 5)
    return f"{count} of 2,000 pages were fetched, in {took:.1f} s"


def lines_behind_a_fetch():
    """A client whose lines stand behind a fetch of its own, and which may have the turn of those who send several lines,
    holds up nobody who sends several: each time they are answered at once."""
    site = open_site({"/slow": (2, response(200, b"hello"))})
    lines = [f"ASK foobot {site.url('/x')}", "STATE a.example"]
    with Server("--workers", "3") as server, Session(server) as slow, Session(server) as other, Session(server) as third:
        same(other.say(f"REFRESH {site.authority}"), f"TAKEN {site.authority} open")
        slow.send(f"FETCH foobot {site.url('/slow')}\nSTATE b.example\n".encode())
        until = time.monotonic() + 1
        longest = count = 0
        while time.monotonic() < until:
            for it in (other, third):
                began = time.monotonic()
                permit, state = it.say_all(lines)
                longest = max(longest, time.monotonic() - began)
                same(state, "STATE a.example unknown idle")
                same(it.say(f"BACK {permit.removeprefix('PERMIT ')}").split(" ")[0], "BACK")
                count += 1
        same(site.asked.count("/slow"), 1)
        same(slow.lines(4), ["HOP 1 PAGE open 200 5 whole", "BODY 5", "hello", "STATE b.example unknown idle"])
    in_time(longest, 0.5)
    return f"{count} times, for at most {1e3 * longest:.1f} ms"


@served("--client-permits", "2", "--client-authorities", "2")
def client_with_bounds(server):
    """One client gets two permits, and makes two sites known; the next one as many. Sites that are known go on."""
    sites = [open_site() for _ in range(3)]
    known, other, third = (it.authority for it in sites)
    moved = open_site({"/x": response(302, b"", f"Location: {sites[2].url('/x')}")})
    x = sites[0].url("/x")
    with Session(server) as it:
        same(it.say(f"REFRESH {known}"), f"TAKEN {known} open")
        same(it.say_all([f"ASK foobot {x}"] * 3), ["PERMIT 65536", "PERMIT 65537", "ERR permits"])
        same(it.say_all([f"START 65536 foobot {x}", f"ASK foobot {x}"]), ["GO 65536 open", "ERR permits"])
        same(it.say_all(["DONE 65536", f"ASK foobot {x}"]), ["DONE 65536", "PERMIT 131072"])
        # a site that is known already counts once
        same(it.say_all([f"REFRESH {known}", f"REFRESH {other}"]), [f"TAKEN {known} open", f"TAKEN {other} open"])
        same(it.say_all([f"REFRESH {third}", f"REFRESH {known}"]), ["ERR authorities", f"TAKEN {known} open"])
        same(fetched(it, sites[2].url("/x"), 3), ["HOP 1 ERR authorities", "BODY 0", ""])
        same(fetched(it, x, 3), ["HOP 1 PAGE open 200 5 whole", "BODY 5", "hello"])
    same((sites[2].asked, sites[0].asked[-1]), ([], "/x"))
    with Session(server) as it:
        # a redirect to a site that would become known as the third
        same(it.say(f"REFRESH {open_site().authority}").split(" ")[0], "TAKEN")
        same(fetched(it, moved.url("/x"), 4), ["HOP 1 PAGE open 302 0 whole", "HOP 2 ERR authorities", "BODY 0", ""])
        same(it.say(f"STATE {third}"), f"STATE {third} unknown idle")
    with Session(server) as it:
        same(
            fetched(it, moved.url("/x"), 4),
            ["HOP 1 PAGE open 302 0 whole", "HOP 2 PAGE open 200 5 whole", "BODY 5", "hello"],
        )
        same(it.say(f"REFRESH {known}"), f"TAKEN {known} open")
        same(it.say("QUIT"), "BYE")


def fetched(it, url, count):
    """Returns that many lines of the reply to a FETCH."""
    it.send(f"FETCH foobot {url}\n".encode())
    return it.lines(count)


@served("--patience", "2")
def patience_with_good_clients(server):
    """A patience of two seconds is no limit of a session, and a fetch takes as long as it takes."""
    site = open_site({"/slow": (3.5, response(200, b"hello"))})
    a, slow = site.authority, site.url("/slow")

    def line_now_and_then(server):
        with Session(server) as it:
            for _ in range(3):
                time.sleep(1.2)
                same(it.say("STATE a.example"), "STATE a.example unknown idle")

    def fetch_slowly(server):
        with Session(server) as it:
            it.send(f"FETCH foobot {slow}\n".encode())
            same(it.lines(3), ["HOP 1 PAGE open 200 5 whole", "BODY 5", "hello"])
            same(it.say(f"STATE {a}"), f"STATE {a} open idle")

    side_by_side(lambda play: play(server), [line_now_and_then, fetch_slowly])


def few_descriptors():
    """A worker that gets no descriptor for its next client waits for one."""
    with Server("--workers", "2") as server:
        process = server.process.pid
        limits = resource.prlimit(process, resource.RLIMIT_NOFILE)
        with Session(server) as first, Session(server) as second:
            for it in (first, second):
                same(it.say("BACK 7"), "ERR notout")
            resource.prlimit(process, resource.RLIMIT_NOFILE, (3, limits[1]))
            same(second.say("QUIT"), "BYE")
            second.finish()
            with Session(server) as third:
                third.send(b"QUIT\n")
                time.sleep(1.5)
                same((third.is_answered(), first.say("BACK 7"), server.process.poll()), (False, "ERR notout", None))
                resource.prlimit(process, resource.RLIMIT_NOFILE, limits)
                began = time.monotonic()
                same(third.lines(1), ["BYE"])
                took = time.monotonic() - began
    in_time(took, 5)
    return f"{took:.1f} s from the descriptor on"


@served("--log", "8", "--connections", "1")
def full_history(server, site, session):
    """A full history is reported once; what is out still goes back, and sessions go on."""
    ask = f"ASK foobot {site.url('/x')}"
    session.send(f"FETCH foobot {site.url('/x')}\n".encode())
    same(session.lines(3), ["HOP 1 PAGE open 200 5 whole", "BODY 5", "hello"])
    same(session.say_all([ask, ask, "BACK 131072", ask, f"REFRESH {site.authority}", f"STATE {site.authority}"]), [
        "PERMIT 131072", "ERR log", "BACK 131072", "ERR log", "ERR log", f"STATE {site.authority} open idle",
    ])
    # (the warden looks ten times a second)
    time.sleep(1)
    same(session.say("QUIT"), "BYE")
    same(server.end(), (b"SERVED connections 1 events 7\n", 0, b"crawlgate: the log is full\n"))


def served_without(streams):
    """Returns how the program ended without these streams. A socket that takes the place of one may not be written to:
    what a client gets is only its replies."""
    with Server("--connections", "1", "--workers", "1", without=streams, port=free_port()) as server:
        until = time.monotonic() + SECONDS
        while server.process.poll() is None and time.monotonic() < until:
            with contextlib.suppress(ConnectionRefusedError), Session(server) as it:
                it.send(b"STATE a.example\nQUIT\n")
                same(it.rest(), b"STATE a.example unknown idle\nBYE\n")
                status = server.end()[1]
                assert status in (0, 3), f"{streams}: it serves, and its status is {status}"
                return f"{streams} serves, status {status}"
            time.sleep(0.01)
        name = {"<&-": b"input", ">&-": b"output", "<&- >&-": b"input"}.get(streams)
        same(server.end(), (b"", 3, b"crawlgate: device: standard %s: closed\n" % name if name else b""))
        return f"{streams} is reported"


def closed_streams():
    return ", ".join(map(served_without, ["<&-", ">&-", "2>&-", "<&- >&-"]))


def memory():
    """What the history takes, which a session makes longer by three entries a fetch; no entry takes more than 1,000
    octets."""
    site = open_site()
    x, until = site.url("/x"), time.monotonic() + 3

    def fetch_on(it):
        count = 0
        while time.monotonic() < until:
            asked = it.say_all([f"ASK foobot {x}"] * 64)
            if "ERR log" in asked:
                break
            numbers = [reply.split()[1] for reply in asked]
            same(it.say_all(f"START {n} foobot {x}" for n in numbers), [f"GO {n} open" for n in numbers])
            same(it.say_all(f"DONE {n}" for n in numbers), [f"DONE {n}" for n in numbers])
            count += 64
        return count

    with Server("--workers", "16") as server, contextlib.ExitStack() as stack:
        clients = [stack.enter_context(Session(server)) for _ in range(16)]
        same(clients[0].say(f"REFRESH {site.authority}"), f"TAKEN {site.authority} open")
        before = server.resident()
        count = sum(side_by_side(fetch_on, clients))
        after = server.resident()
    each = (after - before) / (3 * count)
    assert each <= 1000, f"an entry takes {each:.0f} octets"
    return f"{before / 1e6:.1f} MB, and {after / 1e6:.1f} after {count:,} fetches, {each:.0f} octets an entry"


def refreshed_again_and_again():
    """A robots.txt of 500,000 octets that stays as it is lies in memory once, however often it is fetched."""
    rules = b"user-agent: *\n" + b"disallow: /private/of/somebody\n" * 16_000
    site = open_site({"/robots.txt": response(200, rules)})
    with Server("--workers", "1") as server, Session(server) as it:
        line, wanted = f"REFRESH {site.authority}", f"TAKEN {site.authority} rules"
        same(it.say_all([line] * 20), [wanted] * 20)
        before = server.resident()
        same(it.say_all([line] * 100), [wanted] * 100)
        more = server.resident() - before
    assert more < 10_000_000, f"{more:,} octets more"
    return f"{more:,} octets more after 100 fetches of {len(rules):,}"


CASES = [
    numbers_of_others, killed_clients, unread_behind_the_end, nobody_holds_a_worker, gone_during_a_fetch,
    fetches_for_nobody, lines_sent_ahead, lines_behind_a_fetch, client_with_bounds, patience_with_good_clients,
    few_descriptors, full_history, closed_streams, memory, refreshed_again_and_again,
]
