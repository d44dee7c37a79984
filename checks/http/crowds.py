"""Cases of checks/http with many connections: idle ones, slow ones, such as are broken off, and readers that never
read."""
import random
import re
import resource
import socket
import tempfile
import time

from drawn import starts_of
from front import FORMS, HOST, Echo, Front, Talk, absolute, by_path, running
from journals import audit, text_of
from lib.cases import OutOfTime, Skipped, in_time, same, short
from lib.server import SECONDS, Session
from lib.sites import open_site, response

IDLE, KILLED, UNREAD, SLOW = 2_000, 1_000, 50, 1_000
# what an idle connection may take of the memory, in octets; and how long an answer may take among them, in seconds
EACH, AT_ONCE = 16_384, 0.1
SEED = 20261130


def connected(server, count):
    """Returns that many connections."""
    limit = resource.getrlimit(resource.RLIMIT_NOFILE)[0]
    if limit < count + 100:
        raise Skipped(f"only {limit} files may be open")
    return [Talk(server) for _ in range(count)]


def settled(server, descriptors, seconds=30):
    """Waits until nothing is left of connections that have ended, and fails where something is."""
    until = time.monotonic() + seconds
    while True:
        running(server)
        numbers = server.metrics()
        left = {name: numbers[name] for name in ("permits", "running", "turns", "http_waiting", "http_waiting_visits")}
        # (what asks for the numbers is a client, too)
        left |= {name: max(0, numbers[name] - 1) for name in ("http_connections", "http_visits")}
        left["descriptors"] = max(0, server.descriptors() - descriptors)
        if not any(left.values()):
            return numbers
        if time.monotonic() > until:
            raise AssertionError(f"{seconds} s after the last client there are left: {left}")
        time.sleep(0.1)


def thousands_of_idle_connections():
    """Of two thousand idle connections, half of which have asked once, one is answered at once; each takes little
    memory."""
    site = Echo()
    with Front("--http-connections", "4000", "--patience", "300") as server:
        same(server.metrics()["http_connections"], 1)
        before, memory = server.descriptors(), server.resident()
        them = connected(server, IDLE)
        for at in range(0, IDLE // 2, 100):
            ask_all(them[at : at + 100], site)
        each = (server.resident() - memory) / IDLE
        took = sorted(timed(it, site) for it in random.Random(SEED).sample(them, 21))
        numbers = server.metrics()
        same(numbers["http_connections"], IDLE + 1)
        for it in them:
            it.peer.close()
        settled(server, before)
        if took[10] > AT_ONCE:
            raise OutOfTime(f"half of the answers took more than {took[10]:.3f} s")
        assert each < EACH, f"{each:,.0f} octets a connection"
        return f"an answer in {1000 * took[10]:.1f} ms, {each:,.0f} octets a connection"


def ask_all(talks, site):
    """Has each client ask for a page before any answer is read."""
    for it in talks:
        it.send(absolute(site.url("/x")))
    for it in talks:
        same(it.answer().outcome(), (200, None, "N open"))


def timed(talk, site):
    began = time.monotonic()
    same(talk.ask(by_path(site.url("/x"))).outcome(), (200, None, "N open"))
    return time.monotonic() - began


def killed_at_random():
    """A thousand connections are broken off in the midst of requests and of answers. Nothing is left of them, each page
    that a site was asked for has its start, and the whole history is audited."""
    dice = random.Random(SEED)
    site = Echo({"/slow": (0.2, response(200, b"slow")), "/long": response(200, b"x" * 500_000)})
    with tempfile.TemporaryDirectory() as folder:
        words = [
            "--journal", f"{folder}/journal", "--journal-sync", "never", "--http-connections", "2000", "--fetchers",
            "32", "--connections", "1",
        ]
        with Front(*words) as server, Session(server) as line:
            assert line.say(f"REFRESH {site.authority}").startswith("TAKEN "), site.authority
            before = server.descriptors()
            for _ in range(4):
                play_and_kill(server, site, dice, KILLED // 4)
            same(server.metrics()["http_connections"] >= 1, True)
            numbers = settled(server, before)
            same(line.say("QUIT"), "BYE")
            output, status, error = server.end()
            text = text_of(f"{folder}/journal")
        starts = starts_of(text)
        events = int(re.fullmatch(rb"SERVED connections 1 events (\d+)\n", output)[1])
        same((status, error, audit(text)), (0, b"", f"OK events {events} starts {starts.total()}\n"))
        same(numbers["starts_total"], starts.total())
    same(len(site.fetched()), starts.total())
    return f"{starts.total():,} starts"


def play_and_kill(server, site, dice, count):
    """Has that many clients send a request, or a part of it, and breaks each off after a while, in an order that is
    drawn."""
    them = connected(server, count)
    for it in them:
        octets = dice.choice(FORMS)(site.url(dice.choice(["/x", "/slow", "/long"]))) * dice.randrange(1, 4)
        it.send(octets[: dice.randrange(1, len(octets) + 1) if dice.randrange(2) else len(octets)])
    dice.shuffle(them)
    for it in them:
        if dice.randrange(10) == 0:
            time.sleep(0.01)
        if dice.randrange(3):
            it.reset()
        else:
            it.peer.close()


def octets_now_and_then():
    """A thousand clients send an octet now and then. Others are answered at once meanwhile, and the slow ones'
    connections end."""
    site = Echo()
    octets = absolute(site.url("/x"))
    with Front("--http-connections", "2000") as server:
        same(server.metrics()["http_connections"], 1)
        before, worst = server.descriptors(), 0
        them = connected(server, SLOW)
        with Talk(server) as other:
            for at in range(10):
                for it in them:
                    it.send(octets[at : at + 1])
                worst = max(worst, timed(other, site))
        for it in them[: SLOW // 10]:
            it.send(octets[10:])
        for it in them[: SLOW // 10]:
            same(it.answer().outcome(), (200, None, "N open"))
        for it in them[SLOW // 10 :]:
            same(it.ends(), True)
        for it in them:
            it.peer.close()
        settled(server, before)
        in_time(worst, 1)
        return f"the slowest answer meanwhile took {1000 * worst:.0f} ms"


def readers_that_never_read():
    """Fifty clients ask for long pages, many at once, and read nothing. Others are answered, the memory stays bounded,
    and those that take nothing for as long as the patience lasts are gone."""
    site = Echo({"/long": response(200, b"x" * 1_000_000)})
    with Front("--patience", "3", "--fetchers", "8") as server:
        same(server.metrics()["http_connections"], 1)
        before, memory = server.descriptors(), server.resident()
        them = []
        for _ in range(UNREAD):
            peer = socket.socket()
            peer.setsockopt(socket.SOL_SOCKET, socket.SO_RCVBUF, 4_096)
            peer.connect((HOST, server.http))
            peer.sendall(absolute(site.url("/long")) * 20)
            them.append(peer)
        with Talk(server) as it:
            worst = max(timed(it, site) for _ in range(20))
        most = server.resident() - memory
        settled(server, before)
        most = max(most, server.resident() - memory)
        for peer in them:
            peer.close()
        fetched = len([target for _, target in site.fetched() if target == "/long"])
        # (the system takes some of them in the place of the client)
        assert fetched <= 8 * UNREAD, f"{fetched} pages were fetched for {UNREAD} clients that took none"
        assert most < UNREAD * 2_500_000, f"{most:,} octets"
        in_time(worst, 5)
        return f"{most / 1e6:.0f} MB for {UNREAD}, {fetched} pages, the slowest answer took {1000 * worst:.0f} ms"


def more_than_the_connections():
    """Past --http-connections a client waits until another one is gone, and is served then."""
    site = Echo()
    with Front("--http-connections", "4") as server:
        them = [Talk(server) for _ in range(4)]
        for it in them:
            same(it.ask(absolute(site.url("/x"))).status, 200)
        with Talk(server, 1) as late:
            late.send(absolute(site.url("/x")))
            try:
                answer = late.answer()
                raise AssertionError(f"the fifth of four is answered: {short(answer)}")
            except TimeoutError:
                pass
            them[0].peer.close()
            late.peer.settimeout(SECONDS)
            same(late.answer().outcome(), (200, None, "N open"))


def side_by_side_with_lines():
    """Line clients are served while hundreds of clients of HTTP are, and the other way round."""
    site = open_site()
    with Front("--workers", "2", "--fetchers", "4", "--http-connections", "500") as server:
        them = connected(server, 300)
        with Session(server) as one, Session(server) as two:
            for it in them:
                it.send(absolute(site.url("/x")))
            for line in (one, two) * 50:
                same(line.say(f"STATE {site.authority}").split(" ")[0], "STATE")
            for it in them:
                same(it.answer().outcome(), (200, None, "N open"))
        for it in them:
            it.peer.close()


CASES = [
    killed_at_random, readers_that_never_read, octets_now_and_then, thousands_of_idle_connections,
    more_than_the_connections,
    side_by_side_with_lines,
]
