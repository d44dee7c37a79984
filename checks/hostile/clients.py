"""Clients of a server, several at a time, whose lines are drawn: what each is answered must be true whatever the others
do, no number may be granted twice, and what is sealed must be one chain. The server's memory may grow only with its
entries."""
import random
import re
import threading
import time

from auditor import audit
from lib.cases import short
from lib import server as servers
import responses
import sites
import texts

RULES = b"User-agent: *\nDisallow: /no\nAllow: /no/b\nDisallow: /*x$\nUser-agent: barbot\nDisallow: /a\nAllow: /*b\n"
ROBOTS = {"rules": (200, RULES), "open": (404, b""), "closed": (500, b"")}
TARGETS = ["/a", "/ab", "/no", "/no/b", "/x", "/moved", "/far", "/long", "/robots.txt"]
# what the memory may grow by for an entry that is sealed, in octets, and beside that
EACH, BESIDE = 24, 8_000_000
ODD = [
    "", "x", "ASK", "ASK foobot", "ASK foobot x", "BEGIN a.example", "SWEEP", "5 SEAL", "DONE x", "START 1 foobot",
    "STATE a/b", "FETCH foobot ftp://x/", "\x01", "QUIT now", "SEAL x", "BACK 1 2",
]


class Fault(Exception):
    """Something that a client should not have been told."""


def expect(holds, said, told):
    if not holds:
        raise Fault(f"{said[:200]!r} is answered {short(told)}")


class Numbers:
    """The generation that each slot was granted last: it rises, so no number comes twice."""

    def __init__(self):
        self.lock, self.generations = threading.Lock(), {}

    def is_new(self, number):
        slot, generation = number % 65_536, number // 65_536
        with self.lock:
            is_above = generation > self.generations.get(slot, 0)
            self.generations[slot] = generation
        return is_above


class Play:
    """What is the same for all clients of a server."""

    def __init__(self, server):
        self.server, self.numbers = server, Numbers()
        self.sites = {kind: sites.DrawnSite(host) for kind, host in zip(ROBOTS, sites.HOSTS)}
        for kind, site in self.sites.items():
            self.add_pages(kind, site)
        self.kinds = {site.authority: kind for kind, site in self.sites.items()}
        self.urls = [f"http://{it}{target}" for it in self.kinds for target in TARGETS]
        self.world = sites.World(self.sites.values())
        self.bodies = {url: self.world.response(url).body for url in self.urls}

    def add_pages(self, kind, site):
        status, robots = ROBOTS[kind]
        for target in TARGETS:
            status_of, location = (302, "/ab") if target == "/moved" else (
                302, f"http://{self.sites['open'].authority}/a",
            ) if target == "/far" else (200, None)
            body = b"long" * 90_000 if target == "/long" else target.encode() * 3
            self.add(site, target, status_of, body, location)
        self.add(site, "/robots.txt", status, robots, None)

    def add(self, site, target, status, body, location):
        field = f"Location: {location}\r\n" if location else ""
        head = f"HTTP/1.1 {status} Said\r\n{field}Content-Length: {len(body)}\r\n\r\n".encode()
        site.responses[target] = responses.Response(head + body, status, body, None, location)


class Client:
    """A client that says lines, and knows what it must be told."""

    def __init__(self, play, dice):
        self.play, self.dice = play, dice
        self.unspent, self.running, self.segments, self.fault, self.lines, self.is_first = {}, [], [], None, 0, True

    def say(self, line, wanted):
        """Says a line, whose reply must match."""
        told = self.session.say(line)
        self.lines, self.is_first = self.lines + 1, False
        expect(told is not None and re.fullmatch(wanted, told), line, told)
        return told

    def page(self):
        return self.dice.choice(texts.TOKENS), self.dice.choice(self.play.urls)

    def ask(self):
        token, url = self.page()
        is_allowed, why = self.play.world.ruling(token.lower(), url)
        authority = re.escape(url.split("/")[2])
        told = self.say(f"ASK {token} {url}", r"PERMIT \d+" if is_allowed else f"NO {authority} {why}")
        if is_allowed:
            number = int(told.split()[1])
            expect(self.play.numbers.is_new(number), "ASK", f"{told}, again")
            self.unspent[number] = token, url

    def start(self):
        """Starts what stands; or says a number, a token or a URL that does not."""
        token, url = self.page()
        number = self.dice.choice([*self.unspent, self.other()])
        if number in self.unspent and self.dice.randrange(5):
            token, url = self.unspent[number]
        is_own = (token.lower(), url) == (
            self.unspent.get(number, ("", ""))[0].lower(), self.unspent.get(number, ("", ""))[1],
        )
        why = self.play.world.ruling(token.lower(), url)[1]
        authority = re.escape(url.split("/")[2])
        self.say(f"START {number} {token} {url}", f"GO {number} {why}" if is_own else f"NO {authority} spent")
        if is_own:
            del self.unspent[number]
            self.running.append(number)

    def other(self):
        """A number that is not this client's, be it out or not."""
        number = self.dice.choice([0, 65_536, 65_537, 131_072, 2**64 - 1, self.dice.randrange(2**24)])
        return number if number not in self.unspent and number not in self.running else 0

    def back(self):
        number = self.dice.choice([*self.unspent, self.other()])
        self.say(f"BACK {number}", f"BACK {number}" if number in self.unspent else "ERR notout")
        self.unspent.pop(number, None)

    def done(self):
        number = self.dice.choice([*self.running, self.other()])
        self.say(f"DONE {number}", f"DONE {number}" if number in self.running else "ERR notout")
        self.running = [it for it in self.running if it != number]

    def state(self):
        authority, kind = self.dice.choice(list(self.play.kinds.items()))
        self.say(f"STATE {authority}", f"STATE {re.escape(authority)} {kind} (idle|fetching)")

    def refresh(self):
        authority, kind = self.dice.choice(list(self.play.kinds.items()))
        self.say(f"REFRESH {authority}", f"TAKEN {re.escape(authority)} {kind}|ERR inflight")

    def odd(self):
        # (a first line that is no text ends the session)
        self.say(self.dice.choice([it for it in ODD if it.isprintable() or not self.is_first]), "ERR [a-z ]+")

    def fetch(self):
        self.is_first = False
        token, url = self.page()
        for at, hop in enumerate(self.play.world.hops(token.lower(), url), 1):
            line = f"HOP {at} {hop}"
            told = self.session.say(f"FETCH {token} {url}") if at == 1 else next(iter(self.session.lines(1)), None)
            expect(told == line, f"FETCH {token} {url}", told)
        (head,) = self.session.lines(1) or [""]
        # (of the body its length stands in the last hop)
        length = int(hop.split()[-2]) if hop.startswith("PAGE") else 0
        expect(head == f"BODY {length}", f"FETCH {token} {url}", head)
        body = self.session.octets(length + 1)
        expect(
            body[-1:] == b"\n" and (not length or body[:-1] in self.play.bodies.values()), f"FETCH {token} {url}", body,
        )

    def seal(self):
        told = self.say("SEAL", r"SEALED \d+")
        lines = self.session.lines(int(told.split()[1]))
        if lines:
            self.segments.append("".join(f"{it}\n" for it in lines))

    def run(self):
        calls = [self.ask] * 8 + [self.start] * 8 + [self.done] * 5 + [self.back] * 2 + [
            self.state, self.refresh, self.odd, self.fetch, self.seal,
        ]
        try:
            with Session(self.play.server) as self.session:
                for _ in range(self.dice.choice([3, 20, 200])):
                    self.dice.choice(calls)()
                end = self.dice.choice(["quit", "reset", "close"])
                if end == "quit":
                    self.say("QUIT", "BYE")
                elif end == "reset":
                    self.session.reset()
        except (Fault, OSError) as fault:
            self.fault = repr(fault)


class Session(servers.Session):
    """A connection of which octets can be read too."""

    def octets(self, count):
        while len(self.unread) < count and self._read():
            pass
        said, self.unread = self.unread[:count], self.unread[count:]
        return said


def entries_before(segment):
    """Returns how many entries were sealed before those of a segment."""
    found = re.match(r"V 3\nT (\d+) ", segment)
    return int(found[1]) if found else 0


def try_clients(tried, play, dice, last):
    """Has some clients talk at a time, and the chain of what they sealed be audited. Returns its last segment."""
    clients = [Client(play, random.Random(dice.random())) for _ in range(dice.choice([1, 2, 4]))]
    threads = [threading.Thread(target=it.run) for it in clients]
    for it in threads:
        it.start()
    for it in threads:
        it.join()
    for it in clients:
        tried.count("lines of clients", it.lines)
        tried.expect("a client", b"", it.fault is None, it.fault)
    segments = sorted((text for it in clients for text in it.segments), key=entries_before)
    if segments:
        text = "".join([*last, *segments]).encode()
        told, status, _ = tried.run(["audit"], text)
        tried.expect(
            "the chain", text, status == 0 and told.decode() == audit(text) + "\n", f"{short(told)}, {audit(text)}",
            ["audit"],
        )
    return segments[-1:] or last


def try_all(tried, seconds, only=None):
    """Clients of one server for so long. Its memory is printed for each tenth of the time."""
    with servers.Server("--workers", "4", "--endless", "--slots", "1024", "--log", "1000000") as server:
        play, last, began, tenth, first = Play(server), [], time.monotonic(), 1, None
        with Session(server) as it:
            for authority, kind in play.kinds.items():
                told = it.say(f"REFRESH {authority}")
                tried.expect("the first refresh", b"", told == f"TAKEN {authority} {kind}", told)
            it.say("QUIT")
        for dice in tried.cases(seconds, only):
            last = try_clients(tried, play, dice, last)
            if first is None and last:
                first = entries_before(last[0]), server.resident()
            if time.monotonic() - began >= tenth * seconds / 10 and last:
                tenth, entries, memory = tenth + 1, entries_before(last[0]), server.resident()
                if seconds > 100:
                    print(f"{time.monotonic() - began:6.0f} s {entries:12,} entries {memory / 1e6:8.1f} MB", flush=True)
                most = first[1] + BESIDE + EACH * (entries - first[0])
                tried.expect(
                    "the memory of a server", b"", memory <= most,
                    f"{memory:,} octets after {entries:,} entries, {first[1]:,} after {first[0]:,}",
                )
