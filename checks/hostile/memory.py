"""Memory that is refused: each growth in turn, over every subcommand, by the library of checks/memory. A run must end
as docs/FORMATS.md says, what it wrote must be its own, and a history that was written whole must be audited as right.
"""
import os
import random
import re
import select
import shutil
import subprocess
import tempfile
import threading
import time

from lib import growths
from lib.cases import short
from lib.reading import spelled
from lib.server import Session
from lib.sites import open_site, response
from auditor import audit
from dialogues import Dialogue
from gate import Gate
from tried import SECONDS

# that many runs in a row that met no refusal end a sweep
IN_A_ROW = 20
NO_MEMORY = (3, b"crawlgate: no memory\n")
# verbs whose lines take memory: for a token, an authority, a URL, the walk, or the call
TAKES = ("BEGIN", "ARRIVE", "ASK", "START", "STATE", "SWEEP", "SEAL")
RULES = "".join(f"Allow: /*a{at}$\nDisallow: /part{at}\nDisallow: /%7e{at}\n" for at in range(40))
ROBOTS = spelled(f"User-agent: foobot\nDisallow: /no\n{RULES}".encode())
JOBS = ["/x", "/moved", "/no", "/long", "/none"]


def replay_lines():
    """A session in which each verb is answered in each way that takes memory, an index is made, and more is sealed than
    once."""
    yield "1 BEGIN a.example"
    yield f"2 ARRIVE a.example 1 301 /r 302 http://b.example/r 200/3600 {ROBOTS}"
    yield "3 BEGIN b.example:8080"
    yield "4 ARRIVE b.example:8080 2 404 -"
    yield "4 BEGIN c.example"
    yield from (f"5 ASK foobot http://a.example/part{at}/{'x' * (at * 40)}" for at in range(20))
    yield from (f"6 ASK FooBot http://a.example/b{at}?%7e" for at in range(6))
    yield from (f"7 START {65_536 + at} foobot http://a.example/b{at}?%7e" for at in range(4))
    yield from [
        "7 DONE 65536", "7 BACK 65541", "8 SEAL", "8 STATE a.example", "9 ASK foobot http://d.example/",
        "10 ASK foobot http://b.example:8080/x", "10 SEAL",
    ]
    yield from [
        "86000 SWEEP", "86000 ASK foobot http://a.example/x", "90000 SWEEP",
        "90001 START 65540 foobot http://a.example/b4?%7e", "90002 BEGIN b.example:8080", "90003 QUIT",
    ]


def wrong_reply(gate, lines, found, most=1):
    """Returns what of the replies to lines is not their own, nor 'ERR memory' to that many of them; and how many lines
    were answered."""
    refused = 0
    for at, line in enumerate(lines):
        if not found:
            return None, at
        if found[0] == "ERR memory" and line.split(b" ")[1].decode() in TAKES:
            refused += 1
            found = found[1:]
            continue
        wanted = gate.reply(line)
        if found[: len(wanted)] != wanted:
            return f"line {at + 1}, {short(line)}, is answered {found[0]!r}, and not {wanted[0]!r}", at
        found = found[len(wanted) :]
    if found or refused > most:
        return f"{len(found)} replies more, {refused} of them refused", len(lines)
    return None, len(lines)


class Replay:
    """A session of replay, whose replies are compared with the gate that is written here."""

    def __init__(self, lines, options=None, most=1):
        self.lines, self.options, self.most = lines, options or {}, most
        self.words = ["replay", *(word for name, value in self.options.items() for word in (f"--{name}", str(value)))]
        self.given = b"".join(it + b"\n" for it in lines)

    def fault(self, tried, found, status, error):
        if status and (status, error) != NO_MEMORY:
            return f"its status is {status}, and it tells {short(error)}"
        *lines, rest = found.decode().split("\n")
        wrong, answered = wrong_reply(Gate(**self.options), self.lines, lines, self.most)
        until = next((at + 1 for at, it in enumerate(self.lines) if it.endswith(b" QUIT")), len(self.lines))
        if wrong or rest:
            return wrong or f"its last line is {rest!r}"
        return None if status or answered == until else f"{answered} of {until} lines are answered"


class Export:
    """A session whose history is written: it is whole, and right, where the status is 0."""

    def __init__(self, words, given, before=b""):
        self.words, self.given, self.before = words, given, before

    def fault(self, tried, found, status, error):
        if status:
            return None if is_for_memory(status, error) else f"its status is {status}, and it tells {short(error)}"
        told, ended, _ = tried.run(["audit"], found)
        if ended or not told.startswith(b"OK ") or told.decode() != audit(found) + "\n":
            return f"its history is {short(told)}, and {audit(found)} by auditor.py"
        return None


class Same:
    """A run that writes what it does with memory, or ends without it, at a prefix of that."""

    def __init__(self, words, given):
        self.words, self.given, self.wanted = words, given, None

    def fault(self, tried, found, status, error):
        if self.wanted is None:
            self.wanted = tried.run(self.words, self.given)
        if (found, status, error) == self.wanted:
            return None
        if (status, error) != NO_MEMORY:
            return f"its status is {status}, it tells {short(error)}, and wrote {short(found)}"
        return None if self.wanted[0].startswith(found) else f"it wrote {short(found)}"


HOP = (
    "(PAGE (line 1|norule) (200 5|302 0|200 1048576|404 0) (whole|cut)|NO SITE (line 2|closed|unknown)|FAULT H[89]|ERR "
    "memory)"
)


def is_for_memory(status, error):
    """Returns whether a shift ended because memory ran out. Sites that were closed may be reported before that."""
    return status == NO_MEMORY[0] and error.endswith(NO_MEMORY[1])


class Shift:
    """A shift over a site on the loopback: each hop is one that it may have, or tells of memory."""

    def __init__(self, site, words=()):
        self.site = site.authority
        self.words = ["shift", "--workers", "2", *words]
        self.given = "".join(f"foobot http://{self.site}{it}\n" for it in JOBS).encode()

    def fault(self, tried, found, status, error):
        if status and not is_for_memory(status, error):
            return f"its status is {status}, and it tells {short(error)}"
        *lines, rest = found.decode().split("\n")
        if not status:
            last = lines.pop() if lines else ""
            if not re.fullmatch("SHIFT jobs 5 hops [0-9]+ starts [0-9]+", last):
                return f"its last line is {last!r}"
        hop = HOP.replace("SITE", re.escape(self.site))
        wrong = [it for it in lines if not re.fullmatch(f"[1-5] [1-9] {hop}", it)]
        return f"its lines are {wrong}" if wrong or rest else None


SAID = [
    ("REFRESH {site}", "TAKEN {site} (rules|closed)|ERR memory"),
    ("ASK foobot {site}/x", "PERMIT 65536|ERR memory|NO {site} (closed|unknown)"),
    ("START 65536 foobot {site}/x", "GO 65536 norule|ERR memory|NO {site} (spent|closed)"),
    ("DONE 65536", "DONE 65536|ERR notout"),
    ("STATE {site}", "STATE {site} (rules|closed|unknown) idle|ERR memory"),
    ("BACK 7", "ERR notout"),
]


def reset_quietly(peer):
    try:
        return peer()
    except OSError:
        return None


class Serve:
    """A server, and a client of it that says one line after the other, fetches a page and seals."""

    def __init__(self, site):
        self.site, self.words, self.given = site, ["serve", "--connections", "1", "--workers", "2"], b""

    def talk(self, session):
        """Returns what is wrong with a reply; None where there is none because the session has ended."""
        for line, reply in SAID:
            found = session.say(
                line.replace(" {site}/", f" http://{self.site.authority}/").format(site=self.site.authority)
            )
            if found is None:
                return None
            if not re.fullmatch(reply.format(site=re.escape(self.site.authority)), found):
                return f"{line} is answered {found!r}"
        session.send(f"FETCH foobot {self.site.url('/x')}\nSEAL\nQUIT\n".encode())
        said = session.rest().decode()
        hops = "(ERR memory\n|(HOP [12] .*\n)+BODY [0-9]+\n(hello)?\n)"
        if said and not re.match(f"{hops}?(ERR memory\n|SEALED [0-9]+\n(?s:.*))?(BYE\n)?$", said):
            return f"FETCH, SEAL and QUIT are answered {short(said)}"
        return None

    def run(self, program, environment, before=None):
        """Returns what the client says is wrong, and how the server ended."""
        streams = {"stdin": subprocess.DEVNULL, "stdout": subprocess.PIPE, "stderr": subprocess.PIPE}
        process = subprocess.Popen([program, *self.words], **streams, env=environment, preexec_fn=before)
        is_there = select.select([process.stdout], [], [], SECONDS)[0]
        wrong, first = None, process.stdout.readline() if is_there else b""
        try:
            found = re.fullmatch(rb"LISTEN 127\.0\.0\.1:(\d+)\n", first)
            if found:
                server = type("Listening", (), {"port": int(found[1]), "path": None})
                session = reset_quietly(lambda: Session(server, SECONDS))
                if session:
                    with session:
                        wrong = reset_quietly(lambda: self.talk(session))
            output, error = process.communicate(timeout=SECONDS)
        except (subprocess.TimeoutExpired, TimeoutError):
            process.kill()
            output, error = process.communicate()
            return "it hangs", first + output, None, error
        return wrong, first + output, process.returncode, error

    def fault(self, tried, found, status, error):
        if status and (status, error) != NO_MEMORY and not error.startswith(b"crawlgate: device"):
            return f"its status is {status}, and it tells {short(error)}"
        if not status and not re.fullmatch(rb"LISTEN 127\.0\.0\.1:\d+\nSERVED connections 1 events \d+\n", found):
            return f"it wrote {short(found)}"
        return None


class Sweep:
    """The runs of one session, in each of which another growth is refused."""

    def __init__(self, tried, folder, session):
        self.tried, self.session, self.program = tried, session, tried.program
        self.library, self.given, self.told = f"{folder}/growths.so", f"{folder}/given", f"{folder}/told"
        with open(self.given, "wb") as file:
            file.write(session.given)

    def ended(self, refused):
        """Returns what is wrong, and what was written, with the status and the standard error."""
        environment = {"LD_PRELOAD": self.library, "GROWTHS": self.told, "REFUSED": str(refused)}
        if isinstance(self.session, Serve):
            return self.session.run(self.program, environment)
        try:
            with open(self.given, "rb") as file:
                ran = subprocess.run(
                    [self.program, *self.session.words], stdin=file, capture_output=True, timeout=SECONDS,
                    env=environment,
                )
        except subprocess.TimeoutExpired:
            return "it hangs", b"", None, b""
        return None, ran.stdout, ran.returncode, ran.stderr

    def refuse(self, refused):
        """Has a growth refused, and returns whether there was one of that number, and how many there were."""
        if os.path.exists(self.told):
            os.remove(self.told)
        wrong, found, status, error = self.ended(refused)
        if wrong is None and (status is None or status < 0 or not os.path.exists(self.told)):
            wrong = f"its status is {status}, and it tells {short(error)}"
        wrong = wrong or self.session.fault(self.tried, found, status, error)
        words = ["env", "LD_PRELOAD=growths.so", f"REFUSED={refused}", *self.session.words]
        self.tried.expect(
            f"growth {refused} of {' '.join(self.session.words)}", self.session.given, not wrong, wrong, words,
        )
        # (a run that was ended by a signal tells no count)
        asked = refused
        if os.path.exists(self.told):
            with open(self.told) as file:
                asked = int(file.read().split()[0])
        is_met = asked >= refused > 0
        self.tried.count(f"growths refused of {self.session.name}", is_met)
        return is_met, asked

    def all(self, seconds, dice):
        """Refuses one growth after the other; where there is not the time for each, some of them, as far apart as must
        be."""
        self.refuse(0)
        began = time.monotonic()
        _, asked = self.refuse(0)
        self.tried.expect(
            f"growths of {self.session.name}", self.session.given, asked,
            "none is counted: the program has another allocator",
        )
        self.tried.count(f"growths of {self.session.name}", asked)
        each = time.monotonic() - began
        step = max(1, round(asked * each / max(seconds - IN_A_ROW * each, seconds / 2)))
        for refused in range(1 + dice.randrange(step), asked + 1, step):
            self.refuse(refused)
        in_a_row, refused = 0, asked
        while in_a_row < IN_A_ROW:
            refused += 1
            in_a_row = 0 if self.refuse(refused)[0] else in_a_row + 1


def chain():
    """A history in three texts, two of them segments with bases."""
    gate = Gate()
    texts = [
        said[1:] for said in map(gate.reply, (it.encode() for it in replay_lines())) if said[0].startswith("SEALED ")
    ]
    return "".join(f"{it}\n" for text in [*texts, gate.text()] for it in text).encode()


def sessions(dice, site):
    """Yields the sessions by their names."""
    lines = [it.encode() for it in replay_lines()]
    given = b"".join(it + b"\n" for it in lines)
    drawn = Dialogue(dice)
    text = chain()
    second = text[text.index(b"\nV 3\n") + 1 :]
    robots = b"User-agent: *\nDisallow: /private\n" + RULES.encode()
    urls = ["/a1", "/part3/x", "http://a.example/%7e7", "/robots.txt", "ftp://x/"]
    yield "replay", Replay(lines)
    yield "a random replay", Replay(drawn.lines, drawn.options)
    yield "replay --export", Export(["replay", "--export"], given.replace(b"8 SEAL\n", b"").replace(b"10 SEAL\n", b""))
    yield "audit of version 2", Same(["audit"], text[: text.index(b"\nV 3\n") + 1])
    yield "audit of version 1", Same(
        ["audit"],
        b"B 1 a.example 1\nA 2 a.example 1 R %s\nG 3 65536 foobot http://a.example/x\nS 4 65536 norule\nF "
        b"65536\n" % ROBOTS.encode(),
    )
    yield "audit of a chain", Same(["audit"], text)
    yield "audit of a segment with a base", Same(["audit"], second)
    yield "lines", Same(["lines"], robots)
    yield "check", Same(["check", "foobot", *urls], robots)
    yield "check of lines", Same(["check", "foobot", "-"], robots + b"\n\n" + "\n".join(urls).encode())
    yield "check --explain", Same(["check", "--explain", "foobot", *urls], robots)
    yield "shift", Shift(site)
    yield "shift --export", Export(["shift", "--export", "--workers", "2"], Shift(site).given)
    yield "serve", Serve(site)


def hostile_site():
    # (a client that wants no more of a page resets its connection, of which the site need not tell)
    threading.excepthook = lambda it: None if issubclass(it.exc_type, OSError) else threading.__excepthook__(it)
    robots = response(200, b"user-agent: *\ndisallow: /no\n")
    return open_site(
        {"/robots.txt": robots, "/moved": response(302, b"", "Location: /x"), "/long": response(200, b"x" * 1_048_577)}
    )


def try_all(tried, seconds, only=None):
    """Refuses the growths of each session in turn."""
    if not shutil.which("cc"):
        print("memory: there is no C compiler, so no memory is refused", flush=True)
        return
    with tempfile.TemporaryDirectory() as folder:
        growths.build(folder)
        named = list(sessions(random.Random(f"{tried.seed} memory"), hostile_site()))
        for tried.case, (name, session) in enumerate(named):
            session.name = name
            if only in (None, tried.case):
                Sweep(tried, folder, session).all(
                    seconds / (len(named) if only is None else 1), random.Random(f"{tried.seed} {name}"),
                )
