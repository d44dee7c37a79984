"""A server with a journal that is killed at random moments, again and again, in one folder: what its clients learned
and what sites were asked for stands in the folder's files, and the next server goes on from there."""
import contextlib
import os
import random
import re
import resource
import signal
import subprocess
import tempfile
import threading
import time

from lib import server as servers, sites
from lib.sites import response

CLIENTS = 3
ROUNDS = 8
# the longest time for which clients work before their server is killed, in seconds
LONGEST = 0.12
FULL = b"crawlgate: device: journal: File too large (os error 27)\n"


class KillsSite(sites.Site):
    """A site whose every page is there, and whose robots.txt may take its time."""

    def __init__(self):
        super().__init__({})
        self.is_slow = False

    def page(self, target):
        if target == "/robots.txt":
            return (0.02 if self.is_slow else 0, response(200, b"User-agent: *\nDisallow: /no\n"))
        return response(200, b"hello")


class Told:
    """What clients learned that is an entry of the history: numbers by the letter of their entry, and counts of the
    entries that have no number."""

    def __init__(self):
        self.lock = threading.Lock()
        self.numbers = {letter: set() for letter in "GSKF"}
        self.counts = {"A": 0, "N": 0}

    def note(self, line, reply):
        words = reply.split(" ")
        letter = {"PERMIT": "G", "GO": "S", "BACK": "K", "DONE": "F"}.get(words[0])
        with self.lock:
            if letter:
                self.numbers[letter].add(words[1])
            elif words[0] == "TAKEN":
                self.counts["A"] += 1
            elif line.startswith("ASK") and words[0] == "NO":
                self.counts["N"] += 1


class Found:
    """What stands in the files of a journal. A file is read again as long as it is the last one."""

    def __init__(self, folder):
        self.folder, self.done = folder, set()
        self.numbers = {letter: set() for letter in "GSKF"}
        self.counts, self.urls = {"A": 0, "N": 0}, {}
        self.last = {"A": 0, "N": 0}
        self.twice = []

    def names(self):
        return sorted(it for it in os.listdir(self.folder) if not it.startswith("."))

    def text(self, name):
        with open(f"{self.folder}/{name}", "rb") as file:
            return file.read()

    def read(self):
        """Reads what is new. Returns the whole lines of the files from the last base on, and how many octets of a torn
        one follow."""
        names = self.names()
        for name in names:
            if name in self.done:
                continue
            text = self.text(name)
            self.last = {"A": 0, "N": 0}
            self._take(text[: text.rfind(b"\n") + 1].decode(), is_last=name == names[-1])
            if name != names[-1]:
                self.done.add(name)
        base = max(it for it in names if it.isdigit())
        texts = [self.text(name) for name in names if name >= base]
        whole = texts[-1].rfind(b"\n") + 1
        return b"".join(texts[:-1]) + texts[-1][:whole], len(texts[-1]) - whole

    def _take(self, text, is_last):
        counts = self.last if is_last else self.counts
        head, _, entries = text.partition("\nE\n") if text.startswith("V 3") else ("", "", text)
        for line in entries.splitlines():
            words = line.split(" ")
            if words[0] in "GSD":
                number = words[2]
            elif words[0] in "KF":
                number = words[1]
            if words[0] == "G":
                self.urls[words[4]] = number
            if words[0] in self.numbers:
                self.numbers[words[0]].add(number)
            elif words[0] in counts:
                counts[words[0]] += 1

    def missing(self, told):
        """Returns what clients learned and does not stand here."""
        numbers = {letter: sorted(told.numbers[letter] - self.numbers[letter]) for letter in told.numbers}
        counts = {letter: told.counts[letter] - self.counts[letter] - self.last[letter] for letter in told.counts}
        found = {**numbers, **counts}.items()
        return {it: value for it, value in found if (value if isinstance(value, list) else value > 0)}


class KillsServer(servers.Server):
    """A server with a journal, which may have files of that many octets at most, as on a disk that is full."""

    def __init__(self, folder, words, most=None):
        self.path = None

        def limit():
            signal.signal(signal.SIGXFSZ, signal.SIG_IGN)
            resource.setrlimit(resource.RLIMIT_FSIZE, (most, most))

        words = [self.program, "serve", "--journal", folder, *words]
        self.process = subprocess.Popen(
            words, stdin=subprocess.DEVNULL, stdout=subprocess.PIPE, stderr=subprocess.PIPE,
            preexec_fn=limit if most is not None else None,
        )
        self._read_port()

    def kill(self):
        self.process.send_signal(signal.SIGKILL)
        self.process.communicate()


def work(server, site, told, dice, seals):
    """Says lines until the server is gone, and notes each reply once all of it is there."""
    out, running = [], []
    with contextlib.suppress(OSError, AssertionError), servers.Session(server) as it:
        while True:
            url = site.url(f"/{dice.randrange(10**12)}" if dice.random() < 0.9 else "/no")
            kind = dice.choice(
                ["ask", "ask", "start", "start", "done", "back", "fetch", "state", "refresh"] + ["seal"] * seals
            )
            if kind == "ask":
                line = f"ASK foobot {url}"
            elif kind == "start" and out:
                number, url = out.pop()
                line = f"START {number} foobot {url}"
            elif kind == "done" and running:
                line = f"DONE {running.pop()}"
            elif kind == "back" and out:
                line = f"BACK {out.pop(0)[0]}"
            elif kind == "fetch":
                line = f"FETCH foobot {url}"
            elif kind == "refresh" and dice.random() < 0.2:
                line = f"REFRESH {site.authority}"
            elif kind == "seal":
                line = "SEAL"
            else:
                line = f"STATE {site.authority}"
            reply = it.say(line)
            if reply is None:
                return
            told.note(line, reply)
            words = reply.split(" ")
            if words[0] == "PERMIT":
                out.append((words[1], url))
            elif words[0] == "GO":
                running.append(words[1])
            elif words[0] == "SEALED":
                it.lines(int(words[1]))
            elif words[0] == "HOP":
                it.lines(2)


class Case:
    """A folder, and the servers that were killed in it."""

    def __init__(self, tried, dice, folder):
        self.tried, self.dice, self.folder = tried, dice, f"{folder}/journal"
        self.site, self.told, self.found = KillsSite(), Told(), None
        self.words = ["--journal-sync", dice.choice(["always", "second", "never"]), "--endless", "--workers", "4"]
        self.slots = dice.choice([1, 3, 1024])
        self.words += ["--slots", str(self.slots)]
        if dice.random() < 0.5:
            self.words += ["--log", str(dice.choice([60, 200, 1000]))]
        self.seals = dice.choice([0, 0, 1])

    def expect(self, what, holds, told):
        self.tried.expect(what, b"", holds, told, [self.tried.program, "serve", *self.words])

    def audit(self, what, text):
        ran = subprocess.run([self.tried.program, "audit"], input=text, capture_output=True, timeout=60)
        self.expect(what, ran.stdout.startswith(b"OK events "), ran.stdout)

    def goes_on(self, server):
        """The site's answer stands as before, or is fetched anew at once; and a permit is granted."""
        with servers.Session(server) as it:
            for _ in range(200):
                state = it.say(f"STATE {self.site.authority}")
                if state == f"STATE {self.site.authority} rules idle":
                    break
                if state == f"STATE {self.site.authority} unknown idle":
                    it.say(f"REFRESH {self.site.authority}")
                time.sleep(0.02)
            else:
                self.expect("the answer that stood", False, state)
            # (a small log may be full until the next file is begun)
            for _ in range(50):
                reply = it.say(f"ASK foobot {self.site.url('/again')}")
                if reply != "ERR log":
                    break
                time.sleep(0.02)
            self.expect("the next ask", re.fullmatch(r"PERMIT \d+", reply or ""), reply)
            number = (reply or " ").split(" ")[1]
            self.expect(
                "a number", not self.found or number not in self.found.numbers["G"], f"{number} was granted before",
            )
            self.told.note("ASK", reply or "")
            self.told.note("BACK", it.say(f"BACK {number}") or "")

    def round(self):
        """A server in which clients work until it is killed, or its files are full."""
        most = self.dice.choice(
            [None, None, self.dice.randrange(self.dice.choice([1_000, 4_000, 60_000]))]
        ) if self.found else None
        try:
            server = KillsServer(self.folder, self.words, most)
        except AssertionError as fault:
            self.expect("the start of a server", most is not None and FULL.decode().strip() in str(fault), str(fault))
            self.tried.count("full at the start")
            return
        with server:
            if most is None:
                self.goes_on(server)
            self.site.is_slow = self.dice.random() < 0.3
            seeds = [self.dice.random() for _ in range(CLIENTS)]
            clients = [
                threading.Thread(target=work, args=(server, self.site, self.told, random.Random(seed), self.seals))
                for seed in seeds
            ]
            for it in clients:
                it.start()
            if most is None or not self.ends_by_itself(server):
                time.sleep(self.dice.uniform(0, LONGEST))
                server.kill()
                self.tried.count("kills")
            for it in clients:
                it.join(60)
            self.site.is_slow = False

    def ends_by_itself(self, server):
        """Returns whether a server whose files may not grow past a limit has ended, as one whose journal has failed."""
        try:
            output, error = server.process.communicate(timeout=1)
        except subprocess.TimeoutExpired:
            return False
        ended = output, server.process.returncode, error
        # (it may have reported a torn line at its start)
        self.expect("the end of a server whose files are full", ended[:2] == (b"", 3) and error.endswith(FULL), ended)
        self.tried.count("full files")
        return True

    def look(self):
        """What clients learned stands in the files, and what the site was asked for has its start there."""
        self.found = self.found or Found(self.folder)
        text, torn = self.found.read()
        self.tried.count("torn lines", bool(torn))
        self.audit("the last files", text)
        missing = self.found.missing(self.told)
        self.expect("what clients learned", not missing, f"not in the journal: {str(missing)[:300]}")
        started = self.found.numbers["S"]
        pages = [it for it in self.site.asked if it != "/robots.txt"]
        lost = [it for it in pages if self.found.urls.get(self.site.url(it)) not in started]
        self.expect("pages that were asked for", not lost, f"without a start: {lost[:3]}")
        self.site.asked = self.site.asked[:0]


def try_case(tried, dice):
    with tempfile.TemporaryDirectory() as folder:
        case = Case(tried, dice, folder)
        for _ in range(ROUNDS):
            case.round()
            case.look()
        server = KillsServer(case.folder, case.words)
        case.goes_on(server)
        server.kill()
        whole = b"".join(case.found.text(name) for name in case.found.names())
        case.audit("all files", whole[: whole.rfind(b"\n") + 1])


def try_all(tried, seconds, only=None):
    KillsServer.program = tried.program
    for dice in tried.cases(seconds, only):
        try_case(tried, dice)
