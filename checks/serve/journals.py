"""Cases of checks/serve with --journal: what a client learns stands in the journal's files before, whatever ends the
server."""
import os
import signal
import subprocess
import tempfile
import time

from lib.cases import same, short
from lib.server import SECONDS, Server, Session, side_by_side
from lib.sites import open_site, response
from sessions import sealed

FIRST = "0" * 20


def text_of(folder):
    """Returns the text of a journal, as `cat FOLDER/*` hands it to an audit."""
    texts = []
    for name in sorted(it for it in os.listdir(folder) if not it.startswith(".")):
        with open(f"{folder}/{name}") as file:
            texts.append(file.read())
    return "".join(texts)


def audit(text):
    ran = subprocess.run([Server.program, "audit"], input=text.encode(), capture_output=True, timeout=SECONDS)
    return ran.stdout.decode()


def starts_of(text):
    return [line.split(" ")[2] for line in text.splitlines() if line.startswith("S ")]


class Recorded(Server):
    """A server with a journal in a folder that is not there yet. It does not end by itself, unless that is asked
    for."""

    def __init__(self, folder, *words, **how):
        self.folder = f"{folder}/journal"
        end = () if {"--connections", "--endless"} & {*words} else ("--endless",)
        super().__init__("--journal", self.folder, *end, *words, **how)

    def text(self):
        return text_of(self.folder)

    def stop(self):
        """Kills it."""
        self.process.send_signal(signal.SIGKILL)
        self.process.wait(SECONDS)


def journal_has_what_is_told():
    """Each reply that shows an entry is read only once that entry stands in the file, and a page is asked for after its
    start."""
    for sync in ("always", "second", "never"):
        site = open_site()
        a, x = site.authority, site.url("/x")
        with tempfile.TemporaryDirectory() as folder, Recorded(folder, "--journal-sync", sync) as server:
            same(server.text(), "V 2\n")
            with Session(server) as it:
                rows = [
                    (f"REFRESH {a}", f"TAKEN {a} open", "A "),
                    (f"ASK foobot {x}", "PERMIT 65536", "G "),
                    (f"START 65536 foobot {x}", "GO 65536 open", "S "),
                    ("DONE 65536", "DONE 65536", "F "),
                    (f"ASK foobot {x}", "PERMIT 131072", "G "),
                    ("BACK 131072", "BACK 131072", "K "),
                ]
                for line, reply, letter in rows:
                    same(it.say(line), reply)
                    same(server.text().splitlines()[-1][:2], letter)
                same(it.say("STATE " + a), f"STATE {a} open idle")
            server.stop()
            same(audit(server.text()), "OK events 7 starts 1\n")


def journal_of_clients_side_by_side():
    """Eight clients at work share the journal: each reads a reply only once its own entry stands in the file, after all
    that were entered before it. A seal then hands out all of them, and begins the next file."""
    clients, turns = 8, 25
    with tempfile.TemporaryDirectory() as folder, Recorded(
        folder, "--workers", "8", "--journal-sync", "never",
    ) as server:

        def work(client):
            with Session(server) as it:
                for turn in range(turns):
                    page = f"http://a.example/{client}/{turn}"
                    same(it.say(f"ASK foobot {page}"), "NO a.example unknown")
                    assert f" foobot {page} unknown\n" in server.text(), page

        side_by_side(work, range(clients))
        pages = sorted(line.split(" ")[3] for line in server.text().splitlines()[1:])
        same(pages, sorted(f"http://a.example/{client}/{turn}" for client in range(clients) for turn in range(turns)))
        with Session(server) as it:
            same(len(sealed(it)), clients * turns + 1)
        same(sorted(os.listdir(server.folder)), [".lock", FIRST, f"{clients * turns:020}.log"])


def journal_of_fetches():
    """While a page is on its way, its start is in the file; while a robots.txt is, its begin is."""
    found = []
    with tempfile.TemporaryDirectory() as folder, Recorded(folder) as server:

        class Watched(dict):
            def get(self, target, none):
                found.append((target, server.text().splitlines()[-1][:2]))
                return super().get(target, none)

        site = open_site()
        site.pages = Watched(site.pages)
        with Session(server) as it:
            it.send(f"FETCH foobot {site.url('/x')}\nQUIT\n".encode())
            same(it.rest(), b"HOP 1 PAGE open 200 5 whole\nBODY 5\nhello\nBYE\n")
        same(found, [("/robots.txt", "B "), ("/x", "S ")])


def killed_with_a_journal():
    """Four clients at work are killed with their server: every start that was reported stands in the folder, and each
    page that the site was asked for has its own."""
    site = open_site({f"/{client}/{turn}": response(200) for client in range(4) for turn in range(400)})
    with tempfile.TemporaryDirectory() as folder, Recorded(folder, "--journal-sync", "never") as server:
        told = []

        def work(client):
            try:
                with Session(server) as it:
                    for turn in range(400):
                        line = it.say(f"ASK foobot {site.url(f'/{client}/{turn}')}")
                        number = line.removeprefix("PERMIT ")
                        same(it.say(f"START {number} foobot {site.url(f'/{client}/{turn}')}"), f"GO {number} open")
                        told.append(number)
                        same(it.say(f"DONE {number}"), f"DONE {number}")
                        if len(told) == 700:
                            server.process.send_signal(signal.SIGKILL)
            except (AssertionError, AttributeError, OSError):
                pass  # the server is gone

        with Session(server) as it:
            same(it.say(f"REFRESH {site.authority}"), f"TAKEN {site.authority} open")
        side_by_side(work, range(4))
        server.stop()
        text = server.text()
        whole = text[: text.rfind("\n") + 1]
        assert audit(whole).startswith("OK "), short(audit(whole))
        missing = set(told) - set(starts_of(whole))
        assert not missing, f"{len(missing)} starts that were reported are missing"
        return f"{len(told)} starts told, {len(starts_of(whole))} in the journal"


def journal_turns_over():
    """A seal hands out the entries of the file that it ends, after their base, and begins the next file, named by the
    entries before it."""
    site = open_site()
    with tempfile.TemporaryDirectory() as folder, Recorded(folder, "--connections", "2") as server:
        with Session(server) as it:
            same(it.say(f"REFRESH {site.authority}"), f"TAKEN {site.authority} open")
            same(it.say(f"ASK foobot {site.url('/x')}"), "PERMIT 65536")
            text = "".join(f"{line}\n" for line in sealed(it))
            with open(f"{server.folder}/{FIRST}") as file:
                same(file.read(), text)
            same(sorted(os.listdir(server.folder)), [".lock", FIRST, f"{3:020}.log"])
            same(sealed(it), [])
            same(it.say("BACK 65536"), "BACK 65536")
            lines = sealed(it)
            same((lines[0], lines[-2:]), ("V 3", ["E", "K 65536"]))
            with open(f"{server.folder}/{3:020}.log") as file:
                same(file.read(), "K 65536\n")
            same(it.say("QUIT"), "BYE")
        with Session(server) as it:
            same(it.say("QUIT"), "BYE")
        same(server.end(), (b"SERVED connections 2 events 4\n", 0, b""))
        same(audit(server.text()), "OK events 4 starts 0\n")


def refused(folder, *words):
    ran = subprocess.run([Server.program, "serve", "--journal", folder, *words], capture_output=True, timeout=SECONDS)
    same((ran.stdout, ran.returncode), (b"", 3))
    return ran.stderr.decode()


def folders_that_are_refused():
    with tempfile.TemporaryDirectory() as folder:
        with Recorded(folder) as server:
            same(refused(server.folder), f'crawlgate: journal: "{server.folder}" is in use by another process\n')
        with open(f"{folder}/file", "w"):
            pass
        same(refused(f"{folder}/file").startswith("crawlgate: device: journal: "), True)
        same(refused(f"{folder}/no/journal").startswith("crawlgate: device: journal: "), True)


def journal_turns_over_by_itself():
    """Once half of the log is entered the server begins the next file, and has room for ever more."""
    with tempfile.TemporaryDirectory() as folder, Recorded(folder, "--log", "200", "--connections", "1") as server:
        with Session(server) as it:
            for turn in range(400):
                same(it.say(f"ASK foobot http://a.example/{turn}"), "NO a.example unknown")
                if turn % 50 == 49:
                    time.sleep(0.3)
            same(it.say("QUIT"), "BYE")
        same(server.end(), (b"SERVED connections 1 events 400\n", 0, b""))
        files = sorted(it for it in os.listdir(server.folder) if not it.startswith("."))
        assert len(files) >= 3, f"files: {files}"
        same(files[0], FIRST)
        same(audit(server.text()), "OK events 400 starts 0\n")
        return f"{len(files)} files"


class Limited(Server):
    """A server with a journal whose files can't have more than 1,024 octets, as on a disk that is full."""

    def __init__(self, folder, *words):
        self.folder = f"{folder}/journal"
        words = [Server.program, "serve", "--journal", self.folder, *words]
        limited = ["bash", "-c", 'ulimit -f 1; trap "" XFSZ; exec "$@"', "bash", *words]
        self.path = None
        self.process = subprocess.Popen(limited, stdout=subprocess.PIPE, stderr=subprocess.PIPE)
        self._read_port()

    def is_failed(self, replies):
        """It ends as a server whose journal has failed, and its files have what was told."""
        output, status, error = self.end()
        same((output, status), (b"", 3))
        same(error, b"crawlgate: device: journal: File too large (os error 27)\n")
        text = text_of(self.folder)
        entries = text[: text.rfind("\n") + 1].count("\n") - 1
        assert entries >= replies, f"{replies} replies, {entries} entries"
        whole = audit(text[: text.rfind("\n") + 1])
        same(whole, f"OK events {entries} starts 0\n")


def asked_until_it_ends(it):
    """Returns how many lines were answered before the connection ended."""
    for turn in range(1000):
        try:
            reply = it.say(f"ASK foobot http://a.example/{turn}")
        except OSError:
            reply = None
        if reply is None:
            return turn
        same(reply, "NO a.example unknown")
    raise AssertionError("it never ends")


def journal_on_a_full_disk():
    """Nothing is sent any more once the journal can't be written, and the server ends."""
    with tempfile.TemporaryDirectory() as folder, Limited(folder, "--workers", "1", "--endless") as server:
        with Session(server) as it:
            replies = asked_until_it_ends(it)
        server.is_failed(replies)
        return f"{replies} replies"


def journal_that_fails_among_idle_workers():
    """Workers that wait for a client end too, and those of a client that says something; a silent one's ends once its
    patience is over."""
    with tempfile.TemporaryDirectory() as folder, Limited(
        folder, "--workers", "8", "--patience", "3", "--endless",
    ) as server:
        with Session(server) as it, Session(server) as silent, Session(server) as other:
            same(other.say("STATE a.example"), "STATE a.example unknown idle")
            same(silent.say("STATE a.example"), "STATE a.example unknown idle")
            replies = asked_until_it_ends(it)
            same(other.say("STATE a.example"), None)
            server.is_failed(replies)
            same(silent.rest(), b"")
        return f"{replies} replies"


CASES = [
    journal_has_what_is_told,
    journal_of_clients_side_by_side,
    journal_of_fetches,
    killed_with_a_journal,
    journal_turns_over,
    journal_turns_over_by_itself,
    folders_that_are_refused,
    journal_on_a_full_disk,
    journal_that_fails_among_idle_workers,
]
