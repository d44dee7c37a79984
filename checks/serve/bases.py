"""Cases of checks/serve with a --journal of many files: logs without a base, and the bases that a server puts before
them while it serves."""
import itertools
import os
import select
import subprocess
import tempfile
import time

from chains import begins, contents, is_sound, journal
from journals import FIRST, Recorded, audit, refused, text_of
from lib.cases import same
from lib.server import SECONDS, Server, Session
from lib.sites import site_with_rules
from restarts import put
from sessions import sealed

# past so many files since the last base another one is due
FILES = 24
MISPLACED = "does not begin where the files before it end"


def bases_in(folder):
    """Returns the names of a journal's bases."""
    return sorted(it for it in os.listdir(folder) if it.isdigit())


def asked(it, number):
    same(it.say(f"ASK foobot http://a.example/{number}"), "NO a.example unknown")


def wait_for_base(folder, count):
    deadline = time.monotonic() + SECONDS
    while len(bases_in(folder)) < count:
        assert time.monotonic() < deadline, os.listdir(folder)
        time.sleep(0.05)


def bases_come_with_files():
    """A base comes before its log once there are many files, while clients go on; the folder is right all the time, and
    after a kill. A start reads no file before the last base but one."""
    site = site_with_rules()
    with tempfile.TemporaryDirectory() as folder:
        with Recorded(folder) as server, Session(server) as it:
            same(it.say(f"REFRESH {site.authority}"), f"TAKEN {site.authority} rules")
            turns, deadline = 0, time.monotonic() + SECONDS
            while len(bases_in(server.folder)) < 3:
                assert time.monotonic() < deadline, os.listdir(server.folder)
                asked(it, turns)
                # (the server may have sealed before, by itself)
                sealed(it)
                turns += 1
                same(audit(server.text()), f"OK events {turns + 2} starts 0\n")
            assert turns > FILES, turns
            # (an empty folder gets its first file with its base)
            first, *later = bases_in(server.folder)
            same(first, FIRST)
            same([it for it in later if not os.path.exists(f"{server.folder}/{it}.log")], [])
            server.stop()
        same(audit(server.text()), f"OK events {turns + 2} starts 0\n")
        before = [name for name in contents(folder) if name < bases_in(server.folder)[-2]]
        for name in before:
            os.remove(f"{server.folder}/{name}")
        with Recorded(folder, "--connections", "1") as server, Session(server) as it:
            same(it.say(f"STATE {site.authority}"), f"STATE {site.authority} rules idle")
            same(it.say("QUIT"), "BYE")
            same(server.end()[:2], (f"SERVED connections 1 events {turns + 2}\n".encode(), 0))
        assert audit(server.text()).startswith("OK "), audit(server.text())
        return f"{len(before)} files before"


def files_with_segments(folder, count):
    """Returns the files of a journal that a server has written with a seal after each of so many denials, and the base
    of each log, by its name."""
    bases = {}
    with Recorded(folder) as server, Session(server) as it:
        for turn in range(count):
            asked(it, turn)
            lines = sealed(it)
            if lines[0] == "V 3":
                bases[f"{turn:020}"] = "".join(f"{line}\n" for line in lines[: lines.index("E") + 1])
        server.stop()
    return {name: text.decode() for name, text in contents(folder).items()}, bases


def each_choice_of_bases():
    """Whichever logs have their base before them: a start goes on, and the folder is right."""
    with tempfile.TemporaryDirectory() as folder:
        files, bases = files_with_segments(folder, 5)
    names = sorted(bases)
    same(names, [f"{turn:020}" for turn in range(1, 5)])
    choices = [it for size in range(5) for it in itertools.combinations(names, size)]
    for choice in choices:
        with journal({**files, **{name: bases[name] for name in choice}}) as folder:
            same(audit(text_of(f"{folder}/journal")), "OK events 5 starts 0\n")
            same(begins(folder), (True, ""))
            same(audit(text_of(f"{folder}/journal")), "OK events 5 starts 0\n")
    return f"{len(choices)} choices"


def a_base_is_compared_with_what_is_before():
    """Each octet of a base before a log is changed in turn: no start goes on."""
    with tempfile.TemporaryDirectory() as folder:
        files, bases = files_with_segments(folder, 3)
    name = f"{2:020}"
    base = bases[name]
    for at, letter in enumerate(base):
        for other in {chr(ord(letter) ^ 1), " ", "\n"} - {letter}:
            with journal({**files, name: base[:at] + other + base[at + 1 :]}) as folder:
                assert is_sound(folder), f"octet {at} is {other!r}"
    # (without an octet it says nothing, and stands before no entry)
    for size in range(len(base)):
        with journal({**files, name: base[:size]}) as folder:
            same(is_sound(folder), size > 0)
    return f"{len(base)} octets"


def a_file_that_is_missing():
    """A log that is not here, or lost lines at its end, is not stepped over: the file after it is named."""
    with tempfile.TemporaryDirectory() as folder:
        files, bases = files_with_segments(folder, 5)
    logs = [f"{turn:020}.log" for turn in range(1, 5)]
    for gone, after in itertools.pairwise(logs):
        left = {name: text for name, text in files.items() if name != gone}
        for kept in (left, {**left, gone: ""}):
            with journal(kept) as folder:
                same(begins(folder), (False, f'crawlgate: journal: "{folder}/journal/{after}" {MISPLACED}\n'))
    with journal({name: text for name, text in files.items() if name != FIRST}) as folder:
        told = f'crawlgate: journal: "{folder}/journal/{logs[0]}" goes on from files that are not here\n'
        same(begins(folder), (False, told))
    # (a base says what the files before it left, but they have to be here where another base is before them)
    base = f"{4:020}"
    left = {name: text for name, text in files.items() if name != logs[2]}
    with journal({**left, base: bases[base]}) as folder:
        same(begins(folder), (False, f'crawlgate: journal: "{folder}/journal/{base}" {MISPLACED}\n'))


def more_files_than_descriptors():
    """A start has few of its files open at a time."""
    with tempfile.TemporaryDirectory() as folder:
        with Recorded(folder, "--journal-sync", "never") as server, Session(server) as it:
            for turn in range(300):
                asked(it, turn)
                sealed(it)
            server.stop()
        for name in bases_in(server.folder)[1:]:
            os.remove(f"{server.folder}/{name}")
        assert len(os.listdir(server.folder)) > 300
        with Limited(folder, "-n 64") as limited, Session(limited) as it:
            # (nothing is sealed before there is an entry)
            asked(it, 300)
            wait_for_base(server.folder, 2)
            same(audit(server.text()), "OK events 301 starts 0\n")


class Limited(Server):
    """A server with a journal and this limit of the shell's."""

    def __init__(self, folder, limit):
        self.folder = f"{folder}/journal"
        words = [Server.program, "serve", "--journal", self.folder, "--endless", "--workers", "1"]
        limited = ["bash", "-c", f'ulimit {limit}; trap "" XFSZ; exec "$@"', "bash", *words]
        self.path = None
        self.process = subprocess.Popen(
            limited, stdin=subprocess.DEVNULL, stdout=subprocess.PIPE, stderr=subprocess.PIPE,
        )
        self._read_port()


def a_base_without_room():
    """Where a base can't be written that is told once, and clients go on. Nothing of it is left. (A file can't have
    more than 1,024 octets.)"""
    with tempfile.TemporaryDirectory() as folder, Limited(folder, "-f 1") as server:
        with Session(server) as it:
            ports = range(1, 6 * FILES + 1)
            for port in ports:
                # (each is a site of its own, whose fetch is refused)
                same(it.say(f"REFRESH 127.0.0.1:{port}").split(" ")[0], "TAKEN")
                if port % 3 == 0:
                    sealed(it)
            # (the server seals nothing while there is nothing new)
            same(it.say(f"REFRESH 127.0.0.1:{len(ports) + 1}").split(" ")[0], "TAKEN")
            assert select.select([server.process.stderr], [], [], SECONDS)[0], os.listdir(server.folder)
            same((bases_in(server.folder), os.path.exists(f"{server.folder}/.new")), ([FIRST], False))
        server.process.kill()
        told = f'crawlgate: journal: "{server.folder}" lacks a base, which is tried again each minute: '
        found = server.process.stderr.read().decode()
        same((found[: len(told)], found.count("\n")), (told, 1))
        same(audit(text_of(server.folder)), f"OK events {2 * (len(ports) + 1)} starts 0\n")


def a_base_that_was_not_finished():
    """What is left of a base is removed by the next start."""
    with tempfile.TemporaryDirectory() as folder:
        put(folder, FIRST, "V 2\nN 100 foobot http://a.example/ unknown\n")
        put(folder, ".new", "V 3\nT 1 0")
        with Recorded(folder, "--connections", "1") as server, Session(server) as it:
            same(sorted(os.listdir(server.folder)), [".lock", FIRST, f"{1:020}.log"])
            same(it.say("QUIT"), "BYE")
            same(server.end(), (b"SERVED connections 1 events 1\n", 0, b""))


def a_shift_between_servers():
    """A shift writes its base before its entries, and takes the place of a log without entries."""
    with tempfile.TemporaryDirectory() as folder:
        for turn in (1, 2):
            with Recorded(folder) as server, Session(server) as it:
                asked(it, turn)
                assert sealed(it)
                server.stop()
            words = [Server.program, "shift", "--journal", server.folder]
            ran = subprocess.run(words, input=b"foobot http://127.0.0.1:1/\n", capture_output=True, timeout=SECONDS)
            # (the second one knows from the journal that the site is closed)
            same((ran.returncode, ran.stderr), (0, b"127.0.0.1:1 is closed: robots: refused\n" * (turn == 1)))
            assert audit(server.text()).startswith("OK "), audit(server.text())
        assert f"{1:020}" in bases_in(server.folder) and f"{1:020}.log" not in os.listdir(server.folder)
        same(begins(folder), (True, ""))
        put(folder, f"{10 ** 19:020}", "V 2\n")
        same(refused(f"{folder}/journal").endswith("line 1 is wrong\n"), True)


CASES = [
    bases_come_with_files,
    each_choice_of_bases,
    a_base_is_compared_with_what_is_before,
    a_file_that_is_missing,
    more_files_than_descriptors,
    a_base_without_room,
    a_base_that_was_not_finished,
    a_shift_between_servers,
]
