"""Cases of checks/examples with a journal: what docs/SEALING.md does with its files, and an archive whose server is
killed."""
import os
import re
import subprocess
import tempfile
import time

from lib.cases import same
from lib.example_sites import Sites, archive, audited, check_pages, octets_of
from lib.program import ROOT
from lib.server import SECONDS, RestartedFront, Server, Session
from lib.sites import Site, response


def done(begin, folder, **replaced):
    """Runs the commands of SEALING.md that have this text, with other words in them, in a folder. What they audit is
    right."""
    with open(f"{ROOT}/docs/SEALING.md", encoding="utf-8") as file:
        blocks = re.findall(r"^```sh\n(.*?)^```", file.read(), re.M | re.S)
    script = next(it for it in blocks if begin in it)
    for old, new in replaced.values():
        assert old in script, old
        script = script.replace(old, new)
    environment = {**os.environ, "PATH": f"{os.path.dirname(Server.program)}:{os.environ['PATH']}"}
    words = ["sh", "-e", "-c", script]
    ran = subprocess.run(words, cwd=folder, env=environment, capture_output=True, timeout=SECONDS)
    same((ran.returncode, ran.stderr), (0, b""))


def granted(server, sites, count):
    """Returns the numbers of that many permits, half of which are done."""
    with Session(server) as it:
        for authority in sites.authorities:
            assert it.say(f"REFRESH {authority}").startswith("TAKEN "), authority
        numbers = [it.say(f"ASK foobot {sites.url('/', at % sites.count)}").split(" ")[1] for at in range(count)]
        for number in numbers[::2]:
            same(it.say(f"BACK {number}"), f"BACK {number}")
        numbers += [it.say(f"ASK foobot {sites.url('/docs')}").split(" ")[1] for _ in range(count)]
        return list(map(int, numbers))


def seal(it):
    it.lines(int(it.say("SEAL").split(" ")[1]))


def with_files(server, sites):
    """Has a journal's second file begun, and returns the numbers that were granted in both."""
    numbers = granted(server, sites, 9)
    with Session(server) as it:
        seal(it)
    return numbers + granted(server, sites, 9)


def with_a_base(server, sites, folder):
    """Has as many files begun as bring a base, and returns the numbers that were granted in them, and the base's
    name."""
    numbers = with_files(server, sites)
    with Session(server) as it:
        for _ in range(30):
            same(it.say("ASK foobot http://a.example/"), "NO a.example unknown")
            seal(it)
        # (the server seals nothing while there is nothing new)
        deadline = time.monotonic() + SECONDS
        while len(bases := sorted(name for name in os.listdir(folder) if name.isdigit())) < 2:
            assert time.monotonic() < deadline, "there is no base"
            same(it.say("ASK foobot http://a.example/"), "NO a.example unknown")
            time.sleep(0.1)
    return numbers + granted(server, sites, 9), bases[-1]


def starts_of(folder):
    """Returns whether a server starts with this journal, or what it says."""
    words = [Server.program, "serve", "--connections", "1", "--journal", folder]
    with subprocess.Popen(words, stdin=subprocess.DEVNULL, stdout=subprocess.PIPE, stderr=subprocess.PIPE) as process:
        line = process.stdout.readline()
        process.kill()
        return line.startswith(b"LISTEN ") or process.stderr.read().decode()


def numbers_behind_a_damaged_file():
    """A wrong entry in the last file, and a wrong line of the last base: the server goes on with numbers that nobody
    had."""
    for is_base in (False, True):
        with tempfile.TemporaryDirectory() as folder, Sites(2) as sites:
            journal = f"{folder}/journal"
            with Server("--journal", journal) as server:
                numbers, base = with_a_base(server, sites, journal)
            damaged = base if is_base else max(os.listdir(journal))
            with open(f"{journal}/{damaged}", "r+b") as file:
                text = file.read()
                at = text.index(b"\nL " if is_base else b"\nG ") + 1
                file.seek(at)
                file.write(b"X")
            assert f'{damaged}" line {text[:at].count(10) + 1} is wrong' in starts_of(journal)
            first = "journal/" + "0" * 20
            replaced = {"most": ("most=1000000", "most=2000000")} if is_base else {"name": (first, f"journal/{base}")}
            done("mkdir -m 700 anew", folder, **replaced)
            with Server("--journal", f"{folder}/anew") as server:
                later = granted(server, sites, 9)
            assert min(later) > max(numbers) + 900_000 * 65_536, (later, numbers)
            assert starts_of(f"{folder}/anew") is True
            same(len(audited(b"".join(octets_of(f"{folder}/anew", "")))), 0)


def a_copy_with_another_name():
    with tempfile.TemporaryDirectory() as folder, Sites(2) as sites:
        with Server("--journal", f"{folder}/journal") as server:
            with_a_base(server, sites, f"{folder}/journal")
        port, beside = (it.rpartition(":")[2] for it in sites.authorities)
        # (no port lies between the two)
        other = str(int(port) + (1 if beside != str(int(port) + 1) else -1))
        name, others = r"127\.0\.0\.1:", ("127.0.0.1:1\\2", f"127.0.0.1:{other}\\2")
        done("mkdir -p shown", folder, name=(f"{name}8000", f"{name}{port}"), other=others)
        text = b"".join(octets_of(f"{folder}/shown", ""))
        same(re.findall(rb"127\.0\.0\.1:%s[ /]" % port.encode(), text), [])
        assert b"V 3\n" in text and other.encode() in text
        ran = subprocess.run([Server.program, "audit"], input=text, capture_output=True, timeout=SECONDS)
        assert ran.stdout.startswith(b"OK events "), ran.stdout


class Fatal(Site):
    """A site that makes a call, once, when its page /5 is asked for."""

    def __init__(self, call):
        self.call = call
        super().__init__(
            {f"/{it}": response(200, b"page") for it in range(9)} | {"/moved": response(302, b"", "Location: /5")}
        )

    def page(self, target):
        if target == "/5" and self.asked.count(target) == 1:
            self.call()
        return super().page(target)


def an_archive_whose_server_comes_back():
    """The server is killed while a page is under way, behind a redirect, and started again: each page has one
    record."""
    with tempfile.TemporaryDirectory() as folder, RestartedFront("--journal", f"{folder}/journal") as server:
        site = Fatal(server.restart)
        said = archive(server, f"{folder}/out", [site.url(it) for it in ("/1", "/moved", "/5", "/6")])
        same(said, ("pages 4\n", "", 0))
        pages = check_pages(f"{folder}/out", f"{folder}/journal")
        same([it.fields["WARC-Target-URI"] for it in pages], [site.url(it) for it in ("/1", "/moved", "/5", "/6")])
        same((site.asked.count("/5"), server.timer is not None), (2, True))


CASES = [numbers_behind_a_damaged_file, a_copy_with_another_name, an_archive_whose_server_comes_back]
