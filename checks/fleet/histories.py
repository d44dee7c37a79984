"""Cases of checks/fleet about evidence.py: audits of several journals, and the starts of one site."""
import os
import subprocess
import tempfile
import time

from fleet import EVIDENCE, Fleet, Sites
from front import absolute
from lib.cases import same
from lib.server import SECONDS, Server

BEGIN = "0" * 20
# a history with a site that has no robots.txt, and one with a denied page
GOOD = (
    "V 2\nB 100 a.example 1\nA 100 a.example 1 O unavailable\nG 101 65536 foobot http://a.example/x\nS 102 65536 open\n"
    "F 65536\n"
)
DENIED = (
    "V 2\nB 90 a.example 1\nA 90 a.example 1 R 60 User-agent%3A%2A%0ADisallow%3A%2Fx\n"
    "N 91 foobot http://a.example/x line 2\n"
)
# the permits of a base: one that is started in its file, and one that was started before
BASE = (
    "V 3\nT 4 1 1 110\nH a.example 1 100 O unavailable\nL 0 1\nL 1 1\nU 65537 foobot http://a.example/y\n"
    "Y 65536 foobot http://a.example/x\nE\nS 111 65537 open\nF 65536\nF 65537\n"
)
OVER_HTTPS = (
    "V 2\nB 100 https://a.example 1\nA 100 https://a.example 1 O unavailable\nG 101 65536 foobot https://a.example/x\n"
    "S 102 65536 open\n"
)


def evidence(folder, *words):
    """Returns what evidence.py writes in a folder, its standard error, and its status."""
    how = {"cwd": folder, "capture_output": True, "timeout": SECONDS, "text": True}
    ran = subprocess.run([*EVIDENCE, *words], env={**os.environ, "CRAWLGATE": Server.program}, **how)
    return ran.stdout, ran.stderr, ran.returncode


def put(folder, files):
    """Writes files into a folder, by the names of a gate's folder and of the file in it."""
    for name, text in files.items():
        path = f"{folder}/{name}"
        os.makedirs(os.path.dirname(path), exist_ok=True)
        with open(path, "w", encoding="ascii") as file:
            file.write(text)


def audits_add_up():
    """Folders that are right, one of several files, one whose last line is cut, and each way in which a folder is not
    right."""
    files = {
        f"one/{BEGIN}": GOOD, f"two/{BEGIN}": DENIED, f"base/{4:020}": BASE, f"https/{BEGIN}": OVER_HTTPS,
        f"cut/{BEGIN}": f"{GOOD}G 103 131072 foo", f"torn/{BEGIN}": "V", f"middle/{BEGIN}": GOOD[:-1],
        f"middle/{5:020}": "V 3\n", f"wrong/{BEGIN}": GOOD, f"wrong/{4:020}": "V 3\nT 4 1 1 102\nX\n",
    }
    good = "one OK events 5 starts 1\n"
    rows = [
        (["one", "two", "base"], f"{good}two OK events 3 starts 0\nbase OK events 3 starts 1\n", (3, 3, 11, 2), 0),
        (["cut"], good.replace("one", "cut"), (1, 1, 5, 1), 0),
        (["https", "one"], f"https BAD https/{BEGIN} line 2\n{good}", (2, 1, 5, 1), 1),
        (["--https", "https", "one"], f"https OK events 4 starts 1\n{good}", (2, 2, 9, 2), 0),
        (["wrong"], f"wrong BAD wrong/{4:020} line 2\n", (1, 0, 0, 0), 1),
        (["torn"], "torn OK events 0 starts 0\n", (1, 1, 0, 0), 0),
        (["middle"], f"middle BAD middle/{BEGIN} line 6\n", (1, 0, 0, 0), 1),
    ]
    with tempfile.TemporaryDirectory() as folder:
        put(folder, files)
        for words, lines, sums, status in rows:
            last = "FLEET folders {} right {} events {} starts {}\n".format(*sums)
            same((words, *evidence(folder, "audit", *words)), (words, lines + last, "", status))


def starts_of_a_site():
    """The starts of one site, by their moments over all folders; a permit that was granted before the first file is
    found in its base. The authority may be written in another way than the gate does."""
    one, https = "102 one 65536 foobot http://a.example/x open\n", "102 https 65536 foobot https://a.example/x open\n"
    base = "111 base 65537 foobot http://a.example/y open\n"
    rows = [
        ("a.example", f"{one}{base}SITE a.example gates 2 starts 2\n"),
        ("A.Example:80", f"{one}{base}SITE a.example gates 2 starts 2\n"),
        ("https://a.example:443", f"{https}SITE https://a.example gates 1 starts 1\n"),
        ("example", "SITE example gates 0 starts 0\n"),
        ("a.example:8080", "SITE a.example:8080 gates 0 starts 0\n"),
    ]
    with tempfile.TemporaryDirectory() as folder:
        put(folder, {f"one/{BEGIN}": GOOD, f"two/{BEGIN}": DENIED, f"base/{4:020}": BASE, f"https/{BEGIN}": OVER_HTTPS})
        for authority, wanted in rows:
            found = evidence(folder, "starts", authority, "base", "one", "two", "https")
            same((authority, *found), (authority, wanted, "", 0))


def folders_that_are_none():
    """What is no folder of a journal is named, and nothing is audited."""
    with tempfile.TemporaryDirectory() as folder:
        put(folder, {f"one/{BEGIN}": GOOD, "empty/.lock": ""})
        rows = [
            (["audit", "one", "none"], "evidence.py: none: No such file or directory\n", 2),
            (["starts", "a.example", "empty"], "evidence.py: empty has no files of a journal\n", 2),
            (["audit", "one", "./one"], "evidence.py: a folder is given twice\n", 1),
        ]
        for words, wanted, status in rows:
            same((words, *evidence(folder, *words)), (words, "", wanted, status))
        for words in ([], ["audit"], ["starts", "a.example"], ["seal", "one"], ["audit", "--http", "one"]):
            said = evidence(folder, *words)
            assert said[1].startswith("The evidence of a fleet") and said[2] == 1, (words, said)


def status_of(fleet, url):
    """Returns the status of a page, once the log of its gate has room: a file of its journal is ended once a second."""
    until = time.monotonic() + SECONDS
    while True:
        status = fleet.front.ask(absolute(url)).status
        if status != 503 or time.monotonic() > until:
            return status
        time.sleep(0.1)


def while_gates_run():
    """Of gates that are running, and of one that was started again: the starts of a site are the requests that it
    had."""
    sites = Sites(12)
    with Fleet("--log", "64") as fleet:
        for host in sites.hosts * 8:
            same(status_of(fleet, sites.url(host)), 200)
        fleet.gates[0].kill()
        fleet.gates[0].start()
        fleet.expect_right(8 * len(sites.hosts))
        assert max(len(os.listdir(it)) for it in fleet.folders()) > 3, "each journal has one file"
        for host in sites.hosts:
            said, status = fleet.evidence("starts", f"{host}:{sites.port}")
            *lines, last = said.splitlines()
            same((last, status, len(lines)), (f"SITE {host}:{sites.port} gates 1 starts 8", 0, 8))
            same({line.split(" ", 3)[3] for line in lines}, {f"foobot {sites.url(host)} norule"})


CASES = [audits_add_up, starts_of_a_site, folders_that_are_none, while_gates_run]
