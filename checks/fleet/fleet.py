"""A fleet for the checks: gates with a journal each, haproxy by examples/fleet/haproxy.cfg, and sites at many
addresses."""
import contextlib
import os
import re
import selectors
import shutil
import socket
import subprocess
import sys
import tempfile
import threading
import time
import urllib.request
from collections import Counter

from front import Talk, by_path
from lib import tls
from lib.cases import OutOfTime, Skipped, same
from lib.program import ROOT
from lib.server import SECONDS, Server
from lib.sites import HOST, RULES, Site, free_port, free_ports, response

EXAMPLE = f"{ROOT}/examples/fleet"
EVIDENCE = [sys.executable, f"{EXAMPLE}/evidence.py"]
GATES = 3
# the ports of haproxy.cfg, that of crawlers and that of its numbers, and its line for a gate
CRAWLERS, NUMBERS = 4080, 8405
LINE = "  server gate{0:02} 127.0.0.1:{1} id {0} port {2}\n"


def needs_haproxy():
    if not tls.HAPROXY:
        raise Skipped("there is no haproxy")


def listeners_of(hosts):
    """Returns what listens at one port of all these addresses. (Sites of an earlier case may still be there.)"""
    while True:
        port = free_port()
        with contextlib.suppress(OSError):
            return [socket.create_server((host, port), backlog=64) for host in hosts]


def metrics_at(port):
    """Returns the text that Prometheus reads at a port."""
    opener = urllib.request.build_opener(urllib.request.ProxyHandler({}))
    with opener.open(f"http://{HOST}:{port}/metrics", timeout=SECONDS) as page:
        return page.read().decode()


class Sites(Site):
    """Sites that differ in their address: one port of that many addresses of the loopback, each with a page and with
    rules. It keeps which host was asked for which target."""

    def __init__(self, count):
        self.requests = []
        self.pages = {"/robots.txt": response(200, RULES), "/x": response(200, b"hello")}
        self.hosts = [f"127.1.{at // 200}.{at % 200 + 1}" for at in range(count)]
        listeners = listeners_of(self.hosts)
        self.port = listeners[0].getsockname()[1]
        self.selector = selectors.DefaultSelector()
        for it in listeners:
            self.selector.register(it, selectors.EVENT_READ)
        threading.Thread(target=self._listen, daemon=True).start()

    def _listen(self):
        while True:
            for key, _ in self.selector.select():
                peer = key.fileobj.accept()[0]
                threading.Thread(target=self._take, args=(peer,), daemon=True).start()

    def answer(self, peer, head, target):
        self.requests.append((peer.getsockname()[0], target))
        peer.sendall(self.page(target))

    def url(self, host, target="/x"):
        return f"http://{host}:{self.port}{target}"

    def starts(self):
        """Returns how many pages each host was asked for."""
        return Counter(host for host, target in self.requests if target != "/robots.txt")

    def expect_none_denied(self):
        same([it for it in self.requests if it[1].startswith("/private")], [])


class Gate(Server):
    """A gate of a fleet: a server for HTTP clients with a port for checks, and a journal. It can be started again."""

    def __init__(self, folder, *words):
        self.folder, self.words = folder, words
        self.http, self.checked = free_ports(2)
        self.start()

    def start(self):
        words = ["--http", str(self.http), "--seal-port", str(self.checked), "--journal", self.folder, *self.words]
        super().__init__("--endless", *words)
        same([self.process.stdout.readline().split(b" ")[0] for _ in range(2)], [b"SEAL", b"HTTP"])

    def kill(self):
        self.__exit__()

    def metrics(self):
        return metrics_at(self.http)

    def hosts(self):
        """Returns the hosts whose robots.txt this gate has fetched, by its journal."""
        return {it.rpartition(":")[0] for it in re.findall(r"(?m)^B \d+ (\S+) ", self.history())}

    def history(self):
        texts = []
        for name in sorted(it for it in os.listdir(self.folder) if it[0].isdigit()):
            with open(f"{self.folder}/{name}", encoding="ascii") as file:
                texts.append(file.read())
        return "".join(texts)

    def starts(self, host):
        """Returns how many pages of a host this gate has started."""
        numbers = set(re.findall(rf"(?m)^G \d+ (\d+) \S+ http://{re.escape(host)}:", self.history()))
        return len(numbers & set(re.findall(r"(?m)^S \d+ (\d+) ", self.history())))


class Haproxy:
    """haproxy by the example's configuration, with other ports and gates, and lines that are replaced."""

    http_path = None

    def __init__(self, folder, gates, replaced=()):
        self.http, self.numbers = free_ports(2)
        example = "".join(LINE.format(at, 4100 + at, 4200 + at) for at in range(1, GATES + 1))
        lines = "".join(LINE.format(at, gate.http, gate.checked) for at, gate in enumerate(gates, 1))
        changes = {f":{CRAWLERS}\n": f":{self.http}\n", f":{NUMBERS}\n": f":{self.numbers}\n", example: lines}
        self.path = write_configuration(folder, "haproxy.cfg", changes | dict(replaced))
        with open(self.path, encoding="utf-8") as file:
            self.count = len(re.findall(r"(?m)^  server ", file.read()))

    def __enter__(self):
        with open(f"{self.path}.log", "wb") as log:
            self.process = subprocess.Popen([tls.HAPROXY, "-f", self.path], stdout=log, stderr=log)
        tls.wait_for(self.http)
        try:
            self.wait_for_checks()
        except BaseException:
            self.__exit__()
            raise
        return self

    def wait_for_checks(self):
        """Waits until each gate has been checked: before, haproxy takes it for alive."""
        until = time.monotonic() + SECONDS
        while len(self.rows("check_status")) < self.count:
            assert time.monotonic() < until, "haproxy checks no gates"
            time.sleep(0.1)

    def __exit__(self, *_):
        self.process.kill()
        self.process.wait()

    def metrics(self):
        return metrics_at(self.numbers)

    def rows(self, name, state=r"\w+"):
        """Returns the names of the gates for which a number of haproxy is 1 in this state."""
        row = rf'(?m)^haproxy_server_{name}\{{proxy="gates",server="(\w+)",state="{state}"\}} 1'
        return re.findall(row, self.metrics())

    def alive(self):
        """Returns the names of the gates that haproxy takes for alive."""
        return self.rows("status", "UP")

    def wait_for(self, *names, seconds=SECONDS):
        """Waits until these gates are alive, and no others, and returns how long that took."""
        began = time.monotonic()
        while self.alive() != list(names):
            if time.monotonic() - began > seconds:
                raise OutOfTime(f"after {seconds} s {self.alive()} are alive, and not {names}")
            time.sleep(0.1)
        return time.monotonic() - began

    def expect_no_death(self):
        """Has a case tried again if haproxy took a gate for dead, since the machine was too busy for its checks."""
        with open(f"{self.path}.log", encoding="utf-8", errors="replace") as log:
            found = re.search(r"Server gates/\w+ is DOWN, reason: [^,]*", log.read())
        if found:
            raise OutOfTime(found[0])

    def ask(self, octets):
        with Talk(self) as it:
            return it.ask(octets)


def write_configuration(folder, name, changes):
    """Writes a configuration of the example with other texts in it, each of which it must have, and returns its
    path."""
    with open(f"{EXAMPLE}/{name}", encoding="utf-8") as file:
        text = file.read()
    for old, new in changes.items():
        assert text.count(old) >= 1, f"{name} has no {old!r}"
        text = text.replace(old, new)
    with tempfile.NamedTemporaryFile("w", dir=folder, suffix=f"-{name}", delete=False, encoding="utf-8") as file:
        file.write(text)
    return file.name


class Fleet(contextlib.ExitStack):
    """Three gates, and haproxy in front of them."""

    def __init__(self, *words, replaced=()):
        super().__init__()
        needs_haproxy()
        self.folder = tempfile.mkdtemp()
        self.callback(shutil.rmtree, self.folder)
        folders = [f"{self.folder}/0{at + 1}" for at in range(GATES)]
        self.gates = [self.enter_context(Gate(it, *words)) for it in folders]
        self.front = self.enter_context(Haproxy(self.folder, self.gates, replaced))

    def folders(self):
        return [it.folder for it in self.gates]

    def evidence(self, *words):
        """Returns what evidence.py writes of all folders, and its status."""
        how = {"capture_output": True, "timeout": 2 * SECONDS, "env": {**os.environ, "CRAWLGATE": Server.program}}
        ran = subprocess.run([*EVIDENCE, *words, *self.folders()], **how)
        same(ran.stderr, b"")
        return ran.stdout.decode(), ran.returncode

    def expect_right(self, starts):
        """Has all folders audited, and compares their starts with how many pages were fetched."""
        said, status = self.evidence("audit")
        rows = [re.fullmatch(r"\S+ OK events (\d+) starts (\d+)", it) for it in said.splitlines()[:-1]]
        assert all(rows), said
        events, found = (sum(int(it[at]) for it in rows) for at in (1, 2))
        same(said.splitlines()[-1], f"FLEET folders {GATES} right {GATES} events {events} starts {found}")
        same((found, status), (starts, 0))

    def owner(self, sites, host):
        """Asks for a page of a host, and returns the number of the gate that fetched it."""
        before = [it.starts(host) for it in self.gates]
        same(self.front.ask(by_path(sites.url(host))).status, 200)
        after = [it.starts(host) for it in self.gates]
        changed = [at for at, pair in enumerate(zip(before, after)) if pair[0] != pair[1]]
        same(len(changed), 1)
        return changed[0]
