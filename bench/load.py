"""The load of bench/serve and bench/journal: requests a second, and how long each waits, of the program and of redis-server.

The load is made by load.c, which a C compiler (cc) builds first. Of the program a loop is ASK, START and DONE; of redis-server
SET with NX, and DEL, of a key of its own. Each setting is played on both one after the other, on the program with a history
that has only just begun.
"""
import contextlib
import os
import shutil
import socket
import subprocess
import sys
import tempfile
import time

from lib.cases import same
from lib.program import ROOT
from lib.server import SECONDS, Server, Session
from lib.sites import HOST, free_port, open_site

# connections, requests in flight on each, and loops in all: the history has room for 333,332
SETTINGS = [(1, 1, 30_000), (4, 1, 60_000), (16, 1, 100_000), (1, 64, 300_000), (4, 64, 300_000), (16, 64, 300_000)]


class Load:
    """The program that makes the load, and a site for the gate."""

    def __init__(self, folder):
        self.made_by, self.folder, self.site = f"{folder}/load", folder, open_site()
        subprocess.run(["cc", "-O2", "-pthread", "-o", self.made_by, f"{ROOT}/bench/load.c"], check=True)

    def row_of(self, process, words):
        """Returns requests a second, half and 99 of a hundred of the waits in microseconds, and the processor time that the
        process took for a request, in microseconds."""
        before = processor_time(process)
        ran = subprocess.run([self.made_by, *map(str, words)], capture_output=True, timeout=10 * SECONDS)
        if ran.returncode:
            sys.exit(ran.stderr.decode())
        requests, seconds, half, most = map(float, ran.stdout.split())
        return requests / seconds, half / 1e3, most / 1e3, 1e6 * (processor_time(process) - before) / requests

    def of_program(self, setting, *words):
        with Server("--workers", "16", *words) as server:
            with Session(server) as it:
                same(it.say(f"REFRESH {self.site.authority}"), f"TAKEN {self.site.authority} open")
            return self.row_of(server.process.pid, ["crawlgate", server.port, *setting, self.site.url("/x")])

    def of_redis(self, setting, *words):
        port = free_port()
        kept = words or ("--appendonly", "no")
        folder = tempfile.mkdtemp(dir=self.folder)
        words = ["redis-server", "--port", str(port), "--bind", HOST, "--save", "", *kept, "--dir", folder]
        process = subprocess.Popen(words, stdout=subprocess.DEVNULL)
        try:
            wait_for(port)
            return self.row_of(process.pid, ["redis", port, *setting, "-"])
        finally:
            process.kill()
            process.wait()
            shutil.rmtree(folder)


def processor_time(process):
    """Returns the seconds of processor time that a process has taken."""
    with open(f"/proc/{process}/stat") as file:
        fields = file.read().rpartition(") ")[2].split()
    return (int(fields[11]) + int(fields[12])) / os.sysconf("SC_CLK_TCK")


def wait_for(port):
    until = time.monotonic() + SECONDS
    while time.monotonic() < until:
        with contextlib.suppress(ConnectionRefusedError):
            return socket.create_connection((HOST, port)).close()
        time.sleep(0.02)
    sys.exit("redis-server does not begin")
