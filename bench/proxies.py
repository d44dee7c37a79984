"""What bench/http compares: the program and squid, each a proxy in front of the same nginx, and how ab loads them."""
import contextlib
import os
import re
import shutil
import subprocess
import tempfile

import figures
from load import processor_time, wait_for
from lib import tls
from lib.sites import HOST, free_port

PROGRAMS = ("nginx", "ab", "squid")
RULES = "User-agent: *\nDisallow: /private/\nAllow: /private/map\n"
NGINX = """
worker_processes 2;
pid {folder}/nginx.pid;
error_log {folder}/nginx.log;
daemon off;
events {{ worker_connections 8192; }}
http {{
  access_log off;
  keepalive_requests 1000000;
  client_body_temp_path {folder}/nginx; proxy_temp_path {folder}/nginx; fastcgi_temp_path {folder}/nginx;
  uwsgi_temp_path {folder}/nginx; scgi_temp_path {folder}/nginx;
  server {{ listen {host}:{port} backlog=4096; root {folder}/site; }}
}}
"""
# a forward proxy that keeps nothing and writes nothing
SQUID = """
http_port {host}:{port}
http_access allow all
cache deny all
cache_mem 0 MB
access_log none
cache_store_log none
cache_log {folder}/squid.log
pid_filename none
pinger_enable off
shutdown_lifetime 0 seconds
max_filedescriptors 16384
"""


def program(name):
    return shutil.which(name, path=f"{os.environ.get('PATH', '')}:/usr/sbin")


def missing():
    """Returns the names of the programs that are not installed."""
    return [it for it in PROGRAMS if not program(it)]


@contextlib.contextmanager
def started(words, port, folder):
    with open(f"{folder}/{os.path.basename(words[0])}.out", "wb") as out:
        process = subprocess.Popen(words, stdout=out, stderr=out)
    with tls.ended(process):
        wait_for(port)
        yield process


@contextlib.contextmanager
def site_of(sizes):
    """Has nginx serve a page of each size, and a robots.txt with rules, and gives its URL and a folder."""
    with tempfile.TemporaryDirectory() as folder:
        # (squid and nginx leave root behind)
        os.chmod(folder, 0o777)
        os.mkdir(f"{folder}/site")
        os.mkdir(f"{folder}/nginx")
        for name, text in [("robots.txt", RULES), *((str(size), "x" * size) for size in sizes)]:
            with open(f"{folder}/site/{name}", "w") as file:
                file.write(text)
        port = free_port()
        with open(f"{folder}/nginx.conf", "w") as file:
            file.write(NGINX.format(folder=folder, host=HOST, port=port))
        with started([program("nginx"), "-p", folder, "-c", f"{folder}/nginx.conf"], port, folder):
            yield f"http://{HOST}:{port}", folder


@contextlib.contextmanager
def squid(folder):
    """Has squid run, and gives its port and the number of its process."""
    port = free_port()
    with open(f"{folder}/squid.conf", "w") as file:
        file.write(SQUID.format(folder=folder, host=HOST, port=port))
    with started([program("squid"), "-N", "-f", f"{folder}/squid.conf"], port, folder) as process:
        yield port, process.pid


class Round:
    """What ab finds in a round: requests a second, half and 99 of a hundred of the waits in milliseconds, and the processor time
    of a process for a request, in microseconds."""

    def __init__(self, url, count, connections, proxy=None, process=None):
        before = process and processor_time(process)
        words = ["-X", f"{HOST}:{proxy}", "-P", "foobot:x"] if proxy else []
        words = [program("ab"), "-q", "-k", *words, "-c", str(connections), "-n", str(max(count, connections)), url]
        ran = subprocess.run(words, capture_output=True, text=True, timeout=300)
        found = lambda mark: re.search(rf"{mark} +([0-9.]+)", ran.stdout)
        if ran.returncode or float(found("Failed requests:")[1]) or found("Non-2xx responses:"):
            raise SystemExit(f"{' '.join(words)}: {ran.stdout[-900:]}{ran.stderr[-300:]}")
        self.rate = float(found("Requests per second:")[1])
        # (of one request ab tells no part)
        self.half, self.most = (float(it[1]) if it else None for it in (found("50%"), found("99%")))
        self.processor = process and 1e6 * (processor_time(process) - before) / max(count, connections)

    def cells(self):
        return [f"{self.rate:,.0f}", figures.figure(self.half), figures.figure(self.most), figures.figure(self.processor)]
