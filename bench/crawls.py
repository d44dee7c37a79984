"""The site of bench/shift and bench/tls, and the programs that fetch its pages."""
import contextlib
import re
import subprocess
import sys
import time

import figures

SECONDS = 60


def build_site(folder):
    words = ["cc", "-O2", "-pthread", "-o", f"{folder}/site", f"{figures.ROOT}/bench/site.c"]
    subprocess.run(words, check=True)


@contextlib.contextmanager
def site_of(folder, octets, threads=16):
    """Has a site with pages of that many octets, and gives its authority. Each thread has one connection at a time."""
    words = [f"{folder}/site", str(threads), str(octets)]
    process = subprocess.Popen(words, stdout=subprocess.PIPE, text=True)
    try:
        yield f"127.0.0.1:{int(process.stdout.readline())}"
    finally:
        process.kill()
        process.communicate()


def run(words, given=b""):
    """Returns the seconds that a program takes, and what it writes."""
    began = time.perf_counter()
    ran = subprocess.run(words, input=given, capture_output=True, timeout=SECONDS)
    if ran.returncode:
        sys.exit(f"{words[0]}: status {ran.returncode}: {ran.stderr[:300]}")
    return time.perf_counter() - began, ran.stdout.decode()


class Crawl:
    """That many pages of a site, that many at a time, each over a connection of its own unless these are kept. The
    options are those of a shift and of curl that its scheme needs."""

    def __init__(self, program, folder, site, pages, workers, of_shift=(), of_curl=(), kept=False):
        self.program, self.folder, self.pages, self.workers = program, folder, pages, workers
        self.of_shift = [*of_shift, "--keep-alive"] if kept else of_shift
        self.of_curl = of_curl if kept else ["--header", "Connection: close", *of_curl]
        self.urls = [f"{site}/page{at}" for at in range(pages)]

    def by_program(self):
        given = "".join(f"foobot {it}\n" for it in self.urls).encode()
        seconds, report = run([self.program, "shift", "--workers", str(self.workers), *self.of_shift], given)
        if f"starts {self.pages}\n" not in report or "FAULT" in report:
            sys.exit(f"the shift went otherwise: {report[-200:]}")
        return self.pages / seconds

    def by_ab(self):
        words = ["ab", "-q", "-n", str(self.pages), "-c", str(self.workers), self.urls[0]]
        seconds, report = run(words)
        if not re.search(rf"Complete requests: +{self.pages}\n", report) or "Non-2xx" in report:
            sys.exit(f"ab went otherwise: {report}")
        return self.pages / seconds

    def by_curl(self):
        config = f"{self.folder}/urls"
        with open(config, "w") as file:
            file.writelines(f'url = "{it}"\noutput = "/dev/null"\n' for it in self.urls)
        words = ["curl", "--silent", "--fail", "--parallel", "--parallel-max", str(self.workers), "--config", config]
        return self.pages / run([*words, "--noproxy", "*", *self.of_curl])[0]
