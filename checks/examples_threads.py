"""Cases of checks/examples with the client in Python for several threads."""
import sys
import threading
import time
from concurrent.futures import ThreadPoolExecutor

from lib.cases import same
from lib.example_sites import Sites
from lib.program import ROOT
from lib.server import SECONDS, Server
from lib.sites import Late


def silent_sites_hold_no_other_thread():
    """Threads with one Gates: two sites answer for their robots.txt only once all pages of the others have come."""
    sys.path.insert(0, f"{ROOT}/examples/clients")
    from crawlgate_threads import Gates

    def body_of(url):
        with gates.permit("foobot", url) as permit:
            return permit.open(SECONDS).read()

    come = threading.Event()
    silent = [Late(come, SECONDS / 2) for _ in range(2)]
    with Sites(6) as sites, Server() as server, Gates(str(server.port), 4) as gates, ThreadPoolExecutor(30) as threads:
        late = list(threads.map(lambda it: threads.submit(body_of, it.url("/")), silent * 2))
        same(list(threads.map(body_of, [sites.url("/", at) for at in range(6)] * 3)), [b"A page for everybody.\n"] * 18)
        same([it.done() for it in late], [False] * 4)
        come.set()
        same([it.result() for it in late], [b"late"] * 4)
        same(([it.in_time for it in silent], sites.asked.count("/robots.txt")), ([[True]] * 2, 6))
        # (a denied page, and the end of a Gates while a thread waits)
        same(error_of(body_of, sites.url("/private/letters.html")), "Denied")
        come.clear()
        late = threads.submit(error_of, body_of, Late(come, SECONDS / 2).url("/"))
        time.sleep(0.3)
        gates.close()
        same(late.result(SECONDS / 3), "ConnectionError")
        come.set()


def error_of(call, *words):
    try:
        return f"none, but {call(*words)!r}"
    except Exception as error:
        return type(error).__name__


CASES = [silent_sites_hold_no_other_thread]
