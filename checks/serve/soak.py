"""The soak of checks/serve: sixteen clients that come, fetch and go, well or badly, for as long as is said. It prints
what memory the server takes as its history grows, which has room for a million entries: for an hour's worth of them at
the pace that is set here.
"""
import random
import threading
import time

from lib.cases import same
from lib.server import Server, Session
from lib.sites import open_site

CLIENTS, ENTRIES, REPORTS = 16, 900_000, 12


class Count:
    """How many entries the clients know to have been made, and how many sessions there were."""

    def __init__(self):
        self.lock, self.entries, self.sessions = threading.Lock(), 0, 0

    def add(self, entries, sessions):
        with self.lock:
            self.entries += entries
            self.sessions += sessions


def play(server, url, dice, pause, count):
    """A session of some fetches; at its end it quits, resets, or goes away with a permit out."""
    entries = 0
    with Session(server) as it:
        for _ in range(dice.randrange(1, 20)):
            number = it.say(f"ASK foobot {url}").split()[1]
            same(it.say(f"START {number} foobot {url}"), f"GO {number} open")
            same(it.say(f"DONE {number}"), f"DONE {number}")
            entries += 3
            time.sleep(pause)
        end = dice.choice(["quit", "reset", "leave"])
        if end == "quit":
            same(it.say("QUIT"), "BYE")
        else:
            it.say(f"ASK foobot {url}")
            entries += 2
            if end == "reset":
                it.reset()
    count.add(entries, 1)


def play_on(server, url, seed, until, pause, count):
    dice = random.Random(seed)
    while time.monotonic() < until:
        play(server, url, dice, pause, count)


def main(seconds):
    site, count, began = open_site(), Count(), time.monotonic()
    pause = 3 * CLIENTS * seconds / ENTRIES
    with Server("--workers", str(CLIENTS), "--endless") as server:
        with Session(server) as it:
            same(it.say(f"REFRESH {site.authority}"), f"TAKEN {site.authority} open")
        words = [(server, site.url("/x"), seed, began + seconds, pause, count) for seed in range(CLIENTS)]
        clients = [threading.Thread(target=play_on, args=it) for it in words]
        first, base = server.resident(), count.entries
        for it in clients:
            it.start()
        for at in range(REPORTS):
            time.sleep(max(0.0, began + seconds * (at + 1) / REPORTS - time.monotonic()))
            memory, entries = server.resident(), count.entries
            each = (memory - first) / max(1, entries - base)
            print(
                f"{time.monotonic() - began:6.0f} s  {count.sessions:8,} sessions {entries:10,} entries "
                f"{memory / 1e6:8.1f} MB {each:6.0f} octets an entry",
                flush=True,
            )
        for it in clients:
            it.join()
        same(server.process.poll(), None)
    return 0
