"""Cases of checks/fleet about gates that fail: killed and started again, stopped, and busy with slow sites."""
import itertools
import signal
import threading
import time
from collections import Counter

from fleet import Fleet, Sites
from front import FORMS, Talk, absolute
from lib.cases import in_time, same
from lib.server import SECONDS, side_by_side
from lib.sites import response

HOSTS, CRAWLERS = 90, 4
NAMES = ("gate01", "gate02", "gate03")


class Crawl:
    """Crawlers that ask for a page of one host after the other, each request on a connection of its own, until they are
    ended. It counts the requests of each host, and the statuses that its answers have."""

    def __init__(self, front, sites):
        self.front, self.sites = front, sites
        self.asked, self.statuses, self.ends, self.lock = Counter(), Counter(), threading.Event(), threading.Lock()

    def __enter__(self):
        parts = [self.sites.hosts[at::CRAWLERS] for at in range(CRAWLERS)]
        self.threads = [threading.Thread(target=self.play, args=(it,)) for it in parts]
        for it in self.threads:
            it.start()
        return self

    def __exit__(self, *_):
        self.ends.set()
        for it in self.threads:
            it.join(SECONDS)

    def play(self, hosts):
        for at, host in enumerate(itertools.cycle(hosts)):
            if self.ends.is_set():
                return
            status = self.front.ask(FORMS[at % 2](self.sites.url(host))).status
            with self.lock:
                self.asked[host] += 1
                self.statuses[host, status] += 1

    def wait_for_rounds(self, count):
        """Waits until each host was asked that many times more."""
        wanted = {host: self.asked[host] + count for host in self.sites.hosts}
        until = time.monotonic() + 2 * SECONDS
        while any(self.asked[host] < number for host, number in wanted.items()):
            assert time.monotonic() < until, "the crawl does not go on"
            time.sleep(0.1)

    def statuses_of(self, hosts):
        return {status for host, status in self.statuses if host in hosts}


def killed_and_back():
    """A gate is killed in the midst of a crawl, and started again with its journal. Its hosts move to the other two and
    come back; no other host moves or fails; no request is sent twice; and no denied page is fetched."""
    sites = Sites(HOSTS)
    with Fleet("--fetchers", "8") as fleet:
        first, second, third = fleet.gates
        fleet.front.wait_for(*NAMES)
        with Crawl(fleet.front, sites) as crawl:
            crawl.wait_for_rounds(1)
            own = [it.hosts() for it in fleet.gates]
            second.kill()
            noticed = fleet.front.wait_for("gate01", "gate03")
            crawl.wait_for_rounds(1)
            moved = [first.hosts() - own[0], third.hosts() - own[2]]
            second.start()
            fleet.front.wait_for(*NAMES)
            crawl.wait_for_rounds(1)
            before = {it: second.starts(it) for it in own[1]}
            crawl.wait_for_rounds(1)
        same(sorted(map(sorted, [moved[0] | moved[1], moved[0] & moved[1]])), sorted([sorted(own[1]), []]))
        same([it.hosts() for it in fleet.gates], [own[0] | moved[0], own[1], own[2] | moved[1]])
        assert all(second.starts(host) > count for host, count in before.items()), "a host did not come back"
        same(crawl.statuses_of(own[0] | own[2]), {200})
        assert crawl.statuses_of(own[1]) <= {200, 502, 503}, crawl.statuses
        sites.expect_none_denied()
        expect_each_start_asked_for(fleet, sites, crawl)
    lost = sum(count for (_, status), count in crawl.statuses.items() if status != 200)
    return f"{len(own[1])} hosts moved after {noticed:.1f} s, {lost} of {crawl.asked.total()} requests failed meanwhile"


def expect_each_start_asked_for(fleet, sites, crawl):
    """Each page that a site was asked for has a start, and was asked for by a request of its own."""
    fetched = sites.starts()
    assert all(fetched[host] <= crawl.asked[host] for host in sites.hosts), "a request was sent twice"
    # (a gate that is killed between the start and the fetch leaves a start without a fetch)
    starts = sum(it.starts(host) for it in fleet.gates for host in sites.hosts)
    same(fetched.total() <= starts <= fetched.total() + CRAWLERS, True)
    fleet.expect_right(starts)


def stopped():
    """A gate that takes connections and answers nothing is noticed by its checks, and its hosts move until it goes
    on."""
    sites = Sites(HOSTS)
    with Fleet(replaced={"timeout check 10s": "timeout check 2s"}) as fleet:
        gate = fleet.gates[1]
        fleet.front.wait_for(*NAMES)
        host = next(it for it in sites.hosts if fleet.owner(sites, it) == 1)
        gate.process.send_signal(signal.SIGSTOP)
        try:
            noticed = fleet.front.wait_for("gate01", "gate03")
            assert fleet.owner(sites, host) != 1, "the host did not move"
        finally:
            gate.process.send_signal(signal.SIGCONT)
        fleet.front.wait_for(*NAMES)
        same(fleet.owner(sites, host), 1)
    return f"after {noticed:.1f} s"


class SlowSites(Sites):
    """Sites with a page that comes once an event is set."""

    def __init__(self, count):
        self.event = threading.Event()
        super().__init__(count)

    def page(self, target):
        if target == "/slow":
            self.event.wait(SECONDS)
            return response(200, b"slow")
        return super().page(target)


def busy():
    """All fetchers of all gates wait for slow sites. No gate is taken for dead, no host moves, and each request that
    waits is answered once the sites are."""
    sites = SlowSites(24)
    with Fleet("--fetchers", "2", replaced={"timeout check 10s": "timeout check 2s"}) as fleet:
        fleet.front.wait_for(*NAMES)
        own = {host: fleet.owner(sites, host) for host in sites.hosts}
        same(set(own.values()), {0, 1, 2})
        talks = [Talk(fleet.front) for _ in sites.hosts]
        for it, host in zip(talks, sites.hosts):
            it.send(absolute(sites.url(host, "/slow")))
        # (three checks that wait for a fetcher would have failed by then)
        until = time.monotonic() + 14
        while time.monotonic() < until:
            same(fleet.front.alive(), list(NAMES))
            time.sleep(0.2)
        sites.event.set()
        same([it.answer().status for it in talks], [200] * len(talks))
        same({host: fleet.owner(sites, host) for host in sites.hosts}, own)
        fleet.expect_right(3 * len(sites.hosts))


def one_delay():
    """With --delay a host is visited that far apart, whichever client asks and in whichever form: its delay is at one
    gate. After that gate is killed the delay counts anew at another one, and the site has evidence in two histories."""
    sites = Sites(1)
    host = sites.hosts[0]
    with Fleet("--delay", "3") as fleet:
        fleet.front.wait_for(*NAMES)
        began = time.monotonic()
        answers = side_by_side(lambda at: fleet.front.ask(FORMS[at % 2](sites.url(host))).status, range(3))
        same(answers, [200] * 3)
        in_time(time.monotonic() - began, 20, 5.9)
    with Fleet("--delay", "600") as fleet:
        fleet.front.wait_for(*NAMES)
        owner = fleet.owner(sites, host)
        fleet.gates[owner].kill()
        fleet.front.wait_for(*(it for at, it in enumerate(NAMES) if at != owner))
        assert fleet.owner(sites, host) != owner, "the host did not move"
        said, status = fleet.evidence("starts", f"{host}:{sites.port}")
        same((said.splitlines()[-1], status), (f"SITE {host}:{sites.port} gates 2 starts 2", 0))
        fleet.expect_right(2)


CASES = [killed_and_back, stopped, busy, one_delay]
