"""Cases of checks/fleet about which gate a request goes to."""
from front import FORMS, Talk, absolute, basic, by_path, head
from fleet import Fleet, Haproxy, Sites
from lib.cases import same
from lib.server import side_by_side

HOSTS, CLIENTS = 600, 6


def each_host_at_one_gate():
    """Six hundred hosts, asked for in both forms by clients that keep their connections, and over a second haproxy.
    Each host's robots.txt is fetched once, by one gate; no gate has much more than its share; and no denied page is
    fetched."""
    sites = Sites(HOSTS)
    with Fleet("--fetchers", "8") as fleet, Haproxy(fleet.folder, fleet.gates) as second:
        for front in (fleet.front, second):
            front.wait_for("gate01", "gate02", "gate03")
        side_by_side(lambda at: ask_all(fleet.front, sites, sites.hosts[at::CLIENTS]), range(CLIENTS))
        with Talk(second) as it:
            for host in sites.hosts[::10]:
                same(it.ask(absolute(sites.url(host))).status, 200)
        for front in (fleet.front, second):
            front.expect_no_death()
        shares = [it.hosts() for it in fleet.gates]
        same(sorted(host for it in shares for host in it), sorted(sites.hosts))
        counts = [len(it) for it in shares]
        assert HOSTS / 4 < min(counts) and max(counts) < HOSTS / 2, counts
        sites.expect_none_denied()
        same(sites.starts().total(), 2 * HOSTS + HOSTS // 10)
        fleet.expect_right(sites.starts().total())
    same(len([it for it in sites.requests if it[1] == "/robots.txt"]), HOSTS)
    return f"{' + '.join(map(str, counts))} hosts"


def ask_all(front, sites, hosts):
    """Has one connection ask for a page of each host in both forms, and for a denied one."""
    with Talk(front) as it:
        for at, host in enumerate(hosts):
            for form in FORMS:
                same(it.ask(form(sites.url(host))).outcome(), (200, None, "N norule"))
            denied = it.ask(FORMS[at % 2](sites.url(host, "/private/x")))
            same(denied.outcome(), (403, "http_request_denied", f"{host}:{sites.port} line 2"))


def spelled_otherwise():
    """What names a host in another way than the gate writes it is not fetched, whichever gate it goes to; what names
    none is refused by haproxy; and Host counts for nothing."""
    sites = Sites(1)
    host = f"127.1.0.1:{sites.port}"
    page, moved = f"http://{host}/x", f"http://LOCALHOST:{sites.port}/x"
    rows = [
        ("capitals", absolute(moved), 308), ("capitals by the path", by_path(moved), 308),
        ("fewer numbers", absolute(page.replace("127.1.0.1", "127.1.1")), 308),
        ("an escape", by_path(page.replace("127.1.0.1", "127%2e1.0.1")), 308),
        ("a user", by_path(page.replace("//", "//u@")), 400),
        ("one slash", by_path(page.replace("//", "/")), 308),
        ("three slashes", by_path(page.replace("//", "///")), 400),
        ("two slashes in front", by_path(f"/{page}"), 400),
        ("no host", head("/x", host="127.0.0.1"), 400), ("numbers", head("/metrics", host="127.0.0.1"), 400),
        ("an empty target", by_path(""), 400), ("CONNECT", head(host, basic(), host=host, method="CONNECT"), 405),
        ("another Host", absolute(page, host="other.example"), 400),
        ("another Host by the path", by_path(page, host="other.example"), 421),
        ("no Host", head(page, basic(), version="1.0"), 200),
        ("HTTP/1.0 by the path", by_path(page, version="1.0"), 200),
    ]
    with Fleet() as fleet:
        for name, octets, status in rows:
            same((name, fleet.front.ask(octets).status), (name, status))
        same([it for it in (gate.hosts() for gate in fleet.gates) if it], [{"127.1.0.1"}])
        fleet.expect_right(2)
    same(sites.requests, [("127.1.0.1", "/robots.txt")] + [("127.1.0.1", "/x")] * 2)


CASES = [each_host_at_one_gate, spelled_otherwise]
