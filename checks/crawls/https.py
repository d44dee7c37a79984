"""Crawls of https, by way of each program that opens TLS: the stand-in, and haproxy with the configuration that is
shipped, but for its port and its authorities, where it is installed. Both have the same sites and lines of a table."""
import asyncio
import contextlib
import socket
import subprocess
import tempfile

from headers import https_headers
from lib import tls
from lib.cases import Skipped
from lib.sites import reset
from ends import https_ends
from loopback import NO_ROBOTS, PAGE, AsyncSite, Replies, answer, crawl, redirect, whole

# what the table says of a job: outcome, status, octets, cause
GOOD = ("PAGE", "200", "5", "norule")
OPEN = ("PAGE", "200", "5", "open")
NO_TLS = ("NO", "", "", "robots: no TLS connection")
MUTE = ("NO", "", "", "robots: silent 2 s")
CUT = ("FAULT", "", "", "ended early")
DENIED = ("NO", "", "", "line 2")
LARGE = 300_000
LINES = "lines of a table of https"
RULES, DENY_ALL = (whole(b"user-agent: *\ndisallow: %s\n" % path) for path in (b"/private", b"/"))
# starts a program under another /etc/hosts that nobody else sees, which needs no rights but those to make a namespace
UNDER_HOSTS = [
    "unshare", "--map-root-user", "--mount", "sh", "-c", 'mount --bind "$1" /etc/hosts && shift && exec "$@"', "sh",
]


def moved(hop):
    return ("PAGE", "301", "0", hop[3])


class Ended(Replies):
    """A site whose page breaks off without TLS's own end of a connection."""

    async def __call__(self, site, writer, target):
        await super().__call__(site, writer, target)
        if target != "/robots.txt":
            await writer.drain()
            writer.transport.abort()


class Moved:
    """A site whose pages and robots.txt have all moved to another site, each to the target that it has here."""

    def __init__(self, to):
        self.to = to

    async def __call__(self, site, writer, target):
        writer.write(redirect(f"{self.to.scheme}://{self.to.address}{target}".encode()))


class Mute(AsyncSite):
    """A site that takes connections and never answers what opens TLS."""

    async def serve(self, reader, writer):
        self.robots += 1
        with contextlib.suppress(asyncio.CancelledError):
            await reader.read()
        writer.close()


class TwoSchemes:
    """A site of http and one of https at one port, so that their authorities differ in nothing but the scheme. What
    begins as TLS does goes to the latter."""

    def __init__(self, plain, secure, context):
        self.sites = {"http": AsyncSite(plain), "https": AsyncSite(secure)}
        self.context = context

    def listen(self):
        self.server = socket.create_server(("127.0.0.1", 0), backlog=512)
        self.server.setblocking(False)
        for scheme, site in self.sites.items():
            site.scheme, site.address = scheme, f"localhost:{self.server.getsockname()[1]}"
            site.server = self.server
        self.task = asyncio.create_task(self.take())

    async def take(self):
        while True:
            peer, _ = await asyncio.get_running_loop().sock_accept(self.server)
            asyncio.create_task(self.hand_over(peer))

    async def hand_over(self, peer):
        loop = asyncio.get_running_loop()
        peer.setblocking(True)
        first = await loop.run_in_executor(None, peer.recv, 1, socket.MSG_PEEK)
        # 22 begins a record of a handshake
        is_tls = first == b"\x16"
        site = self.sites["https" if is_tls else "http"]
        reader = asyncio.StreamReader()
        protocol = asyncio.StreamReaderProtocol(reader, site.serve)
        await loop.connect_accepted_socket(lambda: protocol, peer, ssl=self.context if is_tls else None)


def asked(site):
    """Returns how often a site was asked for its robots.txt, and the targets of pages that it was asked for."""
    return site.robots, sorted(site.targets)


def differing(text, ends):
    """Returns how many lines a table has, and how many differ from the hops that end each job."""
    rows = [tuple(line.split("\t")) for line in text.splitlines()[1:]]
    found = {(row[0], row[1]): (row[4], row[5], row[6], row[8]) for row in rows}
    wanted = {(str(job), str(hop)): end for job, (_, _, *hops) in enumerate(ends, 1) for hop, end in enumerate(hops, 1)}
    places = [it for it in sorted(found.keys() | wanted.keys()) if found.get(it) != wanted.get(it)]
    for place in places:
        print("  differs:", place, found.get(place), wanted.get(place))
    return len(rows), len(places)


async def table_of(ends, opener, folder, before=()):
    """Crawls the pages of ends, each a site, a target and its hops, and returns the lines and those that differ."""
    with opener(folder) as address:
        words = ["--tsv", "--workers", "16", "--read-timeout", "2", "--tls-by", address]
        text, _, _ = await crawl(words, [(site, target) for site, target, *_ in ends], before)
    return differing(text, ends)


def through(opener, *names):
    """Makes a crawl of a case: by this program that opens TLS, with certificates in a folder of its own. It is skipped
    where a program of these names is missing."""

    def made(case, what):
        async def crawled():
            why = tls.missing(*names)
            if why:
                raise Skipped(why)
            with tempfile.TemporaryDirectory() as folder:
                count, differ = await case(opener, folder, tls.make_certificates(folder))
            return f"of {count} {what}, those that differ", differ, 0

        crawled.__name__ = "_by_".join([case.__name__, *names])
        return crawled

    return made


async def take_one(listener):
    """Takes the connection that is made at the start, and no other."""
    peer, _ = await asyncio.get_running_loop().sock_accept(listener)
    listener.close()
    peer.close()


async def https_opener_gone():
    """What opens TLS is gone once the crawl has begun: the site of https is closed, and that of http is crawled. A name
    that nobody has is reported before it is missed."""
    secure, nowhere, plain = AsyncSite(answer), AsyncSite(answer), AsyncSite(answer)
    await plain.listen()
    for site, address in (secure, "localhost:1"), (nowhere, "a" * 64 + ".invalid"):
        site.scheme, site.address, site.server = "https", address, plain.server
    listener = socket.create_server(("127.0.0.1", 0))
    listener.setblocking(False)
    words = ["--tsv", "--tls-by", f"127.0.0.1:{listener.getsockname()[1]}"]
    ends = [
        (secure, "/x", ("NO", "", "", "robots: no TLS program")),
        (nowhere, "/x", ("NO", "", "", "robots: no such name")),
    ]
    ends += [(plain, "/x", OPEN), (plain, "/y", OPEN)]
    jobs = [(site, target) for site, target, _ in ends]
    text, _, _ = await crawl(words, jobs, meanwhile=asyncio.wait_for(take_one(listener), 10))
    count, differ = differing(text, ends)
    return f"of {count} {LINES}, those that differ", differ, 0


# what a program does with the request for a page, by the last octet of the page's address, and what is reported of it
SCRIPTS = {
    1: (PAGE, OPEN),
    # an end after one octet, and what is no HTTP
    2: (b"H", CUT),
    3: (b"220 mail.a.example ESMTP\r\n\r\n", ("FAULT", "", "", "bad head")),
    # the end of the connection, a reset, and nothing
    4: (b"", ("FAULT", "", "", "no TLS connection")),
    5: ("reset", ("FAULT", "", "", "no TLS connection")),
    6: (None, ("FAULT", "", "", "silent 2 s")),
}


class Opener:
    """What takes the place of a program that opens TLS, and connects to nobody: it answers by its scripts, and keeps
    what it was sent."""

    def __init__(self):
        self.seen = []

    async def serve(self, reader, writer):
        with contextlib.suppress(OSError, asyncio.IncompleteReadError):
            front = await reader.readexactly(16)
            header = front + await reader.readexactly(int.from_bytes(front[14:], "big"))
            request = await reader.readuntil(b"\r\n\r\n")
            self.seen.append((header, request))
            reply = NO_ROBOTS if b" /robots.txt " in request else SCRIPTS[header[19]][0]
            if reply == "reset":
                reset(writer.get_extra_info("socket"))
            elif reply is None:
                await reader.read()
            else:
                writer.write(reply)
                await writer.drain()
        writer.close()


def secure_site(address, server):
    site = AsyncSite(answer)
    site.scheme, site.address, site.server = "https", address, server
    return site


def sent(address, port, target, agent):
    """Returns what is sent for a page of an address of IPv4: the header of the PROXY protocol, version 2, sections 2.2
    and 2.2.2, and the request."""
    name = address.encode()
    octets = socket.inet_aton(address) * 2 + port.to_bytes(2, "big") * 2 + b"\x02" + len(name).to_bytes(2, "big") + name
    host = address if port == 443 else f"{address}:{port}"
    fields = [
        f"GET {target} HTTP/1.1", f"Host: {host}", f"User-Agent: {agent}", "Accept: */*", "Accept-Encoding: identity",
        "Connection: close", "", "",
    ]
    return b"\r\n\r\n\0\r\nQUIT\n\x21\x11" + len(octets).to_bytes(2, "big") + octets, "\r\n".join(fields).encode()


async def https_by_scripts():
    """How each way in which a program that opens TLS ends a connection is told, and all that it was sent. With --public
    nothing is sent for a page of this machine."""
    opener = Opener()
    server = await asyncio.start_server(opener.serve, "127.0.0.1", 0)
    words = [
        "--tsv", "--workers", "16", "--read-timeout", "2", "--tls-by",
        "127.0.0.1:%d" % server.sockets[0].getsockname()[1],
    ]
    sites = [secure_site(f"192.0.2.{it}", server) for it in SCRIPTS] + [secure_site("192.0.2.1:8443", server)]
    ends = [(site, "/x?q", told) for site, (_, told) in zip(sites, [*SCRIPTS.values(), SCRIPTS[1]])]
    kept, server.close = server.close, lambda: None
    text, _, _ = await crawl(words, [(site, target) for site, target, _ in ends])
    count, differ = differing(text, ends)
    places = [(f"192.0.2.{it}", 443) for it in SCRIPTS] + [("192.0.2.1", 8443)]
    wanted = [sent(*place, *it) for place in places for it in (("/robots.txt", "crawlgate"), ("/x?q", "foobot"))]
    assert sorted(opener.seen) == sorted(wanted), opener.seen
    opener.seen.clear()
    here = ("127.0.0.1", "[::1]:8443")
    near = [(secure_site(it, server), "/x", ("NO", "", "", "robots: unreachable")) for it in here]
    text, _, _ = await crawl([*words, "--public"], [(site, target) for site, target, _ in near])
    kept()
    more, others = differing(text, near)
    assert not opener.seen, opener.seen
    return f"of {count + more} {LINES}, those that differ", differ + others, 0


async def site_of(behave, context=None, kind=AsyncSite):
    """A site of 127.0.0.1 that is called localhost. Where that has another address too, nobody listens there."""
    site = kind(behave)
    await site.listen(context=context, name="localhost")
    return site


async def https(opener, folder, contexts):
    """Certificates that are good and bad, TLS that is too old, and sites that are silent or gone. No site saw a request
    whose certificate or whose TLS is bad."""
    good = await site_of(Replies(RULES, PAGE), contexts["good"])
    bad = [await site_of(Replies(RULES, PAGE), context) for kind, context in contexts.items() if kind != "good"]
    bad.append(await site_of(Replies(RULES, PAGE), tls.old_context(folder)))
    mute = await site_of(None, kind=Mute)
    mute.scheme = "https"
    gone = await site_of(answer, contexts["good"])
    gone.leave()
    ends = [(good, "/x", GOOD), (good, "/private", DENIED), (mute, "/x", MUTE)]
    counts = await table_of(ends + [(site, "/x", NO_TLS) for site in [*bad, gone]], opener, folder)
    assert [asked(site) for site in bad] == [(0, [])] * 4, [asked(site) for site in bad]
    assert asked(good) == (1, ["/x"]), asked(good)
    # (one connection, and no other once it was silent)
    assert mute.robots == 1, mute.robots
    return counts


async def https_pages(opener, folder, contexts):
    """A large page, pages that break off, with TLS's own end and without, and pages that lead to the other scheme."""
    page = b"HTTP/1.1 200 OK\r\nContent-Length: %d\r\n\r\n" % LARGE + bytes(LARGE)
    large = await site_of(Replies(NO_ROBOTS, page), contexts["good"])
    cut = [await site_of(kind(NO_ROBOTS, PAGE[:-2]), contexts["good"]) for kind in (Replies, Ended)]
    targets = [await site_of(answer), await site_of(answer, contexts["good"])]
    shut = await site_of(Replies(DENY_ALL, PAGE), contexts["good"])
    leads = [redirect(f"{it.scheme}://{it.address}/from-other".encode()) for it in [*targets, shut]]
    secure, plain = await site_of(
        Replies(NO_ROBOTS, leads[0]), contexts["good"],
    ), await site_of(Replies(NO_ROBOTS, leads[1]))
    # (its page leads to one that is denied; and a robots.txt of https leads to one of http, which is none)
    denied = await site_of(Replies(NO_ROBOTS, leads[2]))
    led = await site_of(Replies(redirect(f"http://{targets[0].address}/robots.txt".encode()), PAGE), contexts["good"])
    ends = [(large, "/x", ("PAGE", "200", str(LARGE), "open"))] + [(site, "/x", CUT) for site in cut]
    ends += [(site, "/y", moved(OPEN), OPEN) for site in (secure, plain)]
    ends += [(denied, "/y", moved(OPEN), DENIED), (led, "/y", OPEN)]
    counts = await table_of(ends, opener, folder)
    for site in [*targets, shut]:
        site.server.close()
    assert asked(shut) == (1, []), asked(shut)
    found = [asked(site) for site in (*cut, secure, plain, *targets)]
    assert found == [(1, ["/x"])] * 2 + [(1, ["/y"])] * 2 + [(2, ["/from-other"]), (1, ["/from-other"])], found
    return counts


async def https_moved(opener, folder, contexts):
    """A site of http that has moved to https, its robots.txt and each page. Its file is fetched once, and leads to that
    of https, which is fetched once more when its own pages come. Rules behind the redirect are those of the site of
    http too."""
    secure = await site_of(Replies(RULES, PAGE), contexts["good"])
    plain = await site_of(Moved(secure))
    targets = ["/", "/a", "/b?c=d"]
    ends = [(plain, target, moved(GOOD), GOOD) for target in targets]
    ends += [(plain, "/private", DENIED), (secure, "/private", DENIED)]
    counts = await table_of(ends, opener, folder)
    assert (asked(plain), asked(secure)) == ((1, targets), (2, targets)), (asked(plain), asked(secure))
    return counts


async def https_apart(opener, folder, contexts):
    """Two hosts, each of both schemes at one port: the robots.txt of one scheme allows, and that of the other denies.
    Each page is decided by the file of its own scheme."""
    files = [(NO_ROBOTS, DENY_ALL), (DENY_ALL, NO_ROBOTS)]
    hosts = [TwoSchemes(Replies(it, PAGE), Replies(other, PAGE), contexts["good"]) for it, other in files]
    for host in hosts:
        host.listen()
    (first, second), (third, fourth) = [host.sites.values() for host in hosts]
    ends = [(first, "/x", OPEN), (second, "/x", DENIED), (third, "/x", DENIED), (fourth, "/x", OPEN)]
    try:
        counts = await table_of(ends, opener, folder)
    finally:
        for host in hosts:
            host.task.cancel()
    found = [asked(site) for site in (first, second, third, fourth)]
    assert found == [(1, ["/x"]), (1, []), (1, []), (1, ["/x"])], found
    return counts


async def listen_with(site, address, take, **how):
    """Has a site listen at a port that can be taken at another address too, and returns what took it there."""
    for _ in range(50):
        await site.listen(address, **how)
        with contextlib.suppress(OSError):
            return await take(site.port)
        site.server.close()
    raise AssertionError("no port is free at two addresses")


async def held(address, port):
    """Returns what keeps a port at which nobody listens then."""
    keeper = socket.socket()
    try:
        keeper.bind((address, port))
    except OSError:
        keeper.close()
        raise
    return keeper


async def https_two_addresses(opener, folder, contexts):
    """A name with two addresses, by a hosts file that only the program sees: at one of them nobody listens, the first
    or the second, whichever the system tries first; or there is another certificate, and no request comes there."""
    hosts = f"{folder}/hosts"
    with open(hosts, "w") as file:
        file.write("127.0.0.1 localhost\n" + "".join(f"{it} {tls.TWO}\n" for it in ("127.0.0.1", "127.0.0.9")))
    before = [*UNDER_HOSTS, hosts]
    try:
        able = subprocess.run([*before, "true"], capture_output=True).returncode == 0
    except OSError:
        able = False
    if not able:
        raise Skipped("no namespace can be made for a hosts file")
    how, sites, keepers = {
        "context": contexts["good"], "name": tls.TWO,
    }, [AsyncSite(Replies(RULES, PAGE)) for _ in range(4)], []
    others = [AsyncSite(Replies(RULES, PAGE)) for _ in range(2)]
    addresses = (("127.0.0.1", "127.0.0.9"), ("127.0.0.9", "127.0.0.1"))
    for site, (address, other) in zip(sites[:2], addresses):
        keepers.append(await listen_with(site, address, lambda port, at=other: held(at, port), **how))
    for site, wrong, (address, other) in zip(sites[2:], others, addresses):
        take = lambda port, it=wrong, at=other: it.listen(at, port, contexts["self-signed"])
        await listen_with(site, address, take, **how)
    counts = await table_of([(site, "/x", GOOD) for site in sites], opener, folder, before)
    for other in others:
        other.server.close()
    for it in keepers:
        it.close()
    found = [asked(site) for site in sites + others]
    assert found == [(1, ["/x"])] * 4 + [(0, [])] * 2, found
    return counts


CASES = {
    https: LINES, https_pages: LINES, https_moved: LINES, https_apart: LINES, https_two_addresses: LINES,
    https_headers: "headers to what opens TLS",
}
OPENERS = [through(tls.by_stand_in), through(tls.by_haproxy, "haproxy")]
CRAWLS = [https_opener_gone, https_by_scripts, https_ends] + [
    made(case, what) for made in OPENERS for case, what in CASES.items()
]
