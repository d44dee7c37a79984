"""What the crawls of checks/crawls are made with: sites on the loopback, what they answer, and a shift over them."""
import asyncio
import socket
import time

from lib.costly import FEW_RUNS
from lib.server import Server
from lib.sites import reset

NO_ROBOTS = b"HTTP/1.1 404 None\r\nContent-Length: 0\r\n\r\n"
PAGE = b"HTTP/1.1 200 OK\r\nContent-Length: 5\r\n\r\nhello"
RULES = b"HTTP/1.1 200 OK\r\n\r\nuser-agent: *\ndisallow: /private\n"
# how long a slow server drips or hangs, in seconds
SLOW = 3.0


async def answer(site, writer, target):
    """A site without a robots.txt, and a page for every other target."""
    writer.write(NO_ROBOTS if target == "/robots.txt" else PAGE)


def whole(body):
    """A response with the length of its body."""
    return b"HTTP/1.1 200 OK\r\nContent-Length: %d\r\n\r\n" % len(body) + body


def redirect(location):
    return b"HTTP/1.1 301 On\r\nLocation: " + location + b"\r\nContent-Length: 0\r\n\r\n"


class AsyncSite:
    """A site on a port of its own, the moments at which it was asked for its pages and for all, and by which agents."""

    scheme = "http"

    def __init__(self, behave):
        self.behave, self.pages, self.targets, self.robots, self.agents = behave, [], [], 0, set()
        self.moments = []

    async def listen(self, host="127.0.0.1", port=0, context=None, name=None):
        """With a context of TLS it is a site of https. Its URLs have a name, where one is given, in place of the
        address."""
        self.server = await asyncio.start_server(self.serve, host, port, backlog=512, ssl=context)
        self.port = self.server.sockets[0].getsockname()[1]
        self.address = f"{name or host}:{self.port}"
        self.scheme = "https" if context else "http"

    def leave(self):
        """Listens no more. Its port stays taken, so that no other check listens there."""
        self.server.close()
        self.server = socket.socket()
        self.server.bind(("127.0.0.1", self.port))

    async def serve(self, reader, writer):
        try:
            head = await reader.readuntil(b"\r\n\r\n")
            target = head.split(b" ")[1].decode()
            self.agents.add((target, head.partition(b"User-Agent: ")[2].partition(b"\r\n")[0].decode()))
            self.moments.append(time.monotonic())
            if target == "/robots.txt":
                self.robots += 1
            else:
                self.pages.append(time.monotonic())
                self.targets.append(target)
            await self.behave(self, writer, target)
            await writer.drain()
        except (OSError, asyncio.IncompleteReadError, asyncio.CancelledError, asyncio.TimeoutError):
            pass
        finally:
            writer.close()


async def sites_of(*behaviours):
    sites = [AsyncSite(it) for it in behaviours]
    for site in sites:
        await site.listen()
    return sites


async def crawl(words, jobs, before=(), meanwhile=None):
    """Does the jobs, and returns the report and the seconds that it took. The words before start the program; what is
    to happen meanwhile has happened before it gets the jobs."""
    began = time.monotonic()
    process = await asyncio.create_subprocess_exec(
        *before, Server.program, "shift", *words, stdin=asyncio.subprocess.PIPE, stdout=asyncio.subprocess.PIPE,
        stderr=asyncio.subprocess.PIPE
    )
    if meanwhile:
        await meanwhile
    lines = "".join(f"foobot {site.scheme}://{site.address}{target}\n" for site, target in jobs)
    report, told = await process.communicate(lines.encode())
    assert all(" is closed: robots: " in line for line in told.decode().splitlines()), told
    for site in {id(site): site for site, _ in jobs}.values():
        site.server.close()
    return report.decode(), time.monotonic() - began, began


class Replies:
    """A site whose robots.txt and page are these octets; a page of None hangs, and an empty one is reset."""

    def __init__(self, robots, page):
        self.replies = {"/robots.txt": robots}
        self.page = page

    async def __call__(self, site, writer, target):
        reply = self.replies.get(target, self.page)
        if reply is None:
            await asyncio.sleep(4 * SLOW)
        elif not reply:
            # unread octets and no wait for those unsent: the connection is reset
            reset(writer.get_extra_info("socket"))
        elif callable(reply):
            await reply(writer)
        else:
            writer.write(reply)


async def drip_on(writer):
    """An octet of a page every tenth of a second."""
    writer.write(b"HTTP/1.1 200 OK\r\n\r\n")
    for _ in range(int(SLOW * 20)):
        await asyncio.sleep(0.1)
        writer.write(b"#")
        await writer.drain()


async def drip(site, writer, target):
    """The robots.txt comes an octet at a time."""
    if target != "/robots.txt":
        return await answer(site, writer, target)
    writer.write(b"HTTP/1.1 200 OK\r\n\r\n")
    for _ in range(int(SLOW * 10)):
        await asyncio.sleep(0.1)
        writer.write(b"#")
        await writer.drain()


async def hang(site, writer, target):
    """Nothing comes of a robots.txt."""
    if target != "/robots.txt":
        return await answer(site, writer, target)
    await asyncio.sleep(SLOW)


async def hang_at_last(site, writer, target):
    """Nothing comes of the page `/last`."""
    if target != "/last":
        return await answer(site, writer, target)
    await asyncio.sleep(4 * SLOW)


async def lead_on(site, writer, target):
    """The robots.txt is behind slow redirects."""
    if target not in ("/robots.txt", "/1", "/2"):
        return await answer(site, writer, target)
    await asyncio.sleep(SLOW / 3)
    following = {"/robots.txt": "/1", "/1": "/2", "/2": "/3"}[target]
    writer.write(f"HTTP/1.1 302 On\r\nLocation: {following}\r\nContent-Length: 0\r\n\r\n".encode())


async def linger(site, writer, target):
    """A page takes a while."""
    if target != "/robots.txt":
        await asyncio.sleep(0.02)
    await answer(site, writer, target)


async def keep_open(site, writer, target):
    """A whole page, after which the connection stays open."""
    await answer(site, writer, target)
    if target != "/robots.txt":
        await writer.drain()
        await asyncio.sleep(SLOW)


async def bind(site, writer, target):
    """Rules that cost much to match: each has runs that stand in the path, and no two runs are the same."""
    if target != "/robots.txt":
        return await answer(site, writer, target)
    writer.write(b"HTTP/1.1 200 OK\r\nContent-Length: %d\r\n\r\n" % len(FEW_RUNS) + FEW_RUNS)


async def turn_aside(site, writer, target):
    """The page `/x` is a redirect to `/y`."""
    if target != "/x":
        return await answer(site, writer, target)
    writer.write(b"HTTP/1.1 302 On\r\nLocation: /y\r\nContent-Length: 0\r\n\r\n")


async def be_mixed(site, writer, target):
    """Pages, redirects, pages that are denied, and ones that break off."""
    if target == "/robots.txt":
        rules = b"user-agent: *\ndisallow: /private\n"
        writer.write(b"HTTP/1.1 200 OK\r\nContent-Length: %d\r\n\r\n" % len(rules) + rules)
    elif target.startswith("/moved"):
        writer.write(b"HTTP/1.1 302 On\r\nLocation: /new%s\r\nContent-Length: 0\r\n\r\n" % target[6:].encode())
    elif target.startswith("/hidden"):
        writer.write(b"HTTP/1.1 301 On\r\nLocation: /private/x\r\nContent-Length: 0\r\n\r\n")
    elif target.startswith("/broken"):
        writer.write(PAGE[:-2])
    else:
        await answer(site, writer, target)
