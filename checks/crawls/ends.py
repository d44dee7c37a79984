"""Where responses end over https. A program that opens TLS ends its connection alike where TLS was ended and where
somebody cut it, so a response that nothing else ends is no response (RFC 9112, sections 8 and 9.8)."""
import asyncio
import contextlib

from lib.sites import reset
from loopback import PAGE, AsyncSite, crawl, whole

RULES = b"user-agent: *\ndisallow: /private\n"
OPEN_ENDED = b"HTTP/1.1 200 OK\r\n\r\n" + RULES
CHUNKED = b"HTTP/1.1 200 OK\r\nTransfer-Encoding: chunked\r\n\r\n%x\r\n" % len(RULES) + RULES + b"\r\n"
LONG = b"HTTP/1.1 200 OK\r\n\r\n" + RULES + b"#" * 512_001
ALLOWED, DENIED = ("PAGE", "200", "5", "norule"), ("NO", "", "", "line 2")
CLOSED, RESET = ("NO", "", "", "robots: ended early"), ("NO", "", "", "robots: reset")
CUT = ("FAULT", "", "", "ended early")
# a name, a robots.txt, whether the connection is reset after it, a page, and what the table says of /x and of /private
ENDS = [
    ("neither length nor chunks", OPEN_ENDED, False, PAGE, (CLOSED, CLOSED)),
    ("neither, and a reset", OPEN_ENDED, True, PAGE, (RESET, RESET)),
    ("neither, but longer than what is read", LONG, False, PAGE, (ALLOWED, DENIED)),
    ("neither, and no octet of a body", b"HTTP/1.1 404 None\r\n\r\n", False, PAGE, (CLOSED, CLOSED)),
    ("a status without a body", b"HTTP/1.1 204 None\r\n\r\n", False, PAGE, (ALLOWED, ALLOWED)),
    ("the whole length", whole(RULES), False, PAGE, (ALLOWED, DENIED)),
    ("a length that is cut", whole(RULES)[:-1], False, PAGE, (CLOSED, CLOSED)),
    ("all chunks", CHUNKED + b"0\r\n\r\n", False, PAGE, (ALLOWED, DENIED)),
    ("all chunks and a trailer", CHUNKED + b"0\r\nA: b\r\n\r\n", False, PAGE, (ALLOWED, DENIED)),
    ("chunks without the last one", CHUNKED, False, PAGE, (CLOSED, CLOSED)),
    ("chunks without the last line", CHUNKED + b"0\r\n", False, PAGE, (CLOSED, CLOSED)),
    ("a page with neither", whole(RULES), False, b"HTTP/1.1 200 OK\r\n\r\nhello", (CUT, DENIED)),
]


class Ender:
    """What takes the place of a program that opens TLS: the last octet of the address in the header says which row of
    ENDS it answers by."""

    async def serve(self, reader, writer):
        with contextlib.suppress(OSError, asyncio.IncompleteReadError):
            front = await reader.readexactly(16)
            header = front + await reader.readexactly(int.from_bytes(front[14:], "big"))
            request = await reader.readuntil(b"\r\n\r\n")
            _, robots, is_reset, page, _ = ENDS[header[19]]
            is_robots = b" /robots.txt " in request
            writer.write(robots if is_robots else page)
            await writer.drain()
            if is_robots and is_reset:
                # (once the octets have been read)
                await asyncio.sleep(0.3)
                reset(writer.get_extra_info("socket"))
        writer.close()


def told(text):
    """Returns what a table says of each job: outcome, status, octets, cause."""
    rows = [line.split("\t") for line in text.splitlines()[1:]]
    return [tuple(row[at] for at in (4, 5, 6, 8)) for row in sorted(rows, key=lambda row: int(row[0]))]


async def https_ends():
    """Over https the end of a connection ends no response: a site whose robots.txt has neither a length nor chunks is
    closed, and over http its rules are read. What is not cut, and what is over the limit, is read over both."""
    server = await asyncio.start_server(Ender().serve, "127.0.0.1", 0)
    opener = "127.0.0.1:%d" % server.sockets[0].getsockname()[1]
    jobs, wanted = [], []
    for at, (_, _, _, _, ends) in enumerate(ENDS):
        site = AsyncSite(None)
        site.scheme, site.address, site.server = "https", f"192.0.2.{at}", server
        jobs += [(site, "/x"), (site, "/private")]
        wanted += ends
    kept, server.close = server.close, lambda: None
    found = told((await crawl(["--tsv", "--read-timeout", "2", "--tls-by", opener], jobs))[0])
    kept()
    differ = [(ENDS[at // 2][0], it, end) for at, (it, end) in enumerate(zip(found, wanted)) if it != end]
    for name, it, end in differ:
        print("  differs:", name, it, end)
    assert len(found) == len(wanted), found
    plain = AsyncSite(open_ended)
    await plain.listen()
    over_http = told((await crawl(["--tsv"], [(plain, "/x"), (plain, "/private")]))[0])
    assert over_http == [ALLOWED, DENIED], over_http
    return f"of {len(found)} lines of a table of ends, those that differ", len(differ), 0


async def open_ended(site, writer, target):
    """Over http the end of the connection ends the robots.txt."""
    writer.write(OPEN_ENDED if target == "/robots.txt" else PAGE)
