"""What is written to a program that opens TLS, octet by octet: which headers it takes and which it refuses. No crawl is
in it; it shows that the stand-in is as strict as haproxy with the configuration that is shipped."""
import asyncio
import contextlib
import socket
import struct

from loopback import PAGE, AsyncSite, Replies

SIGNATURE = bytes([13, 10, 13, 10, 0, 13, 10, 81, 85, 73, 84, 10])
REQUEST = b"GET /page HTTP/1.1\r\nHost: localhost\r\nConnection: close\r\n\r\n"
AUTHORITY, UNIQUE, PROTOCOL = 0x02, 0x05, 0x01
SECONDS = 10


def field(kind, value):
    return struct.pack("!BH", kind, len(value)) + value


NAME = field(AUTHORITY, b"localhost")


def header(port, address="127.0.0.1", fields=NAME, signature=SIGNATURE, command=0x21, family=None):
    """Returns a header as the PROXY protocol, version 2, has it in sections 2.2 and 2.2.2, but for what is given
    otherwise."""
    is_six = ":" in address
    octets = socket.inet_pton(socket.AF_INET6 if is_six else socket.AF_INET, address)
    rest = octets + octets + struct.pack("!HH", port, port) + fields
    if family is None:
        family = 0x21 if is_six else 0x11
    return signature + struct.pack("!BBH", command, family, len(rest)) + rest


def refused(port):
    """Returns octets that are no header, or lead to no site whose certificate is good."""
    return {
        "another signature": header(port, signature=SIGNATURE[:-1] + b"\r"),
        "version 1": b"PROXY TCP4 127.0.0.1 127.0.0.1 %d %d\r\n" % (port, port),
        "version 3": header(port, command=0x31),
        "the command LOCAL": header(port, command=0x20),
        "another command": header(port, command=0x22),
        "no family": header(port, family=0x00),
        "UDP": header(port, family=0x12),
        "addresses that are cut": header(port, family=0x21),
        "no field": header(port, fields=b""),
        "no name": header(port, fields=field(PROTOCOL, b"localhost")),
        "an empty name": header(port, fields=field(AUTHORITY, b"")),
        "NUL for a name": header(port, fields=field(AUTHORITY, b"\0")),
        "a name that begins with NUL": header(port, fields=field(AUTHORITY, b"\0localhost")),
        "a field past the end": header(port, fields=struct.pack("!BH", AUTHORITY, 99) + b"localhost"),
        "another name": header(port, fields=field(AUTHORITY, b"other.example")),
        "a name that goes on": header(port, fields=field(AUTHORITY, b"localhost.other.example")),
        "no header": b"",
    }


async def reply_to(address, octets):
    """Returns what comes for a header with a request after it."""
    host, port = address.split(":")
    reader, writer = await asyncio.open_connection(host, int(port))
    with contextlib.closing(writer), contextlib.suppress(ConnectionError):
        writer.write(octets + REQUEST)
        return await asyncio.wait_for(reader.read(), SECONDS)
    return b""


async def https_headers(opener, folder, contexts):
    """A good header has the page for a reply. What is none ends the connection with no octet, and the site sees
    nothing."""
    sites = []
    for address in ("127.0.0.1", "::1"):
        # (some machines have no address of version 6)
        with contextlib.suppress(OSError):
            sites.append((address, AsyncSite(Replies(PAGE, PAGE))))
            await sites[-1][1].listen(address, context=contexts["good"])
    sites = [(address, site) for address, site in sites if hasattr(site, "port")]
    tried = [("good", header(site.port, address), PAGE, site) for address, site in sites]
    site = sites[0][1]
    more = header(site.port, fields=field(UNIQUE, b"1") + NAME)
    tried.append(("a field before the name", more, PAGE, site))
    tried += [(name, octets, b"", site) for name, octets in refused(site.port).items()]
    differ = 0
    with opener(folder) as address:
        for name, octets, wanted, site in tried:
            before = len(site.pages)
            got = await reply_to(address, octets)
            if got != wanted or len(site.pages) - before != bool(wanted):
                print("  differs:", name, got, f"with {len(site.pages) - before} requests")
                differ += 1
    for _, site in sites:
        site.server.close()
    return len(tried), differ
