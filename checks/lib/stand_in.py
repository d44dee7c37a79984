#!/usr/bin/env python3
"""A stand-in for haproxy by packaging/haproxy.cfg, for checks on machines that have none: the program that opens TLS
for `crawlgate --tls-by`.

usage: stand_in.py AUTHORITIES [PORT]

It writes the address and the port of 127.0.0.1 at which it listens. Of each connection it reads a header as the PROXY
protocol, version 2, has it in sections 2.2 and 2.2.2, opens TLS to the address there, checks the certificate for the
name there by the file of authorities, and relays octets both ways. What is no such header, and a site with no good TLS,
ends the connection with no octet; a line on standard error says why. It is no program for the open web: it has no
bounds.
"""
import asyncio
import socket
import ssl
import struct
import sys

SIGNATURE = b"\r\n\r\n\0\r\nQUIT\n"
# version 2 and the command PROXY
PROXY = 0x21
# TCP over IPv4 and over IPv6, each with the octets of an address
FAMILIES = {0x11: (socket.AF_INET, 4), 0x21: (socket.AF_INET6, 16)}
# the type of the field that has the name of the site
AUTHORITY = 0x02
# how long a site may take to connect and to open TLS, in seconds, as packaging/haproxy.cfg has it
SECONDS = 10
PIECE = 65_536


def name_of(fields):
    """Returns the name of the site in the fields after the addresses."""
    names = []
    while fields:
        if len(fields) < 3:
            raise ValueError("a field without its length")
        kind, length = struct.unpack("!BH", fields[:3])
        value, fields = fields[3 : 3 + length], fields[3 + length :]
        if len(value) < length:
            raise ValueError("a field that is cut")
        if kind == AUTHORITY:
            names.append(value)
    if len(names) != 1 or not 1 <= len(names[0]) <= 255:
        raise ValueError("no name, or more than one")
    return names[0].decode("ascii")


async def read_header(reader):
    """Returns the address and the port to connect to, and the name of the site."""
    if await reader.readexactly(len(SIGNATURE)) != SIGNATURE:
        raise ValueError("another signature")
    command, family, length = struct.unpack("!BBH", await reader.readexactly(4))
    if command != PROXY or family not in FAMILIES:
        raise ValueError(f"another version, command or family: {command:#04x} {family:#04x}")
    rest = await reader.readexactly(length)
    kind, size = FAMILIES[family]
    # the source address, the target's, the source port, the target's
    if length < 2 * size + 4:
        raise ValueError("addresses that are cut")
    (port,) = struct.unpack("!H", rest[2 * size + 2 : 2 * size + 4])
    return socket.inet_ntop(kind, rest[size : 2 * size]), port, name_of(rest[2 * size + 4 :])


async def copy(reader, writer):
    while piece := await reader.read(PIECE):
        writer.write(piece)
        await writer.drain()


async def relay(one, other):
    """Relays octets both ways, until one of the two ends."""
    ways = [asyncio.create_task(copy(one[0], other[1])), asyncio.create_task(copy(other[0], one[1]))]
    done, left = await asyncio.wait(ways, return_when=asyncio.FIRST_COMPLETED)
    for way in left:
        way.cancel()
    for way in done:
        way.result()


class StandIn:
    def __init__(self, authorities):
        self.context = ssl.create_default_context(cafile=authorities)
        self.context.minimum_version = ssl.TLSVersion.TLSv1_2

    async def serve(self, reader, writer):
        site = None
        try:
            address, port, name = await read_header(reader)
            words = {"ssl": self.context, "server_hostname": name}
            site = await asyncio.wait_for(asyncio.open_connection(address, port, **words), SECONDS)
            await relay((reader, writer), site)
        except (ValueError, OSError, EOFError, asyncio.TimeoutError) as error:
            print(f"{type(error).__name__}: {error}", file=sys.stderr, flush=True)
        finally:
            for it in filter(None, [site and site[1], writer]):
                it.close()


async def main(given):
    if not 1 <= len(given) <= 2:
        sys.exit(__doc__)
    stand_in = StandIn(given[0])
    server = await asyncio.start_server(stand_in.serve, "127.0.0.1", int(given[1]) if given[1:] else 0, backlog=512)
    print("{}:{}".format(*server.sockets[0].getsockname()), flush=True)
    await server.serve_forever()


if __name__ == "__main__":
    asyncio.run(main(sys.argv[1:]))
