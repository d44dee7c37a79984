#!/usr/bin/env python3
"""Crawls of the public internet in a network of their own, where addresses that are none of it lead to a site, and one
that is.

usage: inside.py PROGRAM, in a new network, of which it is root. The checks start it so.
"""
import asyncio
import os
import shutil
import socket
import subprocess
import sys
import time
import types

sys.dont_write_bytecode = True
sys.path.append(os.path.dirname(os.path.dirname(os.path.realpath(__file__))))
from lib.cases import Skipped
from lib.server import Server
from loopback import PAGE, AsyncSite, answer, crawl, redirect

IN_NETWORK = ["unshare", "--map-root-user", "--net"]
# addresses of this machine that are of the public internet
OWN = ["93.184.215.14", "2606:4700::1111"]
# an address of a site of the public internet, to which this machine would send from one of its own
PUBLIC = "2a00:1450::5"
# what is not of the public internet, and leads here none the less
INNER = [
    "64:ff9b::a9fe:a9fe", "64:ff9b::a00:1", "64:ff9b::7f00:1", "64:ff9b:1::a00:1", "2002:a00:1::1", "2002:7f00:1::1",
    "2001:0:a00:1::1", "::ffff:0:7f00:1", "192.0.0.192", "192.0.2.1", "198.18.0.1", "192.88.99.1", "198.51.100.1",
    "203.0.113.7", "2001:db8::1", "100::1", "5f00::1", "3fff::1", "fec0::1", "fd00::1", "10.0.0.1", "169.254.169.254",
]
UNREACHABLE, OPEN = ("NO", "robots: unreachable"), ("PAGE", "open")


def network():
    """Makes this network: loopback, which all those addresses lead to."""
    subprocess.run(["ip", "link", "set", "lo", "up"], check=True)
    for it in [*OWN, "2606:4700::2222"]:
        subprocess.run(["ip", "address", "add", it, "dev", "lo", *(["nodad"] if ":" in it else [])], check=True)
    for it in [*INNER, PUBLIC]:
        family = "-6" if ":" in it else "-4"
        subprocess.run(["ip", family, "route", "add", "local", it, "dev", "lo"], check=True)
    for it in [*OWN, "2606:4700::2222"]:
        wait_for(it)


def wait_for(address):
    """Waits until this network has an address that was added: of IPv6 that is done by a thread of the system."""
    family = socket.AF_INET6 if ":" in address else socket.AF_INET
    for _ in range(500):
        with socket.socket(family, socket.SOCK_STREAM) as it:
            try:
                it.bind((address, 0))
                return
            except OSError:
                time.sleep(0.02)


async def be_led(site, writer, target):
    """Its robots.txt redirects to an address inside."""
    writer.write(redirect(b"http://[64:ff9b::7f00:1]:%d/r" % site.port) if target == "/robots.txt" else PAGE)


async def told(words, site, hosts):
    """Returns what a table says of a page of each host: outcome and cause."""
    jobs = [
        (types.SimpleNamespace(scheme="http", address=f"{it}:{site.port}", server=site.server), "/x") for it in hosts
    ]
    text, _, _ = await crawl(["--tsv", "--workers", "16", "--connect-timeout", "2", *words], jobs)
    rows = sorted((line.split("\t") for line in text.splitlines()[1:]), key=lambda row: int(row[0]))
    return [(row[4], row[8]) for row in rows]


async def site_of(behave):
    """A site at each address of this network, of IPv4 too."""
    site = AsyncSite(behave)
    listener = socket.create_server(("::", 0), family=socket.AF_INET6, dualstack_ipv6=True)
    site.port = listener.getsockname()[1]
    site.server = await asyncio.start_server(site.serve, sock=listener)
    return site


def differing(what, hosts, found, wanted):
    """Tells the hosts whose row is another, and returns how many."""
    faults = [(it, row) for it, row in zip(hosts, found) if row != wanted]
    for it, row in faults:
        print("  differs:", what, it, row)
    return len(faults) + abs(len(hosts) - len(found))


async def inside():
    network()
    hosts = [f"[{it}]" if ":" in it else it for it in [*INNER, *OWN]]
    site = await site_of(answer)
    differ = differing("anywhere", hosts, await told([], site, hosts), OPEN)
    site = await site_of(answer)
    differ += differing("--public", hosts, await told(["--public"], site, hosts), UNREACHABLE)
    differ += site.robots + len(site.pages)
    site = await site_of(answer)
    differ += differing("--public", [PUBLIC], await told(["--public"], site, [f"[{PUBLIC}]"]), OPEN)
    site = await site_of(be_led)
    differ += differing("redirected", [PUBLIC], await told(["--public"], site, [f"[{PUBLIC}]"]), UNREACHABLE)
    differ += abs(site.robots - 1) + len(site.pages)
    return len(hosts), differ


async def public_inside():
    """With --public no address is connected to that the registries call not globally reachable, none of this machine,
    and none that a public site's robots.txt redirects to; a public site is. Without it all of them are."""
    for name in IN_NETWORK[0], "ip":
        if not shutil.which(name, path=f"{os.environ.get('PATH', '')}:/usr/sbin:/sbin"):
            raise Skipped(f"there is no {name}")
    if subprocess.run([*IN_NETWORK, "true"], capture_output=True).returncode:
        raise Skipped("no network of its own can be made")
    words = [*IN_NETWORK, sys.executable, os.path.realpath(__file__), Server.program]
    said = subprocess.run(words, stdout=subprocess.PIPE, text=True, timeout=300)
    *lines, last = said.stdout.splitlines() or [""]
    print("\n".join(lines), end="\n" if lines else "")
    assert said.returncode == 0 and last.startswith("hosts "), (said.returncode, last)
    _, count, differ = last.split()
    return f"of {count} addresses that are not of the public internet, wrong rows and requests", int(differ), 0


async def ruled_out():
    """No address of a block that --not-to names is connected to, with or without --public, the blocks of each time that
    it is there; all others are."""
    hosts = ["127.0.0.1", "127.9.9.9", "[::ffff:127.0.0.1]", "[::1]"]
    rows = [
        ([], [OPEN] * 4),
        (["--not-to", "127.9.9.0/24"], [OPEN, UNREACHABLE, OPEN, OPEN]),
        (["--not-to", "127.9.9.0/24", "--not-to=127.0.0.1/32"], [UNREACHABLE, UNREACHABLE, UNREACHABLE, OPEN]),
        (["--not-to", "::1/128", "--not-to", "10.0.0.0/8"], [OPEN, OPEN, OPEN, UNREACHABLE]),
        (["--not-to", "0.0.0.0/0", "--not-to", "::/0"], [UNREACHABLE] * 4),
    ]
    differ = 0
    for words, wanted in rows:
        site = await site_of(answer)
        found = await told(words, site, hosts)
        differ += sum(one != other for one, other in zip(found, wanted)) + abs(len(found) - len(wanted))
        differ += site.robots != wanted.count(OPEN)
    return "rows and requests that are not as the blocks say", differ, 0


CRAWLS = [public_inside, ruled_out]


if __name__ == "__main__":
    Server.program = sys.argv[1]
    print("hosts %d %d" % asyncio.run(inside()))
