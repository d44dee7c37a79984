"""Cases of checks/examples with mitmproxy: clients that know a proxy only from their environment, over http and
https."""
import contextlib
import os
import re
import select
import shutil
import socket
import ssl
import subprocess
import sys
import time

from examples_https import over_https
from lib.cases import Skipped, same
from lib.example_sites import Sites
from lib.program import ROOT
from lib.server import SECONDS
from lib.sites import HOST, free_port

# clients, each of which writes the body and the status of the pages that are named
URLLIB = """
import sys, urllib.request, urllib.error
for url in sys.argv[1:]:
    try:
        found = urllib.request.urlopen(url, timeout=60)
    except urllib.error.HTTPError as error:
        found = error
    print(found.read().decode(), "STATUS", found.status)
"""
CURL = 'for url; do curl --silent --location --max-time 60 --write-out " STATUS %{http_code}\\n" "$url"; done'
WGET = """
for url; do
    wget -q -S --content-on-error --tries 1 -O - "$url" 2> errors
    echo " STATUS $(sed -n 's/^ *HTTP[^ ]* //p' errors | tail -1 | cut -d ' ' -f 1)"
done
"""
CLIENTS = {"urllib": [sys.executable, "-c", URLLIB], "curl": ["sh", "-c", CURL, "sh"], "wget": ["sh", "-c", WGET, "sh"]}


@contextlib.contextmanager
def mitmproxy(folder, front):
    """mitmproxy with the add-on before a front, and its port."""
    if not shutil.which("mitmdump"):
        raise Skipped("there is no mitmdump")
    port = free_port()
    words = ["mitmdump", "--listen-host", HOST, "--listen-port", str(port), "--set", f"confdir={folder}/mitmproxy"]
    words += ["--set", f"crawlgate={HOST}:{front}", "-s", f"{ROOT}/examples/mitmproxy/crawlgate_mitmproxy.py"]
    with open(f"{folder}/mitmproxy.log", "wb") as log:
        process = subprocess.Popen(words, stdin=subprocess.DEVNULL, stdout=log, stderr=log)
    try:
        wait_for(port)
        yield port
    finally:
        process.terminate()
        process.wait(SECONDS)


def wait_for(port):
    """Waits until a port takes connections: this program takes seconds to begin."""
    until = time.monotonic() + 3 * SECONDS
    while time.monotonic() < until:
        with contextlib.suppress(OSError):
            return socket.create_connection((HOST, port)).close()
        time.sleep(0.2)
    raise AssertionError("mitmdump does not begin")


def environment_of(folder, port):
    """Returns an environment in which both schemes go by the proxy, and only its authority is trusted."""
    proxy, authority = f"http://foobot:x@{HOST}:{port}/", f"{folder}/mitmproxy/mitmproxy-ca-cert.pem"
    plain = {name: value for name, value in os.environ.items() if not name.lower().endswith("_proxy")}
    trusts = dict.fromkeys(("CURL_CA_BUNDLE", "SSL_CERT_FILE"), authority)
    with open(f"{folder}/.wgetrc", "w") as file:
        file.write(f"ca_certificate = {authority}\n")
    return plain | trusts | {"http_proxy": proxy, "https_proxy": proxy, "WGETRC": f"{folder}/.wgetrc"}


@over_https(1)
def clients_by_their_environment(https):
    """Each client fetches pages of both schemes, is denied, and follows redirects: all by the gate, under its token.
    The sites got these requests and no other."""
    paths = ["/", "/docs", "/private/letters.html", "/none"]
    with open(f"{ROOT}/examples/site/docs/index.html") as file:
        bodies = ["A page for everybody.", file.read().strip()]
    with Sites() as plain, https.server() as server, mitmproxy(https.folder, server.http) as port:
        told = []
        for name in filter(shutil.which, ("curl", "wget", "python3")):
            name = "urllib" if name == "python3" else name
            for sites in (plain, https.sites):
                before = len(sites.asked)
                ran = subprocess.run(
                    [*CLIENTS[name], *(sites.url(it) for it in paths)], env=environment_of(https.folder, port),
                    cwd=https.folder, capture_output=True, text=True, timeout=4 * SECONDS,
                )
                same(re.findall(r"STATUS (\d+)", ran.stdout), ["200", "200", "403", "404"])
                assert all(it in ran.stdout for it in bodies), (name, ran)
                asked = [it for it in sites.asked[before:] if it != "/robots.txt"]
                same((name, asked), (name, ["/", "/docs", "/docs/", "/none"]))
            told.append(name)
        same([it.asked.count("/robots.txt") for it in (plain, https.sites)], [1, 1])
        return ", ".join(told)


@over_https(1)
def nothing_goes_around(https):
    """Without credentials it is 407, with another method 405; and what follows a CONNECT that is no HTTP reaches no
    site."""
    with Listening() as site, https.server() as server, mitmproxy(https.folder, server.http) as port:
        same(said_to(port, f"CONNECT {site.authority} HTTP/1.1\r\n\r\n", b"").split(" ")[1], "407")
        head = f"GET http://{site.authority}/ HTTP/1.1\r\nHost: {site.authority}\r\n\r\n"
        same(said_to(port, head, b"").split(" ")[1], "407")
        fields = f"Host: {site.authority}\r\nProxy-Authorization: Basic Zm9vYm90Ong=\r\n\r\n"
        same(said_to(port, f"DELETE http://{site.authority}/ HTTP/1.1\r\n{fields}", b"").split(" ")[1], "405")
        for more in (b"\0\1\2 no HTTP\r\n\r\n", ssl_hello(site.authority.partition(":")[0])):
            same(said_to(port, f"CONNECT {site.authority} HTTP/1.1\r\n{fields}", more).split(" ")[1], "200")
        same(site.count(), 0)


class Listening:
    """A port that takes connections, and counts them."""

    def __enter__(self):
        self.listener = socket.create_server((HOST, 0))
        self.authority = f"{HOST}:{self.listener.getsockname()[1]}"
        return self

    def __exit__(self, *_):
        self.listener.close()

    def count(self):
        return len(select.select([self.listener], [], [], 1)[0])


def said_to(port, head, more):
    """Returns what a proxy answers to a head, once what follows was sent and a while has passed."""
    with socket.create_connection((HOST, port), SECONDS) as peer:
        peer.sendall(head.encode())
        said = peer.recv(65_536).decode("latin-1")
        with contextlib.suppress(OSError):
            peer.sendall(more)
            peer.settimeout(1)
            peer.recv(65_536)
        return said


def ssl_hello(name):
    """Returns the first message of a TLS client."""
    out = ssl.MemoryBIO()
    with contextlib.suppress(ssl.SSLWantReadError):
        ssl.create_default_context().wrap_bio(ssl.MemoryBIO(), out, server_hostname=name).do_handshake()
    return out.read()


CASES = [clients_by_their_environment, nothing_goes_around]
