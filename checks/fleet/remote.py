"""Cases of checks/fleet about a gate on another machine, which its haproxy opens to holders of a certificate."""
import contextlib
import itertools
import os
import shutil
import socket
import ssl
import subprocess
import tempfile

from fleet import EXAMPLE, Gate, Haproxy, Sites, needs_haproxy, write_configuration
from front import FORMS, HOST, by_path, head
from lib import tls
from lib.cases import Skipped, same
from lib.server import SECONDS
from lib.sites import free_ports

HOSTS = 60
NAME = "gate04.example"


def made_certificates(folder, *names):
    """Makes a folder with an authority and certificates, and returns it."""
    os.mkdir(folder)
    subprocess.run([f"{EXAMPLE}/certificates", *names], cwd=folder, check=True, capture_output=True)
    return folder


@contextlib.contextmanager
def agent_of(folder, gate, keys):
    """The haproxy beside a gate, by gate.cfg, and its two ports."""
    ports = sorted(free_ports(2))
    binds = {f"bind :{old} ": f"bind {HOST}:{new} " for old, new in zip((4443, 4444), ports)}
    files = {"/etc/haproxy/gate.pem": f"{keys}/{NAME}.pem", "/etc/haproxy/fleet.pem": f"{keys}/fleet.pem"}
    servers = {f"server gate {HOST}:4101\n": f"server gate {HOST}:{gate.http}\n"}
    servers |= {f"server gate {HOST}:4201\n": f"server gate {HOST}:{gate.checked}\n"}
    path = write_configuration(folder, "gate.cfg", {**binds, **files, **servers})
    with open(f"{path}.log", "wb") as log:
        process = subprocess.Popen([tls.HAPROXY, "-f", path], stdout=log, stderr=log)
    with tls.ended(process):
        tls.wait_for(ports[0])
        yield ports


def lines_of(ports, keys):
    """Returns what is replaced in haproxy.cfg where there is a fourth gate behind TLS."""
    return {
        "  #default-server check-ssl": "  default-server check-ssl",
        "/etc/haproxy/fleet.pem": f"{keys}/fleet.pem", "/etc/haproxy/front.pem": f"{keys}/front.pem",
        f"  #server gate04 {NAME}:4443 id 4 port 4444": f"  server gate04 {HOST}:{ports[0]} id 4 port {ports[1]}",
    }


def answered(port, octets, context):
    """Returns what comes at a port of TLS, up to its end or a fault of TLS."""
    with contextlib.suppress(OSError), socket.create_connection((HOST, port), SECONDS) as plain:
        with context.wrap_socket(plain, server_hostname=NAME) as peer:
            peer.sendall(octets)
            return peer.recv(65_536)
    return b""


def context_of(keys, own=None):
    """Returns the context of a client that trusts a fleet's authority, with a certificate or without one."""
    context = ssl.create_default_context(cafile=f"{keys}/fleet.pem")
    if own:
        context.load_cert_chain(own)
    return context


def by_certificates():
    """A gate behind TLS has its share of the hosts, and still refuses browsers that a name has led to haproxy. Without
    a certificate of the fleet nobody has an answer of it, at neither of its two ports; and a gate with a certificate of
    another authority is taken for dead."""
    needs_haproxy()
    if not shutil.which("openssl"):
        raise Skipped("there is no openssl")
    sites = Sites(HOSTS)
    with contextlib.ExitStack() as stack:
        folder = stack.enter_context(tempfile.TemporaryDirectory())
        keys, others = (made_certificates(f"{folder}/{it}", "front", NAME) for it in ("keys", "others"))
        gates = [stack.enter_context(Gate(f"{folder}/{it}")) for it in range(3)]
        ports = stack.enter_context(agent_of(folder, gates[2], keys))
        front = stack.enter_context(Haproxy(folder, gates[:2], lines_of(ports, keys)))
        front.wait_for("gate01", "gate02", "gate04")
        expect_browsers_refused(front, sites)
        for host, form in itertools.product(sites.hosts, FORMS):
            same(front.ask(form(sites.url(host))).outcome(), (200, None, "N norule"))
        shares = [it.hosts() for it in gates]
        same(sorted(host for it in shares for host in it), sorted(sites.hosts))
        assert all(len(it) > HOSTS / 8 for it in shares), list(map(len, shares))
        expect_closed(ports, keys, others)
        with Haproxy(folder, gates[:2], lines_of(ports, others)) as stranger:
            stranger.wait_for("gate01", "gate02")
    return f"{' + '.join(str(len(it)) for it in shares)} hosts"


def expect_browsers_refused(front, sites):
    """A browser that a name of somebody else has led to haproxy is refused by each gate, and nothing is fetched."""
    for host in sites.hosts:
        same(front.ask(by_path(sites.url(host), host="other.example")).status, 421)
    same(sites.requests, [])


def expect_closed(ports, keys, others):
    """At both ports of a gate's haproxy: a client with a certificate of the fleet is answered, and no other."""
    requests = [head("/metrics", host=NAME), b"INFO\n"]
    begins = [b"HTTP/1.1 200 OK\r\n", b"INFO entries "]
    for port, octets, begin in zip(ports, requests, begins):
        said = answered(port, octets, context_of(keys, f"{keys}/front.pem"))
        assert said.startswith(begin), said
        same(answered(port, octets, context_of(keys)), b"")
        same(answered(port, octets, context_of(keys, f"{others}/front.pem")), b"")
        with socket.create_connection((HOST, port), SECONDS) as plain:
            plain.sendall(octets)
            assert not plain.recv(65_536).startswith(begin), "it answers without TLS"


CASES = [by_certificates]
