"""Cases of checks/serve on where clients connect: a port of the loopback, or a socket that is a file."""
import os
import socket
import stat
import subprocess
import tempfile
from types import SimpleNamespace

from lib.cases import same
from lib.server import SECONDS, Server, Session
from lib.sites import open_site
from clients import client_of
from overseers import clients_wait_in_line
from sessions import sealed

# the user and the group `nobody`
NOBODY = 65534


def loopback_alone(server):
    try:
        socket.create_connection(("127.0.0.2", server.port), SECONDS).close()
    except ConnectionRefusedError:
        return
    assert False, "it listens on 127.0.0.2 too"


def port_that_is_taken(server):
    ran = subprocess.run([Server.program, "serve", "--port", str(server.port)], capture_output=True, timeout=SECONDS)
    told = f"crawlgate: device: port {server.port}: address in use\n".encode()
    same((ran.stdout, ran.returncode, ran.stderr), (b"", 3, told))


def refused(path, reason):
    """Returns whether no server listens at a path, and says so, for this reason."""
    ran = subprocess.run([Server.program, "serve", "--socket", path], capture_output=True, timeout=SECONDS)
    return (ran.stdout, ran.returncode, ran.stderr) == (
        b"", 3, f"crawlgate: device: socket {path}: {reason}\n".encode(),
    )


# What stands for OpenBSD's nc, which a machine may not have: octets go to a socket and come from it.
NC = """#!/usr/bin/env python3
import os, socket, sys, threading
peer = socket.socket(socket.AF_UNIX)
peer.connect(sys.argv[sys.argv.index("-U") + 1])
def send():
    while octets := os.read(0, 65536):
        peer.sendall(octets)
    peer.shutdown(socket.SHUT_WR)
threading.Thread(target=send, daemon=True).start()
while octets := peer.recv(65536):
    os.write(1, octets)
"""


def clients_at_a_socket():
    site = open_site()
    wanted = (b"hello", b"PAGE open 200 5 whole\n", 0)
    with tempfile.TemporaryDirectory() as folder:
        with open(f"{folder}/nc", "w") as file:
            file.write(NC)
        os.chmod(f"{folder}/nc", 0o755)
        with Server(path=f"{folder}/gate") as server:
            same(client_of("py", server, "foobot", site.url("/x")), wanted)
            path = f"{folder}:{os.environ['PATH']}"
            same(
                client_of("sh", server, "run", "foobot", site.url("/x"), "echo", "page", PATH=path),
                (b"page\n", b"", 0),
            )


def socket_of_its_owner():
    """Its mode is 0600; a server that listens keeps it, one that was killed leaves it to the next, and no other file is
    taken for one, nor is there a name that somebody else could have taken before it."""
    with tempfile.TemporaryDirectory() as folder:
        path, other = f"{folder}/gate", f"{folder}/other"
        os.makedirs(f"{path}.new/socket")
        with open(other, "w") as file:
            file.write("of somebody else")
        with Server(path=path) as server, Session(server) as it:
            same(stat.filemode(os.stat(path).st_mode), "srw-------")
            same(sorted(os.listdir(folder)), ["gate", "gate.new", "other"])
            same((refused(path, "address in use"), refused(other, "address in use")), (True, True))
            same(refused(f"{folder}/none/gate", "entity not found"), True)
            same(it.say("STATE a.example"), "STATE a.example unknown idle")
        same(os.path.exists(path), True)
        with Server("--connections", "1", path=path) as server:
            with Session(server) as it:
                it.send(b"URL http://A.example/%7e\nQUIT\n")
                same(it.rest(), b"URL http://a.example/%7e\nBYE\n")
            same(server.end(), (b"SERVED connections 1 events 0\n", 0, b""))
        same(sorted(os.listdir(folder)), ["gate.new", "other"])
        with open(other) as file:
            same(file.read(), "of somebody else")


class Overseen(Server):
    """A server at a socket, with another one for overseers, which its second line names."""

    def __init__(self, folder, *words):
        self.seals = f"{folder}/seals"
        super().__init__("--seal-socket", self.seals, *words, path=f"{folder}/gate")
        same(self.process.stdout.readline(), f"SEAL {self.seals}\n".encode())

    def overseer(self):
        return Session(SimpleNamespace(path=self.seals))


def is_shut_to_others(path):
    """Returns whether the user `nobody` can't connect to a socket. Only root can try it."""
    child = os.fork()
    if not child:
        try:
            os.setgroups([])
            os.setgid(NOBODY)
            os.setuid(NOBODY)
            socket.socket(socket.AF_UNIX).connect(path)
        except PermissionError:
            os._exit(0)
        finally:
            os._exit(1)
    return os.waitstatus_to_exitcode(os.waitpid(child, 0)[1]) == 0


def overseers_at_a_socket():
    """The socket of overseers is only its owner's, too; it has five verbs, and goes at the end."""
    with tempfile.TemporaryDirectory() as folder:
        os.chmod(folder, 0o755)
        with Overseen(folder, "--connections", "1") as server, Session(server) as it, server.overseer() as other:
            same([stat.filemode(os.stat(path).st_mode) for path in (server.path, server.seals)], ["srw-------"] * 2)
            for path in (server.path, server.seals) if os.geteuid() == 0 else ():
                assert is_shut_to_others(path), path
            same(it.say("ASK foobot http://a.example/"), "NO a.example unknown")
            same(
                [other.say(line) for line in ("ASK foobot http://a.example/", "FETCH foobot http://a.example/")],
                ["ERR verb"] * 2,
            )
            same(len(sealed(other)), 2)
            same((other.say("QUIT"), it.say("QUIT")), ("BYE", "BYE"))
            same(server.end(), (b"SERVED connections 1 events 1\n", 0, b""))
        same(os.listdir(folder), [])
        words = [Server.program, "serve", "--socket", f"{folder}/gate", "--seal-socket", f"{folder}/gate"]
        ran = subprocess.run(words, capture_output=True, timeout=SECONDS)
        told = f"crawlgate: device: socket {folder}/gate: address in use\n".encode()
        same((ran.stdout, ran.returncode, ran.stderr), (b"", 3, told))
        same(os.listdir(folder), [])


def clients_that_wait_at_a_socket():
    """INFO counts those at a socket, too."""
    with tempfile.TemporaryDirectory() as folder, Overseen(folder, "--workers", "1", "--connections", "4") as server:
        clients_wait_in_line(server)


CASES = [
    loopback_alone, port_that_is_taken, socket_of_its_owner, clients_at_a_socket, overseers_at_a_socket,
    clients_that_wait_at_a_socket,
]
