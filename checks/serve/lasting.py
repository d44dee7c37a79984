"""Cases of checks/serve over connections to sites that stay open (--keep-alive)."""
from lib.cases import same
from lib.server import Server, Session
from lib.sites import Requests, response


class Lasting(Requests):
    """A site that answers the requests of a connection until one asks for its end. It keeps the targets of each
    connection."""

    def __init__(self):
        self.connections = []
        super().__init__()

    def _take(self, peer):
        targets, head = [], b""
        self.connections.append(targets)
        with peer:
            while b"\r\nConnection: close\r\n" not in head:
                head = b""
                while not head.endswith(b"\r\n\r\n"):
                    piece = peer.recv(65_536)
                    if not piece:
                        return
                    head += piece
                targets.append(head.split(b" ")[1].decode())
                peer.sendall(response(404) if targets[-1] == "/robots.txt" else response(200, b"whole"))


def crawled(*words):
    """Returns the targets of each connection to a site whose robots.txt is fetched before each of three pages."""
    site = Lasting()
    with Server("--connections", "1", *words) as server, Session(server) as it:
        for _ in range(3):
            same(it.say(f"REFRESH {site.authority}"), f"TAKEN {site.authority} open")
            it.send(f"FETCH foobot {site.url('/x')}\n".encode())
            same(it.lines(3), ["HOP 1 PAGE open 200 5 whole", "BODY 5", "whole"])
        same(it.say("QUIT"), "BYE")
        same(server.end()[1:], (0, b""))
    return site.connections


def robots_have_connections_of_their_own():
    """Pages share a connection, and a robots.txt between two of them has its own; without the option each page has."""
    same(crawled("--keep-alive"), [["/robots.txt"], ["/x"] * 3, ["/robots.txt"], ["/robots.txt"]])
    same(crawled(), [["/robots.txt"], ["/x"]] * 3)


CASES = [robots_have_connections_of_their_own]
