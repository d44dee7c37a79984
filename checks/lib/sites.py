"""Sites on the loopback, each connection of which has one request."""
import os
import random
import socket
import struct
import threading
import time

HOST = "127.0.0.1"


def response(status, body=b"", *fields):
    head = [f"HTTP/1.1 {status} Said", f"Content-Length: {len(body)}", *fields, "", ""]
    return "\r\n".join(head).encode() + body


def reset(peer):
    """Has the close of a connection break it off."""
    peer.setsockopt(socket.SOL_SOCKET, socket.SO_LINGER, struct.pack("ii", 1, 0))


def free_port():
    """Returns a port at which nothing listens, below those that the system gives to others. Scripts that run side by
    side draw from a hundred each, the first of which CRAWLGATE_PORTS names."""
    first = int(os.environ.get("CRAWLGATE_PORTS", 10_000 + os.getpid() % 200 * 100))
    for port in random.sample(range(first, first + 100), 100):
        try:
            with socket.create_server((HOST, port)):
                return port
        except OSError:
            pass
    raise OSError(f"no port from {first} on is free")


def free_ports(count):
    """Returns different ports at which nothing listens."""
    found = set()
    while len(found) < count:
        found.add(free_port())
    return found


class Requests:
    """What takes connections at a port of its own, reads the head of each one's request, and has it answered."""

    def __init__(self, host=HOST, port=0):
        self.listener = socket.create_server((host, port), backlog=1024)
        self.authority = f"{host}:{self.listener.getsockname()[1]}"
        threading.Thread(target=self._listen, daemon=True).start()

    def url(self, target):
        return f"http://{self.authority}{target}"

    def _listen(self):
        while True:
            peer = self.listener.accept()[0]
            threading.Thread(target=self._take, args=(peer,), daemon=True).start()

    def _take(self, peer):
        head = b""
        try:
            with peer:
                while not head.endswith(b"\r\n\r\n"):
                    piece = peer.recv(65_536)
                    if not piece:
                        return
                    head += piece
                self.answer(peer, head, head.split(b" ")[1].decode("latin-1"))
        except OSError:
            pass

    def answer(self, peer, head, target):
        raise NotImplementedError


class Site(Requests):
    """A site: responses by their targets, and 404 for every other target, the robots.txt too. A response may come after
    seconds to wait for it. It keeps the targets that it was asked for."""

    def __init__(self, pages, host=HOST, port=0):
        self.pages, self.asked = pages, []
        super().__init__(host, port)

    def page(self, target):
        return self.pages.get(target, response(404))

    def answer(self, peer, head, target):
        self.asked.append(target)
        page = self.page(target)
        if isinstance(page, tuple):
            time.sleep(page[0])
            page = page[1]
        peer.sendall(page)


class Late(Requests):
    """A site whose robots.txt is answered once an event is set, or after some seconds, and its pages at once. It keeps
    whether the event was set by then."""

    def __init__(self, event, seconds, page=b"late", host=HOST):
        self.event, self.seconds, self.page, self.in_time = event, seconds, page, []
        super().__init__(host)

    def answer(self, peer, head, target):
        if target == "/robots.txt":
            self.in_time.append(self.event.wait(self.seconds))
            return peer.sendall(response(404))
        peer.sendall(response(200, self.page, "Content-Type: text/html"))


RULES = b"user-agent: *\ndisallow: /private\n"
OCTETS = bytes(range(256)) * 3


def open_site(pages=None):
    """A site with a page of five octets and with these, and without a robots.txt, if there is none among them."""
    return Site({"/x": response(200, b"hello"), **(pages or {})})


def site_with_rules():
    return Site({
        "/robots.txt": response(200, RULES),
        "/moved": response(302, b"", "Location: /octets"),
        "/octets": response(200, OCTETS),
        "/long": response(200, b"x" * 1_048_577),
    })
