"""Cases of checks/serve with what is no client of lines: a web page that has a browser send lines, and TLS."""
from lib.cases import same
from lib.fixtures import served
from lib.server import Session


def turned_away(server, head):
    """Returns what comes back to a browser that sends this head, with a page's lines as its body."""
    with Session(server) as it:
        it.send(head.encode() + b"SEAL\nURL http://a.example/\n")
        return it.rest()


@served("--workers", "1")
def browser_is_turned_away(server):
    """A web page has a browser send lines to the server: the head's first line ends the session, wherever it leads."""
    heads = ["POST / HTTP/1.1\r\nHost: localhost\r\n\r\n", "GET /x?y HTTP/1.0\n\n", "URL http://a.example/ HTTP/1.1\n"]
    replies = [turned_away(server, it) for it in heads]
    with Session(server) as it:
        # another line, or a later one, is answered as ever
        same(it.say("POST / HTTP/2"), "ERR verb")
        same(it.say("POST / HTTP/1.1"), "ERR verb")
        same(it.say("URL http://a.example/"), "URL http://a.example/")
    same(replies, [b"ERR verb\n", b"ERR verb\n", b"ERR words\n"])


@served("--workers", "1")
def tls_is_turned_away(server):
    """A browser that was given an https URL sends what a site has chosen in its first octets: they end the session."""
    hello = b"\x16\x03\x01\x02\x00\x01\x00\x01\xfc\x03\x03" + bytes(32) + b"\x20\nSEAL\nURL http://a.example/\nQUIT\n"
    for octets in (hello, b"\x80\nSEAL\n", b"SEAL\t\nSEAL\n"):
        with Session(server) as it:
            it.send(octets)
            same(it.rest(), b"ERR chars\n")
    with Session(server) as it:
        # a later line is answered as ever
        same(it.say("URL http://a.example/"), "URL http://a.example/")
        same(it.say("\x7f"), "ERR chars")
        same(it.say("URL http://a.example/"), "URL http://a.example/")


CASES = [browser_is_turned_away, tls_is_turned_away]
