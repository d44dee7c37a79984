"""A client of `crawlgate serve --http`: pages over one connection, each with the site's status, fields and body.

    with Front("8380", "foobot") as front:
        page = front.fetch("https://a.example/x")
        print(page.status, page.field("content-type"), len(page.body))

The place is the port of --http, or the path of --http-socket. The gate fetches the page under a permit of its own, and
before it the robots.txt of its site, if no answer is in force. It follows no redirect: `page.location` says where one
leads, and fetching that is a fetch of its own. Use one Front for each thread.
"""
import base64
import re
import socket
from dataclasses import dataclass
from http.client import HTTPConnection, HTTPException, IncompleteRead
from typing import Any, List, Optional, Tuple
from urllib.parse import quote, urljoin

from crawlgate_base import AWAY, Denied, Patience, Refused, connected

# how long an answer may take, in seconds: the wait for a site, its robots.txt, and the page
TIMEOUT = 660.0
# what Proxy-Status says (RFC 9209): the site's status, the type of an error, and the details
SAID = re.compile(r'crawlgate(?:; received-status=(\d+))?(?:; error=(\w+))?; details="((?:[^"\\]|\\.)*)"')
# the fields that are the gate's own
OWN_FIELDS = {"proxy-status", "content-length", "connection"}
# what the target of a request can't have, as the URL Standard writes it
IN_PATH = str.maketrans({"<": "%3C", ">": "%3E", "`": "%60"})
IN_QUERY = str.maketrans({"<": "%3C", ">": "%3E", '"': "%22"})
# the characters of a Location that may stand in a URL as they are
PRINTED = "".join(map(chr, range(33, 127)))


class Failed(Exception):
    """The fetch of the page failed: `error` is a type of RFC 9209 as 'connection_refused', `details` say what was
    met."""

    def __init__(self, error: str, details: str) -> None:
        super().__init__(f"{error}: {details}")
        self.error, self.details = error, details


@dataclass(frozen=True)
class Page:
    """A site's response: its URL, without the fragment, its status, the fields that the gate passes on, in order and
    with names in lower case, and its body; the number of the permit, and why the page was allowed, as 'open' or
    'line 3'. Of a page that is longer than the server's --page-limit the body is its first bytes."""

    url: str
    status: int
    fields: List[Tuple[str, str]]
    body: bytes
    permit: int
    reason: str
    is_cut: bool

    def field(self, name: str) -> Optional[str]:
        """Returns the value of the first field of this name, or None."""
        return next((value for it, value in self.fields if it == name.lower()), None)

    @property
    def location(self) -> Optional[str]:
        """Where a redirect leads; None if the response is none."""
        return led_to(self.url, self.status, self.field("location"))


def led_to(url: str, status: int, location: Optional[str]) -> Optional[str]:
    """Returns where a response of this status and Location leads from a page, or None."""
    if location is None or status not in (301, 302, 303, 307, 308):
        return None
    try:
        return urljoin(url, quote(location.encode("latin-1"), safe=PRINTED))
    except ValueError:
        return None


class _Connection(HTTPConnection):
    """A connection to a front, at a port or at the path of a socket."""

    def __init__(self, place: str, timeout: float) -> None:
        super().__init__("127.0.0.1", timeout=timeout)
        self._place, self._seconds = place, timeout
        self.sock: Optional[socket.socket] = None

    def connect(self) -> None:
        self.sock = connected(self._place, self._seconds)


def target_of(url: str) -> str:
    """Returns a URL as the target of a request. What is no URL with a host is Refused."""
    if not all("!" <= it <= "~" for it in url):
        raise Refused("url chars")
    url = url.partition("#")[0]
    found = re.match(r"[A-Za-z][A-Za-z0-9+.-]*://([^/?\\]+)", url)
    if not found:
        raise Refused("url bad")
    if "@" in found[1]:
        raise Refused("url user")
    path, mark, query = url.partition("?")
    return f"{path.translate(IN_PATH)}{mark}{query.translate(IN_QUERY)}"


@dataclass(frozen=True)
class _Answer:
    """What the front answered to a request for this URL."""

    url: str
    status: int
    fields: List[Tuple[str, str]]
    body: bytes

    def value(self, wanted: str) -> str:
        return next((value for name, value in self.fields if name == wanted), "")

    def said(self) -> "re.Match[str]":
        """Returns what Proxy-Status says."""
        found = SAID.fullmatch(self.value("proxy-status"))
        if not found:
            raise Refused(f"status {self.status}")
        return found

    def is_elsewhere(self) -> bool:
        """Whether it names the URL as the gate writes it, in place of a page: it decides only that one."""
        return self.status == 308 and not self.said()[1]

    def page(self) -> Page:
        """Returns the page, or raises why there is none."""
        received, error, details = self.said().groups()
        details = re.sub(r"\\(.)", r"\1", details)
        if not received:
            raise refusal_of(self.status, error, details)
        permit, _, reason = details.partition(" ")
        fields = [(name, value) for name, value in self.fields if name not in OWN_FIELDS]
        return Page(self.url, self.status, fields, self.body, int(permit), reason, is_cut=error is not None)


def refusal_of(status: int, error: str, details: str) -> Exception:
    """Returns what is raised for an answer of the gate itself."""
    if error == "http_request_denied":
        authority, _, cause = details.partition(" ")
        return Denied(authority, cause)
    return Failed(error, details) if status in (502, 504) else Refused(details)


class Front:
    """A client of a server's HTTP front, under a product token. It raises an OSError if no server listens, or nothing
    comes for `timeout` seconds.

    If the connection has ended, as that of a client that was silent for long, or of a server that is started again, the
    page is asked for again over a new one; the history may have a start more. It waits for a server that is away, for
    `away` seconds since the connection was lost; then each fetch tries to connect once."""

    def __init__(self, place: str, token: str, timeout: float = TIMEOUT, away: float = AWAY) -> None:
        credentials = base64.b64encode(f"{token}:x".encode()).decode()
        # (of a page that is too long the first bytes are wanted)
        self._fields = {"Proxy-Authorization": f"Basic {credentials}", "Crawlgate-Cut": "pass"}
        self._connection, self._patience = _Connection(place, timeout), Patience(away)

    def __enter__(self) -> "Front":
        return self

    def __exit__(self, *_: Any) -> None:
        self.close()

    def close(self) -> None:
        """Closes the connection. Nothing is out then: a permit lasts as long as its request."""
        self._patience.end()
        self._connection.close()

    def fetch(self, url: str) -> Page:
        """Has the gate fetch a page. It is Denied by its robots.txt; Refused, as 'url scheme' or 'site busy', if the
        gate does not fetch it, or can't now; or Failed, if its site gives no response."""
        answer = self._asked(target_of(url))
        if answer.is_elsewhere():
            answer = self._asked(answer.value("location"))
        return answer.page()

    def _asked(self, target: str) -> _Answer:
        return self._patience.made(lambda: self._exchange(target))

    def _exchange(self, target: str) -> _Answer:
        """Sends one request, and returns its answer."""
        if not self._connection.sock:
            self._connection.connect()
        try:
            self._connection.putrequest("GET", target, skip_host=True, skip_accept_encoding=True)
            self._connection.putheader("Host", re.split("[/?]+", target)[1])
            for name, value in self._fields.items():
                self._connection.putheader(name, value)
            self._connection.endheaders()
            response = self._connection.getresponse()
            body = response.read()
        except (OSError, HTTPException) as error:
            self._connection.close()
            if isinstance(error, (OSError, IncompleteRead)):
                self._patience.lost()
            if isinstance(error, OSError):
                raise
            raise ConnectionError(f"no answer of a gate: {error!r}") from error
        self._patience.back()
        fields = [(name.lower(), value) for name, value in response.getheaders()]
        return _Answer(target, response.status, fields, body)
