#!/usr/bin/env python3
"""Clients of `crawlgate serve`: Gate has permits and pages by lines over one connection; Front (crawlgate_front.py) has
pages by HTTP, of a server with --http, each with its status, fields and body.

    with Gate("127.0.0.1", 8300) as gate:
        with gate.permit("foobot", url) as permit:
            page = permit.open(timeout=30).read()
        print(gate.fetch("foobot", url).body)
    with Front("8380", "foobot") as front:
        print(front.fetch(url).fields)

A permit is good for the one URL that `permit.url` has, as the gate writes it: a crawler that fetches by something else than
`permit.open` fetches that text and no other, follows no redirect without a permit of its own, and sends the product token
as User-Agent.

A Gate is one session: what it was granted is its own, and goes back when it ends. Use one for each thread, or the Gates of
crawlgate_threads.py. The server ends a session that sends no line for 300 seconds, or what its --patience says; one that has
more to do between two lines may send a `state` meanwhile. docs/FORMATS.md has every line and reply.

As a program, `crawlgate.py PORT TOKEN URL` has the gate fetch a page, and writes its body, and its hops to standard error.
In place of a port it takes the path of a socket, which has a `/` in it (`crawlgate serve --socket PATH`).
"""
import contextlib
import io
import socket
import sys
import time
import urllib.request
from dataclasses import dataclass
from http.client import HTTPResponse
from typing import Any, BinaryIO, Callable, Dict, Iterator, List, Optional, Set, Tuple, Type, TypeVar, Union

from crawlgate_base import AWAY, Denied, Patience, Refused, connected, connected_to
from crawlgate_front import Failed, Front, Page

__all__ = ["AWAY", "Denied", "Failed", "Fetched", "Front", "Gate", "Page", "Permit", "Refused"]


@dataclass
class Fetched:
    """What came of a page: its hops, as 'PAGE open 200 5 whole', and the body of the last, where that is a PAGE."""

    hops: List[str]
    body: bytes

    @property
    def is_page(self) -> bool:
        return self.hops[-1].startswith("PAGE ")


class _AsItCame(urllib.request.HTTPErrorProcessor):
    """Gives each response as it came: a redirect is not followed, and no status is an error."""

    def http_response(self, request: Any, response: Any) -> Any:
        return response

    https_response = http_response


_OPENER = urllib.request.build_opener(_AsItCame)


@dataclass
class Permit:
    """A fetch that was started: the product token, the URL as the gate writes it, and the reason: 'open', 'line <n>',
    'norule' or 'robots'."""

    token: str
    url: str
    reason: str

    def open(self, timeout: float) -> HTTPResponse:
        """Fetches the page, and returns the response of whatever status, as urllib.request has it. What a redirect names
        wants a permit of its own. Where urllib would ask for another page it is Refused, and nothing is fetched."""
        request = urllib.request.Request(self.url, headers={"User-Agent": self.token})
        # (urllib makes the host and the target from the URL anew)
        if f"{request.type}://{request.host}{request.selector}" != self.url:
            raise Refused(f"urllib can't fetch exactly {self.url}")
        response: HTTPResponse = _OPENER.open(request, timeout=timeout)
        return response


# how long a reply may take, in seconds: a page with its robots.txt and five redirects takes an hour at most
TIMEOUT = 3_900.0
# how long a site stays closed before its robots.txt is fetched again for a permit, in seconds
RETRY_CLOSED = 600.0
Session = TypeVar("Session", bound="Gate")


class Gate:
    """A session of a line server. It raises an OSError where no server listens, or nothing comes for `timeout` seconds.

    Where the connection has ended, as that of a session that was silent for long, or of a server that is started again, the
    next line connects anew. It waits for a server that is away, for `away` seconds since the connection was lost; then each
    line tries to connect once. What was out has gone back: a line about its number is a ConnectionError, and `permit` asks
    again. So is a `seal` whose connection ends, by which a segment may be lost.

    A site that is closed, as one whose robots.txt could not be fetched, is tried again for a permit once `retry_closed`
    seconds have passed since this Gate fetched its robots.txt; with None never."""

    def __init__(
        self,
        host: str,
        port: int,
        timeout: float = TIMEOUT,
        retry_closed: Optional[float] = RETRY_CLOSED,
        away: float = AWAY,
    ) -> None:
        self._begin(lambda: connected_to(host, port, timeout), retry_closed, away)

    @classmethod
    def at(
        cls: Type[Session],
        place: str,
        timeout: float = TIMEOUT,
        retry_closed: Optional[float] = RETRY_CLOSED,
        away: float = AWAY,
    ) -> Session:
        """A session at a port of this machine, or at the socket of a path, which has a `/` in it."""
        gate = cls.__new__(cls)
        gate._begin(lambda: connected(place, timeout), retry_closed, away)
        return gate

    def _begin(self, connect: Callable[[], socket.socket], retry_closed: Optional[float], away: float) -> None:
        self._connect, self._retry_closed, self._patience = connect, retry_closed, Patience(away)
        # the numbers of permits that are out, those that went back with a connection, and when robots.txt files were fetched
        self._out: Set[int] = set()
        self._lost: Set[int] = set()
        self._refreshed: Dict[str, float] = {}
        # how many connections there were, and whether this Gate is at its end
        self.connections, self._is_closed = 0, False
        self._peer: Optional[socket.socket] = None
        self._replies: BinaryIO = io.BytesIO()
        self._come_back()

    def __enter__(self: Session) -> Session:
        return self

    def __exit__(self, kind: Any, error: Any, trace: Any) -> None:
        """Ends the session, by which all its permits are given back."""
        # (where the connection ends the session has ended, too)
        with contextlib.closing(self), contextlib.suppress(OSError):
            if kind is None:
                self.quit()

    def close(self) -> None:
        """Closes the connection. The server gives the session's permits back once it sees that."""
        self._is_closed = True
        self._patience.end()
        # (another thread may wait for a reply)
        with contextlib.suppress(OSError):
            if self._peer:
                self._peer.shutdown(socket.SHUT_RDWR)
        self._drop()

    def _drop(self) -> None:
        self._replies.close()
        if self._peer:
            self._peer.close()
        self._peer, self._replies = None, io.BytesIO()

    def written(self, url: str) -> str:
        """Returns a URL as the gate writes it: the one that it decides, and that is to be fetched. It is Refused as
        'url bad' and so on."""
        return self._say("URL", "URL", url)

    def ask(self, token: str, url: str) -> int:
        """Asks for a permit to fetch a page, and returns its number."""
        number = int(self._say("PERMIT", "ASK", token, url))
        self._out.add(number)
        # (a server that keeps no journal begins anew with its numbers)
        self._lost.discard(number)
        return number

    def start(self, number: int, token: str, url: str) -> str:
        """Starts the fetch of a permit, which is spent by it, and returns the reason: 'open', 'line <n>', 'norule' or
        'robots'. A permit whose start is denied is spent too."""
        try:
            return self._say("GO", "START", number, token, url).partition(" ")[2]
        except Denied:
            self._out.discard(number)
            raise

    def back(self, number: int) -> None:
        """Gives an unspent permit back."""
        self._say("BACK", "BACK", number)
        self._out.discard(number)

    def done(self, number: int) -> None:
        """Says that the fetch that was started under this number has ended."""
        self._say("DONE", "DONE", number)
        self._out.discard(number)

    def state(self, authority: str) -> Tuple[str, bool]:
        """Returns what stands for an authority ('unknown', 'expired', 'closed', 'open' or 'rules'), and whether its robots
        file is being fetched."""
        _, word, turn = self._say("STATE", "STATE", authority).split(" ")
        return word, turn == "fetching"

    def refresh(self, authority: str) -> str:
        """Has the robots.txt of an authority fetched, and returns 'rules', 'open' or 'closed'. It is Refused as
        'inflight' while another session has it fetched."""
        word = self._say("TAKEN", "REFRESH", authority).partition(" ")[2]
        self._refreshed[authority] = time.monotonic()
        return word

    def fetch(self, token: str, url: str) -> Fetched:
        """Has the gate fetch a page, the robots.txt before it where none is in force, and the pages to which it leads. Where
        the connection ends meanwhile, the page is fetched again."""
        return self._patience.made(lambda: self._fetched(token, url))

    def _fetched(self, token: str, url: str) -> Fetched:
        hops = []
        reply = self._send("FETCH", token, url)
        while reply.startswith("HOP "):
            hops.append(reply.split(" ", 2)[2])
            reply = self._reply()
        length = int(self._rest_of("BODY", reply))
        # (a line end stands after the body)
        return Fetched(hops, self._octets(length + 1)[:-1])

    def info(self) -> Dict[str, int]:
        """Returns how much there is in the gate, of all sessions together, by name: 'entries', 'ever', 'starts', 'permits',
        'running', 'turns', 'authorities', 'room', 'connections' and 'clients'."""
        words = self._say("INFO", "INFO").split(" ")
        return dict(zip(words[::2], map(int, words[1::2])))

    def why(self, authority: str) -> Optional[List[Union[int, str]]]:
        """Returns the answer that stands for a site: the number of its turn, the moment of that turn's begin in seconds, and
        the words of the answer as the text of a history has them; behind those of a closed site ('C' and a word), if the server
        knows it, the words of what closed it. None where no answer stands."""
        _, *words = self._say("WHY", "WHY", authority).split(" ")
        return None if words == ["unknown"] else [int(words[0]), int(words[1]), *words[2:]]

    def seal(self) -> bytes:
        """Returns the text of the history since the last seal, b"" where nothing was entered. Nobody else keeps it."""
        count = int(self._say("SEALED", "SEAL"))
        return b"".join(self._line() for _ in range(count))

    def quit(self) -> None:
        """Ends the session. When it returns, the session's permits have gone back."""
        if self._peer:
            self._say("BYE", "QUIT")
        self.close()

    @contextlib.contextmanager
    def permit(self, token: str, url: str) -> Iterator[Permit]:
        """Starts the fetch of a page, which the caller makes itself, and ends it on the way out. It gives a Permit. The
        robots.txt is fetched first, where none is in force."""
        permit, number = self._patience.made(lambda: self._started(token, url))
        connection = self.connections
        try:
            yield permit
        finally:
            # (where the connection has ended the permit went back, and its number may be granted again)
            if self._peer and connection == self.connections:
                with contextlib.suppress(OSError):
                    self.done(number)

    def _started(self, token: str, url: str) -> Tuple[Permit, int]:
        url = self.written(url)
        number = self._ask_informed(token, url)
        try:
            return Permit(token, url, self.start(number, token, url)), number
        except Refused:
            self.back(number)
            raise

    def _ask_informed(self, token: str, url: str) -> int:
        try:
            return self.ask(token, url)
        except Denied as denied:
            if not self._is_to_be_informed(denied):
                raise
            self.inform(denied.authority)
            return self.ask(token, url)

    def _is_to_be_informed(self, denied: Denied) -> bool:
        """Whether no answer is in force, or the site is closed, and its robots.txt was not fetched by this Gate of late."""
        if denied.cause != "closed" or self._retry_closed is None:
            return denied.cause in ("unknown", "expired")
        # (an answer that another session has had fetched counts as of now)
        now = time.monotonic()
        return now - self._refreshed.setdefault(denied.authority, now) >= self._retry_closed

    def inform(self, authority: str) -> None:
        """Has a robots.txt fetched, or waits until another session has done so."""
        try:
            self.refresh(authority)
        except Refused as refused:
            if refused.word != "inflight":
                raise
            while self.state(authority)[1]:
                time.sleep(0.1)

    def _say(self, wanted: str, *words: Union[str, int]) -> str:
        return self._rest_of(wanted, self._send(*words))

    def _send(self, *words: Union[str, int]) -> str:
        """Sends a line of these words, and returns the first line of the reply."""
        for word in words:
            # another octet would end the word, or the line
            if not all("!" <= it <= "~" for it in str(word)):
                raise ValueError(f"no word of a line: {word!r}")
        line = " ".join(map(str, words)).encode() + b"\n"
        is_of_permit = words[0] in ("START", "BACK", "DONE")
        if is_of_permit and words[1] in self._lost:
            raise ConnectionError(f"permit {words[1]} went back with the connection that it was granted on")
        if not is_of_permit and words[0] not in ("SEAL", "QUIT"):
            return self._patience.made(lambda: self._exchange(line))
        # (of these it can't be known what the server did, where the reply is lost)
        self._patience.made(self._come_back)
        return self._exchange(line)

    def _come_back(self) -> socket.socket:
        """Connects, where the connection was lost."""
        if self._is_closed:
            raise ConnectionError("this Gate is closed")
        if not self._peer:
            self._peer = self._connect()
            self._replies = self._peer.makefile("rb")
            self.connections += 1
        return self._peer

    def _exchange(self, line: bytes) -> str:
        peer = self._come_back()
        with self._at_stake():
            peer.sendall(line)
        reply = self._reply()
        self._patience.back()
        return reply

    @contextlib.contextmanager
    def _at_stake(self) -> Iterator[None]:
        """Whatever fails meanwhile, the connection is lost, and the permits go back: it may be in the middle of a reply."""
        try:
            yield
        except BaseException:
            self._drop()
            self._lost, self._out = self._lost | self._out, set()
            self._patience.lost()
            raise

    def _reply(self) -> str:
        return self._line()[:-1].decode()

    def _line(self) -> bytes:
        with self._at_stake():
            line = self._replies.readline()
            if not line.endswith(b"\n"):
                raise ConnectionError("the connection ended in a reply")
            return line

    def _octets(self, count: int) -> bytes:
        with self._at_stake():
            octets = self._replies.read(count)
            if len(octets) < count:
                raise ConnectionError("the connection ended in a body")
            return octets

    def _rest_of(self, wanted: str, reply: str) -> str:
        """Returns what stands after the first word of a reply, which must be this one."""
        word, _, rest = reply.partition(" ")
        if word == wanted:
            return rest
        if word == "NO":
            authority, _, cause = rest.partition(" ")
            raise Denied(authority, cause)
        if word == "ERR":
            raise Refused(rest)
        raise ConnectionError(f"no reply of a gate: {reply!r}")


def main(given: List[str]) -> int:
    if len(given) != 3:
        sys.exit("usage: crawlgate.py PORT TOKEN URL, or crawlgate.py PATH TOKEN URL")
    place, token, url = given
    with Gate.at(place) as gate:
        fetched = gate.fetch(token, url)
    print(*fetched.hops, sep="\n", file=sys.stderr)
    sys.stdout.buffer.write(fetched.body)
    return 0 if fetched.is_page else 1


if __name__ == "__main__":
    sys.exit(main(sys.argv[1:]))
