"""What the clients of crawlgate.py and crawlgate_front.py share: how a server refuses, how it is connected to, and how
it is waited for while it is away."""
import itertools
import socket
import time
from typing import Callable, Optional, TypeVar

Reply = TypeVar("Reply")
# how long a server that is away is waited for, and the pause between two tries to connect, in seconds
AWAY, PAUSE = 60.0, 0.2
# what shows that it is away
GONE = (ConnectionError, FileNotFoundError)


class Denied(Exception):
    """The page may not be fetched now: `cause` is 'line <n>', 'closed', 'unknown', 'expired' or 'spent'."""

    def __init__(self, authority: str, cause: str) -> None:
        super().__init__(f"{authority}: {cause}")
        self.authority, self.cause = authority, cause


class Refused(Exception):
    """The gate did not take the line or the request, or could not do it now: `word` is as 'url bad', 'permits', 'busy'
    or 'notout'. Or a client says that its library would fetch another page."""

    def __init__(self, word: str) -> None:
        super().__init__(word)
        self.word = word


def connected(place: str, timeout: float) -> socket.socket:
    """Returns a connection to a port of this machine, or to the socket of a path, which has a `/` in it."""
    if "/" not in place:
        return connected_to("127.0.0.1", int(place), timeout)
    peer = socket.socket(socket.AF_UNIX)
    peer.settimeout(timeout)
    try:
        peer.connect(place)
    except OSError:
        peer.close()
        raise
    return peer


def connected_to(host: str, port: int, timeout: float) -> socket.socket:
    """Returns a connection to a port."""
    peer = socket.create_connection((host, port), timeout)
    peer.setsockopt(socket.IPPROTO_TCP, socket.TCP_NODELAY, 1)
    return peer


class Patience:
    """Waits for a server that is away, for a number of seconds since its connection was lost."""

    def __init__(self, away: float) -> None:
        self._away, self._is_over = away, False
        self._since: Optional[float] = None

    def lost(self) -> None:
        """The connection was lost."""
        self._since = self._since or time.monotonic()

    def back(self) -> None:
        """The server has replied."""
        self._since = None

    def end(self) -> None:
        """The server is waited for no more."""
        self._is_over = True

    def made(self, call: Callable[[], Reply]) -> Reply:
        """Makes a call, and makes it again where the connection ended, as long as the server is waited for."""
        for pause in itertools.chain([0], itertools.repeat(PAUSE)):
            try:
                return call()
            except GONE:
                if self._is_over or self._since is None or time.monotonic() - self._since >= self._away:
                    raise
            time.sleep(pause)
        raise AssertionError("it is made for ever")
