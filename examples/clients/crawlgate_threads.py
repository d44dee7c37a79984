"""A client of `crawlgate serve` for programs with several threads.

    with Gates("8300", sessions=8) as gates:
        # in each thread
        with gates.permit("foobot", url) as permit:
            page = permit.open(timeout=30).read()

The replies of one connection come in the order of its lines. A site whose robots.txt does not answer holds the `REFRESH`
that fetches it for 30 seconds or longer (--read-timeout), and with it all lines after that. So permits have a connection
for themselves, and robots.txt files are fetched over a few others: only the threads that want pages of that site wait.
"""
import contextlib
import threading
import time
from concurrent.futures import Future
from typing import Any, Callable, Dict, Iterator, List, Tuple

from crawlgate import Denied, Gate, Permit


class _Wanted(Exception):
    """A permit for which a robots.txt is to be fetched first, since it was denied as it was."""

    def __init__(self, denied: Denied) -> None:
        super().__init__(denied)
        self.denied = denied


class _Permits(Gate):
    """A session that fetches no robots.txt."""

    def _ask_informed(self, token: str, url: str) -> int:
        try:
            return self.ask(token, url)
        except Denied as denied:
            if self._is_to_be_informed(denied):
                raise _Wanted(denied) from denied
            raise

    def informed(self, authority: str) -> None:
        self._refreshed[authority] = time.monotonic()


class Gates:
    """A session for permits, and further ones in which robots.txt files are fetched, that many sessions in all: each is one of
    the server's --workers. Those for robots.txt files begin when they are needed. `named` are further arguments of Gate."""

    def __init__(self, place: str, sessions: int = 4, **named: Any) -> None:
        self._connect: Callable[[], Gate] = lambda: Gate.at(place, **named)
        self._permits = _Permits.at(place, **named)
        self._lock = threading.Lock()
        self._room = threading.BoundedSemaphore(max(1, sessions - 1))
        # the sessions that fetch robots.txt files, those of them that are idle, and what is fetched now, by authority
        self._others: List[Gate] = []
        self._idle: List[Gate] = []
        self._turns: Dict[str, "Future[None]"] = {}

    def __enter__(self) -> "Gates":
        return self

    def __exit__(self, *_: Any) -> None:
        self.close()

    def close(self) -> None:
        """Closes all connections: what was out goes back."""
        for it in (self._permits, *self._others):
            it.close()

    @contextlib.contextmanager
    def permit(self, token: str, url: str) -> Iterator[Permit]:
        """Starts the fetch of a page, which the caller makes itself, and ends it on the way out. It gives a Permit. The
        robots.txt is fetched first, where none is in force."""
        permit, started = self.begin(token, url)
        try:
            yield permit
        finally:
            self.end(started)

    def begin(self, token: str, url: str) -> Tuple[Permit, contextlib.ExitStack]:
        """Starts a fetch, and returns its permit, and what `end` takes."""
        try:
            return self._begun(token, url)
        except _Wanted as wanted:
            self._inform(wanted.denied.authority)
        try:
            return self._begun(token, url)
        except _Wanted as wanted:
            raise wanted.denied from None

    def end(self, started: contextlib.ExitStack) -> None:
        with self._lock:
            started.close()

    def _begun(self, token: str, url: str) -> Tuple[Permit, contextlib.ExitStack]:
        started = contextlib.ExitStack()
        with self._lock:
            return started.enter_context(self._permits.permit(token, url)), started

    def _inform(self, authority: str) -> None:
        """Has a robots.txt fetched, or waits until another thread has had it fetched."""
        mine: "Future[None]" = Future()
        turn = self._turns.setdefault(authority, mine)
        if turn is not mine:
            return turn.result()
        try:
            with self._session() as session:
                session.inform(authority)
            with self._lock:
                self._permits.informed(authority)
        except BaseException as error:
            mine.set_exception(error)
            raise
        else:
            mine.set_result(None)
        finally:
            del self._turns[authority]

    @contextlib.contextmanager
    def _session(self) -> Iterator[Gate]:
        """A session for a robots.txt: one that is idle, or a new one."""
        with self._room:
            try:
                session = self._idle.pop()
            except IndexError:
                session = self._connect()
                self._others.append(session)
            try:
                yield session
            finally:
                self._idle.append(session)
