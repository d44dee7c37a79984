"""The built program as a line server, and its clients' sessions."""
import contextlib
import re
import resource
import select
import socket
import subprocess
import threading
from concurrent.futures import ThreadPoolExecutor

from lib.cases import short
from lib.program import BUILT, resident
from lib.sites import HOST, free_port, free_ports, reset

# how long a reply, or the program's end, may take where nothing else is said, in seconds
SECONDS = 30


class Server:
    """The built program as a line server, from its first line on, at a port or at a socket. It can be started without a
    standard stream, as `>&-`; then nothing is read of it, and the port must be told. Its address space can be
    limited."""

    program = BUILT

    def __init__(self, *words, without="", port=0, path=None, octets=resource.RLIM_INFINITY):
        streams = {"stdin": subprocess.DEVNULL, "stdout": subprocess.PIPE, "stderr": subprocess.PIPE}
        if octets != resource.RLIM_INFINITY:
            streams["preexec_fn"] = lambda: resource.setrlimit(resource.RLIMIT_AS, (octets, octets))
        place = ["--socket", path] if path else ["--port", str(port)]
        words = [self.program, "serve", *place, *words]
        self.path = path
        if without:
            words = ["sh", "-c", f'exec "$@" {without}', "sh", *words]
        self.process = subprocess.Popen(words, **streams)
        self.port = port
        if not without:
            self._read_port()

    def _read_port(self):
        is_there = select.select([self.process.stdout], [], [], SECONDS)[0]
        line = self.process.stdout.readline() if is_there else b""
        found = re.fullmatch(rb"LISTEN 127\.0\.0\.1:(\d+)\n", line)
        if self.path and line == f"LISTEN {self.path}\n".encode():
            return
        if self.path or not found:
            self.process.kill()
            raise AssertionError(f"its first line is {line!r}; {short(self.process.communicate()[1])}")
        self.port = int(found[1])

    def __enter__(self):
        return self

    def __exit__(self, *_):
        self.process.kill()
        self.process.communicate()

    def end(self):
        """Returns what it still writes up to its end, its status, and its standard error."""
        output, error = self.process.communicate(timeout=SECONDS)
        return output, self.process.returncode, error

    def resident(self):
        return resident(self.process.pid)


class HttpServer(Server):
    """A server with a front for HTTP, which the line after LISTEN names: at a port, or at the path of a socket. It is
    endless unless it is given how many line clients come."""

    def __init__(self, *words, path=None, http=0, **how):
        place = ["--http-socket", path] if path else ["--http", str(http)]
        words = [*place, *words] if "--connections" in words else [*place, "--endless", *words]
        super().__init__(*words, **how)
        self.http_path = path
        line = self.process.stdout.readline()
        found = re.fullmatch(rb"HTTP 127\.0\.0\.1:(\d+)\n", line)
        if path and line == f"HTTP {path}\n".encode():
            return
        if path or not found:
            self.process.kill()
            raise AssertionError(f"its second line is {line!r}; {short(self.process.communicate()[1])}")
        self.http = int(found[1])

    @property
    def front(self):
        """Where the front is, as the clients of examples take it."""
        return self.http_path or str(self.http)

    def proxy(self, user="foobot:x"):
        return f"http://{user}@{HOST}:{self.http}/"

    def url(self, page):
        """Returns where a page is in path form."""
        return f"http://{HOST}:{self.http}/{page}"


class Restarted:
    """A server that is killed, and started again later at the same place: a port, or the path of a socket."""

    def __init__(self, *words, path=None, port=0):
        self.words, self.place = words, path or port or free_port()
        self.timer = None
        self.start()

    def __enter__(self):
        return self

    def __exit__(self, *_):
        if self.timer:
            self.timer.join(SECONDS)
        self.kill()

    def start(self):
        is_path = isinstance(self.place, str)
        self.server = Server(*self.words, **{"path" if is_path else "port": self.place})

    def kill(self):
        self.server.__exit__()

    def restart(self, seconds=2):
        """Kills it, and has it started again after some seconds."""
        self.kill()
        self.timer = threading.Timer(seconds, self.start)
        self.timer.start()


class RestartedFront(Restarted):
    """The same of a server with a front, at the same port or at the path of a socket."""

    def __init__(self, *words, path=None):
        port, http = free_ports(2)
        self.path, self.http = path, 0 if path else http
        super().__init__(*words, port=port)
        self.front = self.server.front

    def start(self):
        self.server = HttpServer(*self.words, port=self.place, path=self.path, http=self.http)


class Session:
    """A client's connection."""

    def __init__(self, server, seconds=SECONDS):
        if server.path:
            self.peer = socket.socket(socket.AF_UNIX)
            self.peer.settimeout(seconds)
            self.peer.connect(server.path)
        else:
            self.peer = socket.create_connection((HOST, server.port), seconds)
            self.peer.setsockopt(socket.IPPROTO_TCP, socket.TCP_NODELAY, 1)
        self.unread = b""
        # how many reads brought something
        self.reads = 0

    def __enter__(self):
        return self

    def __exit__(self, *_):
        self.peer.close()

    def send(self, octets):
        self.peer.sendall(octets)

    def finish(self):
        """Sends nothing more."""
        self.peer.shutdown(socket.SHUT_WR)

    def reset(self):
        """Breaks the connection off."""
        reset(self.peer)
        self.peer.close()

    def _read(self):
        piece = self.peer.recv(65536)
        self.reads += bool(piece)
        self.unread += piece
        return bool(piece)

    def lines(self, count):
        """Returns that many lines of the replies, or those before the end."""
        while self.unread.count(b"\n") < count and self._read():
            pass
        *lines, self.unread = self.unread.split(b"\n", count)
        return [it.decode() for it in lines]

    def say(self, line):
        """Returns the first line of the reply to a line, or None where the connection has ended."""
        self.send(line.encode() + b"\n")
        return next(iter(self.lines(1)), None)

    def say_all(self, lines):
        """The same of many lines, whose replies have a line each."""
        text = "".join(f"{it}\n" for it in lines)
        self.send(text.encode())
        return self.lines(text.count("\n"))

    def is_answered(self):
        """Returns whether something came that was not read."""
        return bool(self.unread or select.select([self.peer], [], [], 0)[0])

    def rest(self):
        """Returns all that comes up to the end of the connection."""
        while self._read():
            pass
        said, self.unread = self.unread, b""
        return said


def side_by_side(call, values):
    """Returns what the call gives for each of the values."""
    with ThreadPoolExecutor(len(values)) as pool:
        return list(pool.map(call, values))


def suppressed(call, *words):
    """Makes a call that fails where the other side has closed."""
    with contextlib.suppress(OSError):
        call(*words)
