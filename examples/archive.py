#!/usr/bin/env python3
"""A small archive through `crawlgate serve --http`: pages into WARC files, each with its own fields and its permit.

usage: archive.py PORT TOKEN FOLDER [--size BYTES] < URLS

PORT is that of --http; in place of a port it takes the path of --http-socket, which has a `/` in it.

The URLs, one a line, are fetched one after the other (clients/crawlgate_front.py), and at most five redirects of each
are followed. Each response is a record of FOLDER/00000.warc (WARC/1.1), on the disk before the next page is asked for.
Each run begins a file, and another one once that has a gigabyte, or as many bytes as --size says. A record has the
site's status, the fields that the gate passes on (docs/FORMATS.md) and the body, and up to three fields of its own:

    WARC-Crawlgate-Permit   the number of the permit under which the page was fetched
    WARC-Crawlgate-Reason   by what it was allowed: `line <n>` of the robots.txt, `norule`, `robots` or `open`
    WARC-Crawlgate-Asked    the URL as it was given, if the page's is written in another way

So `grep -h "^S [0-9]* 65536 " JOURNAL/*` finds the start of the page in the history of a server with --journal, which
grants no number twice.

SIGINT and SIGTERM end the archive after the page under way. The same command goes on: a page that a file of the folder
has is not fetched again, and what a kill has left of a record is moved to a file that ends in .cut; its page is fetched
anew. For another crawl of the same pages take another folder. It waits a minute for a server that is started again.

The last line is `pages <n>`, the records that were written. What brought no page is reported on standard error, and
asked for again by the next run. The status is 1 if a signal ended it, or the server was gone.
"""
import base64
import fcntl
import hashlib
import os
import re
import signal
import sys
import time
import uuid
from dataclasses import dataclass
from typing import BinaryIO, Dict, Iterator, List, Optional, Tuple

sys.path.insert(0, f"{os.path.dirname(os.path.realpath(__file__))}/clients")
from crawlgate import Denied, Failed, Front, Page, Refused
from crawlgate_front import led_to

SIZE = 1_000_000_000
MOST_REDIRECTS = 5
INFO = (
    b"software: examples/archive.py of crawlgate\r\nformat: WARC File Format 1.1\r\nrobots: RFC 9309, by crawlgate\r\n"
    b"description: a head has the fields that the gate passes on, with their names in lower case; chunks are joined\r\n"
)
VERSION = b"WARC/1.1\r\n"
INFO_FIELDS = {"Content-Type": "application/warc-fields"}


@dataclass
class Known:
    """What a record says of a page: its status, and where it leads, if it is a redirect."""

    status: int
    location: Optional[str]


# ---- records of WARC/1.1 (ISO 28500:2017)


def digest(octets: bytes) -> str:
    return "sha256:" + base64.b32encode(hashlib.sha256(octets).digest()).decode()


def record(kind: str, name: str, moment: float, fields: Dict[str, str], block: bytes) -> bytes:
    date = time.strftime("%Y-%m-%dT%H:%M:%SZ", time.gmtime(moment))
    head = {
        "WARC-Type": kind, "WARC-Record-ID": name, "WARC-Date": date, **fields,
        "WARC-Block-Digest": digest(block), "Content-Length": str(len(block)),
    }
    lines = ["WARC/1.1", *(f"{name}: {value}" for name, value in head.items()), "", ""]
    return "\r\n".join(lines).encode("ascii") + block + b"\r\n\r\n"


def response(page: Page, asked: str, moment: float, info: str) -> bytes:
    """Returns the record of a page that was asked for by this URL at this moment."""
    fields = {
        "WARC-Target-URI": page.url, "WARC-Warcinfo-ID": info, "WARC-Payload-Digest": digest(page.body),
        "WARC-Crawlgate-Permit": str(page.permit), "WARC-Crawlgate-Reason": page.reason,
        "Content-Type": "application/http; msgtype=response",
    }
    if asked != page.url:
        fields["WARC-Crawlgate-Asked"] = asked
    if page.is_cut:
        fields["WARC-Truncated"] = "length"
    lines = [f"HTTP/1.1 {page.status} ", *(f"{name}: {value}" for name, value in page.fields), "", ""]
    return record("response", name_of_record(), moment, fields, "\r\n".join(lines).encode("latin-1") + page.body)


def name_of_record() -> str:
    return f"<{uuid.uuid4().urn}>"


def records_of(file: BinaryIO) -> Iterator[Tuple[Dict[str, str], bytes, int]]:
    """Gives the fields, the block and the end of each record, up to one that is cut. What is none is a ValueError."""
    while True:
        lines = []
        while (line := file.readline()) not in (b"\r\n", b""):
            lines.append(line)
        if not VERSION.startswith(b"".join(lines[:1])[: len(VERSION)]):
            raise ValueError("no record of WARC/1.1")
        if not line:
            return
        fields = dict(it.decode("latin-1").rstrip("\r\n").split(": ", 1) for it in lines[1:])
        block = file.read(int(fields["Content-Length"]) + 4)
        if len(block) < int(fields["Content-Length"]) + 4:
            return
        if not block.endswith(b"\r\n\r\n") or digest(block[:-4]) != fields.get("WARC-Block-Digest"):
            raise ValueError("a record has another block than its digest says")
        yield fields, block[:-4], file.tell()


def known_of(url: str, block: bytes) -> Known:
    """Returns what the block of a record says of a page."""
    head = block.partition(b"\r\n\r\n")[0].decode("latin-1")
    status, found = int(head.split(" ")[1]), re.search(r"(?m)^location: (.*?)\r?$", head)
    return Known(status, led_to(url, status, found[1] if found else None))


# ---- the archive


class Archive:
    """A folder of WARC files, to the last of which pages are added. No link is followed to them."""

    def __init__(self, folder: str, size: int) -> None:
        self.folder, self.size, self.pages = folder, size, 0
        self.known: Dict[str, Known] = {}
        os.makedirs(folder, exist_ok=True)
        self.handle = os.open(folder, os.O_RDONLY | os.O_DIRECTORY | os.O_NOFOLLOW)
        try:
            fcntl.flock(self.handle, fcntl.LOCK_EX | fcntl.LOCK_NB)
        except BlockingIOError:
            sys.exit(f"archive.py: another archive is at work in {folder}")
        names = sorted(it for it in os.listdir(folder) if re.fullmatch(r"\d{5}\.warc", it))
        for name in names:
            try:
                self.read(name)
            except (OSError, ValueError, KeyError) as error:
                sys.exit(f"archive.py: {self.path(name)}: {error}")
        self.number = int(names[-1][:5]) if names else -1
        self.file: Optional[BinaryIO] = None

    def path(self, name: str) -> str:
        return f"{self.folder}/{name}"

    def read(self, name: str) -> None:
        """Learns what a file has. What a kill has left of a record at its end is moved to a file of its own."""
        end = 0
        with open(os.open(self.path(name), os.O_RDWR | os.O_NOFOLLOW), "r+b") as file:
            for fields, block, end in records_of(file):
                if fields.get("WARC-Type") == "response":
                    url = fields["WARC-Target-URI"]
                    self.known[fields.get("WARC-Crawlgate-Asked", url)] = self.known[url] = known_of(url, block)
            file.seek(end)
            if rest := file.read():
                self.put_aside(f"{name}.{uuid.uuid4().hex}.cut", rest)
                file.truncate(end)
        if not end:
            os.unlink(self.path(name))

    def put_aside(self, name: str, rest: bytes) -> None:
        with self.made(name) as file:
            file.write(rest)
        print(f"archive.py: {self.path(name)} has the {len(rest)} bytes of a record that was cut", file=sys.stderr)

    def made(self, name: str) -> BinaryIO:
        """Makes a file that is not there yet."""
        return open(os.open(self.path(name), os.O_WRONLY | os.O_CREAT | os.O_EXCL | os.O_NOFOLLOW, 0o644), "wb")

    def begin(self) -> BinaryIO:
        """Begins the next file."""
        self.number += 1
        name = f"{self.number:05}.warc"
        file = self.made(name)
        os.fsync(self.handle)
        self.info = name_of_record()
        file.write(record("warcinfo", self.info, time.time(), {"WARC-Filename": name, **INFO_FIELDS}, INFO))
        return file

    def add(self, page: Page, asked: str, moment: float) -> Known:
        """Adds a record, which is on the disk then."""
        if self.file and self.file.tell() >= self.size:
            self.file.close()
            self.file = None
        self.file = self.file or self.begin()
        self.file.write(response(page, asked, moment, self.info))
        self.file.flush()
        os.fsync(self.file.fileno())
        self.pages += 1
        self.known[asked] = self.known[page.url] = Known(page.status, page.location)
        return self.known[asked]


def fetched(front: Front, url: str) -> Optional[Page]:
    """Has the gate fetch a page, or reports why there is none."""
    try:
        return front.fetch(url)
    except Denied as denied:
        why = f"NO {denied.authority} {denied.cause}"
    except Refused as refused:
        why = f"ERR {refused.word}"
    except Failed as failed:
        why = f"FAULT {failed}"
    except OSError as error:
        sys.exit(f"archive.py: no answer of a gate: {error}")
    print(f"{url}: {why}", file=sys.stderr)
    return None


def filed(front: Front, archive: Archive, url: str) -> Optional[Known]:
    """Files a page, and returns what is known of it then, if there is one."""
    moment = time.time()
    page = fetched(front, url)
    return archive.add(page, url, moment) if page else None


def take(front: Front, archive: Archive, url: str) -> None:
    """Files a page and those to which it leads, but for those that the archive has."""
    for _ in range(1 + MOST_REDIRECTS):
        url = url.partition("#")[0]
        known = archive.known.get(url) or filed(front, archive, url)
        if not known or known.location is None:
            return
        url = known.location
    print(f"{url}: STOP toomany", file=sys.stderr)


def main(given: List[str]) -> int:
    size = SIZE
    if given[3:4] == ["--size"] and given[4:] and given[4].isdigit():
        size = int(given.pop(4))
        given.pop(3)
    if len(given) != 3 or given[0].startswith("-"):
        sys.exit(__doc__)
    place, token, folder = given
    # (what is no text of UTF-8 is no URL either, and is reported as such)
    lines = sys.stdin.buffer.read().decode("utf-8", "surrogateescape").split("\n")
    urls = [it.strip() for it in lines if it.strip()]
    signals: List[int] = []
    for kind in (signal.SIGINT, signal.SIGTERM):
        signal.signal(kind, lambda number, _: signals.append(number))
    archive = Archive(folder, size)
    with Front(place, token) as front:
        for url in urls:
            if signals:
                break
            take(front, archive, url)
    print(f"pages {archive.pages}")
    return 1 if signals else 0


if __name__ == "__main__":
    sys.exit(main(sys.argv[1:]))
