#!/usr/bin/env python3
"""The evidence of a fleet: the journals of its gates, each in a folder of its own.

usage: evidence.py audit [--https] FOLDER ..
       evidence.py starts AUTHORITY FOLDER ..

`audit` audits all folders side by side, each by `crawlgate audit` (or the program of $CRAWLGATE). It writes a line for
each folder, and a last one that adds up: `FLEET folders 3 right 3 events 120 starts 36`. Of a history that is not right
it names the file and the line. The gates may be running: a last line without its end is left out, since its client was
not answered yet. --https is for gates that fetch https.

`starts` writes a line for each start of a page of one site, from all gates in the order of their moments:
`<moment> <folder> <permit> <token> <url> <reason>`; and a last one: `SITE a.example gates 1 starts 2`. An authority of
https is written `https://a.example`.

The status is 1 if a history is not right, and 2 if a folder can't be read.
"""
import contextlib
import heapq
import os
import re
import subprocess
import sys
from concurrent.futures import ProcessPoolExecutor, ThreadPoolExecutor

PIECE = 1_048_576
USUAL_PORTS = {"http": "80", "https": "443"}


class Unreadable(Exception):
    """A folder that has no journal that can be read, and why."""


def files_of(folder):
    """Returns the paths of a journal's files, in the order of its entries."""
    try:
        names = sorted(it for it in os.listdir(folder) if re.fullmatch(r"\d{20}(\.log)?", it))
    except OSError as error:
        raise Unreadable(f"{folder}: {error.strerror}") from None
    if not names:
        raise Unreadable(f"{folder} has no files of a journal")
    return [f"{folder}/{it}" for it in names]


def pieces_of(path, is_last):
    """Returns the octets of a file in pieces that end with a line; of the last file without a line that has no end."""
    left = b""
    with open(path, "rb") as file:
        while piece := file.read(PIECE):
            whole, end, left = (left + piece).rpartition(b"\n")
            if end:
                yield whole + end
    if left and not is_last:
        yield left


def texts_of(folder):
    """Returns the octets of a journal in pieces."""
    paths = files_of(folder)
    for path in paths:
        yield from pieces_of(path, path == paths[-1])


def place_of(folder, number):
    """Returns the file and the line in it, of a line that is counted over all files."""
    for path in files_of(folder):
        pieces = [(it.count(b"\n"), not it.endswith(b"\n")) for it in pieces_of(path, False)]
        ends = sum(count for count, _ in pieces)
        # (a line that has no end here goes on in the next file)
        if number <= ends + any(is_open for _, is_open in pieces):
            break
        number -= ends
    return f"{path} line {number}"


def audited(folder, words):
    """Returns what the audit of a folder says."""
    program = os.environ.get("CRAWLGATE", "crawlgate")
    with subprocess.Popen([program, "audit", *words], stdin=subprocess.PIPE, stdout=subprocess.PIPE) as process:
        # (an audit ends at a bad line)
        with contextlib.suppress(BrokenPipeError), process.stdin:
            for piece in texts_of(folder):
                process.stdin.write(piece)
        return process.stdout.read().decode().rstrip("\n")


def audit(words, folders):
    """Audits folders side by side, and adds up. Returns the exit status."""
    sums = {"right": 0, "events": 0, "starts": 0}
    with ThreadPoolExecutor(os.cpu_count()) as threads:
        for folder, said in zip(folders, threads.map(lambda it: audited(it, words), folders)):
            right = re.fullmatch(r"OK events (\d+) starts (\d+)", said)
            bad = re.fullmatch(r"BAD line (\d+)", said)
            print(folder, f"BAD {place_of(folder, int(bad[1]))}" if bad else said or "FAILED", flush=True)
            if right:
                sums["right"] += 1
                sums["events"] += int(right[1])
                sums["starts"] += int(right[2])
    print("FLEET folders", len(folders), *(word for pair in sums.items() for word in pair))
    return 0 if sums["right"] == len(folders) else 1


def written(authority):
    """Returns an authority as a gate writes it: in lower case, and without the port of its scheme."""
    scheme, _, name = authority.lower().rpartition("://")
    name = name.rstrip("/").removesuffix(f":{USUAL_PORTS[scheme or 'http']}")
    return f"https://{name}" if scheme == "https" else name


def starts_of(folder, authority):
    """Returns the starts of a site in a folder, in order: moment, folder, permit, token, URL, reason."""
    begin = (authority if authority.startswith("https://") else f"http://{authority}") + "/"
    permits, found, left = {}, [], b""
    for piece in texts_of(folder):
        *lines, left = (left + piece).split(b"\n")
        for line in lines:
            note_line(line.decode(), begin, permits, found)
    return [(moment, folder, *rest) for moment, *rest in found]


def note_line(line, begin, permits, found):
    """Notes a line of a history: a permit of the site that is granted or was out before, or its start."""
    kind, _, rest = line.partition(" ")
    words = rest.split(" ")
    if kind in ("G", "U") and words[-1].startswith(begin):
        number, token, url = words[-3:]
        permits[number] = (token, url)
    elif kind == "S" and words[1] in permits:
        found.append((int(words[0]), words[1], *permits.pop(words[1]), " ".join(words[2:])))


def starts(authority, folders):
    """Writes the starts of a site over all folders. Returns the exit status."""
    authority = written(authority)
    with ProcessPoolExecutor() as processes:
        parts = list(processes.map(starts_of, folders, [authority] * len(folders)))
    for row in heapq.merge(*parts):
        print(*row)
    print("SITE", authority, "gates", sum(bool(it) for it in parts), "starts", sum(map(len, parts)))
    return 0


def main(given):
    what, *given = given or [""]
    words = [given.pop(0)] if what == "audit" and given[:1] == ["--https"] else []
    least = {"audit": 1, "starts": 2}.get(what)
    if not least or len(given) < least or any(it.startswith("-") for it in given):
        sys.exit(__doc__)
    folders = given[least - 1 :]
    if len({os.path.realpath(it) for it in folders}) < len(folders):
        sys.exit("evidence.py: a folder is given twice")
    try:
        for it in folders:
            files_of(it)
        return audit(words, folders) if what == "audit" else starts(given[0], folders)
    except (Unreadable, OSError) as error:
        print(f"evidence.py: {error}", file=sys.stderr)
        return 2


if __name__ == "__main__":
    sys.exit(main(sys.argv[1:]))
