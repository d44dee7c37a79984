"""What a shift writes while it crawls: its report, a line of progress, what it tells of closed sites; and where the
output goes."""
import asyncio
import contextlib
import os
import signal
import socket
import time

from lib.server import Server
from loopback import PAGE, SLOW, Replies, NO_ROBOTS, answer, hang_at_last, linger, sites_of


async def seconds_behind_output(words):
    """A shift with two pages that hang, whose output goes once a line is read."""
    good, hanging = await sites_of(linger, Replies(NO_ROBOTS, None))
    pipes = dict.fromkeys(("stdin", "stdout", "stderr"), asyncio.subprocess.PIPE)
    process = await asyncio.create_subprocess_exec(Server.program, "shift", *words, **pipes)
    jobs = [(good, f"/{n}") for n in range(100)] + [(hanging, f"/{n}") for n in range(2)]
    lines = "".join(f"foobot http://{site.address}{target}\n" for site, target in jobs)
    process.stdin.write(lines.encode())
    process.stdin.close()
    await process.stdout.readline()
    while len(hanging.pages) < 2:
        await asyncio.sleep(0.01)
    process._transport.get_pipe_transport(1).close()
    began = time.monotonic()
    told = await process.stderr.read()
    status = await process.wait()
    seconds = time.monotonic() - began
    for site in (good, hanging):
        site.server.close()
    assert (status, told) == (3, b"crawlgate: device: standard output: broken pipe\n"), (status, told)
    return seconds


async def output_gone():
    seconds = [await seconds_behind_output(words) for words in ([], ["--tsv"])]
    return "seconds from the end of the output to that of the shift", max(seconds), 2.0


async def lines_in_time():
    """Lines wait for others only for a moment: those of pages that are done are there while the next page hangs."""
    (site,) = await sites_of(hang_at_last)
    process = await asyncio.create_subprocess_exec(
        Server.program, "shift", "--workers", "1", stdin=asyncio.subprocess.PIPE, stdout=asyncio.subprocess.PIPE
    )
    began = time.monotonic()
    targets = [*(f"/{n}" for n in range(5)), "/last"]
    process.stdin.write("".join(f"foobot http://{site.address}{target}\n" for target in targets).encode())
    process.stdin.close()
    lines = [await asyncio.wait_for(process.stdout.readline(), SLOW) for _ in range(5)]
    seconds = time.monotonic() - began
    process.kill()
    await process.wait()
    site.server.close()
    assert lines == [b"%d 1 PAGE open 200 5 whole\n" % n for n in range(1, 6)], lines
    return "seconds until five lines are read, while the sixth page hangs", seconds, 1.0


async def left_by_a_signal(number, words):
    """What a shift has written when a signal ends it, while its third job hangs and the twenty after it are done."""
    good, hanging = await sites_of(answer, Replies(NO_ROBOTS, None))
    pipes = dict.fromkeys(("stdin", "stdout", "stderr"), asyncio.subprocess.PIPE)
    # (a shell has what it runs in the background ignore SIGINT)
    process = await asyncio.create_subprocess_exec(
        Server.program, "shift", *words, **pipes, preexec_fn=lambda: signal.signal(number, signal.SIG_DFL)
    )
    jobs = [(good, "/0"), (good, "/1"), (hanging, "/2"), *((good, f"/{n}") for n in range(3, 23))]
    process.stdin.write("".join(f"foobot http://{site.address}{target}\n" for site, target in jobs).encode())
    process.stdin.close()
    while len(good.pages) < 22:
        await asyncio.sleep(0.01)
    # (lines wait for others for a tenth of a second)
    await asyncio.sleep(0.5)
    process.send_signal(number)
    written, told = await process.communicate()
    for site in (good, hanging):
        site.server.close()
    assert (process.returncode, told) == (-number, b""), (process.returncode, told)
    return written.decode().splitlines()


async def signals():
    """SIGINT and SIGTERM end a shift at once: its report has the jobs before the first that is not done, whole lines
    and in order; its table has each hop that has ended."""
    lines = []
    for number in (signal.SIGINT, signal.SIGTERM):
        report = await left_by_a_signal(number, [])
        assert report == [f"{job} 1 PAGE open 200 5 whole" for job in (1, 2)], report
        table = await left_by_a_signal(number, ["--tsv"])
        lines.append(sorted(int(row.partition("\t")[0]) for row in table[1:]))
    wanted = [1, 2, *range(4, 24)]
    return "signals that lose a line of a table", sum(it != wanted for it in lines), 0


async def writes_of(words):
    """How many writes a shift of 200 pages makes: each is a packet."""
    (site,) = await sites_of(answer)
    ours, theirs = socket.socketpair(socket.AF_UNIX, socket.SOCK_SEQPACKET)
    with ours, theirs:
        process = await asyncio.create_subprocess_exec(
            Server.program, "shift", *words, stdin=asyncio.subprocess.PIPE, stdout=theirs,
        )
        theirs.close()
        process.stdin.write("".join(f"foobot http://{site.address}/{n}\n" for n in range(200)).encode())
        process.stdin.close()
        packets = await asyncio.to_thread(lambda: list(iter(lambda: ours.recv(1 << 20), b"")))
    assert await process.wait() == 0 and b"".join(packets).count(b"\n") == 201, packets[-1:]
    site.server.close()
    return len(packets)


async def lines_share_writes():
    writes = [await writes_of(words) for words in ([], ["--tsv"])]
    return "writes of a shift of 200 pages", max(writes), 40


async def paced_output_gone():
    """A shift whose output has gone waits for no more turns: a hundred pages with pauses of two seconds would take
    minutes."""
    seconds = [await seconds_behind_output(["--delay", "2", *words]) for words in ([], ["--tsv"])]
    return "seconds from the end of the output to that of a shift with pauses", max(seconds), 4.0


async def closed_sites():
    """Each site that its robots.txt closed is reported once, with its cause, however many of its pages are denied."""
    refusing = Replies(b"HTTP/1.1 503 No\r\nContent-Length: 0\r\n\r\n", PAGE)
    closed, other, open_site = await sites_of(refusing, refusing, answer)
    process = await asyncio.create_subprocess_exec(
        Server.program, "shift", "--workers", "4", "--skip",
        stdin=asyncio.subprocess.PIPE, stdout=asyncio.subprocess.PIPE, stderr=asyncio.subprocess.PIPE,
    )
    jobs = [f"foobot http://{site.address}/{n}\n" for n in range(20) for site in (closed, open_site, other)]
    report, told = await process.communicate("".join(["foobot\n", *jobs]).encode())
    for site in (closed, other, open_site):
        site.server.close()
    assert process.returncode == 1 and report.count(b" closed\n") == 40, (process.returncode, report[-200:])
    skipped, *lines = told.decode().splitlines()
    assert skipped == "line 1: words", told
    assert sorted(lines) == sorted(f"{site.address} is closed: robots: 503" for site in (closed, other)), told
    return "lines that tell two closed sites", len(lines), 2


def read_all(terminal):
    """Reads what was written to a terminal that nobody has open any more."""
    pieces = []
    with contextlib.suppress(OSError):
        while piece := os.read(terminal, 65_536):
            pieces.append(piece)
    os.close(terminal)
    return b"".join(pieces)


async def status_line():
    """Standard error is a terminal, standard output is none."""
    (site,) = await sites_of(linger)
    terminal, end = os.openpty()
    process = await asyncio.create_subprocess_exec(
        Server.program, "shift", stdin=asyncio.subprocess.PIPE, stdout=asyncio.subprocess.PIPE, stderr=end
    )
    os.close(end)
    lines = "".join(f"foobot http://{site.address}/{n}\n" for n in range(60))
    report, _ = await process.communicate(lines.encode())
    assert report.endswith(b"SHIFT jobs 60 hops 60 starts 60\n"), report[-200:]
    shown = read_all(terminal).decode()
    assert " of 60 jobs done, " in shown and " fetches under way, 0 sites closed\x1b[K" in shown, shown
    assert shown.startswith("\r") and shown.endswith("\r\x1b[K"), shown
    return "times that the line of progress was written", shown.count("done"), 60


TIMED = [lines_in_time, lines_share_writes, output_gone, paced_output_gone]
CRAWLS = [closed_sites, signals, *TIMED, status_line]
