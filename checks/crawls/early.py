"""Shifts that end early, once no process holds the pipe of `--until` open for writing: what they write of what is
done."""
import asyncio
import contextlib
import os
import tempfile
import time

from lib.server import Server
from loopback import NO_ROBOTS, Replies, answer, sites_of

PIPES = dict.fromkeys(("stdin", "stdout", "stderr"), asyncio.subprocess.PIPE)
# the third job hangs, and the twenty after it are done
DONE = [1, 2, *range(4, 24)]
REPORT = [*(f"{job} 1 PAGE open 200 5 whole" for job in DONE), "SHIFT jobs 22 hops 22 starts 22 left 1"]
# longer than a stopped fetch and a look at a pause take
ENDED = 2.5


@contextlib.contextmanager
def held_pipe():
    """A folder, a pipe in it, and what lets the pipe go."""
    with tempfile.TemporaryDirectory() as folder:
        path = os.path.join(folder, "stop")
        os.mkfifo(path)
        holder = os.open(path, os.O_RDWR)
        held = [holder]

        def let_go():
            os.close(held.pop())

        yield folder, path, let_go
        if held:
            let_go()


async def begun(words, jobs):
    """A shift that was told these jobs."""
    process = await asyncio.create_subprocess_exec(Server.program, "shift", *words, **PIPES)
    process.stdin.write("".join(f"foobot http://{site.address}{target}\n" for site, target in jobs).encode())
    process.stdin.close()
    return process


async def ended(process, let_go):
    """Lets the pipe go, and returns the status, the output, what was told, and the seconds until the end."""
    began = time.monotonic()
    let_go()
    written, told = await process.communicate()
    return process.returncode, written.decode(), told.decode(), time.monotonic() - began


async def audited(history):
    process = await asyncio.create_subprocess_exec(Server.program, "audit", **PIPES)
    said, _ = await process.communicate(history)
    return said.decode()


async def behind_a_hanging_page(words, path, let_go):
    """Ends a shift whose third job hangs, and returns its output and the seconds that it took to end."""
    good, hanging = await sites_of(answer, Replies(NO_ROBOTS, None))
    jobs = [(good, "/0"), (good, "/1"), (hanging, "/2"), *((good, f"/{n}") for n in range(3, 23))]
    process = await begun([*words, "--until", path], jobs)
    while len(good.pages) < 22 or not hanging.pages:
        await asyncio.sleep(0.01)
    # (a page is done a moment after it is asked for)
    await asyncio.sleep(0.5)
    status, written, told, seconds = await ended(process, let_go)
    for site in (good, hanging):
        site.server.close()
    left = f"crawlgate: shift: ended early, 1 jobs were not done\n3 foobot http://{hanging.address}/2\n"
    assert (status, told) == (1, left), (status, told)
    return written, seconds


async def early_report():
    """The report has the jobs that are done, in their order, and its last line how many are left."""
    with held_pipe() as (_, path, let_go):
        written, seconds = await behind_a_hanging_page([], path, let_go)
    assert written.splitlines() == REPORT, written
    return "seconds from the end of the pipe to that of a shift with a report", seconds, ENDED


async def early_table():
    with held_pipe() as (_, path, let_go):
        written, seconds = await behind_a_hanging_page(["--tsv"], path, let_go)
    rows = sorted(int(row.partition("\t")[0]) for row in written.splitlines()[1:])
    assert rows == DONE and written.endswith("\n"), written
    return "seconds from the end of the pipe to that of a shift with a table", seconds, ENDED


async def early_history():
    """The history has the start of the page that hangs too."""
    with held_pipe() as (_, path, let_go):
        written, seconds = await behind_a_hanging_page(["--export"], path, let_go)
    said = await audited(written.encode())
    assert said.startswith("OK events ") and said.endswith(" starts 23\n"), said
    return "seconds from the end of the pipe to that of a shift with a history", seconds, ENDED


async def early_journal():
    with held_pipe() as (folder, path, let_go):
        journal = os.path.join(folder, "journal")
        written, seconds = await behind_a_hanging_page(["--journal", journal], path, let_go)
        pieces = []
        for name in sorted(it for it in os.listdir(journal) if it[0].isdigit()):
            with open(os.path.join(journal, name), "rb") as file:
                pieces.append(file.read())
    said = await audited(b"".join(pieces))
    assert written.splitlines() == REPORT, written
    assert said.startswith("OK events ") and said.endswith(" starts 23\n"), said
    return "seconds from the end of the pipe to that of a shift with a journal", seconds, ENDED


async def early_pauses():
    """Workers that wait for a pause of ten minutes end too, and nothing more is fetched."""
    sites = await sites_of(answer, answer)
    with held_pipe() as (_, path, let_go):
        jobs = [(site, f"/{n}") for n in range(3) for site in sites]
        process = await begun(["--delay", "600", "--until", path], jobs)
        while not all(site.robots for site in sites):
            await asyncio.sleep(0.01)
        await asyncio.sleep(0.5)
        status, written, told, seconds = await ended(process, let_go)
    pages = sum(len(site.pages) for site in sites)
    for site in sites:
        site.server.close()
    assert status == 1 and written == "SHIFT jobs 0 hops 0 starts 0 left 6\n" and not pages, (status, written, pages)
    assert told.splitlines()[0] == "crawlgate: shift: ended early, 6 jobs were not done" and told.count("\n") == 7, told
    return "seconds from the end of the pipe to that of a shift whose workers wait for pauses", seconds, ENDED


async def without_end():
    """With a pipe that is held to the end a shift is as without one, also by the number of a descriptor."""
    faults = 0
    for by_number in (False, True):
        (site,) = await sites_of(answer)
        reading, writing = os.pipe()
        os.set_inheritable(reading, True)
        with held_pipe() as (_, path, _):
            until = f"/dev/fd/{reading}" if by_number else path
            process = await asyncio.create_subprocess_exec(
                Server.program, "shift", "--until", until, pass_fds=[reading], **PIPES
            )
            lines = "".join(f"foobot http://{site.address}/{n}\n" for n in range(5))
            written, told = await process.communicate(lines.encode())
        os.close(reading)
        os.close(writing)
        site.server.close()
        report = "".join(f"{n} 1 PAGE open 200 5 whole\n" for n in range(1, 6)) + "SHIFT jobs 5 hops 5 starts 5\n"
        faults += (process.returncode, written.decode(), told) != (0, report, b"")
    return "shifts whose pipe is held to the end that are not as without one", faults, 0


async def no_pipe():
    """A name of nothing, a file and a folder are no pipes, and nothing is fetched."""
    (site,) = await sites_of(answer)
    with tempfile.TemporaryDirectory() as folder:
        file = os.path.join(folder, "file")
        with open(file, "w"):
            pass
        none = os.path.join(folder, "none")
        cases = [
            (none, f'crawlgate: device: pipe "{none}": entity not found\n'),
            (file, f'crawlgate: device: "{file}" is no pipe\n'),
            (folder, f'crawlgate: device: "{folder}" is no pipe\n'),
        ]
        faults = 0
        for path, wanted in cases:
            process = await begun(["--until", path], [(site, "/x")])
            written, told = await process.communicate()
            faults += (process.returncode, written, told.decode()) != (3, b"", wanted)
    site.server.close()
    return "paths that are no pipes and were taken, or requests for them", faults + len(site.moments), 0


TIMED = [early_report, early_table, early_history, early_journal, early_pauses]
CRAWLS = [*TIMED, without_end, no_pipe]
