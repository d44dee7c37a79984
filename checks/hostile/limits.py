"""A system that has little left: no threads, few descriptors, little room for addresses, a full disk, and an end by a
signal."""
import contextlib
import os
import re
import resource
import select
import shutil
import signal
import subprocess
import tempfile
import time

from lib.cases import short
from tried import SECONDS
import memory
from auditor import audit

NOBODY = 65_534
HOPS = re.compile(r"([1-9] [1-9] .*\n)*")


def without_threads():
    """(A privileged user may have as many threads as it likes; where it can be no other one, it has them.)"""
    with contextlib.suppress(PermissionError):
        if os.geteuid() == 0:
            os.setgroups([])
            os.setgid(NOBODY)
            os.setuid(NOBODY)
    resource.setrlimit(resource.RLIMIT_NPROC, (0, 0))


def limited(which, most):
    return lambda: resource.setrlimit(which, (most, most))


def no_threads(tried, site):
    """A shift and a server do all on the one thread that there is. (The program is copied to where nobody may read
    it.)"""
    with tempfile.TemporaryDirectory() as folder:
        os.chmod(folder, 0o755)
        own, tried.program = tried.program, shutil.copy(tried.program, f"{folder}/crawlgate")
        try:
            shift_alone(tried, site)
            serve_alone(tried, site)
        finally:
            tried.program = own


def shift_alone(tried, site):
    given = "".join(f"foobot http://{site.authority}{it}\n" for it in ["/x", "/no", "/x"]).encode()
    report = (
        f"1 1 PAGE norule 200 5 whole\n2 1 NO {site.authority} line 2\n3 1 PAGE norule 200 5 whole\n"
        "SHIFT jobs 3 hops 3 starts 2\n"
    ).encode()
    found, status = tried.survives("no threads", given, ["shift"], preexec_fn=without_threads)
    tried.expect("no threads: a shift", given, (found, status) == (report, 0), f"status {status}, {short(found)}")


def serve_alone(tried, site):
    serve = memory.Serve(site)
    wrong, found, status, error = serve.run(tried.program, None, without_threads)
    wrong = wrong or serve.fault(tried, found, status, error)
    tried.expect(
        "no threads: a server", b"", not wrong and status == 0,
        wrong or f"status {status}, {short(found)}, {short(error)}",
    )


def few_descriptors(tried, site):
    """A shift that can open no socket closes each site, and ends."""
    given = f"foobot http://{site.authority}/x\nfoobot http://b.invalid/\n".encode()
    for most in range(4, 8):
        found, status = tried.survives(
            "few descriptors", given, ["shift", "--workers", "1"], preexec_fn=limited(resource.RLIMIT_NOFILE, most),
        )
        is_told = status == 0 and found.endswith(b" starts %d\n" % found.count(b"PAGE")) and HOPS.match(found.decode())
        tried.expect(f"{most} descriptors: a shift", given, is_told, f"status {status}, {short(found)}")


def little_room(tried, site, seconds):
    """The room for addresses grows from none on, until each session ends as it does with all of it."""
    sessions = [
        ("replay", memory.Replay([it.encode() for it in memory.replay_lines()], most=1_000)),
        ("audit", memory.Same(["audit"], memory.chain())), ("shift", memory.Shift(site)),
    ]
    sizes = [at << 19 for at in range(2, 600)]
    until = time.monotonic() + seconds
    for name, session in sessions:
        each = max(1, int(len(sizes) * 0.02 * len(sessions) / seconds))
        for size in sizes[::each]:
            if time.monotonic() > until:
                return
            found, status, error = tried.run(session.words, session.given, preexec_fn=limited(resource.RLIMIT_AS, size))
            if b"shared object" in error or b"shared libraries" in error or status in (
                -signal.SIGKILL, -signal.SIGSEGV,
            ) and not is_started(tried, size):
                continue
            wrong = "it hangs" if status is None else session.fault(tried, found, status, error)
            tried.count(f"sizes of room of {name}")
            tried.expect(f"{size >> 10} KiB of room: {name}", session.given, not wrong, wrong, session.words)


def is_started(tried, size):
    """Returns whether the program begins at all in so little room: the system may not load it."""
    return tried.run(["--version"], b"", preexec_fn=limited(resource.RLIMIT_AS, size))[1] == 2


def full_file(tried, size=4_096):
    """The output is a file that may not grow past a limit: what stands in it is a prefix of what would."""
    lines = b"".join(b"%d STATE a.example\n" % at for at in range(1_000))
    whole = b"STATE a.example unknown idle\n" * 1_000
    with tempfile.TemporaryFile() as file:

        def limit():
            # (otherwise the signal for a file that is too large ends it)
            signal.signal(signal.SIGXFSZ, signal.SIG_IGN)
            resource.setrlimit(resource.RLIMIT_FSIZE, (size, size))

        ran = subprocess.run(
            [tried.program, "replay"], input=lines, stdout=file, stderr=subprocess.PIPE, timeout=SECONDS,
            preexec_fn=limit,
        )
        file.seek(0)
        found = file.read()
    is_told = (ran.returncode, ran.stderr) == (
        3, b"crawlgate: device: standard output: file too large\n",
    ) and whole.startswith(found)
    tried.expect("a full file", lines, is_told, f"status {ran.returncode}, {short(ran.stderr)}, {len(found)} octets")


def killed(tried, number):
    """What was answered before a signal stands; segments that were handed out are right by themselves."""
    # (what a shell starts in the background ignores some signals, and so does what that starts)
    process = subprocess.Popen(
        [tried.program, "replay"], stdin=subprocess.PIPE, stdout=subprocess.PIPE,
        preexec_fn=lambda: signal.signal(signal.SIGINT, signal.SIG_DFL),
    )
    lines = list(memory.replay_lines())
    lines = lines[: lines.index("8 SEAL") + 1]
    process.stdin.write("".join(f"{it}\n" for it in lines).encode())
    process.stdin.flush()
    replies = [process.stdout.readline() for _ in lines]
    segment = b"".join(process.stdout.readline() for _ in range(int(replies[-1].split()[1])))
    process.send_signal(number)
    rest = process.communicate(timeout=SECONDS)[0]
    told = audit(segment)
    tried.expect(
        f"signal {number}", b"", told.startswith("OK ") and not rest and process.returncode == -number,
        f"{told}, status {process.returncode}, {short(rest)}",
    )


def replies_first(tried):
    """However the lines come, each reply is there before the program waits for the next line."""
    lines, reply = b"1 BACK 7\n" * 5, b"ERR notout\n"
    for cut in (1, 3, 10, len(lines)):
        process = subprocess.Popen([tried.program, "replay"], stdin=subprocess.PIPE, stdout=subprocess.PIPE)
        found, sent = b"", 0
        while sent < len(lines):
            piece = lines[sent : sent + cut]
            process.stdin.write(piece)
            process.stdin.flush()
            sent += len(piece)
            wanted = reply * lines[:sent].count(b"\n")
            while len(found) < len(wanted) and select.select([process.stdout], [], [], SECONDS)[0]:
                found += os.read(process.stdout.fileno(), 4_096)
            tried.expect(
                "replies before the next line", lines[:sent], found == wanted, f"{short(found)}, in pieces of {cut}",
            )
        rest = process.communicate(timeout=SECONDS)[0]
        tried.expect("replies before the next line", lines, not rest and process.returncode == 0, short(rest))


def try_all(tried, seconds, only=None):
    site = memory.hostile_site()
    no_threads(tried, site)
    few_descriptors(tried, site)
    full_file(tried)
    replies_first(tried)
    for number in (signal.SIGTERM, signal.SIGINT, signal.SIGKILL):
        killed(tried, number)
    little_room(tried, site, seconds)
