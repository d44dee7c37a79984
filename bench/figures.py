"""What the scripts of bench have in common: the program, its time, tables, and what was installed when they ran."""
import contextlib
import importlib.metadata
import multiprocessing
import os
import platform
import signal
import subprocess
import sys
import tempfile
import time

sys.dont_write_bytecode = True
sys.path.append(f"{os.path.dirname(os.path.dirname(os.path.realpath(__file__)))}/checks")
from lib.program import BUILT, ROOT

# how many seconds a peer may take for one figure
PATIENCE = 5


def words_of(given, usage):
    """Returns the program, and by what counts are divided: 50 with --quick, which tries the script and no speed."""
    quick = "--quick" in given
    left = [it for it in given if it != "--quick"]
    if len(left) > 1 or any(it.startswith("-") for it in left):
        sys.exit(usage)
    program = left[0] if left else os.environ.get("CRAWLGATE", BUILT)
    if not os.path.isfile(program):
        sys.exit(f"there is no {program}: build it by checks/build, or name another")
    return os.path.realpath(program), 50 if quick else 1


def table(head, rows):
    """Prints a table: the first column to the left, and where there are figures the others to the right."""
    cells = [list(map(str, row)) for row in [head, *rows]]
    widths = [max(len(row[at]) for row in cells) for at in range(len(head))]
    sides = [at > 0 and any(row[at][:1].isdigit() for row in cells[1:]) for at in range(len(head))]
    for row in cells[:1] + [None] + cells[1:]:
        if row is None:
            line = ["-" * (width - side) + ":" * side for width, side in zip(widths, sides)]
        else:
            line = [it.rjust(width) if side else it.ljust(width) for it, width, side in zip(row, widths, sides)]
        print(f"| {' | '.join(line)} |", flush=True)


def figure(value):
    """Returns a number with about three digits."""
    if value is None:
        return "-"
    for bound, digits in ((100, 0), (10, 1), (1, 2)):
        if abs(value) >= bound:
            return f"{value:,.{digits}f}"
    return f"{value:.3f}"


def ratio(one, other):
    return "-" if one is None or not other else figure(one / other)


def version_of(package):
    try:
        return importlib.metadata.version(package)
    except importlib.metadata.PackageNotFoundError:
        return None


def said_by(*words):
    """Returns the first line that a program writes, or nothing."""
    try:
        ran = subprocess.run(words, capture_output=True, text=True, cwd=ROOT, timeout=10)
    except OSError:
        return ""
    return (ran.stdout + ran.stderr).split("\n")[0] if ran.returncode == 0 else ""


def machine():
    """Returns a line of when and on what the script ran."""
    with open("/proc/cpuinfo") as file:
        names = [line.split(":")[1].strip() for line in file if line.startswith("model name")]
    processors = f"{len(names)} times {names[0]}" if names else platform.machine()
    commit = said_by("git", "rev-parse", "--short", "HEAD")
    parts = [time.strftime("%Y-%m-%d"), processors, f"Python {platform.python_version()}"]
    return ", ".join(parts + [f"crawlgate of commit {commit}"] * bool(commit))


class Ran:
    """A run of the program: its replies, its seconds on the clock and of processor time, and its memory in octets."""

    def __init__(self, words, given):
        with tempfile.TemporaryFile() as lines, tempfile.TemporaryFile() as said:
            lines.write(given)
            lines.seek(0)
            began = time.perf_counter()
            process = subprocess.Popen(words, stdin=lines, stdout=said)
            status, used = os.wait4(process.pid, 0)[1:]
            self.clock = time.perf_counter() - began
            process.returncode = os.waitstatus_to_exitcode(status)
            said.seek(0)
            self.output = said.read()
        if process.returncode:
            sys.exit(f"{' '.join(words[1:])}: status {process.returncode}")
        self.processor, self.memory = used.ru_utime + used.ru_stime, used.ru_maxrss * 1024

    def lines(self):
        return self.output.decode().split("\n")[:-1]


def session(program, lines, *options):
    """Returns what `replay` does with lines."""
    return Ran([program, "replay", *options], "".join(f"{it}\n" for it in lines).encode())


def _tell(call, words, to):
    # (what it starts belongs to its group, which is ended with it)
    os.setsid()
    to.send(call(*words))
    to.recv()


def bounded(call, *words):
    """Returns what a call gives in a process of its own, or None where it takes longer than a peer may."""
    fork = multiprocessing.get_context("fork")
    mine, theirs = fork.Pipe()
    process = fork.Process(target=_tell, args=(call, words, theirs))
    process.start()
    theirs.close()
    try:
        return mine.recv() if mine.poll(PATIENCE) else None
    except EOFError:
        return None
    finally:
        with contextlib.suppress(ProcessLookupError):
            os.killpg(process.pid, signal.SIGKILL)
        process.kill()
        process.join()
