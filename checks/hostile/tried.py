"""What the parts of checks/hostile have in common: runs of the program, how they must end, and the report of what
failed."""
import collections
import random
import re
import shlex
import subprocess
import tempfile
import time

from lib.cases import difference, short

# how long a run may take, in seconds; what takes longer hangs
SECONDS = 20
# the exit statuses that docs/FORMATS.md lists
STATUSES = (0, 1, 2, 3)
# the last line of standard error where the status is 3
FAULT = re.compile(rb'(?m)^crawlgate: (no memory|device(: .+)?|cannot read ".*": .+)\n\Z')
MOST_TOLD = 20


class Tried:
    """What was tried of one part, and what of it failed."""

    def __init__(self, program, seed, part):
        self.program, self.seed, self.part = program, seed, part
        self.passed, self.failed, self.counts, self.folder = 0, 0, collections.Counter(), None
        self.case = self.began = 0

    def cases(self, seconds, only=None):
        """Gives the dice of one case after the other, for that many seconds; or those of the only case."""
        self.began = time.monotonic()
        self.case = only or 0
        while only is not None or self.case == 0 or time.monotonic() - self.began < seconds:
            yield random.Random(f"{self.seed} {self.part} {self.case}")
            self.case += 1
            if only is not None:
                return

    def count(self, name, by=1):
        self.counts[name] += by

    def expect(self, what, given, holds, told, words=()):
        """Counts something that must hold. What does not is told, with its input in a file, and its words beside it."""
        if holds:
            self.passed += 1
            return
        self.failed += 1
        if self.failed <= MOST_TOLD:
            print(
                f"FAILED {self.part}, seed {self.seed}, case {self.case}: {what[:200]}: {told}; input "
                f"{self.kept(given, words)}",
                flush=True,
            )

    def kept(self, given, words):
        """Writes an input to a file, and returns its name."""
        self.folder = self.folder or tempfile.mkdtemp(prefix=f"hostile-{self.part}-")
        name = f"{self.folder}/{self.seed}-{self.case}-{self.failed}"
        with open(name, "wb") as file:
            file.write(given)
        if words:
            with open(f"{name}.words", "w") as file:
                file.write(shlex.join(words) + "\n")
        return name

    def run(self, words, given, **how):
        """Returns what the program wrote, and its status and standard error; the status of a run that hangs is None."""
        self.count("runs")
        try:
            ran = subprocess.run([self.program, *words], input=given, capture_output=True, timeout=SECONDS, **how)
        except subprocess.TimeoutExpired:
            return b"", None, b""
        return ran.stdout, ran.returncode, ran.stderr

    def same(self, what, given, words, wanted, status=0, error=None):
        """Compares what the program writes, its status, and its standard error where that is given."""
        found, ended, told = self.run(words, given)
        about = f"{what}: {' '.join(words)}"
        if ended != status:
            self.expect(
                about, given, False, f"its status is {ended}, and not {status}; it wrote {short(found)}, {short(told)}",
                words,
            )
        else:
            self.expect(about, given, found == wanted, found != wanted and difference(found, wanted), words)
            if error is not None:
                self.expect(
                    about, given, told == error, told != error and f"of its standard error {difference(told, error)}",
                    words,
                )

    def survives(self, what, given, words, **how):
        """Sees to it that the program ends as it may, whatever it is given. Returns what it wrote, and its status."""
        found, status, error = self.run(words, given, **how)
        is_told = status in (0, 1, 2) or FAULT.search(error)
        told = "it hangs" if status is None else f"its status is {status}, and it tells {short(error)}"
        self.expect(
            f"{what}: {' '.join(map(str, words))}", given, status in STATUSES and is_told, told,
            [str(it) for it in words],
        )
        return found, status


