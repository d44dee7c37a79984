"""Cases of checks/serve on what a journal writes and syncs, and when (lib/writes.c): before each reply all entries, and
with the policy `always` a sync too. They need a C compiler."""
import contextlib
import os
import re
import shutil
import subprocess
import tempfile
import time

from journals import Recorded
from lib.cases import Skipped, same
from lib.program import ROOT
from lib.server import Session

# an ASK of a site that is not known: it makes an entry, and nothing is fetched for it
ASK = "ASK foobot http://a.example/x"
ASKS = 40


class Noted:
    """What a server with a journal writes and syncs, as letters."""

    def __init__(self, folder, sync):
        if not shutil.which("cc"):
            raise Skipped("there is no C compiler")
        self.file, library = f"{folder}/writes", f"{folder}/writes.so"
        subprocess.run(["cc", "-O1", "-shared", "-fPIC", "-o", library, f"{ROOT}/checks/lib/writes.c"], check=True)
        os.environ.update(LD_PRELOAD=library, WRITES=self.file)
        try:
            self.server = Recorded(folder, "--journal-sync", sync)
        finally:
            os.environ.pop("LD_PRELOAD")
            os.environ.pop("WRITES")

    def letters(self):
        with open(self.file) as file:
            return file.read()


@contextlib.contextmanager
def noted(sync):
    """A server with a journal of that policy, a session, and what it wrote since the session began."""
    with tempfile.TemporaryDirectory() as folder:
        it = Noted(folder, sync)
        with it.server, Session(it.server) as session:
            same(session.say("STATE a.example"), "STATE a.example unknown idle")
            before = len(it.letters())
            yield session, lambda: it.letters()[before:]


def asked(session):
    for _ in range(ASKS):
        same(session.say(ASK), "NO a.example unknown")


def always_synced_before_a_reply():
    """Behind each entry stands a sync before the reply; each reply has its own."""
    with noted("always") as (session, letters):
        asked(session)
        found = letters()
        same(re.findall("J[^SR]*R", found), [])
        same(found.count("R"), ASKS)
        assert ASKS <= found.count("S") <= ASKS + 5, found
        same(len(re.findall("JS+R", found)), ASKS)


def synced_each_second():
    """Each entry is written before the reply; once a second all is synced."""
    with noted("second") as (session, letters):
        asked(session)
        begun = time.monotonic()
        while letters().count("S") == 0:
            assert time.monotonic() < begun + 5, letters()
            time.sleep(0.05)
        found = letters()
        same(found.count("R"), ASKS)
        same(len(re.findall("JS*R", found)), ASKS)
        assert found.rindex("J") < found.rindex("S"), found
        time.sleep(2.5)
        assert letters().count("S") < 8, letters()


def never_synced():
    """Each entry is written before the reply, and nothing is synced."""
    with noted("never") as (session, letters):
        asked(session)
        time.sleep(2.5)
        found = letters()
        same(found.count("S"), 0)
        same(len(re.findall("JR", found)), ASKS)


CASES = [always_synced_before_a_reply, synced_each_second, never_synced]
