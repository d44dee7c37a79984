"""What earlier runs of a check on this machine found, so that the same is not tried again.

It is kept in $XDG_CACHE_HOME/crawlgate (else ~/.cache/crawlgate), in folders that belong to the user who runs the
check, and that no one else can read or write. Anything else found there is not used, and without such a folder all is
tried. Two things are kept:

- folders of rattle's own (`--incremental`): with each module it keeps the sums of everything that the module was made
  from, takes only what is up to date, and nothing that another build of rattle made;
- verdicts, each under the sum of everything that was read for it. One that is damaged counts for nothing, and one in
  AGAIN is drawn and tried again in each run.
"""
import contextlib
import fcntl
import hashlib
import json
import os
import secrets
import shutil
import stat
import tempfile
import time

from lib.toolchain import rt, rtlib

# of that many kept verdicts one is tried again in each run
AGAIN = 16
# the free bytes of disk below which no more folders are kept
LEAVES = 8_000_000_000
# the days after which a verdict that no run has used is removed
DAYS = 30


def sum_of(*parts):
    return hashlib.sha256(repr(parts).encode()).hexdigest()


def octets(file):
    with open(file, "rb") as it:
        return it.read()


def texts_of(folder, parts):
    """Returns the path and the octets of each file in these parts of a folder."""
    walked = (it for part in parts for it in os.walk(f"{folder}/{part}"))
    files = sorted(f"{at}/{name}" for at, _, names in walked for name in names)
    return [(os.path.relpath(it, folder), octets(it)) for it in files]


def is_own(path, kind=stat.S_ISDIR):
    """Returns whether this is a folder, or what the kind says, of this user's, closed to all others, and no link."""
    found = os.lstat(path)
    return kind(found.st_mode) and found.st_uid == os.geteuid() and not found.st_mode & 0o077


def is_safe(folder):
    """Returns whether no other user can replace what is in this folder."""
    found = os.stat(folder)
    return found.st_uid in (0, os.geteuid()) and not found.st_mode & 0o022


class Store:
    """The folder of one check in the cache. Its path is None where there can be none."""

    def __init__(self, part, anew=False):
        """anew: nothing is taken from it, but what is found is kept."""
        self.anew, self.is_distrusted = anew, False
        self.at = self.folder(part)

    @staticmethod
    def folder(*names):
        """Returns the folder of these names, made where there is none, or None where it can't be used."""
        at = os.environ.get("XDG_CACHE_HOME") or os.path.expanduser("~/.cache")
        with contextlib.suppress(OSError):
            os.makedirs(at, 0o700, exist_ok=True)
            if not os.path.isabs(at) or not is_safe(at):
                return None
            for it in ("crawlgate", *names):
                at = f"{at}/{it}"
                os.makedirs(at, 0o700, exist_ok=True)
                if not is_own(at):
                    return None
            return at
        return None

    def part(self, *names):
        return self.at and self.folder(os.path.basename(self.at), *names)

    def has_room(self):
        found = os.statvfs(self.at)
        return found.f_bavail * found.f_frsize > LEAVES

    @contextlib.contextmanager
    def increments(self, name):
        """Lends a kept folder of rattle's only to this process. Another one, which is removed again, where it can't be
        kept or another process has it. Its content is removed first where all is to be done anew."""
        at = self.part("increments", name) if self.at and not self.is_distrusted else None
        with contextlib.ExitStack() as held:
            if at and self.has_room():
                lock = held.enter_context(open(f"{at}/lock", "w", encoding="utf-8"))
                try:
                    fcntl.flock(lock, fcntl.LOCK_EX | fcntl.LOCK_NB)
                except BlockingIOError:
                    at = None
            else:
                at = None
            if at and self.anew:
                for it in set(os.listdir(at)) - {"lock"}:
                    shutil.rmtree(f"{at}/{it}")
            yield at or held.enter_context(tempfile.TemporaryDirectory(prefix="increments-"))

    def was_tried(self, name):
        """Returns whether all of this name was tried on this machine before."""
        at = None if self.anew else self.part("tried")
        return bool(at) and os.path.isfile(f"{at}/{name}")

    def note_tried(self, name):
        at = self.part("tried")
        if at:
            with open(f"{at}/{name}", "w", encoding="utf-8"):
                pass

    def end(self):
        """Ends a run: removes what no run has used for long, and everything where a verdict turned out wrong."""
        if self.at and self.is_distrusted:
            shutil.rmtree(self.at, ignore_errors=True)
        at = self.part("verdicts") if self.at and not self.is_distrusted else None
        for it in os.scandir(at) if at else ():
            with contextlib.suppress(OSError):
                if time.time() - it.stat(follow_symlinks=False).st_mtime > DAYS * 86_400:
                    os.remove(it.path)


def begun_with(folder, other):
    """Makes a folder of rattle's that begins with what another holds, by links: rattle replaces such a file and never
    writes into it."""
    if not os.path.isdir(folder) and os.path.isdir(other):
        part = f"{folder}.new"
        shutil.rmtree(part, ignore_errors=True)
        linked = lambda one, to: os.link(one, to) if one.endswith(".oantt") else shutil.copy2(one, to)
        shutil.copytree(other, part, copy_function=linked)
        os.rename(part, folder)
    os.makedirs(folder, exist_ok=True)
    return folder


class Verdicts:
    """What passed before, each under the sum of everything that was read for it."""

    def __init__(self, store, scripts):
        # (an older kit has no such sums, so nothing is kept)
        has_sums = hasattr(rt, "kit_sum") and hasattr(rt, "own_sum")
        self.store, self.at = store, store.part("verdicts") if store.at and has_sums else None
        self.draw, self.libraries = secrets.token_hex(16), {}
        self.judge = sum_of([octets(it) for it in (*scripts, __file__, rt.__file__, rtlib.__file__)])

    def built(self, crate):
        """Returns a sum of all files of the library that was built of a crate."""
        files = sorted(f"{at}/{it}" for at, _, names in os.walk(crate.rlib) for it in names)
        found = [(it, os.lstat(it)) for it in files]
        mark = [(it, at.st_ino, at.st_size, at.st_mtime_ns) for it, at in found]
        known, made = self.libraries.get(crate.name, (None, None))
        if known != mark:
            made = sum_of([(os.path.relpath(it, crate.rlib), rtlib.sum_of(it)) for it in files])
            self.libraries[crate.name] = mark, made
        return made

    def key(self, crate, *more):
        """Returns the sum of everything that a check of this crate reads: the kit, HANDLES, its line of crates.txt, its
        texts, and the libraries below it as they are built; or None where nothing can be kept."""
        if not self.at:
            return None
        # (a library that is made anew meanwhile gives no key)
        with contextlib.suppress(FileNotFoundError):
            return sum_of(self.judge, rt.own_sum(crate), [(it.name, self.built(it)) for it in crate.below()], more)
        return None

    def is_drawn(self, key):
        return int(sum_of(key, self.draw)[:8], 16) % AGAIN == 0

    def told(self, key):
        """Returns what was said under this key before, or None."""
        if not key or self.store.anew or self.store.is_distrusted:
            return None
        with contextlib.suppress(OSError, ValueError, KeyError, TypeError):
            if is_own(f"{self.at}/{key}", stat.S_ISREG):
                found = json.loads(octets(f"{self.at}/{key}"))
                if found["key"] == key and isinstance(found["text"], str):
                    os.utime(f"{self.at}/{key}")
                    return found["text"]
        return None

    def keep(self, key, text):
        if not key or self.store.is_distrusted:
            return
        with contextlib.suppress(OSError):
            with tempfile.NamedTemporaryFile("w", dir=self.at, prefix="new-", delete=False, encoding="utf-8") as it:
                json.dump({"key": key, "text": text}, it)
            os.replace(it.name, f"{self.at}/{key}")
