"""How a library of the repository is built where it has changed: taken of `rt ci`, if that has proved it on this
machine, or else proved. What it is built of is the same octets as in `rt ci`, so a verdict over one counts over the
other.
"""
import os
import shutil

from lib.program import ROOT
from lib.toolchain import rt, rtlib


def builds_below(crate):
    """Returns when each library below was built."""
    return repr({it.name: int(os.path.getmtime(f"{it.rlib}/format")) for it in crate.below()})


class Libraries:
    """The libraries, and what `rt ci` proved of them, by the sums of the texts and of the libraries below: nothing
    where the kit has no such sums."""

    def __init__(self, crates, keeps=False):
        """keeps: the proofs are kept too, which `rt ci` does not do."""
        self.keeps, self.of_ci = keeps, None
        if not keeps and all(hasattr(rt, it) for it in ("Kept", "handles_of", "own_sum")):
            rt.Crate.allowed = rt.handles_of(ROOT)
            # (a link would let whoever writes into a file here change what is kept)
            rt.link_or_copy = shutil.copyfile
            self.of_ci = rt.Kept(crates)

    def build(self, crate, jobs=1):
        """Builds a library over those below it, which must be built, and returns the status and how it was done."""
        status, how = self._build(crate, jobs)
        if self.of_ci and not status:
            self.of_ci.is_built(crate)
        return status, how

    def take_program(self, program):
        """Gives the program what `rt ci` compiled of the same, over the libraries as they are built, and returns
        whether it could."""
        return self.of_ci is not None and self.of_ci.give(program, False, self.of_ci.key(program))

    def _build(self, crate, jobs):
        stamp, folder = crate.stamp(), os.path.dirname(crate.rlib)
        # (statements fit only the builds that they were proved over; what `rt` keeps has no file `over`, and fits any)
        over = builds_below(crate)
        if crate.is_built() and rtlib.text_of(f"{folder}/over") in (None, over):
            return 0, "built before"
        shutil.rmtree(folder, ignore_errors=True)
        if self.keeps:
            return crate.build_rlib(["--jobs", str(jobs)], anew=False), "proved"
        status, how = 0, "taken of rt ci"
        if not (self.of_ci and self.of_ci.give(crate, False, self.of_ci.key(crate))):
            # (of what could not be taken nothing may be left)
            shutil.rmtree(folder, ignore_errors=True)
            os.makedirs(folder)
            words = crate.words(["--jobs", str(jobs)], keeps=False)
            status, how = crate.call(rtlib.RATTLE, "build", *words, "--statements", "-o", crate.rlib), "proved"
        # (a text that was edited meanwhile is not what was proved)
        if status == 0 and stamp == crate.stamp():
            for name, text in (("over", over), ("stamp", stamp)):
                with open(f"{folder}/{name}", "w", encoding="utf-8") as it:
                    it.write(text)
        return status, how
