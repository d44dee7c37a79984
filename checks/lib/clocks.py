"""The clocks of programs that are started meanwhile, moved by lib/clocks.c. They need a C compiler."""
import os
import shutil
import subprocess

from lib.cases import Skipped
from lib.program import ROOT


class Clocks:
    """How far the clocks of a program are moved, in seconds: the wall clock, and the steady one."""

    def __init__(self, folder):
        if not shutil.which("cc"):
            raise Skipped("there is no C compiler")
        self.file, library = f"{folder}/clocks", f"{folder}/clocks.so"
        source = f"{ROOT}/checks/lib/clocks.c"
        subprocess.run(["cc", "-O1", "-shared", "-fPIC", "-o", library, source], check=True)
        self.words = {"LD_PRELOAD": library, "CLOCKS": self.file}
        self.move()

    def move(self, wall=0, steady=0):
        with open(f"{self.file}.new", "w") as file:
            file.write(f"{wall} {steady}\n")
        os.rename(f"{self.file}.new", self.file)

    def begin(self):
        """Moves the clocks of all programs that are started from now on."""
        os.environ.update(self.words)

    def end(self):
        for name in self.words:
            os.environ.pop(name, None)
