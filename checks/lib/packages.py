"""What checks/package builds and looks at: commands, files, and a repository in which a release is made."""
import os
import re
import shutil
import subprocess

from lib.program import ROOT

SECONDS = 60
# what packaging/release and packaging/deb read
RELEASED = ["packaging", "docs", "examples", "*.md", "LICENSE-*", "crates.txt", ".gitignore"]


def run(*words, given=b"", status=0, env=None):
    """Returns what a program writes on both streams, where its status is this one."""
    how = {"stdout": subprocess.PIPE, "stderr": subprocess.STDOUT, "timeout": SECONDS, "env": env}
    ran = subprocess.run(words, input=given, **how)
    assert ran.returncode == status, f"{words[0]}: status {ran.returncode}: {ran.stdout.decode()[:300]}"
    return ran.stdout.decode()


def read(path):
    with open(path, "rb") as file:
        return file.read()


class Checkout:
    """A repository of its own, with what a release is made of as it is here."""

    def __init__(self, folder, program):
        self.folder, self.program = folder, program
        for name in run("git", "-C", ROOT, "ls-files", "-co", "--exclude-standard", "--", *RELEASED).splitlines():
            os.makedirs(os.path.dirname(f"{folder}/{name}"), exist_ok=True)
            shutil.copy(f"{ROOT}/{name}", f"{folder}/{name}")
        self.git("init", "-q")
        self.git("commit", "-q", "--allow-empty", "-m", "nothing")

    def git(self, *words):
        """Returns what git writes."""
        names = ["-c", "user.name=crawlgate", "-c", "user.email=crawlgate@example.invalid"]
        return run("git", "-C", self.folder, *names, *words).strip()

    def commit(self, heading, tag):
        """Commits all with this as the newest heading of CHANGELOG.md, gives the commit a tag, and returns its name."""
        path = f"{self.folder}/CHANGELOG.md"
        text = re.sub("^## .*$", f"## {heading}", read(path).decode(), count=1, flags=re.M)
        with open(path, "w", encoding="utf-8") as file:
            file.write(text)
        self.git("add", "-A")
        self.git("commit", "-q", "--allow-empty", "-m", heading)
        self.git("tag", "-f", tag)
        return self.git("rev-parse", "--short", "HEAD")

    def release(self, name, status=0):
        """Returns what a release writes that is made into a folder of this name, beside the repository."""
        words = [f"{self.folder}/packaging/release", f"{self.folder}-{name}", "--program", self.program]
        return run(*words, status=status)

    def is_refused(self, why):
        """A release is refused for this cause, and leaves nothing."""
        said = self.release("refused", status=1)
        assert why in said and not os.listdir(f"{self.folder}-refused"), said
