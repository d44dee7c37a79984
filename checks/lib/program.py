"""The built program that checks are tried on: where it stands, and how its memory is read."""
import os
import sys

ROOT = os.path.dirname(os.path.dirname(os.path.dirname(os.path.realpath(__file__))))
# where a build leaves the program
BUILT = f"{ROOT}/crates/crawlgate/out/crawlgate"


def program_of(given, usage):
    """Takes the program from the words of a check, where the first is a path, and returns it; else the built one."""
    program = os.path.realpath(given.pop(0)) if given and os.path.sep in given[0] else BUILT
    if not os.path.isfile(program):
        sys.exit(f"there is no {program}: build it by checks/build, or name another\n{usage}")
    return program


def resident(process):
    """Returns how many octets of memory a process has, by its number."""
    with open(f"/proc/{process}/statm") as file:
        return int(file.read().split()[1]) * os.sysconf("SC_PAGE_SIZE")
