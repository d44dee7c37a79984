"""Cases of a check: how one is tried, what is said of it, and how they are counted."""
import contextlib
import linecache
import os
import re
import sys
import traceback
from itertools import zip_longest

CHECKS = os.path.dirname(os.path.dirname(os.path.realpath(__file__)))


class Skipped(Exception):
    """A case that can't be tried here, and why."""


class OutOfTime(AssertionError):
    """A limit of time was missed. The machine may have been busy, so the case is tried again."""


class OutOfRoom(OutOfTime):
    """So little memory was there that a case had nothing to show. How it is laid out under a limit is chance: the case
    is tried again."""


def in_time(seconds, most, least=0):
    if not least <= seconds <= most:
        raise OutOfTime(f"it took {seconds:.1f} s, and not {least:g} to {most:g}")


def same(found, wanted):
    assert found == wanted, f"it is {short(found)}, and not {short(wanted)}"


def short(value, most=300):
    """Returns a value as it is printed, cut where it is long."""
    said = repr(value)
    return said if len(said) <= most else f"{said[:most]}.. ({len(said)} characters)"


def difference(found, wanted):
    """Returns where two texts of octets differ first."""
    lines = zip_longest(found.split(b"\n"), wanted.split(b"\n"))
    at, one, other = next((at, one, other) for at, (one, other) in enumerate(lines, 1) if one != other)
    line = lambda it: "missing" if it is None else short(it)
    return f"line {at} is {line(one)}, and not {line(other)}"


def place_of(error):
    """Returns the line of a case where an error came up, and the values that it names, each on a line of its own."""
    frames = [it for it in traceback.walk_tb(error.__traceback__) if is_of_cases(it[0].f_code.co_filename)]
    if not frames:
        return ""
    frame, number = frames[-1]
    path = frame.f_code.co_filename
    text = linecache.getline(path, number).strip()
    names = [it for it in dict.fromkeys(re.findall(r"(?<![\w.])[A-Za-z_]\w*", text)) if it in frame.f_locals]
    lines = [
        f"{os.path.relpath(path, CHECKS)}:{number}: {text}", *(f"{it} = {short(frame.f_locals[it])}" for it in names),
    ]
    return "".join(f"\n    {it}" for it in lines)


def is_of_cases(path):
    """Whether a file has cases, and not what tries them."""
    path = os.path.realpath(path)
    return path.startswith(f"{CHECKS}/") and path != os.path.realpath(__file__)


def passes(case, *words, attempts=1, given=lambda _: contextlib.nullcontext({})):
    """Returns whether a case went as it must, or None where it can't be tried here, and prints what it tells. A case
    that is out of time is tried again, that many times in all. What it is given by names may be made for each try."""
    name = case.__name__
    for left in reversed(range(attempts)):
        try:
            with given(case) as named:
                told = case(*words, **named)
        except Skipped as why:
            print(f"skipped {name}: {why}", flush=True)
            return None
        except OutOfTime as error:
            print(f"again {name}: {error}" if left else f"FAILED {name}: {error}{place_of(error)}", flush=True)
        except Exception as error:  # whatever the program did
            print(f"FAILED {name}: {type(error).__name__}: {error}{place_of(error)}", flush=True)
            return False
        else:
            print(f"passed {name}" + (f": {told}" if told else ""), flush=True)
            return True
    return False


def chosen(cases, given, usage):
    """Returns the cases of these names, or all where none is given."""
    names = {case.__name__: case for case in cases}
    if not set(given) <= set(names):
        sys.exit(usage)
    return [names[it] for it in given or names]


def counted(results):
    """Prints the last line of a check, and returns its status. None among the results is a case that was skipped."""
    passed, failed = results.count(True), results.count(False)
    print(f"{passed} passed, {failed} failed")
    return 0 if results and not failed else 1


def ended(passed, failed):
    """Prints the last line of a check that counts by itself, and returns its status. One that tried nothing has
    failed."""
    print(f"{passed} passed, {failed} failed")
    return 0 if passed and not failed else 1
