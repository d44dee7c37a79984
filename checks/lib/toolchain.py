"""How `rt` checks and builds a crate, for checks/build, checks/edits and checks/must_not_compile: they do what no words
of `rt` do, several crates at a time and copies of crates with an edit, and so take it from `rt`'s own modules. Those
belong to no interface: they were read in the kits of the names below, and what is taken of them is looked for before
anything is done. What only newer kits have, the sums by which `rt ci` keeps what passed, is used where it is there.
"""
import importlib.machinery
import importlib.util
import os
import shutil
import sys
import threading

sys.dont_write_bytecode = True
KITS = ("rattle-kit-13b", "rattle-kit-13f")
# what is taken of each module
TAKEN = {
    "rt": ["free", "read_files", "rtlib"],
    "rtlib": ["Crate", "PARTS", "RATTLE", "crates_below", "guarded", "lock", "stop_on_links", "text_of"],
    "Crate": ["below", "build_rlib", "call", "is_built", "run", "stamp", "words"],
}


def _load():
    found = shutil.which("rt") or sys.exit(
        "there is no rt on the path: CONTRIBUTING.md says where the toolchain comes from"
    )
    folder = os.path.dirname(os.path.realpath(found))
    loader = importlib.machinery.SourceFileLoader("rt", f"{folder}/rt")
    made = importlib.util.module_from_spec(importlib.util.spec_from_loader("rt", loader))
    sys.modules["rt"] = made
    loader.exec_module(made)
    return made, f"{os.path.dirname(folder)}/KIT-ID"


def _kit_of(file):
    try:
        with open(file, encoding="utf-8") as it:
            return it.read().split()[0]
    except (OSError, IndexError):
        return "a kit without a name"


rt, _identity = _load()
_kit = _kit_of(_identity)
rtlib = getattr(rt, "rtlib", None)
for _name, _owner in (("rt", rt), ("rtlib", rtlib), ("Crate", getattr(rtlib, "Crate", None))):
    for _part in TAKEN[_name]:
        if not hasattr(_owner, _part):
            sys.exit(
                f"{_name} of {_kit} has no {_part}: checks/lib/toolchain.py was written for {' and '.join(KITS)}, and "
                f"has to be read again"
            )
_stamp_of, _call = rtlib.Crate.stamp, threading.local()


def _stamp(crate):
    """Returns the same stamp as `rt` does, but reads each crate below once in a call, and not once for each way that
    leads down to it, which takes `rt` ten seconds for the program."""
    is_first = not hasattr(_call, "stamps")
    if is_first:
        _call.stamps = {}
    try:
        if crate not in _call.stamps:
            _call.stamps[crate] = _stamp_of(crate)
        return _call.stamps[crate]
    finally:
        if is_first:
            del _call.stamps


# (of another kit `rt`'s own stamp is taken, which is right, and slower)
if _kit in KITS:
    rtlib.Crate.stamp = _stamp
