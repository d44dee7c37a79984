"""Which libraries a crate uses: those that its code, its definitions and its proofs name. crates.txt lists these, and
no others: `rt` finds by itself what they stand on."""
import os
import re

from sources import read

ROW = re.compile(r"(?m)^(\w+):(.*)$")
USED = {".rt": r"(?<![\w:])(\w+)::|\bRattle\.(\w+)\.", ".antt": r"\bRattle\.(\w+)()\."}


def listed(root):
    """Returns the crates of crates.txt in its order, each with its libraries."""
    return {name: libraries.split() for name, libraries in ROW.findall(read(f"{root}/crates.txt"))}


def used(folder):
    """Returns the names after which a crate looks for something."""
    names = set()
    for part in ("src", "specs", "proofs"):
        for at, _, files in os.walk(f"{folder}/{part}"):
            for name in files:
                pattern = USED.get(os.path.splitext(name)[1])
                if pattern:
                    names |= {it for found in re.findall(pattern, read(f"{at}/{name}")) for it in found}
    return names


def compare(root):
    """Returns, for each crate, what of its line in crates.txt is wrong, if anything is."""
    crates = listed(root)
    libraries = {it for names in crates.values() for it in names} | set(crates)
    faults = {}
    for name, names in crates.items():
        wanted = used(f"{root}/crates/{name}") & libraries - {name}
        more, less = sorted(set(names) - wanted), sorted(wanted - set(names))
        told = [f"it lists {' '.join(more)}"] * bool(more) + [f"it lacks {' '.join(less)}"] * bool(less)
        faults[name] = [f"crates.txt: {name}: {it}, not as its sources have it" for it in told]
    return faults
