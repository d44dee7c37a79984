"""What proofs cite of other crates: of a crate's proofs others use its module CallerLemmas, which is written for them,
so that its other lemmas may change. past_caller_lemmas.txt has the few that are cited past it."""
import os
import re

from names import files_of
from sources import read

CITED = re.compile(r"\bRattle\.(\w+)\.proofs\.(\w+)|(?<![\w:])(\w+)::proofs::(\w+)")


def past(root):
    """Returns what is cited past CallerLemmas: a crate, the one that it cites, and the module, each with a file that
    does."""
    crates, found = set(os.listdir(f"{root}/crates")), {}
    for crate in sorted(crates):
        for part, ending in (("proofs", ".antt"), ("src", ".rt")):
            for file in files_of(f"{root}/crates/{crate}/{part}", ending):
                for one, module, other, its in CITED.findall(read(file)):
                    owner, name = one or other, module or its
                    if owner in crates - {crate} and not name.startswith("CallerLemmas"):
                        found[f"{crate} {owner} {name}"] = os.path.relpath(file, root)
    return found


def compare(root, here):
    """Returns the faults of proofs, and those of the list of what is allowed."""
    with open(f"{here}/past_caller_lemmas.txt", encoding="utf-8") as file:
        allowed = [it.strip() for it in file if it.strip() and not it.startswith("#")]
    found = past(root)
    past_it = {".proofs.".join(it.split()[1:]): file for it, file in found.items() if it not in allowed}
    cites = [f"{file} cites {it}, and not CallerLemmas" for it, file in past_it.items()]
    return [cites, [f"past_caller_lemmas.txt: nothing cites {it} any more" for it in allowed if it not in found]]
