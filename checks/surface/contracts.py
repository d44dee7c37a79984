"""What is promised of what a crate offers: each clause of its public calls, what contracts see of its types, and each
definition that these cite, down to the ground, with a sum of its text. contracts/CRATE.txt has a line for each."""
import re
from collections import Counter

from definitions import Scope, ghost_fields, ghosts_of, uses_of
from sources import TYPES, name_of, trait_and_target

KEY = re.compile(r"(?:definition|type) \S+|.*?: (?:requires|ensures\*?|ghost)(?: \w+)?(?= [={:])")


class Promised:
    """The clauses of a crate: a line for each, and which definitions they cite."""

    def __init__(self, crate, name, definitions, also):
        self.name, self.definitions, self.also = name, definitions, also
        self.lines, self.cites = [], set()
        offered = crate.reached()[0]
        self.types = {it for _, it in offered}
        for file, items in crate.files.items():
            scope = Scope(definitions, name, uses_of(items))
            for item in items:
                key = (file, name_of(item.head))
                if item.kind in ("fn", *TYPES) and (key in offered or key[1] in also):
                    self.own(item, scope, offered.get(key, ""))
                elif item.kind == "impl":
                    self.implemented(item, scope, crate.hidden)

    def own(self, item, scope, path):
        """Takes a function, or a type with its ghost fields, or a trait with its calls and ghost members."""
        name = name_of(item.head)
        if item.kind == "fn":
            self.clauses(f"{path}{name}", item, scope)
        for ghost in ghost_fields(item):
            self.ghost(name, ghost, scope)
        if item.kind == "trait":
            self.members(name, "", item, scope, lambda it: True)

    def implemented(self, item, scope, hidden):
        """Takes what a type has of its own, and what it has of a trait that others may see."""
        trait, target = trait_and_target(item)
        name, of = name_of(target), name_of(trait)
        is_seen = name in self.types or name in self.also
        if trait and of not in hidden and (is_seen or of in self.types):
            self.members(target, f", of {trait}", item, scope, lambda it: True)
        elif not trait:
            also = self.also
            self.members(
                name, "", item, scope, lambda it: is_seen and it.is_public or f"{name}::{name_of(it.head)}" in also,
            )

    def members(self, owner, of, item, scope, is_chosen):
        inner = Scope(self.definitions, self.name, uses_of(item.items()), scope)
        for it in item.items():
            if it.kind == "fn" and is_chosen(it):
                self.clauses(f"{owner}::{name_of(it.head)}{of}", it, inner)
        for ghost in ghosts_of(item):
            self.ghost(owner, ghost, inner, of)

    def clauses(self, name, item, scope):
        for kind, label, text in item.contract:
            self.take(f"{name}: {kind}{'' if label == '-' else f' {label}'} {{ ", text, " }", scope)

    def ghost(self, owner, head, scope, of=""):
        """Takes a ghost member: what it is called, and its type or what it is."""
        name = re.match(r"\w+", head)[0]
        self.take(f"{owner}::{name}{of}: ghost ", head[len(name) :], "", scope)

    def take(self, before, text, behind, scope):
        text, cites = scope.cited(text)
        self.lines.append(f"{before}{text}{behind}")
        self.cites |= cites


def promised(crates, libraries, definitions, also, roots):
    """Returns for each library the lines of its clauses, and those of its definitions: which any clause of any library
    cites, and which are promised or claimed, the roots."""
    found = {name: Promised(crates[name], name, definitions, also.get(name, set())) for name in libraries}
    sums = definitions.grounds(roots.union(*(it.cites for it in found.values())))
    lines = {name: (promises.lines, []) for name, promises in found.items()}
    for (crate, path), digest in sorted(it for it in sums.items() if it[0][0] in lines):
        lines[crate][1].append(f"{'type' if '::' in path else 'definition'} {path} {digest}")
    return lines


def text_of(name, clauses, definitions):
    """Returns the text of contracts/CRATE.txt."""
    text = f"# What {name} promises: clauses of its calls, and the definitions that are cited, each with a sum.\n"
    last = None
    for line in clauses:
        owner = re.match(r"[^:]*(?:::\w+)*", line)[0]
        text += "\n" * (owner != last) + f"{line}\n"
        last = owner
    return text + "\n" + "".join(f"{it}\n" for it in definitions)


def differences(name, wanted, there):
    """Returns a fault for each clause or definition that is gone, changed or new."""
    gone, new = Counter(wanted) - Counter(there), Counter(there) - Counter(wanted)
    before, now = by_key(gone), by_key(new)
    faults = []
    for key in sorted(before.keys() | now.keys()):
        if key in before and key in now:
            faults.append(f"{name}: changed: {key} is now{now[key][0]}")
        elif key in before:
            faults.append(f"{name}: gone: {key}{before[key][0]}")
        else:
            faults.append(f"{name}: not in contracts/{name}.txt: {key}{now[key][0]}")
    return faults


def by_key(lines):
    """Returns what stands after what a line is of: a clause, a ghost member or a definition."""
    found = {}
    for line in lines:
        key = KEY.match(line)[0] if KEY.match(line) else line
        found.setdefault(key, []).append(line[len(key) :])
    return found
