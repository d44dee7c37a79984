"""What documents cite: each definition, function, clause, type and case that one names in backticks must be there. In
the lists of claims a definition is looked for among definitions, and a clause among those of the functions before it;
elsewhere a name is looked for among all names of the repository."""
import os
import re

from definitions import WORD, ghost_fields, ghosts_of
from names import files_of
from sources import TYPES, name_of, owner_of, parts_of, read, trait_and_target

LISTED, OTHERS = ("docs/PROOFS.md", "docs/PARTS.md"), ("SECURITY.md", "docs/ARCHITECTURE.md")
# what others than this repository define: std, and the language itself
FOREIGN = {"Abort", "Drop", "ensures", "requires"}
SPOKEN = ("checks", "examples", "bench", "packaging")
IS_NAME = re.compile(r"(?:\w+::)*(?:[A-Z]\w*[a-z]\w*|\w*[a-z]\w*_\w+)|(?:\w+::)+\w+")
CASE = re.compile(r"(?<![\w/.<])[a-z]\w*_\w+(?![\w/.])")
QUOTED = re.compile(r"`([^`]+)`")
# a claim of a list: its definitions in parentheses, and its contracts
CLAIM = re.compile(r"- .*? \(([^()]*)\): (.*)")


class Names:
    """The names of the repository: those of its definitions and of its sources, each with what it is."""

    def __init__(self, root, crates, definitions):
        self.root, self.crates, self.functions, self.labels = root, crates, {}, {}
        self.definitions = {it for spec in definitions.specs.values() for it in spec.owners}
        self.keys = {}
        for (crate, file), spec in definitions.specs.items():
            for name in spec.texts:
                self.keys.setdefault(name, set()).add((crate, f"{file}.{name}"))
        self.files = {file for _, file in definitions.specs}
        imports = [use for spec in definitions.specs.values() for use in spec.imports if "Rattle.std" in use]
        self.shared = {it for use in imports for it in WORD.findall(use)}
        self.types, self.members = {}, set()
        self.words = self.proved = None
        for crate, it in crates.items():
            for file, items in it.files.items():
                for item in items:
                    self.take(crate, file, item)

    def take(self, crate, file, item):
        """Takes the names of an item and of its parts."""
        name = name_of(item.head)
        if item.kind == "fn":
            self.functions.setdefault(("", name), []).append((crate, file, item, name))
        if item.kind in TYPES or item.kind == "const":
            self.types[name] = crate
        self.members |= {name_of(it) for it in ghost_fields(item)}
        if item.kind in ("struct", "enum") and item.inner:
            texts = [item.inner.plain[begin:end] for begin, end in parts_of(item.inner.code)]
            parts = {re.match(r"(?:#\[[^\]]*\]\s*|pub(?:\([^)]*\))?\s+)*(\w*)", it.strip())[1] for it in texts}
            self.members |= parts | {f"{name}::{it}" for it in parts}
        if item.kind in ("impl", "trait"):
            owner, trait = owner_of(item), name_of(trait_and_target(item)[0])
            self.types.setdefault(trait or owner, crate)
            self.members |= {name_of(it) for it in ghosts_of(item)}
            for it in item.items():
                self.members.add(f"{owner}::{name_of(it.head)}")
                if it.kind == "fn":
                    path = f"{owner}::{name_of(it.head)}"
                    self.functions.setdefault((owner, name_of(it.head)), []).append((crate, file, it, path))

    def function(self, name, owner=""):
        """Returns the functions of a name, of a type or of none, or of a module."""
        before, _, last = name.rpartition("::")
        found = self.functions.get((before or owner, last), [])
        modules = [it for it in self.functions.get(("", last), []) if before in (it[0], it[1])]
        return found or modules

    def methods(self, owner):
        """Returns all functions of a type or a trait."""
        return [it for (of, _), found in self.functions.items() if of == owner for it in found]

    def inside(self, name, group):
        """Returns the methods of a name in the crates of the files that a text names."""
        crates = {it.partition("/src")[0] for it in QUOTED.findall(group) if "/src" in it}
        return [it for (_, last), found in self.functions.items() if last == name for it in found if it[0] in crates]

    def is_there(self, name):
        """Whether a name stands for anything in the repository."""
        before, _, last = name.rpartition("::")
        if before:
            return bool(name in self.members or self.function(name) or before in self.crates and self.is_spoken(last))
        return self.is_spoken(last)

    def is_spoken(self, word):
        """Whether a word stands in code, in a definition, or in what checks, examples and packages are made of."""
        if self.words is None:
            self.words = FOREIGN | self.files | self.definitions | set(self.types) | spoken(self.root)
        return word in self.words or word in self.lemmas()

    def lemmas(self):
        """Returns what proofs define."""
        if self.proved is None:
            texts = [
                read(file) for crate in self.crates for file in files_of(f"{self.root}/crates/{crate}/proofs", ".antt")
            ]
            self.proved = {it for text in texts for it in re.findall(r"(?m)^(?:[a-z]+ )*(\w+)(?= *[:({])", text)}
        return self.proved


def spoken(root):
    """Returns the words of the sources' code, and of the files that checks, examples and packages are made of."""
    crates = sorted(os.listdir(f"{root}/crates"))
    words = set(crates)
    for crate in crates:
        for file in files_of(f"{root}/crates/{crate}/src", ".rt"):
            words |= set(re.findall(r"\w+", re.sub(r"//[^\n]*", "", read(file))))
        for file in files_of(f"{root}/crates/{crate}/must-fail", ""):
            words.add(os.path.basename(file).partition(".")[0])
    for part in SPOKEN:
        for place, folders, files in os.walk(f"{root}/{part}"):
            # (what tries this check names what isn't there)
            folders[:] = [it for it in folders if it not in ("surface", "__pycache__")]
            for file in files:
                with open(f"{place}/{file}", encoding="utf-8", errors="replace") as it:
                    words |= set(re.findall(r"\w+", f"{file} {it.read()}"))
    return words


class Claims:
    """The claims of a document: each cites definitions and contracts."""

    def __init__(self, names, document):
        self.names, self.document, self.faults, self.count = names, document, [], 0
        # the functions of all claims, and those of the claim before; the type that was named last
        self.cited, self.above, self.owner, self.defined = [], [], "", set()

    def claim(self, number, definition, contract):
        """Looks up what a claim cites."""
        place = f"{self.document}:{number}"
        for it in QUOTED.findall(definition):
            self.told(place, it, self.is_definition(it), "no such definition")
            self.defined |= self.names.keys.get(it, set())
        functions, self.owner = [], ""
        for group in contract.split(";"):
            is_same = group.strip().startswith("the same")
            functions += self.group(place, group, list(self.above) if is_same else [], is_same)
        self.above = functions
        self.cited += functions

    def told(self, place, name, is_right, fault):
        self.count += 1
        if not is_right:
            self.faults.append(f"{place}: `{name}`: {fault}")

    def is_definition(self, it):
        """Whether a name is one of a definition, or of a ghost member, a type, a file of definitions or a crate."""
        names = self.names
        if "/" in it or it.endswith(".rt"):
            return is_file(names, it)
        places = (names.definitions, names.members, names.files, names.shared, FOREIGN, names.crates, names.types)
        return any(it in place for place in places)

    def group(self, place, group, functions, is_same):
        """Looks up the functions and clauses between two semicolons, and returns the functions."""
        for name in QUOTED.findall(group):
            labels = [any(label == name for it in found for _, label, _ in it[2].contract) for _, found in functions]
            found = self.names.function(name, self.owner) or self.names.function(name) or self.names.inside(name, group)
            if "/" in name or name.endswith(".rt"):
                self.told(place, name, is_file(self.names, name), "no such file")
            elif labels and (any(labels) if is_same else all(labels)):
                self.told(place, name, True, "")
            elif found:
                self.told(place, name, True, "")
                functions.append((name, found))
                self.owner = name.rpartition("::")[0] or self.owner
            elif any(labels):
                lacking = ", ".join(it for (it, _), has in zip(functions, labels) if not has)
                self.told(place, name, False, f"no clause of {lacking}")
            else:
                self.told(place, name, self.is_definition(name), "no such function or clause")
                if name in self.names.types:
                    self.owner = name
                    functions.append((name, self.names.methods(name)))
        return functions


def is_file(names, path):
    """Whether a file is there, from the top, from the crates on, or by its name in any crate."""
    places = [path, f"crates/{path}", *(f"crates/{it}/src/{path}" for it in names.crates)]
    return any(os.path.exists(f"{names.root}/{it}") for it in places)


def claims_of(text):
    """Yields each claim of a document: its line's number, its definitions, and its contracts."""
    for number, line in enumerate(text.split("\n"), 1):
        found = CLAIM.fullmatch(line)
        if found:
            yield number, found[1], found[2]


def named(document, text):
    """Yields each name that a document cites, with the number of its line: those in backticks, and words with
    underscores, which stand for cases."""
    for number, line in enumerate(text.split("\n"), 1):
        for quoted in QUOTED.findall(line):
            if IS_NAME.fullmatch(quoted):
                yield number, quoted
        for word in CASE.findall(QUOTED.sub("", re.sub(r"\]\([^)]*\)", "]", line))):
            yield number, word


class Cited:
    """What the documents cite: the faults, how many names were looked up, by crate the functions and types that claims
    cite, and the definitions."""

    def __init__(self):
        self.faults, self.count, self.functions, self.definitions = [], 0, {}, set()


def compare(root, names):
    """Looks up what the documents cite."""
    cited = Cited()
    for document in (*LISTED, *OTHERS):
        text, claims = read(f"{root}/{document}"), Claims(names, document)
        for it in claims_of(text) if document in LISTED else ():
            claims.claim(*it)
        for number, name in named(document, text):
            claims.told(f"{document}:{number}", name, names.is_there(name), "nothing has this name")
        cited.faults += list(dict.fromkeys(claims.faults))
        cited.count += claims.count
        cited.definitions |= claims.defined
        for name, found in claims.cited:
            # (of a type that is cited, what it offers is enough)
            cites = [(names.types[name], name)] if name in names.types else [(it[0], it[3]) for it in found]
            for crate, path in cites:
                cited.functions.setdefault(crate, set()).add(path)
    return cited
