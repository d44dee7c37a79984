"""The definitions of this repository: those of `crates/*/specs`, and the types of the sources that contracts see as
`specs.declared`. Each has its text without comments, in which each name that it cites stands after the file that it is
imported from, so that an import of another definition of the same name shows too."""
import hashlib
import os
import re

from sources import TYPES, name_of, owner_of, parts_of, read, trait_and_target

COMMENT = re.compile(r"\"(?:\\.|[^\"\\])*\"|--[^\n]*")
HEAD = re.compile(r"(?:pub\s+)?(?:abbrev|unfoldable|opaque|record|data)\s+(?:pub\s+)?([^\s{]\S*)")
MEMBER = re.compile(r"(?m)^\s+(?:pub )?((?:[^\s:(){}=,]+ )+):")
IMPORT = re.compile(r"\buse Rattle\.(\w+)\.specs\.([\w.]+?)(?:\.\{([^}]*)\}| as (\w+))?\s*(?:;|$)", flags=re.M)
WORD = re.compile(r"(?<![\w.'])[A-Za-z_][\w']*")
ATTRIBUTE = re.compile(r"#\[[^\]]*\]")


def without_remarks(text):
    """Returns the text of a file of definitions without its comments."""
    return COMMENT.sub(lambda it: it[0] if it[0].startswith('"') else "", text)


def plain(text):
    """Returns a text with one space where it has blanks."""
    return " ".join(text.split())


class Spec:
    """A file of definitions: its imports, the text of each definition, and which one each of its names belongs to."""

    def __init__(self, text):
        self.imports, self.texts, self.owners, self.fields, within = [], {}, {}, set(), {}
        last, module = None, ""
        for line in without_remarks(text).split("\n"):
            if line[:1].strip():
                module = line if line.startswith("module ") else ""
                if module:
                    continue
            # (what a module has is indented, and takes its parameters)
            line = line[2:] if module else line
            head = HEAD.match(line)
            if re.match(r"(?:pub )?(?:use|mod) ", line):
                self.imports.append(line)
            elif head:
                last = head[1]
                self.texts[last], within[last] = line, module
            elif line.strip() and last:
                begin = line.split()[0]
                of = begin if begin in self.texts and not line[0].isspace() else last
                self.texts[of] += f"\n{line}"
        for name, text in self.texts.items():
            self.owners[name] = name
            if re.match(r"(?:pub )?(?:record|data)\b", text):
                members = [it for found in MEMBER.findall(text.partition("where")[2]) for it in found.split()]
                self.owners |= {it: name for it in members if it not in self.texts}
                self.fields |= set() if "data" in text.split()[:2] else set(members) - set(self.texts)
            self.texts[name] = f"{within[name]} {text}".strip()


class Scope:
    """What the names of a text mean: each with the definition that it cites, if it is one of this repository, and as it
    is written after its file."""

    def __init__(self, definitions, crate, uses, beside=None):
        self.names = dict(beside.names) if beside else {}
        self.operators = dict(beside.operators) if beside else {}
        for use in uses:
            for owner, path, names, alias in IMPORT.findall(use):
                for name in names.split(","):
                    name, _, other = name.strip().partition(" as ")
                    self.add(other or name or alias, definitions.found(crate, owner, path, name))

    def add(self, name, found):
        if re.match(r"[A-Za-z_]", name):
            self.names[name] = found
        elif name.strip("◌") and found[1] != name:
            self.operators[name.replace("◌", " ").split()[0]] = found

    def cited(self, text):
        """Returns a text with its names after their files, and the definitions that it cites."""
        cites = set()

        def write(name, found):
            key, written = found
            cites.add(key)
            return written if written else name

        def word(found):
            # (a binder and the field of a value name nothing that is imported)
            is_bound = re.match(r"\s*(?::|=)(?!=)", text[found.end() :])
            return found[0] if is_bound or found[0] not in self.names else write(found[0], self.names[found[0]])

        text = plain(text)
        text = WORD.sub(word, text)
        for operator, found in self.operators.items():
            if operator in text:
                text = text.replace(operator, write(operator, found))
        return text, cites - {None}


class Definitions:
    """All definitions, by crate and name: `FILE.NAME` of a definition, `FILE::NAME` of a type of the sources."""

    def __init__(self, root, crates):
        self.crates, self.specs, self.scopes, self.read = crates, {}, {}, {}
        for crate in crates:
            folder = f"{root}/crates/{crate}/specs"
            for file in sorted(os.listdir(folder)) if os.path.isdir(folder) else ():
                if file.endswith(".antt"):
                    self.specs[crate, file[:-5]] = Spec(read(f"{folder}/{file}"))
        self.types = {}
        for crate, it in crates.items():
            for file, items in it.files.items():
                named = [name_of(item.head) for item in items if item.kind in TYPES]
                self.types |= {name: (crate, f"{file}::{name}") for name in named}

    def found(self, crate, owner, path, name):
        """Returns which definition an import means, as seen from a crate, and how it is written."""
        before = "" if owner == crate else f"{owner}."
        parts = path.split(".")
        if owner in self.crates and parts[0] == "declared":
            parts = [it for it in parts[1:] if it != "TheVariants"]
            key = (owner, f"{'::'.join(parts[:-1])}::{parts[-1]}")
            return key, before + key[1] + (f"::{name}" if name not in ("", parts[-1]) else "")
        spec = self.specs.get((owner, parts[0]))
        of = spec and spec.owners.get(name if len(parts) == 1 else parts[1])
        key = (owner, f"{parts[0]}.{of}") if of else None
        if owner == "std" and path == "Prelude":
            return None, name
        return key, f"{before}{path}.{name}" if name else before + path

    def text(self, key):
        """Returns the text of a definition, with its names after their files, and what it cites; or None."""
        if key not in self.read:
            self.read[key] = (self.declared if "::" in key[1] else self.defined)(*key)
        return self.read[key]

    def defined(self, crate, path):
        file, _, name = path.partition(".")
        spec = self.specs.get((crate, file))
        if not spec or name not in spec.texts:
            return None
        if (crate, file) not in self.scopes:
            scope = Scope(self, crate, spec.imports)
            for it, of in spec.owners.items():
                if it not in spec.fields:
                    scope.add(it, ((crate, f"{file}.{of}"), f"{file}.{it}"))
            self.scopes[crate, file] = scope
        return self.scopes[crate, file].cited(spec.texts[name])

    def declared(self, crate, path):
        """Returns the text of a type of the sources, with what contracts see of it."""
        file, _, name = path.rpartition("::")
        items = self.crates[crate].files.get(file, ())
        own = next((it for it in items if it.kind in TYPES and name_of(it.head) == name), None)
        if not own:
            return None
        scope = Scope(self, crate, uses_of(items))
        text = f"{own.kind} {own.head}"
        if own.inner and own.kind != "trait":
            text += f" {{ {', '.join(parts_in(own))} }}"
        text, cites = scope.cited(text)
        cites |= {self.types[it] for it in WORD.findall(text) if it in self.types} - {(crate, path)}
        for it in items:
            if trait_and_target(it)[0] == "Model" and owner_of(it) == name:
                inner = Scope(self, crate, uses_of(it.items()), scope)
                for ghost in ghosts_of(it):
                    more, others = inner.cited(ghost)
                    text, cites = f"{text}; {more}", cites | others
        return text, cites

    def grounds(self, cites):
        """Returns the definitions that some cite, down to the ground, each with a sum of its text."""
        left, sums = set(cites), {}
        while left:
            key = left.pop()
            text = self.text(key)
            if text and key not in sums:
                sums[key] = hashlib.sha256(text[0].encode()).hexdigest()[:16]
                left |= text[1]
        return sums


def uses_of(items):
    """Returns the imports of definitions among some items."""
    return [f"{it.head};" for it in items if it.kind == "ghost" and it.head.startswith("use ")]


def ghosts_of(item):
    """Returns the heads of the ghost members of an item."""
    return [it.head for it in item.items() if it.kind == "ghost" and not it.head.startswith("use ")]


def parts_in(item):
    """Returns the fields or variants of a type, each in one line."""
    return [plain(ATTRIBUTE.sub("", item.inner.plain[begin:end])) for begin, end in parts_of(item.inner.code)]


def ghost_fields(item):
    """Returns the ghost fields of a type."""
    if not item.inner or item.kind not in ("struct", "enum"):
        return []
    return [it.partition("ghost ")[2] for it in parts_in(item) if re.match(r"(?:pub(?:\(\w+\))? )?ghost ", it)]
