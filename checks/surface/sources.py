"""What a crate offers, read from its sources: its public names, each call, variant and field with its signature, and
the clauses of its contracts."""
import os
import re
import sys

sys.dont_write_bytecode = True
CLAUSE = re.compile(r"\s*((?:requires|ensures)\*?)(?:\s+(\w+))?\s*\{")
BRACKET = re.compile(r"[()\[\]{}]")
ITEM = re.compile(r"(pub\s+|pub\([a-z ]+\)\s+)?(final\s+)?(fn|struct|enum|trait|const|type|mod|use|impl|ghost)\b")
TYPES = ("struct", "enum", "trait", "type")


def read(path):
    with open(path, encoding="utf-8") as file:
        return file.read()


def without_comments(text):
    """Returns a text without its comments, and one that has no octets of literals either, so that each bracket stands
    for itself. Blanks stand in their places."""
    literal = r"//[^\n]*|b?\"(?:\\.|[^\"\\])*\"|b?'(?:\\[^']+|[^'\\])'"

    def blank(found):
        return re.sub(r"[^\n]", " ", found[0])

    plain = re.sub(literal, lambda it: blank(it) if it[0].startswith("//") else it[0], text, flags=re.S)
    return plain, re.sub(literal, blank, plain, flags=re.S)


def closing(text, at):
    """Returns the place after the bracket that closes the one at a place."""
    depth = 0
    for found in BRACKET.finditer(text, at):
        depth += 1 if found[0] in "([{" else -1
        if depth == 0:
            return found.end()
    raise ValueError(f"a bracket is never closed: {text[at : at + 40]!r}")


def until(text, at, ends):
    """Returns the place of the first of some octets that stands in no bracket, from a place on."""
    mark = re.compile(rf"[(\[{{{re.escape(ends)}]")
    found = mark.search(text, at)
    while found and found[0] not in ends:
        found = mark.search(text, closing(text, found.start()))
    return found.start() if found else len(text)


def behind_generics(text):
    """Returns what stands after the parameters in angle brackets with which a text may begin."""
    depth = 0
    for place, octet in enumerate(text):
        depth += 1 if octet == "<" else -1 if octet == ">" and text[place - 1] not in "-=" else 0
        if depth == 0:
            return text[place + 1 if octet == ">" else place :].strip()
    return ""


def in_one_line(text):
    """Returns a text with one space where it has blanks, none inside of brackets, and no comma before a closing one."""
    text = re.sub(r"\s+", " ", text).strip().rstrip(",").replace(", }", " }")
    text = re.sub(r"([(\[<]) ", r"\1", text)
    # (a `>` of an arrow closes nothing)
    return re.sub(r",? ?([)\]]|(?<!-)(?<!=)>)", r"\1", text)


def parts_of(text):
    """Yields where the parts between commas begin and end, of commas that stand in no bracket."""
    begin = 0
    while begin < len(text):
        end, depth = begin, 0
        while end < len(text) and (text[end] != "," or depth):
            depth += 1 if text[end] == "<" else -1 if text[end] == ">" and text[end - 1] not in "-=" else 0
            end = closing(text, end) if text[end] in "([{" else end + 1
        if text[begin:end].strip():
            yield begin, end
        begin = end + 1


def name_of(head):
    return re.match(r"\w*", head)[0]


class Item:
    """An item: what it is, its head, what it derives, its clauses, and what stands between its braces. `clauses` has
    the texts of what it ensures by their labels; `contract` has all, in order: `requires` or `ensures`, label and
    text."""

    def __init__(self, kind, is_public, is_final):
        self.kind, self.is_public, self.is_final = kind, is_public, is_final
        self.head, self.derives, self.clauses, self.contract, self.inner = "", [], {}, [], None

        self.parts = None

    def items(self):
        if self.parts is None:
            self.parts = list(self.inner.items()) if self.inner else []
        return self.parts


class Text:
    """A source file, or what stands between the braces of an item."""

    def __init__(self, plain, code):
        self.plain, self.code = plain, code

    def items(self):
        """Yields the items, but for those after `#[cfg(test)]`."""
        at, attributes = 0, ""
        while at < len(self.code):
            if self.code[at].isspace():
                at += 1
            elif self.code[at] == "#":
                end = closing(self.code, self.code.index("[", at))
                attributes += self.code[at:end]
                at = end
            else:
                item, at = self.item(at)
                if item and "cfg(test)" not in attributes:
                    item.derives = re.findall(r"\w+", " ".join(re.findall(r"derive\(([^)]*)\)", attributes)))
                    yield item
                attributes = ""

    def item(self, at):
        """Returns the item at a place, or None, and the place after it."""
        found = ITEM.match(self.code, at)
        if not found:
            end = until(self.code, at, ";")
            return None, end + 1
        item = Item(found[3], (found[1] or "").strip() == "pub", bool(found[2]))
        end = found.end()
        if item.kind in ("use", "ghost", "const", "type", "mod"):
            stop = until(self.code, end, ";")
            text = self.plain[end:stop]
            item.head = " ".join(text.split()) if item.kind == "ghost" else in_one_line(text)
            return item, stop + 1
        begin = end
        while self.code[end] not in ";{" and not CLAUSE.match(self.code, end):
            end = closing(self.code, end) if self.code[end] in "([" else end + 1
        item.head = in_one_line(self.plain[begin:end])
        end = until(self.code, self.read_clauses(item, end), ";{")
        if self.code[end] == "{":
            stop = closing(self.code, end) - 1
            item.inner = Text(self.plain[end + 1 : stop], self.code[end + 1 : stop])
            end = stop
        return item, end + 1

    def read_clauses(self, item, at):
        """Reads the clauses that begin at a place, and returns the place after them."""
        clause = CLAUSE.match(self.code, at)
        while clause:
            at = closing(self.code, clause.end() - 1)
            text = self.plain[clause.end() : at - 1]
            item.contract.append((clause[1], clause[2] or "-", text))
            if clause[1].startswith("ensures"):
                item.clauses[clause[2] or "-"] = text
            clause = CLAUSE.match(self.code, at)
        return at


class Crate:
    """A crate: its items by file, and what it passes on."""

    def __init__(self, folder):
        self.folder, self.files = folder, {}
        for name in sorted(os.listdir(f"{folder}/src")):
            if name.endswith(".rt"):
                self.files[name[:-3]] = list(Text(*without_comments(read(f"{folder}/src/{name}"))).items())
        self.all = [it for items in self.files.values() for it in items]
        self.hidden = {name_of(it.head) for it in self.all if it.kind == "trait" and not it.is_public}
        self.offered, self.others = {}, set()
        if "lib" in self.files:
            self.look("lib", "")

    def look(self, file, path):
        """Finds what a module passes on: names of its own, those of other modules, and of other crates."""
        for item in self.files[file]:
            if item.is_public and item.kind == "mod" and item.head in self.files:
                self.look(item.head, f"{path}{item.head}::")
            elif item.is_public and item.kind == "use":
                where, _, last = item.head.removeprefix("crate::").rpartition("::")
                for name in re.findall(r"\w+", last):
                    if where in self.files:
                        self.offered[(where, name)] = path
                    else:
                        self.others.add(f"use {where}::{name}")
            elif item.is_public and item.kind in ("fn", "const", *TYPES):
                self.offered[(file, name_of(item.head))] = path

    def calls(self):
        """Returns the lines of all that is offered, and of each type that stands in such a line."""
        return sorted(self.reached()[1], key=order)

    def reached(self):
        """Returns what is offered and each type that stands in a line of it, by file and name, each with the path to
        it; and the lines."""
        types = {}
        for file, items in self.files.items():
            types |= {name_of(it.head): file for it in items if it.kind in TYPES and it.is_public}
        offered, known, found = dict(self.offered), set(), set(self.others)
        while set(offered) - known:
            new = sorted(set(offered) - known)
            known |= set(new)
            lines = {offered[key] + line + self.reach(key, line) for key in new for line in self.lines_of(*key)}
            found |= lines
            for name in {word for line in lines for word in re.findall(r"\w+", line)} & set(types):
                offered.setdefault((types[name], name), "")
        return offered, found

    def reach(self, key, line):
        """Returns what is said of a type that nobody outside can name."""
        return " (not passed on)" if key not in self.offered and line.split()[0] in TYPES else ""

    def lines_of(self, file, name):
        """Returns the lines of an offered name: its own, and of a type its parts, calls and traits."""
        found = []
        for item in self.files[file]:
            if item.is_public and item.kind in ("fn", "const", *TYPES) and name_of(item.head) == name:
                found += own_lines(item, name)
        for item in self.all:
            trait, target = trait_and_target(item)
            if name_of(target) == name and trait not in self.hidden | {"Model"}:
                if trait:
                    found.append(f"impl {trait} for {target}")
                    found += [f"{name}::{it.head}, of {trait}" for it in item.items() if it.kind == "type"]
                else:
                    found += [
                        f"{name}::{it.head}" for it in item.items() if it.is_public and it.kind in ("fn", "const")
                    ]
        return found

    def clause(self, function, label):
        """Returns the text of a clause of a function, or of a ghost member of a type (`ghost:NAME`), or None."""
        owner, _, name = function.rpartition("::")
        is_ghost, member = label.startswith("ghost:"), label.removeprefix("ghost:")
        if is_ghost:
            owner = name
        holders = [it.items() for it in self.all if owner_of(it) == owner] if owner else [self.all]
        for item in (it for items in holders for it in items):
            if is_ghost and item.kind == "ghost" and name_of(item.head) == member:
                return item.head
            if not is_ghost and item.kind == "fn" and name_of(item.head) == name and label in item.clauses:
                return item.clauses[label]
        return None


def owner_of(item):
    """Returns the name of the trait or of the type whose calls an item has."""
    return name_of(item.head if item.kind == "trait" else trait_and_target(item)[1])


def trait_and_target(item):
    """Returns the trait and the type of an `impl`, without the paths that lead to the type."""
    if item.kind != "impl":
        return "", ""
    trait, _, target = behind_generics(item.head).rpartition(" for ")
    return trait, re.sub(r"^(\w+::)+", "", target)


def own_lines(item, name):
    """Returns the lines of an item itself, with its variants, public fields or methods."""
    if item.kind not in ("struct", "enum", "trait"):
        return [f"{item.kind} {item.head}"]
    head = re.sub(r"\((?!pub ).*\)$", "", item.head)
    found = [f"{item.kind} {head}{' derives ' if item.derives else ''}{', '.join(item.derives)}"]
    if item.kind == "trait":
        for it in item.items():
            how = " (final)" if it.is_final else " (provided)" if it.inner else ""
            found += [
                f"{name}::{it.head}{how}"
            ] if it.kind == "fn" else [f"{name}::{it.head}"] if it.kind == "type" else []
    elif item.inner:
        for begin, end in parts_of(item.inner.code):
            part = in_one_line(re.sub(r"#\[[^\]]*\]", "", item.inner.plain[begin:end]))
            if item.kind == "enum":
                found.append(f"{name}::{part}")
            elif part.startswith("pub "):
                found.append(f"{name}.{part.removeprefix('pub ')}")
    return found


def order(line):
    """What lines are sorted by: those of no type, then each type with its parts."""
    forms = (r"(?:struct|enum|trait|type) (\w+)", r"impl .* for (\w+)", r"(?:[a-z_]+::)*([A-Z]\w*)(?:::|\.)")
    for place, form in enumerate(forms):
        found = re.match(form, line)
        if found:
            return (1, found[1], place, line)
    return (0, "", 0, line)
