"""Wrong bodies as files of checks/edits: what one changes, whose contract must refuse it, and what a check said of
that."""
import os
import re


class BadEdit(Exception):
    """An edit that can't be tried, and why."""


class Edit:
    """One wrong body: the pairs of texts, and the function whose contract must refuse it."""

    def __init__(self, file, folder):
        self.label = f"{os.path.basename(os.path.dirname(file))}/{os.path.basename(file)[: -len('.edit')]}"
        self.path, self.file, self.pairs, self.refused = file, None, [], None
        old = None
        for line in read(file).split("\n"):
            word, _, text = line.partition(": ")
            if word == "file":
                if self.file:
                    raise BadEdit("it names two files")
                self.file = text.strip()
            elif word == "refused":
                self.refused = text.strip()
            elif word == "old":
                old = text
            elif word == "new" or line == "new:":
                if not self.file or not old:
                    raise BadEdit("a line 'new:' has no 'file:' or no 'old:' before it")
                self.pairs.append((old, text))
                old = None
        if not self.pairs or old is not None:
            raise BadEdit("it has no pair of 'old:' and 'new:'")
        if not self.file.startswith("src/") or not os.path.isfile(f"{folder}/{self.file}"):
            raise BadEdit(f"there is no {self.file}")
        # where the edit's text stands in no function, other functions may fail with it, so it is tried by itself
        text = read(f"{folder}/{self.file}")
        self.apply(text)
        place = function_at(text, text.index(self.pairs[0][0]))
        self.is_alone = place is None
        self.key = place[1] if place else None
        self.refused, _, self.only = (self.refused or (place and place[0]) or "").partition(" of ")
        self.only = self.only or self.refused
        if not self.refused:
            raise BadEdit("its text stands in no function: say by 'refused:' whose contract refuses it")

    def apply(self, text):
        for old, new in self.pairs:
            if text.count(old) != 1:
                raise BadEdit(f"an 'old:' text stands in {self.file} {text.count(old)} times, and not once")
            text = text.replace(old, new)
        return text


def read(file):
    with open(file, encoding="utf-8") as it:
        return it.read()


def first_of(lines, rows, pattern):
    """Returns the first of these rows whose line begins with what the pattern describes, or None."""
    return next((it for it in rows if re.match(pattern, lines[it])), None)


def function_at(text, at):
    """Returns the name of the function whose body has this place, as a check ends it, and what proves it: the function,
    or its cycle. None where the place is in no body."""
    lines = text.split("\n")
    row = text.count("\n", 0, at)
    head = first_of(lines, range(row, -1, -1), r"( *)(pub(\([a-z]+\))? )?(final )?(const )?(unsafe )?fn \w+")
    if head is None:
        return None
    indent = re.match(" *", lines[head])[0]
    end = first_of(lines, range(head, len(lines)), f"{indent}[^ ].*\\}}$|{indent}\\}}$")
    if end is None:
        return None
    # (a clause may end in an opening brace, too)
    opens = first_of(lines, range(head, end + 1), rf"{indent}\{{|(?! *(ensures|requires)).*\{{$")
    if opens is None or not opens < row <= end:
        return None
    name = re.search(r"fn (\w+)", lines[head])[1]
    over = []
    for line in reversed(lines[:head]):
        if not line.strip() or line.strip() in "{}":
            break
        over.append(line)
    cycle = re.search(r"#\[cycle\((\w+)\)\]", "\n".join(over))
    if indent:
        at = first_of(lines, range(head - 1, -1, -1), r"(pub(\([a-z]+\))? )?(impl|trait)\b")
        if at is None:
            return None
        # an impl may name its parameters on lines of their own
        body = next(i for i in range(at, head) if lines[i].endswith("{"))
        owner = " ".join(it.strip() for it in lines[at : body + 1])
        name = f"{owner_of(owner)}::{name}"
    return name, (cycle[1] if cycle else name)


def owner_of(line):
    """Returns how a check names the methods of this impl or trait: by its type, or by its type and its trait."""
    line = re.sub(r"^(pub(\([a-z]+\))? )?", "", line)
    if line.startswith("trait"):
        return re.match(r"trait (\w+)", line)[1]
    line = line[len("impl") :]
    if line.startswith("<"):
        depth = 0
        for i, letter in enumerate(line):
            depth += (letter == "<") - (letter == ">" and line[i - 1] != "-")
            if not depth:
                line = line[i + 1 :]
                break
    trait, is_for, kind = line.partition(" for ")
    last = lambda it: re.match(r"\s*&?(?:'\w+ )?(?:mut )?(?:\w+::)*(\w+)", it)[1]
    return f"{last(kind)}{last(trait)}" if is_for else last(line)


# what a proof file says where an edit takes away a name that it cites, which shows nothing of a contract
NAMES = r"(has no field|is not in scope|has no `|was not admitted)"


class Told:
    """What a check said of one function."""

    def __init__(self, said, name):
        found = re.findall(rf"(?m)^fn (\w+(?:::\w+)*::)?{re.escape(name)}: (.*)$", said)
        self.line = found[0][1] if len(found) == 1 else None
        if self.line is None:
            return
        module = f"{found[0][0]}{name}".partition("::")[2]
        lines = said.split("\n")
        at = next(i for i, it in enumerate(lines) if it.startswith("fn ") and f"{name}: {self.line}" in it)
        before = next((i for i in range(at - 1, -1, -1) if lines[i].startswith("fn ")), -1)
        # the proof of a cycle of calls has a name that begins with +
        folder, _, last = module.replace("::", "/").rpartition("/")
        own = rf"(\./)?proofs/{re.escape(folder)}/?\+?{re.escape(last)}/\w+\.antt:.*: error: "
        self.errors = [it for it in lines if re.match(own, it)]
        self.notes = [it for it in lines[before + 1 : at] if re.match(r"note: src/\S+:\d+:\d+: ", it)]

    def verdict(self):
        """Returns 'own' where it is refused at a goal of its own, 'calls' where only for what it calls, 'names' where
        only since a proof file names what is gone, 'borrows' where the borrow checker can't follow it, so that no goal
        was tried, 'proved', or None where nothing was said."""
        if self.line is None or self.line.startswith(("could not tell", "assumed")):
            return None
        if self.line.partition(",")[0] == "proved":
            return "proved"
        if "the borrow checker does not cover" in self.line:
            return "borrows"
        own = re.sub(r"(; )?it calls .* not proved.*", "", re.sub(r"^no proof: ?", "", self.line)).strip()
        if self.errors and not self.notes and all(re.search(NAMES, it) for it in self.errors):
            return "names"
        return "own" if own else "calls"

    def goal(self):
        return ([*self.notes, *self.errors] or [self.line])[0].removeprefix("note: ").removeprefix("./")[:140]
