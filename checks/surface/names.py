"""Names and widths that readers rely on: each type of the product, public or not, has a name of its own, and no line of
a definition or a comment has over 120 columns, nor one of a contract's clauses over 100."""
import os
import re

from sources import CLAUSE, read

# (an associated type is indented)
TYPE = re.compile(r"^(?:pub(?:\(\w+\))? )?(?:struct|enum|union|trait|type) (\w+)", flags=re.M)
WIDEST, WIDE_CLAUSE = 120, 100


def files_of(folder, ending):
    for place, _, names in os.walk(folder):
        yield from (f"{place}/{it}" for it in sorted(names) if it.endswith(ending))


def named_twice(root):
    """Returns a line for each name that two types have. Crates of nothing but tests are left out."""
    owners = {}
    for crate in sorted(os.listdir(f"{root}/crates")):
        for file in files_of(f"{root}/crates/{crate}/src", ".rt"):
            for name in TYPE.findall(read(file)) if not crate.startswith("tests_") else ():
                owners.setdefault(name, set()).add(os.path.relpath(file, f"{root}/crates"))
    return [
        f"{name} is a type of {' and '.join(sorted(files))}" for name, files in sorted(owners.items()) if len(files) > 1
    ]


def too_wide(root):
    """Returns a line for each one of a definition, a comment or a clause that is too wide. Imports are as wide as they
    are."""
    faults = []
    for crate in sorted(os.listdir(f"{root}/crates")):
        for part, ending in (("specs", ".antt"), ("src", ".rt")):
            for file in files_of(f"{root}/crates/{crate}/{part}", ending):
                for number, line in enumerate(read(file).split("\n"), 1):
                    is_clause = part == "src" and CLAUSE.match(line)
                    is_read = is_clause or part == "specs" or line.lstrip().startswith("//")
                    is_wide = is_read and len(line) > (WIDE_CLAUSE if is_clause else WIDEST)
                    if is_wide and not re.match(r"\s*(?:pub )?use ", line):
                        faults.append(f"{os.path.relpath(file, root)}:{number} has {len(line)} columns")
    return faults


def compare(root):
    """Returns the faults of names, and those of widths."""
    return {"names": named_twice(root), "widths": too_wide(root)}
