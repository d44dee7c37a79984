"""Robots files that are made to cost much, and paths for which they do."""
import random

SIZE = 500_000
LONG = "/" + "ab" * 1_990


def filled(line, head=b"user-agent: *\n"):
    """Returns a text of about 500,000 octets of a line: {n} in it counts."""
    if b"{n}" not in line:
        return head + line * ((SIZE - len(head)) // len(line))
    lines, size, at = [head], len(head), 0
    while size < SIZE:
        lines.append(line.replace(b"{n}", b"%d" % at))
        size, at = size + len(lines[-1]), at + 1
    return b"".join(lines)[:SIZE].rpartition(b"\n")[0] + b"\n"


def distinct(signs, seed, most=15):
    """Returns rules of five runs each that all stand in a path, and that path. No two runs are the same."""
    dice = random.Random(seed)
    path = "".join(dice.choices(signs, k=4_060))
    runs = {path[at : at + count]: at for count in range(2, most) for at in range(len(path) - count)}
    order = sorted(runs)
    dice.shuffle(order)
    fives = [sorted(order[at : at + 5], key=runs.get) for at in range(0, len(order), 5)]
    text = b"user-agent: *\n" + "".join(f"allow:{''.join(f'*{it}' for it in five)}*~~\n" for five in fives).encode()
    return text[:SIZE].rpartition(b"\n")[0] + b"\n", "/?" + path


def side_by_side(signs, seed, least, most):
    """Returns rules whose runs stand side by side in a path, and that path: all runs of that many signs, each once or
    until the text is full."""
    dice = random.Random(seed)
    path = "".join(dice.choices(signs, k=4_060))[:4_060]
    lines, size = [b"user-agent: *\n"], 14
    while size < SIZE:
        for count in range(least, most + 1):
            for begin in range(count):
                runs = [path[at : at + count] for at in range(begin, len(path) - count, count)]
                lines.append(f"allow:*{'*'.join(runs)}*~~\n".encode())
                size += len(lines[-1])
    return b"".join(lines)[:SIZE].rpartition(b"\n")[0] + b"\n", "/?" + path


def stairs(piece, sign=b""):
    """Rules each of which is longer than the one before."""
    lines, size, at = [b"user-agent: *\n"], 14, 0
    while size < SIZE:
        at += 1
        lines.append(b"disallow: /" + piece * at + sign + b"\n")
        size += len(lines[-1])
    return b"".join(lines[:-1])


def stairs_of_runs(sign):
    """Rules of one run, each one sign longer than that of the one before."""
    lines, size, at = [b"user-agent: *\n"], 14, 0
    while size < SIZE:
        at += 1
        lines.append(b"allow:*" + sign * at + b"*~\n")
        size += len(lines[-1])
    return b"".join(lines[:-1])


def in_turn(literals):
    """Returns rules that ask for a few literals again and again, each after the one before, and a path that has them
    so."""
    line = "*" + "*".join(literals * (160 // sum(len(it) + 1 for it in literals)))
    path, room = "", 4_060
    for sign in "".join(literals) * room:
        # (a URL writes a quotation mark of a query as `%22`)
        room -= 3 if sign == '"' else 1
        if room < 0:
            break
        path += sign
    return filled(f"allow:{line}*~~\n".encode()), "/?" + path


def nowhere(signs, count, seed):
    """Returns rules of a literal each, of that many signs, that mostly stands nowhere in a path of these signs."""
    dice = random.Random(seed)
    lines = ["".join(dice.choices(signs, k=count)) for _ in range(SIZE // (count + 8))]
    return b"user-agent: *\n" + "".join(f"allow:*{it}\n" for it in lines).encode()


# literals that had one place among those that `path_pattern` keeps (by `number_of` in kept.rt), when each had one: they
# pushed each other out
PUSHED_OUT, PUSHED_PATH = in_turn(["!", "f"])
PUSHED_PAIRS, PUSHED_PAIRS_PATH = in_turn(['{"', "}}", "`|", '"e'])
# literals that have both their places in common, of which two are kept (the search for them took a minute)
CROWDED, CROWDED_PATH = in_turn(["{`Ak", "{`qu", "{`Ax", "{`qE", "{`AH"])
# a path of which each 64 octets nearly hold an escape, with any two of its three octets, and some that hold it
NEARLY = "\\{" * 4 + "a7C" + "\\{" * 5
MANY_RUNS, MANY_PATH = distinct("^|{}`", 9309)
FEW_RUNS, FEW_PATH = distinct("^|", 9309, 22)
LETTERS = "abcdefghijklmnopqrstuvwxyz"
# more runs than are kept, asked for in turn; and so many that hardly any is asked for twice
SHORT_RUNS, SHORT_RUNS_PATH = side_by_side(LETTERS, 9309, 3, 8)
OTHER_RUNS, OTHER_RUNS_PATH = side_by_side(LETTERS, 93_090, 3, 13)
# runs that the first octets in which they are sorted hardly tell apart
LONG_RUNS, LONG_RUNS_PATH = side_by_side(["^^^^^^"] * 3 + list("^|"), 309, 4, 9)

TEXTS = {
    "plain rules": filled(b"disallow: /part{n}/page\n"),
    "the shortest rules": filled(b"allow:/\n"),
    "rules that all begin the path": stairs(b"ab"),
    "stairs with a star at each step": stairs(b"a*"),
    "stairs of stars": stairs(b"*"),
    "stairs that end the path": stairs(b"ab", b"$"),
    "rules with stars that nearly match": filled(b"allow:*abb*{n}\n"),
    "rules of a star that nearly match": filled(b"allow:*bbab\n"),
    "rules of two runs that nearly match": filled(b"allow:*aba*abb*{n}\n"),
    "rules of escapes that nearly match": filled(b"allow:*^^|^\n"),
    "rules of three escapes that nearly match": filled(b"allow:*{|}\n"),
    "rules of twelve escapes that nearly match": filled(b"allow:*^^|^^^^|||^|\n"),
    "rules of twenty runs that stand far apart": filled(b"allow:" + b"*<*>" * 10 + b"*}}\n"),
    "rules of twenty runs that nearly stand where they are next": filled(b"allow:" + b"*{|}" * 19 + b"*}~\n"),
    "rules that stand only before a sign": filled(b"allow:*<*^^^^\n"),
    "rules that fall behind where the path is": filled(b"allow:*" + b"^|" * 5 + b"^^\n"),
    "rules that leave the path in their midst": filled(b"allow:*" + b"^|" * 6 + b"{^|\n"),
    "rules that follow the path for 69 signs": filled(b"allow:*" + b"^|" * 34 + b"\n"),
    "rules that follow the path for 900 signs": filled(b"allow:*" + b"^|" * 454 + b"\n"),
    "rules of one sign that nearly stands in each block": filled(b"allow:*~" + b"*|" * 19 + b"*`\n"),
    "rules of one sign, each from a place of its own": filled(b"allow:*^^|{n}" + b"*|" * 40 + b"*~\n"),
    "rules of one letter that is nowhere": filled(b"allow:*z\n"),
    "rules of runs of one sign, each longer": stairs_of_runs(b"|"),
    "rules of runs of which no two are the same": MANY_RUNS,
    "rules of such runs of two signs": FEW_RUNS,
    "rules of more short runs than are kept": SHORT_RUNS,
    "rules of runs side by side, hardly any twice": OTHER_RUNS,
    "rules of long runs that begin alike": LONG_RUNS,
    "rules of two literals that pushed each other out": PUSHED_OUT,
    "rules of four such literals of escapes": PUSHED_PAIRS,
    "rules of five literals that push each other out": CROWDED,
    "rules of five signs that stand nowhere": nowhere("^|{}", 5, 4),
    "rules of nine signs that stand nowhere": nowhere("^|{}", 9, 4),
    "rules of 24 signs that nearly stand": filled(b"allow:*" + b"^|" * 11 + b"^{\n"),
    "70 rules of one letter, and a long comment":
        b"user-agent: *\n" + b"allow:*q~\n" * 70 + b"#" + b"c" * 20_000 + b"\n",
    "long rules that match to their end": filled(b"allow:*" + b"a" * 10 + b"b" + b"a" * 31 + b"b" + b"a" * 5 + b"ba\n"),
    "rules of two stars": filled(b"disallow:*a*b{n}\n"),
    "rules of 1,000 stars": filled(b"disallow: /" + b"a*" * 1_000 + b"x{n}\n"),
    "rules of nothing but 1,000 stars": filled(b"disallow: /" + b"*" * 1_000 + b"x{n}\n"),
    "rules that end the path": filled(b"disallow:*b$\n"),
    "short rules, many of them the same": filled(
        b"".join(b"allow:/%c%c\n" % (97 + at % 26, 97 + at // 26 % 26) for at in range(676))
    ),
    "rules of 4,000 octets": filled(b"disallow: " + LONG.encode() + b"{n}\n"),
    "one rule of 499,000 octets": b"user-agent: *\ndisallow: /" + b"ab" * 249_500 + b"\n",
    "one rule of 249,000 stars": b"user-agent: *\ndisallow: /" + b"a*" * 249_000 + b"x\n",
    "rules to be rewritten": filled(b"allow:/%7e%7e%7e{n}\n"),
    "octets to be escaped": filled(b"allow:/\xff\xff\xff\xff{n}\n"),
    "a group for each rule": filled(b"user-agent: foobot\nallow: /a{n}\n", b""),
    "heads that name the token": filled(b"user-agent: foobot\n", b"user-agent: *\nallow: /\n") + b"disallow: /b\n",
    "heads that name others": filled(b"user-agent: bot-{n}\n", b"") + b"disallow: /a\n",
    "groups of others": filled(b"user-agent: x\ndisallow: /\n", b""),
    "heads before each rule": filled(b"user-agent: foobot\nuser-agent: *\nuser-agent: x\ndisallow: /*a*{n}\n", b""),
    "empty lines": filled(b"\n"),
    "bare CRs": filled(b"\r") + b"disallow: /b\n",
    "colons": filled(b":"),
    "comments": filled(b"#\n"),
    "NULs": filled(b"\0"),
    "UTF-16": filled(b"disallow: /a{n}\n").decode().encode("utf-16")[:SIZE],
    "HTML": filled(b"<p>user-agent: *<br>disallow: /{n}</p>\n"),
}
DICE = random.Random(9309)
# (a query's bars, carets and braces are escaped only in the normal form, which has three times as many octets then)
PATHS = [
    LONG, "/" + "a" * 3_990, "/part7/page", "/x" * 1_990, "/" + "%2A" * 1_300, "/" + "aab" * 1_330, "/" + (
        "a" * 31 + "b"
    ) * 124,
    "/?" + "||^" * 1_330, "/?" + "".join(
        DICE.choices(["||", "|^", "^^", "^|"], k=1_990)
    ), "/?" + "".join(DICE.choices(["{||", "{{}", "||}"], k=1_330)),
    "/?" + "".join(
        "".join(DICE.choices("{|", k=197)) + it for it in "<>" * 10
    ), "/?" + "^|" * 1_990, "/?" + "^" * 2_000 + "<" + "^^^|" * 490,
    "/?" + "".join("".join(DICE.choices(["{||", "{{}", "||}"], k=64)) + "{|}" for _ in range(20)),
    "/?" + ("^|" * 30 + "{|") * 64, "/?" + ("^|" * 450 + "{|") * 4,
    "/?" + "|" * 2_000 + "~" + (NEARLY * 5 + "|") * 19, "/?" + "".join(
        DICE.choices("^|{}", k=2_030)
    ) * 2, MANY_PATH, FEW_PATH,
    SHORT_RUNS_PATH, OTHER_RUNS_PATH, LONG_RUNS_PATH, PUSHED_PATH, PUSHED_PAIRS_PATH, CROWDED_PATH, "/?" + "".join(
        DICE.choices("^|{}", k=4_060)
    ), "/?" + ("^|" * 11 + "^}") * 169,
    # (all but these are asked before there is an index, too)
    "/", "/ab", "/%7e%7e%7e7",
]
