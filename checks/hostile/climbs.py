"""A search for asks that take long: paths and rules that are drawn, of which the worst is kept and changed again and
again. It begins with families for which an ask once took more than a hundred milliseconds."""
import time

from lib.costly import filled
from lib.reading import spelled
import costs

# how many octets of a URL a path may have, and of a rule
PATH, RULE = 4_060, 12_000
# what is drawn: letters, signs that a normal form escapes, and octets of their escapes
SIGNS = ["a", "b", "c", "|", "^", "{", "}", "7", "C", "%7C", "7C", "|7", "C%"]
# the ask without an index, the one that makes it, and two by it
ASKS = 4
# how long an ask may take of what looks at most numbers, and where a climb ends, in milliseconds
MOST = 2 * costs.MOST
# how many changes that are no worse end a climb
PATIENCE = 12


class Family:
    """A path of pieces, each as often as its number says, and rules that repeat a run of literals."""

    def __init__(self, pieces, literals, times, end="*~~"):
        self.pieces, self.literals, self.times, self.end = pieces, literals, times, end

    def path(self):
        return ("/?" + "".join(piece * count for piece, count in self.pieces))[:PATH]

    def text(self):
        run = "".join(f"*{it}" for it in self.literals)
        times = max(1, min(self.times, RULE // max(1, len(run))))
        return filled(f"allow:{run * times}{self.end}\n".encode())

    def changed(self, dice):
        """Returns the family with one thing drawn anew."""
        pieces, literals, times = list(self.pieces), list(self.literals), self.times
        which = dice.randrange(6)
        if which == 0:
            pieces[dice.randrange(len(pieces))] = piece(dice)
        elif which == 1:
            at = dice.randrange(len(pieces))
            pieces[at] = (pieces[at][0], max(1, int(pieces[at][1] * dice.choice([0.5, 0.9, 1.1, 2]))))
        elif which == 2 and len(pieces) < 60:
            pieces.insert(dice.randrange(len(pieces) + 1), dice.choice(pieces + [piece(dice)]))
        elif which == 3 and len(pieces) > 1:
            del pieces[dice.randrange(len(pieces))]
        elif which == 4:
            literals[dice.randrange(len(literals))] = literal(dice)
        else:
            times = max(1, int(times * dice.choice([0.3, 0.8, 1.25, 3])))
            if dice.randrange(2):
                literals.insert(dice.randrange(len(literals) + 1), literal(dice))
            elif len(literals) > 1:
                del literals[dice.randrange(len(literals))]
        return Family(pieces, literals, times, self.end)


def literal(dice):
    return "".join(dice.choices(SIGNS, k=dice.choice([1, 1, 1, 2, 2, 3, 5])))


def piece(dice):
    return literal(dice), int(dice.choice([1, 3, 20, 100, 1_000]) * dice.uniform(1, 4))


def drawn(dice):
    """Returns a family of which nothing is given."""
    pieces = [piece(dice) for _ in range(dice.choice([1, 2, 3, 8, 40]))]
    literals = [literal(dice) for _ in range(dice.choice([1, 2, 3, 6]))]
    return Family(pieces, literals, dice.choice([1, 3, 30, 300, 1_000]))


# two literals whose marks pushed each other out, when the places of a literal had marks: 130 milliseconds
NAMED = {f"two literals of 3,600 places, {times} times": Family([("|", 3_600)], ["|", "7C"], times)
         for times in (700, 900, 1_100, 1_300)}
# what looks at most numbers for each search, and has most searches
HOPS = {
    "two literals, each a block behind the other": Family([("|", 22), ("^", 22)] * 92, ["|", "^"], 93),
    "three literals, each a block behind the other": Family(
        [("|", 22), ("^", 22), ("{", 22)] * 61, ["|", "^", "{"], 62,
    ),
    "two literals, each two blocks behind the other": Family([("|", 40), ("^", 40)] * 50, ["|", "^"], 51),
    "a literal of 104 places": Family([("|" + "a" * 38, 1)] * 104, ["|"], 105),
    "one letter far behind": Family([("b", 2_000), ("a", 2_000)], ["a"], 1),
    "one letter far behind, and back": Family([("^", 2_000), ("|", 2_000)], ["|", "^"], 1, ""),
}


def milliseconds(program, family):
    """Returns what the slowest ask of the family's path takes of the processor, and what was said."""
    with costs.Conversation(program) as it:
        it.say("1 BEGIN a.example")
        it.say(f"1 ARRIVE a.example 1 200 {spelled(family.text())}")
        took = [it.say(f"2 ASK foobot http://a.example{family.path()}")[1] for _ in range(ASKS)]
        return max(took), it.said


def measured(program, family, most):
    """The same, measured again while it is over the most: what takes longer only once is the machine's doing."""
    found, said = milliseconds(program, family)
    for _ in range(costs.ATTEMPTS - 1):
        if found <= most:
            break
        again, _ = milliseconds(program, family)
        found = min(found, again)
    return found, said


def expect(tried, name, family, most):
    """Sees to it that no ask of the family takes longer than that."""
    most *= costs.slower
    found, said = measured(tried.program, family, most)
    tried.count("families")
    given = "".join(f"{it}\n" for it in said).encode()
    tried.expect(f"{name}: an ask that takes long", given, found <= most, f"{found:.1f} ms", ["replay"])


def climb(tried, dice, until):
    """Changes a family while it becomes worse, and sees to it that the worst does not take long."""
    named = [*NAMED.values(), *HOPS.values()]
    worst = dice.choice(named + [drawn(dice) for _ in named])
    height, failures = milliseconds(tried.program, worst)[0], 0
    while failures < PATIENCE and time.monotonic() < until:
        other = worst.changed(dice)
        found = milliseconds(tried.program, other)[0]
        tried.count("changes")
        if found > height:
            worst, height, failures = other, found, 0
        else:
            failures += 1
    expect(tried, f"{worst.pieces[:4]}, {worst.literals} {worst.times} times", worst, MOST)


def try_all(tried, seconds, only=None):
    """Tries the families that have names, and climbs for the rest of the time."""
    until = time.monotonic() + seconds
    if only is None:
        for name, family in NAMED.items():
            expect(tried, name, family, costs.MOST)
        for name, family in HOPS.items():
            expect(tried, name, family, MOST)
    for dice in tried.cases(seconds, only):
        climb(tried, dice, until if only is None else time.monotonic() + 60)
