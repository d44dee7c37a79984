"""An auditor of histories in another language than the program's: it reads their texts as docs/FORMATS.md has them, and
takes its verdicts from the second reading of RFC 9309 (checks/lib/reading.py).

usage: checks/hostile/auditor.py < HISTORY
"""
import functools
import os
import re
import sys

sys.dont_write_bytecode = True
sys.path.append(os.path.dirname(os.path.dirname(os.path.realpath(__file__))))
from lib import reading
from lib.reading import TEXT_LIMIT, spelled
import pages

LINE_LIMIT, ENTRIES_LIMIT, NUMBER_LIMIT, GENERATION_LIMIT = 2_097_152, 1_000_000, 2**64 - 1, 2**48 - 1
DAY = 86_400
CLOSED = ("server", "network", "redirect", "scheme", "coding", "other")
KINDS = "HILUYE"


class Bad(Exception):
    """The line is none with which a right text goes on."""


def need(holds):
    if not holds:
        raise Bad


def numeral(text):
    need(re.fullmatch("0|[1-9][0-9]{0,19}", text) and int(text) <= NUMBER_LIMIT)
    return int(text)


@functools.lru_cache(10_000)
def records_of(word):
    body = b"" if word == "-" else pages.unescaped(word)
    return [reading.record_of(line) for line in reading.lines_of(body)]


@functools.lru_cache(10_000)
def is_spelled_body(word):
    body = b"" if word == "-" else pages.unescaped(word)
    return spelled(body) == word and len(body) <= TEXT_LIMIT


@functools.lru_cache(10_000)
def is_spelled(read, text):
    try:
        found = read(text)
    except pages.Refused:
        return False
    return text == (found[1] if isinstance(found, tuple) else found)


def authority(text):
    need(re.fullmatch("[!-~]+", text) and not re.search(r"%|\[.*\.", text) and is_spelled(pages.authority_of, text))
    return text


def page(token, url):
    need(re.fullmatch("[a-z_-]{1,64}", token) and re.fullmatch("http://[!-~]*", url))
    authority(url.removeprefix("http://").partition("/")[0])
    need(is_spelled(pages.read, url))
    return token, url


def answer(words, version):
    """Returns the life of an answer, and its words as a text of version 2 has them."""
    if words[0] == "R":
        words = words if version > 1 else ["R", str(DAY), *words[1:]]
        need(len(words) == 3 and 60 <= numeral(words[1]) <= DAY and is_spelled_body(words[2]))
        return int(words[1]), " ".join(words)
    need(
        len(words) == 2 and (
            words[0] == "O" and words[1] in ("unavailable", "redirects") or words[0] == "C" and words[1] in CLOSED
        )
    )
    return DAY, " ".join(words)


class History:
    """What the entries so far have left open, and their counts."""

    def __init__(self):
        self.entries = self.starts = self.begins = self.moment = 0
        self.answers, self.turns, self.slots, self.unspent, self.running = {}, {}, {}, {}, {}

    def is_past(self, site, moment):
        _, begun, life, _ = self.answers[site]
        return moment > begun + life

    def ruling(self, token, url, moment):
        """Returns whether a page is allowed at a moment, and the words for why."""
        site = url[len("http://") : url.index("/", len("http://"))]
        if site not in self.answers:
            return False, "unknown"
        if self.is_past(site, moment):
            return False, "expired"
        words = self.answers[site][3].split(" ")
        if words[0] != "R":
            return (True, "open") if words[0] == "O" else (False, "closed")
        return reading.verdict(records_of(words[2]), token, pages.target_of(url).encode())

    def begin(self, site, turn):
        self.begins += 1
        self.turns[site] = turn, self.moment

    def arrive(self, site, life, words):
        turn, begun = self.turns.pop(site)
        self.answers[site] = turn, begun, life, words

    def grant(self, number, token, url):
        self.slots[number % 65_536] = max(number // 65_536, self.slots.get(number % 65_536, 0))
        self.unspent[number] = token, url

    def start(self, number):
        self.starts += 1
        self.running[number] = self.unspent.pop(number)

    def sweep(self):
        """Drops the answers that are past their lives, and returns how many."""
        past = [it for it in self.answers if self.is_past(it, self.moment)]
        for it in past:
            del self.answers[it]
        return len(past)

    def base(self):
        """Returns the lines after the V 3 of a text that goes on from here."""
        yield f"T {self.entries} {self.starts} {self.begins} {self.moment}"
        yield from (f"H {it} {turn} {begun} {words}" for it, (turn, begun, _, words) in sorted(self.answers.items()))
        yield from (f"I {it} {turn} {begun}" for it, (turn, begun) in sorted(self.turns.items(), key=lambda it: it[1]))
        yield from (f"L {slot} {generation}" for slot, generation in sorted(self.slots.items()))
        yield from (f"U {number} {token} {url}" for number, (token, url) in sorted(self.unspent.items()))
        yield from (f"Y {number} {token} {url}" for number, (token, url) in sorted(self.running.items()))
        yield "E"


class Auditor(History):
    """A reader of one text after the other, a line at a time."""

    def __init__(self):
        super().__init__()
        self.version, self.is_first, self.events, self.started, self.of_text = 1, True, 0, 0, 0
        self.granted, self.wanted, self.above = set(), None, None

    def line(self, octets):
        need(len(octets) <= LINE_LIMIT and octets.isascii())
        text, is_first, self.is_first = octets.decode(), self.is_first, False
        if self.wanted is not None:
            need(text == self.wanted.pop(0))
            self.wanted = self.wanted or None
        elif self.above is not None:
            self.base_line(text.split(" "))
        elif text == "V 2" and is_first:
            self.version = 2
        elif text == "V 3":
            self.version, self.of_text = 3, 0
            # (behind no entries there is no base, and nothing is what its line must be)
            self.above, self.wanted = (("V", ()), None) if is_first else (
                None, list(self.base()) if self.entries else [None],
            )
        else:
            self.entry(text.split(" "))

    def may_end(self):
        return self.wanted is None and self.above is None

    def entry(self, words):
        need(
            self.of_text < ENTRIES_LIMIT and self.entries < NUMBER_LIMIT and words[0] in list(
                "BAGNSDKFW"
            ) and len(words) > 1
        )
        if words[0] not in "KF":
            moment = numeral(words[1])
            need(moment >= self.moment and len(words) > 2)
            self.moment = moment
        self.entries, self.events, self.of_text = self.entries + 1, self.events + 1, self.of_text + 1
        getattr(self, f"entry_{words[0]}")(*words[1:])

    def entry_B(self, moment, site, turn):
        need(authority(site) not in self.turns and numeral(turn) == self.begins + 1)
        self.begin(site, int(turn))

    def entry_A(self, moment, site, turn, *words):
        need(words and numeral(turn) == self.turns.get(authority(site), (None, 0))[0])
        self.arrive(site, *answer(list(words), self.version))

    def entry_G(self, moment, number, token, url):
        slot, generation = numeral(number) % 65_536, int(number) // 65_536
        need(generation > self.slots.get(slot, -1) if self.version == 3 else number not in self.granted)
        need(self.ruling(*page(token, url), self.moment)[0])
        self.granted.add(number)
        self.grant(int(number), token, url)

    def entry_N(self, moment, token, url, *cause):
        need(self.ruling(*page(token, url), self.moment) == (False, " ".join(cause)))

    def entry_S(self, moment, number, *reason):
        need(
            numeral(number) in self.unspent and self.ruling(
                *self.unspent[int(number)], self.moment,
            ) == (True, " ".join(reason))
        )
        self.started += 1
        self.start(int(number))

    def entry_D(self, moment, number, *cause):
        need(
            numeral(number) in self.unspent and self.ruling(
                *self.unspent.pop(int(number)), self.moment,
            ) == (False, " ".join(cause))
        )

    def entry_K(self, number):
        need(self.unspent.pop(numeral(number), None))

    def entry_F(self, number):
        need(self.running.pop(numeral(number), None))

    def entry_W(self, moment, count):
        need(numeral(count) == self.sweep())

    def base_line(self, words):
        """Reads a line of the base of a first text."""
        kind = words[0]
        if self.above[0] == "V":
            need(kind == "T" and len(words) == 5)
            self.entries, self.starts, self.begins, self.moment = map(numeral, words[1:])
            need(self.entries and self.starts + self.begins <= self.entries)
            self.above = "H", ()
            return
        need(kind and kind in KINDS)
        key = getattr(self, f"base_{kind}")(*words[1:])
        need((KINDS.index(kind), key) > (KINDS.index(self.above[0]), self.above[1]))
        self.above = (kind, key) if kind != "E" else None

    def turn(self, turn, begun):
        turns = [it[0] for it in [*self.answers.values(), *self.turns.values()]]
        need(numeral(turn) <= self.begins and int(turn) not in turns and numeral(begun) <= self.moment)
        return int(turn), int(begun)

    def base_H(self, site, turn, begun, *words):
        need(words)
        self.answers[authority(site)] = *self.turn(turn, begun), *answer(list(words), 3)
        return (site,)

    def base_I(self, site, turn, begun):
        need(authority(site) not in self.turns)
        self.turns[site] = self.turn(turn, begun)
        return (int(turn),)

    def base_L(self, slot, generation):
        need(numeral(slot) <= 65_535 and numeral(generation) <= GENERATION_LIMIT)
        self.slots[int(slot)] = int(generation)
        return (int(slot),)

    def out(self, table, number, token, url):
        need(numeral(number) // 65_536 <= self.slots.get(int(number) % 65_536, -1) and int(number) not in self.unspent)
        table[int(number)] = page(token, url)
        return (int(number),)

    def base_U(self, number, token, url):
        return self.out(self.unspent, number, token, url)

    def base_Y(self, number, token, url):
        return self.out(self.running, number, token, url)

    def base_E(self):
        return ()


def audit(text):
    """Returns what an audit must say of texts."""
    auditor = Auditor()
    *lines, rest = text.split(b"\n")
    for number, line in enumerate(lines, 1):
        try:
            auditor.line(line)
        except (Bad, TypeError) as fault:
            # (a line with too few or too many words is no call of its method)
            if isinstance(fault, TypeError) and "positional argument" not in str(fault):
                raise
            return f"BAD line {number}"
    if rest or not auditor.may_end():
        return f"BAD line {len(lines) + 1}"
    return f"OK events {auditor.events} starts {auditor.started}"


if __name__ == "__main__":
    print(audit(sys.stdin.buffer.read()))
