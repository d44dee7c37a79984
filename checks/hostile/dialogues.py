"""Random dialogues of `replay`: what the program answers, the history that it writes, and what of that an audit says;
and texts of histories that were changed. All of it is compared with the gate and the auditor that are written here."""
import pages
from lib import drawn
from lib.reading import spelled
from auditor import DAY, GENERATION_LIMIT, NUMBER_LIMIT, audit
from gate import Gate

SITES = [
    "a.example", "b.example", "A.EXAMPLE:80", "b.example:8080", "b.example:08080", "127.1", "127.0.0.1", "c.example.",
]
BAD_SITES = ["a/b", "", "a b", "a.example:99999", "x@a.example", "[", "1.2.3.256", "a%20b"]
TOKENS = ["foobot", "FooBot", "barbot", "x_y-z", "crawlgate"]
ENDINGS = ["", "", "", "?", "?a", "?b=%7e", "#x", "/..", "/./a", "\\a"]
LOCATIONS = [
    "/r", "r", "?x", "-", "https://b.example/r", "http://b.example/r", "http://u@b.example/", "//b.example/x",
    "ftp://b.example/", "http://", "https://u:p@h/",
]
STATUSES = ["404", "410", "429", "500", "503", "304", "999", "100", "NET", "CODING"]
ODD = [b"", b" ", b"x", b"5", b"5 ask foobot http://a.example/", b"5 ASK foobot", b"5  SWEEP", b" 5 SWEEP", b"5 SWEEP ",
       b"\x80 SWEEP", b"5\tSWEEP", b"-1 SWEEP",
       b"18446744073709551616 SWEEP", b"5 STATE", b"5 BACK x", b"5 DONE 18446744073709551616", b"5 REFRESH a.example",
       b"5 ASK foo2 http://a.example/",
       b"5 ASK " + b"x" * 65 + b" http://a.example/", b"5 ARRIVE a.example 1", b"5 ARRIVE a.example x 404 -",
       b"5 QUIT now"]
ODD_URLS = ["foo", "http:/a.example/x", "http:a.example/x", "https://a.example/x", "http://u@a.example/",
            "http://:@a.example/x", "ftp://a.example/", "http://a.example:80/x",
            "HTTP://A.example/x", "http://a.example:/x", "http://[::1]/x", "http://a.example/" + "x" * 4080,
            "http://a.example/" + '"' * 1500, "http://", "http://a.example/%"]


def file_of(dice):
    """Draws a robots.txt."""
    if dice.randrange(3) == 0:
        return dice.choice(drawn.SMALL) + dice.choice(drawn.SMALL)
    rule = lambda: dice.choice(drawn.KINDS) + b"/" + "".join(
        dice.choices(drawn.PIECES, k=dice.randrange(6))
    ).encode() + b"\n"
    return b"".join(
        dice.choice(drawn.OTHERS) if dice.randrange(4) == 0 else rule() for _ in range(dice.randrange(1, 12))
    )


class Dialogue:
    """The lines of a session, drawn so that most of them are calls that the gate takes."""

    def __init__(self, dice):
        self.dice = dice
        self.options = {
            "slots": dice.choice([1, 2, 3, 1_024]),
            "generation": dice.choice([1, 1, 1, 7, GENERATION_LIMIT - 1, GENERATION_LIMIT]),
            "log": dice.choice([dice.randrange(1, 80), 1_000_000, 1_000_000]),
            "authorities": dice.choice([1, 2, 3, 65_536, 65_536]),
            "places": dice.choice([1, 2, 65_536, 65_536]),
        }
        self.gate, self.lines, self.wanted, self.texts = Gate(**self.options), [], [], []
        self.moment = dice.choice([0, 100, NUMBER_LIMIT - 100_000])
        for _ in range(dice.choice([10, 60, 250])):
            self.say()
        if dice.randrange(4) == 0:
            self.add(b"5 QUIT")

    def words(self):
        return [word for name, value in self.options.items() for word in (f"--{name}", str(value))]

    def say(self):
        gate = self.gate
        draws = {
            self.ask: 30, self.start: 2 + 15 * bool(gate.unspent), self.begin: 3 + 9 * (
                len(gate.answers) < 2
            ), self.arrive: 1 + 19 * bool(gate.turns),
            self.back: 1 + 3 * bool(
                gate.unspent
            ), self.done: 1 + 9 * bool(gate.running), self.state: 3, self.sweep: 2, self.seal: 2, self.odd: 2,
        }
        line = self.dice.choices([*draws], draws.values())[0]()
        self.add(line if isinstance(line, bytes) else f"{self.now()} {line}".encode())

    def add(self, line):
        try:
            said = self.gate.reply(line)
        except pages.Untold:
            return
        self.lines.append(line)
        self.wanted += said
        if said[0].startswith("SEALED ") and said[1:]:
            self.texts.append(said[1:])

    def now(self):
        step = self.dice.choice([0] * 20 + [1] * 20 + [5, 59, 61, -5, -DAY] * 2 + [3_600, DAY, DAY + 1])
        self.moment = min(max(self.moment + step, 0), NUMBER_LIMIT)
        return self.dice.choice(["", "", "", "0"]) + str(self.moment)

    def site(self):
        return self.dice.choice(
            SITES[: self.dice.choice([1, 2, 3, 3, 4, len(SITES)])] if self.dice.randrange(30) else BAD_SITES
        )

    def url(self):
        if self.dice.randrange(20) == 0:
            return self.dice.choice(ODD_URLS)
        path = self.dice.choice([*drawn.PATHS, "/robots.txt", "/" + "".join(self.dice.choices(drawn.PIECES, k=4))])
        sites = sorted(self.gate.answers) if self.gate.answers and self.dice.randrange(4) else SITES
        return f"http://{self.dice.choice(sites)}{path}{self.dice.choice(ENDINGS)}"

    def number(self, out):
        """Draws a number: mostly one of those that are out."""
        if out and self.dice.randrange(8):
            return self.dice.choice(sorted(out))
        return self.dice.choice([*self.gate.unspent, *self.gate.running, 65_536, 65_537, 131_072, 0, NUMBER_LIMIT])

    def begin(self):
        return f"BEGIN {self.site()}"

    def arrive(self):
        site, turn = self.site(), self.dice.randrange(1, self.gate.begins + 2)
        if self.gate.turns and self.dice.randrange(6):
            site, (turn, _) = self.dice.choice(sorted(self.gate.turns.items()))
        return " ".join(["ARRIVE", site, str(turn), *self.replies()])

    def redirect(self, locations):
        return [self.dice.choice(["301", "302", "303", "307", "308"]), self.dice.choice(locations)]

    def replies(self):
        words = [
            word for _ in range(
                self.dice.choice([0] * 9 + [1, 2, 5, 6])
            ) for word in self.redirect(["/r"] * 20 + LOCATIONS)
        ]
        end = self.dice.randrange(20)
        if end == 0:
            words += self.redirect(LOCATIONS)
        elif end < 14:
            life = self.dice.choice([*[""] * 9, "/0", "/60", "/61", "/3600", "/99999999", "/x"])
            words += [f"{self.dice.choice(['200', '200', '206', '299'])}{life}", spelled(file_of(self.dice))]
        elif end < 19:
            words += [self.dice.choice(STATUSES), self.dice.choice(["-"] * 9 + ["x"])]
        return words if self.dice.randrange(20) else words[:-1]

    def ask(self):
        return f"ASK {self.dice.choice(TOKENS)} {self.url()}"

    def start(self):
        number = self.number(self.gate.unspent)
        token, url = self.gate.unspent.get(number, ("foobot", "http://a.example/"))
        if self.dice.randrange(10) == 0:
            token, url = self.dice.choice(TOKENS), self.url()
        return f"START {number} {token} {url}"

    def back(self):
        return f"BACK {self.number(self.gate.unspent)}"

    def done(self):
        return f"DONE {self.number(self.gate.running)}"

    def state(self):
        return f"STATE {self.site()}"

    def sweep(self):
        return "SWEEP"

    def seal(self):
        return "SEAL"

    def odd(self):
        return self.dice.choice(ODD)

    def given(self):
        return b"".join(it + b"\n" for it in self.lines)

    def history(self):
        """Returns the text that the session leaves with --export, and all of its texts one after the other."""
        last = self.gate.text()
        whole = [line for text in [*self.texts, last] for line in text]
        return "".join(f"{it}\n" for it in last).encode(), "".join(f"{it}\n" for it in whole).encode()


def try_dialogue(tried, dice):
    """Compares the replies of a dialogue, its history, and what the audits say of that."""
    it = Dialogue(dice)
    given = it.given()
    tried.same("replies", given, ["replay", *it.words()], "".join(f"{line}\n" for line in it.wanted).encode())
    last, whole = it.history()
    tried.same("history", given, ["replay", "--export", *it.words()], last)
    told = audit(whole)
    tried.expect("auditor.py of the history", whole, told.startswith("OK "), told)
    tried.same("audit", whole, ["audit"], f"{told}\n".encode(), 0 if told.startswith("OK ") else 1)


NUMBERS = [
    "0", "1", "2", "3", "65535", "65536", "65537", "131072", str(DAY), str(GENERATION_LIMIT), str(2**64 - 1),
    str(2**64), "01", "60", "59",
]
ENTRIES = [
    "V 1", "V 2", "V 3", "E", "", "K 65536", "F 65536", "W 0 0", "L 0 1", "B 100 d.example 1", "T 1 0 0 0",
    "T 1 0 1 100",
]


def change_octet(dice, lines):
    at = dice.randrange(len(lines))
    line = lines[at]
    place = dice.randrange(len(line) + 1)
    octet = bytes([dice.choice([*b" 0123456789%-\r\nABGS/:.aZ", dice.randrange(256)])])
    lines[at] = dice.choice(
        [
            line[:place] + octet + line[place + 1 :], line[:place] + octet + line[place:],
            line[:place] + line[place + 1 :],
        ]
    )


def flip_bit(dice, lines):
    at = dice.randrange(len(lines))
    if lines[at]:
        place = dice.randrange(len(lines[at]))
        lines[at] = lines[at][:place] + bytes([lines[at][place] ^ 1 << dice.randrange(8)]) + lines[at][place + 1 :]


def drop_line(dice, lines):
    del lines[dice.randrange(len(lines))]


def double_line(dice, lines):
    lines.insert(dice.randrange(len(lines) + 1), dice.choice(lines))


def swap_lines(dice, lines):
    one = dice.randrange(len(lines))
    other = min(one + dice.choice([1, 1, 1, 2, 7]), len(lines) - 1)
    lines[one], lines[other] = lines[other], lines[one]


def change_word(dice, lines):
    at = dice.randrange(len(lines))
    words = lines[at].split(b" ")
    place = dice.randrange(len(words))
    others = [it for line in lines for it in line.split(b" ")]
    word = words[place]
    if word.isdigit() and dice.randrange(3):
        word = b"%d" % max(0, int(word) + dice.choice([-1, 1, -60, 60, 65_536, -65_536]))
    else:
        word = dice.choice([*others, *(it.encode() for it in NUMBERS)])
    lines[at] = b" ".join([*words[:place], word, *words[place + 1 :]])


def add_line(dice, lines):
    lines.insert(dice.randrange(len(lines) + 1), dice.choice(ENTRIES).encode())


def cut_lines(dice, lines):
    first = dice.randrange(len(lines))
    del lines[first : first + dice.randrange(1, 12)]


def move_text(dice, lines):
    """Segments are lost, or come in another order."""
    starts = [at for at, it in enumerate(lines) if it.startswith(b"V ")] + [len(lines)]
    texts = [lines[begin:end] for begin, end in zip(starts, starts[1:])]
    if texts:
        change = dice.choice(
            [
                dice.shuffle, lambda them: them.pop(dice.randrange(len(them))),
                lambda them: them.append(dice.choice(them)), list.reverse,
            ]
        )
        change(texts)
        lines[:] = [line for text in texts for line in text]


CHANGES = [
    change_octet, change_octet, flip_bit, drop_line, double_line, swap_lines, change_word, change_word, change_word,
    add_line, cut_lines, move_text,
]
MUTANTS = 12


def try_mutants(tried, dice):
    """Compares what the audits say of texts of a dialogue that were changed."""
    _, whole = Dialogue(dice).history()
    if dice.randrange(3) == 0 and b"\nV 3\n" in whole:
        # (the base of a first text is read otherwise than that of a further one)
        whole = whole[whole.index(b"\nV 3\n") + 1 :]
    for _ in range(MUTANTS):
        lines = whole.split(b"\n")[:-1]
        for _ in range(dice.choice([1, 1, 1, 2, 3])):
            if lines:
                dice.choice(CHANGES)(dice, lines)
        text = b"".join(it + b"\n" for it in lines)
        if dice.randrange(15) == 0:
            text = text[: dice.randrange(len(text) + 1)]
        try:
            told = audit(text)
        except pages.Untold:
            tried.count("untold")
            continue
        tried.count("right mutants" if told.startswith("OK ") else "wrong mutants")
        tried.same("audit", text, ["audit"], f"{told}\n".encode(), 0 if told.startswith("OK ") else 1)
