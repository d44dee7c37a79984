"""Random octets, and such that cost much, for every subcommand: the program must not crash, hang, or end otherwise than
docs/FORMATS.md says."""
import random
import re
import time

from lib.cases import short
from lib.server import Server, Session, suppressed
import costs
import texts
from dialogues import Dialogue

LINE_LIMITS = [8_192, 65_536, 512_000, 2_097_152]
COMMANDS = [
    ["replay"], [
        "replay", "--slots", "1", "--log", "3",
    ], ["replay", "--export"], ["audit"], ["lines"], ["check", "foobot", "-"],
    [
        "check", "--explain", "foobot", "-",
    ], ["check", "foobot", "/a", "/"], ["shift"], ["shift", "--tsv"], ["shift", "--export"],
]
WORDS = ["replay", "shift", "serve", "audit", "lines", "check", "--slots", "--log", "--export", "--explain", "--robots",
         "--robots=/", "--tsv", "--help", "--version", "--workers", "0", "1", "65537", "-1",
         "foobot", "/a", "-", "", "--", "--slots=1", "x" * 5_000, "\u00e9", "99999999999999999999", "+1", " 1", "1e3",
         "-h", "help", b"\xff", b"/\xff\xfe"]
REPLY = re.compile(
    rb"TURN \S+ \d+|TAKEN \S+ (rules|open|closed)|PERMIT \d+|GO \d+ (open|norule|robots|line \d+)|NO \S+ (spent|"
    rb"unknown|expired|closed|line \d+)|(BACK|DONE) \d+"
    rb"|STATE \S+ (unknown|expired|closed|open|rules) (idle|fetching)|SWEPT \d+|SEALED \d+|BYE"
    rb"|ERR (long|lines|chars|words|moment|verb|number|token|authority|url (long|bad|scheme|user)|status|replies|"
    rb"inflight|log|authorities|stale|busy|permits|notout)"
)


def noise(dice):
    return dice.randbytes(dice.choice([1, 10, 1_000, 50_000]))


def words(dice):
    pieces = [
        b"ASK", b"BEGIN", b"ARRIVE", b"SEAL", b"QUIT", b"5", b"foobot", b"http://127.0.0.1:1/", b"a.example", b"B",
        b"A", b"G", b"V 3", b"T", b"E", b"200", b"%", b"-",
    ]
    return b"".join(
        dice.choice(pieces) + dice.choice(
            [b" "] * 8 + [b"\n"] * 4 + [b"\r\n", b"", b"\0", b"\t"]
        ) for _ in range(dice.randrange(400))
    )


def long_line(dice):
    line = dice.choice([b"x", b" ", b"5 ", b"%41", b"\0", b"/", b"*", b"a.", b"http://a/"])
    start = dice.choice(
        [
            b"", b"5 ASK foobot http://a.example/", b"5 BEGIN ", b"A 5 a.example 1 R 60 ", b"Disallow: /",
            b"foobot http://127.0.0.1:1/", b"5 ARRIVE a.example 1 200 ",
        ]
    )
    size = dice.choice(LINE_LIMITS) + dice.randrange(-3, 4)
    return (start + line * (size // len(line) + 1))[:size] + dice.choice([b"", b"\n", b"\r\n", b"\n\n", b"\r"])


def damaged(dice):
    """A session or its history, cut, with some octets that are others, or in UTF-16."""
    dialogue = Dialogue(dice)
    text = bytearray(dice.choice([dialogue.given(), dialogue.history()[1]]))
    for _ in range(dice.choice([0, 1, 5, 50])):
        if text:
            text[dice.randrange(len(text))] = dice.randrange(256)
    text = bytes(text[: dice.randrange(len(text) + 1)])
    return text.decode("latin-1").encode("utf-16") if dice.randrange(8) == 0 else text


def zeros(dice):
    return dice.choice([b"\0", b"\n", b"\r\n", b" ", b"\xff"]) * dice.choice([1, 5_000, 300_000])


def jobs(dice):
    jobs = [
        b"foobot http://127.0.0.1:1/x", b"foobot http://[::1]:1/", b"foobot http://127.0.0.1:1/" + b"a" * 3_000,
        b"foobot https://a/", b"x y z", b"", b"foobot",
    ]
    return b"\n".join(dice.choice(jobs[:3] * 9 + jobs) for _ in range(dice.choice([1, 30, 4_097])))


def robots(dice):
    return dice.choices([it for _, it in texts.KINDS], [it for it, _ in texts.KINDS])[0](dice)


INPUTS = [noise, words, long_line, damaged, damaged, zeros, jobs, robots]


def foreign(found):
    """Returns the first line of a replay that is no reply and in no segment."""
    left = 0
    for line in found.split(b"\n")[:-1]:
        if left:
            left -= 1
        elif not REPLY.fullmatch(line):
            return line
        elif line.startswith(b"SEALED "):
            left = int(line.split()[1])
    return None


def try_octets(tried, dice):
    given = dice.choice(INPUTS)(dice)
    command = dice.choice(COMMANDS)
    found, status = tried.survives("octets", given, command)
    tried.count("octets", len(given))
    if command[0] == "replay" and "--export" not in command and status is not None:
        line = foreign(found)
        tried.expect("octets: a reply", given, line is None, short(line), command)
    if command[0] == "audit" and status is not None:
        is_told = re.fullmatch(rb"OK events \d+ starts \d+\n" if status == 0 else rb"BAD line \d+\n", found)
        tried.expect("octets: audit", given, is_told, f"status {status}, {short(found)}", command)


def try_words(tried, dice):
    """Words of the command that are drawn; `serve` is left out where they would have it serve."""
    drawn = dice.choices(WORDS, k=dice.randrange(6))
    if drawn[:1] != ["serve"]:
        tried.count("words", len(drawn))
        tried.survives("words", b"", drawn)


def try_clients(tried, seconds, seed):
    """Octets that clients send. Behind each of them the server has to answer another one."""
    until = time.monotonic() + seconds
    with Server("--patience", "5", "--workers", "2", "--endless") as server:
        for tried.case in range(1_000_000):
            if time.monotonic() > until and tried.case:
                return
            dice = random.Random(f"{seed} clients {tried.case}")
            given = dice.choice(INPUTS[:-2])(dice)
            talk(tried, server, dice, given)


def talk(tried, server, dice, given):
    """Sends octets, and has another client be answered."""
    tried.count("octets", len(given))
    tried.count("clients")
    end = dice.choice(["finish", "reset", "close"])
    with Session(server) as session:
        suppressed(session.send, given)
        if end == "finish":
            suppressed(session.finish)
            suppressed(session.rest)
        elif end == "reset":
            suppressed(session.reset)
    try:
        with Session(server) as session:
            told = session.say("STATE a.example")
    except OSError as error:
        told = repr(error)
    is_told = server.process.poll() is None and told == "STATE a.example unknown idle"
    tried.expect(
        f"clients: {end}", given, is_told, f"the next client is told {told!r}, the status is {server.process.poll()}",
    )


def try_all(tried, seconds, only=None):
    """Tries costly texts for half of the time, clients for a sixth, and octets and words for the rest."""
    if only is None:
        names, until = list(costs.TEXTS), time.monotonic() + seconds / 2
        random.Random(f"{tried.seed} costs").shuffle(names)
        for tried.case, name in enumerate(names):
            if time.monotonic() < until:
                costs.try_costs(tried, name)
        try_clients(tried, seconds / 6, tried.seed)
    for dice in tried.cases(seconds / 3, only):
        try_octets(tried, dice)
        try_words(tried, dice)
