"""Small robots.txt files, all of them or drawn, with tokens and paths that are asked for, and soups of their octets."""
import itertools


def words(letters, most):
    """Returns all words of up to that many letters."""
    return ["".join(it) for count in range(most + 1) for it in itertools.product(letters, repeat=count)]


TOKENS = ["foobot", "barbot"]
HEADS = [b"", b"User-agent: *\n", b"User-agent: foobot\n"]
KINDS = [b"Allow: ", b"Disallow: "]
PATTERNS = [b"", b"/", b"/a", b"/ab", b"/b", b"/*b", b"/a$", b"*", b"/a*$"]
PATHS = ["/", "/a", "/ab", "/b", "/abb", "/aab"]
SMALL = [b"".join(it) + b"\n" for it in itertools.product(HEADS, KINDS, PATTERNS)]
OTHERS = [
    b"User-agent: *\n", b"User-agent: foobot\n", b"User-agent: barbot\n", b"\n", b"Sitemap: /s\n", b"User-agent: 1\n",
]
PIECES = [
    "a", "a", "b", "/", "/", "c", "*", "$", "%2A", "%2a", "%24", "%7e", "%7E", "%", "%4", "|", "%25", "~", "(",
    "%C3%A9", "%00",
]


def small_texts():
    asks = list(itertools.product(TOKENS, PATHS))
    for one, other in itertools.product(SMALL, repeat=2):
        yield one + other, asks
    group = [b"User-agent: foobot\n", b"User-agent: *\n", b"Allow: /\n", b"\n"]
    for count in range(6):
        for lines in itertools.product(group, repeat=count):
            yield b"".join(lines), [(token, "/") for token in TOKENS]


def one_rule():
    paths = [f"/{it}" for it in words("ab/", 4)]
    for value in words("ab*$/", 3):
        yield f"user-agent:*\nallow:/{value}\n".encode(), [("foobot", path) for path in paths]


def drawn_texts(dice, count):
    draw = lambda pieces, most: "".join(dice.choices(pieces, k=dice.randrange(most)))
    for _ in range(count):
        lines = []
        for _ in range(dice.choice([3, 30, 400])):
            rule = dice.choice(KINDS) + b"/" + draw(PIECES, 8).encode() + b"\n"
            lines.append(dice.choice(OTHERS) if dice.randrange(5) == 0 else rule)
        paths = ["/" + draw(PIECES, 10) for _ in range(8)]
        yield b"".join(lines), list(itertools.product(TOKENS, paths))


def octet_soup(dice, count):
    pieces = [
        b"user-agent", b"Allow", b"DISALLOW", b"sitemap", b":", b":", b" ", b"\t", b"#", b"*", b"/", b"a", b"Foo-_bot",
        b"1", b"\xff", b"\x00", b"\r", b"\n", b"\r\n", b"\n", b"\xef\xbb\xbf",
    ]
    return b"".join(dice.choices(pieces, k=count))
