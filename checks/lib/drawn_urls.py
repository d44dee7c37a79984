"""URLs as sites write them in links, drawn from a seed, with all that a library may write in another way; and how a
gate writes them."""
from lib.server import Session

SCHEMES = ["http://"] * 12 + ["HTTP://", "http:/", "http:\\\\", " http://"]
AUTHORITIES = ["a.example"] * 12 + [
    "A.Example", "a.example:80", "a.example:8080", "a.example:", "a.example.", "a_b.example", "%61.example",
    "bücher.example",
    "xn--bcher-kva.example", "127.0.0.1", "0x7f.1", "[::1]", "[2001:DB8::1]:8000", "user@a.example",
    "user:word@a.example",
]
PIECES = ["a", "b", "/", "/", ";", ";", "?", "?", "%"] + [
    "private", "cgi", "//", ".", "..", "%2e", "%2E%2e", "/./", "/../", ";a=1", "&", "=", "#", "#!", "%23", "[", "]",
    "{", "}",
    "|", "\\", "^", "`", "'", '"', "<", ">", "%4", "%zz", "%2F", "%2f", "%7e", "%7E", "%C3%A9", "%c3%a9", "%00", "%0A",
    "%3B",
    "%3b", "%3F", "%5B", "%20", " ", "  ", "+", "~", "!", "$", "(", ")", "*", ",", ":", "@", "-", "_", "é", "日本",
    "\u200b",
    "\u00a0", "\x7f", "URL:", "http://",
]
# how many lines are sent before their replies are read
AT_ONCE = 200


def drawn_urls(dice, count):
    """Returns that many URLs."""
    return [dice.choice(SCHEMES) + dice.choice(AUTHORITIES) + drawn_target(dice) for _ in range(count)]


def drawn_target(dice):
    return dice.choice(["/", "/", "/", "", "?"]) + "".join(dice.choices(PIECES, k=dice.randrange(9)))


def is_word(text):
    """Whether a text can be a word of a line."""
    return bool(text) and all("!" <= it <= "~" for it in text)


def as_written(server, urls):
    """Returns the URLs as the gate writes them, of those that it takes."""
    urls = list(filter(is_word, urls))
    with Session(server) as gate:
        replies = []
        for at in range(0, len(urls), AT_ONCE):
            replies += gate.say_all(f"URL {it}" for it in urls[at : at + AT_ONCE])
    assert len(replies) == len(urls), f"{len(replies)} replies to {len(urls)} lines"
    return [it.split(" ")[1] for it in replies if it.startswith("URL ")]


def compared(written, sent):
    """Compares what was sent, or None where a library refused, which is seldom, with what the gate wrote. Returns how
    many were sent and refused."""
    assert len(sent) == len(written), f"{len(sent)} outcomes of {len(written)} URLs"
    others = [(it, other) for it, other in zip(written, sent) if other not in (None, it)]
    assert not others, f"{len(others)} URLs are sent otherwise: {others[:5]}"
    refused = sent.count(None)
    assert refused * 20 < len(sent), f"{refused} of {len(sent)} URLs are refused"
    return f"{len(sent) - refused:,} sent as they are written, {refused:,} refused"
