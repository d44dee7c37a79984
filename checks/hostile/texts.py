"""Hostile robots.txt files: what `lines`, `check` and `check --explain` write of them, and what is reported of them on
standard error, against the second reading of RFC 9309 in checks/reading."""
import re
import tempfile

import pages
from lib import reading
from lib.drawn import PIECES, drawn_texts, octet_soup
from lib.reading import TEXT_LIMIT

TOKENS = ["foobot", "FooBot", "barbot", "foo-_bot", "crawlgate"]
URLS = [
    "/", "/a", "/ab", "/b", "/robots.txt", "/robots.txt?", "https://h/a", "HTTPS://H:443/ab?c", "http://h/a/../b",
    "/a#b", "ftp://h/", "a", "http://u@h/", "/" + "a" * 4_094, "https://", "/%2a", "//a",
]
PLAIN = b"User-agent: *\nDisallow: /a\nAllow: /ab\n"


def escaped(octets):
    return "".join(chr(it) if 33 <= it <= 126 else f"%{it:02X}" for it in octets)


def page_of(text):
    """Returns the path and query of a URL of a check; or Refused."""
    if text.startswith("/"):
        text = f"http://h{text}"
    scheme = re.match("(?i)https:", text)
    if scheme and len(text) <= pages.URL_LIMIT + 1:
        # (a scheme that is taken as another one; the default port of http is the one that is left out)
        text = "http:" + text[scheme.end() :]
    return pages.target_of(pages.read(text)[1])


def ranked(records, token, path):
    """Returns the rules of a token: octets, kind, line and value of each, and whether it matches."""
    form = reading.normal_path(path)
    for line, kind, value in reading.rules_for(records, token):
        pattern = reading.normal_pattern(value)
        yield len(pattern), kind, line, value, reading.matches(pattern, form)


def reason(matching):
    """Returns why the strongest of the rules that match is above the others."""
    if not matching:
        return "norule"
    if not matching[1:]:
        return "only"
    (octets, kind, line, _, _), (others, other, least, _, _) = matching[:2]
    if octets > others:
        return f"octets {octets} above {others} of line {least}"
    return f"allow above disallow of line {least}" if kind != other else f"first of line {line} and {least}"


def agents_of(records, token):
    """Yields a line for each user-agent line of the groups in which one speaks to the token."""
    name = token if ("agent", token) in records else "*"
    groups, is_open = [], False
    for number, (kind, value) in enumerate(records, 1):
        if kind == "agent":
            groups = groups if is_open else [*groups, []]
            groups[-1].append((number, value))
        is_open = kind == "agent" or is_open and kind == "other"
    for group in groups:
        if any(value == name for _, value in group):
            for number, value in group:
                said = "all" if value == "*" else f"name {value}" if value else "none"
                yield f"agent line {number} {said}{'' if value == name else ' same group'}"


def told(text, records):
    """Returns what is reported of a text on standard error."""
    lines = []
    if len(text) > TEXT_LIMIT:
        lines.append("of the robots.txt only the lines that end within 512,000 bytes are read")
    if records and all(kind == "other" for kind, _ in records):
        lines.append("no line of the robots.txt is a record, so it allows all")
    for number, (kind, value) in enumerate(records, 1):
        if kind in ("allow", "disallow") and re.search(rb"(?s)\?.*'", value):
            lines.append(f"line {number} matches no URL: a URL has %27 for ' in its query")
    return "".join(f"crawlgate: {it}\n" for it in lines).encode()


def explained(records, token, path):
    """Yields the lines of an explanation."""
    heads = list(agents_of(records, token))
    yield from heads or ["agent none"]
    rules = list(ranked(records, token, path))
    for octets, kind, line, value, is_matching in rules:
        yield " ".join(
            [
                "rule line", str(line), kind, *([escaped(value)] if value else []), "octets", str(octets),
                "matches" if is_matching else "no",
            ]
        )
    matching = sorted((it for it in rules if it[4]), key=lambda it: (-it[0], it[1] != "allow", it[2]))
    yield f"because {'robots' if path == b'/robots.txt' else reason(matching)}"


def answers(records, token, urls, is_explained):
    """Returns what a check of these URLs writes, and its status."""
    lines, status = [], 0
    for url in urls:
        try:
            path = page_of(url).encode()
        except pages.Refused as refused:
            lines.append(f"ERR url {refused.word} {url}")
            status = 2
            continue
        lines += explained(records, token, path) if is_explained else []
        is_allowed, why = reading.verdict(records, token, path)
        if why.startswith("line "):
            why = f"{why} {' '.join(map(str, rule_on(records, int(why[5:]))))}"
        lines.append(f"{'allowed' if is_allowed else 'denied'} {why} {url}")
        status = status if is_allowed else max(status, 1)
    return "".join(f"{it}\n" for it in lines).encode(), status


def rule_on(records, line):
    kind, value = records[line - 1]
    return kind, escaped(value)


def is_split(text):
    """Returns whether a text has an empty line after which the URLs of a check would begin."""
    return re.search(rb"(?i)(^|\n)\r?\n(/|https?:)", text) is not None


def soup(dice):
    """Octets that are nearly a robots.txt."""
    text = octet_soup(dice, dice.choice([30, 300, 3_000]))
    return dice.choice(
        [text, b"\xef\xbb\xbf" + text, text.replace(b"\n", b"\r"), text.replace(b"a", b"\xc3\xa9"), text + PLAIN]
    )


def drawn(dice):
    return next(drawn_texts(dice, 1))[0]


def groups(dice):
    """Many groups and heads, some of them doubled, some of them empty."""
    heads = [
        f"user-agent: {it}\n".encode() for it in ["*", "* x", "foobot", "FOOBOT/2", "barbot", "1", "", "foo-_bot x"]
    ]
    rules = [
        b"allow: /a\n", b"disallow: /a\n", b"disallow:\n", b"allow: /a$\n", b"disallow: /*b\n", b"allow: /a?b'\n",
        b"allow: /'?\n", b"sitemap: x\n", b"\n", b"# x\n", b"disallow /a\n",
    ]
    return b"".join(dice.choice(heads + rules) for _ in range(dice.choice([20, 200])))


def otherwise_coded(dice):
    """A robots.txt in UTF-16, or a page that is none."""
    html = b"<!doctype html><html><title>User-agent: *</title>\nDisallow: /a\n</html>" * dice.randrange(1, 40)
    return dice.choice(
        [
            PLAIN.decode().encode(it) for it in ("utf-16", "utf-16-le", "utf-16-be", "utf-32")
        ] + [html, b"\0" + PLAIN, PLAIN.replace(b"\n", b"\0\n")]
    )


def at_the_limit(dice):
    """A text of about as many octets as are read, with rules round the last of them."""
    filler = dice.choice([b"#", b"x", b"allow: /x\n", b"\n", b"user-agent: x\n"])
    text = PLAIN + filler * (TEXT_LIMIT // len(filler))
    return text[: TEXT_LIMIT - dice.randrange(40)] + b"\n" + b"disallow: /b\r" * dice.randrange(6)


KINDS = [(8, soup), (8, drawn), (6, groups), (2, otherwise_coded), (1, at_the_limit)]


def urls_of(dice):
    drawn = ["/" + "".join(dice.choices(PIECES, k=dice.randrange(8))) for _ in range(4)]
    return [it for it in dice.sample(URLS, 4) + drawn if is_told(it)]


def is_told(url):
    try:
        page_of(url)
    except pages.Refused:
        pass
    except pages.Untold:
        return False
    return True


def try_text(tried, dice):
    """Compares what is written of a robots.txt."""
    text = dice.choices([it for _, it in KINDS], [it for it, _ in KINDS])[0](dice)
    records = [reading.record_of(line) for line in reading.lines_of(text)]
    lines = "".join(f"{reading.line_text(number, it)}\n" for number, it in enumerate(records, 1))
    notes = told(text, records)
    tried.same("lines", text, ["lines"], lines.encode(), error=b"")
    with tempfile.NamedTemporaryFile() as file:
        file.write(text)
        file.flush()
        try_checks(tried, dice, text, records, notes, file.name)


def try_checks(tried, dice, text, records, notes, file):
    """Compares what checks write of a robots.txt that is the input, a part of it, or in a file."""
    for token in dice.sample(TOKENS, 2):
        urls = urls_of(dice)
        for options in ([], ["--explain"]):
            tried.count("verdicts", len(urls))
            wanted = answers(records, token.lower(), urls, bool(options))
            tried.same("check", text, ["check", *options, token, *urls], *wanted, error=notes)
            tried.same(
                "check of a file", b"", ["check", *options, "--robots", file, token, *urls], *wanted, error=notes,
            )
            given = "".join(f"{it}\n" for it in urls).encode()
            if urls:
                tried.same(
                    "check of a file and lines", given, ["check", *options, "--robots", file, token, "-"], *wanted,
                    error=notes,
                )
            if not is_split(text + b"\n"):
                given = text + b"\n\n" + "".join(f"{it}\n" for it in ["/", *urls]).encode()
                if len(text) < TEXT_LIMIT:
                    wanted = answers(records, token.lower(), ["/", *urls], bool(options))
                    tried.same("check of lines", given, ["check", *options, token, "-"], *wanted)
