"""Robots files that are small, large or hostile, each with the path of a page that is asked for."""


def times(text, count):
    return text * count


def numbered(line, count):
    """Returns that many lines, with a number and its rest by 64 in each."""
    return "".join(line.format(at, at % 64) for at in range(count))


def groups(count, others):
    lines = lambda at: "User-agent: foobot\nDisallow: /part{}/\n" if at % 16 == 0 else others
    return "".join(lines(at).format(at, at % 7) for at in range(count))


ALL = "user-agent:*\n"
# a name, the text, the path, and how many asks are timed
ROWS = [
    ("no rule", ALL, "/part3/page803", 20_000),
    ("10 plain rules", ALL + numbered("Disallow: /part{1}/page{0}\n", 10), "/part3/page803", 20_000),
    ("1,000 plain rules", ALL + numbered("Disallow: /part{1}/page{0}\n", 1_000), "/part3/page803", 20_000),
    ("16,000 plain rules", ALL + numbered("Disallow: /part{1}/page{0}\n", 16_000), "/part3/side803", 20_000),
    ("1,000 rules of one star", ALL + numbered("Disallow: /part{1}/*{0}\n", 1_000), "/part3/side", 2_000),
    ("63,000 rules of 8 octets", ALL + times("allow:/\n", 63_000), "/part3/page803", 20_000),
    ("8,000 groups, 500 the token's", groups(8_000, "User-agent: bot{1}\nDisallow: /p*{0}\n"), "/part3/page803", 2_000),
    ("19,000 groups", groups(19_000, "User-agent: b{1}\nDisallow: /{0}\n"), "/part3/page803", 2_000),
    ("980 rules, each an octet longer", ALL + "".join(f"Disallow: /{'z' * at}\n" for at in range(1, 981)), f"/{'z' * 500}y", 2_000),
    ("250 rules of 1,000 wildcards", ALL + numbered(f"Disallow: /{'*a' * 999}b{{0}}\n", 250), f"/{'a' * 4_000}", 8),
    ("19,000 heads, 29,000 rules *q", times(ALL, 19_000) + times("allow:*q\n", 29_000), f"/{'b' * 4_000}", 50),
    ("19,000 heads, 26,000 rules *ab", times(ALL, 19_000) + times("allow:*ab\n", 26_000), f"/{'b' * 4_000}", 50),
    ("51,000 rules *ab", ALL + times("allow:*ab\n", 51_000), f"/{'b' * 4_000}", 50),
    ("39,000 rules *abb*q", ALL + times("allow:*abb*q\n", 39_000), f"/{'ab' * 2_000}", 50),
    ("the same, a path with q and bb", ALL + times("allow:*abb*q\n", 39_000), f"/qbb{'ab' * 1_998}", 50),
    ("12,000 rules of 34 octets", ALL + times(f"allow:*{'a' * 33}b\n", 12_000), f"/{'a' * 4_000}", 50),
    ("a rule of 500,000 octets", f"{ALL}allow:*{'ab' * 250_000}\n", f"/{'ab' * 2_000}", 2_000),
]
