"""A second reading of RFC 9309, in another language than the program's and in another way: whole texts by regular
expressions, no index and no order of rules."""
import re

TEXT_LIMIT = 512_000
UNRESERVED = re.compile(rb"[A-Za-z0-9._~-]")
KEPT = re.compile(rb"[A-Za-z0-9._~:/?#\[\]@!$&'()*+,;=-]")
UNIT = re.compile(rb"%[0-9A-Fa-f]{2}|.", re.S)
ESCAPED = re.compile(rb"[^A-Za-z0-9._~-]")


# RFC 9309, 2.2 and 2.5: what is kept of a text, its lines, and what each says


def lines_of(body):
    if len(body) > TEXT_LIMIT:
        body = re.match(rb"(?s)(.*[\r\n])?", body[:TEXT_LIMIT])[0]
    lines = re.split(rb"\r\n|\r|\n", body.removeprefix(b"\xef\xbb\xbf"))
    return lines if lines[-1] else lines[:-1]


def record_of(line):
    """Returns 'agent' with a name, '*' or None, 'allow' or 'disallow' with a value, or 'other'."""
    name, colon, value = line.partition(b"#")[0].partition(b":")
    name, value = name.strip(b" \t").lower(), value.strip(b" \t")
    if colon and name == b"user-agent":
        if re.match(rb"\*([ \t]|$)", value):
            return "agent", "*"
        return "agent", re.match(rb"[A-Za-z_-]*", value)[0].decode().lower() or None
    if colon and name in (b"allow", b"disallow"):
        return name.decode(), value
    return "other", None


def line_text(number, record):
    kind, value = record
    if kind == "agent":
        return f"{number} agent {'all' if value == '*' else f'name {value}' if value else 'none'}"
    if kind == "other" or not value:
        return f"{number} {kind}"
    return f"{number} {kind} " + "".join(chr(it) if 33 <= it <= 126 else f"%{it:02X}" for it in value)


# RFC 9309, 2.2.1: the rules of a token


def rules_for(records, token):
    governed, heads, is_behind_rule = [], set(), False
    for number, (kind, value) in enumerate(records, 1):
        if kind == "agent":
            heads = (set() if is_behind_rule else heads) | {value}
            is_behind_rule = False
        elif kind != "other":
            governed.append((number, kind, value, heads))
            is_behind_rule = True
    who = token if ("agent", token) in records else "*"
    return [(number, kind, value) for number, kind, value, heads in governed if who in heads]


# RFC 9309, 2.2.2 and 2.2.3: normal forms, matches, and the rule that decides


def normal(octets, is_sign):
    def one(found):
        unit, at = found[0], found.start()
        if len(unit) == 3:
            octet = bytes([int(unit[1:], 16)])
            return octet if UNRESERVED.match(octet) else unit.upper()
        return unit if KEPT.match(unit) and not is_sign(unit, at) else b"%%%02X" % unit[0]

    return UNIT.sub(one, octets)


def normal_path(path):
    return normal(path, lambda unit, at: unit in b"*$")


def normal_pattern(value):
    return normal(value, lambda unit, at: unit == b"$" and at < len(value) - 1)


def matches(pattern, path):
    if not pattern:
        return False
    ends = pattern.endswith(b"$")
    parts = pattern[: len(pattern) - ends].split(b"*")
    return re.match(b".*".join(map(re.escape, parts)) + (rb"\Z" if ends else b""), path, re.S) is not None


def verdict(records, token, path):
    """Returns whether the path is allowed, and the reason."""
    if path == b"/robots.txt":
        return True, "robots"
    form = normal_path(path)
    best = None
    for number, kind, value in rules_for(records, token):
        pattern = normal_pattern(value)
        rank = (-len(pattern), kind != "allow", number)
        if matches(pattern, form) and (best is None or rank < best):
            best = rank
    return (True, "norule") if best is None else (not best[1], f"line {best[2]}")


# docs/FORMATS.md: a robots.txt as a word of a line


def spelled(body):
    word = ESCAPED.sub(lambda it: b"%%%02X" % it[0][0], body).decode()
    return {"": "-", "-": "%2D"}.get(word, word)
