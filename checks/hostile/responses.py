"""Responses that are drawn, and what docs/FORMATS.md says of each: the reply that it is, or the fault. The text and
what is said of it are made side by side, so nothing of it is read here."""
import dataclasses

HEAD_LIMIT, HEAD_LINES, RAW_LIMIT = 65_536, 100, 8_388_608
REDIRECTS = (301, 302, 303, 307, 308)
STATUSES = [200] * 12 + [201, 204, 226, 299, 300, 304, 400, 403, 404, 410, 499, 500, 503, 599, 600, 999]
PLAIN_FIELDS = [
    "Server: x", "Content-Type: text/plain", "X:", "Cache-Control: max-age=100", "Cache-Control: no-store",
    "content-encoding: IDENTITY", "Date: \x80", "Set-Cookie: a=b; c",
]
INTERIM = "HTTP/1.1 103 Early\r\nLink: x\r\n\r\n"
# heads that are none, with the fault of each
NO_HEADS = [
    ("", "H1"), ("\r\n\r\n", "H1"), (
        "HTTP/1.1 200 OK\r\nA: b\r\n", "H1",
    ), ("HTTP/1.", "H1"), ("HTTP/1.1 101 Up\r\n\r\n", "H2"), ("HTTP/1.1 099 Low\r\n\r\n", "H2"),
    ("HTTP/2 200 OK\r\n\r\n", "H2"), ("<html>", "H2"), ("\0", "H2"), ("200 OK\r\n\r\n", "H2"), (
        "HTTP/1.1 2x0 OK\r\n\r\n", "H2",
    ), ("HTTP/1.1 200 OK\r\nA b\r\n\r\n", "H2"),
    ("HTTP/1.1 200 OK\r\n" + "A: b\r\n" * (HEAD_LINES + 1) + "\r\n", "H3"), (
        "HTTP/1.1 200 OK\r\nA: " + "b" * HEAD_LIMIT, "H3",
    ), (INTERIM * 9, "H4"), ("HTTP/1.1 100 On\r\n\r\n" * 9, "H4"), (INTERIM, "H1"),
]
BAD_LENGTHS = [
    "Content-Length: 5\r\nContent-Length: 6", "Content-Length: x", "Content-Length: -1", "Content-Length: 5, 6",
    "Content-Length: 18446744073709551616", "Content-Length: +5",
]
BAD_CHUNKS = [b"zz\r\n", b"-1\r\n", b"11111111111111111\r\nx", b"2\r\nabc\r\n"]
CODINGS = [
    "Content-Encoding: gzip", "Content-Encoding: identity, br", "Content-Encoding: x\r\nContent-Encoding: identity",
]


@dataclasses.dataclass
class Response:
    """The octets of a response, and what they say: a status with a body, as much as there is of it, and where it leads;
    and the fault that is met after that. Without a status there is only the fault. It comes in pieces, after some
    seconds."""

    octets: bytes
    status: int | None = None
    body: bytes = b""
    fault: str | None = None
    location: str | None = None
    seconds: float = 0.0
    is_reset: bool = False

    def reply(self, limit):
        """Returns the fault, and what is taken of the body, and whether that is all."""
        if self.status is None or self.fault and len(self.body) <= limit:
            return self.fault, b"", True
        return None, self.body[:limit], len(self.body) <= limit


def counted(dice, body):
    """Returns the fields of a body that is counted, its octets, what of it can be had, and the fault after that."""
    wrong = dice.randrange(12)
    if wrong == 0:
        return [dice.choice(BAD_LENGTHS)], body, b"", "H5"
    if wrong == 1:
        return ["Transfer-Encoding: gzip"], body, b"", "H7"
    length = f"{len(body)}"
    fields = [
        f"Content-Length: {dice.choice([length, f'{length}, {length}', '0' + length])}"
    ] + [f"content-length: {length}"] * dice.randrange(2)
    if wrong == 2 and body:
        had = body[: dice.randrange(len(body))]
        return fields, had, had, "H1"
    return fields, body + dice.choice([b"", b"behind it"]), body, None


def in_chunks(dice, body):
    """The same of a body in chunks."""
    wrong, octets, at = dice.randrange(12), b"", 0
    size = dice.choice([1, 7, 1_000, 100_000]) if len(body) < 5_000 else 100_000
    while at < len(body):
        piece = body[at : at + size]
        extension = dice.choice([b"", b"", b";a=b", b" "])
        line = b"%X" % len(piece) if dice.randrange(2) else b"%04x" % len(piece)
        if wrong == 0 and dice.randrange(3) == 0:
            return ["Transfer-Encoding: chunked"], octets + dice.choice(BAD_CHUNKS), body[:at], "H6"
        if wrong == 1 and dice.randrange(3) == 0:
            had = piece[: dice.randrange(len(piece))]
            return ["Transfer-Encoding: chunked"], octets + line + b"\r\n" + had, body[:at] + had, "H1"
        octets, at = octets + line + extension + b"\r\n" + piece + b"\r\n", at + len(piece)
    trailers = dice.choice([b"", b"", b"A: b\r\n", b"A: b\r\nC: d\r\n"])
    return [
        dice.choice(["Transfer-Encoding: chunked", "transfer-encoding: CHUNKED"])
    ], octets + b"0\r\n" + trailers + b"\r\n", body, None


def to_the_end(dice, body):
    return [], body, body, None


def endless(dice):
    """More octets than are read, with fewer of a body than a page may have."""
    line = b"1;" + b"x" * 60 + b"\r\na\r\n"
    return Response(
        b"HTTP/1.1 200 OK\r\nTransfer-Encoding: chunked\r\n\r\n" + line * (RAW_LIMIT // len(line) + 2), 200,
        b"a" * (RAW_LIMIT // len(line)), "H10",
    )


def drawn(dice, body, locations=(), status=None):
    """Returns a response that has this body, or something is wrong with it. Now and then it leads to one of the
    locations."""
    kind = dice.randrange(40)
    if kind < 3:
        head, fault = dice.choice(NO_HEADS)
        return Response(head.encode("latin-1"), fault=fault)
    if kind == 3 and dice.randrange(30) == 0:
        return endless(dice)
    status = status or dice.choice(STATUSES)
    location = dice.choice(list(locations)) if locations and kind > 28 else None
    fields = dice.sample(PLAIN_FIELDS, dice.randrange(4))
    if location is not None:
        status = dice.choice(REDIRECTS)
        # (the first of two counts)
        fields += [
            f"{dice.choice(['Location', 'location'])}: {location}" + dice.choice(["", "\r\nLocation: /other"])
        ] if location else []
    told, octets, had, fault = dice.choice([counted, counted, in_chunks, to_the_end])(dice, body)
    if status in (204, 304):
        had, fault = b"", None
    fields += told
    if kind == 4:
        fields.append(dice.choice(CODINGS))
        if 200 <= status < 300:
            had, fault = b"", "H7"
    dice.shuffle(fields)
    head = INTERIM * dice.choice([0] * 9 + [1, 8]) + f"HTTP/1.{dice.randrange(2)} {status} Said\r\n" + "".join(
        f"{it}\r\n" for it in fields
    ) + "\r\n"
    if kind == 5:
        head = head.replace("\r\n", "\n")
    return Response(head.encode("latin-1") + octets, status, had, fault, location or None)


def broken(dice, body):
    """A response that is whole but for its last octets, and is reset there; or one that never comes."""
    whole = f"HTTP/1.1 200 OK\r\nContent-Length: {len(body) + 1}\r\n\r\n".encode() + body
    if dice.randrange(8) == 0:
        return Response(b"", fault="H8", seconds=2.5)
    return Response(whole[: dice.randrange(len(whole) + 1)], fault="H8", is_reset=True)
