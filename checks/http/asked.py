"""A second reading of requests, in another language than the program's: what each request of a stream asks a front for,
or with what it is refused. RFC 9112, sections 2 to 7; RFC 9110, sections 7.4, 9.3.1 and 11; docs/FORMATS.md, the
requests of a front.

The stream ends with its last octet, as that of a client that sends no more.
"""
import base64
import binascii
import os
import re
import sys
from collections import namedtuple

sys.path.append(f"{os.path.dirname(os.path.dirname(os.path.realpath(__file__)))}/hostile")
import pages

# a page, in 'absolute' or in 'path' form; what a front answers itself, and the page elsewhere that it names; the
# numbers; that the connection ends with one of these statuses; and that it is not said here what comes
Page = namedtuple("Page", "form cut token url")
Own = namedtuple("Own", "details location")
Metrics = namedtuple("Metrics", "")
Ends = namedtuple("Ends", "statuses")
Untold = namedtuple("Untold", "")
# a request: its method, its version, what it asks for, and whether the connection goes on after it
Asked = namedtuple("Asked", "method minor wish goes_on")

HEAD_LIMIT, FIELD_LIMIT, TARGET_LIMIT = 16_384, 64, 65_534
TOKEN = rb"[A-Za-z0-9!#$%&'*+.^_`|~-]+"
VALUE = rb"[\t\x20-\x7e\x80-\xff]*"
HEAD = re.compile(
    rb"(?:\r\n)*(%s) ([\x21-\x7e\x80-\xff]+) HTTP/1\.([01])\r\n((?:%s:%s\r\n)*)\r\n" % (TOKEN, TOKEN, VALUE)
)
AUTHORITY = re.compile(rb"[!$-.0-;=@-\[\]_a-z~]+")
PATH = re.compile(rb"[!\"$-;=@-_a-~\x80-\xff]*")
QUERY = re.compile(rb"[!$-;=?-~\x80-\xff]*")
NAME_OF_HOST = rb"[A-Za-z0-9._~!$&'()*+,;=-]"
LOOPBACK = re.compile(rb"(?i)(127\.0\.0\.1|\[::1\]|localhost)(:\d*)?")


class Refusal(Exception):
    """The connection ends with a status."""


class Misasked(Exception):
    """A front answers itself, with these details."""

    def __init__(self, details, location=None):
        super().__init__(details)
        self.details, self.location = details, location


def requests_of(stream):
    """Returns the requests of a stream, up to the one after which its connection ends."""
    found = []
    while stream:
        asked, stream = next_of(stream)
        found.append(asked)
        if not asked.goes_on:
            break
    return found


def next_of(stream):
    """Returns the first request of a stream, and what follows it."""
    head = HEAD.match(stream)
    if not head:
        return Asked(b"", b"1", Ends({400}), False), b""
    method, target, minor, lines = head.groups()
    fields = [
        (name.lower(), value.strip(b" \t")) for name, _,
        value in (it.partition(b":") for it in lines.split(b"\r\n")[:-1])
    ]
    try:
        length = refusals_of_head(method, minor, fields, len(head[0]))
        faults = faults_of_parts(target, fields) | ({413} if length else set())
        if length is None:
            faults, end = faults_of_chunks(stream, head.end(), faults)
        else:
            end = head.end()
        if faults:
            raise Refusal(faults)
    except Refusal as refusal:
        return Asked(method, minor, Ends(refusal.args[0]), False), b""
    return Asked(method, minor, wish_of(method, target, fields), keeps_alive(minor, fields)), stream[end:]


def elements(fields, name):
    return [it.strip(b" \t").lower() for found, value in fields if found == name for it in value.split(b",")]


def keeps_alive(minor, fields):
    options = elements(fields, b"connection")
    return b"close" not in options and (minor == b"1" or b"keep-alive" in options) and not (
        minor == b"0" and values(fields, b"transfer-encoding")
    )


def values(fields, name):
    return [value for found, value in fields if found == name]


# RFC 9112, 3.2, 6.1 and 6.3: what makes a head no request, and the length of its body


def refusals_of_head(method, minor, fields, octets):
    """Returns the length of the body, or None for one in chunks."""
    if octets > HEAD_LIMIT or len(fields) > FIELD_LIMIT:
        raise Refusal({431})
    hosts = len(values(fields, b"host"))
    if hosts > 1 or hosts == 0 and minor == b"1":
        raise Refusal({400})
    lengths, codings = values(fields, b"content-length"), elements(fields, b"transfer-encoding")
    if codings:
        return refusals_of_codings(method, minor, codings, lengths)
    if any(not re.fullmatch(rb"\d+", it) or int(it) >= 2**64 or int(it) != int(lengths[0]) for it in lengths):
        raise Refusal({400})
    length = int(lengths[0]) if lengths else 0
    if length and method == b"CONNECT":
        raise Refusal({400})
    return length


def refusals_of_codings(method, minor, codings, lengths):
    is_list = all(it == b"" or re.fullmatch(TOKEN, it) for it in codings) and b"chunked" not in codings[:-1]
    if lengths or minor == b"0" or method == b"CONNECT" or not is_list or codings[-1] != b"chunked":
        raise Refusal({400})
    if any(it not in (b"", b"chunked") for it in codings):
        raise Refusal({501, 413, 400})


def faults_of_chunks(stream, at, faults):
    """Returns the statuses that a body in chunks may be refused with, and where it ends."""
    line = re.compile(rb"([0-9A-Fa-f]+)[ \t]*(;[\t\x20-\x7e\x80-\xff]*)?\r\n").match(stream, at)
    if not line:
        return faults | {400, 413}, at
    if int(line[1], 16):
        return faults | {400, 413}, at
    trailers = re.compile(rb"(?:%s:%s\r\n)*\r\n" % (TOKEN, VALUE)).match(stream, line.end())
    return (faults, trailers.end()) if trailers else (faults | {400}, at)


def faults_of_parts(target, fields):
    """Returns the statuses for a target that is no URI, and a host that is none."""
    hosts = values(fields, b"host")
    is_bad = uri_of(target) is None or hosts and not is_host(hosts[0])
    return {400} if is_bad else set()


def is_host(value):
    """RFC 9112, 3.2: uri-host [ ":" port ]."""
    found = re.fullmatch(rb"(?:(%s+)|(\[[0-9A-Fa-f:.]+\]))?(:\d*)?" % NAME_OF_HOST, value)
    return bool(found) and (value == b"" or found[1] is not None or found[2] is not None)


# RFC 3986 and RFC 9112, 3.2: the forms of a target


def uri_of(target):
    """Returns the scheme and the authority, each None where there is none, and the rest; or None of what is no URI."""
    if len(target) > TARGET_LIMIT or not is_utf8(target):
        return None
    if target == b"*" or target.startswith(b"/"):
        return tail_of(None, None, target)
    found = re.fullmatch(rb"([A-Za-z0-9+.~-]{0,64})://([^/?#]*)(.*)", target, re.S)
    if found:
        name = found[1].lower() if found[1].lower() in (b"http", b"https") else found[1]
        return tail_of(name, found[2], found[3]) if is_authority(found[2]) else None
    return (None, target, b"") if is_authority(target) else None


def is_utf8(octets):
    try:
        octets.decode()
    except UnicodeDecodeError:
        return False
    return True


def tail_of(scheme, authority, tail):
    kept = tail.partition(b"#")[0]
    path, _, query = kept.partition(b"?")
    if not PATH.fullmatch(path) or not QUERY.fullmatch(query):
        return None
    return scheme, authority, kept or b"/"


def is_authority(text):
    last, front = re.split(rb"[@\]]", text)[-1], re.split(rb"[@\]]", text)
    return bool(
        AUTHORITY.fullmatch(text) and last.count(b":") <= 1 and b"%" not in last and all(
            it.count(b":") <= 8 for it in front
        )
        and re.fullmatch(
            rb"[^\[\]]*(\[[^\[\]]*\][^\[\]]*)?", text,
        ) and not text.endswith(b"@") and not re.search(rb"%[^@]*\[", text)
    )


# docs/FORMATS.md: what a front is asked for


def wish_of(method, target, fields):
    try:
        return found_wish(method, target, fields)
    except Misasked as misasked:
        return Own(misasked.details, misasked.location)
    except pages.Untold:
        return Untold()


def found_wish(method, target, fields):
    if method != b"GET":
        raise Misasked("method")
    scheme, authority, rest = uri_of(target)
    if scheme is not None:
        name = user_of(value_of(fields, b"proxy-authorization"))
        return page_of("absolute", name, scheme + b"://" + authority + rest, fields)
    host = value_of(fields, b"host")
    if host is None or not LOOPBACK.fullmatch(host):
        raise Misasked("host")
    if rest == b"/metrics":
        return Metrics()
    if values(fields, b"origin") or values(fields, b"sec-fetch-site"):
        raise Misasked("browser")
    name = value_of(fields, b"crawlgate-token")
    if name is None:
        raise Misasked("no token")
    return page_of("path", name, rest[1:] if rest.startswith(b"/") else b"", fields)


def value_of(fields, name):
    found = values(fields, name)
    if len(found) > 1:
        raise Misasked("field twice")
    return found[0] if found else None


def user_of(credentials):
    """RFC 7617, 2: the user of Basic credentials."""
    found = re.fullmatch(rb"(?i)basic +(.*)", credentials or b"")
    pair = decoded(found[1]) if found else b""
    user, colon, _ = pair.partition(b":")
    if not user or not colon:
        raise Misasked("no credentials")
    return user


def decoded(text):
    try:
        pair = base64.b64decode(text, validate=True)
    except (binascii.Error, ValueError):
        return b""
    return pair if base64.b64encode(pair) == text else b""


def page_of(form, name, text, fields):
    if not re.fullmatch(rb"[A-Za-z_-]{1,64}", name):
        raise Misasked("token")
    cut = value_of(fields, b"crawlgate-cut")
    if cut is not None and cut.lower() != b"pass":
        raise Misasked("cut")
    url = url_of(text)
    prefix = url[: url.index("/", len("http://"))]
    if not re.match(re.escape(prefix) + "([/?]|$)", text.decode()):
        raise Misasked("authority", url if form == "absolute" else f"/{url}")
    return Page(form, cut is not None, name.decode().lower(), url)


def url_of(text):
    """Returns the URL of a page as it is written back. What is not ASCII is escaped in paths and queries."""
    before, authority, rest = re.fullmatch(rb"([^:]*:?[/\\]*)([^/\\?#]*)(.*)", text, re.S).groups()
    if re.search(rb"[\x80-\xff]", before + authority):
        raise pages.Untold(text)
    plain = re.sub(rb"[\x80-\xff]", lambda it: b"%%%02X" % it[0][0], rest)
    try:
        return pages.read((before + authority + plain).decode())[1]
    except pages.Refused as refused:
        raise Misasked(f"url {refused.word}")
