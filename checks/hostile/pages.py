"""URLs of pages as the URL Standard reads and writes them, where all their octets are 33 to 126."""
import ipaddress
import re

URL_LIMIT, AUTHORITY_LIMIT = 4096, 4000
FORBIDDEN = re.compile(rb"[\x00-\x20#/:<>?@\[\\\]^|%\x7f]")
SPECIAL = {"http": 80, "https": 443, "ws": 80, "wss": 443, "ftp": 21}


class Refused(Exception):
    """The text is no page's URL; its word says why."""

    def __init__(self, word):
        super().__init__(word)
        self.word = word


class Untold(Exception):
    """It is not said here what comes of the text: of names that are not ASCII, or of schemes that are not special."""


def escaped(text, octets):
    return "".join(f"%{ord(it):02X}" if it in octets else it for it in text)


def unescaped(text):
    return re.sub(rb"%([0-9A-Fa-f]{2})", lambda it: bytes([int(it[1], 16)]), text.encode())


def number_of(part):
    """Returns the number that a part of an IPv4 address writes, or None."""
    radix, digits = (
        16, part[2:],
    ) if part[:2] in ("0x", "0X") else (8, part[1:]) if part[:1] == "0" and part[1:] else (10, part)
    try:
        return 0 if not digits and part else int(digits, radix) if re.fullmatch("[0-9a-fA-F]+", digits) else None
    except ValueError:
        return None


def ipv4_of(host):
    """Returns the IPv4 address that a host is, or the host itself where its last part is no number."""
    parts = host.split(".")
    if not parts[-1] and parts[1:]:
        parts.pop()
    if not parts[-1].isdigit() and number_of(parts[-1]) is None:
        return host
    numbers = [number_of(it) for it in parts]
    if len(parts) > 4 or None in numbers or any(
        it > 255 for it in numbers[:-1]
    ) or numbers[-1] >= 256 ** (5 - len(parts)):
        raise Refused("bad")
    value = numbers[-1] + sum(it * 256 ** (3 - at) for at, it in enumerate(numbers[:-1]))
    return str(ipaddress.IPv4Address(value))


def host_of(text):
    if text.startswith("["):
        if not text.endswith("]"):
            raise Refused("bad")
        if "." in text or "%" in text:
            raise Untold(text)
        try:
            return f"[{ipaddress.IPv6Address(text[1:-1])}]"
        except ValueError:
            raise Refused("bad")
    octets = unescaped(text).lower()
    if any(it > 127 for it in octets) or re.search(rb"(^|\.)xn--", octets):
        raise Untold(text)
    if not octets or FORBIDDEN.search(octets):
        raise Refused("bad")
    return ipv4_of(octets.decode())


def authority_at(text, scheme):
    """Returns whether a user is named, and the host with its port, as they are written."""
    user, at_sign, place = text.rpartition("@")
    host, colon, port = re.fullmatch(
        r"((?:\[[^\]]*(?:\]|$)|[^:\[])*)(:?)(.*)", place,
    ).groups() if "[" in place else place.partition(":")
    if not host or port and not port.isdigit() or port and int(port) > 65_535:
        raise Refused("bad")
    host = host_of(host)
    is_told = colon and port and int(port) != SPECIAL[scheme]
    return user.strip(":") != "" if user.count(":") <= 1 else True, f"{host}:{int(port)}" if is_told else host


def path_of(text):
    """Returns a path as it is written, without its dot segments."""
    done, segments = [], text.replace("\\", "/").removeprefix("/").split("/")
    for place, segment in enumerate(segments):
        plain = segment.lower().replace("%2e", ".")
        if plain == "..":
            done = done[:-1]
        if plain not in (".", ".."):
            done.append(escaped(segment, "\"<>^`{}"))
        elif place == len(segments) - 1:
            done.append("")
    return "/" + "/".join(done)


def read(text):
    """Returns the authority of a page, and its URL as it is written back, without a fragment; or Refused."""
    if len(text) > URL_LIMIT:
        raise Refused("long")
    scheme, colon, rest = text.partition(":")
    if not colon or not re.fullmatch("[A-Za-z][A-Za-z0-9+.-]*", scheme):
        raise Refused("bad")
    scheme = scheme.lower()
    if scheme not in SPECIAL:
        if re.fullmatch("[a-z@.]*", rest) and scheme != "file":
            raise Refused("scheme")
        raise Untold(text)
    authority, path, query = re.fullmatch(r"[/\\]*([^/\\?#]*)([^?#]*)(\?[^#]*)?(?:#.*)?", rest).groups()
    has_user, authority = authority_at(authority, scheme)
    if scheme != "http" or has_user:
        raise Refused("scheme" if scheme != "http" else "user")
    url = f"http://{authority}{path_of(path)}{escaped(query or '', chr(34) + '<>' + chr(39))}"
    if len(url) > URL_LIMIT or len(authority) > AUTHORITY_LIMIT:
        raise Refused("long")
    return authority, url


def authority_of(text):
    """Returns an authority as it is written back; or Refused."""
    if re.search(r"[/\\?#@]", text):
        raise Refused("bad")
    return read(f"http://{text}/")[0]


def target_of(url):
    """Returns the path and the query of a URL that is written back."""
    return url[url.index("/", len("http://")) :]
