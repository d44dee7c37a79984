"""A strict reader of WARC files (ISO 28500:2017), for checks/examples."""
import base64
import hashlib
import re
from collections import namedtuple

from lib.cases import same

URI, ID, DIGEST = r"https?://[!-~]+", r"<urn:uuid:[0-9a-f-]{36}>", r"sha256:[A-Z2-7]{52}===="
DATE, HTTP = r"\d{4}-\d\d-\d\dT\d\d:\d\d:\d\dZ", r"application/http; msgtype=response"
NEEDED = {"WARC-Record-ID": ID, "WARC-Date": DATE, "WARC-Block-Digest": DIGEST, "Content-Length": r"\d+"}
OF_KIND = {
    "warcinfo": {"Content-Type": "application/warc-fields", "WARC-Filename": r"\d{5}\.warc"},
    "response": {
        "Content-Type": HTTP, "WARC-Target-URI": URI, "WARC-Warcinfo-ID": ID, "WARC-Payload-Digest": DIGEST,
        "WARC-Crawlgate-Permit": r"\d+", "WARC-Crawlgate-Reason": r"line \d+|norule|robots|open",
    },
}


# a response record: its fields, and the status, the fields and the body of the response
Response = namedtuple("Response", "fields status head body")


def digest(octets):
    return "sha256:" + base64.b32encode(hashlib.sha256(octets).digest()).decode()


def records_of(octets):
    """Reads a WARC file (ISO 28500:2017) and returns the fields and the block of each record. Whatever is not as it
    must be is an AssertionError."""
    at, found = 0, []
    while at < len(octets):
        end = octets.find(b"\r\n\r\n", at)
        assert end >= 0, "a head without its end"
        version, *lines = octets[at:end].decode("ascii").split("\r\n")
        same(version, "WARC/1.1")
        parts = [re.fullmatch(r"([A-Za-z-]+): ([ -~]+)", line) for line in lines]
        assert all(parts), f"no fields: {lines}"
        fields = {part[1]: part[2] for part in parts}
        same(len(fields), len(lines))
        for name, form in {**NEEDED, **OF_KIND[fields["WARC-Type"]]}.items():
            assert re.fullmatch(form, fields.get(name, "")), f"{name}: {fields.get(name)}"
        at = end + 4 + int(fields["Content-Length"])
        block = octets[end + 4 : at]
        assert octets[at : at + 4] == b"\r\n\r\n", "a block of another length"
        same(digest(block), fields["WARC-Block-Digest"])
        at += 4
        found.append((fields, block))
    same(len({fields["WARC-Record-ID"] for fields, _ in found}), len(found))
    same([fields["WARC-Type"] for fields, _ in found], ["warcinfo"] + ["response"] * (len(found) - 1))
    return found


def pages_of(octets):
    """Returns what each response record has."""
    found = []
    for fields, block in records_of(octets)[1:]:
        head, end, body = block.partition(b"\r\n\r\n")
        first, *lines = head.decode("latin-1").split("\r\n")
        status = re.fullmatch(r"HTTP/1\.1 (\d{3}) ", first)
        parts = [re.fullmatch(r"([a-z-]+): (.*)", it) for it in lines]
        assert status and end and all(parts), f"no head: {head!r}"
        same(digest(body), fields["WARC-Payload-Digest"])
        found.append(Response(fields, int(status[1]), [(it[1], it[2]) for it in parts], body))
    return found


def read_by_warcio(path):
    """Reads a file as warcio does, where it is installed."""
    try:
        from warcio.archiveiterator import ArchiveIterator
    except ImportError:
        return
    with open(path, "rb") as file:
        for record in ArchiveIterator(file, check_digests="raise"):
            record.content_stream().read()
