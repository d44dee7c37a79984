"""Cases of checks/http about what a request is answered: a page, a denial, a failed fetch, or what the front says
itself."""
import os
import tempfile
import time

from front import FORMS, HOST, MISASKED, NO_PORT, Echo, Front, Reply, Talk, absolute, basic, by_path, head, outcome
from lib.cases import same
from lib.server import side_by_side
from lib.sites import Site, free_port, reset, response

RULES = b"User-agent: *\nDisallow: /private\nAllow: /private/map\n"
PAGE_LIMIT = 1_048_576
# (RFC 9110, 15, and two that only 'http' knows)
STATUSES = [
    200, 201, 203, 204, 205, 206, 226, 300, 301, 302, 303, 304, 307, 308, 400, 401, 403, 404, 405, 407, 410, 421, 429,
    451, 500, 502, 503, 504, 511, 600, 999,
]
KEPT = [
    ("age", "1"), ("cache-control", "max-age=60"), (
        "content-disposition", 'attachment; filename="a b"',
    ), ("content-encoding", "identity"),
    ("content-language", "de"), ("content-location", "/y"), (
        "content-type", "text/html; charset=utf-8",
    ), ("date", "Mon, 30 Nov 2026 00:00:00 GMT"),
    ("etag", '"a,b"'), ("expires", "0"), (
        "last-modified", "Mon, 30 Nov 2026 00:00:00 GMT",
    ), ("link", "</y>; rel=next"), ("link", "</z>; rel=prev"),
    ("retry-after", "7"), ("vary", "Accept"), ("x-robots-tag", "noindex"),
]
DROPPED = [
    "Set-Cookie: a=b", "Strict-Transport-Security: max-age=1", "Connection: close",
    "Proxy-Status: crawlgate; details=\"1 open\"", "Via: 1.1 other",
    "Server: site", "Alt-Svc: h3=\":443\"", "Access-Control-Allow-Origin: *", "Proxy-Authenticate: Basic realm=x",
    "WWW-Authenticate: Basic realm=x",
    "Keep-Alive: timeout=5", "Upgrade: h2c", "Trailer: X", "X-Other: y", "Content-Security-Policy: default-src *",
    "Refresh: 0;url=/",
]


def verdicts():
    """A page that is allowed, denied, closed or open is answered so, in both forms; and a denied page is not asked
    for."""
    ruled, open_one = Echo({"/robots.txt": response(200, RULES)}), Echo()
    closed, gone = Echo({"/robots.txt": response(503)}), f"{HOST}:{NO_PORT}"
    a = ruled.authority
    rows = [
        (ruled.url("/x"), (200, None, "N norule"), b"/x by foobot"),
        (ruled.url("/private/map"), (200, None, "N line 3"), b"/private/map by foobot"),
        (ruled.url("/private/x"), (403, "http_request_denied", f"{a} line 2"), b""),
        (ruled.url("/%70rivate/x"), (403, "http_request_denied", f"{a} line 2"), b""),
        (ruled.url("/x/../private/"), (403, "http_request_denied", f"{a} line 2"), b""),
        (ruled.url("/x/%2e%2e/y?z"), (200, None, "N norule"), b"/y?z by foobot"),
        (ruled.url("/robots.txt"), (200, None, "N robots"), RULES),
        (open_one.url("/private/x"), (200, None, "N open"), b"/private/x by foobot"),
        (open_one.url("/robots.txt"), (404, None, "N open"), b""),
        (closed.url("/x"), (403, "http_request_denied", f"{closed.authority} closed"), b""),
        (f"http://{gone}/x", (403, "http_request_denied", f"{gone} closed"), b""),
    ]
    with Front() as server, Talk(server) as it:
        for form in FORMS:
            for url, wanted, body in rows:
                answer = it.ask(form(url))
                same((url, answer.outcome(), answer.body), (url, wanted, body))
        before = server.metrics()
        same([before[name] for name in ("permits", "running", "turns", "starts_total")], [0, 0, 0, 12])
    assert not [it for it in ruled.fetched() if it[1].startswith("/private/x")], ruled.seen
    same([site.asked.count("/robots.txt") for site in (closed,)], [1])


def statuses_pass():
    """Each status of a site passes, with its body where that status has one."""
    site = Site({f"/{it}": response(it, b"" if it in (204, 205, 304) else b"body") for it in STATUSES})
    with Front() as server, Talk(server) as it:
        for form in FORMS:
            for status in STATUSES:
                answer = it.ask(form(site.url(f"/{status}")))
                wanted = b"" if status in (204, 205, 304) else b"body"
                same((answer.outcome(), answer.body), ((status, None, "N open"), wanted))
        same(it.goes_on(), True)


def fields_pass():
    """Sixteen fields of a site pass, with their values, and no other."""
    fields = [f"{name.title()}: {value}" for name, value in KEPT]
    site = Site({"/x": response(200, b"hello", *fields[:8], *DROPPED, *fields[8:])})
    with Front() as server, Talk(server) as it:
        for form in FORMS:
            answer = it.ask(form(site.url("/x")))
            same((answer.outcome(), answer.body), ((200, None, "N open"), b"hello"))
            same([pair for pair in answer.fields if pair[0] not in ("proxy-status", "content-length")], KEPT)


def redirects():
    """A Location goes through as it is in absolute form; in path form it leads back to the gate, or is left out."""
    other = Echo()
    site = Site({})
    a, b = site.authority, other.authority
    rows = [
        ("/y", f"/http://{a}/y"), (
            f"http://{b}/y", f"/http://{b}/y",
        ), (f"//{b}/y?z", f"/http://{b}/y?z"), ("?q", f"/http://{a}/moved?q"),
        ("y/../z", f"/http://{a}/z"), (f"http://{b}/y#f", f"/http://{b}/y"), (
            f"HTTP://{b}/%7e", f"/http://{b}/%7e",
        ), ("http://127.1/", "/http://127.0.0.1/"),
        ("ftp://a.example/", None), ("https://a.example/", None), ("http://[/", None), (
            "http://user@a.example/", None,
        ), ("javascript:x", None),
    ]
    with Front() as server, Talk(server) as it:
        for status in (301, 302, 307):
            for location, rewritten in rows:
                site.pages["/moved"] = response(status, b"moved", f"Location: {location}")
                for form, wanted in zip(FORMS, (location, rewritten)):
                    answer = it.ask(form(site.url("/moved")))
                    same(
                        (answer.outcome(), answer.value("location"), answer.body),
                        ((status, None, "N open"), wanted, b"moved"),
                    )
    same(other.seen, [])


def drip(peer):
    peer.sendall(b"HTTP/1.1 200 OK\r\nContent-Length: 1000\r\n\r\n")
    for _ in range(100):
        peer.sendall(b"x")
        time.sleep(0.1)


def break_off(peer):
    reset(peer)
    peer.close()


def sends(octets):
    return lambda peer: peer.sendall(octets)


OK = b"HTTP/1.1 200 OK\r\n"
# a name, what a site does at a page, and what its client gets: the status, the type of error, and the details
FAULTS = [
    ("silent", lambda peer: time.sleep(8), (504, "connection_read_timeout", "the device failed")),
    ("slow", drip, (504, "http_response_timeout", "the device failed")),
    ("broken off", break_off, (502, "connection_terminated", "the device failed")),
    ("nothing", lambda peer: None, (502, "http_response_incomplete", "the input ended before the response did")),
    (
        "a part of a head", sends(b"HTTP/1.1 200 O"),
        (502, "http_response_incomplete", "the input ended before the response did"),
    ),
    (
        "a part of a body", sends(OK + b"Content-Length: 9\r\n\r\nhello"),
        (502, "http_response_incomplete", "the input ended before the response did"),
    ),
    (
        "a part of a chunk", sends(OK + b"Transfer-Encoding: chunked\r\n\r\n9\r\nhello"),
        (502, "http_response_incomplete", "the input ended before the response did"),
    ),
    ("no head", sends(b"SSH-2.0-OpenSSH_9.2\r\n\r\n"), (502, "http_protocol_error", "the head can't be read")),
    (
        "a long head", sends(OK + b"X: " + b"y" * 300_000 + b"\r\n\r\n"),
        (502, "http_response_header_section_size", "the head is too long"),
    ),
    (
        "interim heads", sends(b"HTTP/1.1 103 Early\r\n\r\n" * 200 + OK + b"\r\n"),
        (502, "http_protocol_error", "too many interim heads"),
    ),
    (
        "two lengths", sends(OK + b"Content-Length: 1\r\nContent-Length: 2\r\n\r\nxx"),
        (502, "http_protocol_error", "the length of the body can't be read"),
    ),
    (
        "a bad chunk", sends(OK + b"Transfer-Encoding: chunked\r\n\r\nx\r\nhello"),
        (502, "http_protocol_error", "the chunks of the body can't be read"),
    ),
    (
        "a coding", sends(response(200, b"hello", "Content-Encoding: gzip")),
        (502, "http_response_content_coding", "the body is in a coding that is not read"),
    ),
]


def faults_by_name():
    """Each way in which a fetch fails has its status, its type of error and its details; nothing is out after it."""
    with Front("--read-timeout", "1", "--fetch-timeout", "2", "--fetchers", "16") as server:

        def try_one(row):
            name, act, wanted = row
            site = Reply(act)
            return [(name, outcome(server, form(site.url("/x")))) for form in FORMS], [(name, wanted)] * 2

        for found, wanted in side_by_side(try_one, FAULTS):
            same(found, wanted)
        same([server.metrics()[name] for name in ("permits", "running", "turns")], [0, 0, 0])


def refused_and_no_name():
    """A site that is gone since its robots.txt was read, and one whose name has no address any more."""
    now, nowhere = int(time.time()), "nowhere.invalid"
    port = free_port()
    entries = []
    for turn, authority in enumerate((f"{HOST}:{port}", nowhere), 1):
        entries += [f"B {now} {authority} {turn}", f"A {now} {authority} {turn} O unavailable"]
    with tempfile.TemporaryDirectory() as folder:
        os.mkdir(f"{folder}/journal")
        with open(f"{folder}/journal/{0:020}", "w") as file:
            file.write("\n".join(["V 2", *entries, ""]))
        with Front("--journal", f"{folder}/journal", "--journal-sync", "never") as server:
            for form in FORMS:
                same(outcome(server, form(f"http://{HOST}:{port}/x")), (502, "connection_refused", "the device failed"))
                same(outcome(server, form(f"http://{nowhere}/x")), (502, "dns_error", "the device failed"))


def long_pages():
    """A page that is longer than the limit is refused, and passed on in part where its client asks for that."""
    pages = {f"/{size}": response(200, b"x" * size) for size in (PAGE_LIMIT, PAGE_LIMIT + 1)}
    site = Site(pages)
    whole, longer = (site.url(it) for it in pages)
    with Front() as server, Talk(server) as it:
        for form in FORMS:
            answer = it.ask(form(whole))
            same((answer.outcome(), len(answer.body)), ((200, None, "N open"), PAGE_LIMIT))
            answer = it.ask(form(longer))
            same((answer.outcome(), answer.body), ((502, "http_response_body_size", "cut"), b""))
            answer = it.ask(form(longer, "Crawlgate-Cut: Pass"))
            same((answer.outcome(), len(answer.body)), ((200, "http_response_body_size", "N open"), PAGE_LIMIT))
            same(it.ask(form(whole, "Crawlgate-Cut: no")).outcome(), (400, "http_request_error", "cut"))
        same(it.goes_on(), True)


def misasked():
    """What asks for no page learns why, and makes no entry and no request."""
    site = Echo()
    x, port = site.url("/x"), site.authority.partition(":")[2]
    plain = dict(host=site.authority)
    rows = [
        ("no credentials", head(x, **plain)),
        ("no credentials", head(x, "Crawlgate-Token: foobot", **plain)),
        ("no credentials", head(x, "Authorization: Basic Zm9vYm90Ong=", **plain)),
        ("no credentials", absolute(x, pair="foobot")),
        ("no credentials", absolute(x, pair=":foobot")),
        ("no credentials", absolute(x, pair="")),
        *(("no credentials", head(x, f"Proxy-Authorization: {it}", **plain)) for it in (
            "Basic", "Basic ", "Basic ?", "Basic Zm9vYm90Ong", "BasicZm9vYm90Ong=", "Bearer Zm9vYm90Ong=",
            "Digest username=foobot",
        )),
        ("field twice", absolute(x, basic())),
        ("token", absolute(x, pair="foo bot:x")),
        ("token", absolute(x, pair="foobot/1.0:x")),
        ("token", absolute(x, pair=f"{'x' * 65}:")),
        ("no token", head(f"/{x}", host=HOST)),
        ("no token", head(f"/{x}", basic(), host=HOST)),
        ("field twice", by_path(x, "Crawlgate-Token: foobot")),
        ("token", by_path(x, token="")),
        ("token", by_path(x, token="foobot/1.0")),
        ("cut", by_path(x, "Crawlgate-Cut: yes")),
        ("field twice", by_path(x, "Crawlgate-Cut: pass", "Crawlgate-Cut: pass")),
        ("url bad", by_path("")),
        ("url bad", by_path("x")),
        ("url bad", by_path("/x")),
        ("url bad", by_path("http://")),
        ("url bad", by_path("http%3A//a.example/")),
        ("url bad", head("*", "Crawlgate-Token: foobot", host=HOST)),
        ("url bad", absolute(f"http://{HOST}:99999/x", host="a.example")),
        ("url scheme", absolute("ftp://a.example/x")),
        ("url scheme", by_path("https://a.example/x")),
        ("url user", absolute(f"http://user@{site.authority}/x", host="a.example")),
        ("url user", by_path(f"http://:x@{site.authority}/x")),
        ("url long", by_path(f"{x}{'y' * 4_096}")),
    ]
    with Front() as server, Talk(server) as it:
        for wanted, octets in rows:
            answer = it.ask(octets)
            same((octets[:99], answer.outcome()), (octets[:99], (MISASKED[wanted], "http_request_error", wanted)))
            challenge = 'Basic realm="product token"' if wanted == "no credentials" else None
            same((answer.value("proxy-authenticate"), answer.body), (challenge, b""))
        for text in (
            f"http://127.1:{port}/x", f"http://127.0.0.1:0{port}/x?y", f"http://0x7f000001:{port}",
            f"http://@{site.authority}/x",
        ):
            elsewhere = f"{site.url('/')}{text.partition('//')[2].partition('/')[2]}"
            for form, prefix in zip(FORMS, ("", "/")):
                answer = it.ask(form(text, host=HOST))
                wanted = (308, "proxy_internal_response", "authority"), f"{prefix}{elsewhere}"
                same((text, answer.outcome(), answer.value("location")), (text, *wanted))
        answer = it.ask(by_path(f"HTTP://{site.authority}/x"))
        same((answer.status, answer.value("location")), (308, f"/{x}"))
        same(server.metrics()["entries_total"], 0)
    same(site.seen, [])


def methods():
    """Every method but GET is 405, with how a page is asked for, and the connection goes on."""
    site = Echo()
    x = site.url("/x")
    with Front() as server, Talk(server) as it:
        for method in ("HEAD", "POST", "PUT", "DELETE", "OPTIONS", "PATCH", "TRACE", "PROPFIND", "get", "GETT"):
            for form in FORMS:
                answer = it.ask(form(x, "Content-Length: 0", method=method))
                same((method, answer.outcome()), (method, (405, "http_request_error", "method")))
                same((answer.value("allow"), answer.value("content-type")), ("GET", "text/plain; charset=utf-8"))
                same(answer.body.count(b"\n"), 0 if method == "HEAD" else 3)
        for target in ("a.example:443", site.authority):
            answer = it.ask(head(target, basic(), host=target, method="CONNECT"))
            same((answer.outcome(), answer.value("allow")), ((405, "http_request_error", "method"), "GET"))
        same(it.ask(head("*", host=HOST, method="OPTIONS")).status, 405)
        same((it.ask(absolute(x)).status, server.metrics()["entries_total"]), (200, 5))


CASES = [
    verdicts, statuses_pass, fields_pass, redirects, faults_by_name, refused_and_no_name, long_pages, misasked, methods,
]
