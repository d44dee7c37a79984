"""Cases of checks/http about where a request begins and ends, how long it may take, and what browsers may not do."""
import os
import re
import shutil
import subprocess
import tempfile
import time

from front import FORMS, HOST, LOOPBACK_FIELDS, Echo, Front, Talk, absolute, basic, by_path, head, outcome
from lib.cases import Skipped, in_time, same, short
from lib.sites import response
from lib.server import suppressed

HEAD_LIMIT, FIELD_LIMIT = 16_384, 64
# how long a request may take from its first octet to its end, in seconds
MESSAGE = 10


def padded(octets, size):
    """Returns a request with a field more, so that its head has this size."""
    start, end = octets[:-2], b"\r\n"
    return start + b"X: " + b"y" * (size - len(start) - len(b"X: \r\n") - len(end)) + b"\r\n" + end


def framings(site):
    """Returns rows: a name, the octets, the statuses of the answers, and whether the connection goes on."""
    x, y = site.url("/x"), site.url("/y")
    a, p = absolute(x), by_path(x)
    lying = dict(host="lying.example")
    count = a.count(b"\r\n") - 2
    return [
        ("absolute form", a, [200], True),
        ("path form", p, [200], True),
        ("three at once", a + p + absolute(y), [200, 200, 200], True),
        ("a refusal between", a + by_path(x, host="a.example") + p, [200, 421, 200], True),
        ("an empty line before", b"\r\n" + a, [200], True),
        ("a lying Host", absolute(x, **lying), [200], True),
        ("two Hosts", absolute(x, "Host: lying.example"), [400], False),
        ("two Hosts that agree", absolute(x, f"Host: {site.authority}"), [400], False),
        ("no Host", head(x, basic()), [400], False),
        ("no Host, path form", head(f"/{x}", "Crawlgate-Token: foobot"), [400], False),
        ("an empty Host", absolute(x, host=""), [200], True),
        ("a Host that is none", absolute(x, host="a b"), [400], False),
        ("a Host with a user", absolute(x, host="user@a.example"), [400], False),
        ("a Host with a path", absolute(x, host="a.example/x"), [400], False),
        ("a folded field", absolute(x, "X: y\r\n z"), [400], False),
        ("a folded token", by_path(x, "X: y\r\n\tz"), [400], False),
        ("a line that ends in LF", a.replace(b"\r\n", b"\n", 1), [400], False),
        ("a head that ends in LF", a[:-2] + b"\n", [400], False),
        ("LF alone", a.replace(b"\r\n", b"\n"), [400], False),
        ("CR in a field", absolute(x, "X: y\rz"), [400], False),
        ("NUL in a field", absolute(x, "X: \0"), [400], False),
        ("a space before the colon", absolute(x, "X : y"), [400], False),
        ("no name", absolute(x, ": y"), [400], False),
        ("no colon", absolute(x, "X"), [400], False),
        ("a body with its length", absolute(x, "Content-Length: 5") + b"hello", [413], False),
        ("a body of a POST", absolute(x, "Content-Length: 5", method="POST") + b"hello", [413], False),
        (
            "a body of 100,000 octets", absolute(x, "Content-Length: 100000", method="POST") + b"x" * 100_000, [413],
            False,
        ),
        ("a request in a body", absolute(x, f"Content-Length: {len(p)}") + p, [413], False),
        ("a length of 0", absolute(x, "Content-Length: 0"), [200], True),
        ("two lengths of 0", absolute(x, "Content-Length: 0", "Content-Length: 0"), [200], True),
        ("two lengths", absolute(x, "Content-Length: 0", "Content-Length: 5") + b"hello", [400], False),
        ("a list of lengths", absolute(x, "Content-Length: 0, 0"), [400], False),
        ("a length below 0", absolute(x, "Content-Length: -1"), [400], False),
        ("a length of 2 to the 64th", absolute(x, f"Content-Length: {2**64}"), [400], False),
        ("a body in chunks", absolute(x, "Transfer-Encoding: chunked") + b"5\r\nhello\r\n0\r\n\r\n", [413], False),
        ("no chunks", absolute(x, "Transfer-Encoding: chunked") + b"0\r\n\r\n", [200], True),
        ("no chunks, and a field after", absolute(x, "Transfer-Encoding: chunked") + b"0\r\nX: y\r\n\r\n", [200], True),
        ("no chunks, and a request", absolute(x, "Transfer-Encoding: chunked") + b"0\r\n\r\n" + p, [200, 200], True),
        ("a bad chunk", absolute(x, "Transfer-Encoding: chunked") + b"x\r\n", [400], False),
        (
            "a length and chunks", absolute(x, "Content-Length: 0", "Transfer-Encoding: chunked") + b"0\r\n\r\n", [400],
            False,
        ),
        ("chunks twice", absolute(x, "Transfer-Encoding: chunked, chunked") + b"0\r\n\r\n", [400], False),
        ("a coding and chunks", absolute(x, "Transfer-Encoding: gzip, chunked") + b"0\r\n\r\n", [501], False),
        ("a coding alone", absolute(x, "Transfer-Encoding: gzip"), [400], False),
        ("chunks of HTTP/1.0", absolute(x, "Transfer-Encoding: chunked", version="1.0") + b"0\r\n\r\n", [400], False),
        ("a body that is waited for", absolute(x, "Content-Length: 5", "Expect: 100-continue"), [413], False),
        ("nothing that is waited for", absolute(x, "Expect: 100-continue"), [200], True),
        ("another expectation", absolute(x, "Expect: 200-ok"), [200], True),
        ("HTTP/1.0", absolute(x, version="1.0"), [200], False),
        ("HTTP/1.0 without Host", head(x, basic(), version="1.0"), [200], False),
        ("HTTP/1.0 without Host, path form", head(f"/{x}", "Crawlgate-Token: foobot", version="1.0"), [421], False),
        ("HTTP/1.0 that stays", absolute(x, "Connection: keep-alive", version="1.0"), [200], True),
        ("a close", absolute(x, "Connection: close"), [200], False),
        ("a close, and a request", absolute(x, "Connection: x, Close") + a, [200], False),
        ("HTTP/1.2", absolute(x, version="1.2"), [400], False),
        ("HTTP/0.9", f"GET /{x}\r\n\r\n".encode(), [400], False),
        ("the preface of HTTP/2", b"PRI * HTTP/2.0\r\n\r\nSM\r\n\r\n", [400], False),
        ("TLS", b"\x16\x03\x01\x02\x00\x01\x00\x01\xfc\x03\x03" + b"\0" * 64, [400], False),
        ("a line", b"ASK foobot http://a.example/x\n", [400], False),
        ("two spaces", a.replace(b" ", b"  ", 1), [400], False),
        ("a space in the target", absolute(site.url("/x y"), host=HOST), [400], False),
        ("octets that are no UTF-8", absolute(site.url("/\xff"), host=HOST), [400], False),
        ("a target that is no URI", absolute("http:a.example/x", host=HOST), [400], False),
        ("a target of 17,000 octets", absolute(site.url("/" + "x" * 17_000)), [414], False),
        ("64 fields", absolute(x, *["X: y"] * (FIELD_LIMIT - count)), [200], True),
        ("65 fields", absolute(x, *["X: y"] * (FIELD_LIMIT - count + 1)), [431], False),
        ("a head of 16,384 octets", padded(a, HEAD_LIMIT), [200], True),
        ("a head of 16,385 octets", padded(a, HEAD_LIMIT + 1), [431], False),
        ("a field without an end", absolute(x)[:-2] + b"X: " + b"y" * 20_000, [431], False),
    ]


def exchange(server, octets, count):
    """Returns the statuses of that many answers, and whether the connection goes on after them."""
    with Talk(server, 3) as it:
        suppressed(it.send, octets)
        answers = [it.answer(octets.startswith(b"HEAD")) for _ in range(count)]
        # (what was answered last says whether it is the last)
        is_last = not answers[-1] or answers[-1].value(
            "connection"
        ) == "close" or answers[-1].version == "1.0" and b"keep-alive" not in octets
        if is_last:
            same(it.ends(), True)
        return [answer and answer.status for answer in answers], not is_last and it.goes_on()


def framing():
    """Each way to frame a request is answered as it should be, and its connection goes on or ends."""
    site = Echo()
    faults = []
    with Front() as server:
        for name, octets, statuses, goes_on in framings(site):
            try:
                found = exchange(server, octets, len(statuses))
            except (AssertionError, OSError) as error:
                found = f"{type(error).__name__}: {error}"
            if found != (statuses, goes_on):
                faults.append(f"{name}: it is {short(found)}, and not {(statuses, goes_on)}")
        assert not faults, "; ".join(faults)
        rows = framings(site)
        same(server.metrics()["running"], 0)
    wanted = sum(status == 200 for _, _, statuses, _ in rows for status in statuses)
    same(len(site.fetched()), wanted)
    return f"{len(rows)} ways"


def waited_for():
    """A client that waits for 100 gets it, once, before the answer: where it says a length of 0, and where its chunks
    come after it."""
    site = Echo()
    x = site.url("/x")
    with Front() as server:
        with Talk(server, 3) as it:
            same((it.ask(absolute(x, "Expect: 100-continue", "Content-Length: 0")).status, it.interim), (200, 1))
            same(it.goes_on(), True)
        with Talk(server, 3) as it:
            it.send(absolute(x, "Expect: 100-continue", "Transfer-Encoding: chunked"))
            same(it._up_to(b"\r\n\r\n"), b"HTTP/1.1 100 Continue")
            it.send(b"0\r\n\r\n")
            same((it.answer().status, it.goes_on()), (200, True))


def in_pieces():
    """A request that comes an octet at a time is read as one that comes at once; and one whose client sends no more is
    answered, too."""
    site = Echo()
    with Front() as server:
        for form in FORMS:
            with Talk(server) as it:
                for octet in form(site.url("/x")):
                    it.send(bytes([octet]))
                answer = it.answer()
                same((answer.outcome(), answer.body, it.goes_on()), ((200, None, "N open"), b"/x by foobot", True))
            with Talk(server) as it:
                it.send(form(site.url("/x")) * 2)
                it.peer.shutdown(1)
                same([it.answer().status, it.answer().status, it.ends()], [200, 200, True])
            with Talk(server) as it:
                it.send(form(site.url("/x"))[:-1])
                it.peer.shutdown(1)
                same((it.answer().status, it.ends()), (400, True))


def clock_of_a_message():
    """A request that does not end within ten seconds ends its connection, however often an octet of it comes: the first
    one of a connection, and one after another."""
    site = Echo()
    octets = absolute(site.url("/x"))
    with Front("--patience", "60") as server, Talk(server) as first, Talk(server) as later, Talk(server) as idle:
        same(idle.ask(octets).status, 200)
        later.send(octets + octets[:9])
        same(later.answer().status, 200)
        began, ended = time.monotonic(), {}
        for at, octet in enumerate(octets):
            for name, it in (("the first", first), ("a later one", later)):
                if name in ended:
                    continue
                suppressed(it.send, bytes([octet if name == "the first" else octets[9 + at]]))
                it.peer.settimeout(0.01)
                try:
                    if it.ends():
                        ended[name] = time.monotonic() - began
                except TimeoutError:
                    pass
            if len(ended) == 2 or time.monotonic() - began > 2 * MESSAGE:
                break
            time.sleep(0.25)
        assert len(ended) == 2, f"of two slow requests only these ended: {ended}"
        for seconds in ended.values():
            in_time(seconds, MESSAGE + 4, MESSAGE - 1)
        idle.peer.settimeout(5)
        same(idle.goes_on(), True)
    same([target for _, target in site.fetched()], ["/x", "/x"])


def patience():
    """A connection that is idle is kept as long as its server's patience lasts, and no longer."""
    with Front("--patience", "2") as server:
        with Talk(server) as silent, Talk(server) as asked_once:
            same(asked_once.goes_on(), True)
            began = time.monotonic()
            same((silent.ends(), asked_once.ends()), (True, True))
            in_time(time.monotonic() - began, 6, 1.5)


def browsers():
    """What a page of another site can have a browser send is answered without a fetch, and nothing lets such a page
    read it."""
    site = Echo({"/x": response(200, b"hello", "Access-Control-Allow-Origin: *", "Access-Control-Allow-Headers: *")})
    x = site.url("/x")
    others = [
        "a.example", "a.example:4080", "127.0.0.2", "127.0.0.1.a.example", "localhost.a.example", "xlocalhost",
        "0.0.0.0", "[::2]", "", "127.0.0.1:80:80",
    ]
    rows = [(LOOPBACK_FIELDS, (), 200)]
    rows += [
        (LOOPBACK_FIELDS[:1], (it,), 403) for it in (
            "Origin: http://a.example", "Origin: null", "Origin: http://127.0.0.1", "Sec-Fetch-Site: cross-site",
            "sec-fetch-site: same-origin", "Sec-Fetch-Site: none",
        )
    ]
    rows += [(others[:-1], (), 421)]
    with Front() as server:
        for hosts, fields, status in rows:
            for host in hosts:
                with Talk(server) as it:
                    answer = it.ask(by_path(x, *fields, host=host))
                    same((host, fields, answer.status), (host, fields, status))
                    expect_no_leave(answer)
        for host in others[:-1]:
            same((host, outcome(server, head("/metrics", host=host))[0]), (host, 421))
        with Talk(server) as it:
            # (a preflight, a form, an image, and what WebSocket sends)
            preflight = [
                "Origin: http://a.example", "Access-Control-Request-Method: GET",
                "Access-Control-Request-Headers: crawlgate-token",
            ]
            preflight += ["Access-Control-Request-Private-Network: true"]
            for octets, status in [
                (head(f"/{x}", *preflight, host=HOST, method="OPTIONS"), 405),
                (head(f"/{x}", "Content-Type: text/plain", "Content-Length: 0", host=HOST, method="POST"), 405),
                (head(f"/{x}", host=HOST), 400),
                (head(f"/{x}", "Upgrade: websocket", "Connection: Upgrade", host=HOST), 400),
            ]:
                answer = it.ask(octets)
                same((octets[:40], answer.status), (octets[:40], status))
                expect_no_leave(answer)
        same(len(site.fetched()), len(LOOPBACK_FIELDS))


def expect_no_leave(answer):
    names = [
        name for name, _ in answer.fields
        if name.startswith("access-control-") or name in ("set-cookie", "timing-allow-origin")
    ]
    same(names, [])


def headless_browser():
    """A page of another site, in a browser, fetches nothing through the gate."""
    found = next(filter(None, map(shutil.which, ("chromium", "chromium-browser", "google-chrome"))), None)
    if not found:
        raise Skipped("there is no chromium")
    site = Echo()
    with Front() as server, tempfile.TemporaryDirectory() as folder:
        script = f"""<script>
        const url = {server.url(site.url('/x'))!r};
        const tries = [fetch(url), fetch(url, {{mode: 'no-cors'}})];
        tries.push(fetch(url, {{headers: {{'Crawlgate-Token': 'foobot'}}}}));
        tries.push(fetch({server.url('')!r} + 'metrics').then(it => it.text()));
        const said = it => it.status + (it.value || '').toString();
        Promise.allSettled(tries).then(them => document.title = them.map(said).join(' '));
        </script><img src="{server.url(site.url('/y'))}">"""
        page = Echo({"/": response(200, script.encode(), "Content-Type: text/html")})
        words = [
            found, "--headless", "--no-sandbox", "--disable-gpu", f"--user-data-dir={folder}",
            "--virtual-time-budget=5000", "--dump-dom", page.url("/"),
        ]
        ran = subprocess.run(words, capture_output=True, timeout=60, env={**os.environ, "HOME": folder})
        titles = re.findall(r"<title>(.*?)</title>", ran.stdout.decode())
        assert titles and "fulfilled[object Response] fulfilled" not in titles[
            0
        ] and "crawlgate_" not in ran.stdout.decode(), short(ran.stdout)
        same(site.fetched(), [])


CASES = [clock_of_a_message, framing, waited_for, in_pieces, patience, browsers, headless_browser]
