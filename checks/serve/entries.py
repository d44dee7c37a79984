"""Cases of checks/serve that read a journal's entries: what each line of a session enters, and what is refused enters
nothing."""
import os
import socket
import tempfile

from journals import Recorded, audit
from lib.cases import same
from lib.server import Server, Session
from lib.sites import HOST, Site, open_site, response, site_with_rules
from sessions import sealed


def letters(server, before=0):
    """Returns the letters of the entries in a journal of one file, after that many."""
    return "".join(line[0] for line in server.text().splitlines()[1 + before :])


# the example of RFC 9309, section 5.1
EXAMPLE = b"""User-Agent: *
Disallow: *.gif$
Disallow: /example/
Allow: /publications/

User-Agent: foobot
Disallow:/
Allow:/example/page.html
Allow:/example/allowed.gif

User-Agent: barbot
User-Agent: bazbot
Disallow: /example/page.html

User-Agent: quxbot

"""


def fetches_are_entered():
    """What a fetch tells of each hop, and its entries in order: a grant, a start and an end for each page. A site's
    robots.txt is fetched before its first page, once."""
    ruled = Site({"/robots.txt": response(200, b"User-agent: *\nDisallow: /\n"), "/x": response(200, b"shut")})
    behind = Site(
        {
            "/robots.txt": response(301, b"", "Location: /rules"),
            "/rules": response(200, b"User-agent: foobot\nAllow: /x\n"), "/x": response(200, b"hi"),
        }
    )
    coded = Site({"/robots.txt": response(200, b"x", "Content-Encoding: gzip"), "/x": response(200, b"hi")})
    example = Site(
        {
            "/robots.txt": response(200, EXAMPLE), "/example/page.html": response(302, b"", "Location: /x"),
            "/publications/": response(200, b"hello"),
        }
    )
    site = open_site({
        "/gone": response(410, b"no"), "/to": response(
            302, b"x", "Location: /x",
        ), "/twice": response(307, b"", "Location: to"),
        "/loop": response(301, b"", "Location: loop"), "/nowhere": response(303), "/secure": response(
            302, b"", "Location: https://a.example/x",
        ),
        "/away": response(
            308, b"", f"Location: //{ruled.authority}/x",
        ), "/same": response(304, b"", "Location: /x"), "/none": b"",
    })
    with socket.create_server((HOST, 0)) as listener:
        down = f"{HOST}:{listener.getsockname()[1]}"
    rows = [
        ("foobot", site.url("/x"), ["PAGE open 200 5 whole"], b"hello", "BAGSF"),
        ("foobot", site.url("/gone"), ["PAGE open 410 2 whole"], b"no", "GSF"),
        ("foobot", site.url("/to"), ["PAGE open 302 1 whole", "PAGE open 200 5 whole"], b"hello", "GSFGSF"),
        (
            "foobot", site.url("/twice"), ["PAGE open 307 0 whole", "PAGE open 302 1 whole", "PAGE open 200 5 whole"],
            b"hello", "GSFGSFGSF",
        ),
        ("foobot", site.url("/loop"), ["PAGE open 301 0 whole"] * 6 + ["STOP toomany"], b"", "GSF" * 6),
        ("foobot", site.url("/nowhere"), ["PAGE open 303 0 whole", "STOP redirect"], b"", "GSF"),
        ("foobot", site.url("/secure"), ["PAGE open 302 0 whole", "STOP scheme"], b"", "GSF"),
        ("foobot", site.url("/away"), ["PAGE open 308 0 whole", f"NO {ruled.authority} line 2"], b"", "GSFBAN"),
        ("foobot", site.url("/same"), ["PAGE open 304 0 whole"], b"", "GSF"),
        ("foobot", site.url("/none"), ["FAULT H1"], b"", "GSF"),
        ("foobot", ruled.url("/x"), [f"NO {ruled.authority} line 2"], b"", "N"),
        ("foobot", behind.url("/x"), ["PAGE line 2 200 2 whole"], b"hi", "BAGSF"),
        ("foobot", f"http://{down}/x", [f"NO {down} closed"], b"", "BAN"),
        ("foobot", coded.url("/x"), [f"NO {coded.authority} closed"], b"", "BAN"),
        (
            "foobot", example.url("/example/page.html"), ["PAGE line 8 302 0 whole", f"NO {example.authority} line 7"],
            b"", "BAGSFN",
        ),
        ("otherbot", example.url("/publications/"), ["PAGE line 4 200 5 whole"], b"hello", "GSF"),
    ]
    with tempfile.TemporaryDirectory() as folder, Recorded(
        folder, "--journal-sync", "never",
    ) as server, Session(server) as it:
        entries = 0
        for token, url, hops, body, wanted in rows:
            told = "".join(
                f"HOP {number} {hop}\n" for number, hop in enumerate(hops, 1)
            ) + f"BODY {len(body)}\n{body.decode()}\n"
            it.send(f"FETCH {token} {url}\n".encode())
            same((url, "".join(f"{line}\n" for line in it.lines(told.count("\n")))), (url, told))
            same((url, letters(server, entries)), (url, wanted))
            entries += len(wanted)


def sessions_are_entered():
    """What a session leaves out is given back, what is not out is refused, and a look makes no entry: the replies to
    its lines, and what an audit says of its entries."""
    site, ruled = open_site(), site_with_rules()
    a, x, b = site.authority, site.url("/x"), ruled.authority
    named = f"localhost:{a.partition(':')[2]}"
    rows = [
        ("what is left out is given back",
         [f"REFRESH {a}", f"ASK foobot {x}", f"ASK foobot {site.url('/y')}", f"START 65536 foobot {x}"],
         [f"TAKEN {a} open", "PERMIT 65536", "PERMIT 65537", "GO 65536 open"], (7, 1)),
        ("what is not out",
         [f"REFRESH {a}", f"ASK foobot {x}", f"START 65536 foobot {site.url('/y')}", f"START 65536 barbot {x}",
          f"START 1 foobot {x}",
          "BACK 1", "DONE 65536", "BACK 65536", "BACK 65536"],
         [
             f"TAKEN {a} open", "PERMIT 65536", f"NO {a} spent", f"NO {a} spent", f"NO {a} spent", "ERR notout",
             "ERR notout", "BACK 65536", "ERR notout",
         ],
         (4, 0)),
        ("a permit is started once, and ends once",
         [
             f"REFRESH {a}", f"ASK foobot {x}", f"START 65536 foobot {x}", f"START 65536 foobot {x}", "BACK 65536",
             "DONE 65536", "DONE 65536",
         ],
         [
             f"TAKEN {a} open", "PERMIT 65536", "GO 65536 open", f"NO {a} spent", "ERR notout", "DONE 65536",
             "ERR notout",
         ], (5, 1)),
        ("states that leave no mark",
         [f"STATE {named}", f"REFRESH {named.upper()}", f"STATE {named}", f"STATE {b}"],
         [
             f"STATE {named} unknown idle", f"TAKEN {named} open", f"STATE {named} open idle",
             f"STATE {b} unknown idle",
         ], (2, 0)),
        ("an answer that is refreshed",
         [
             f"REFRESH {b}", f"REFRESH {b}", f"ASK foobot {ruled.url('/private')}",
         ], [f"TAKEN {b} rules", f"TAKEN {b} rules", f"NO {b} line 2"], (5, 0)),
    ]
    for name, lines, replies, (events, starts) in rows:
        with tempfile.TemporaryDirectory() as folder, Recorded(
            folder, "--connections", "1", "--journal-sync", "never",
        ) as server:
            with Session(server) as it:
                same((name, it.say_all([*lines, "QUIT"])), (name, [*replies, "BYE"]))
            same((name, server.end()), (name, (f"SERVED connections 1 events {events}\n".encode(), 0, b"")))
            same((name, audit(server.text())), (name, f"OK events {events} starts {starts}\n"))


def served_with(folder, words, text):
    """A server without a journal, or with one that goes on from a text of one entry, whose log then is as long as may
    be."""
    if not text:
        return Server(*words)
    os.makedirs(f"{folder}/journal")
    with open(f"{folder}/journal/{1:020}", "w") as file:
        file.write(text)
    return Recorded(folder, "--journal-sync", "never", *words)


def fetches_that_the_gate_refuses():
    """A gate whose log, permits, authorities or places are used up: the hop says so, and what was begun has ended."""
    other = open_site()
    site = open_site(
        {"/to": response(302, b"x", "Location: /x"), "/away": response(308, b"", f"Location: {other.url('/x')}")}
    )
    a, last = site.authority, 281474976710655
    base = f"V 3\nT 1 0 0 100\nL 0 {last - 1}\nE\n"
    rows = [
        (["--log", "1"], None, "/x", ["ERR log"], ""),
        (["--log", "7"], None, "/to", ["PAGE open 302 1 whole", "ERR log"], "BAGSF"),
        (["--authorities", "1"], None, "/away", ["PAGE open 308 0 whole", "ERR authorities"], "BAGSF"),
        # (the one slot is spent for good after the last generation)
        (["--slots", "1"], base, "/to", ["PAGE open 302 1 whole", "ERR permits"], "BAGSF"),
    ]
    for words, text, target, hops, entries in rows:
        with tempfile.TemporaryDirectory() as folder, served_with(folder, words, text) as server, Session(server) as it:
            told = [f"HOP {number} {hop}" for number, hop in enumerate(hops, 1)] + ["BODY 0", ""]
            it.send(f"FETCH foobot {site.url(target)}\n".encode())
            same((words, it.lines(len(told))), (words, told))
            found = [line for line in sealed(it) if line[0] in "BAGSFN"]
            same((words, "".join(line[0] for line in found)), (words, entries))
            if text:
                same(found[2].split(" ")[2], str(last * 65536))
    with Server("--places", "1") as server, Session(server) as it, Session(server) as another:
        same(it.say(f"REFRESH {a}"), f"TAKEN {a} open")
        same(it.say(f"ASK foobot {site.url('/x')}"), "PERMIT 65536")
        another.send(f"FETCH foobot {site.url('/x')}\n".encode())
        same(another.lines(3), ["HOP 1 ERR busy", "BODY 0", ""])
        same("".join(line[0] for line in sealed(it)[1:]), "BAG")
    with Server("--log", "3") as server, Session(server) as it:
        same([it.say(f"REFRESH {a}"), it.say(f"REFRESH {a}")], [f"TAKEN {a} open", "ERR log"])
        same("".join(line[0] for line in sealed(it)[1:]), "BA")


CASES = [fetches_are_entered, sessions_are_entered, fetches_that_the_gate_refuses]
