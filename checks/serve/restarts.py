"""Cases of checks/serve with a --journal that an earlier server wrote: the next one goes on from its last file."""
import os
import signal
import subprocess
import tempfile
import time

from journals import FIRST, Recorded, audit, refused, text_of
from lib.cases import same
from lib.server import SECONDS, Server, Session
from lib.sites import open_site, response, site_with_rules
from sessions import sealed


def put(folder, name, text):
    """Writes a file of a journal."""
    os.makedirs(f"{folder}/journal", exist_ok=True)
    with open(f"{folder}/journal/{name}", "w") as file:
        file.write(text)


def last_of(server):
    """Returns the name and the text of the last file."""
    name = max(it for it in os.listdir(server.folder) if not it.startswith("."))
    with open(f"{server.folder}/{name}") as file:
        return name, file.read()


def goes_on_where_it_was_killed():
    """The answer in force stays in force, what was out is ended in the old file, and no number is granted again."""
    site = site_with_rules()
    a, x = site.authority, site.url("/x")
    with tempfile.TemporaryDirectory() as folder:
        with Recorded(folder) as server:
            with Session(server) as it:
                same(it.say(f"REFRESH {a}"), f"TAKEN {a} rules")
                same(it.say(f"ASK foobot {x}"), "PERMIT 65536")
                same(it.say(f"START 65536 foobot {x}"), "GO 65536 norule")
                same(it.say(f"ASK foobot {x}"), "PERMIT 65537")
                server.stop()
        site.pages.clear()
        with Recorded(folder, "--connections", "1") as server:
            with open(f"{server.folder}/{FIRST}") as file:
                same(sorted(file.read().splitlines()[-2:]), ["F 65536", "K 65537"])
            same(last_of(server), (f"{7:020}.log", ""))
            with Session(server) as it:
                same(it.say(f"STATE {a}"), f"STATE {a} rules idle")
                same(it.say(f"ASK foobot {site.url('/private/x')}"), f"NO {a} line 2")
                same(it.say(f"ASK foobot {x}"), "PERMIT 131072")
                same(it.say(f"START 65537 foobot {x}"), f"NO {a} spent")
                same(it.say("DONE 65536"), "ERR notout")
                same(it.say(f"START 131072 foobot {x}"), "GO 131072 norule")
                same(it.say("INFO").split(" ")[:7], ["INFO", "entries", "3", "ever", "10", "starts", "2"])
                same(it.say("QUIT"), "BYE")
            same(server.end(), (b"SERVED connections 1 events 11\n", 0, b""))
            same(audit(server.text()), "OK events 11 starts 2\n")


def goes_on_again_and_again():
    """With one slot each next server grants the next generation, and one that made no entry leaves the folder as it
    was."""
    with tempfile.TemporaryDirectory() as folder:
        site = open_site()
        for turn in range(1, 6):
            with Recorded(folder, "--slots", "1") as server:
                with Session(server) as it:
                    if turn == 1:
                        same(it.say(f"REFRESH {site.authority}"), f"TAKEN {site.authority} open")
                    same(it.say(f"ASK foobot {site.url('/x')}"), f"PERMIT {65536 * turn}")
                    server.stop()
        same(audit(server.text()), "OK events 11 starts 0\n")
        before = sorted(os.listdir(server.folder))
        for _ in range(2):
            with Recorded(folder, "--connections", "1") as server, Session(server) as it:
                same(it.say("QUIT"), "BYE")
                same(server.end(), (b"SERVED connections 1 events 12\n", 0, b""))
        same(sorted(os.listdir(server.folder)), sorted([*before, f"{12:020}.log"]))
        same(audit(server.text()), "OK events 12 starts 0\n")


def a_turn_that_was_killed():
    """A robots.txt that was on its way is fetched anew at once, so that its site is not closed for a day."""
    site = open_site({"/robots.txt": (30, response(200, b"User-agent: *\nDisallow: /no\n"))})
    with tempfile.TemporaryDirectory() as folder:
        with Recorded(folder) as server, Session(server) as it:
            it.send(f"REFRESH {site.authority}\n".encode())
            while "/robots.txt" not in site.asked:
                time.sleep(0.01)
            server.stop()
        site.pages["/robots.txt"] = response(200, b"User-agent: *\nDisallow: /no\n")
        with Recorded(folder, "--connections", "1") as server, Session(server) as it:
            with open(f"{server.folder}/{FIRST}") as file:
                words = file.read().splitlines()[-1].split(" ")
            same((words[0], words[2:]), ("A", [site.authority, "1", "C", "network"]))
            for _ in range(100):
                state = it.say(f"STATE {site.authority}")
                if state.split(" ")[2] == "rules":
                    break
                time.sleep(0.05)
            same(state, f"STATE {site.authority} rules idle")
            same(it.say("QUIT"), "BYE")
            same(server.end(), (b"SERVED connections 1 events 4\n", 0, b""))
            same(audit(server.text()), "OK events 4 starts 0\n")


def goes_on_behind_a_seal():
    """The base of a sealed file is where the next server goes on, with the moments that it has."""
    site = open_site()
    with tempfile.TemporaryDirectory() as folder:
        with Recorded(folder) as server, Session(server) as it:
            same(it.say(f"REFRESH {site.authority}"), f"TAKEN {site.authority} open")
            same(len(sealed(it)), 3)
            server.stop()
        with Recorded(folder, "--connections", "1") as server, Session(server) as it:
            same(it.say(f"ASK foobot {site.url('/x')}"), "PERMIT 65536")
            same(it.say("QUIT"), "BYE")
            same(server.end(), (b"SERVED connections 1 events 4\n", 0, b""))
        same(audit(server.text()), "OK events 4 starts 0\n")


WHOLE = (
    "V 2\nB 100 a.example 1\nA 101 a.example 1 R 86400 User-agent%3A%2A%0ADisallow%3A%2Fx\nG 102 65536 foobot "
    "http://a.example/\n"
)


def a_file_that_is_cut_anywhere():
    """Where a crash tore the last line, the lines before it stand, and the torn one is cut off."""
    for size in range(len(WHOLE) + 1):
        text = WHOLE[:size]
        whole = text[: text.rfind("\n") + 1]
        with tempfile.TemporaryDirectory() as folder:
            put(folder, FIRST, text)
            if not whole:
                same(
                    refused(f"{folder}/journal"),
                    f'crawlgate: journal: "{folder}/journal/{FIRST}" ends at line 1, before its entries begin\n',
                )
                same(text_of(f"{folder}/journal"), text)
                continue
            with Recorded(folder, "--connections", "1") as server:
                with open(f"{server.folder}/{FIRST}") as file:
                    found = file.read()
                assert found.startswith(whole) and found.endswith("\n"), (text, found)
                server.process.send_signal(signal.SIGKILL)
                torn = size - len(whole)
                told = (
                    f'crawlgate: journal: "{server.folder}/{FIRST}" ends in a torn line, whose {torn} octets are '
                    f'removed\n'
                )
                same(server.end()[2].decode(), told if torn else "")
            assert audit(server.text()).startswith("OK "), (text, audit(server.text()))
    return f"{len(WHOLE) + 1} places"


def goes_on_from_the_last_file():
    """The last file is the one after most entries, whichever was written last, and no file before the last base but one
    is read; with no file the folder is begun."""
    with tempfile.TemporaryDirectory() as folder:
        put(folder, FIRST, "V 2\nx\n")
        put(folder, f"{20:020}", "V 3\nT 20 0 1 100\nH a.example 1 100 O unavailable\nE\n")
        put(folder, f"{18:020}", "V 3\nT 18 0 0 100\nE\nB 100 a.example 1\nA 100 a.example 1 O unavailable\n")
        put(folder, f"{3:020}", "V 3\nx\n")
        with Recorded(folder, "--connections", "1") as server, Session(server) as it:
            same(it.say("WHY a.example"), "WHY a.example 1 100 O unavailable")
            same(it.say("ASK foobot http://b.example/"), "NO b.example unknown")
            same(it.say("QUIT"), "BYE")
            same(server.end(), (b"SERVED connections 1 events 21\n", 0, b""))
        with open(f"{server.folder}/{20:020}.log") as file:
            same(file.read().splitlines()[-1].split(" ")[2:], ["foobot", "http://b.example/", "unknown"])
    with tempfile.TemporaryDirectory() as folder:
        os.makedirs(f"{folder}/journal")
        with Recorded(folder, "--connections", "1") as server, Session(server) as it:
            same(it.say("QUIT"), "BYE")
            same(server.end(), (b"SERVED connections 1 events 0\n", 0, b""))
        same(sorted(os.listdir(server.folder)), [".lock", FIRST])


def a_line_that_is_wrong():
    """A whole line that no history has ends the start, and nothing is written."""
    based = "V 3\nT 3 0 1 100\nL 0 1\n"
    rows = [
        (WHOLE + "K 65537\n", "line 5 is wrong"),
        (WHOLE + "G 101 65537 foobot http://a.example/\nK 65536\n", "line 5 is wrong"),
        (WHOLE.replace("B 100", "B 0100"), "line 2 is wrong"),
        ("x\n" + WHOLE, "line 1 is wrong"),
        (based, "line 1 is wrong"),
        ("", "ends at line 1, before its entries begin"),
    ]
    for text, told in rows:
        with tempfile.TemporaryDirectory() as folder:
            put(folder, FIRST, text)
            same(refused(f"{folder}/journal"), f'crawlgate: journal: "{folder}/journal/{FIRST}" {told}\n')
            same(text_of(f"{folder}/journal"), text)
    with tempfile.TemporaryDirectory() as folder:
        put(folder, f"{3:020}", based)
        told = refused(f"{folder}/journal")
        same(
            told.splitlines()[-1],
            f'crawlgate: journal: "{folder}/journal/{3:020}" ends at line 4, before its entries begin',
        )
        same(text_of(f"{folder}/journal"), based)


def fewer_slots_than_were_granted():
    text = WHOLE + "G 103 65537 foobot http://a.example/\n"
    with tempfile.TemporaryDirectory() as folder:
        put(folder, FIRST, text)
        for words, status in ((["--slots", "1"], 3), (["--slots", "2", "--connections", "1"], 0)):
            if status:
                told = refused(f"{folder}/journal", *words)
                same(
                    told,
                    f'crawlgate: journal: "{folder}/journal/{FIRST}" has permits of more slots than --slots allows\n',
                )
                same(text_of(f"{folder}/journal"), text)
                continue
            with Recorded(folder, *words) as server, Session(server) as it:
                same(it.say("QUIT"), "BYE")
                same(server.end(), (b"SERVED connections 1 events 6\n", 0, b""))


def shift(folder, jobs, *words):
    words = [Server.program, "shift", "--journal", f"{folder}/journal", *words]
    ran = subprocess.run(words, input=jobs.encode(), capture_output=True, timeout=SECONDS)
    return ran.stdout.decode(), ran.returncode, ran.stderr.decode()


def shift_goes_on_in_a_journal():
    """A shift goes on where the one before it ended: the robots.txt is not fetched again, and it tells of its own
    starts alone. A server goes on after it."""
    site = site_with_rules()
    jobs = f"foobot {site.url('/octets')}\nfoobot {site.url('/private/x')}\n"
    report = f"1 1 PAGE norule 200 768 whole\n2 1 NO {site.authority} line 2\nSHIFT jobs 2 hops 2 starts 1\n"
    with tempfile.TemporaryDirectory() as folder:
        same(shift(folder, jobs), (report, 0, ""))
        same(shift(folder, jobs, "--journal-sync", "second"), (report, 0, ""))
        table, status, _ = shift(folder, jobs, "--tsv", "--journal-sync", "never")
        same((table.count("\n"), status), (3, 0))
        same(site.asked.count("/robots.txt"), 1)
        same(audit(text_of(f"{folder}/journal")), "OK events 14 starts 3\n")
        same(shift(folder, jobs, "--export")[1], 2)
        with Recorded(folder, "--connections", "1") as server, Session(server) as it:
            same(refused_shift(folder), f'crawlgate: journal: "{folder}/journal" is in use by another process\n')
            same(it.say(f"ASK foobot {site.url('/x')}"), f"PERMIT {4 * 65536}")
            same(it.say("QUIT"), "BYE")
            same(server.end(), (b"SERVED connections 1 events 16\n", 0, b""))


def refused_shift(folder):
    output, status, error = shift(folder, "")
    same((output, status), ("", 3))
    return error


def a_shift_that_was_killed():
    """The start of a page that was on its way is in the journal, and so is the end that the next shift gives it."""
    site = open_site({"/slow": (30, response(200))})
    with tempfile.TemporaryDirectory() as folder:
        words = [Server.program, "shift", "--journal", f"{folder}/journal"]
        with subprocess.Popen(words, stdin=subprocess.PIPE, stdout=subprocess.PIPE) as process:
            process.stdin.write(f"foobot {site.url('/slow')}\n".encode())
            process.stdin.close()
            while "/slow" not in site.asked:
                time.sleep(0.01)
            process.kill()
            same(process.stdout.read(), b"")
        same(text_of(f"{folder}/journal").splitlines()[-1][:2], "S ")
        same(
            shift(folder, f"foobot {site.url('/x')}\n"),
            ("1 1 PAGE open 200 5 whole\nSHIFT jobs 1 hops 1 starts 1\n", 0, ""),
        )
        same(audit(text_of(f"{folder}/journal")), "OK events 8 starts 2\n")


CASES = [
    goes_on_where_it_was_killed,
    goes_on_again_and_again,
    a_turn_that_was_killed,
    goes_on_behind_a_seal,
    a_file_that_is_cut_anywhere,
    goes_on_from_the_last_file,
    a_line_that_is_wrong,
    fewer_slots_than_were_granted,
    shift_goes_on_in_a_journal,
    a_shift_that_was_killed,
]
