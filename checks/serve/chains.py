"""Cases of checks/serve with a --journal of several files: a start believes neither the name nor the base of the last
one, which it compares with the file before."""
import contextlib
import os
import subprocess
import tempfile
from pathlib import Path

from journals import FIRST, Recorded, audit, refused, text_of
from lib.cases import same
from lib.server import SECONDS, Server, Session
from restarts import put

RULES = "User-agent%3A%2A%0ADisallow%3A%2Fx"
BEFORE = f"V 2\nB 100 a.example 1\nA 101 a.example 1 R 86400 {RULES}\nG 102 65536 foobot http://a.example/\nK 65536\n"
BASE = f"V 3\nT 4 0 1 102\nH a.example 1 100 R 86400 {RULES}\nL 0 1\nE\n"
LAST = BASE + "N 103 foobot http://a.example/x line 2\n"
SECOND = f"{4:020}"
BEHIND_ALL = "9" * 20


@contextlib.contextmanager
def journal(files):
    """A folder with these files of a journal, by their names."""
    with tempfile.TemporaryDirectory() as folder:
        for name, text in files.items():
            put(folder, name, text)
        yield folder


def contents(folder):
    """Returns the octets of a journal's files by their names."""
    found = sorted(Path(f"{folder}/journal").iterdir())
    return {it.name: it.read_bytes() for it in found if not it.name.startswith(".")}


def begins(folder):
    """Returns whether a server starts in the folder, which is then killed, and what it tells. One that does not start
    leaves the files as they were, with status 3."""
    before = contents(folder)
    words = [Server.program, "serve", "--port", "0", "--endless", "--journal", f"{folder}/journal"]
    with subprocess.Popen(words, stdin=subprocess.DEVNULL, stdout=subprocess.PIPE, stderr=subprocess.PIPE) as process:
        has_begun = process.stdout.readline() != b""
        process.kill() if has_begun else process.wait(SECONDS)
        told = process.stderr.read().decode()
    if not has_begun:
        same(process.returncode, 3)
        same(contents(folder), before)
    return has_begun, told


def is_sound(folder):
    """A start is refused, or the folder's audit is OK after it. Returns whether it was refused."""
    has_begun, told = begins(folder)
    if has_begun:
        found = audit(text_of(f"{folder}/journal"))
        assert found.startswith("OK "), f"a start went on, and the audit is {found!r}: {told!r}"
    return not has_begun


def a_base_is_compared_with_the_file_before():
    """Each octet of the last file's base is changed in turn, after the file before it: no start goes on."""
    for at, letter in enumerate(BASE):
        for other in {chr(ord(letter) ^ 1), " ", "\n"} - {letter}:
            with journal({FIRST: BEFORE, SECOND: BASE[:at] + other + LAST[at + 1 :]}) as folder:
                assert is_sound(folder), f"octet {at} is {other!r}"
    return f"{len(BASE)} octets"


def the_file_before_is_audited():
    """Each octet of the file before is changed in turn: the start is refused where the folder's audit is not OK."""
    for at, letter in enumerate(BEFORE):
        before = BEFORE[:at] + chr(ord(letter) ^ 1) + BEFORE[at + 1 :]
        is_right = audit(before + LAST).startswith("OK ")
        with journal({FIRST: before, SECOND: LAST}) as folder:
            same(is_sound(folder), not is_right)


def a_base_without_the_file_before():
    """Where the files before were moved away, the start says so, and goes on; and so does the audit of the rest."""
    with journal({FIRST: BEFORE, SECOND: LAST}) as folder:
        same(begins(folder), (True, ""))
        same(audit(text_of(f"{folder}/journal")), "OK events 5 starts 0\n")
    with journal({SECOND: LAST}) as folder:
        told = f'crawlgate: journal: "{folder}/journal/{SECOND}" begins at entry 4, the files before are not here\n'
        same(begins(folder), (True, told))
        same(audit(text_of(f"{folder}/journal")), "OK events 1 starts 0\n")
    for at, letter in enumerate(BASE):
        with journal({SECOND: BASE[:at] + chr(ord(letter) ^ 1) + LAST[at + 1 :]}) as folder:
            is_sound(folder)


def a_name_is_the_count_of_entries():
    """A file under another name is not gone on from, whichever of the two it is."""
    for place in range(20):
        for digit in "19":
            name = SECOND[:place] + digit + SECOND[place + 1 :]
            with journal({FIRST: BEFORE, name: LAST}) as folder:
                same(begins(folder), (False, f'crawlgate: journal: "{folder}/journal/{name}" line 2 is wrong\n'))
            with journal({name: LAST}) as folder:
                same(begins(folder), (False, f'crawlgate: journal: "{folder}/journal/{name}" line 2 is wrong\n'))
            name = FIRST[:place] + digit + FIRST[place + 1 :]
            with journal({name: BEFORE}) as folder:
                same(begins(folder), (False, f'crawlgate: journal: "{folder}/journal/{name}" line 1 is wrong\n'))
    with journal({FIRST: LAST}) as folder:
        same(begins(folder), (False, f'crawlgate: journal: "{folder}/journal/{FIRST}" line 1 is wrong\n'))
    with journal({f"{1:020}": BEFORE, SECOND: LAST}) as folder:
        same(begins(folder), (False, f'crawlgate: journal: "{folder}/journal/{1:020}" line 1 is wrong\n'))


def a_copy_under_a_later_name():
    """No start goes on from a copy, so no permit number is granted twice and no file is overwritten."""
    for text, line in ((BEFORE, 1), (LAST, 2)):
        with journal({FIRST: BEFORE, SECOND: LAST, BEHIND_ALL: text}) as folder:
            same(begins(folder), (False, f'crawlgate: journal: "{folder}/journal/{BEHIND_ALL}" line {line} is wrong\n'))


def a_line_of_the_file_before():
    """The message names the file in which the first wrong line is, and its line there."""
    rows = [
        (BEFORE + "K 65537\n", LAST, FIRST, "line 6 is wrong"),
        (BEFORE.replace("B 100", "B 0100"), LAST, FIRST, "line 2 is wrong"),
        (BEFORE[:-1], LAST, FIRST, "line 5 is wrong"),
        (BEFORE[:-8], LAST, SECOND, "does not begin where the files before it end"),
        (BEFORE, LAST.replace("%2Fx", "%2Fq"), SECOND, "line 3 is wrong"),
        (BEFORE, LAST.replace("line 2", "line 1"), SECOND, "line 6 is wrong"),
        (BEFORE, "", SECOND, "ends at line 1, before its entries begin"),
        (BEFORE, "V 3", SECOND, "ends at line 1, before its entries begin"),
        (BEFORE, "V 3\nT 4 0 1 102\n", SECOND, "ends at line 3, before its entries begin"),
        (BEFORE, "V 3\nT 4", SECOND, "ends at line 2, before its entries begin"),
        (BEFORE, LAST.removeprefix(BASE), SECOND, "line 1 is wrong"),
    ]
    for before, last, name, told in rows:
        with journal({FIRST: before, SECOND: last}) as folder:
            same(begins(folder), (False, f'crawlgate: journal: "{folder}/journal/{name}" {told}\n'))


def a_torn_last_line_behind_a_file():
    """A line that a crash tore is cut off from the last file, and what was out is ended in it."""
    for size in range(len(BASE), len(LAST) + 1):
        with journal({FIRST: BEFORE, SECOND: LAST[:size]}) as folder:
            torn = size - len(BASE) if size < len(LAST) else 0
            told = (
                f'crawlgate: journal: "{folder}/journal/{SECOND}" ends in a torn line, whose {torn} octets are '
                f'removed\n'
            )
            same(begins(folder), (True, told if torn else ""))
            same(audit(text_of(f"{folder}/journal"))[:3], "OK ")
            same(contents(folder)[FIRST].decode(), BEFORE)
    out = LAST + "G 104 65537 foobot http://a.example/\nB 104 b.example 2\n"
    with journal({FIRST: BEFORE, SECOND: out}) as folder:
        same(begins(folder)[0], True)
        with open(f"{folder}/journal/{SECOND}") as file:
            found = file.read()
        same(found.removeprefix(out).splitlines()[0], "K 65537")
        same(audit(text_of(f"{folder}/journal"))[:3], "OK ")


def files_of_several_servers():
    """What servers wrote one after the other goes on, and a seal between them, while the file before is changed by
    none."""
    with tempfile.TemporaryDirectory() as folder:
        texts = {}
        for turn in range(1, 5):
            with Recorded(folder, "--connections", "1") as server, Session(server) as it:
                same(it.say(f"ASK foobot http://a.example/{turn}"), "NO a.example unknown")
                same(it.say("SEAL").split(" ")[0], "SEALED")
                server.stop()
            found = contents(folder)
            same({name: found[name] for name in texts}, texts)
            texts = {name: found[name] for name in sorted(found)[:-1]}
        same(audit(text_of(f"{folder}/journal")), "OK events 4 starts 0\n")
        put(folder, BEHIND_ALL, "V 2\n")
        same(refused(f"{folder}/journal").endswith("line 1 is wrong\n"), True)
        os.remove(f"{folder}/journal/{BEHIND_ALL}")
        os.remove(f"{folder}/journal/{FIRST}")
        told = f'crawlgate: journal: "{folder}/journal/{1:020}.log" goes on from files that are not here\n'
        same(begins(folder), (False, told))


CASES = [
    a_base_is_compared_with_the_file_before,
    the_file_before_is_audited,
    a_base_without_the_file_before,
    a_name_is_the_count_of_entries,
    a_copy_under_a_later_name,
    a_line_of_the_file_before,
    a_torn_last_line_behind_a_file,
    files_of_several_servers,
]
