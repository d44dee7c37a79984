"""Cases of checks/serve with the folder of a --journal: what is put there by others, and where it goes while a server
runs."""
import contextlib
import os
import stat
import subprocess
import tempfile
import time

from journals import FIRST, Recorded, audit, refused, text_of
from lib.cases import Skipped, in_time, same
from lib.server import SECONDS, Server, Session

NAMES = [".lock", ".new", FIRST, f"{FIRST}.log"]


def a_folder_is_its_owners():
    """A folder that is made can be read only by its owner; one that is there stays as it is."""
    with tempfile.TemporaryDirectory() as folder, Recorded(folder) as server:
        same(stat.S_IMODE(os.stat(server.folder).st_mode), 0o700)
    with tempfile.TemporaryDirectory() as folder:
        os.mkdir(f"{folder}/journal")
        os.chmod(f"{folder}/journal", 0o750)
        with Recorded(folder) as server:
            same(stat.S_IMODE(os.stat(server.folder).st_mode), 0o750)


@contextlib.contextmanager
def folder_with(make, name):
    """A folder in which something of this kind has a journal's name; no server starts in it, within a second."""
    with tempfile.TemporaryDirectory() as folder:
        os.mkdir(f"{folder}/journal")
        make(folder, f"{folder}/journal/{name}")
        began = time.monotonic()
        told = refused(f"{folder}/journal")
        took = time.monotonic() - began
        same(told, f'crawlgate: journal: "{folder}/journal/{name}" is no regular file\n')
        yield folder
        in_time(took, 1)


def links_in_a_folder():
    """What a link leads to is neither read, emptied nor written, whichever name of a journal's it has."""

    def link(folder, path):
        with open(f"{folder}/target", "w") as file:
            file.write("V 2\n")
        os.symlink(f"{folder}/target", path)

    def link_to_nothing(folder, path):
        os.symlink(f"{folder}/nothing", path)

    for name in NAMES:
        with folder_with(link, name) as folder, open(f"{folder}/target") as file:
            same(file.read(), "V 2\n")
        with folder_with(link_to_nothing, name) as folder:
            same(sorted(os.listdir(folder)), ["journal"])


def pipes_in_a_folder():
    """A pipe is not waited for, and a folder is no file."""
    for make in (lambda _, path: os.mkfifo(path), lambda _, path: os.mkdir(path)):
        for name in NAMES:
            with folder_with(make, name):
                pass


def a_file_before_the_last_is_a_link():
    """The file before the last one is looked at as the last one is, and so is every other."""
    with tempfile.TemporaryDirectory() as folder:
        os.mkdir(f"{folder}/journal")
        os.symlink("/dev/zero", f"{folder}/journal/{FIRST}")
        for entries in (4, 5):
            with open(f"{folder}/journal/{entries:020}", "w") as file:
                file.write(f"V 3\nT {entries} 0 0 100\nE\n")
        same(refused(f"{folder}/journal"), f'crawlgate: journal: "{folder}/journal/{FIRST}" is no regular file\n')


def what_is_left_of_a_start():
    """A lock that is there is taken as it is, and the beginning of a file that got no name is replaced."""
    with tempfile.TemporaryDirectory() as folder:
        os.mkdir(f"{folder}/journal")
        for name in (".lock", ".new"):
            with open(f"{folder}/journal/{name}", "w") as file:
                file.write("some words\n")
        os.link(f"{folder}/journal/.new", f"{folder}/linked")
        with Recorded(folder, "--connections", "1") as server, Session(server) as it:
            same(it.say("QUIT"), "BYE")
            same(server.end(), (b"SERVED connections 1 events 0\n", 0, b""))
            same(server.text(), "V 2\n")
        for name in ("journal/.lock", "linked"):
            with open(f"{folder}/{name}") as file:
                same(file.read(), "some words\n")


FOREIGN = [
    "notes.txt", ".nfs0000000000000001", f".{FIRST}.swp", f"old-{FIRST}", FIRST[1:], "lost+found", "pipe", "link",
]


def names_that_are_not_a_journals():
    """A file with another name than a journal's is reported once and left alone, and takes nothing of the journal's
    room."""
    with tempfile.TemporaryDirectory() as folder:
        os.mkdir(f"{folder}/journal")
        put(folder, FIRST, "V 2\n")
        for name in FOREIGN[:5]:
            put(folder, name, "x")
        os.truncate(f"{folder}/journal/notes.txt", 1 << 23)
        os.mkdir(f"{folder}/journal/lost+found")
        os.mkfifo(f"{folder}/journal/pipe")
        os.symlink(f"{folder}/nothing", f"{folder}/journal/link")
        os.mkdir(os.fsencode(f"{folder}/journal/") + b"\xff")
        names = sorted(os.listdir(os.fsencode(f"{folder}/journal")))
        with Recorded(folder, "--connections", "1", "--journal-room", str(1 << 23)) as server, Session(server) as it:
            same(it.say("ASK foobot http://a.example/"), "NO a.example unknown")
            same(it.say("QUIT"), "BYE")
            output, status, told = server.end()
        same((output, status), (b"SERVED connections 1 events 1\n", 0))
        made = set(os.listdir(os.fsencode(f"{folder}/journal"))) - set(names)
        same(sorted(made), [b".lock", os.fsencode(f"{FIRST}.log")])
        has = f'crawlgate: journal: "{folder}/journal" has'
        wanted = [f'{has} "{name}", which is not a journal\'s and is left alone' for name in FOREIGN]
        wanted.append(f"{has} names that are not UTF-8 and are left alone: 1")
        same(sorted(told.decode().splitlines()), sorted(wanted))


def a_file_that_was_compressed():
    """A name that begins as a journal's file is refused by that name, until the file is moved away."""
    for more in (".gz", "~", ".orig", "0", ".log.gz", ".logs"):
        with folder_with_altered(more) as (folder, path):
            os.rename(path, f"{folder}/away")
            with Recorded(folder, "--connections", "1") as server, Session(server) as it:
                same(it.say("QUIT"), "BYE")
                same(server.end()[1], 0)


@contextlib.contextmanager
def folder_with_altered(more):
    """A folder in which the first file of a journal has this after its name; no server starts in it."""
    with tempfile.TemporaryDirectory() as folder:
        os.mkdir(f"{folder}/journal")
        put(folder, f"{4:020}", "V 3\nT 4 0 0 100\nE\n")
        put(folder, FIRST + more, "x")
        path = f"{folder}/journal/{FIRST}{more}"
        wanted = "has the name of a journal's file and more: restore the file, as with gunzip, or move this one away"
        same(refused(f"{folder}/journal"), f'crawlgate: journal: "{path}" {wanted}\n')
        same(sorted(os.listdir(f"{folder}/journal")), [".lock", FIRST + more, f"{4:020}"])
        yield folder, path


def put(folder, name, text):
    with open(f"{folder}/journal/{name}", "w") as file:
        file.write(text)


def removed(folder):
    for name in os.listdir(f"{folder}/journal"):
        os.remove(f"{folder}/journal/{name}")
    os.rmdir(f"{folder}/journal")


def renamed(folder):
    os.rename(f"{folder}/journal", f"{folder}/other")


def replaced(folder):
    renamed(folder)
    os.mkdir(f"{folder}/journal")


def made_anew(folder):
    removed(folder)
    os.mkdir(f"{folder}/journal")


def a_folder_that_goes():
    """A server whose folder is removed or replaced ends within three seconds, whenever its files are synced."""
    for change in (removed, renamed, replaced, made_anew):
        for sync in ("always", "second", "never"):
            with tempfile.TemporaryDirectory() as folder, Recorded(folder, "--journal-sync", sync) as server:
                with Session(server) as it:
                    same(it.say("ASK foobot http://a.example/"), "NO a.example unknown")
                    same(it.say("QUIT"), "BYE")
                began = time.monotonic()
                change(folder)
                ended = server.end()
                took = time.monotonic() - began
                same(ended, (b"", 3, f'crawlgate: journal: "{server.folder}" was removed or replaced\n'.encode()))
                in_time(took, 3)


def reply_to(it, line):
    try:
        return it.say(line)
    except OSError:
        return None


def a_seal_in_a_folder_that_was_replaced():
    """The next file is not made in another folder, which another server may have, and the seal is not told."""
    with tempfile.TemporaryDirectory() as folder, Recorded(folder) as server:
        with Session(server) as it:
            same(it.say("ASK foobot http://a.example/"), "NO a.example unknown")
            renamed(folder)
            with Recorded(folder) as second:
                same(reply_to(it, "SEAL"), None)
                same(sorted(os.listdir(second.folder)), [".lock", FIRST])
                same(second.text(), "V 2\n")
        same(server.end()[1:], (3, f'crawlgate: journal: "{server.folder}" was removed or replaced\n'.encode()))
        same(audit(text_of(f"{folder}/other")), "OK events 1 starts 0\n")


def on_a_small_disk(folder, files, kilobytes, *words):
    """Returns the status and the standard error of a program with these words whose journal has these files, on a disk
    of its own. They are in the folder `left` as it leaves them."""
    os.mkdir(f"{folder}/files")
    os.mkdir(f"{folder}/journal")
    for name, text in files.items():
        with open(f"{folder}/files/{name}", "w") as file:
            file.write(text)
    os.mkdir(f"{folder}/left")
    disk = f'mount -t tmpfs -o size={kilobytes}k none "$0/journal" && cp "$0"/files/* "$0/journal"'
    script = f'{disk} && {{ "$@"; status=$?; cp "$0"/journal/[0-9]* "$0/left"; exit $status; }}'
    words = ["unshare", "-rm", "sh", "-c", script, folder, Server.program, *words, "--journal", f"{folder}/journal"]
    ran = subprocess.run(words, stdin=subprocess.DEVNULL, capture_output=True, timeout=SECONDS)
    return ran.returncode, ran.stderr.decode()


SERVE = ["serve", "--port", "0", "--connections", "1", "--patience", "1"]


def needs_a_disk():
    if subprocess.run(["unshare", "-rm", "sh", "-c", "mount -t tmpfs none /mnt"], capture_output=True).returncode:
        raise Skipped("no disk can be mounted here")


def no_room_for_the_next_file():
    """A shift says how much room its file needs, and in which folder. A server's needs none."""
    needs_a_disk()
    first = f"V 2\nB 100 a.example 1\nA 101 a.example 1 R 86400 %23{'x' * 9000}\n"
    base = f"V 3\nT 2 0 1 101\nH a.example 1 100 R 86400 %23{'x' * 9000}\nE\n"
    with tempfile.TemporaryDirectory() as folder:
        told = f'crawlgate: journal: "{folder}/journal" has no room for the next file, which needs {len(base)} octets\n'
        same(on_a_small_disk(folder, {FIRST: first}, 16, "shift"), (3, told))


def no_room_to_end_the_last_file():
    """On a disk that is still full a start says how much room the last file's end needs, and in which folder. The file
    has no part of that end, and no torn line any more."""
    needs_a_disk()
    out = "".join(f"B 101 a{n}.example {n + 2}\nA 101 a{n}.example {n + 2} O unavailable\n" for n in range(200))
    out += "".join(f"G 101 {65536 + n} foobot http://a{n}.example/\n" for n in range(200))
    head = "V 2\nB 100 a.example 1\nA 101 a.example 1 R 86400 %23"
    ending = "".join(f"K {65536 + n}\n" for n in range(200))
    filler = 24_576 - len(head) - len("\n") - len(out)
    for torn in ("", "K 655"):
        whole = head + "x" * (filler - len(torn) - 100) + "\n" + out
        with tempfile.TemporaryDirectory() as folder:
            needs = f"has no room for the lines that end its last file, which need {len(ending)} octets"
            told = f'crawlgate: journal: "{folder}/journal" {needs}\n'
            if torn:
                removed_line = f"ends in a torn line, whose {len(torn)} octets are removed"
                told = f'crawlgate: journal: "{folder}/journal/{FIRST}" {removed_line}\n{told}'
            same(on_a_small_disk(folder, {FIRST: whole + torn}, 24, *SERVE), (3, told))
            with open(f"{folder}/left/{FIRST}") as file:
                same(file.read(), whole)


def a_folder_whose_name_begins_with_a_sign():
    """A plus sign is only one of a number: a folder's name may begin with it."""
    with tempfile.TemporaryDirectory() as folder:
        for words in (["--journal", "+j"], ["--journal=+j"]):
            ran = subprocess.run(
                [Server.program, "shift", *words], cwd=folder, input=b"", capture_output=True, timeout=SECONDS,
            )
            same((ran.returncode, ran.stderr), (0, b""))
        same(os.listdir(folder), ["+j"])


CASES = [
    a_folder_whose_name_begins_with_a_sign,
    a_folder_is_its_owners,
    links_in_a_folder,
    pipes_in_a_folder,
    a_file_before_the_last_is_a_link,
    what_is_left_of_a_start,
    a_folder_that_goes,
    a_seal_in_a_folder_that_was_replaced,
    no_room_for_the_next_file,
    no_room_to_end_the_last_file,
    names_that_are_not_a_journals,
    a_file_that_was_compressed,
]
