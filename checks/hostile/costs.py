"""What the lines of a replay take over robots.txt files that are made to cost much."""
import re
import subprocess
import time

from lib.costly import PATHS, TEXTS
from lib.program import resident
from lib.reading import TEXT_LIMIT, spelled

# how long a line may take that is no ARRIVE, in milliseconds; what takes longer is measured again, since the machine
# may be busy
MOST, ATTEMPTS = 10, 3
# how many times as long it may take on this machine
slower = 1.0
WALKS = 16


class Conversation:
    """A replay over a pair of pipes, a line at a time."""

    def __init__(self, program, *words):
        self.process = subprocess.Popen([program, "replay", *words], stdin=subprocess.PIPE, stdout=subprocess.PIPE)
        self.said = []

    def __enter__(self):
        return self

    def __exit__(self, *_):
        self.process.kill()
        self.process.communicate()

    def say(self, line):
        """Returns the first line of the reply, and the milliseconds that it took of the program."""
        self.said.append(line)
        began = self.clock()
        self.process.stdin.write(line.encode() + b"\n")
        self.process.stdin.flush()
        reply = self.process.stdout.readline()
        took = self.clock() - began
        for _ in range(int(reply.split()[1]) if reply.startswith(b"SEALED ") else 0):
            self.process.stdout.readline()
        return reply.decode().rstrip("\n"), took

    def clock(self):
        """Returns the milliseconds that the program has had a processor for: what else the machine does counts little
        then. Where the system does not tell, those of a clock."""
        try:
            # (it is counted up when the program waits again)
            while self.told("stat").rpartition(")")[2].split()[0] == "R":
                pass
            return int(self.told("schedstat").split()[0]) / 1e6
        except OSError:
            return 1_000 * time.perf_counter()

    def told(self, name):
        with open(f"/proc/{self.process.pid}/{name}") as file:
            return file.read()

    def resident(self):
        return resident(self.process.pid)


def lines_over(text):
    """The lines of a session over a robots.txt: enough asks of each path for walks, for the index, and by it."""
    yield from ["1 BEGIN a.example", f"1 ARRIVE a.example 1 200 {spelled(text[:TEXT_LIMIT])}"]
    for path in PATHS * 4:
        yield f"2 ASK foobot http://a.example{path}"
    yield "2 STATE a.example"
    for path in PATHS:
        yield f"2 ASK barbot http://a.example{path}"
    yield from ["3 START {permit} {token} {url}", "3 DONE {permit}", "4 SEAL"]
    yield "86402 SWEEP"


def measure(program, text):
    """Returns the milliseconds of each line by its verb, the greatest; those of an ask by its number, too, and the
    memory."""
    most, asks, replies, permit = {}, [], [], {"permit": 1, "token": "foobot", "url": "http://a.example/"}
    with Conversation(program) as it:
        it.say("0 STATE a.example")
        before = it.resident()
        for line in lines_over(text):
            verb = line.split(" ")[1]
            for name, value in permit.items() if verb in ("START", "DONE") else ():
                line = line.replace(f"{{{name}}}", str(value))
            reply, took = it.say(line)
            replies.append(reply)
            if reply.startswith("PERMIT "):
                permit = {"permit": reply.split(" ")[1], "token": line.split(" ")[2], "url": line.split(" ")[3]}
            most[verb] = max(most.get(verb, 0), took)
            asks += [took] if verb == "ASK" else []
        return most, asks, it.resident() - before, replies, it.said


def try_costs(tried, only=None):
    """Sees to it that no line but an ARRIVE takes long, over each text."""
    for name, text in TEXTS.items():
        if only not in (None, name):
            continue
        for left in reversed(range(ATTEMPTS)):
            most, _, _, replies, said = measure(tried.program, text)
            slow = {verb: f"{took:.1f} ms" for verb, took in most.items() if took > slower * MOST and verb != "ARRIVE"}
            if not slow:
                break
        tried.count("costly texts")
        given = "".join(f"{it}\n" for it in said).encode()
        tried.expect(f"{name}: a line that takes long", given, not slow, str(slow), ["replay"])
        odd = [it for it in replies if not re.match("TURN|TAKEN|PERMIT|GO|NO|BACK|DONE|STATE|SEALED|SWEPT", it)]
        tried.expect(f"{name}: a reply", given, len(odd) <= 2, str(odd[:3]), ["replay"])


def print_costs(program):
    """Prints a table: what an arrival, a walk, the ask that makes an index, and an ask by it take, and the memory."""
    print("| robots.txt of 500,000 octets | `ARRIVE` | walk | with the index | by the index | memory |")
    print("|---|---|---|---|---|---|")
    for name, text in TEXTS.items():
        rounds = [measure(program, text) for _ in range(3)]
        arrive = min(it[0]["ARRIVE"] for it in rounds)
        walk = min(max(it[1][:WALKS]) for it in rounds)
        index = min(it[1][WALKS] for it in rounds)
        later = min(max(it[1][WALKS + 1 :]) for it in rounds)
        print(
            f"| {name} | {arrive:.1f} ms | {walk:.2f} ms | {index:.2f} ms | {later:.2f} ms | "
            f"{max(it[2] for it in rounds) / 1e6:.1f} MB |",
            flush=True,
        )
