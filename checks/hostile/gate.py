"""A gate in another language than the program's: it answers lines of `replay` by docs/FORMATS.md and docs/POLICY.md."""
import re

import pages
from lib.reading import TEXT_LIMIT, spelled
from auditor import DAY, GENERATION_LIMIT, NUMBER_LIMIT, History

LINE_LIMIT = 2_097_152
REDIRECTS = ("301", "302", "303", "307", "308")
WORDS = {"BEGIN": 1, "ASK": 2, "START": 3, "BACK": 1, "DONE": 1, "STATE": 1, "SWEEP": 0, "SEAL": 0, "QUIT": 0}
ANSWERS = {"R": "rules", "O": "open", "C": "closed"}


class Refusal(Exception):
    """A line that changes nothing."""

    def __init__(self, word):
        super().__init__(word)
        self.reply = f"ERR {word}"


def refuse_if(holds, word):
    if holds:
        raise Refusal(word)


def number(text, word="number"):
    refuse_if(not text.isdigit() or int(text) > NUMBER_LIMIT, word)
    return int(text)


def token(text):
    refuse_if(not re.fullmatch("[A-Za-z_-]{1,64}", text), "token")
    return text.lower()


def authority(text):
    try:
        return pages.authority_of(text)
    except pages.Refused:
        raise Refusal("authority")


def page(text):
    try:
        return pages.read(text)[1]
    except pages.Refused as refused:
        raise Refusal(f"url {refused.word}")


def leads(location):
    """Returns where a redirect of a page leads: 'on', to another 'scheme', or nowhere: 'redirect'."""
    if location == "-":
        return "redirect"
    if not re.match("[A-Za-z][A-Za-z0-9+.-]*:|[/\\\\]{2}", location):
        return "on"
    try:
        pages.read(location if location[0] not in "/\\" else f"http:{location}")
    except pages.Refused as refused:
        return "scheme" if refused.word == "scheme" else "redirect"
    if not re.match("(?i)http:[/\\\\]{2}|[/\\\\]{2}", location):
        raise pages.Untold(location)
    return "on"


def replies_of(words):
    """Returns the replies of a robots fetch: the status, the life and the second word of each."""
    for at in range(0, len(words), 2):
        status, slash, life = words[at].partition("/")
        is_good = status in ("NET", "CODING") and not slash or re.fullmatch("[1-9][0-9]{2}", status)
        is_good = is_good and (not slash or status[0] == "2" and life.isdigit() and int(life) <= NUMBER_LIMIT)
        refuse_if(not is_good, "status")
        second = words[at + 1] if at + 1 < len(words) else None
        refuse_if(second is None or second != "-" and status[0] != "2" and status not in REDIRECTS, "replies")
        yield status, int(life) if slash else None, second


def body_answer(life, word):
    body = b"" if word == "-" else pages.unescaped(word)
    if len(body) > TEXT_LIMIT:
        body = re.match(rb"(?s)(.*[\r\n])?", body[:TEXT_LIMIT])[0]
    life = DAY if life is None else min(max(life, 60), DAY)
    return life, f"R {life} {spelled(body)}"


def answer_of(words):
    """Returns the life of the answer to which these replies come, and its words."""
    replies, followed = list(replies_of(words)), 0
    refuse_if(not replies, "replies")
    for place, (status, life, second) in enumerate(replies, 1):
        if status in REDIRECTS:
            way = "redirects" if followed == 5 else leads(second)
            followed += 1
            if way == "on":
                continue
            answer = DAY, "O redirects" if way == "redirects" else f"C {way}"
        elif status[0] == "2":
            answer = body_answer(life, second)
        else:
            kinds = {"NET": "C network", "CODING": "C coding", "4": "O unavailable", "5": "C server"}
            answer = DAY, kinds.get(status, kinds.get(status[0], "C other"))
        refuse_if(place < len(replies), "replies")
        return answer
    raise Refusal("replies")


class Gate(History):
    """A session of `replay`, and the history that it makes."""

    def __init__(self, slots=1_024, generation=1, log=1_000_000, authorities=65_536, places=65_536):
        super().__init__()
        self.next = {slot: generation for slot in range(slots)}
        self.log, self.authorities, self.places = log, authorities, places
        self.lines, self.before, self.is_over = [], ["V 2"], False

    def reply(self, line):
        """Returns the lines of the reply to a line."""
        try:
            refuse_if(any(not 32 <= it <= 126 for it in line), "chars")
            words = line.decode().split(" ")
            refuse_if("" in words, "words")
            moment = max(number(words[0], "moment"), self.moment)
            verb, given = words[1] if words[1:] else "", words[2:]
            refuse_if(verb not in WORDS and verb != "ARRIVE", "verb")
            refuse_if(len(given) < 2 if verb == "ARRIVE" else len(given) != WORDS[verb], "words")
            said = getattr(self, verb.lower())(moment, *given)
            return said if isinstance(said, list) else [said]
        except Refusal as refusal:
            return [refusal.reply]

    def room(self):
        return len(self.lines) + len(self.turns) + 2 * len(self.unspent) + len(self.running)

    def enter(self, moment, line):
        self.entries += 1
        self.moment = moment
        self.lines.append(line)

    def begin(self, moment, site):
        site = authority(site)
        refuse_if(site in self.turns, "inflight")
        refuse_if(self.room() + 2 > self.log, "log")
        refuse_if(site not in self.answers and len({*self.answers, *self.turns}) >= self.authorities, "authorities")
        turn = self.begins + 1
        self.enter(moment, f"B {moment} {site} {turn}")
        super().begin(site, turn)
        return f"TURN {site} {turn}"

    def arrive(self, moment, site, turn, *words):
        site, turn = authority(site), number(turn)
        life, answer = answer_of(words)
        refuse_if(self.turns.get(site, (None, 0))[0] != turn, "stale")
        self.enter(moment, f"A {moment} {site} {turn} {answer}")
        super().arrive(site, life, answer)
        return f"TAKEN {site} {ANSWERS[answer[0]]}"

    def ask(self, moment, name, url):
        name, url = token(name), page(url)
        site = url.split("/")[2]
        refuse_if(self.room() + 3 > self.log, "log")
        is_allowed, why = self.ruling(name, url, moment)
        if not is_allowed:
            self.enter(moment, f"N {moment} {name} {url} {why}")
            return f"NO {site} {why}"
        out = [*self.unspent.items(), *self.running.items()]
        refuse_if(sum(it[1].split("/")[2] == site for _, it in out) >= self.places, "busy")
        taken = {it % 65_536 for it, _ in out}
        free = [it for it, generation in self.next.items() if it not in taken and generation <= GENERATION_LIMIT]
        refuse_if(not free, "permits")
        granted = self.next[free[0]] * 65_536 + free[0]
        self.next[free[0]] += 1
        self.enter(moment, f"G {moment} {granted} {name} {url}")
        self.grant(granted, name, url)
        return f"PERMIT {granted}"

    def start(self, moment, permit, name, url):
        permit, name, url = number(permit), token(name), page(url)
        if self.unspent.get(permit) != (name, url):
            return f"NO {url.split('/')[2]} spent"
        is_allowed, why = self.ruling(name, url, moment)
        self.enter(moment, f"{'S' if is_allowed else 'D'} {moment} {permit} {why}")
        if not is_allowed:
            del self.unspent[permit]
            return f"NO {url.split('/')[2]} {why}"
        super().start(permit)
        return f"GO {permit} {why}"

    def back(self, _, permit, out="unspent", letter="K", verb="BACK"):
        permit = number(permit)
        refuse_if(permit not in getattr(self, out), "notout")
        del getattr(self, out)[permit]
        self.enter(self.moment, f"{letter} {permit}")
        return f"{verb} {permit}"

    def done(self, moment, permit):
        return self.back(moment, permit, "running", "F", "DONE")

    def state(self, moment, site):
        site = authority(site)
        word = "unknown"
        if site in self.answers:
            word = "expired" if self.is_past(site, moment) else ANSWERS[self.answers[site][3][0]]
        return f"STATE {site} {word} {'fetching' if site in self.turns else 'idle'}"

    def sweep(self, moment):
        refuse_if(self.room() + 1 > self.log, "log")
        self.enter(moment, "")
        count = super().sweep()
        self.lines[-1] = f"W {moment} {count}"
        return f"SWEPT {count}"

    def text(self):
        """Returns the lines of the text of what was not sealed."""
        return [*self.before, *self.lines]

    def seal(self, _):
        text = self.text() if self.lines else []
        if self.lines:
            self.before, self.lines = ["V 3", *self.base()], []
        return [f"SEALED {len(text)}", *text]

    def quit(self, _):
        self.is_over = True
        return "BYE"
