"""Whether a printed run is one that the rules of docs/SCRIPTS.md allow.

The order line is replayed, word by word, over a model that keeps nothing: each reply has to be the model's at that place, and a
tile's digest that of a whole recomposition at the version that it names. A peek has a choice: any version at which its stack is
there, and that is as late as what its session has seen and as what the last tile call keeps. A save takes effect twice, at its
start and at its end, and none starts while another one is out.
"""

import re
from collections import Counter

from xcf_edits import History, file_of, group_children
from xcf_filters import Chest
from xcf_script import SESSIONS, parse

NUMBER = "(?:0|[1-9][0-9]*)"
LINE = re.compile("([0-7])[.](%s) (.*)" % NUMBER)
WORD = re.compile("([0-7])[.](%s)(e?)" % NUMBER)
TILE = re.compile("tile (%s) [0-9a-f]{64}" % NUMBER)
STALE = re.compile("stale (none|%s) (%s)" % (NUMBER, NUMBER))
SAVED = re.compile("(saved|save fault) (%s)" % NUMBER)


class Refused(Exception):
    pass


def want(held, why, *words):
    if not held:
        raise Refused(why % words)


def replies_of(lines, counts):
    """The replies of each session, where its lines stand together, in the order of the sessions, one for each call."""
    replies, last = [[] for _ in range(SESSIONS)], 0
    for line in lines:
        found = LINE.fullmatch(line)
        want(found, "no line of a session: %s", line)
        session = int(found[1])
        want(session >= last and int(found[2]) == len(replies[session]), "not the next line: %s", line)
        replies[session].append(found[3])
        last = session
    for session, count in enumerate(counts):
        want(len(replies[session]) == count, "session %d has %d lines for %d calls", session, len(replies[session]), count)
    return replies


def printed(text, sessions):
    """The replies of each session and the words of the order."""
    lines = text.split("\n")
    want(len(lines) > 1 and lines[-1] == "", "the text does not end with a line")
    head, *words = lines[-2].split(" ")
    want(head == "order", "no order line")
    counts = [sum(what != "forget" for what, _ in items) for items in sessions]
    return replies_of(lines[:-2], counts), words


def is_merged(words):
    """Whether the order has a call of a session between two of another one."""
    numbers = [word.split(".")[0] for word in words]
    changes = sum(one != two for one, two in zip(numbers, numbers[1:]))
    return changes >= len(set(numbers)) > 0


class Session:
    """The calls that are still to come, all replies, the filters, how many calls were made, and the version after the last."""

    def __init__(self, items, replies):
        self.items, self.replies = iter(items), replies
        self.chest, self.made, self.seen = Chest(), 0, 0

    def next_call(self):
        """The next call and its reply. Filters that are dropped before it go."""
        for what, words in self.items:
            if what != "forget":
                self.made += 1
                return what, words, self.replies[self.made - 1]
            self.chest.forget(*words)
        raise Refused("a call more than the script has")


class Save:
    """A save that is out: which one, the place of its start in the order, its version, and whether it will be acknowledged."""

    def __init__(self, session, index, place, version, how):
        self.session, self.index, self.place, self.version, self.is_saved = session, index, place, version, how == "saved"


class Audit:
    """A history that is replayed. `names` are the versions of which the file may be; none stands for the file as it was."""

    def __init__(self, doc, sessions, replies):
        self.history, self.sessions = History(doc), [Session(*each) for each in zip(sessions, replies)]
        self.out, self.names, self.counts = None, [None], Counter()

    def check_tile(self, session, words, reply):
        """A peek that shows a tile, where there is such a stack and such a tile."""
        found, kept = TILE.fullmatch(reply), self.history.kept(*words)
        want(found, "no reply to a peek: %s", reply)
        version = int(found[1])
        want(version <= self.history.version, "a version that is not there yet: %s", reply)
        want(version >= session.seen, "older than version %d, which its session has seen: %s", session.seen, reply)
        want(kept is None or version >= kept, "older than version %s, which is kept: %s", kept, reply)
        want(group_children(self.history.docs[version], words[0]) is not None, "no stack at that version: %s", reply)
        plain = self.history.shows(version, *words)
        want(reply == plain, "%s, not %s", reply, plain)
        self.counts["later peeks"] += kept is None or version > kept

    def check_stale(self, session, words, have, seen, reply):
        kept = self.history.kept(*words)
        want(int(seen) == session.seen, "the session has seen version %d: %s", session.seen, reply)
        want(have == "none" or int(have) < session.seen, "late enough for version %d: %s", session.seen, reply)
        want(kept is None or have != "none" and int(have) >= kept, "older than version %s, which is kept: %s", kept, reply)
        self.counts["stale peeks"] += 1

    def check_peek(self, session, words, reply):
        self.counts["peeks"] += 1
        plain, stale = self.history.not_there(*words), STALE.fullmatch(reply)
        if plain is not None:
            want(reply == plain, "%s, not %s", reply, plain)
        elif stale:
            self.check_stale(session, words, stale[1], stale[2], reply)
        else:
            self.check_tile(session, words, reply)

    def check_start(self, number, index, place, reply):
        found = SAVED.fullmatch(reply)
        want(self.out is None, "two saves cross: %d.%d", number, index)
        want(found and int(found[2]) == self.history.version, "a save of version %d: %s", self.history.version, reply)
        self.out = Save(number, index, place, int(found[2]), found[1])

    def check_end(self, number, index, place):
        out = self.out
        want(out and (out.session, out.index) == (number, index), "an end of no save that is out: %d.%de", number, index)
        self.names = [out.version] if out.is_saved else self.names + [out.version]
        self.counts["saves"] += 1
        self.counts["saves beside calls"] += place > out.place + 1
        self.out = None

    def check_call(self, number, index, place):
        session = self.sessions[number]
        want(index == session.made, "not the next call of its session: %d.%d", number, index)
        what, words, reply = session.next_call()
        if what == "save":
            self.check_start(number, index, place, reply)
        elif what == "peek":
            self.check_peek(session, words, reply)
        else:
            more = (session.chest,) if what == "edit" else ()
            plain = getattr(self.history, what)(*words, *more)
            want(reply == plain, "%s, not %s", reply, plain)

    def check_word(self, place, word):
        found = WORD.fullmatch(word)
        want(found, "no word of an order: %s", word)
        number, index = int(found[1]), int(found[2])
        try:
            (self.check_end if found[3] else self.check_call)(number, index, place)
        except Refused as refused:
            raise Refused("at %s: %s" % (word, refused)) from None
        self.sessions[number].seen = self.history.version

    def replay(self, words):
        for place, word in enumerate(words):
            self.check_word(place, word)
        want(self.out is None, "a save without an end")
        for number, session in enumerate(self.sessions):
            want(session.made == len(session.replies), "a call without its word: %d.%d", number, session.made)
        self.counts["calls"] += sum(session.made for session in self.sessions)
        self.counts["merged"] += is_merged(words)

    def may_leave(self, old, left):
        return any(left == (old if name is None else file_of(self.history.docs[name])) for name in self.names)


def audited(old, doc, script, text, left=None, status=None):
    """What there was in a run, counted, or `Refused`. `old` is the file with the document, `left` the file afterwards."""
    want(status in (None, 0, 6), "status %s", status)
    sessions = parse(script)
    replies, words = printed(text, sessions)
    audit = Audit(doc, sessions, replies)
    audit.replay(words)
    is_faulty = any(reply.startswith("save fault") for each in replies for reply in each)
    want(status in (None, 6 if is_faulty else 0), "status %s", status)
    want(left is None or audit.may_leave(old, left), "the file is not that of the last acknowledged save")
    return audit.counts


def refusal_of(*run):
    """Why a run is refused, or none."""
    try:
        audited(*run)
    except Refused as refused:
        return str(refused)
    return None
