"""The verdict on a printed run, by the rules of docs/SCRIPTS.md: `accepted`, `rejected 1` or `rejected 2 S.I`.

The shape comes first: a line with one of the texts of replies for each call, and an order line that is a merge of the calls. Then
the order is replayed as xcf_audit.py says, but a save's reply is looked at where its end stands.
"""

import re

from xcf_audit import NUMBER, SAVED, WORD, Audit, Refused, Save, want
from xcf_script import SESSIONS, parse

NUMBERS = re.compile(NUMBER)
# The texts of replies but refusals; N stands for a number of 32 bits.
TEXTS = ["changed N N N", "moved N", "nothing to undo", "nothing to redo", "not top N", "tile N D", "stale none N", "stale N N",
         "no stack N", "outside tile", "top none N", "top N N", "saved N", "save fault N"]
FORMS = [re.compile(text.replace("N", "(%s)" % NUMBER).replace("D", "[0-9a-f]{64}")) for text in TEXTS]
# Refusals with a value, and how many bits it has; and those without.
VALUES = {**dict.fromkeys((1, 2, 3, 4, 5, 10, 12, 13, 18, 19), 32), 14: 64}
PLAIN = {6, 7, 8, 9, 11, 15, 16, 17}


def is_number(text, bits=32):
    return bool(NUMBERS.fullmatch(text)) and int(text) < 1 << bits


def is_refusal(words):
    """An edit's number and a cause, with its value where it has one."""
    if len(words) not in (2, 3) or not all(NUMBERS.fullmatch(word) for word in words) or not is_number(words[0]):
        return False
    code = int(words[1])
    return code in PLAIN if len(words) == 2 else code in VALUES and is_number(words[2], VALUES[code])


def is_reply(text):
    if text.startswith("refused "):
        return is_refusal(text.split(" ")[1:])
    return any(found and all(is_number(each) for each in found.groups()) for form in FORMS for found in [form.fullmatch(text)])


def is_merge(words, calls):
    """Each call once, each session's in order, each save with one end behind its start, and no two saves that cross."""
    made, out = [0] * SESSIONS, None
    for word in words:
        found = WORD.fullmatch(word)
        if not found:
            return False
        session, index, is_end = int(found[1]), int(found[2]), bool(found[3])
        if is_end:
            if out != (session, index):
                return False
            out = None
            continue
        if index != made[session] or index >= len(calls[session]) or calls[session][index] == "save" and out:
            return False
        made[session] += 1
        if calls[session][index] == "save":
            out = session, index
    return out is None and made == [len(each) for each in calls]


def shaped(text, sessions):
    """The replies of each session and the words of the order, or none where the text has not the shape."""
    calls = [[what for what, _ in items if what != "forget"] for items in sessions]
    lines = text.split("\n")
    names = ["%d.%d " % (session, index) for session, each in enumerate(calls) for index in range(len(each))]
    if len(lines) != len(names) + 2 or lines[-1] != "":
        return None
    if not all(line.startswith(name) and is_reply(line[len(name):]) for line, name in zip(lines, names)):
        return None
    head, *words = lines[-2].split(" ")
    if head != "order" or not is_merge(words, calls):
        return None
    rest = iter(lines)
    return [[next(rest).split(" ", 1)[1] for _ in each] for each in calls], words


class Replay(Audit):
    """A replay that looks at a save's reply where its end stands."""

    def check_start(self, number, index, place, reply):
        self.out = Save(number, index, place, self.history.version, reply)

    def check_end(self, number, index, place):
        reply = self.sessions[number].replies[index]
        found = SAVED.fullmatch(reply)
        want(found and int(found[2]) == self.out.version, "a save of version %d: %s", self.out.version, reply)
        self.out = None


def verdict_of(doc, script, text):
    sessions = parse(script)
    said = shaped(text, sessions)
    if said is None:
        return "rejected 1"
    replies, words = said
    replay = Replay(doc, sessions, replies)
    for place, word in enumerate(words):
        try:
            replay.check_word(place, word)
        except Refused:
            return "rejected 2 " + word.rstrip("e")
    return "accepted"


# ---- texts with one thing changed

def with_word(draw, words):
    """The order with a word changed: two are exchanged, or one is dropped, repeated or another one."""
    words, at = list(words), draw.randrange(len(words))
    how = draw.randrange(4)
    if how == 0:
        other = min(at + 1, len(words) - 1)
        words[at], words[other] = words[other], words[at]
    elif how == 1:
        del words[at]
    elif how == 2:
        words.insert(at, words[at])
    else:
        words[at] = words[at][:-1] if words[at].endswith("e") else words[at] + "e"
    return words


def with_number(draw, line):
    """A line with one of its numbers, or a digit of its digest, changed."""
    digest = re.search("[0-9a-f]{64}", line)
    if digest and draw.random() < 0.5:
        at = digest.start() + draw.randrange(64)
        return line[:at] + draw.choice([each for each in "0123456789abcdef" if each != line[at]]) + line[at + 1:]
    places = [found for found in re.finditer("[0-9]+|none", line) if not digest or found.end() <= digest.start()]
    found = draw.choice(places)
    old = -1 if found[0] == "none" else int(found[0])
    new = draw.choice([old + 1, max(old - 1, 0), 0, old * 10 + 1, "none", "0%d" % max(old, 0)])
    return line[:found.start()] + str(new) + line[found.end():]


def changed(draw, text):
    """The text with a digest, a number or a word of the order changed."""
    *lines, order, _ = text.split("\n")
    head, *words = order.split(" ")
    if words and (not lines or draw.random() < 0.25):
        words = with_word(draw, words)
    elif lines:
        at = draw.randrange(len(lines))
        lines[at] = with_number(draw, lines[at])
    return "".join(line + "\n" for line in lines) + " ".join([head] + words) + "\n"
