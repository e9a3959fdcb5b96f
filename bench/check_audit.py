#!/usr/bin/env python3
"""Shows that the auditor of xcf_audit.py accepts right runs and refuses wrong ones. It needs no program.

    check_audit.py [--runs N] [--seed S]

First come small texts that were written by hand, each with what the auditor must find. Then random scripts of several sessions
are played by the model in a random order of calls, with any reply to a peek that is allowed: each such run must be accepted, and
refused once it is damaged in one place, in each of some ways. The exit status is 1 where the auditor is wrong.
"""

import argparse
import random
import re
import sys
from collections import Counter

from audit_cases import CASES, ONE
from audit_runs import CORPUS, documents_of, random_script
from xcf_audit import NUMBER, refusal_of
from xcf_edits import History, file_of, group_children
from xcf_filters import Chest
from xcf_reading import read
from xcf_script import SESSIONS, parse


class Table:
    """Sessions of a script that are played in a random order, and what is printed of them."""

    def __init__(self, draw, doc, sessions):
        self.draw, self.history, self.words, self.out, self.saved = draw, History(doc), [], None, None
        self.items, self.lines = [list(items) for items in sessions], [[] for _ in sessions]
        self.chests, self.seen, self.bounds = [Chest() for _ in sessions], [0] * SESSIONS, {}

    def may_play(self, number):
        """Whether a session has a call that can be made now: that of a save that is out has to end it first."""
        items = self.items[number]
        if self.out is not None:
            return self.out[0] == number or bool(items) and items[0][0] != "save"
        return bool(items)

    def peeked(self, number, words):
        """Any reply that is allowed."""
        history, seen, kept = self.history, self.seen[number], self.history.kept(*words)
        least = max(seen, -1 if kept is None else kept)
        versions = range(least, history.version + 1)
        late = [version for version in versions if group_children(history.docs[version], words[0]) is not None]
        old = ([] if kept is not None else ["none"]) + list(range(0 if kept is None else kept, seen))
        self.bounds["%d.%d" % (number, len(self.lines[number]))] = least, words
        if old and (not late or self.draw.random() < 0.5):
            return "stale %s %d" % (self.draw.choice(old), seen)
        return history.shows(self.draw.choice(late), *words)

    def reply(self, number, what, words):
        if what == "peek":
            return self.history.not_there(*words) or self.peeked(number, words)
        if what == "save":
            self.out = number, len(self.lines[number]), self.history.version
            return "saved %d" % self.history.version
        return getattr(self.history, what)(*words, *([self.chests[number]] if what == "edit" else []))

    def play_call(self, number):
        what, words = self.items[number].pop(0)
        if what == "forget":
            return self.chests[number].forget(*words)
        self.words.append("%d.%d" % (number, len(self.lines[number])))
        self.lines[number].append(self.reply(number, what, words))
        self.seen[number] = self.history.version

    def end_save(self):
        number, index, self.saved = self.out
        self.words.append("%d.%de" % (number, index))
        self.seen[number], self.out = self.history.version, None

    def play(self):
        """Sessions get runs of calls, so that there are few changes between them and many."""
        part = self.draw.random()
        number = 0
        while ready := [each for each in range(SESSIONS) if self.may_play(each)]:
            if number not in ready or self.draw.random() < part:
                number = self.draw.choice(ready)
            if self.out is not None and self.out[0] == number:
                self.end_save()
            else:
                self.play_call(number)

    def all_lines(self):
        return ["%d.%d %s" % (number, index, reply) for number, lines in enumerate(self.lines) for index, reply in enumerate(lines)]


def text_of(lines, words):
    return "".join(line + "\n" for line in lines) + " ".join(["order"] + words) + "\n"


# Damages. Each gives the lines and the words with one thing wrong, or none where the run has nothing that can be so wrong.

def with_line(lines, at, line):
    return lines[:at] + [line] + lines[at + 1:]


def pick(draw, lines, form):
    """The place of a line of a form, and how it was found there."""
    found = [(at, match) for at, line in enumerate(lines) for match in [re.fullmatch(form, line)] if match]
    return draw.choice(found) if found else None


def altered(form, change):
    """A damage of one group of a line's form."""
    def damage(table, draw):
        lines, found = table.all_lines(), pick(draw, table.all_lines(), form)
        if found is None:
            return None
        at, match = found
        return with_line(lines, at, match[1] + change(match[2]) + match[3]), table.words
    return damage


def one_more(text):
    return str(int(text) + 1)


def other_digit(text):
    return "1" if text == "0" else "0"


def without(table, name):
    """The run without a call: neither its line nor its words are there."""
    lines = [line for line in table.all_lines() if line.split(" ")[0] != name]
    return lines, [word for word in table.words if word.rstrip("e") != name]


def call_dropped(table, draw):
    return without(table, draw.choice(table.all_lines()).split(" ")[0])


def last_call_dropped(table, draw):
    """The last call of a session: what is left is a run of a shorter script."""
    number = draw.choice([number for number in range(SESSIONS) if table.lines[number]])
    return without(table, "%d.%d" % (number, len(table.lines[number]) - 1))


def line_dropped(table, draw):
    lines = table.all_lines()
    at = draw.randrange(len(lines))
    return lines[:at] + lines[at + 1:], table.words


def line_twice(table, draw):
    lines = table.all_lines()
    at = draw.randrange(len(lines))
    return lines[:at + 1] + lines[at:], table.words


def word_dropped(table, draw):
    at = draw.randrange(len(table.words))
    return table.all_lines(), table.words[:at] + table.words[at + 1:]


def word_twice(table, draw):
    at, to = draw.randrange(len(table.words)), draw.randrange(len(table.words) + 1)
    return table.all_lines(), table.words[:to] + [table.words[at]] + table.words[to:]


def swapped(words, one, two):
    words = list(words)
    words[one], words[two] = words[two], words[one]
    return words


def session_out_of_order(table, draw):
    """Two calls of one session change their places."""
    calls = [(at, word) for at, word in enumerate(table.words) if word[-1] != "e"]
    places = [[at for at, word in calls if word[0] == "%d" % number] for number in range(SESSIONS)]
    places = [each for each in places if len(each) > 1]
    if not places:
        return None
    return table.all_lines(), swapped(table.words, *draw.sample(draw.choice(places), 2))


def edits_swapped(table, draw):
    """Two calls next to each other that both made a version change their places."""
    lines = dict(line.split(" ", 1) for line in table.all_lines())
    made = [lines.get(word, "").startswith("changed") for word in table.words]
    places = [at for at in range(len(made) - 1) if made[at] and made[at + 1]]
    if not places:
        return None
    at = draw.choice(places)
    return table.all_lines(), swapped(table.words, at, at + 1)


def saves_crossed(table, draw):
    """The end of a save comes after the start of the next one."""
    ends = [at for at, word in enumerate(table.words) if word[-1] == "e"]
    starts = [table.words.index(table.words[at][:-1]) for at in ends]
    pairs = list(zip(ends, starts[1:]))
    if not pairs:
        return None
    end, start = draw.choice(pairs)
    return table.all_lines(), table.words[:end] + table.words[end + 1:start + 1] + [table.words[end]] + table.words[start + 1:]


def ended_before(table, draw):
    """The end of a save comes before its start."""
    ends = [at for at, word in enumerate(table.words) if word[-1] == "e"]
    if not ends:
        return None
    end = draw.choice(ends)
    return table.all_lines(), swapped(table.words, end, table.words.index(table.words[end][:-1]))


def too_old(table, draw):
    """A peek shows a version before the least that is allowed, as it was then."""
    names = [name for name, (least, words) in table.bounds.items()
             if least > 0 and group_children(table.history.docs[least - 1], words[0]) is not None]
    if not names:
        return None
    lines, name = table.all_lines(), draw.choice(names)
    at = next(at for at, line in enumerate(lines) if line.startswith(name + " "))
    least, words = table.bounds[name]
    return with_line(lines, at, "%s %s" % (name, table.history.shows(least - 1, *words))), table.words


def unlike(table, draw):
    """A tile's digest is that of another version, which looks otherwise."""
    lines = table.all_lines()
    shown = {line.split(" ")[-1] for line in lines if " tile " in line}
    found = pick(draw, lines, "(.* tile %s )([0-9a-f]{64})()" % NUMBER)
    if found is None or len(shown) < 2:
        return None
    at, match = found
    return with_line(lines, at, match[1] + draw.choice(sorted(shown - {match[2]}))), table.words


DAMAGES = {
    "a digit of a digest": altered("(.* tile %s [0-9a-f]*)([0-9a-f])([0-9a-f]*)" % NUMBER, other_digit),
    "the digest of another tile": unlike,
    "a peek that is too old": too_old,
    "the version of a change": altered("(.* changed )(%s)( .*)" % NUMBER, one_more),
    "the group of a change": altered("(.* changed %s )(%s)( .*)" % (NUMBER, NUMBER), one_more),
    "the next id": altered("(.* changed %s %s )(%s)()" % (NUMBER, NUMBER, NUMBER), one_more),
    "the cause of a refusal": altered("(.* refused %s )(%s)(.*)" % (NUMBER, NUMBER), one_more),
    "the latest version": altered("(.* (?:moved|top none|top %s) )(%s)()" % (NUMBER, NUMBER), one_more),
    "what a peek had seen": altered("(.* stale (?:none|%s) )(%s)()" % (NUMBER, NUMBER), one_more),
    "the version of a save": altered("(.* saved )(%s)()" % NUMBER, one_more),
    "a call dropped": call_dropped,
    "the last call of a session dropped": last_call_dropped,
    "a line dropped": line_dropped,
    "a line twice": line_twice,
    "a word dropped": word_dropped,
    "a word twice": word_twice,
    "a session out of its order": session_out_of_order,
    "two edits swapped": edits_swapped,
    "two saves that cross": saves_crossed,
    "a save that ends before it starts": ended_before,
}


class Tally:
    def __init__(self):
        self.right, self.wrong = Counter(), 0

    def count(self, what, is_right, told):
        self.right[what] += is_right
        if not is_right:
            self.wrong += 1
            print("WRONG, %s: %s" % (what, told))


def by_hand(tally):
    doc = read(ONE)
    for name, script, text, left, status, wanted in CASES:
        found = refusal_of(ONE, doc, script.encode(), text, left, status)
        is_right = found is None if wanted is None else found is not None and wanted in found
        tally.count("by hand", is_right, "%s: %s, not %s" % (name, found, wanted))


def check_files(tally, draw, table, data, run):
    """The file has to be that of the last acknowledged save, and no other one."""
    history, (old, doc, script, text) = table.history, run
    left = data if table.saved is None else file_of(history.docs[table.saved])
    others = [file_of(each) for each in draw.sample(history.docs, min(2, len(history.docs)))] + [data]
    tally.count("accepted", refusal_of(*run, left, 0) is None, refusal_of(*run, left, 0))
    for other in others:
        if other != left:
            tally.count("another file", refusal_of(*run, other, 0) is not None, script)


def damaged_run(tally, draw, table, run):
    old, doc, script, text = run
    for what, damage in DAMAGES.items():
        found = damage(table, draw)
        if found is None or text_of(*found) == text:
            continue
        wrong = text_of(*found)
        tally.count(what, refusal_of(old, doc, script, wrong) is not None, (script, wrong))


def random_run(tally, seed, number):
    draw = random.Random("%d %d" % (seed, number))
    data, doc = draw.choice(documents_of(CORPUS))
    script = random_script(draw, doc, 12)
    table = Table(draw, doc, parse(script))
    table.play()
    run = data, doc, script, text_of(table.all_lines(), table.words)
    check_files(tally, draw, table, data, run)
    damaged_run(tally, draw, table, run)


def main():
    parser = argparse.ArgumentParser(description=__doc__, formatter_class=argparse.RawDescriptionHelpFormatter)
    parser.add_argument("--runs", type=int, default=100, metavar="N")
    parser.add_argument("--seed", type=int, default=1, metavar="S")
    given = parser.parse_args()
    tally = Tally()
    by_hand(tally)
    for number in range(given.runs):
        random_run(tally, given.seed, number)
    for what, count in tally.right.items():
        print("%6d %s" % (count, what))
    print("%d as they must be, %d wrong" % (sum(tally.right.values()), tally.wrong))
    return 1 if tally.wrong else 0


if __name__ == "__main__":
    sys.exit(main())
