#!/usr/bin/env python3
"""What `xcfedit serve FILE` answers, line by line, by the rules of docs/SCRIPTS.md, apart from the engine.

    model_serve.py serve FILE [--lag N]

Each save is found to have ended at the N-th line behind it, or where it is waited for; with 0, as it is without --lag, right at
its start, as of a server that saves in place. The file is written in one step then. The statuses are those of the program, but for
faults of the devices and of memory.
"""

import argparse
import os
import sys

from xcf_edits import History, file_of, group_children
from xcf_filters import Chest
from xcf_picture import bytes_of, stack_row
from xcf_reading import Refused, read
from xcf_script import CALLS, DIGITS, SESSIONS, NotInGrammar, Session, number, read_line

MOST_LINE, MOST_WINDOW = 2**24, 16
# The last entries of a history are kept for saves.
MOST_ENTRIES, ROOM_FOR_SAVES = 2**20, 1024


def window_side(word):
    return number(word, 1, MOST_WINDOW)


# The lines of a talk, which are those of a script and two more.
TALK_CALLS = {
    **CALLS,
    "pixels": ((number, number, number), (number, number, number, window_side, window_side)),
    "wait": ((),),
}


class TooLong(Exception):
    """A line is longer than a line may be."""


def tile_bytes(doc, nodes, column, row):
    rows = range(64 * row, min(64 * row + 64, doc.height))
    return b"".join(bytes_of(stack_row(doc, nodes, y)[64 * column:64 * column + 64]) for y in rows)


def window_bytes(doc, nodes, column, row, columns, rows):
    across, down = (doc.width + 63) // 64, (doc.height + 63) // 64
    return b"".join(tile_bytes(doc, nodes, c, r) for r in range(row, min(row + rows, down)) for c in range(column, min(column + columns, across)))


class Talk:
    """A document, the sessions as they are read, what each has seen, the order of the calls, and the save that is out.

    `tell` is given the bytes of each answer, `keep` the bytes of each save. A save that is out is its call, its version, its document
    and the number of lines to its end.
    """

    def __init__(self, doc, tell, keep, lag=0):
        self.history, self.tell, self.keep, self.lag = History(doc), tell, keep, lag
        self.sessions, self.chests = [Session(4) for _ in range(SESSIONS)], [Chest() for _ in range(SESSIONS)]
        self.void, self.seen, self.count = set(), [0] * SESSIONS, [0] * SESSIONS
        self.order, self.out, self.lines = [], None, 0
        self.tell(b"ready %d %d %d\n" % (doc.width, doc.height, self.history.next_id))

    def say(self, form, *words):
        self.tell((form % words + "\n").encode())

    # ---- saves

    def end_save(self):
        if self.out is None:
            return
        call, version, doc, _ = self.out
        self.keep(file_of(doc))
        self.out = None
        self.order.append(call + "e")
        self.say("%s saved %d", call, version)

    def look_for_end(self):
        """The save that is out comes nearer to its end, and is told if it is there."""
        if self.out is not None:
            self.out[3] -= 1
            if self.out[3] <= 0:
                self.end_save()

    def save(self, session):
        self.end_save()
        call, version = self.next_call(session), self.history.version
        self.out = [call, version, self.history.doc, self.lag]
        self.say("%s saving %d", call, version)
        if self.lag == 0:
            self.end_save()

    # ---- calls

    def next_call(self, session):
        call = "%d.%d" % (session, self.count[session])
        self.count[session] += 1
        self.order.append(call)
        return call

    def has_room(self, what):
        entries, wanted = len(self.order), 2 if what == "save" else 1 + ROOM_FOR_SAVES
        return entries + (self.out is not None) + wanted <= MOST_ENTRIES

    def play(self, session, what, words):
        """A line of a session that is whole."""
        if what == "forget":
            self.chests[session].forget(*words)
            return
        if not self.has_room(what):
            self.say("%d full", session)
            return
        if what == "save":
            self.save(session)
        else:
            more = {"edit": (self.chests[session],), "peek": (self.seen[session],)}.get(what, ())
            self.say("%s %s", self.next_call(session), getattr(self.history, what)(*words, *more))
        self.seen[session] = self.history.version

    def pixels(self, session, node, column, row, columns=1, rows=1):
        refusal = self.history.not_there(node, column, row)
        if refusal is not None:
            self.say("%d %s", session, refusal)
            return
        doc = self.history.doc
        data = window_bytes(doc, group_children(doc, node), column, row, columns, rows)
        self.tell(b"%d pixels %d %d\n%s\n" % (session, self.history.version, len(data), data))

    # ---- lines

    def refuse(self, line):
        """A bad line. The group that is open in its session is void, and in all where it names none."""
        name = line.split(b" ")[0]
        hit = [DIGITS.index(name)] if name in DIGITS else range(SESSIONS)
        self.void |= {session for session in hit if self.sessions[session].open is not None}
        self.say("bad line %d", self.lines)

    def take_call(self, session, keyword, words):
        state = self.sessions[session]
        if keyword == "end" and state.open is not None and (session in self.void or not state.edits):
            # The group is dropped. That is no bad line of others.
            state.open, state.edits = None, []
            self.void.discard(session)
            self.say("bad line %d", self.lines)
            return
        state.take(keyword, words, self.lines)
        items, state.items = state.items, []
        for what, given in items:
            self.play(session, what, given)

    def take(self, line):
        """A line of the input."""
        self.lines += 1
        if len(line) > MOST_LINE:
            raise TooLong
        self.look_for_end()
        if line == b"" or line[:1] == b"#":
            return
        try:
            session, keyword, words = read_line(line, TALK_CALLS)
            if keyword == "wait":
                self.end_save()
                self.say("%d idle", session)
            elif keyword == "pixels":
                self.pixels(session, *words)
            else:
                self.take_call(session, keyword, words)
        except NotInGrammar:
            self.refuse(line)

    def close(self):
        """The end of the input."""
        self.end_save()
        self.say(" ".join(["order"] + self.order))

    def break_off(self):
        """The end by a line that is too long."""
        self.end_save()
        self.say("bad line %d", self.lines)


def answered(doc, lines, lag=0):
    """All that is told of some lines and the end of the input, and the files that were saved."""
    told, kept = [], []
    talk = Talk(doc, told.append, kept.append, lag)
    for line in lines:
        talk.take(line)
    talk.close()
    return b"".join(told), kept


# ---- a process

def tell_all(data):
    while data:
        data = data[os.write(1, data):]


def lines_of(descriptor):
    """The lines as they come, and a last one that lacks its newline. Of one that is too long the front is enough."""
    ahead = b""
    while len(ahead) <= MOST_LINE:
        piece = os.read(descriptor, 65536)
        if not piece:
            break
        *lines, ahead = (ahead + piece).split(b"\n")
        yield from lines
    if ahead:
        yield ahead


def replace(name, data):
    with open(name + ".draft", "wb") as draft:
        draft.write(data)
    os.replace(name + ".draft", name)


def serve(name, lag):
    try:
        with open(name, "rb") as file:
            doc = read(file.read())
    except Refused as refused:
        tell_all((refused.line() + "\n").encode())
        return 4
    except OSError:
        tell_all(b"shelf fault\n")
        return 6
    talk = Talk(doc, tell_all, lambda data: replace(name, data), lag)
    try:
        for line in lines_of(0):
            talk.take(line)
        talk.close()
    except TooLong:
        talk.break_off()
        return 3
    return 0


class Parser(argparse.ArgumentParser):
    """Words that are no command have the line and the status of the program."""

    def error(self, message):
        tell_all(b"usage\n")
        self.exit(2, message + "\n")


def main():
    parser = Parser(description=__doc__, formatter_class=argparse.RawDescriptionHelpFormatter)
    parser.add_argument("command", choices=["serve"])
    parser.add_argument("file", metavar="FILE")
    parser.add_argument("--lag", type=int, default=0, metavar="N")
    given = parser.parse_args()
    try:
        return serve(given.file, given.lag)
    except BrokenPipeError:
        return 7


if __name__ == "__main__":
    sys.exit(main())
