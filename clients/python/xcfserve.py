"""A client of `xcfedit serve`: a document that is edited live, from Python.

    from xcfserve import Talk

    with Talk("photo.xcf") as talk:
        talk.edit("opacity", 3, 128)          # Changed(version=1, group=1, next_id=9)
        window = talk.pixels(0, 0, 4, 4)      # the image's tiles from column 0 and row 0 on, four by four
        window.rows()                         # their picture: RGBA bytes
        talk.save()                           # 1, the version that is saved
        talk.wait()                           # and now it is

It is one file, and needs Python 3.8, Linux, and the program `xcfedit`, which it starts as another process. What is sent and what
is answered are the lines of docs/SCRIPTS.md.

An answer is a value. A call that did nothing raises `Refused`, a line that fits no rule `BadLine`, a save that failed
`SaveFailed`, and the end of the program `Stopped`: each is a `TalkError`.

Eight sessions, 0 to 7, share the document. Each has its own numbers of calls, its filters, and what it has seen; each method takes
`session`. Several threads may share a talk: a call with its answer is one step.

No method waits for the program to read while the program waits to be read: both pipes are moved beside each other, whatever is
sent. Where no byte moves for `patience` seconds, if these are given, the program is killed and `TimeoutError` raised.

Only saves change the file. Where this process ends without `close`, the program finds the end of its input and ends too.
"""

import os
import re
import select
import subprocess
import threading
from collections import namedtuple
from contextlib import suppress

__all__ = ["Talk", "Changed", "Top", "Tile", "Window", "Saved", "TalkError", "Refused", "BadLine", "SaveFailed", "Stopped", "as_edit"]

SESSIONS, SIDE, MOST_LINE, MOST_NUMBER = 8, 64, 2**24, 2**32 - 1
# What is no edit, and may not stand in a group.
NO_EDITS = ("begin", "end", "undo", "redo", "top", "save", "tile", "peek", "forget", "pixels", "wait")
# Lines that have no answer.
SILENT = ("begin", "forget")

ENDED = re.compile(r"([0-7])\.(\d+) (saved|save fault|save memory) (\d+)")
CALL = re.compile(r"([0-7])\.(\d+) (.*)")
SHORT = re.compile(r"[0-7] (.*)")
BAD = re.compile(r"bad line (\d+)")


# ---- answers

# The version that a group of edits, an undo or a redo made; the number of the group; the id that the next new node gets.
Changed = namedtuple("Changed", "version group next_id")
# The number of the group that an undo would undo, or None, and the latest version.
Top = namedtuple("Top", "group version")
# The version that a tile shows, and the SHA-256 of its RGBA bytes in hexadecimal digits.
Tile = namedtuple("Tile", "version digest")
# A save that has ended: its session, its number among the session's calls, and the version that it was of.
Saved = namedtuple("Saved", "session index version")


class Window(namedtuple("Window", "version x y width height data")):
    """Pixels of a version: a rectangle of the canvas, and its RGBA bytes, not premultiplied, tile by tile as they were sent."""

    __slots__ = ()

    def tiles(self):
        """Each tile: its x, y, width and height on the canvas, and its bytes, row by row."""
        at = 0
        for y in range(0, self.height, SIDE):
            for x in range(0, self.width, SIDE):
                width, height = min(SIDE, self.width - x), min(SIDE, self.height - y)
                yield self.x + x, self.y + y, width, height, self.data[at:at + 4 * width * height]
                at += 4 * width * height

    def rows(self):
        """The bytes of the whole rectangle, row by row."""
        out = bytearray(len(self.data))
        for x, y, width, height, data in self.tiles():
            for row in range(height):
                start = 4 * ((y - self.y + row) * self.width + x - self.x)
                out[start:start + 4 * width] = data[4 * width * row:4 * width * (row + 1)]
        return bytes(out)


# ---- errors

class TalkError(Exception):
    """What went wrong in a talk."""


class Refused(TalkError):
    """A call that did nothing. `reply` has its words, as docs/SCRIPTS.md lists them, and `numbers` the numbers among them."""

    def __init__(self, reply):
        super().__init__(reply)
        self.reply, self.numbers = reply, [int(word) for word in reply.split(" ") if word.isdigit()]


class BadLine(TalkError):
    """A line that fits no rule, and its number, from 1. It changed nothing, and of a group nothing is made."""

    def __init__(self, number, line):
        super().__init__("bad line %d: %s" % (number, line if len(line) <= 80 else line[:80] + ".."))
        self.number, self.line = number, line


class SaveFailed(TalkError):
    """A save that failed: the file is as the save before it left it, or that save's version whole. `save` tells which it was."""

    def __init__(self, save, words):
        super().__init__("call %d of session %d: %s %d" % (save.index, save.session, words, save.version))
        self.save = save


class Stopped(TalkError):
    """The program has ended: its last line, its status, and its sentence on standard error."""

    def __init__(self, line, status, sentence):
        super().__init__(sentence or line or "the program has ended with status %d" % status)
        self.line, self.status, self.sentence = line, status, sentence


# ---- lines

def word_of(value):
    """A number in decimal digits, truth as 1 or 0, bytes in hexadecimal digits, and a text as those of its UTF-8."""
    if isinstance(value, int):
        return "%d" % value
    data = value.encode() if isinstance(value, str) else bytes(value)
    return data.hex() or "-"


def line_of(words):
    """A line without its session: one text as it stands, or a keyword and what it takes."""
    if not words or not isinstance(words[0], str):
        raise ValueError("a line begins with a keyword")
    return words[0] if len(words) == 1 else " ".join([words[0]] + [word_of(word) for word in words[1:]])


def edit_of(words):
    """The line of an edit: a text, or a list of a keyword and what it takes."""
    line = line_of((words,) if isinstance(words, str) else tuple(words))
    if line.split(" ")[0] in NO_EDITS:
        raise ValueError("%s is no edit" % line.split(" ")[0])
    return line


def asked(item):
    """The lines of an item of `many`: one, or a group from its `begin` to its `end`."""
    lines = [item] if isinstance(item, str) else list(item)
    if not isinstance(item, str):
        begin, end = lines[0].split(" "), lines[-1].split(" ")
        if begin[1:2] != ["begin"] or end[1:] != ["end"] or end[0] != begin[0] or len(lines) < 3:
            raise ValueError("a group is its begin, its edits and its end")
        number_of(*[int(word) for word in begin[2:]])
        for line in lines[1:-1]:
            if line[:2] != begin[0] + " ":
                raise ValueError("a group has lines of one session")
            edit_of(line[2:])
    elif item[:1] not in "01234567" or item[1:2] != " " or item.split(" ")[1] in SILENT:
        raise ValueError("a line of a session that has an answer is wanted")
    return lines


def number_of(*numbers):
    """Numbers that a line may have."""
    for number in numbers:
        if not 0 <= number <= MOST_NUMBER:
            raise ValueError("a number is 0 to %d" % MOST_NUMBER)
    return " ".join("%d" % number for number in numbers)


def session_of(session):
    if session not in range(SESSIONS):
        raise ValueError("a session is 0 to %d" % (SESSIONS - 1))
    return "%d" % session


# ---- talks

class Talk:
    """A document that is edited live. `width` and `height` are the sides of its canvas, `next_id` the id that the next new node
    gets."""

    def __init__(self, file, program="xcfedit", patience=None, record=False):
        """Serves a file. `program` is the name of the program, or the words that start it. With `record` the lines of both sides
        are kept, without the bytes of pixels, for `audit_input`."""
        file, words = os.fsdecode(file), [program] if isinstance(program, str) else list(program)
        self.lock, self.patience = threading.RLock(), patience
        self.sent, self.heard = ([], []) if record else (None, None)
        # The number of the last line, and how many answers have to come; bytes that were read and not used yet, and those that
        # are not sent yet.
        self.number, self.awaited, self.ahead, self.unsent = 0, 0, bytearray(), bytearray()
        # The saves that have ended since the last `wait`, the first that failed, and why the program has ended.
        self.saved, self.failed, self.stopped = [], None, None
        self.process = subprocess.Popen(words + ["serve", "./" + file if file.startswith("-") else file], bufsize=0,
                                        stdin=subprocess.PIPE, stdout=subprocess.PIPE, stderr=subprocess.PIPE)
        self.input, self.output = self.process.stdin.fileno(), self.process.stdout.fileno()
        os.set_blocking(self.input, False)
        first = self._line()
        if not first.startswith("ready "):
            raise self._end(first)
        self.width, self.height, self.next_id = map(int, first.split(" ")[1:])

    def __enter__(self):
        return self

    def __exit__(self, kind, *_):
        if kind is None:
            self.close()
        elif issubclass(kind, Exception):
            with suppress(TalkError):
                self.close()
        else:
            self.stop()

    # ---- calls

    def edit(self, *words, session=0):
        """An edit alone: `edit("fill", 8, 0, 0, 9, 9, b"\\xff\\0\\0")`, or `edit("fill 8 0 0 9 9 ff0000")`. Gives what it
        `Changed`."""
        return self._ask([edit_of(words)], session)

    def group(self, edits, guard=None, session=0):
        """Edits as one call, made whole or not at all, each a text or a list as of `edit`. With a guard it is made only where the
        latest version is that one. Gives what it `Changed`."""
        edits = [edit_of(words) for words in edits]
        if not edits:
            raise ValueError("a group has an edit")
        begin = "begin" if guard is None else "begin " + number_of(guard)
        return self._ask([begin] + edits + ["end"], session)

    def undo(self, group=None, session=0):
        """Undoes the last group that stands, whoever made it; with a number only if it is that one. Gives what it `Changed`."""
        return self._ask(["undo" if group is None else "undo " + number_of(group)], session)

    def redo(self, session=0):
        """Makes the last group again that was undone. Gives what it `Changed`."""
        return self._ask(["redo"], session)

    def top(self, session=0):
        """Which group an undo would undo, and the latest version, as a `Top`."""
        return self._ask(["top"], session)

    def tile(self, column, row, node=0, session=0):
        """The digest of a tile of the image, or of the picture of the group `node`, as a `Tile`."""
        return self._ask(["tile " + number_of(node, column, row)], session)

    def peek(self, column, row, node=0, session=0):
        """The same of the tile as it is kept: nothing is composed. Where none is kept that is late enough it is `Refused`."""
        return self._ask(["peek " + number_of(node, column, row)], session)

    def pixels(self, column, row, columns=1, rows=1, node=0, session=0):
        """The pixels of the latest version, as a `Window`: of one tile, or of 1 to 16 columns and rows of tiles from it on, as far
        as the canvas goes. This is no call: it has no number, and takes no room in the history."""
        return self._ask(["pixels " + number_of(node, column, row, columns, rows)], session)

    def picture(self, node=0, session=0):
        """The whole picture, row by row, and the version it shows. It is asked for in several windows."""
        with self.lock:
            out, version = bytearray(4 * self.width * self.height), None
            for y in range(0, self.height, 16 * SIDE):
                for x in range(0, self.width, 16 * SIDE):
                    window = self.pixels(x // SIDE, y // SIDE, 16, 16, node, session)
                    version, rows = window.version, window.rows()
                    for row in range(window.height):
                        at, part = 4 * ((y + row) * self.width + x), 4 * window.width
                        out[at:at + part] = rows[part * row:part * (row + 1)]
            return version, bytes(out)

    def forget(self, slot, session=0):
        """Drops a filter of the session."""
        return self._ask(["forget " + number_of(slot), "wait"], session)

    def save(self, session=0):
        """Starts a save, and gives the version that is saved. How it ends tells `wait`, or `close`."""
        return self._ask(["save"], session)

    def wait(self, session=0):
        """Waits until no save is out, and gives those that have ended since the last `wait`, each a `Saved`. If one of them failed
        it raises `SaveFailed`."""
        with self.lock:
            self._ask(["wait"], session)
            return self._saves()

    def call(self, line, session=0):
        """The answer to a line, which is given as it stands, without its session: `call("tile 0 1 1")`."""
        if line.split(" ")[0] in SILENT:
            raise ValueError("a line that has an answer is wanted")
        return self._ask([line], session)

    def many(self, items):
        """Sends lines without waiting for their answers, and gives these, in the order of the lines. An item is a line with its
        session, as "0 fill 8 0 0 9 9 ff0000", or a list of such lines from a `begin` to its `end`. An answer may be an error: it
        stands in its place, and is not raised."""
        with self.lock:
            items = [asked(item) for item in items]
            if not items:
                return []
            first = self.number + 1
            self._send([line for lines in items for line in lines], len(items))
            found = []
            for lines in items:
                first += len(lines)
                try:
                    found.append(self._answer(lines, first - 1))
                except (Refused, BadLine) as error:
                    found.append(error)
            return found

    def close(self):
        """Ends the talk, and gives the calls in their order, as the words of the order line. It raises `SaveFailed` for a save that
        failed and was not told yet, and `Stopped` if the program did not end well. Closed again, it does nothing."""
        with self.lock:
            if self.awaited and self.stopped is None:
                # A call was broken off, so what comes is its answer.
                self._end()
            if self.stopped is not None:
                return []
            while self.unsent:
                self._move()
            self.process.stdin.close()
            last = self._told()
            ended = self._end(last)
            if ended.status not in (0, 6) or not last.startswith("order"):
                raise ended
            self._saves()
            if ended.status:
                raise ended
            return last.split(" ")[1:]

    def stop(self):
        """Ends the program at once. The file is as the saves left it."""
        self.process.kill()
        self._end()

    def audit_input(self):
        """What the standard input of `xcfedit audit FILE` has to be, FILE being as it was before the talk: this talk, which was
        recorded and closed, as the script and the output of an `edit`."""
        script, output = as_edit(self.sent, self.heard)
        text = "".join(line + "\n" for line in script).encode()
        return b"script %d\n" % len(text) + text + "".join(line + "\n" for line in output).encode()

    # ---- answers

    def _ask(self, words, session):
        """The answer to the last of some lines, of which the others have none."""
        lines = ["%s %s" % (session_of(session), each) for each in words]
        with self.lock:
            self._send(lines, 1)
            return self._answer(lines, self.number)

    def _answer(self, lines, last):
        """The answer to the last of some lines, whose number this is. The others have none unless they are bad."""
        bad = None
        while True:
            line = self._told()
            found = BAD.fullmatch(line)
            if found is None:
                break
            number = int(found[1])
            bad = number if bad is None else bad
            if number == last:
                break
        value = None if found else self._value(line, lines[-1])
        self.awaited -= 1
        if bad is not None:
            raise BadLine(bad, lines[bad - last - 1])
        if isinstance(value, Refused):
            raise value
        return value

    def _told(self):
        """The next line that is no end of a save. These are kept for `wait`."""
        while True:
            line = self._line()
            end = ENDED.fullmatch(line)
            if end is None:
                return line
            save = Saved(int(end[1]), int(end[2]), int(end[4]))
            if end[3] == "saved":
                self.saved.append(save)
            elif self.failed is None:
                self.failed = SaveFailed(save, end[3])

    def _saves(self):
        saved, failed, self.saved, self.failed = self.saved, self.failed, [], None
        if failed is not None:
            raise failed
        return saved

    def _value(self, line, sent):
        """What an answer says, or that the call was `Refused`."""
        call, short = CALL.fullmatch(line), SHORT.fullmatch(line)
        if call is None and short is None:
            raise self._end(line)
        reply = call[3] if call else short[1]
        word, *rest = reply.split(" ")
        if word == "changed":
            changed = Changed(*map(int, rest))
            self.next_id = changed.next_id
            return changed
        if word == "tile":
            return Tile(int(rest[0]), rest[1])
        if word == "top":
            return Top(None if rest[0] == "none" else int(rest[0]), int(rest[1]))
        if word == "saving":
            return int(rest[0])
        if word == "pixels":
            return self._window(int(rest[0]), int(rest[1]), sent)
        if word == "idle":
            return None
        return Refused(reply)

    def _window(self, version, count, sent):
        column, row, columns, rows = (list(map(int, sent.split(" ")[3:])) + [1, 1])[:4]
        x, y = SIDE * column, SIDE * row
        return Window(version, x, y, min(SIDE * columns, self.width - x), min(SIDE * rows, self.height - y), self._bytes(count))

    # ---- bytes

    def _send(self, lines, answers):
        """Sends lines that have so many answers, as far as the pipe takes them at once."""
        if self.stopped is not None:
            raise self.stopped
        if self.awaited:
            self.stop()
            raise TalkError("an answer was not read, since a call before was broken off")
        data = [line.encode() for line in lines]
        if any(b"\n" in line or len(line) > MOST_LINE for line in data):
            raise ValueError("a line has no newline, and at most %d bytes" % MOST_LINE)
        if self.sent is not None:
            self.sent += lines
        self.number, self.awaited = self.number + len(lines), answers
        self.unsent += b"\n".join(data) + b"\n"
        self._write()

    def _write(self):
        try:
            del self.unsent[:os.write(self.input, self.unsent)]
        except BlockingIOError:
            pass
        except BrokenPipeError:
            # The program has ended. What it wrote can be read still.
            self.unsent.clear()

    def _move(self):
        """Moves bytes, whichever way they go: those that are not sent yet, or what is answered."""
        if self.patience is not None or self.unsent:
            ready = self._ready()
            if self.input in ready:
                self._write()
            if self.output not in ready:
                return
        piece = os.read(self.output, 1 << 20)
        if not piece:
            raise self._end(self.ahead.decode(errors="replace"))
        self.ahead += piece

    def _ready(self):
        """The pipes that can be moved."""
        poll = select.poll()
        poll.register(self.output, select.POLLIN)
        if self.unsent:
            poll.register(self.input, select.POLLOUT)
        ready = poll.poll(None if self.patience is None else 1000 * self.patience)
        if not ready:
            self.stop()
            raise TimeoutError("no answer in %s seconds" % self.patience)
        return [pipe for pipe, _ in ready]

    def _line(self):
        start = 0
        while True:
            at = self.ahead.find(b"\n", start)
            if at >= 0:
                break
            start = len(self.ahead)
            self._move()
        line = self.ahead[:at].decode()
        del self.ahead[:at + 1]
        if self.heard is not None:
            self.heard.append(line)
        return line

    def _bytes(self, count):
        """The bytes of a frame, behind which a newline stands."""
        while len(self.ahead) <= count:
            self._move()
        data = bytes(self.ahead[:count])
        del self.ahead[:count + 1]
        return data

    def _end(self, line=""):
        """Why the program has ended. It is waited for."""
        if self.stopped is None:
            self.process.stdin.close()
            while os.read(self.output, 1 << 20):
                pass
            sentence = self.process.stderr.read().decode(errors="replace").strip()
            self.stopped = Stopped(line, self.process.wait(), sentence)
            self.process.stdout.close()
            self.process.stderr.close()
        return self.stopped


# ---- a talk as an edit

def as_edit(sent, heard):
    """A talk as the script of an `edit` and its output: the lines that were sent and those that were heard, without bytes of pixels.

    Left out of the script are bad lines, requests, calls for which there was no room, and groups that were not made. The replies
    stand by sessions, a save's end in the place of its start."""
    bad = {int(found[1]) for found in map(BAD.fullmatch, heard) if found}
    ends = {"%s.%s" % (found[1], found[2]): "%s %s" % (found[3], found[4]) for found in map(ENDED.fullmatch, heard) if found}
    answers = (line for line in heard[1:] if not BAD.fullmatch(line) and not ENDED.fullmatch(line))
    script, output, groups = [], [[] for _ in range(SESSIONS)], {}
    for number, line in enumerate(sent, 1):
        session, word = (line.split(" ") + [""])[:2]
        if number in bad:
            if line == session + " end":
                groups.pop(session, None)
        elif line == "" or line.startswith("#"):
            continue
        elif word in ("pixels", "wait"):
            next(answers)
        elif word == "begin":
            groups[session] = [line]
        elif word == "forget":
            script.append(line)
        elif session in groups and word != "end":
            groups[session].append(line)
        else:
            lines, call = groups.pop(session, []) + [line], CALL.fullmatch(next(answers))
            if call is not None:
                name = "%s.%s" % (call[1], call[2])
                script += lines
                output[int(session)].append("%s %s" % (name, ends.get(name, call[3])))
    return script, [line for lines in output for line in lines] + [line for line in heard[-1:] if line.split(" ")[0] == "order"]
