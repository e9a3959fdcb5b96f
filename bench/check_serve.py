#!/usr/bin/env python3
"""Drives `xcfedit serve` through pipes, as another program would, and compares what it answers with the model of model_serve.py.

    check_serve.py --program BIN [--audit] [--talks N] [--seed S] [--first K] [--kills N] [--only NAME]..
    check_serve.py --model [--lag N] [--program BIN --audit] [the same]

With --model the model itself is driven in the place of the program. A line is sent when the answers to all lines before it have
come, each within some seconds, so an answer that is held back is found. Then come random talks of eight sessions with bad lines
and requests among their lines, sent in pieces of any length: the talks K to K + N - 1 (from 0, 50 of them) of a seed. With --audit
the program's own `audit` judges each talk, as the script and the output of an `edit`. The client of clients/python is tried too.
The exit status is 1 where something is not as it has to be; the talk is kept then, and told.
"""

import argparse
import hashlib
import os
import random
import re
import select
import shutil
import signal
import subprocess
import sys
import tempfile
import threading
import time

from audit_runs import CORPUS, documents_of, judged, random_script
from model_serve import MOST_LINE, Talk as Model, answered
from xcf_edits import run
from xcf_reading import read
from xcf_script import SESSIONS
from xcf_verdicts import verdict_of

HERE = os.path.dirname(os.path.abspath(__file__))
sys.path.insert(0, os.path.join(HERE, "..", "clients", "python"))
from xcfserve import BadLine, Refused, SaveFailed, Stopped, Talk, TalkError, as_edit  # noqa: E402

PHOTO = os.path.join(CORPUS, "groups-3.xcf")
PATIENCE = 60
ENDED = re.compile(rb"\d\.\d+ (?:saved|save fault|save memory) \d+\n")
FRAME = re.compile(rb"\d pixels \d+ (\d+)\n")
# Lines that are bad wherever they stand. The first ones name no session.
BAD_LINES = ["x", "8 top", "00 top", " 0 top", "0", "0 blur 1", "0 pixels 0 0", "0 pixels 0 0 0 17 1", "0 pixels 0 0 0 0 1",
             "0 pixels 0 0 0 1", "0 wait 1", "0  top", "0 top ", "0 opacity 3 256", "0 opacity 03 1", "0 tile 0 0", "0 begin x",
             "0 filter 8 0 0 1 1 4", "0 forget 4", "0 fill 8 0 0 1 1 f", "0 top\r", "0\ttop"]


class Wrong(Exception):
    """What is not as it has to be."""


def want(held, *what):
    if not held:
        raise Wrong(" ".join(map(str, what)))


class Wire:
    """The program and its two pipes: bytes are sent as they are, and pieces of the output are read within some seconds."""

    def __init__(self, words, **how):
        how = {"stdin": subprocess.PIPE, "stdout": subprocess.PIPE, "stderr": subprocess.PIPE, **how}
        self.process, self.ahead = subprocess.Popen(words, bufsize=0, **how), b""

    def __enter__(self):
        return self

    def __exit__(self, *_):
        if self.process.poll() is None:
            self.process.kill()
        self.process.wait()
        for pipe in (self.process.stdin, self.process.stdout, self.process.stderr):
            if pipe is not None:
                pipe.close()

    def send(self, data):
        while data:
            data = data[os.write(self.process.stdin.fileno(), data):]

    def more(self):
        """Whether more has come."""
        pipe = self.process.stdout.fileno()
        want(select.select([pipe], [], [], PATIENCE)[0], "no answer in", PATIENCE, "seconds; before it came", self.ahead[-200:])
        piece = os.read(pipe, 1 << 20)
        self.ahead += piece
        return piece != b""

    def piece(self):
        """The next line, with the bytes of its frame; nothing at the end of the output."""
        while b"\n" not in self.ahead:
            if not self.more():
                want(self.ahead == b"", "the output ends within a line", self.ahead)
                return b""
        count = self.ahead.index(b"\n") + 1
        frame = FRAME.fullmatch(self.ahead[:count])
        if frame:
            count += int(frame[1]) + 1
            while len(self.ahead) < count:
                want(self.more(), "the output ends within a frame")
            want(self.ahead[count - 1:count] == b"\n", "a frame ends in a newline")
        found, self.ahead = self.ahead[:count], self.ahead[count:]
        return found

    def rest(self):
        """All pieces to the end of the output, the input being ended."""
        self.process.stdin.close()
        return list(iter(self.piece, b""))

    def status(self):
        return self.process.wait(PATIENCE)


def pieces_of(told):
    """Lines and frames of what was told."""
    found = []
    while told:
        count = told.index(b"\n") + 1
        frame = FRAME.fullmatch(told[:count])
        count += int(frame[1]) + 1 if frame else 0
        found.append(told[:count])
        told = told[count:]
    return found


def bare(pieces):
    """The pieces without the ends of saves, whose place is not fixed; the order line too has none."""
    return [b" ".join(word for word in piece[:-1].split(b" ") if word[-1:] != b"e") + b"\n" if piece.startswith(b"order") else piece
            for piece in pieces if not ENDED.fullmatch(piece)]


def want_ends(pieces):
    """Each save is told to have ended once, before the next one starts, before `idle`, and before the order line."""
    out = None
    for piece in pieces:
        words = piece.split(b"\n")[0].split(b" ")
        if words[1:2] == [b"saving"] or words[1:] == [b"idle"] or words[0] == b"order":
            want(out is None, "a save is out where stands", words)
        if words[1:2] == [b"saving"]:
            out = words[0]
        elif ENDED.fullmatch(piece):
            want(words[0] == out, "the end of no save that is out:", words)
            out = None


class Check:
    """What is driven, and a folder for its files."""

    def __init__(self, given, folder):
        self.program = os.path.abspath(given.program) if given.program else None
        self.words = [sys.executable, os.path.join(HERE, "model_serve.py")] if given.model else [self.program]
        self.behind = ["--lag", str(given.lag)] if given.model else []
        self.audits, self.folder, self.passed, self.given = given.audit, folder, 0, given
        self.name = os.path.join(folder, "photo.xcf")
        with open(PHOTO, "rb") as source:
            self.old = source.read()

    def put(self, data=None):
        with open(self.name, "wb") as copy:
            copy.write(self.old if data is None else data)

    def content(self):
        with open(self.name, "rb") as file:
            return file.read()

    def wire(self, **how):
        return Wire(self.words + ["serve", self.name] + self.behind, **how)

    def talk(self, data=None):
        """A talk over a new copy of the file, by the client."""
        self.put(data)
        words = self.words
        if self.given.model and self.given.lag:
            # The client gives the words `serve FILE` last.
            words = ["sh", "-c", 'exec "$@" --lag %d' % self.given.lag, "sh"] + words
        return Talk(self.name, words, PATIENCE, record=True)

    # ---- a whole talk, as an edit

    def judge(self, data, sent, heard):
        """A talk that has ended is an edit: by the rules, and by the program's audit."""
        script, lines = as_edit(sent, heard)
        text, out = "".join(line + "\n" for line in script).encode(), "".join(line + "\n" for line in lines)
        want(verdict_of(read(data), text, out) == "accepted", "no edit:", script, lines)
        if self.audits:
            answer = judged(self.program, data, text, out)
            want(answer == ("accepted\n", 0), "audit:", answer, script, lines)

    def closes(self, talk):
        order = talk.close()
        want(talk.stopped.status == 0 and talk.stopped.sentence == "", "status", talk.stopped.status, talk.stopped.sentence)
        want(talk.heard[-1] == " ".join(["order"] + order), "the order line is the last")
        self.judge(self.old, talk.sent, talk.heard)
        return order

    def answers(self, lines):
        """Raw lines are answered as by the model."""
        self.put()
        expected, kept = answered(read(self.old), lines)
        with self.wire() as wire:
            wire.send(b"".join(line + b"\n" for line in lines))
            told = wire.rest()
            want(bare(told) == bare(pieces_of(expected)), "answered", told, "and not", expected)
            want_ends(told)
            want(wire.status() == 0, "status 0")
        want(self.content() == (kept[-1] if kept else self.old), "the file is that of the last save")

    # ---- tests

    def one_session(self):
        """One session without saves: the text of `edit`, each reply where its call stands."""
        lines = ["opacity 3 128", "tile 0 0 0", "peek 0 0 0", "undo", "undo", "redo", "top", "opacity 99 1", "tile 7777 0 0",
                 "tile 0 99 0", "select 0 100 200 100 255", "filter 8 0 0 200 200 0", "selectnone", "peek 0 1 1", "undo 77",
                 "offset 7 50 90", "tile 0 1 1"]
        with self.talk() as talk:
            for line in lines:
                try:
                    talk.call(line)
                except Refused as refused:
                    want(refused.reply == talk.heard[-1].split(" ", 1)[1], "the words of a refusal")
            self.closes(talk)
        status, text, _ = run(self.old, "".join("0 %s\n" % line for line in lines).encode())
        want(status == 0 and talk.heard[1:] == text.splitlines(), "the replies are those of edit", talk.heard, text)
        want(self.content() == self.old, "without a save the file stays")

    def sessions(self):
        """Eight sessions in the order of their lines, with numbers of their own."""
        draw, order, counts = random.Random(7), [], [0] * SESSIONS
        with self.talk() as talk:
            for _ in range(80):
                session, place = draw.randrange(SESSIONS), (draw.randrange(4), draw.randrange(4))
                call = draw.choice([lambda: talk.edit("opacity", 3, draw.randrange(256), session=session),
                                    lambda: talk.undo(session=session), lambda: talk.redo(session=session),
                                    lambda: talk.top(session=session), lambda: talk.tile(*place, session=session),
                                    lambda: talk.peek(*place, session=session), lambda: talk.edit("visible", 4, True, session=session)])
                try:
                    call()
                except Refused:
                    pass
                name = "%d.%d" % (session, counts[session])
                want(talk.heard[-1].startswith(name + " "), "a reply has its call's number", talk.heard[-1], name)
                order.append(name)
                counts[session] += 1
            want(self.closes(talk) == order, "the order is that of the lines")

    def pixels(self):
        """A frame is the tile, by its digest; a window is its tiles; no number is used."""
        with self.talk() as talk:
            for column, row in ((0, 0), (3, 3), (2, 1)):
                window, tile = talk.pixels(column, row), talk.tile(column, row)
                want(tile == (window.version, hashlib.sha256(window.data).hexdigest()), "the digest of a frame")
            talk.edit("opacity", 3, 40)
            window = talk.pixels(0, 0, 16, 16)
            want((window.version, window.width, window.height) == (1, talk.width, talk.height), "a window is cut to the grid")
            for x, y, width, height, data in window.tiles():
                want(talk.pixels(x // 64, y // 64, node=0, session=5).data == data, "a tile of a window")
                want(len(data) == 4 * width * height, "its length")
            want(talk.picture() == (1, window.rows()), "the picture is the window")
            want(talk.pixels(1, 1, 2, 2).rows()[:4] == window.rows()[4 * (64 * 200 + 64):][:4], "rows of a window")
            want(talk.pixels(0, 0, node=2).data != talk.pixels(0, 0).data, "the picture of a group")
            for node, column, row, reply in ((7777, 0, 0, "no stack 7777"), (8, 0, 0, "no stack 8"), (0, 99, 0, "outside tile"),
                                             (0, 0, 4, "outside tile"), (0, 2**32 - 1, 2**32 - 1, "outside tile")):
                try:
                    talk.pixels(column, row, node=node, session=3)
                    want(False, "it is there")
                except Refused as refused:
                    want(refused.reply == reply, refused.reply, "for", reply)
            want(self.closes(talk) == ["0.0", "0.1", "0.2", "0.3"], "pixels are no call")

    def picture_of_version(self):
        """A frame shows the latest version, also behind an undo and a redo, in the frames of a picture that is kept."""
        with self.talk() as talk:
            first = talk.pixels(0, 0, 4, 4)
            talk.edit("visible", 8, False)
            second = talk.pixels(0, 0, 4, 4)
            talk.undo(session=6)
            third = talk.pixels(0, 0, 4, 4)
            want(first.data == third.data != second.data, "an undo brings the picture back")
            want([window.version for window in (first, second, third)] == [0, 1, 2], "versions")
            self.closes(talk)

    def groups(self):
        """A group is made whole or not at all, and one with a bad line is not made; others go on."""
        with self.talk() as talk:
            want(talk.group(["opacity 3 9", ("visible", 4, False)]) == (1, 1, 9), "a group is one call")
            for edits, guard, reply in ((["opacity 3 9", "opacity 999 1"], None, "refused 1 1 999"), (["opacity 3 9"], 0, "moved 1")):
                try:
                    talk.group(edits, guard)
                    want(False, "it is made")
                except Refused as refused:
                    want(refused.reply == reply, refused.reply)
            try:
                talk.group(["opacity 3 200", "opasity 3 1", "opacity 3 201"])
                want(False, "a void group is made")
            except BadLine as bad:
                want((bad.number, bad.line) == (len(talk.sent) - 2, "0 opasity 3 1"), "its line", bad)
            try:
                talk.group([("opacity", 3, n % 256) for n in range(3000)])
                want(False, "a group of more than 1024 edits")
            except BadLine as bad:
                want(bad.number == len(talk.sent) - 3000 + 1024, "the first that is too much", bad)
            want(talk.top(session=1) == (1, 1), "nothing of them was made")
            want(talk.edit("opacity", 3, 10) == (2, 2, 9), "the session goes on outside of it")
            self.closes(talk)
        self.answers([b"0 begin", b"1 begin", b"0 opacity 3 1", b"1 opacity 3 2", b"x", b"2 top", b"0 end", b"1 end", b"0 top",
                      b"5 begin", b"5 end", b"5 top", b"6 begin", b"6 opacity 3 1", b"6 pixels 0 0 0", b"6 wait", b"7 end", b"6 end",
                      b"4 begin", b"4 begin", b"4 opacity 3 4", b"4 end", b"4 end", b"3 begin", b"3 opacity 3 9"])

    def bad_lines(self):
        """A line that does not fit is told at once, with its number. It changes nothing, and the run goes on."""
        self.put()
        with self.wire() as wire:
            wire.piece()
            for number, line in enumerate(BAD_LINES, 1):
                wire.send(line.encode() + b"\n")
                want(wire.piece() == b"bad line %d\n" % number, line)
            wire.send(b"\n# a comment\n0 top\n")
            want(wire.piece() == b"0.0 top none 0\n", "nothing was changed")
            want(wire.rest() == [b"order 0.0\n"] and wire.status() == 0, "the end")
        self.answers([b"\xff\xfe", b"0 \x00", b"", b"0 rename 8 " + b"61" * 4097, b"0 top"])

    def saves(self):
        """A save is told where it starts, edits go on, and its end comes by a later line. The file is the version that was named."""
        with self.talk() as talk:
            talk.edit("opacity", 3, 77)
            want(talk.save() == 1, "the version that is saved")
            for value in range(20):
                talk.edit("opacity", 4, value, session=1)
            want(talk.save(session=2) == 21, "the next")
            talk.edit("opacity", 3, 78)
            want(talk.wait() == [(0, 1, 1), (2, 0, 21)], "both have ended")
            now = self.content()
            talk.edit("opacity", 3, 79)
            want(self.content() == now != self.old, "edits leave the file")
            self.closes(talk)
        lines = [b"0 opacity 3 77"] + [b"0 opacity 4 %d" % value for value in range(20)] + [b"0 save"]
        want(now == answered(read(self.old), lines)[1][-1], "the file is that of version 21")
        want(sorted(os.listdir(self.folder)) == ["photo.xcf"], "no draft is left")

    def last_save(self):
        """A save that is out when the input ends is told before the order line."""
        with self.talk() as talk:
            talk.edit("opacity", 3, 5, session=3)
            talk.save(session=3)
            want(self.closes(talk) == ["3.0", "3.1", "3.1e"] and talk.heard[-2] == "3.1 saved 1", talk.heard)
        with self.talk() as talk:
            want(self.closes(talk) == [] and self.content() == self.old, "a talk of no line")

    def failed_save(self):
        """A save is refused where another program changed the file. The talk goes on. The model looks at no file."""
        if self.given.model:
            return
        with self.talk() as talk:
            talk.edit("opacity", 3, 5)
            with open(self.name, "ab") as file:
                file.write(b"x")
            talk.save()
            try:
                talk.wait()
                want(False, "it was saved")
            except SaveFailed as failed:
                want(failed.save == (0, 1, 1) and "save fault 1" in str(failed), failed)
            want(talk.top() == (1, 1) and self.content() == self.old + b"x", "it goes on, and the file stays")
            talk.save()
            try:
                talk.close()
                want(False, "it was saved")
            except SaveFailed as failed:
                want(failed.save == (0, 3, 1), failed)
            want(talk.heard[-1] == "order 0.0 0.1 0.1e 0.2 0.3 0.3e", talk.heard[-1])
            want(talk.stopped.status == 6, "status", talk.stopped.status)
            want(talk.stopped.sentence.endswith("a save failed: the file was changed by another program"), talk.stopped.sentence)

    def pieces(self):
        """Lines that come in any pieces, and the last without its newline."""
        data, draw = b"\n".join([b"0 opacity 3 %d" % value for value in range(100)] + [b"0 top"]), random.Random(3)
        self.put()
        with self.wire() as wire:
            while data:
                count = draw.choice([1, 2, 3, 7, 40, 300])
                wire.send(data[:count])
                data = data[count:]
            want(wire.rest()[-2:-1] == [b"0.100 top 100 100\n"] and wire.status() == 0, "the last line")

    def many_at_once(self):
        """Where lines are there already their answers may come in one piece. None is held back when the input pauses."""
        self.put()
        with self.wire() as wire:
            wire.piece()
            wire.send(b"".join(b"0 opacity 3 %d\n" % (n % 256) for n in range(500)) + b"0 to")
            for n in range(500):
                want(wire.piece().startswith(b"0.%d changed %d " % (n, n + 1)), "each whole line is answered")
            want(not select.select([wire.process.stdout], [], [], 0.1)[0], "half a line is not")
            wire.send(b"p\n")
            want(wire.piece() == b"0.500 top 500 500\n", "and the rest with its end")

    def refused(self):
        """What keeps the file from being served is told in one line."""
        os.mkdir(os.path.join(self.folder, "folder"))
        os.mkfifo(os.path.join(self.folder, "fifo"))
        for name, content, line, status in (("none.xcf", None, b"shelf fault\n", 6), ("bad.xcf", b"gimp", b"file refused 1 at 0\n", 4),
                                            ("folder", None, b"shelf fault\n", 6), ("fifo", None, b"shelf fault\n", 6)):
            path = os.path.join(self.folder, name)
            if content is not None:
                with open(path, "wb") as file:
                    file.write(content)
            if name == "fifo" and self.given.model:
                continue
            with Wire(self.words + ["serve", path] + self.behind) as wire:
                want(wire.rest() == [line] and wire.status() == status, name, line)
                said = wire.process.stderr.read().decode()
                want(self.given.model or path.encode("unicode_escape").decode() in said and said.count("\n") == 1, "the sentence", said)
            try:
                Talk(path, self.words, PATIENCE)
                want(False, "it is served")
            except Stopped as stopped:
                want((stopped.line.encode() + b"\n", stopped.status) == (line, status), stopped)
        os.rmdir(os.path.join(self.folder, "folder"))
        for name in ("fifo", "bad.xcf"):
            os.remove(os.path.join(self.folder, name))

    def usage(self):
        """Words that are no command."""
        for words in ([], [self.name, self.name], ["--workers", "2", self.name], ["-x"], ["--", "-x"], ["--help"])[:4 if self.given.model else 6]:
            with Wire(self.words + ["serve"] + words) as wire:
                want(wire.rest() == [b"usage\n"] and wire.status() == 2, words)
                said = wire.process.stderr.read().decode()
                want(self.given.model or "xcfedit serve FILE" in said, said)

    def faults(self):
        """A line that is too long, an input that cannot be read, an output that fails."""
        for tail, last in ((b"0" * (MOST_LINE + 1), True), (b"0" * (MOST_LINE + 1) + b"\n0 top\n", True), (b"0" * MOST_LINE + b"\n", False)):
            self.put()
            with self.wire() as wire:
                writer = threading.Thread(target=lambda: self.write_all(wire, b"0 opacity 3 7\n0 save\n" + tail))
                writer.start()
                told = [wire.piece() for _ in range(5)]
                want(told[-1] == b"bad line 3\n", told)
                if last:
                    want(wire.piece() == b"" and wire.status() == 3, "status 3")
                writer.join()
                want(last or wire.rest()[-1] == b"order 0.0 0.1 0.1e\n", "a line of just so many bytes is a line")
            want(self.content() != self.old, "what was saved stays")
        if self.given.model:
            return
        self.put()
        folder = os.open(self.folder, os.O_RDONLY)
        with self.wire(stdin=folder) as wire:
            want([wire.piece(), wire.piece(), wire.piece()][1:] == [b"source fault\n", b""] and wire.status() == 5, "status 5")
        os.close(folder)
        self.put()
        with Wire(["sh", "-c", 'exec "$@" <&-', "sh", self.program, "serve", self.name]) as wire:
            want(wire.rest() == [b"ready 200 200 9\n", b"source fault\n"] and wire.status() == 5, "an input that is closed cannot be read")
        with open("/dev/full", "wb") as full, self.wire(stdout=full) as wire:
            wire.process.stdin.close()
            want(wire.status() == 7 and b"No space left" in wire.process.stderr.read(), "status 7")

    def write_all(self, wire, data):
        try:
            wire.send(data)
        except BrokenPipeError:
            pass

    def closed_output(self):
        """Where nobody reads any more the program ends. What was saved stays."""
        self.put()
        with self.wire() as wire:
            wire.piece()
            wire.send(b"0 opacity 3 7\n0 save\n")
            want([wire.piece() for _ in range(2)][-1] == b"0.1 saving 1\n", "a save")
            wire.process.stdout.close()
            try:
                for _ in range(2000):
                    wire.send(b"0 opacity 3 8\n0 wait\n")
                    time.sleep(0.001)
            except BrokenPipeError:
                pass
            wire.process.stdin.close()
            want(wire.status() == 7, "status 7")
            wire.process.stdout = None
        want(self.content() != self.old, "what was saved stays")

    def client_dies(self):
        """A client that is killed leaves the file as the saves left it, and no program behind."""
        self.put()
        code = ("import sys, time; sys.path.insert(0, %r); from xcfserve import Talk\n"
                "talk = Talk(%r, %r); talk.edit('opacity', 3, 9); talk.save(); talk.wait(); talk.edit('opacity', 3, 10)\n"
                "print(talk.process.pid, flush=True); time.sleep(600)" % (os.path.dirname(sys.modules["xcfserve"].__file__), self.name, self.words))
        client = subprocess.Popen([sys.executable, "-c", code], stdout=subprocess.PIPE)
        served = int(client.stdout.readline())
        client.kill()
        client.wait()
        client.stdout.close()
        for _ in range(200):
            if not os.path.exists("/proc/%d" % served) or open("/proc/%d/stat" % served).read().split()[2] == "Z":
                break
            time.sleep(0.05)
        else:
            want(False, "the program has not ended")
        want(self.content() == answered(read(self.old), [b"0 opacity 3 9", b"0 save"])[1][-1], "the file is that of the save")

    def client(self):
        """The client: values, errors, many lines at once, groups, threads."""
        with self.talk() as talk:
            lines = ["%d fill 8 0 0 1 1 ffffff" % (n % 8) for n in range(3000)]
            answers = talk.many(lines + ["0 blur"] + [["1 begin", "1 opacity 3 1", "1 end"], ["2 begin", "2 x", "2 end"], "3 opacity 99 1",
                                                     "0 pixels 0 0 0 16 16"] + ["4 pixels 0 0 0 16 16"] * 20)
            want([answer.version for answer in answers[:3000]] == list(range(1, 3001)), "many at once")
            want([type(each) for each in answers[3000:3004]] == [BadLine, type(answers[0]), BadLine, Refused], answers[3000:3004])
            want(answers[3002].line == "2 x" and answers[3003].numbers == [0, 1, 99], answers[3002:3004])
            want({len(answer.data) for answer in answers[3004:]} == {4 * 200 * 200}, "frames at once")
            want(talk.edit("rename", 8, "h\u00f6h") == (3002, 3002, 9) and talk.sent[-1] == "0 rename 8 68c3b668", talk.sent[-1])
            want(talk.edit("rename", 8, b"") == (3003, 3003, 9) and talk.sent[-1] == "0 rename 8 -", talk.sent[-1])
            for call in (lambda: talk.edit("begin"), lambda: talk.edit("top"), lambda: talk.edit("opacity 3 1\n0 save"), lambda: talk.group([]),
                         lambda: talk.group(["opacity 3 1"], guard=2**32), lambda: talk.top(session=8), lambda: talk.many(["0 begin"]),
                         lambda: talk.many(["# x"]), lambda: talk.many([""]), lambda: talk.edit("rename", 8, b"x" * (MOST_LINE // 2)),
                         lambda: talk.tile(-1, 0), lambda: talk.group(["end"]), lambda: talk.many([["0 begin", "1 top", "0 end"]])):
                try:
                    call()
                    want(False, "it is sent")
                except ValueError:
                    pass
            want(talk.top() == (3003, 3003), "nothing of these was sent")
            want(talk.forget(0) is None and talk.edit("filter", 8, 0, 0, 9, 9, 1).version == 3004, "a filter is dropped")
            try:
                talk.edit("filter", 8, 0, 0, 9, 9, 0)
                want(False, "it is there")
            except BadLine:
                pass
            counts, threads = [], []
            for session in range(SESSIONS):
                threads.append(threading.Thread(target=lambda session=session: counts.append(
                    [talk.edit("opacity", 3, n, session=session).version for n in range(40)])))
            for thread in threads:
                thread.start()
            for thread in threads:
                thread.join()
            want(sorted(sum(counts, [])) == list(range(3005, 3325)), "threads share a talk")
            talk.close()
            want(talk.close() == [], "closed again it does nothing")
            try:
                talk.top()
                want(False, "it has ended")
            except Stopped as stopped:
                want(stopped.status == 0, stopped.status)
        try:
            with self.talk() as talk:
                talk.edit("opacity", 3, 1)
                talk.save()
                raise KeyError
        except KeyError:
            want(talk.stopped.status == 0 and talk.heard[-1].startswith("order"), "an error ends the talk in order")

    def big_lines(self):
        """Lines of some megabytes, and their answers."""
        with self.talk() as talk:
            sides = (2000, 1000)
            talk.edit("newlayer", 0, 0, 0, 0, *sides, 1, "big")
            pixels = os.urandom(4 * sides[0] * 500)
            want(talk.edit("write", 9, 0, 0, sides[0], 500, pixels).version == 2, "a line of 8 MB")
            window = talk.pixels(0, 0, 16, 16)
            want(len(window.data) == 4 * 200 * 200, "its picture")
            talk.close()

    def killed(self):
        """Killed at any moment, the file is the old one or that of a version that a save named, whole; and it can be saved again."""
        lines = []
        for n in range(60):
            lines += [b"0 opacity 3 %d" % (n % 256), b"%d save" % (n % 8)]
        _, kept = answered(read(self.old), lines)
        allowed, draw, found = {self.old, *kept}, random.Random(5), set()
        self.put()
        with self.wire() as wire:
            start = time.perf_counter()
            wire.send(b"".join(line + b"\n" for line in lines))
            wire.rest()
            whole = time.perf_counter() - start
        want(self.content() == kept[-1], "the last save")
        for _ in range(self.given.kills):
            self.put()
            with self.wire() as wire:
                wire.send(b"".join(line + b"\n" for line in lines))
                time.sleep(whole * draw.random() * 1.1)
                wire.process.send_signal(signal.SIGKILL)
                wire.status()
                want(self.content() in allowed, "another file after a kill")
                found.add(self.content())
            with Talk(self.name, self.words, PATIENCE) as talk:
                talk.save()
                talk.wait()
            want(sorted(os.listdir(self.folder)) == ["photo.xcf"], "a save removes the draft of a kill")
        print("    %d kills left %d different files" % (self.given.kills, len(found)))

    # ---- random talks

    def random_lines(self, draw, doc):
        """The lines of eight sessions, with bad ones and requests among them, and some that are damaged."""
        found = []
        for line in random_script(draw, doc, draw.choice([4, 10, 16]), SESSIONS).split(b"\n")[:-1]:
            while draw.random() < 0.2:
                session = draw.randrange(SESSIONS)
                place = "%d %d %d" % (draw.choice([0, 0, 0, 1, 2, 3, 99]), draw.randrange(5), draw.randrange(5))
                found.append(draw.choice(["%d pixels %s" % (session, place),
                                          "%d pixels %s %d %d" % (session, place, draw.randint(1, 16), draw.randint(1, 3)),
                                          "%d wait" % session, "", "# %d top" % session, "%d save" % session,
                                          draw.choice(BAD_LINES).replace("0", str(session), 1)]).encode())
            if draw.random() < 0.03:
                at = draw.randrange(len(line) + 1)
                line = draw.choice([line[:at], line[:at] + b" " + line[at:], line[:at] + line[at + 1:], line + b" 1", b"9" + line[1:]])
            if draw.random() > 0.02:
                found.append(line)
        return found

    def random_talk(self, number):
        draw = random.Random("talk %d %d" % (self.given.seed, number))
        data, doc = draw.choice(documents_of(CORPUS))
        lines = self.random_lines(draw, doc)
        self.put(data)
        try:
            self.talk_over(draw, data, doc, lines)
        except Exception as wrong:
            kept = tempfile.mkdtemp(prefix="talk_")
            for name, content in (("photo.xcf", data), ("lines", b"".join(line + b"\n" for line in lines))):
                with open(os.path.join(kept, name), "wb") as file:
                    file.write(content)
            raise Wrong("talk %d of seed %d, kept in %s: %r" % (number, self.given.seed, kept, wrong)) from None

    def talk_over(self, draw, data, doc, lines):
        """Lines in pieces of any length; whatever whole lines were sent, their answers come."""
        told, kept, parts = [], [], draw.choice([[10**9], [1, 2, 5], [7, 60, 300], [3000], [1, 100, 4000]])
        model = Model(doc, told.append, kept.append)
        ends = [0]
        for line in lines:
            ends.append(ends[-1] + len(line) + 1)
        text, heard, sent, taken = b"".join(line + b"\n" for line in lines), [], 0, 0
        with self.wire() as wire:
            heard.append(wire.piece())
            while sent < len(text):
                # Without parts each line is sent for itself.
                upto = ends[taken + 1] if parts == [10**9] else min(len(text), sent + draw.choice(parts))
                wire.send(text[sent:upto])
                sent = upto
                while taken < len(lines) and ends[taken + 1] <= sent:
                    told.clear()
                    model.take(lines[taken])
                    taken += 1
                    for expected in bare(pieces_of(b"".join(told))):
                        found = wire.piece()
                        while ENDED.fullmatch(found):
                            heard.append(found)
                            found = wire.piece()
                        want(found == expected, "line %d, %s, is answered %s and not %s" % (taken, lines[taken - 1][:200], found[:200], expected[:200]))
                        heard.append(found)
            told.clear()
            model.close()
            heard += wire.rest()
            want(bare(heard[-1:]) == bare(pieces_of(b"".join(told)))[-1:], "the order line", heard[-1])
            want(wire.status() == 0 and wire.process.stderr.read() == b"", "status 0")
        want_ends(heard)
        want(self.content() == (kept[-1] if kept else data), "the file is that of the last save")
        self.judge(data, [line.decode("latin-1") for line in lines], [piece.split(b"\n")[0].decode() for piece in heard])

    def random_talks(self):
        """Random talks of eight sessions, piece by piece."""
        for number in range(self.given.first, self.given.first + self.given.talks):
            self.random_talk(number)
        print("    %d talks" % self.given.talks)


TESTS = ("one_session", "sessions", "pixels", "picture_of_version", "groups", "bad_lines", "saves", "last_save", "failed_save", "pieces",
         "many_at_once", "refused", "usage", "faults", "closed_output", "client_dies", "client", "big_lines", "killed", "random_talks")


def main():
    parser = argparse.ArgumentParser(description=__doc__, formatter_class=argparse.RawDescriptionHelpFormatter)
    parser.add_argument("--program", metavar="BIN")
    parser.add_argument("--model", action="store_true")
    parser.add_argument("--lag", type=int, default=0, metavar="N")
    parser.add_argument("--audit", action="store_true")
    parser.add_argument("--only", choices=TESTS, action="append", metavar="NAME")
    for name, plain in (("talks", 50), ("seed", 1), ("first", 0), ("kills", 12)):
        parser.add_argument("--" + name, type=int, default=plain, metavar="N")
    given = parser.parse_args()
    if not (given.program or given.model) or given.audit and not given.program:
        parser.error("--program BIN is wanted")
    wrong = 0
    for name in given.only or TESTS:
        folder = tempfile.mkdtemp(prefix="serve-")
        try:
            getattr(Check(given, folder), name)()
            print("ok", name, flush=True)
        except (Wrong, TalkError) as found:
            wrong += 1
            print("WRONG, %s: %s" % (name, found), flush=True)
        finally:
            shutil.rmtree(folder)
    print("%d tests went wrong" % wrong if wrong else "all as it has to be")
    return 1 if wrong else 0


if __name__ == "__main__":
    sys.exit(main())
