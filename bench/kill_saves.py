#!/usr/bin/env python3
"""Kills `xcfedit edit` at random moments while sessions save and fill beside each other, and looks at the file that is left.

    kill_saves.py --binary BIN [--kills N] [--workers N] [--seed S] [--side N] [--groups N] [--saves N]

A file of three layers is made. The sessions 0 and 3 save again and again. The sessions 1 and 2 make group after group, the first
of number 1, and so on: a group fills the whole of the session's own layer with its number, and the whole of the third layer with
the session and the number, as the four bytes of the pixels. So the two numbers and the last session tell a version, each such
version is one that some order of the calls makes, and layers of two versions do not fit each other.
A first run is not killed: its file has to be the one of its last save, by its order. Each of the others is killed at a random
moment, mostly behind its first save and while it fills. The file that is left has to be the old one, or byte by byte that of
such a version, as xcf_written.py writes it; so have the files that are read on the way, and no number may fall from one to the
next. A draft that a kill leaves is still there in the next run.
The exit status is 1 where another file is left.
"""

import argparse
import os
import random
import signal
import subprocess
import sys
import tempfile
import time
from collections import Counter

from check_edits import put_file
from xcf_edits import file_of
from xcf_reading import Refused, read
from xcf_writing import Drawable, Pixels, flat, image, word_property

SAVERS, FILLERS, SHARED = (0, 3), (1, 2), 3
# The tiles that are asked for after each group: they take time, and no memory.
TILES = 4
FIRST = b"\xc8\xc8\xc8\xc8"
# A whole run may take so long.
SECONDS = 600


class Wrong(Exception):
    """Why a file may not be there, and the file."""

    def __init__(self, why, data):
        super().__init__(why)
        self.data = data

    def told(self):
        folder = tempfile.mkdtemp(prefix="kill_")
        put_file(folder, "f.xcf", self.data)
        return "WRONG: %s; kept in %s" % (self, folder)


def old_file(side):
    """It is stored as it is, so that a save has much to write."""
    layers = [Drawable(b"layer %d" % number, Pixels(side, side, [flat(side, FIRST[0])] * 4), [word_property(6, 255)], kind=1)
              for number in (*FILLERS, SHARED)]
    return bytes(image(0, side, side, 0, [], layers, compression=0).file())


def of_both(session, number):
    """The pixel that tells which group was the last."""
    return FIRST if number == 0 else bytes([session]) + number.to_bytes(3, "big")


def groups_of(session, side, count):
    """The lines of a session that fills: groups, and tiles."""
    for number in range(1, count + 1):
        yield "begin"
        yield "fill %d 0 0 %d %d %08x" % (session, side, side, number)
        yield "fill %d 0 0 %d %d %s" % (SHARED, side, side, of_both(session, number).hex())
        yield "end"
        for tile in range(TILES):
            yield "tile 0 %d 0" % (tile % -(-side // 64))


def script(given):
    lines = ["%d save" % session for session in SAVERS for _ in range(given.saves)]
    lines += ["%d %s" % (session, line) for session in FILLERS for line in groups_of(session, given.side, given.groups)]
    return ("\n".join(lines) + "\n").encode()


class Versions:
    """The files that may be left: the old one, and one for each version, which is both numbers and the last session."""

    def __init__(self, side, groups):
        self.old, self.groups = old_file(side), groups
        self.doc = read(self.old)

    def file(self, numbers, last):
        own = [FIRST if number == 0 else number.to_bytes(4, "big") for number in numbers]
        shared = of_both(last, numbers[FILLERS.index(last)])
        for node, pixel in zip(self.doc.nodes, own + [shared]):
            node.plane.data[:], node.plane.codes = pixel * (node.plane.width * node.plane.height), {}
        return file_of(self.doc)

    def numbers(self, data):
        """The numbers of a file, by the first pixel of each layer; then the whole file has to be theirs."""
        if data == self.old:
            return 0, 0
        try:
            *own, shared = [bytes(node.plane.row(0)[:4]) for node in read(data).nodes]
        except (Refused, ValueError) as refused:
            raise Wrong("the file is not whole: %s" % refused, data) from None
        numbers = tuple(0 if pixel == FIRST else int.from_bytes(pixel, "big") for pixel in own)
        last = FILLERS[0] if shared == FIRST else shared[0]
        if len(numbers) != 2 or last not in FILLERS or max(numbers) > self.groups or self.file(numbers, last) != data:
            raise Wrong("no version's file: %s and %s" % (numbers, shared.hex()), data)
        return numbers


def start(program, folder, workers, out):
    with open(os.path.join(folder, "script"), "rb") as source:
        return subprocess.Popen([program, "edit", "f.xcf", "--workers", workers], stdin=source, stdout=out, cwd=folder)


def file_in(folder):
    """The file, which is empty where there is none."""
    try:
        with open(os.path.join(folder, "f.xcf"), "rb") as file:
            return file.read()
    except FileNotFoundError:
        return b""


def drafts_in(folder):
    names = set(os.listdir(folder)) - {"f.xcf", "script", "text"}
    return {(name, os.stat(os.path.join(folder, name)).st_mtime_ns) for name in names}


def version_at(words, place):
    """How many groups each session had made before a place in the order, and which session made the last."""
    made = [int(word[0]) for word in words[:place] if "e" not in word and word[0] in "12" and int(word[2:]) % (TILES + 1) == 0]
    return tuple(made.count(session) for session in FILLERS), made[-1] if made else FILLERS[0]


def stamp(folder):
    """What tells a file from the next one of its name, or none where there is none."""
    try:
        found = os.stat(os.path.join(folder, "f.xcf"))
        return found.st_ino, found.st_mtime_ns
    except FileNotFoundError:
        return None


def watched(running, folder, is_awaited, seconds):
    """The files that are there while a program runs, each read once, up to some seconds behind its start or its first save."""
    files, old = [], stamp(folder)
    end = time.monotonic() + (SECONDS if is_awaited else seconds)
    while running.poll() is None and time.monotonic() < end:
        new = stamp(folder)
        if new != old:
            if is_awaited and not files:
                end = time.monotonic() + seconds
            old = new
            files.append(file_in(folder))
        time.sleep(0.0003)
    return files


def check_in_turn(versions, files):
    """Each file has to be the old one or that of a version, and no number may fall. The numbers of the last."""
    found = [versions.numbers(data) for data in files]
    for before, after, data in zip(found, found[1:], files[1:]):
        if any(one > two for one, two in zip(before, after)):
            raise Wrong("the numbers fell from %s to %s" % (before, after), data)
    return found[-1]


def whole_run(program, folder, given, versions):
    """The order of a run that is not killed, and the seconds from its start to its first save and to its end."""
    begun = time.monotonic()
    with open(os.path.join(folder, "text"), "wb") as out:
        running = start(program, folder, given.workers, out)
        files = watched(running, folder, True, 0)
        first = time.monotonic() - begun
        files += watched(running, folder, False, SECONDS)
    if running.poll() is None:
        running.kill()
    if running.wait() != 0:
        raise SystemExit("the run ends with status %d" % running.returncode)
    end = time.monotonic() - begun
    check_in_turn(versions, files + [file_in(folder)])
    with open(os.path.join(folder, "text")) as text:
        return text.read().split("\n")[-2].split(" ")[1:], first, end


class Window:
    """When runs are killed: before their first save, or up to some seconds after it, as long as they fill."""

    def __init__(self, first, span):
        self.first, self.span = first, span

    def moment(self, draw):
        """Whether the first save is awaited, and how long it is then until the kill."""
        is_awaited = draw.random() < 0.9
        return is_awaited, draw.uniform(0, self.span if is_awaited else self.first)

    def learn(self, is_late):
        self.span *= 0.9 if is_late else 1.03


def measured(program, folder, given, versions):
    """The window by a run that is not killed. Its file has to be that of its last save."""
    words, first, end = whole_run(program, folder, given, versions)
    ends = [word for word in words if word[-1] == "e"]
    wanted = version_at(words, words.index(ends[-1][:-1]))
    if file_in(folder) != versions.file(*wanted):
        raise Wrong("the file is not that of the last save, of %s" % (wanted,), file_in(folder))
    last_fill = max(place for place, word in enumerate(words) if word[0] in "12")
    beside = sum(word[-1] == "e" for word in words[:last_fill])
    print("a whole run takes %.2f s, its first save ends after %.2f s; %d of its %d saves ended while layers were filled"
          % (end, first, beside, len(ends)))
    return Window(first, (end - first) * max(1, beside) / len(ends))


def killed_run(program, folder, given, moment):
    """The files up to a kill and the one after it, and whether the program was still at work."""
    running = start(program, folder, given.workers, subprocess.DEVNULL)
    files = watched(running, folder, *moment)
    running.send_signal(signal.SIGKILL)
    was_at_work = running.wait() == -signal.SIGKILL
    return files + [file_in(folder)], was_at_work


def one_kill(program, folder, given, versions, moment):
    """What a kill found."""
    put_file(folder, "f.xcf", versions.old)
    drafts = drafts_in(folder)
    files, was_at_work = killed_run(program, folder, given, moment)
    last = check_in_turn(versions, files)
    if not was_at_work:
        return Counter({"ended": 1, "files": len(files)})
    found = {"old": files[-1] == versions.old, "a version": files[-1] != versions.old, "drafts": bool(drafts_in(folder) - drafts),
             "filling": last != (given.groups, given.groups)}
    return Counter({"kills": 1, "files": len(files)}) + Counter(what for what, held in found.items() if held)


def all_kills(program, folder, given, versions, window):
    """What all kills found. Runs that had ended are not among them; after as many of them, or ten wrong files, no more are made."""
    draw, counts = random.Random(given.seed), Counter()
    while counts["kills"] < given.kills and counts["ended"] <= given.kills and counts["wrong"] < 10:
        try:
            found = one_kill(program, folder, given, versions, window.moment(draw))
        except Wrong as wrong:
            print(wrong.told(), flush=True)
            found = Counter(["kills", "wrong"])
        if found["wrong"] == 0:
            window.learn(found["filling"] == 0)
        counts += found
    print("%d kills, %d of them while layers were still filled: the old file was left %d times, that of a version %d times, "
          "another %d times; %d kills left a new draft; %d files were read; %d more runs had ended"
          % tuple(counts[each] for each in ("kills", "filling", "old", "a version", "wrong", "drafts", "files", "ended")))
    return counts["wrong"]


def arguments():
    parser = argparse.ArgumentParser(description=__doc__, formatter_class=argparse.RawDescriptionHelpFormatter)
    parser.add_argument("--binary", required=True, metavar="BIN")
    parser.add_argument("--workers", default="2", metavar="N")
    for name, plain in (("kills", 200), ("side", 192), ("groups", 300), ("saves", 60)):
        parser.add_argument("--" + name, type=int, default=plain, metavar="N")
    parser.add_argument("--seed", type=int, default=1, metavar="S")
    return parser.parse_args()


def main():
    given = arguments()
    program, versions = os.path.abspath(given.binary), Versions(given.side, given.groups)
    with tempfile.TemporaryDirectory() as folder:
        put_file(folder, "script", script(given))
        put_file(folder, "f.xcf", versions.old)
        try:
            window = measured(program, folder, given, versions)
        except Wrong as wrong:
            print(wrong.told())
            return 1
        return 1 if all_kills(program, folder, given, versions, window) else 0


if __name__ == "__main__":
    sys.exit(main())
