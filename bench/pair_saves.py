#!/usr/bin/env python3
"""Lets two `xcfedit edit` save one file at the same time, again and again, and judges each reply of both.

    pair_saves.py --binary BIN [--pairs N] [--saves N] [--workers N] [--seed S] [--side N]

The file has three layers. Each process makes group after group, the first of number 1, and so on, and saves behind each. A group
fills the process's own layer with its number, and the third layer with the process and the number. So a file tells by its pixels
which saves it has, and each is known byte by byte (Versions of kill_saves.py). The second process of a pair starts at a random
moment while the first runs, so that it reads the file before, between or behind the other's saves.
Of a pair these have to hold:
- each file that is read meanwhile is the old one or that of a version, and no number falls from one to the next;
- the name was given to as many new files as replies say `saved` (the system counts them, by inotify);
- the last file has of each process the number of its last `saved`, so it has no save that was said to fail, and none is lost;
- both end with status 0, or 6 where a reply says `save fault`, and no draft is left.
A fifo, a folder, a socket and a link to one are refused at once, with status 6 and a sentence, by each command that saves, and
these and two devices by `render`. Where a command is started without some of the standard streams, its file is as it was or as it
would be with them, and without an output no command tells that all was written.
The exit status is 1 where something else comes.
"""

import argparse
import ctypes
import os
import random
import re
import socket
import struct
import subprocess
import sys
import tempfile
import time
from collections import Counter

from check_edits import put_file
from kill_saves import FILLERS, SHARED, Versions, Wrong, check_in_turn, file_in, of_both, stamp

FILE = "f.xcf"
IN_MOVED_FROM, IN_MOVED_TO = 0x40, 0x80
REPLY = re.compile(r"(saved|save fault) (\d+)$")
SECONDS = 120


class Names:
    """Counts how often a name of a folder is given to another file.

    Moves from a name are asked for too, since the kernel makes one event of two that are alike and stand beside each other.
    """

    def __init__(self, folder):
        self.libc = ctypes.CDLL(None, use_errno=True)
        self.queue = self.libc.inotify_init1(os.O_NONBLOCK)
        if self.queue < 0 or self.libc.inotify_add_watch(self.queue, os.fsencode(folder), IN_MOVED_FROM | IN_MOVED_TO) < 0:
            raise OSError(ctypes.get_errno(), "inotify")

    def count(self, name):
        count = 0
        while True:
            try:
                events = os.read(self.queue, 1 << 16)
            except BlockingIOError:
                return count
            while events:
                _, mask, _, length = struct.unpack_from("iIII", events)
                count += mask == IN_MOVED_TO and events[16:16 + length].rstrip(b"\0") == os.fsencode(name)
                events = events[16 + length:]

    def close(self):
        os.close(self.queue)


def script(process, given):
    for number in range(1, given.saves + 1):
        yield "0 begin"
        yield "0 fill %d 0 0 %d %d %08x" % (process, given.side, given.side, number)
        yield "0 fill %d 0 0 %d %d %s" % (SHARED, given.side, given.side, of_both(process, number).hex())
        yield "0 end"
        yield "0 save"


def start(program, folder, process, workers):
    with open(os.path.join(folder, "script %d" % process), "rb") as source:
        return subprocess.Popen([program, "edit", FILE, "--workers", workers], stdin=source, cwd=folder,
                                stdout=open(os.path.join(folder, "text %d" % process), "wb"),
                                stderr=open(os.path.join(folder, "said %d" % process), "wb"))


def replies(folder, process):
    """How each save ended and its version, in their order."""
    with open(os.path.join(folder, "text %d" % process)) as text:
        found = [REPLY.search(line.rstrip("\n")) for line in text]
    return [(reply[1], int(reply[2])) for reply in found if reply]


def watched(running, folder, later, pause):
    """Starts the second process after a pause. The files that are there until both have ended, each read once."""
    files, old, begun = [file_in(folder)], stamp(folder), time.monotonic()
    while any(process.poll() is None for process in running) or later:
        if later and time.monotonic() - begun >= pause:
            running.append(later.pop()())
        new = stamp(folder)
        if new != old:
            old = new
            files.append(file_in(folder))
        time.sleep(0.0003)
        if time.monotonic() - begun > SECONDS:
            for process in running:
                process.kill()
            raise SystemExit("a pair does not end")
    return files + [file_in(folder)]


def judge(folder, running, versions, files, given_names):
    """What a pair came to, and how its replies and its files fit."""
    last = check_in_turn(versions, files)
    ends = [replies(folder, process) for process in FILLERS]
    said = ["".join(open(os.path.join(folder, "said %d" % process))) for process in FILLERS]
    for process, found, text in zip(running, ends, said):
        wanted = 6 if any(end == "save fault" for end, _ in found) else 0
        if process.returncode != wanted:
            raise Wrong("status %d where %d is wanted: %s" % (process.returncode, wanted, text), files[-1])
    saved = [[number for end, number in found if end == "saved"] for found in ends]
    if sum(map(len, saved)) != given_names:
        raise Wrong("%d replies say saved, and %d files came" % (sum(map(len, saved)), given_names), files[-1])
    wanted = tuple(max(numbers, default=0) for numbers in saved)
    if last != wanted:
        raise Wrong("the last file has the numbers %s, and the last saved are %s" % (last, wanted), files[-1])
    if any(name.endswith(".draft") for name in os.listdir(folder)):
        raise Wrong("a draft is left", files[-1])
    causes = Counter(text.rsplit(": ", 1)[-1].strip() for text in said if text)
    return Counter({"saved": given_names, "faults": sum(map(len, ends)) - given_names, "files": len(files),
                    "both": all(saved), "pairs": 1}) + causes


def one_pair(program, folder, given, versions, pause):
    put_file(folder, FILE, versions.old)
    names = Names(folder)
    try:
        running = [start(program, folder, FILLERS[0], given.workers)]
        files = watched(running, folder, [lambda: start(program, folder, FILLERS[1], given.workers)], pause)
        return judge(folder, running, versions, files, names.count(FILE))
    finally:
        names.close()


def seconds_alone(program, folder, given, versions):
    put_file(folder, FILE, versions.old)
    begun = time.monotonic()
    if start(program, folder, FILLERS[0], given.workers).wait() != 0:
        raise SystemExit("a process alone does not end with status 0")
    return time.monotonic() - begun


def no_regular_files(folder):
    """What is no regular file, by its name, in a folder."""
    os.mkfifo(os.path.join(folder, "fifo"))
    os.mkdir(os.path.join(folder, "folder"))
    with socket.socket(socket.AF_UNIX) as listener:
        listener.bind(os.path.join(folder, "socket"))
    os.symlink("fifo", os.path.join(folder, "link"))
    return ["fifo", "folder", "socket", "link"]


def is_refused(program, folder, words):
    """Whether a command is refused at once, and its file stays."""
    name = os.path.join(folder, words[1])
    before = os.lstat(name)
    try:
        ended = subprocess.run([program, *words], cwd=folder, stdin=subprocess.DEVNULL, capture_output=True, timeout=20)
    except subprocess.TimeoutExpired:
        return False
    after = os.lstat(name)
    stays = (before.st_ino, before.st_mode) == (after.st_ino, after.st_mode)
    return ended.returncode == 6 and ended.stderr.endswith(b": it is no regular file\n") and stays


def not_refused(program, folder):
    """How many commands were not refused at once. A device is not saved: a wrong program would put a file in its place."""
    commands = [["render", name] for name in ("/dev/zero", "/dev/null")]
    for name in no_regular_files(folder):
        commands += [["render", name], ["edit", name], ["pack", name], ["flatten", name], ["make", name, "--seed", "1"]]
    wrong = [words for words in commands if not is_refused(program, folder, words)]
    for words in wrong:
        print("WRONG: %s" % " ".join(words))
    return len(wrong)


# which of the standard streams a command is started without
CLOSED = ("<&- >&- 2>&-", ">&- 2>&-", "<&- >&-", ">&-", "2>&-", "<&-")


def status_closed(program, folder, words, closing):
    """The status of a command that is started without these streams, on the script of the folder."""
    shell = ["sh", "-c", 'exec "$@" < script > out 2> told ' + closing, "sh", program, *words]
    return subprocess.run(shell, cwd=folder).returncode


def content_of(folder, name):
    with open(os.path.join(folder, name), "rb") as file:
        return file.read()


def spoiled(program, folder):
    """How many commands without a standard stream left another file than with all of them, or told that all was written where there was
    no output."""
    put_file(folder, "script", b"0 top\n0 save\n")
    status_closed(program, folder, ["make", "made", "--seed", "1"], "")
    before, wrong = content_of(folder, "made"), 0
    for command in (["make", "f", "--seed", "1"], ["pack", "f"], ["flatten", "f"], ["edit", "f"]):
        put_file(folder, "f", before)
        status_closed(program, folder, command, "")
        right = (before, content_of(folder, "f"))
        for closing in CLOSED:
            put_file(folder, "f", before)
            status = status_closed(program, folder, command, closing)
            if content_of(folder, "f") not in right or (">&-" in closing.split() and status == 0):
                print("WRONG: %s %s, status %d" % (" ".join(command), closing, status))
                wrong += 1
    return wrong


def arguments():
    parser = argparse.ArgumentParser(description=__doc__, formatter_class=argparse.RawDescriptionHelpFormatter)
    parser.add_argument("--binary", required=True, metavar="BIN")
    parser.add_argument("--workers", default="0", metavar="N")
    for name, plain in (("pairs", 25), ("saves", 30), ("side", 192)):
        parser.add_argument("--" + name, type=int, default=plain, metavar="N")
    parser.add_argument("--seed", type=int, default=1, metavar="S")
    return parser.parse_args()


def main():
    given = arguments()
    program, draw = os.path.abspath(given.binary), random.Random(given.seed)
    versions, counts, wrong = Versions(given.side, given.saves), Counter(), 0
    with tempfile.TemporaryDirectory() as folder:
        wrong += not_refused(program, folder)
    with tempfile.TemporaryDirectory() as folder:
        wrong += spoiled(program, folder)
    with tempfile.TemporaryDirectory() as folder:
        for process in FILLERS:
            put_file(folder, "script %d" % process, ("\n".join(script(process, given)) + "\n").encode())
        alone = seconds_alone(program, folder, given, versions)
        for _ in range(given.pairs):
            try:
                counts += one_pair(program, folder, given, versions, draw.uniform(0, alone) * draw.choice((0.1, 1)))
            except Wrong as told:
                print(told.told(), flush=True)
                wrong += 1
    print("%d pairs: %d replies saved and as many new files, %d save fault; in %d pairs both saved; %d files were read; %d wrong"
          % (*(counts[each] for each in ("pairs", "saved", "faults", "both", "files")), wrong))
    for cause in sorted(set(counts) - {"pairs", "saved", "faults", "both", "files"}):
        print("%d processes ended with: %s" % (counts[cause], cause))
    return 1 if wrong else 0


if __name__ == "__main__":
    sys.exit(main())
