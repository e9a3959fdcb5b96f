#!/usr/bin/env python3
"""Runs the commands of docs/TOUR.md and of README.md, each page in a folder of its own, and tells where their output is another.

A command that ends in << 'END' goes on to the line END. Modules of clients/python are found.

    check_tour.py BIN [--write]

With --write the pages take what was written. The exit status is 1 where something differs.
"""

import argparse
import os
import shutil
import subprocess
import sys
import tempfile

HERE = os.path.dirname(os.path.abspath(__file__))
TOP = os.path.dirname(HERE)
PHOTO, ONE = "crates/written_files/data/groups-3.xcf", "crates/stored_runs/data/one.xcf"
# The files that each page finds in its folder.
PAGES = {"docs/TOUR.md": {"photo.xcf": PHOTO}, "README.md": {"photo.xcf": PHOTO, "one.xcf": ONE}}
INDENT, PROMPT = "    ", "    $ "
DOCUMENT, END = "<< 'END'\n", "END\n"


def output(command, folder, path):
    done = subprocess.run(["bash", "-c", command], stdout=subprocess.PIPE, stderr=subprocess.STDOUT, cwd=folder, check=False,
                          env={**os.environ, "PATH": path, "PYTHONPATH": os.path.join(TOP, "clients", "python")})
    text = done.stdout.decode(errors="replace")
    return [INDENT + line + "\n" for line in text.splitlines()]


def rewritten(lines, folder, path):
    """The lines of the document with what each command writes now."""
    found, at = [], 0
    while at < len(lines):
        line = lines[at]
        found.append(line)
        at += 1
        if line.startswith(PROMPT):
            command = line[len(PROMPT):]
            while line.endswith(DOCUMENT) and not command.endswith("\n" + END):
                command += lines[at][len(INDENT):] or "\n"
                found.append(lines[at])
                at += 1
            found += output(command, folder, path)
            while at < len(lines) and lines[at].startswith(INDENT) and not lines[at].startswith(PROMPT):
                at += 1
    return found


def differs(name, path, write):
    """Whether a command of a page writes something else; where it does, the first line is told."""
    page = os.path.join(TOP, name)
    with open(page, encoding="utf-8") as file:
        old = file.readlines()
    with tempfile.TemporaryDirectory() as folder:
        for sample, source in PAGES[name].items():
            shutil.copy(os.path.join(TOP, source), os.path.join(folder, sample))
        new = rewritten(old, folder, path)
    if write:
        with open(page, "w", encoding="utf-8") as file:
            file.writelines(new)
    for left, right in zip(old, new):
        if left != right:
            print("%s\n- %s+ %s" % (name, left, right), end="")
            break
    return old != new


def main():
    parser = argparse.ArgumentParser(description=__doc__, formatter_class=argparse.RawDescriptionHelpFormatter)
    parser.add_argument("program", metavar="BIN")
    parser.add_argument("--write", action="store_true")
    given = parser.parse_args()
    path = os.pathsep.join([os.path.dirname(os.path.abspath(given.program)), HERE, os.environ["PATH"]])
    return int(any([differs(name, path, given.write) for name in PAGES]))


if __name__ == "__main__":
    sys.exit(main())
