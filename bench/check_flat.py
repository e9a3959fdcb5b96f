#!/usr/bin/env python3
"""Packs and flattens each file of a folder that is read, and looks at what it shows afterwards.

    check_flat.py BIN FOLDER [--convert PROGRAM]

A packed file has to show what it showed, and to be no longer than the same document with the greedy run-length codes of
`xcf_written.py`. A flat file has to show it byte for byte, or its image is refused: for a selection, or an indexed one. With
--convert, which is ImageMagick's `convert`, its picture of the flat file has to be this one too, where a pixel is not clear.
It prints the bytes before and after of all files together. The exit status is 1 where something disagrees.
"""

import argparse
import os
import shutil
import subprocess
import sys
import tempfile

from xcf_reading import read
from xcf_written import written


def run(words):
    return subprocess.run(words, stdout=subprocess.PIPE, stderr=subprocess.DEVNULL, check=False)


def loaded(path):
    with open(path, "rb") as file:
        return file.read()


def pixels(pam):
    return pam[pam.index(b"ENDHDR\n") + 7:]


def visible(rgba):
    """The pixels, each clear one as nothing."""
    return [rgba[at:at + 4] if rgba[at + 3] else b"" for at in range(0, len(rgba), 4)]


class Found:
    """What was found of some files."""

    def __init__(self):
        self.lines, self.files, self.flat, self.refused = [], 0, 0, 0
        self.before, self.packed, self.greedy = 0, 0, 0

    def wrong(self, path, text):
        self.lines.append("%s: %s" % (path, text))


def pack(program, path, copy, shown, found):
    shutil.copy(path, copy)
    done = run([program, "pack", copy])
    if done.returncode != 0:
        return found.wrong(path, "pack ends with %d" % done.returncode)
    before, after, greedy = os.path.getsize(path), os.path.getsize(copy), len(written(read(loaded(path)), 1))
    found.before, found.packed, found.greedy = found.before + before, found.packed + after, found.greedy + greedy
    if not done.stdout.startswith(b"packed %d %d planes " % (before, after)):
        found.wrong(path, "%r for %d and %d bytes" % (done.stdout, before, after))
    if run([program, "render", copy]).stdout != shown:
        found.wrong(path, "packed it shows another picture")
    if after > greedy:
        found.wrong(path, "packed it has %d bytes, greedily %d" % (after, greedy))
    return None


def flatten(program, path, copy, shown, convert, found):
    shutil.copy(path, copy)
    done = run([program, "flatten", copy])
    if done.returncode == 9:
        found.refused += 1
        doc = read(loaded(path))
        wanted = 1 if doc.selection else 2 if doc.base == 2 else 0
        if done.stdout != b"flatten refused %d\n" % wanted or loaded(copy) != loaded(path):
            found.wrong(path, "%r, and %d is wanted" % (done.stdout, wanted))
        return
    found.flat += 1
    if done.returncode != 0 or done.stdout != b"flattened 1\n":
        found.wrong(path, "flatten ends with %d and %r" % (done.returncode, done.stdout))
    if run([program, "render", copy]).stdout != shown:
        found.wrong(path, "flat it shows another picture")
    if convert:
        theirs = run([convert, copy, "-depth", "8", "rgba:-"]).stdout
        if visible(theirs) != visible(pixels(shown)):
            found.wrong(path, "another picture by %s" % convert)


def main():
    parser = argparse.ArgumentParser(description=__doc__, formatter_class=argparse.RawDescriptionHelpFormatter)
    parser.add_argument("program")
    parser.add_argument("folder")
    parser.add_argument("--convert")
    given = parser.parse_args()
    program, found = os.path.abspath(given.program), Found()
    with tempfile.TemporaryDirectory() as folder:
        copy = os.path.join(folder, "copy.xcf")
        for top, _, names in sorted(os.walk(given.folder)):
            for name in sorted(name for name in names if name.endswith(".xcf")):
                path = os.path.join(top, name)
                shown = run([program, "render", path])
                if shown.returncode != 0:
                    continue
                found.files += 1
                pack(program, path, copy, shown.stdout, found)
                flatten(program, path, copy, shown.stdout, given.convert, found)
    for line in found.lines:
        print(line)
    print("%d files: %d bytes, %d packed, %d greedily; %d flat, %d refused; %d wrong" % (
        found.files, found.before, found.packed, found.greedy, found.flat, found.refused, len(found.lines)))
    sys.exit(bool(found.lines))


if __name__ == "__main__":
    main()
