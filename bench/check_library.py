#!/usr/bin/env python3
"""Whether what docs/LIBRARY.md quotes stands in the crates.

    check_library.py [--write]

A quotation is an indented block behind a line that ends in the path of its file and a colon: the whole file, or so many of its
lines in a row. With --write a block that differs becomes the whole file; but of crates.txt each line becomes the one of its
crate, and a block with a crate that is not there stays. The exit status is 1 where something differs and is not written.
"""

import argparse
import os
import re
import sys

TOP = os.path.dirname(os.path.dirname(os.path.abspath(__file__)))
PAGE = os.path.join(TOP, "docs", "LIBRARY.md")
LIST = "crates.txt"
INDENT = "    "
QUOTED = re.compile(r"`(crates/[^`]+|crates\.txt)`:$")


def read(path):
    with open(path, encoding="utf-8") as file:
        return file.read().split("\n")


def plain(block):
    return [line[len(INDENT):] for line in block]


def stands_in(block, lines):
    return any(lines[at:at + len(block)] == block for at in range(len(lines) - len(block) + 1))


def crate_of(line):
    return line.split(":")[0].split(" ")[0]


def as_in_file(path, block, lines):
    """What a block that differs is to become: the whole file, or of the list of crates the lines of the same crates."""
    if path == LIST:
        of_crate = {crate_of(line): line for line in lines if line and not line.startswith("#")}
        return [of_crate.get(crate_of(line)) for line in block]
    while lines[-1] == "":
        lines = lines[:-1]
    return lines


def checked(page, write):
    """The page, with what stands in the files where it is to be written, and the paths whose blocks differ still."""
    found, wrong, at = [], [], 0
    while at < len(page):
        found.append(page[at])
        path = QUOTED.search(page[at])
        at += 1
        if not path or page[at:at + 1] != [""]:
            continue
        end = at + 1
        while end < len(page) and (page[end].startswith(INDENT) or page[end] == ""):
            end += 1
        while page[end - 1] == "":
            end -= 1
        block, lines = plain(page[at + 1:end]), read(os.path.join(TOP, path.group(1)))
        if stands_in(block, lines):
            continue
        lines = as_in_file(path.group(1), block, lines)
        if not write or None in lines:
            wrong.append(path.group(1))
            continue
        found += [""] + [INDENT + line if line else "" for line in lines]
        at = end
    return found, wrong


def main():
    options = argparse.ArgumentParser(description=__doc__)
    options.add_argument("--write", action="store_true")
    write = options.parse_args().write
    page, wrong = checked(read(PAGE), write)
    if write:
        with open(PAGE, "w", encoding="utf-8") as file:
            file.write("\n".join(page))
    for path in wrong:
        print("docs/LIBRARY.md quotes %s otherwise" % path)
    return 1 if wrong else 0


if __name__ == "__main__":
    sys.exit(main())
