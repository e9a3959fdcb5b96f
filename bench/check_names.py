#!/usr/bin/env python3
"""Whether the names that the pages quote are there.

    check_names.py

Looked at is what stands in backticks in README.md, docs/*.md, the other pages at the top, and the READMEs of bench and of the
crates:

- a path is that of a file or folder, from the top, from `crates` or the end of one; `CRATE/NAME` may be a must-fail edit;
- in "`a`, `b` and `c` of `CRATE`", or of a file, each name stands as a word in that crate or file;
- any other name of code stands as a word somewhere in the crates, in bench or in clients.

Words in capitals stand for something else (`crates/NAME/src`), what begins or ends with a point or a line is part of a name, and
OUTSIDE has names of the toolchain and the system. The exit status is 1 where a name is not found.
"""

import os
import re
import subprocess
import sys

TOP = os.path.dirname(os.path.dirname(os.path.abspath(__file__)))
CODE = (".rt", ".antt", ".py", ".sh", ".c", ".txt", ".rs", ".rows")
ENDS = (".antt", ".rt", ".rows", ".py", ".md", ".txt", ".sh", ".c", ".1", ".xcf", ".png", ".edit")
# Parts of programs and of Rattle that no file here names, files that the pages tell the reader to make, and what docs/FAILURE.md
# makes of a function to show it.
OUTSIDE = {"After-add_tile", "In_ok-add_tile", "add_tile", "column_next",
           "anyhow", "checked_add", "fchmod", "inverse", "jq", "llvm-mca", "make_mut", "photo.xcf", "must-fail", "Lts", "Proof",
           "the_sync"}
PLACEHOLDER = re.compile(r"(?<![A-Za-z_])[A-Z]{3,}(?![A-Za-z_])|\*|\.\.|^/|^out/|/out/")
WORD = re.compile(r"[A-Za-z_][A-Za-z0-9_]*(?:-[A-Za-z0-9_]+)*")
LIST = r"((?:`[^`]+`(?:, and |, or |, | and | or )?)+)"
OF_CRATE = re.compile(LIST + r" of `(?:crates/)?(\w+)`")
OF_FILE = re.compile(LIST + r" of `([\w/]+\.(?:antt|rt))`")


def tracked():
    listed = subprocess.run(["git", "-C", TOP, "ls-files"], stdout=subprocess.PIPE, check=True)
    return listed.stdout.decode().split("\n")[:-1]


def read(path):
    with open(os.path.join(TOP, path), encoding="utf-8") as file:
        return file.read()


def words_in(paths):
    """The words of these files, with and without their hyphens, and the names of the files and of their folders."""
    found = set()
    for path in paths:
        for part in path.split("/"):
            found |= {part, os.path.splitext(part)[0]}
        if path.endswith(CODE):
            for word in WORD.findall(read(path)):
                found |= {word, *word.split("-")}
    return found


class Tree:
    def __init__(self):
        self.files = tracked()
        self.paths = set(self.files)
        for path in self.files:
            while "/" in path:
                path = path.rpartition("/")[0]
                self.paths.add(path)
        self.words = words_in(path for path in self.files if path.startswith(("crates/", "bench/", "clients/")))
        self.by_crate = {}

    def words_of(self, crate):
        if crate not in self.by_crate:
            self.by_crate[crate] = words_in(path for path in self.files if path.startswith("crates/%s/" % crate))
        return self.by_crate[crate]

    def has_path(self, path):
        path = path.rstrip("/")
        crate, _, name = path.partition("/")
        if "crates/%s/must-fail/%s.edit" % (crate, name) in self.paths:
            return True
        return any(found == path or found.endswith("/" + path) or os.path.splitext(found)[0].endswith("/" + path)
                   for found in self.paths)

    def ending_in(self, path):
        return [found for found in self.files if found == path or found.endswith("/" + path)]


def names_in(quoted):
    """The names of a quotation of code, or none where it is no name."""
    bare = re.sub(r"\(.*\)$|<.*>$|!$", "", quoted)
    return WORD.findall(bare) if re.fullmatch(r"[A-Za-z_][\w:{}, -]*", bare) and " -" not in bare else []


def wrong_lists(text, tree):
    for names, crate in OF_CRATE.findall(text):
        if "crates/" + crate in tree.paths:
            for quoted in re.findall(r"`([^`]+)`", names):
                for name in names_in(quoted):
                    if name not in tree.words_of(crate) and name not in OUTSIDE:
                        yield "`%s` of `%s`" % (quoted, crate)
    for names, path in OF_FILE.findall(text):
        there = words_in(tree.ending_in(path))
        for quoted in re.findall(r"`([^`]+)`", names):
            for name in names_in(quoted):
                if name not in there:
                    yield "`%s` of `%s`" % (quoted, path)


def wrong_quotations(text, tree):
    for quoted in re.findall(r"`([^`]+)`", text):
        if PLACEHOLDER.search(quoted) or quoted in OUTSIDE or quoted[0] in "._" or quoted[-1] == "_":
            continue
        if re.fullmatch(r"[\w./-]*\w/?", quoted) and ("/" in quoted or quoted.endswith(ENDS)):
            if not tree.has_path(quoted):
                yield "`%s`" % quoted
        elif re.search(r"_|::|[a-z][A-Z]", quoted):
            for name in names_in(quoted):
                if name not in tree.words and name not in OUTSIDE:
                    yield "`%s`" % quoted


def main():
    tree, found = Tree(), False
    for page in tree.files:
        if page.endswith(".md"):
            text = re.sub(r"\n\s*", " ", re.sub(r"\n\s*\n|\n(?= *(?:[-|]|\d+\.) )", " . ", read(page)))
            for wrong in sorted({*wrong_lists(text, tree), *wrong_quotations(text, tree)}):
                print("%s: %s" % (page, wrong))
                found = True
    return 1 if found else 0


if __name__ == "__main__":
    sys.exit(main())
