#!/usr/bin/env python3
"""How many crates a change of one has proved again: itself, and all that stand on it. And what each name in crates.txt costs.

    crates_above.py GROUP..
    crates_above.py --paths [N]
    crates_above.py --rows PREFIX

A GROUP is a crate, or several with commas between. For each crate the number is told, by the lists of crates.txt and all that
follows from these; for a group also how many of today's crates it would be if each group that is given were one crate. A group
that would then need a crate which needs it is told as a cycle. Last come the sums over all crates that are given.

With --paths it tells how many paths go down from the libraries, each crate on the way the end of one, and of the N names in lists
(20, where no N is given) that most paths go through how many these are and in how many files of the crate the name stands.

With --rows it lists the crates whose names begin with PREFIX, in rows: each crate in the lowest row that is above all rows of
those crates of the list that it names.
"""

import argparse
import functools
import os
import re

TOP = os.path.dirname(os.path.dirname(os.path.abspath(__file__)))


def read_needs():
    """For each crate the crates of this repository that its line names."""
    lists = {}
    with open(os.path.join(TOP, "crates.txt"), encoding="utf-8") as file:
        for line in file:
            name, colon, rest = line.partition(":")
            if colon and not line.startswith("#"):
                lists[name.split()[0]] = rest.split()
    return {name: {other for other in rest if other in lists} for name, rest in lists.items()}


def is_program(name):
    return os.path.exists(os.path.join(TOP, "crates", name, "src", "main.rt"))


def files_naming(name, other):
    """How many files of code, definitions and proofs of a crate name another one."""
    word, count = re.compile(r"\b%s\b" % other), 0
    for part in ("src", "specs", "proofs"):
        for folder, _, files in os.walk(os.path.join(TOP, "crates", name, part)):
            for file in files:
                with open(os.path.join(folder, file), encoding="utf-8") as text:
                    count += bool(word.search(text.read()))
    return count


def print_paths(needs, most):
    """The number of all paths down from libraries, and the names in lists that most of them go through."""

    @functools.lru_cache(None)
    def down(name):
        return 1 + sum(down(other) for other in needs[name])

    @functools.lru_cache(None)
    def up(name):
        return 1 + sum(up(high) for high in libraries if name in needs[high])

    libraries = [name for name in needs if not is_program(name)]
    edges = sorted(((up(name) * down(other), name, other) for name in libraries for other in needs[name]), reverse=True)
    print("%d paths from %d libraries" % (sum(down(name) for name in libraries), len(libraries)))
    for count, name, other in edges[:most]:
        print("%7d %s: %s, in %d files" % (count, name, other, files_naming(name, other)))


def print_rows(needs, prefix):
    """The crates of this prefix, row by row, the highest first."""
    listed = [name for name in needs if name.startswith(prefix)]

    @functools.lru_cache(None)
    def row(name):
        return 1 + max((row(other) for other in needs[name] if other in listed), default=0)

    for at in range(max(map(row, listed), default=0), 0, -1):
        print("%3d %s" % (at, " ".join(name for name in listed if row(name) == at)))


def merged(needs, groups):
    """The same with each group as one crate, a tuple of the names that it has."""
    one = {name: (name,) for name in needs}
    one.update({name: group for group in groups for name in group})
    joined = {whole: set() for whole in one.values()}
    for name, rest in needs.items():
        joined[one[name]] |= {one[other] for other in rest} - {one[name]}
    return joined


def above(needs, name):
    """All crates that stand on one, in any number of steps."""
    found, waiting = set(), [name]
    while waiting:
        low = waiting.pop()
        for high, rest in needs.items():
            if low in rest and high not in found:
                found.add(high)
                waiting.append(high)
    return found


def main():
    options = argparse.ArgumentParser(description=__doc__, formatter_class=argparse.RawDescriptionHelpFormatter)
    options.add_argument("groups", metavar="GROUP", nargs="*")
    options.add_argument("--paths", metavar="N", nargs="?", type=int, const=20)
    options.add_argument("--rows", metavar="PREFIX")
    given = options.parse_args()
    needs = read_needs()
    if given.rows is not None:
        return print_rows(needs, given.rows)
    if given.paths is not None:
        return print_paths(needs, given.paths)
    groups = [tuple(group.split(",")) for group in given.groups]
    if not groups:
        options.error("no GROUP is given")
    joined = merged(needs, groups)
    now, then = 0, 0
    for group in groups:
        alone = [1 + len(above(needs, name)) for name in group]
        on_it = above(joined, group)
        together = len(group) + sum(len(whole) for whole in on_it - {group})
        cycle = ", a cycle" if group in on_it else ""
        print("%s; as one crate %d%s" % (", ".join("%s %d" % pair for pair in zip(group, alone)), together, cycle))
        now, then = now + sum(alone), then + len(group) * together
    print("in all %d; as these crates %d" % (now, then))


if __name__ == "__main__":
    main()
