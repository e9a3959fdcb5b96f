#!/usr/bin/env python3
"""How long the sentences of a page are.

    count_words.py PAGE.. [--above N]

For each page: how many sentences it has outside of its tables and examples, their words on average, and of how many words the
longest is. With --above each sentence of more than N words is told, with its line. What stands in backticks counts as one word, and
a link by its text. A sentence ends at a point, a question mark or an exclamation mark behind which a blank stands, or with its
paragraph or item. The last line has the sums.
"""

import argparse
import re

ITEM = re.compile(r"\s*(?:[-*]|\d+\.)\s+")
END = re.compile(r"(?<=[.!?])[*)]*\s+(?=[*(`\[A-Z0-9'])")


def paragraphs(lines):
    """The paragraphs and items of a page: the number of the first line of each, and its text."""
    found, fenced = [], False
    going = False
    in_list = False
    for number, line in enumerate(lines, 1):
        if line.startswith("```"):
            fenced = not fenced
        indent = len(line) - len(line.lstrip())
        if fenced or not line.strip() or line.startswith(("#", "```")) or line.lstrip().startswith("|"):
            going = False
            in_list = in_list and not line.startswith("#")
            continue
        if ITEM.match(line) and (in_list or indent < 4):
            found.append((number, ITEM.sub("", line, count=1)))
            going = in_list = True
        elif going:
            found[-1] = (found[-1][0], found[-1][1] + " " + line.strip())
        elif indent < (6 if in_list else 4):
            found.append((number, line.strip()))
            going = True
            in_list = in_list and indent > 0
    return found


def plain(text):
    text = re.sub(r"!?\[([^\]]*)\]\([^)]*\)", r"\1", text)
    return re.sub(r"`+[^`]*`+", "Code", text)


def sentences(path):
    with open(path, encoding="utf-8") as file:
        lines = file.read().split("\n")
    for number, text in paragraphs(lines):
        for sentence in END.split(plain(text)):
            words = [word for word in sentence.split() if re.search(r"\w", word)]
            if words:
                yield number, len(words), sentence


def main():
    parser = argparse.ArgumentParser(description=__doc__, formatter_class=argparse.RawDescriptionHelpFormatter)
    parser.add_argument("pages", metavar="PAGE", nargs="+")
    parser.add_argument("--above", type=int, metavar="N")
    given = parser.parse_args()
    count, total, most = 0, 0, 0
    for page in given.pages:
        found = list(sentences(page))
        if not found:
            continue
        lengths = [length for _, length, _ in found]
        print("%6d sentences, %5.1f words on average, %3d at most: %s"
              % (len(lengths), sum(lengths) / len(lengths), max(lengths), page))
        count, total, most = count + len(lengths), total + sum(lengths), max(most, max(lengths))
        for number, length, sentence in found:
            if given.above is not None and length > given.above:
                print("    line %d, %d words: %s" % (number, length, sentence))
    if count:
        print("%6d sentences, %5.1f words on average, %3d at most" % (count, total / count, most))


if __name__ == "__main__":
    main()
