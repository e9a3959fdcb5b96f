#!/usr/bin/env python3
"""Strips the contracts from sources, so that rustc compiles them: strip.py REPOSITORY OUT CRATE MODULE..

Writes OUT/CRATE/MODULE.rs for each module. Indices are taken without a bounds check, since proved code has none.
"""

import os
import re
import sys

CLAUSE = re.compile(r"^\s*(requires|ensures)\b.*\{")
GHOST = re.compile(r"^\s*(pub )?ghost\b")
NAME = re.compile(r"[A-Za-z_]\w*(?:\.\w+)*$")
ASSIGNED = re.compile(r"\s*[-+|^&]?=[^=]")
SWIZZLED = re.compile(r"([\w.]+(?:\([^()]*\))?)\.swizzle\((\[[^\]]*\])\)")
WIDE = re.compile(r"(u32x16::splat\(\d+\)\)) >> (\d+)")
SHIFTED = re.compile(r">> (\d+)")
FILLED = re.compile(r"\.(fill|copy_from_slice)\(")


def without_clauses(text):
    out, lines, at = [], text.split("\n"), 0
    while at < len(lines):
        line = lines[at]
        at += 1
        if CLAUSE.match(line) or (GHOST.match(line) and "{" in line):
            depth = line.count("{") - line.count("}")
            while depth > 0:
                depth += lines[at].count("{") - lines[at].count("}")
                at += 1
        elif GHOST.match(line):
            while ";" not in lines[at - 1]:
                at += 1
        elif "#![tactic" not in line and "#[tactic" not in line and not line.lstrip().startswith("prove!"):
            out.append(line)
    return "\n".join(out)


def with_vectors(text):
    """The few functions on vectors that have other forms in Rust."""
    if "std::simd" not in text:
        return text
    text = SWIZZLED.sub(r"std::simd::simd_swizzle!(\1, \2)", text)
    text = WIDE.sub(r"\1 >> u32x16::splat(\2)", text)
    text = SHIFTED.sub(r">> u16x16::splat(\1)", text)
    return text.replace("use std::simd::prelude::*;", "use std::simd::{Select, ToBytes, prelude::*};")


def closing(text, at):
    """The place behind the bracket that closes the one before `at`."""
    depth = 1
    while depth:
        depth += (text[at] == "[") - (text[at] == "]")
        at += 1
    return at


def unchecked(text):
    out, at = "", 0
    while at < len(text):
        if text[at] != "[" or not NAME.search(out) or out.endswith(("in", "return", "mut", "vec")):
            out += text[at]
            at += 1
            continue
        end = closing(text, at + 1)
        index, rest, name = unchecked(text[at + 1:end - 1]), text[end:], NAME.search(out).group(0)
        out = out[:-len(name)]
        taken = f"(unsafe {{ {name}.get_unchecked({index}) }})"
        taken_mut = f"(unsafe {{ {name}.get_unchecked_mut({index}) }})"
        if out.endswith("&mut "):
            out = out[:-5] + taken_mut
        elif out.endswith("&"):
            out = out[:-1] + taken
        elif FILLED.match(rest):
            out += taken_mut
        elif ASSIGNED.match(rest):
            out += "*" + taken_mut
        else:
            out += "*" + taken
        at = end
    return out


def main():
    repository, out, crate = sys.argv[1:4]
    os.makedirs(os.path.join(out, crate), exist_ok=True)
    for module in sys.argv[4:]:
        with open(os.path.join(repository, "crates", crate, "src", module + ".rt")) as file:
            text = with_vectors(unchecked(without_clauses(file.read())))
        with open(os.path.join(out, crate, module + ".rs"), "w") as file:
            file.write(text)


if __name__ == "__main__":
    main()
