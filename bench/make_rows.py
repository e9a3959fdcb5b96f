#!/usr/bin/env python3
"""Asks the definitions themselves: writes a crate of rows that the check has to compute, with what must come out.

    make_rows.py COPY [--mutants N] [--seed S]

COPY is a clone of this repository that may be thrown away: a crate `spec_rows` is added to it. Then `rt check` in
COPY/crates/spec_rows proves each row by computing it. The rows are the small files of make_cases.py, or N damaged copies
of them, each with its picture or its refusal by the reference reader; and for each mode some hundred pairs of pixels.
"""

import argparse
import os
import random

import make_cases
from compare import damaged
from xcf_picture import blend, over, picture_rows
from xcf_reading import KINDS, Refused, read

MODES = {0: "Normal", 3: "Multiply", 4: "Screen", 5: "Overlay", 6: "Difference", 7: "Addition", 8: "Subtract",
         9: "DarkenOnly", 10: "LightenOnly", 15: "Divide", 16: "Dodge", 17: "Burn", 18: "HardLight", 19: "SoftLight",
         20: "GrainExtract", 21: "GrainMerge"}
LONGEST, LARGEST, ROWS_A_FILE = 900, 40, 25
DEPENDENCIES = "spec_document spec_fields spec_rle spec_props spec_hierarchy spec_file"

FILES_HEAD = """-- Files, with their pictures or their refusals.
use Rattle.std.specs.Prelude.{◌≡◌, ℕ, List, [], ◌∷◌, refl, Ok, Err}
use Rattle.spec_fields.specs.declared.Kind.TheVariants.{%s}
use Rattle.spec_fields.specs.Reading.{Read, ◌>>=◌, fault_with}
use Rattle.spec_fields.specs.Field.{name_at}
use Rattle.spec_rle.specs.Reading.{codes_at, code_at}
use Rattle.spec_props.specs.Unit.{names_end, named_end}
use Rattle.spec_props.specs.Reading.{payload_length_at, property_at, end_at, list_at}
use Rattle.spec_hierarchy.specs.Reading.{plain_at, planes_at, tile_at, tiles_at, hierarchy_at}
use Rattle.spec_file.specs.Header.{header_of, side_at}
use Rattle.spec_file.specs.ChannelHead.{named_at, pixels_at, channel_head_at, channel_of}
use Rattle.spec_file.specs.Layers.{pointers_at, head_at, placed, path_of, group_at, mask_at, layer_rule, layer_at, node_at, nodes_at}
use Rattle.spec_file.specs.Channels.{channel_rule, channel_at, channels_at}
use Rattle.spec_file.specs.Reading.{image_rule, beginning, reading}
use Rattle.spec_document.specs.Picture.{picture_bytes}

abbrev answer : List ℕ → Read (List ℕ)
answer file = do
  d ← reading file
  Ok (picture_bytes d 0 0 0 d.width d.height)

""" % ", ".join(KINDS[1:])

UNFOLDING = ("unfolding reading beginning image_rule header_of side_at payload_length_at property_at end_at list_at "
             "pointers_at head_at placed path_of group_at mask_at layer_rule layer_at node_at nodes_at named_at pixels_at "
             "channel_head_at channel_of channel_rule channel_at channels_at name_at plain_at planes_at tile_at tiles_at "
             "hierarchy_at codes_at code_at names_end named_end")

PIXELS_HEAD = """-- Pixels laid over one another, and blended bytes.
use Rattle.std.specs.Prelude.{◌≡◌, ℕ, List, [], ◌∷◌, refl}
use Rattle.spec_document.specs.declared.Mode.TheVariants.{%s}
use Rattle.spec_document.specs.declared.Pixel.{Pixel}
use Rattle.spec_document.specs.Blend.{blend}
use Rattle.spec_document.specs.Over.{over}

abbrev px : ℕ → ℕ → ℕ → ℕ → Pixel
px r g b a = record { r = r; g = g; b = b; a = a }

""" % ", ".join(MODES.values())


def listed(items):
    return " ∷ ".join([str(item) for item in items] + ["[]"])


def answer(data):
    """What the reference reader answers, or None where the picture is too large to be computed here."""
    try:
        doc = read(data)
    except Refused as refused:
        return "Err (fault_with %s %d %d)" % (refused.kind, refused.at, refused.value)
    if doc.width * doc.height > LARGEST:
        return None
    return "Ok (%s)" % listed(b"".join(picture_rows(doc)))


def small_files(count, draw):
    for make in make_cases.SUBJECTS:
        make()
    files = [(name, data) for name, data, _ in make_cases.CASES if len(data) <= LONGEST]
    if count == 0:
        return files
    drawn = [draw.choice([file for file in files if file[1]]) for _ in range(count)]
    return [(name, damaged(data, draw)) for name, data in drawn]


def file_rows(count, draw):
    rows = []
    for name, data in small_files(count, draw):
        wanted = answer(data)
        if wanted is not None and len(data) <= LONGEST:
            rows.append("-- %s\nrow_%d : answer (%s) ≡ %s\n%s\nrow_%d = refl\n" % (
                name, len(rows), listed(data), wanted, UNFOLDING, len(rows)))
    return rows


def byte(draw):
    return draw.choice((0, 1, 2, 127, 128, 129, 254, 255) + tuple(draw.randrange(256) for _ in range(8)))


def pixel(draw):
    return sum(byte(draw) << shift for shift in (0, 8, 16, 24))


def spelled(value):
    return "(px %d %d %d %d)" % tuple(value >> shift & 255 for shift in (0, 8, 16, 24))


def pixel_rows(draw):
    rows = []
    for code, mode in MODES.items():
        below = [value if value >> 24 else 0 for value in (pixel(draw) for _ in range(250))]
        pairs = [(value, pixel(draw)) for value in below]
        rows.append("over_%d : %s ≡ %s\nover_%d = refl\n" % (
            code, listed("over %s %s %s" % (mode, spelled(b), spelled(a)) for b, a in pairs),
            listed(spelled(over(code, b, a)) for b, a in pairs), code))
        colours = [(byte(draw), byte(draw)) for _ in range(400)]
        rows.append("blend_%d : %s ≡ %s\nblend_%d = refl\n" % (
            code, listed("blend %s %d %d" % (mode, i, m) for i, m in colours),
            listed(blend(code, i, m) for i, m in colours), code))
    return rows


def write(path, text):
    os.makedirs(os.path.dirname(path), exist_ok=True)
    with open(path, "w", encoding="utf-8") as file:
        file.write(text)


def main():
    parser = argparse.ArgumentParser(description=__doc__, formatter_class=argparse.RawDescriptionHelpFormatter)
    parser.add_argument("copy", metavar="COPY")
    parser.add_argument("--mutants", type=int, default=0, metavar="N")
    parser.add_argument("--seed", type=int, default=1, metavar="S")
    given = parser.parse_args()
    crate, draw = os.path.join(given.copy, "crates", "spec_rows"), random.Random(given.seed)
    rows, names = file_rows(given.mutants, draw), ["Pixels"]
    write(os.path.join(crate, "proofs", "Pixels.antt"), PIXELS_HEAD + "\n".join(pixel_rows(draw)))
    for start in range(0, len(rows), ROWS_A_FILE):
        names.append("Files%d" % (start // ROWS_A_FILE))
        write(os.path.join(crate, "proofs", names[-1] + ".antt"), FILES_HEAD + "\n".join(rows[start:start + ROWS_A_FILE]))
    write(os.path.join(crate, "proofs", "Lib.antt"), "".join("mod %s\n" % name for name in names))
    write(os.path.join(crate, "src", "lib.rt"), "//! Rows that are computed.\n#![tactic(auto)]\n\n/// Nothing.\npub fn nothing() {}\n")
    with open(os.path.join(given.copy, "crates.txt"), "r+", encoding="utf-8") as file:
        if "spec_rows:" not in file.read():
            file.write("spec_rows: %s\n" % DEPENDENCIES)
    print("%d files, %d rows of pixels: now `rt check` in %s" % (len(rows), 2 * len(MODES), crate))


if __name__ == "__main__":
    main()
