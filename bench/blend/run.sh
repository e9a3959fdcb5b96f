#!/bin/sh
# Times each blend mode of `over_row`, in nanoseconds a pixel, on rows of 1024 pixels that lie in the cache.
#
#     bench/blend/run.sh [FOLDER]
#
# The source stands in main.rt.txt, since a source file of the language stands only in a crate of crates.txt. It is
# laid over a copy of the two crates that it needs, in FOLDER or in a temporary one, and proved and run there.
# A given FOLDER is kept, so that a second run proves only what changed.
#
# A line gives the mode, four times and a checksum of the four results, by which two builds can be compared:
#     opaque  a source of mixed alpha over an opaque row
#     mixed   a source of mixed alpha over a row of mixed alpha
#     clear   a clear source over a row of mixed alpha
#     cover   an opaque source over a row of mixed alpha
# Each time includes a copy of the row, which takes less than a tenth of a nanosecond a pixel.
set -eu

here=$(cd "$(dirname "$0")" && pwd)
top=$(cd "$here/../.." && pwd)
if [ $# -gt 0 ]; then
    mkdir -p "$1"
    copy=$(cd "$1" && pwd)
else
    copy=$(mktemp -d)
    trap 'rm -rf "$copy"' EXIT
fi

for crate in spec_document xl_blend; do
    mkdir -p "$copy/crates/$crate"
    for part in src specs proofs; do
        rm -rf "$copy/crates/$crate/$part"
        cp -r "$top/crates/$crate/$part" "$copy/crates/$crate/$part"
    done
done

times=$copy/crates/blend_times
mkdir -p "$times/src" "$times/proofs/rounds_by_themselves"
cp "$here/main.rt.txt" "$times/src/main.rt"
cat > "$times/proofs/rounds_by_themselves/Invariants.antt" <<'TEXT'
use Rattle.blend_times.proofs.rounds_by_themselves.Given as goal

abbrev pub ghosts-rounds : goal.ghosts-rounds
ghosts-rounds a = record { name = a.blank.name; parts = a.blank.parts }
TEXT
printf 'spec_document:\nxl_blend: spec_document\nblend_times: xl_blend\n' > "$copy/crates.txt"

cd "$times"
if ! rt run > "$copy/log" 2>&1; then
    tail -n 40 "$copy/log"
    exit 1
fi
out/blend_times
