#!/bin/sh
# Shows that an undo and a redo take no memory where there is room for one call: of a run's allocations each fails once.
#
#     bench/memory/run.sh [FOLDER]
#
# The source stands in main.rt.txt, since a source file of the language stands only in a crate of crates.txt. It is laid over a
# copy of the repository, in FOLDER or in a temporary one, and run there without a proof.
#
# The allocation with one number fails, and the runs take more and more memory ahead of it. So the line of a call tells at which of
# its steps that one came: so often before the call, so often within it, and so often where memory was taken right behind it. Where
# the call takes none it is never within, and just once behind. A run takes about a second; FROM, TO and STEP leave some out, so that
# the place of the call is found first, and then looked at closely.
set -eu

number=400
here=$(cd "$(dirname "$0")" && pwd)
top=$(cd "$here/../.." && pwd)
if [ $# -gt 0 ]; then
    mkdir -p "$1"
    copy=$(cd "$1" && pwd)
else
    copy=$(mktemp -d)
    trap 'rm -rf "$copy"' EXIT
fi
[ -d "$copy/tree" ] || git clone -q "$top" "$copy/tree"
memory=$copy/tree/crates/undo_memory
if [ ! -d "$memory" ]; then
    mkdir -p "$memory/src"
    echo 'undo_memory: sample_bytes sample_documents xl_ports xl_fakes xl_blend xl_filters xl_calls xl_core' >> "$copy/tree/crates.txt"
fi
cp "$here/main.rt.txt" "$memory/src/main.rt"

cases=$copy/cases
rm -rf "$cases"
mkdir "$cases"
for call in undo redo; do
    count=${FROM:-0}
    while [ $count -lt ${TO:-$number} ]; do
        printf '%s\n%d\n' $call $count > "$cases/$call-$count.args"
        : > "$cases/$call-$count"
        count=$((count + ${STEP:-1}))
    done
done
cd "$memory"
rt try --fail-alloc $number --cases "$cases" > "$copy/log" 2>&1 || true
tail -n 3 "$copy/log"
