#!/bin/bash
# run.sh [ROUNDS [FOLDER]]: times a turn alone and with eight threads, beside a mutex at the same work. RUNS=5 for the best of five.
# It needs rt and rustc. It proves and builds a crate in a folder of its own, and leaves the repository as it is. A FOLDER that is
# named is kept, so that the next run there has nothing to prove.
set -euo pipefail
here=$(cd "$(dirname "$0")" && pwd)
top=$(cd "$here/../.." && pwd)
rounds=${1:-1000000}
runs=${RUNS:-3}
folder=${2:-}
if [ -z "$folder" ]; then
    folder=$(mktemp -d)
    trap 'rm -rf "$folder"' EXIT
fi

crate=$folder/crates/turn_times
mkdir -p "$crate/src" "$crate/proofs/turns/take_turns" "$folder/crates/xl_turn" "$folder/crates/xl_wait"
cp -r "$top/crates/xl_turn/src" "$top/crates/xl_turn/specs" "$top/crates/xl_turn/proofs" "$folder/crates/xl_turn/"
cp -r "$top/crates/xl_wait/src" "$folder/crates/xl_wait/"
cp "$top/HANDLES" "$folder/HANDLES"
{
    grep -E '^xl_(wait|turn) ' "$top/crates.txt"
    echo 'turn_times: xl_turn'
} > "$folder/crates.txt"
for file in "$here"/*.rt.txt; do
    cp "$file" "$crate/src/$(basename "$file" .txt)"
done
cp "$here/take_turns.antt.txt" "$crate/proofs/turns/take_turns/Invariants.antt"
echo > "$crate/proofs/Lib.antt"

(cd "$crate" && rt run -- 8 > "$folder/build.log" 2>&1) || { cat "$folder/build.log"; exit 1; }
rustc -O -o "$folder/mutex" "$here/mutex.rs"

for _ in $(seq "$runs"); do
    "$crate/out/turn_times" "$rounds"
    "$folder/mutex" "$rounds"
done | awk -F' turns | ns' '
    { n = split($1, words, " "); count = words[n]; sub(" " count "$", "", $1); each = $2 / count
      if (!($1 in best)) order[++rows] = $1
      if (!($1 in best) || each < best[$1]) best[$1] = each }
    END { for (row = 1; row <= rows; row++) printf "%-34s %10.1f ns a turn\n", order[row], best[order[row]] }'
