#!/bin/sh
# Times `BIN render` and the same work by other programs, where they are installed, on large files, and `BIN edit`: saves, all
# tiles, fills beside workers, sessions beside each other.
#
#     bench/run.sh BIN [FOLDER]
#
# BIN is the proved program (`rt run` leaves it in crates/xcfedit/out/xcfedit). FOLDER takes the files, about 800 MB,
# and keeps them for the next run; without it a temporary one is used and removed. The best of RUNS runs counts (3).
set -eu

here=$(cd "$(dirname "$0")" && pwd)
if [ $# -lt 1 ] || [ ! -x "$1" ]; then
    sed -n '2,9s/^# \{0,1\}//p' "$0"
    exit 2
fi
bin=$(cd "$(dirname "$1")" && pwd)/$(basename "$1")
runs=${RUNS:-3}
if [ $# -gt 1 ]; then
    mkdir -p "$2"
    folder=$(cd "$2" && pwd)
else
    folder=$(mktemp -d)
    trap 'rm -rf "$folder"' EXIT
fi

# made NAME SCRIPT: the file or folder, unless it is there
made() {
    [ -e "$folder/$1" ] || { echo "making $1" >&2; python3 "$here/$2" "$folder/$1"; }
}

# best NAME TOOL WORDS..: a line with the seconds, those of all processors, and the peak memory of the fastest of the runs
best() {
    file=$1 tool=$2
    shift 2
    i=0
    : > "$folder/times"
    while [ "$i" -lt "$runs" ]; do
        /usr/bin/time -f '%e %U %S %M' -o "$folder/one" "$@" > /dev/null 2> "$folder/errors" || {
            printf '%-12s %-20s failed: %s\n' "$file" "$tool" "$(head -n 1 "$folder/errors")"
            return 0
        }
        cat "$folder/one" >> "$folder/times"
        i=$((i + 1))
    done
    sort -n "$folder/times" | head -n 1 | awk -v file="$file" -v tool="$tool" \
        '{ printf "%-12s %-20s %8.2f s %8.2f s of processors %8.0f MB\n", file, tool, $1, $2 + $3, $4 / 1024 }'
}

# has NAME TEXT: whether a program is there, and tells this of its version
has() {
    command -v "$1" > /dev/null 2>&1 && "$1" --version 2> /dev/null | grep -qi "$2"
}

# checked FILE: the picture is the one that the reference reader found
checked() {
    wanted=$(awk -v file="$1" '$1 == file { print $2 }' "$here/digests.txt")
    got=$("$bin" render "$folder/$1" | sha256sum | cut -d ' ' -f 1)
    [ "$wanted" = "$got" ] || { echo "$1: the picture is not that of the reference reader"; exit 1; }
}

# by_one NAME WORDS..: the same of the program on one processor, named by the first of the words
by_one() {
    file=$1
    shift
    if command -v taskset > /dev/null 2>&1; then
        first=$(taskset -cp $$ | sed 's/.*: *//; s/[,-].*//')
        best "$file" "$1, 1 processor" taskset -c "$first" "$bin" "$@"
    fi
}

gimp_words() {
    echo "(let* ((image (car (gimp-file-load RUN-NONINTERACTIVE \"$1\" \"$1\")))) (gimp-image-merge-visible-layers image CLIP-TO-IMAGE) (gimp-quit 0))"
}

made plain.xcf make_plain.py
made layers.xcf make_layers.py
made cases make_cases.py

for file in plain.xcf layers.xcf; do
    checked "$file"
    best "$file" xcfedit "$bin" render "$folder/$file"
    by_one "$file" render "$folder/$file"
    if has magick "^version: imagemagick"; then
        best "$file" magick magick "$folder/$file" -background none -flatten pam:/dev/null
    elif has convert "^version: imagemagick"; then
        best "$file" convert convert "$folder/$file" -background none -flatten pam:/dev/null
    fi
    for gimp in gimp-console gimp-console-2.10 gimp-console-3.0; do
        if has "$gimp" "image manipulation program version"; then
            best "$file" "$gimp" "$gimp" --no-interface --no-data --no-fonts -b "$(gimp_words "$folder/$file")"
            break
        fi
    done
    if has krita "^krita [0-9]"; then
        best "$file" krita env QT_QPA_PLATFORM=offscreen krita --export --export-filename "$folder/krita.ppm" "$folder/$file"
    fi
done

# ten layers of one colour each
made flat.xcf make_flat.py
best flat.xcf xcfedit "$bin" render "$folder/flat.xcf"
by_one flat.xcf render "$folder/flat.xcf"

# the ten layers read and told as JSON: what reading a file costs
best layers.xcf "xcfedit info" "$bin" info "$folder/layers.xcf"
by_one layers.xcf info "$folder/layers.xcf"

# saved NAME WORKERS LINE: a copy of the file, loaded and saved again
saved() {
    cp "$folder/$1" "$folder/saved.xcf"
    best "$1" "$3" sh -c 'echo "0 save" | "$0" edit "$1" --workers "$2"' "$bin" "$folder/saved.xcf" "$2"
    rm "$folder/saved.xcf"
}
saved layers.xcf 0 "xcfedit save"
saved layers.xcf 2 "save, 2 workers"
saved flat.xcf 0 "xcfedit save"

# every tile of the ten layers, each composed once and its digest printed
[ -e "$folder/tiles.txt" ] || awk 'BEGIN { for (row = 0; row < 47; row++) for (col = 0; col < 63; col++) print "0 tile 0", col, row }' > "$folder/tiles.txt"
best layers.xcf "all 2961 tiles" sh -c '"$0" edit "$1" --workers 0 < "$2"' "$bin" "$folder/layers.xcf" "$folder/tiles.txt"

# 1000 fills of up to 64 by 64 with a tile after each ten, on the ten layers: the first node is a group, so its layer is 2
[ -e "$folder/fills.txt" ] || python3 "$here/make_edits.py" "$folder/fills.txt" --size 4000 3000 --fills 1000 --up-to 64 --layer 2
for workers in 0 2 4; do
    best layers.xcf "edit, $workers workers" sh -c '"$0" edit "$1" --workers "$2" < "$3"' "$bin" "$folder/layers.xcf" "$workers" "$folder/fills.txt"
done

# 200 fills of 32 by 32 with a tile after each ten, on a document of 512 by 512 with three layers
[ -e "$folder/small.xcf" ] || python3 "$here/make_plain.py" "$folder/small.xcf" --size 512 512
made edits.txt make_edits.py
best small.xcf "xcfedit edit" sh -c '"$0" edit "$1" < "$2"' "$bin" "$folder/small.xcf" "$folder/edits.txt"

# a file of one pixel, a hundred times: what a start and an end cost
/usr/bin/time -f '%e' -o "$folder/one" sh -c '
    i=0
    while [ "$i" -lt 100 ]; do
        "$0" render "$1" > /dev/null
        i=$((i + 1))
    done' "$bin" "$folder/cases/files/one.xcf"
awk '{ printf "%-12s %-20s %8.2f ms each\n", "one.xcf", "xcfedit", 10 * $1 }' "$folder/one"

# a long save beside eight workers that have nothing to do, and without them
python3 "$here/idle_workers.py" --binary "$bin" --folder "$folder" --runs "$runs" || true

# eight sessions beside each other, and the same calls by one
python3 "$here/sessions.py" --binary "$bin" --folder "$folder"
