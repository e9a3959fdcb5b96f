#!/bin/sh
# Times the loops over pixels without proving them: their text without contracts, compiled by rustc.
#
#     bench/stripped/run.sh FOLDER [FILE]
#
# prints the nanoseconds a pixel of each mode, as bench/blend/run.sh does of the proved loops, and leaves in FOLDER the programs
# `blend` and `render`. With FILE, one of those of make_layers.py and make_flat.py, it prints also the seconds of user and system that
# the picture takes, the best of RUNS runs (10), and the SHA-256 of the PAM. `render` reads the file in its own plain way and has the
# engine's loops; COLUMNS_AT_A_TIME is how many columns of a layer it unpacks at a time (512, as the engine).
set -eu

here=$(cd "$(dirname "$0")" && pwd)
top=$(cd "$here/../.." && pwd)
[ $# -ge 1 ] || { sed -n '2,10s/^# \{0,1\}//p' "$0"; exit 2; }
mkdir -p "$1"
out=$(cd "$1" && pwd)

# stripped CRATE WITHOUT: all modules but these
stripped() {
    python3 "$here/strip.py" "$top" "$out" "$1" $(cd "$top/crates/$1/src" && ls | sed 's/\.rt$//' | grep -vxE "$2")
}

stripped spec_document 'none'
stripped spec_rle 'none'
stripped xl_blend 'tests|count'
stripped xl_rle 'lib|coder|greedy|tests'
python3 "$here/strip.py" "$top" "$out" xl_tile join block planes run_length rows
python3 "$here/strip.py" "$top" "$out" xl_compose own lay bytes

# a counter of steps that is a number
cat > "$out/xl_blend/count.rs" <<'TEXT'
pub trait Ledger {}
pub struct Plain;
impl Ledger for Plain {}
pub struct Steps<L: Ledger>(pub u64, pub core::marker::PhantomData<L>);
impl<L: Ledger> Steps<L> {
    pub fn add(&mut self, pixels: u64) {
        self.0 += pixels;
    }
}
TEXT
sed -i 's/use std::sync::ledger::Ledger;/use crate::count::Ledger;/' "$out"/xl_blend/*.rs
sed -i '1i #![feature(portable_simd)]' "$out/xl_blend/lib.rs"
sed -i '/^mod tests;/d; /cfg(test)/d; s/pub use count::Steps;/pub use count::{Ledger, Plain, Steps};/' "$out/xl_blend/lib.rs"
sed -i 's/use std::sync::ledger::Ledger;/use xl_blend::Ledger;/' "$out"/xl_compose/*.rs
mkdir -p "$out/xl_fields"
cat > "$out/xl_fields/lib.rs" <<'TEXT'
#[derive(Clone, Copy, Debug)]
pub enum Kind { Truncated, BadRun }
#[derive(Clone, Copy, Debug)]
pub struct ReadRefused { pub kind: Kind, pub at: usize }
pub fn refuse(kind: Kind, at: usize) -> ReadRefused { ReadRefused { kind, at } }
TEXT
rm -f "$out/xl_rle/lib.rs"
modules=$(cd "$out/xl_rle" && ls | sed 's/\.rs$//')
{ for module in $modules; do echo "mod $module;"; done; echo 'pub use check::check_plane; pub use decode::decode_plane;'; } > "$out/xl_rle/lib.rs"
echo 'pub mod join; pub mod block; pub mod planes; pub mod run_length; pub mod rows;' > "$out/xl_tile/lib.rs"
echo 'pub mod own; pub mod lay; pub mod bytes;' > "$out/xl_compose/lib.rs"

export RUSTC_BOOTSTRAP=1 # for vectors
flags="-L $out --edition 2021 -A warnings -C opt-level=3 -C target-cpu=x86-64-v2 -C debuginfo=1"
libraries=
for crate in spec_document spec_rle xl_fields xl_blend xl_rle xl_tile xl_compose; do
    rustc $flags $libraries --crate-type rlib --crate-name "$crate" "$out/$crate/lib.rs" -o "$out/lib$crate.rlib"
    libraries="$libraries --extern $crate=$out/lib$crate.rlib"
done
for program in blend render; do
    rustc $flags $libraries -C lto=fat "$here/$program.rs" -o "$out/$program"
done

"$out/blend"
if [ $# -gt 1 ]; then
    run=0
    : > "$out/times"
    while [ "$run" -lt "${RUNS:-10}" ]; do
        /usr/bin/time -a -o "$out/times" -f '%U %S' "$out/render" "$2" > /dev/null
        run=$((run + 1))
    done
    sort -n "$out/times" | head -n 1
    "$out/render" "$2" | sha256sum
fi
