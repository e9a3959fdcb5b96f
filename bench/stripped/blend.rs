//! Times `over_row` in each mode: nanoseconds a pixel, the best of many runs. Columns and checksums are those of bench/blend.
use std::marker::PhantomData;
use std::time::Instant;
use xl_blend::{over_row, Mode, Pixel, Plain, Steps};

const PIXELS: usize = 1024;
const ROUNDS: usize = 8;
const RUNS: usize = 3000;
const MODES: [Mode; 16] = [
    Mode::Normal, Mode::Multiply, Mode::Screen, Mode::Overlay, Mode::Difference, Mode::Addition,
    Mode::Subtract, Mode::DarkenOnly, Mode::LightenOnly, Mode::Divide, Mode::Dodge, Mode::Burn,
    Mode::HardLight, Mode::SoftLight, Mode::GrainExtract, Mode::GrainMerge,
];

#[derive(Clone, Copy)]
enum Alphas {
    Opaque,
    Mixed,
    Clear,
}

fn pixels(seed: u32, alphas: Alphas) -> Vec<Pixel> {
    let mut x = seed;
    let mut next = || {
        x = x.wrapping_mul(1664525).wrapping_add(1013904223);
        x.to_be_bytes()
    };
    let mut pixel = || {
        let [r, g, b, _] = next();
        let [mixed, ..] = next();
        let a = match alphas {
            Alphas::Opaque => 255,
            Alphas::Mixed => mixed,
            Alphas::Clear => 0,
        };
        Pixel { r, g, b, a }
    };
    (0..PIXELS).map(|_| pixel()).collect()
}

#[inline(never)]
fn restore(row: &mut [Pixel], from: &[Pixel]) {
    row.copy_from_slice(from);
}

#[inline(never)]
fn rounds(mode: Mode, row: &mut [Pixel], below: &[Pixel], above: &[Pixel]) {
    let mut steps = Steps::<Plain>(0, PhantomData);
    for _ in 0..ROUNDS {
        restore(row, below);
        over_row(mode, row, above, &mut steps);
    }
}

fn sum(row: &[Pixel]) -> u32 {
    row.iter().fold(0, |all: u32, p| all.wrapping_mul(16777619) ^ u32::from_le_bytes([p.r, p.g, p.b, p.a]))
}

fn time(mode: Mode, below: Alphas, above: Alphas) -> (f64, u32) {
    let (below, above, mut row) = (pixels(7, below), pixels(9, above), pixels(7, Alphas::Clear));
    let best = (0..RUNS).map(|_| {
        let start = Instant::now();
        rounds(mode, &mut row, &below, &above);
        start.elapsed().as_nanos()
    });
    (best.min().unwrap() as f64 / (ROUNDS * PIXELS) as f64, sum(&row))
}

fn main() {
    println!("mode           opaque  mixed  clear  cover   sums");
    for mode in MODES {
        let (opaque, a) = time(mode, Alphas::Opaque, Alphas::Mixed);
        let (mixed, b) = time(mode, Alphas::Mixed, Alphas::Mixed);
        let (clear, c) = time(mode, Alphas::Mixed, Alphas::Clear);
        let (covered, d) = time(mode, Alphas::Mixed, Alphas::Opaque);
        let sums = a ^ b.rotate_left(8) ^ c.rotate_left(16) ^ d.rotate_left(24);
        println!("{:<14} {opaque:>6.2} {mixed:>6.2} {clear:>6.2} {covered:>6.2}   {sums:08x}", format!("{mode:?}"));
    }
}
