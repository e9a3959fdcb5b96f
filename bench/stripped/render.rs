//! The picture of a large file by the engine's loops, around which the file is read in a plain way: `render FILE > PAM`.
//!
//! It takes files as make_layers.py and make_flat.py write them: layers of the canvas's size, RGBA, run-length coded.
use std::io::{Read, Write};
use std::marker::PhantomData;
use xl_blend::{fade_row, fade_row_by, mode_of, Mode, Pixel, Plain, Steps};
use xl_compose::{bytes::write_row, lay::lay_part, own::own_row};
use xl_tile::block::{Block, Spot};
use xl_tile::planes::join_block;
use xl_tile::run_length::planes_at;

const CLEAR: Pixel = Pixel { r: 0, g: 0, b: 0, a: 0 };

struct Plane {
    width: usize,
    bpp: usize,
    height: usize,
    tiles: Vec<usize>,
}

struct Layer {
    plane: Plane,
    mask: Option<Plane>,
    mode: Mode,
    opacity: u8,
    is_group: bool,
    depth: usize,
}

/// What is taken once.
struct Room {
    bytes: Vec<u8>,
    masks: Vec<u8>,
    tile: Vec<u8>,
    row: Vec<Pixel>,
    columns: usize,
}

fn word(file: &[u8], at: usize) -> usize {
    u32::from_be_bytes(file[at..at + 4].try_into().unwrap()) as usize
}

fn side(len: usize, tile: usize) -> usize {
    (len - 64 * tile).min(64)
}

fn check(file: &[u8], at: usize, count: usize, bpp: usize) {
    let mut at = at;
    for _ in 0..bpp {
        at = xl_rle::check_plane(file, at, count).unwrap();
    }
}

fn plane(file: &[u8], at: usize) -> Plane {
    let (width, height, bpp) = (word(file, at), word(file, at + 4), word(file, at + 8));
    let level = word(file, at + 12);
    let (across, down) = ((width + 63) / 64, (height + 63) / 64);
    let tiles: Vec<usize> = (0..across * down).map(|k| word(file, level + 8 + 4 * k)).collect();
    for (k, at) in tiles.iter().enumerate() {
        check(file, *at, side(width, k % across) * side(height, k / across), bpp);
    }
    Plane { width, height, bpp, tiles }
}

fn layer(file: &[u8], at: usize, is_mask: bool) -> Layer {
    let name = at + if is_mask { 8 } else { 12 };
    let mut at = name + 4 + word(file, name);
    let (mut mode, mut opacity, mut is_group, mut depth) = (Mode::Normal, 255, false, 1);
    loop {
        let (kind, len) = (word(file, at), word(file, at + 4));
        at += 8;
        match kind {
            0 => break,
            6 => opacity = word(file, at) as u8,
            7 => mode = mode_of(word(file, at) as u32).unwrap(),
            29 => is_group = true,
            30 => depth = len / 4,
            _ => {}
        }
        at += len;
    }
    let mask = match word(file, at + 4) {
        place if !is_mask && place > 0 => Some(layer(file, place, true).plane),
        _ => None,
    };
    Layer { plane: plane(file, word(file, at)), mask, mode, opacity, is_group, depth }
}

fn read_columns(file: &[u8], plane: &Plane, x: usize, wide: usize, y: usize, out: &mut [u8], room: &mut [u8]) {
    let (across, row) = ((plane.width + 63) / 64, y / 64);
    for col in x / 64..(x + wide + 63) / 64 {
        let (w, h) = (side(plane.width, col), side(plane.height, row));
        let planes = &mut room[..w * h * plane.bpp];
        planes_at(file, plane.tiles[row * across + col], w * h, plane.bpp, planes).unwrap();
        let to = Spot { x: 64 * col - x, y: 0, stride: wide };
        let from = Spot { x: 0, y: 0, stride: w };
        join_block(out, to, planes, w * h, from, Block { w, h, bpp: plane.bpp });
    }
}

#[inline(never)]
fn lay_layer(file: &[u8], mode: Mode, layer: &Layer, y: usize, high: usize, picture: &mut [Pixel], room: &mut Room, steps: &mut Steps<Plain>) {
    let width = layer.plane.width;
    let mut x = 0;
    while x < width {
        let wide = room.columns.min(width - x);
        read_columns(file, &layer.plane, x, wide, y, &mut room.bytes, &mut room.tile);
        if let Some(mask) = &layer.mask {
            read_columns(file, mask, x, wide, y, &mut room.masks, &mut room.tile);
        }
        for r in 0..high {
            let row = &mut room.row[..wide];
            own_row(1, &[], &room.bytes[4 * r * wide..4 * (r + 1) * wide], row);
            if layer.opacity < 255 {
                fade_row(row, layer.opacity);
            }
            if layer.mask.is_some() {
                fade_row_by(row, &room.masks[r * wide..(r + 1) * wide]);
            }
            lay_part(mode, picture, r * width + x, row, steps);
        }
        x += wide;
    }
}

/// The nodes of one depth, the lowest last. A group stands before its layers.
fn lay_stack(file: &[u8], nodes: &[Layer], y: usize, high: usize, picture: &mut [Pixel], levels: &mut [Pixel], room: &mut Room, steps: &mut Steps<Plain>) {
    picture.fill(CLEAR);
    let depth = nodes.first().map_or(0, |node| node.depth);
    let mut end = nodes.len();
    while end > 0 {
        let at = (0..end).rev().find(|at| nodes[*at].depth == depth).unwrap();
        let node = &nodes[at];
        let mode = if end < nodes.len() { node.mode } else { Mode::Normal };
        if node.is_group {
            let (level, rest) = levels.split_at_mut(picture.len());
            lay_stack(file, &nodes[at + 1..end], y, high, level, rest, room, steps);
            fade_row(level, node.opacity);
            lay_part(mode, picture, 0, level, steps);
        } else {
            lay_layer(file, mode, node, y, high, picture, room, steps);
        }
        end = at;
    }
}

fn main() {
    let mut input = std::fs::File::open(std::env::args().nth(1).expect("a file")).unwrap();
    let mut file = Vec::with_capacity(input.metadata().unwrap().len() as usize + 1);
    input.read_to_end(&mut file).unwrap();
    let (width, height) = (word(&file, 14), word(&file, 18));
    let mut at = 26;
    while word(&file, at) != 0 {
        at += 8 + word(&file, at + 4);
    }
    at += 8;
    let mut nodes = Vec::new();
    while word(&file, at) != 0 {
        nodes.push(layer(&file, word(&file, at), false));
        at += 4;
    }
    let columns = std::env::var("COLUMNS_AT_A_TIME").map_or(512, |text| text.parse().unwrap());
    let mut room = Room { bytes: vec![0; 256 * width], masks: vec![0; 64 * width], tile: vec![0; 16384], row: vec![CLEAR; width], columns };
    let mut picture = vec![CLEAR; 64 * width];
    let mut levels = vec![CLEAR; 512 * width];
    let mut piece = vec![0; 256 * width];
    let mut steps = Steps::<Plain>(0, PhantomData);
    let mut out = std::io::stdout().lock();
    write!(out, "P7\nWIDTH {width}\nHEIGHT {height}\nDEPTH 4\nMAXVAL 255\nTUPLTYPE RGB_ALPHA\nENDHDR\n").unwrap();
    for y in (0..height).step_by(64) {
        let high = (height - y).min(64);
        let part = &mut picture[..high * width];
        lay_stack(&file, &nodes, y, high, part, &mut levels, &mut room, &mut steps);
        write_row(part, &mut piece[..4 * high * width]);
        out.write_all(&piece[..4 * high * width]).unwrap();
    }
}
