//! Ladders and samples. What document 01 says of worked levels and of refusals stands here; the second implementation is held to it, and
//! answers for the 640 drawn samples, of which most stand at an edge or one step beside it.

use crate::call::Call;
use crate::draw::Xorshift;
use crate::sheet::Sheet;
use crate::text::hex;

const INFINITY: f32 = f32::INFINITY;
const NAN: f32 = f32::NAN;

/// The bit of a pattern that is the sign.
const SIGN: u32 = 0x8000_0000;

pub fn add(sheet: &mut Sheet) {
    sheet.part("worked levels, most of them with the edges 1 to 15");
    worked(sheet);
    sheet.part("ladders, each with the level 1 quantised by it");
    ladders(sheet);
    sheet.part("samples that are refused");
    samples(sheet);
    sheet.part("640 drawn samples of four ladders");
    drawn(sheet);
}

/// The edges 1 to n.
fn counting(n: u8) -> Vec<f32> {
    (1..=n).map(f32::from).collect()
}

/// The edges 1 to 15 with one other.
fn with(at: usize, edge: f32) -> Vec<f32> {
    let mut edges = counting(15);
    edges[at] = edge;
    edges
}

/// The next float below, and the next above.
fn beside(level: f32) -> (f32, f32) {
    (f32::from_bits(level.to_bits() - 1), f32::from_bits(level.to_bits() + 1))
}

fn worked(sheet: &mut Sheet) {
    let mut add = |name: &str, edges: &[f32], kinds: &[u8], levels: &[f32], symbols: &[u8]| {
        sheet.heading(name);
        sheet.known(Call::Quantise { edges, kinds, levels, room: symbols.len() }, &format!("written {}", hex(symbols)));
    };
    let edges = counting(15);
    add("worked", &edges, &[1; 3], &[-2.5, 2.0, 16.0], &[18, 2, 15]);
    add("infinities", &edges, &[1; 2], &[INFINITY, -INFINITY], &[15, 31]);
    add("zeros", &edges, &[1; 2], &[0.0, -0.0], &[0, 0]);
    add("none", &edges, &[], &[], &[]);
    let (under, over) = beside(3.0);
    add("at 3", &edges, &[1; 6], &[under, 3.0, over, -under, -3.0, -over], &[2, 3, 3, 18, 19, 19]);
    add("at 1", &edges, &[1; 3], &[beside(1.0).0, 1.0, -1.0], &[0, 1, 17]);
    add("at 15", &edges, &[1; 3], &[beside(15.0).0, 15.0, -15.0], &[14, 15, 31]);
    let least = f32::from_bits(1);
    add("smallest met", &with(0, least), &[1; 4], &[least, -least, 0.0, -0.0], &[1, 17, 0, 0]);
    add("smallest not met", &with(0, least + least), &[1; 2], &[least, -least], &[0, 16]);
    add("infinite edge", &with(14, INFINITY), &[1; 4], &[f32::MAX, 14.5, INFINITY, -INFINITY], &[14, 14, 15, 31]);
    add("blanks", &edges, &[0, 1, 0, 0, 1, 0], &[NAN, 5.0, NAN, -4.0, -4.0, INFINITY], &[0, 5, 0, 0, 20, 0]);
    add("all blank", &edges, &[0; 3], &[NAN, NAN, -NAN], &[0, 0, 0]);
}

fn ladders(sheet: &mut Sheet) {
    no_ladder(sheet, "no edges", &[]);
    no_ladder(sheet, "14 edges", &counting(14));
    no_ladder(sheet, "16 edges", &counting(16));
    no_ladder(sheet, "first 0", &with(0, 0.0));
    no_ladder(sheet, "first minus 0", &with(0, -0.0));
    no_ladder(sheet, "first below 0", &with(0, -1.0));
    ladder(sheet, "first smallest", &with(0, f32::from_bits(1)));
    no_ladder(sheet, "equal edges", &with(4, 4.0));
    no_ladder(sheet, "first two equal", &with(1, 1.0));
    no_ladder(sheet, "last two equal", &with(14, 14.0));
    no_ladder(sheet, "falling edge", &with(7, 6.5));
    no_ladder(sheet, "edge over the next", &with(7, 9.5));
    ladder(sheet, "edge just above", &with(7, beside(7.0).1));
    ladder(sheet, "last infinite", &with(14, INFINITY));
    no_ladder(sheet, "another infinite", &with(13, INFINITY));
    no_ladder(sheet, "first minus infinite", &with(0, -INFINITY));
    no_ladder(sheet, "first not a number", &with(0, NAN));
    no_ladder(sheet, "middle not a number", &with(7, NAN));
    no_ladder(sheet, "last not a number", &with(14, NAN));
    no_ladder(sheet, "none a number", &[NAN; 15]);
    no_ladder(sheet, "all infinite", &[INFINITY; 15]);
}

/// Edges that are a ladder whose first edge, and no other, is at most 1.
fn ladder(sheet: &mut Sheet, name: &str, edges: &[f32]) {
    sheet.heading(name);
    sheet.known(Call::Ladder { edges }, "ladder");
    sheet.known(Call::Quantise { edges, kinds: &[1], levels: &[1.0], room: 1 }, "written 01");
}

/// Edges that are no ladder.
fn no_ladder(sheet: &mut Sheet, name: &str, edges: &[f32]) {
    sheet.heading(name);
    sheet.known(Call::Ladder { edges }, "refused 5 0");
    sheet.known(Call::Quantise { edges, kinds: &[1], levels: &[1.0], room: 1 }, "refused 5 0 07");
}

fn samples(sheet: &mut Sheet) {
    let edges = counting(15);
    let mut refused = |name: &str, kinds: &[u8], levels: &[f32], room: usize, (number, place): (u8, usize)| {
        sheet.refused(name, Call::Quantise { edges: &edges, kinds, levels, room }, number, place);
    };
    refused("levels one short", &[1; 3], &[2.0; 2], 3, (6, 0));
    refused("levels one long", &[1; 3], &[2.0; 4], 3, (6, 0));
    refused("no levels", &[1; 3], &[], 3, (6, 0));
    refused("symbols one short", &[1; 3], &[2.0; 3], 2, (7, 0));
    refused("symbols one long", &[1; 3], &[2.0; 3], 4, (7, 0));
    refused("levels and symbols short", &[1; 3], &[2.0; 2], 2, (6, 0));
    refused("levels short and kind 2", &[2; 3], &[2.0; 2], 3, (6, 0));
    refused("symbols short and kind 2", &[2; 3], &[2.0; 3], 2, (7, 0));
    refused("symbols long and not a number", &[1; 3], &[NAN; 3], 4, (7, 0));
    refused("kind 2 at 1", &[1, 2, 1], &[2.0; 3], 3, (10, 1));
    refused("kind 255 at 2", &[1, 0, 255], &[2.0; 3], 3, (10, 2));
    refused("not a number at 0", &[1; 3], &[NAN, 2.0, 2.0], 3, (11, 0));
    refused("not a number at 2", &[0, 1, 1], &[NAN, 2.0, NAN], 3, (11, 2));
    refused("kind 2 and not a number at 1", &[1, 2, 1], &[2.0, NAN, 2.0], 3, (10, 1));
    refused("kind 2 at 1, not a number at 2", &[1, 2, 1], &[2.0, 2.0, NAN], 3, (10, 1));
    refused("not a number at 1, kind 2 at 2", &[1, 1, 2], &[2.0, NAN, 2.0], 3, (11, 1));
    refused("blank not a number at 0, kind 3 at 1", &[0, 3], &[NAN, NAN], 2, (10, 1));
    let faulty = Call::Quantise { edges: &edges[1..], kinds: &[2; 3], levels: &[NAN; 2], room: 2 };
    sheet.refused("14 edges, levels and symbols short, kind 2", faulty, 5, 0);
}

/// The bit patterns of the four ladders of the drawn samples, each with its name.
fn drawn_ladders() -> [(&'static str, Vec<u32>); 4] {
    let wide = [
        1,
        0x1000,
        0x7f_ffff,
        0x80_0000,
        0x80_0001,
        0x800_0000,
        0x1000_0000,
        0x2000_0000,
        0x3000_0000,
        0x3f80_0000,
        0x4b00_0000,
        0x5000_0000,
        0x6000_0000,
        0x7000_0000,
        0x7f7f_ffff,
    ];
    [
        ("the edges 1 to 15", counting(15).into_iter().map(f32::to_bits).collect()),
        ("quarters from 1/2 to 4", (2..=16u8).map(|quarters| (f32::from(quarters) / 4.0).to_bits()).collect()),
        ("the fifteen smallest numbers above zero", (1..=15).collect()),
        ("numbers from the smallest to the largest", wide.to_vec()),
    ]
}

/// A drawn sample's kind and level: one of eight is blank, and three of four levels lie at an edge or next to one.
fn drawn_sample(edges: &[u32], mut draw: Xorshift) -> (u8, f32) {
    let x = draw.0;
    let kind = u8::from(x / 1024 % 8 != 0);
    let pattern = if x % 4 == 0 {
        draw.next() as u32
    } else {
        let edge = edges[(x / 4 % 15) as usize];
        edge.wrapping_add(x / 64 % 3).wrapping_sub(1).wrapping_add(x / 256 % 2 * SIGN)
    };
    (kind, f32::from_bits(finite(pattern)))
}

/// The pattern of a finite level: the sign is kept.
fn finite(pattern: u32) -> u32 {
    (pattern & SIGN) + (pattern & !SIGN) % INFINITY.to_bits()
}

fn drawn(sheet: &mut Sheet) {
    let mut draw = Xorshift(1);
    for (name, patterns) in drawn_ladders() {
        let edges: Vec<f32> = patterns.iter().map(|&pattern| f32::from_bits(pattern)).collect();
        let mut sample = |_| {
            draw.next();
            drawn_sample(&patterns, draw)
        };
        let (kinds, levels): (Vec<u8>, Vec<f32>) = (0..160).map(&mut sample).unzip();
        sheet.heading(name);
        sheet.known(Call::Ladder { edges: &edges }, "ladder");
        sheet.call(Call::Quantise { edges: &edges, kinds: &kinds, levels: &levels, room: 160 });
        sheet.count("drawn samples", kinds.len());
        sheet.count("drawn samples, blank", kinds.iter().filter(|&&kind| kind == 0).count());
    }
}
