//! Arithmetic, marks, padding and the stretch: whole lists, right and of wrong lengths.
use oracle::Sides;
use random::Rng;

use crate::calls::{every_arithmetic, marks, padding8, padding16, stretch};
use crate::record::Part;

/// f32 of every kind: zeros, subnormals, the guard of ratio and the threshold of marks with their neighbours, large ones, infinities, NaN.
fn singles() -> Vec<f32> {
    let positive = [
        0x0000_0000, 0x0000_0001, 0x007F_FFFF, 0x0080_0000, 0x2EDB_E6FE, 0x2EDB_E6FF, 0x2EDB_E700, 0x2F5B_E6FF, 0x3727_C5AC, 0x3727_C5AD,
        0x3DCC_CCCD, 0x3EAA_AAAB, 0x3F7F_FFFF, 0x3F80_0000, 0x3F80_0001, 0x4049_0FDB, 0x4B80_0000, 0x7F7F_FFFF, 0x7F80_0000,
    ];
    let mut all: Vec<f32> = positive.iter().flat_map(|&bits| [bits, bits | 0x8000_0000]).map(f32::from_bits).collect();
    all.push(f32::NAN);
    all
}

/// Pairs whose sum is the guard of the normalised difference, or next to it.
fn guarded_sums() -> (Vec<f32>, Vec<f32>) {
    let (mut a, mut b) = (Vec::new(), Vec::new());
    for bits in [0x2EDB_E6FEu32, 0x2EDB_E6FF, 0x2EDB_E700] {
        for part in [0x2E00_0000u32, 0x2ED0_0000, 0x2F00_0000] {
            let (sum, x) = (f32::from_bits(bits), f32::from_bits(part));
            for sign in [1.0, -1.0] {
                a.push(sign * x);
                b.push(sign * (sum - x));
            }
        }
    }
    (a, b)
}

pub fn ops(rng: &mut Rng) -> Part {
    let mut part = Part::new("ops");
    let singles = singles();
    for &a in &singles {
        every_arithmetic(&mut part, &vec![a; singles.len()], &singles, singles.len());
    }
    let (a, b) = guarded_sums();
    every_arithmetic(&mut part, &a, &b, a.len());
    for n in [1, 2, 3, 17, 64, 64, 64, 200] {
        let mut wild = |n| (0..n).map(|_| f32::from_bits(rng.bits() as u32)).collect::<Vec<f32>>();
        let (a, b) = (wild(n), wild(n));
        every_arithmetic(&mut part, &a, &b, n);
        let mut near = |n| (0..n).map(|_| (rng.around() * 10.0) as f32).collect::<Vec<f32>>();
        let (a, b) = (near(n), near(n));
        every_arithmetic(&mut part, &a, &b, n);
    }
    for [a, b, out] in lengths3() {
        every_arithmetic(&mut part, &singles[..a], &singles[..b], out);
    }
    part
}

/// All triples of lengths 0 to 2, and some one apart.
fn lengths3() -> Vec<[usize; 3]> {
    let mut all = Vec::new();
    for a in 0..3 {
        for b in 0..3 {
            for c in 0..3 {
                all.push([a, b, c]);
            }
        }
    }
    all.extend([[8, 8, 7], [8, 7, 8], [7, 8, 8], [8, 8, 9], [8, 9, 8], [9, 8, 8], [8, 8, 0], [0, 0, 8], [8, 1, 8], [1, 8, 8]]);
    all
}

pub fn marks_part(rng: &mut Rng) -> Part {
    let mut part = Part::new("marks");
    let singles = singles();
    marks(&mut part, &singles, singles.len());
    for &x in &singles {
        marks(&mut part, &[x], 1);
    }
    let around: Vec<f32> = (0x3727_C5AC - 20..0x3727_C5AC + 20u32).map(f32::from_bits).collect();
    marks(&mut part, &around, around.len());
    for n in [0, 2, 64, 500] {
        let wild: Vec<f32> = (0..n).map(|_| f32::from_bits(rng.bits() as u32)).collect();
        marks(&mut part, &wild, n);
        let near: Vec<f32> = (0..n).map(|_| (rng.unit() * 2e-5) as f32).collect();
        marks(&mut part, &near, n);
    }
    for (n, out) in [(0, 1), (1, 0), (1, 2), (2, 1), (8, 7), (7, 8), (8, 16), (8, 0)] {
        marks(&mut part, &singles[..n], out);
    }
    part
}

pub fn padding() -> Part {
    let mut part = Part::new("padding");
    let both = |part: &mut Part, rows: usize, cols: usize, length: usize, out: usize| {
        let sides = Sides { rows, cols };
        let bytes: Vec<u8> = (0..length).map(|k| (k * 7 + 1) as u8).collect();
        let words: Vec<u16> = (0..length).map(|k| (k * 4099 + 257) as u16).collect();
        padding8(part, sides, &bytes, out);
        padding16(part, sides, &words, out);
    };
    for rows in 0..8usize {
        for cols in 0..8 {
            both(&mut part, rows, cols, rows * cols, rows.max(cols).pow(2));
        }
    }
    for (rows, cols) in [(1usize, 64), (64, 1), (63, 64), (20, 33), (33, 20), (64, 64)] {
        both(&mut part, rows, cols, rows * cols, rows.max(cols).pow(2));
    }
    // each list of a wrong length, alone and both
    for (rows, cols) in [(2usize, 3), (3, 2), (1, 1), (4, 4), (0, 3)] {
        let (n, square) = (rows * cols, rows.max(cols).pow(2));
        for length in [n.saturating_sub(1), n, n + 1] {
            for out in [0, n, square - 1, square, square + 1] {
                if (length, out) != (n, square) {
                    both(&mut part, rows, cols, length, out);
                }
            }
        }
    }
    // sides at and above the limit; 65,536 squared is 0 in 32 bits
    for (rows, cols) in LARGE {
        both(&mut part, rows, cols, 0, 0);
    }
    both(&mut part, 4097, 1, 4, 4);
    both(&mut part, 1, 4097, 0, 9);
    part
}

/// Sides at and above the limit, to be met with empty lists.
pub const LARGE: [(usize, usize); 16] = [
    (4096, 0),
    (0, 4096),
    (4096, 4096),
    (4096, 1),
    (1, 4096),
    (4097, 0),
    (0, 4097),
    (4097, 4096),
    (4096, 4097),
    (5000, 5000),
    (65536, 65536),
    (65536, 0),
    (0x8000_0000, 2),
    (2, 0x8000_0000),
    (0xFFFF_FFFF, 0xFFFF_FFFF),
    (0, 0xFFFF_FFFF),
];

pub fn stretches(rng: &mut Rng) -> Part {
    let mut part = Part::new("stretch");
    // every list of up to three of these
    let few = [0u16, 1, 2, 254, 255, 65535];
    stretch(&mut part, &[], 0);
    for &a in &few {
        stretch(&mut part, &[a], 1);
        for &b in &few {
            stretch(&mut part, &[a, b], 2);
            for &c in &few {
                stretch(&mut part, &[a, b, c], 3);
            }
        }
    }
    // every value under every greatest byte, the least being 0
    for greatest in 1..=255u16 {
        let list: Vec<u16> = (0..=greatest).collect();
        stretch(&mut part, &list, list.len());
    }
    // other ends
    for (low, high) in [(7, 7), (0, 65535), (1, 65535), (0, 65534), (100, 356), (255, 511), (32767, 32768), (1000, 61000), (3, 203)] {
        let step = ((high - low) / 300).max(1);
        let mut list: Vec<u16> = (low..=high).step_by(usize::from(step)).collect();
        list.push(high);
        stretch(&mut part, &list, list.len());
    }
    for n in [2, 3, 5, 8, 13, 40, 64, 64] {
        let list: Vec<u16> = (0..n).map(|_| rng.bits() as u16).collect();
        stretch(&mut part, &list, n);
        let bytes: Vec<u16> = (0..n).map(|_| 20 + rng.below(200) as u16).collect();
        stretch(&mut part, &bytes, n);
    }
    for (n, out) in [(0, 1), (1, 0), (1, 2), (2, 1), (3, 4), (4, 3), (6, 0), (6, 12)] {
        stretch(&mut part, &few[..n], out);
    }
    part
}
