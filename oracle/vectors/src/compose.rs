//! Composition: every pair of bytes in default and in two suppressed tables, every table entry at each f, and wrong lengths.
use oracle::AutoscaleStrategy::{Clahe, Default, Equalized, Tamed};
use oracle::{MODES, STRATEGIES};
use random::Rng;

use crate::calls::composition;
use crate::record::Part;

type Pairs = Vec<(u8, u8)>;

/// The level f of document 01, to see that a record has the f that it is for.
fn level(pairs: &Pairs) -> usize {
    let target = (2 * pairs.len() + 10) / 20;
    let reached = |l: u8| pairs.iter().map(|p| usize::from(p.0 <= l) + usize::from(p.1 <= l)).sum::<usize>() >= target;
    ((0..=255).find(|&l| reached(l)).unwrap() as usize + 3).min(40)
}

/// The pairs, with as many of one level after them as make it the first to reach the target.
fn with_level(mut pairs: Pairs, f: usize) -> Pairs {
    while level(&pairs) != f {
        pairs.push((f as u8 - 3, f as u8 - 3));
    }
    pairs
}

/// v1 with v1 + distance: each byte once in each band.
fn diagonal(distance: usize) -> Pairs {
    (0..256).map(|v| (v as u8, (v + distance) as u8)).collect()
}

fn add(part: &mut Part, k: usize, suppressed: bool, pairs: &Pairs) {
    let (band1, band2): (Vec<u8>, Vec<u8>) = pairs.iter().copied().unzip();
    let strategy = if suppressed { [Tamed, Clahe][k % 2] } else { [Default, Equalized][k % 2] };
    composition(part, MODES[k % 4], strategy, &band1, &band2, 3 * band1.len());
}

pub fn compose(rng: &mut Rng) -> Part {
    let mut part = Part::new("compose");
    // all 65,536 pairs, four diagonals a record: default, f = 3 and f = 15, the level of evenly spread bytes
    for k in 0..64 {
        let pairs: Pairs = (0..4).flat_map(|d| diagonal(4 * k + d)).collect();
        add(&mut part, k, false, &pairs);
        add(&mut part, k, true, &with_level(pairs.clone(), 3));
        assert_eq!(level(&pairs), 15);
        add(&mut part, k, true, &pairs);
    }
    // every red and green entry at each f; at 40 more pairs
    for f in 3..=40 {
        add(&mut part, f, true, &with_level(diagonal(f * 5), f));
    }
    for k in 0..8 {
        add(&mut part, k, true, &with_level(diagonal(31 * k), 40));
    }
    // one pixel, and the samples: f = 3
    for (v1, v2) in [(255, 255), (255, 3), (3, 255), (4, 4), (3, 3), (3, 4), (4, 3), (0, 0), (0, 255), (255, 0), (1, 1), (255, 1)] {
        for strategy in STRATEGIES {
            composition(&mut part, MODES[0], strategy, &[v1], &[v2], 3);
        }
    }
    // the target from 0 to 2: four pixels of 200 have f = 3, five have f = 40
    for n in 0..=16 {
        let bytes = vec![200; n];
        composition(&mut part, MODES[n % 4], Tamed, &bytes, &bytes, 3 * n);
        let mut dark = bytes.clone();
        dark.iter_mut().step_by(3).for_each(|v| *v = 30);
        composition(&mut part, MODES[n % 4], Clahe, &dark, &bytes, 3 * n);
    }
    // levels around the cap
    for dark in [0, 1, 35, 36, 37, 38, 39, 40, 41, 42, 100, 255] {
        let band: Vec<u8> = (0..20).map(|k| if k < 5 { dark } else { 250 }).collect();
        composition(&mut part, MODES[1], Tamed, &band, &band, 60);
    }
    for n in [2, 7, 33, 64] {
        for strategy in STRATEGIES {
            let mut bytes = || (0..n).map(|_| rng.bits() as u8).collect::<Vec<u8>>();
            let (band1, band2) = (bytes(), bytes());
            for mode in MODES {
                composition(&mut part, mode, strategy, &band1, &band2, 3 * n);
            }
        }
    }
    let bytes: Vec<u8> = (0..16).map(|k| k * 17).collect();
    for (a, b, out) in [
        (0, 0, 1),
        (1, 1, 0),
        (1, 1, 2),
        (1, 1, 4),
        (1, 1, 1),
        (1, 0, 3),
        (0, 1, 0),
        (0, 1, 3),
        (5, 4, 15),
        (4, 5, 12),
        (4, 5, 15),
        (4, 4, 16),
        (4, 4, 8),
        (4, 4, 4),
        (2, 4, 12),
    ] {
        for strategy in [Default, Tamed] {
            composition(&mut part, MODES[2], strategy, &bytes[..a], &bytes[..b], out);
        }
    }
    part
}
