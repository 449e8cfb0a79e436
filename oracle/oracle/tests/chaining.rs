//! The picture against its parts, the windows against the statistics, and refusals over both bands.
use oracle::AutoscaleStrategy::{Adaptive, Clahe, Default, Equalized, Robust, Standard, Tamed};
use oracle::{Answer, AutoscaleStrategy, Band, COPOLS, CoPol, Lent, MODES, Picture, STRATEGIES, Sides, SyntheticRgbMode, Window};
use random::Rng;

/// A scene of its own for each seed: values spread around -15 dB, every tenth pixel invalid with NaN under its mark.
fn scene(seed: u64, n: usize, spread: f64) -> (Vec<f64>, Vec<u8>) {
    let mut rng = Rng::new(seed);
    let mut db = Vec::new();
    let mut marks = Vec::new();
    for _ in 0..n {
        let valid = !rng.once_in(10);
        db.push(if valid { -15.0 + spread * (rng.unit() - 0.5) } else { f64::NAN });
        marks.push(valid as u8);
    }
    (db, marks)
}

fn lent(sides: Sides) -> Lent {
    let n = sides.rows * sides.cols;
    Lent { grey1: n, grey2: n, rgb: 3 * n, work: 16_384 }
}

fn picture(strategy: AutoscaleStrategy, mode: SyntheticRgbMode, sides: Sides, bands: [Band; 2]) -> Answer<Picture> {
    oracle::picture(strategy, mode, CoPol::Band1, sides, bands[0], bands[1], lent(sides))
}

#[test]
fn picture_is_its_parts() {
    for seed in 0..60 {
        let sides = [Sides { rows: 8, cols: 15 }, Sides { rows: 43, cols: 7 }, Sides { rows: 16, cols: 16 }][seed as usize % 3];
        let n = sides.rows * sides.cols;
        let (db1, marks1) = scene(seed, n, 5.0 + 0.2 * seed as f64);
        let (db2, marks2) = scene(seed + 1000, n, 35.0);
        let (band1, band2) = (Band { db: &db1, marks: &marks1 }, Band { db: &db2, marks: &marks2 });
        for strategy in STRATEGIES {
            for mode in MODES {
                let greys = match strategy {
                    Tamed => [oracle::tamed_synrgb_u8(true, sides, band1), oracle::tamed_synrgb_u8(false, sides, band2)],
                    _ => [oracle::grey_u8(strategy, sides, band1, n, 16_384), oracle::grey_u8(strategy, sides, band2, n, 16_384)],
                };
                let answer = picture(strategy, mode, sides, [band1, band2]);
                let [grey1, grey2] = greys.map(Result::unwrap);
                let rgb = oracle::composition(SyntheticRgbMode::Default, strategy, &grey1, &grey2, 3 * n).unwrap();
                assert_eq!(answer, Ok(Picture { grey1, grey2, rgb }));
            }
        }
    }
}

/// Told which band is co-pol: Tamed's greys are the Rust's for it, and follow from the windows; other strategies do not look; swapped with their
/// choice, bands and windows swap. No refusal depends on the choice.
#[test]
fn picture_of_either_copol_band() {
    let repainted = |band: Band, window: Option<Window>| -> Vec<u8> {
        let grey = |v: f64, w: Window| ((v.max(w.low).min(w.high) - w.low) / w.range * 255.0).clamp(0.0, 255.0) as u8;
        band.db.iter().zip(band.marks).map(|(&v, &mark)| window.filter(|_| mark == 1).map_or(0, |w| grey(v, w))).collect()
    };
    let other = |copol| if copol == CoPol::Band1 { CoPol::Band2 } else { CoPol::Band1 };
    let mut unlike = 0;
    for seed in 0..60 {
        let sides = [Sides { rows: 8, cols: 15 }, Sides { rows: 43, cols: 7 }][seed as usize % 2];
        let n = sides.rows * sides.cols;
        let (db1, mut marks1) = scene(seed, n, 5.0 + 0.2 * seed as f64);
        let (db2, marks2) = scene(seed + 1000, n, 35.0);
        if seed % 10 == 9 {
            marks1.fill(0);
        }
        let (band1, band2) = (Band { db: &db1, marks: &marks1 }, Band { db: &db2, marks: &marks2 });
        for strategy in STRATEGIES {
            let both = COPOLS.map(|copol| {
                let told = oracle::picture(strategy, MODES[0], copol, sides, band1, band2, lent(sides)).unwrap();
                let windows = oracle::picture_windows(strategy, copol, sides, band1, band2).unwrap();
                let swapped = oracle::picture(strategy, MODES[0], other(copol), sides, band2, band1, lent(sides)).unwrap();
                assert_eq!((&swapped.grey1, &swapped.grey2), (&told.grey2, &told.grey1));
                let [w1, w2] = windows;
                assert_eq!(oracle::picture_windows(strategy, other(copol), sides, band2, band1), Ok([w2, w1]));
                if strategy == Tamed {
                    let [is1, is2] = [copol == CoPol::Band1, copol == CoPol::Band2];
                    assert_eq!(Ok(&told.grey1), oracle::tamed_synrgb_u8(is1, sides, band1).as_ref());
                    assert_eq!(Ok(&told.grey2), oracle::tamed_synrgb_u8(is2, sides, band2).as_ref());
                    assert_eq!((repainted(band1, w1), repainted(band2, w2)), (told.grey1.clone(), told.grey2.clone()));
                } else {
                    assert_eq!(windows, [band1, band2].map(|band| oracle::window(strategy, sides, band).unwrap()));
                }
                (told, windows)
            });
            assert!(strategy == Tamed || both[0] == both[1]);
            unlike += usize::from(both[0].0.grey1 != both[1].0.grey1 && both[0].0.grey2 != both[1].0.grey2);
        }
        let mut marked = marks2.clone();
        marked[0] = 2;
        let bad = Band { db: &db2, marks: &marked };
        for copol in COPOLS {
            assert_eq!(oracle::picture(Tamed, MODES[0], copol, sides, band1, bad, lent(sides)), Err(3));
            assert_eq!(oracle::picture_windows(Tamed, copol, sides, bad, band1), Err(3));
            assert_eq!(oracle::picture_windows(Tamed, copol, sides, Band { db: &db1[1..], marks: &marks1 }, bad), Err(2));
        }
    }
    assert!(unlike > 50, "{unlike}");
}

/// low and high are the percentiles that document 01 names, gamma is the strategy's.
#[test]
fn windows_are_of_the_statistics() {
    for seed in 0..500 {
        let (db, marks) = scene(seed, 60, 1.0 + 0.1 * seed as f64);
        let band = Band { db: &db, marks: &marks };
        let sides = Sides { rows: 5, cols: 12 };
        let [min, max, mean, std, median, p01, p02, p05, p10, p25, p75, p90, p95, p98, p99] =
            oracle::statistics(sides, band).unwrap().floats;
        let window = |strategy| oracle::window(strategy, sides, band).unwrap().unwrap();
        let ends = |strategy| (window(strategy).low, window(strategy).high, window(strategy).gamma);
        let (spread, iqr) = (max - min, p75 - p25);
        assert_eq!(ends(Default), (p05, p95, 1.0));
        assert_eq!(ends(Equalized), (p01, p99, 1.0));
        assert_eq!(ends(Clahe), (p01, p99, 1.0));
        assert_eq!(ends(Tamed), (p25, p99, 1.0));
        assert_eq!(ends(Robust), ((p25 - 2.5 * iqr).max(p01).max(min), (p75 + 2.5 * iqr).min(p99).min(max), 1.0));
        let (skew, tail) = ((mean - median) / std.abs().max(1.0), (p99 - p95) / (p95 - p75).max(1.0));
        let adaptive = match skew {
            k if k > 0.5 => (p02, p98, 0.9),
            k if k < -0.5 => (p05, p95, 1.1),
            _ if tail > 2.0 => (p10, p90, 0.8),
            _ => (p05, p95, 1.0),
        };
        assert_eq!(ends(Adaptive), adaptive);
        let gamma = if spread < 15.0 {
            1.1
        } else if iqr < 5.0 {
            1.0
        } else if spread > 40.0 {
            0.9
        } else {
            1.0
        };
        assert_eq!(window(Standard).gamma, gamma);
        for strategy in STRATEGIES {
            let w = window(strategy);
            assert_eq!(w.range, (w.high - w.low).max(1.0));
        }
    }
}

#[test]
fn smallest_number_over_both_bands() {
    let sides = Sides { rows: 8, cols: 8 };
    let (db, marks) = scene(1, 64, 30.0);
    let good = Band { db: &db, marks: &marks };
    let (narrow, _) = scene(1, 64, 3.0);
    let (mut wild, mut marked) = (db.clone(), marks.clone());
    let valid = marks.iter().position(|&m| m == 1).unwrap();
    wild[valid] = 1000.0_f64.next_up();
    marked[63] = 2;
    let faults = [(2, Band { db: &db[1..], marks: &marks }), (3, Band { db: &db, marks: &marked }), (4, Band { db: &wild, marks: &marks })];
    for (k, fault) in faults {
        assert_eq!(picture(Standard, SyntheticRgbMode::Default, sides, [fault, good]), Err(k));
        assert_eq!(picture(Standard, SyntheticRgbMode::Default, sides, [good, fault]), Err(k));
        for (other, second) in faults {
            assert_eq!(picture(Standard, SyntheticRgbMode::Default, sides, [fault, second]), Err(k.min(other)));
        }
    }
    // another gamma than 1.0 is painted, and refused at 16 bits alone, behind every other number
    let gamma = Band { db: &narrow, marks: &marks };
    assert!(picture(Standard, SyntheticRgbMode::Default, sides, [gamma, good]).is_ok());
    assert_eq!(oracle::grey_u16(Standard, sides, gamma, 64, 0), Err(6));
    assert_eq!(oracle::grey_u16(Standard, sides, gamma, 63, 0), Err(2));
    let wide = Sides { rows: 4097, cols: 0 };
    assert_eq!(picture(Standard, SyntheticRgbMode::Default, wide, [good, good]), Err(1));
}

/// A side that 5 refuses is refused with a valid pixel and accepted without one; the window call does not know 5.
#[test]
fn sides_of_clahe() {
    let accepted = |s: usize| matches!(s, 7 | 8 | 14..=16 | 21..=24 | 28..=32 | 35..=40) || s >= 42;
    for s in 1..80 {
        let sides = Sides { rows: s, cols: 8 };
        let (db, marks) = scene(s as u64, 8 * s, 30.0);
        let band = Band { db: &db, marks: &marks };
        let blank = Band { db: &db, marks: &vec![0; 8 * s] };
        assert_eq!(oracle::grey_u8(Clahe, sides, band, 8 * s, 16_384).is_ok(), accepted(s));
        assert_eq!(oracle::grey_u8(Clahe, sides, blank, 8 * s, 16_384), Ok(vec![0; 8 * s]));
        assert!(oracle::window(Clahe, sides, band).unwrap().is_some());
    }
}

/// Tile sums: between two tiles of even sides a pixel in the middle of a tile is equalised by that tile's sum at its level alone.
#[test]
fn tile_sums_are_those_sampled() {
    let sides = Sides { rows: 32, cols: 48 };
    let (db, marks) = scene(5, 32 * 48, 1.0);
    let norm: Vec<f64> = db.iter().map(|v| if v.is_nan() { 0.0 } else { (v + 15.5).clamp(0.0, 1.0) }).collect();
    let (equalised, sums) = oracle::clahe(sides, Band { db: &norm, marks: &marks }).unwrap();
    assert_eq!(sums.len(), 16_384);
    let mut compared = 0;
    for ty in 0..8 {
        for tx in 0..8 {
            let place = (ty * 4 + 2) * 48 + tx * 6 + 3;
            let level = (norm[place] * 255.0).round() as usize;
            if marks[place] == 1 {
                assert_eq!(equalised[place], sums[(ty * 8 + tx) * 256 + level]);
                compared += 1;
            }
            // running sums end at 1 where the tile has a valid pixel
            assert_eq!(sums[(ty * 8 + tx) * 256 + 255], 1.0);
        }
    }
    assert!(compared > 40);
}

/// The list limit, and one above it.
#[test]
fn longest_lists() {
    let n = oracle::table::LONGEST_LIST;
    let bytes = vec![0u8; n + 1];
    assert!(oracle::composition(SyntheticRgbMode::Default, Default, &bytes[..n], &bytes[..n], 3 * n).is_ok());
    assert_eq!(oracle::composition(SyntheticRgbMode::Default, Default, &bytes, &bytes, 3 * (n + 1)), Err(2));
    let words = vec![0u16; n + 1];
    assert!(oracle::stretch(&words[..n], n).is_ok());
    assert_eq!(oracle::stretch(&words, n + 1), Err(2));
    let floats = vec![0f32; n + 1];
    assert!(oracle::marks(&floats[..n], n).is_ok());
    assert_eq!(oracle::marks(&floats, n + 1), Err(2));
    assert_eq!(oracle::arithmetic(oracle::PolarizationOperation::Sum, &floats, &floats, n + 1), Err(2));
}
