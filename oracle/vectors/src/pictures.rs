//! Pictures: every strategy and mode, one or both bands blank, wrong lengths of each list, and every pair of refusals over both bands.
use oracle::AutoscaleStrategy::{Clahe, Default, Standard, Tamed};
use oracle::{AutoscaleStrategy, Lent, MODES, STRATEGIES, SyntheticRgbMode};
use random::Rng;

use crate::bands::{BAD, random, short, sound, usual, with_fault};
use crate::beside::LARGE;
use crate::calls::{self, Scene};
use crate::record::Part;

const WORK: usize = oracle::table::CLAHE_WORK;

/// What a picture call with these sides is to be lent.
pub fn named(scene: &Scene) -> Lent {
    let n = scene.count();
    Lent { grey1: n, grey2: n, rgb: 3 * n, work: WORK }
}

fn picture(part: &mut Part, strategy: AutoscaleStrategy, mode: SyntheticRgbMode, band1: &Scene, band2: &Scene) {
    calls::picture(part, strategy, mode, band1, band2, named(band1));
}

pub fn pictures(rng: &mut Rng) -> Part {
    let mut part = Part::new("picture");
    // every strategy, the modes in turn; all modes on one scene
    for k in 0..16 {
        let (rows, cols) = (1 + rng.below(3), 2 + rng.below(4));
        let spread = [9.0, 12.0, 15.0, 2.0][k % 4];
        let band1 = random(rng, rows, cols, -14.0, spread, k % 4);
        let band2 = random(rng, rows, cols, -22.0, 14.0, k % 3);
        for (j, strategy) in STRATEGIES.into_iter().enumerate() {
            picture(&mut part, strategy, MODES[(k + j) % 4], &band1, &band2);
            if k == 1 {
                MODES.iter().for_each(|&mode| picture(&mut part, strategy, mode, &band1, &band2));
            }
        }
    }
    for scene in usual(rng).iter().step_by(4) {
        let (rows, cols) = (scene.sides.rows, scene.sides.cols);
        let other = random(rng, rows, cols, -18.0, 11.0, 2);
        for strategy in [Default, Tamed, Standard] {
            picture(&mut part, strategy, MODES[1], scene, &other);
            picture(&mut part, strategy, MODES[2], &other, scene);
        }
    }
    // short scenes in one band, flat, mixed zeros, blank and empty ones among them
    for (k, scene) in short().iter().enumerate().filter(|(k, _)| k % 2 == 0 || *k > 90) {
        let other = if scene.count() == 0 { scene.clone() } else { random(rng, scene.sides.rows, scene.sides.cols, -16.0, 12.0, 0) };
        picture(&mut part, [Default, Tamed][k / 2 % 2], MODES[k % 4], scene, &other);
        picture(&mut part, [Tamed, Default][k / 2 % 2], MODES[k % 4], &other, scene);
    }
    // one band blank, the other, both
    let (seen, blank) = (random(rng, 7, 7, -14.0, 14.0, 5), Scene::new(7, 7, &[f64::NAN; 49], &[0; 49]));
    for strategy in STRATEGIES {
        picture(&mut part, strategy, MODES[3], &seen, &blank);
        picture(&mut part, strategy, MODES[3], &blank, &seen);
        picture(&mut part, strategy, MODES[3], &blank, &blank);
    }
    clahe(&mut part, rng);
    lengths(&mut part, rng);
    refusals(&mut part, rng);
    part
}

fn clahe(part: &mut Part, rng: &mut Rng) {
    for (rows, cols) in [(7, 7), (8, 8), (7, 8), (8, 15), (15, 8), (14, 14), (16, 16), (21, 16), (24, 21), (16, 43), (42, 7)] {
        let (mut band1, band2) = (random(rng, rows, cols, -13.0, 9.0, 6), random(rng, rows, cols, -21.0, 7.0, 9));
        picture(part, Clahe, MODES[rows % 4], &band1, &band2);
        if rows < 16 {
            band1.db.iter_mut().filter(|v| v.abs() < 900.0).for_each(|v| *v = (*v / 3.0).round() * 3.0);
            picture(part, Clahe, MODES[cols % 4], &band2, &band1);
        }
    }
    // 5 by either side and either band; a blank band does not refuse
    let (seen, blank) = (random(rng, 3, 4, -13.0, 9.0, 0), Scene::new(3, 4, &[0.0; 12], &[0; 12]));
    picture(part, Clahe, MODES[0], &seen, &seen);
    picture(part, Clahe, MODES[0], &seen, &blank);
    picture(part, Clahe, MODES[0], &blank, &seen);
    picture(part, Clahe, MODES[0], &blank, &blank);
    for (rows, cols) in [(7, 9), (9, 7), (8, 6), (6, 8), (1, 8), (8, 1)] {
        let band = random(rng, rows, cols, -13.0, 9.0, 0);
        picture(part, Clahe, MODES[0], &band, &band);
    }
}

/// Each list of a wrong length alone.
fn lengths(part: &mut Part, rng: &mut Rng) {
    let (band1, band2) = (random(rng, 2, 3, -14.0, 14.0, 1), random(rng, 2, 3, -20.0, 12.0, 1));
    for strategy in [Default, Tamed, Clahe] {
        for wrong in [0, 1, 5, 7, 12] {
            for list in 0..4 {
                let (mut one, mut two) = (band1.clone(), band2.clone());
                match list {
                    0 => one.db.resize(wrong, 1.0),
                    1 => one.marks.resize(wrong, 1),
                    2 => two.db.resize(wrong, 1.0),
                    _ => two.marks.resize(wrong, 1),
                }
                calls::picture(part, strategy, MODES[0], &one, &two, named(&band1));
            }
            calls::picture(part, strategy, MODES[0], &band1, &band2, Lent { grey1: wrong, ..named(&band1) });
            calls::picture(part, strategy, MODES[0], &band1, &band2, Lent { grey2: wrong, ..named(&band1) });
        }
        for rgb in [0, 6, 17, 19, 36] {
            calls::picture(part, strategy, MODES[0], &band1, &band2, Lent { rgb, ..named(&band1) });
        }
        for work in [0, 1, WORK - 1, WORK + 1] {
            calls::picture(part, strategy, MODES[0], &band1, &band2, Lent { work, ..named(&band1) });
        }
    }
    for (rows, cols) in LARGE {
        let empty = Scene::new(rows, cols, &[], &[]);
        let lent = Lent { grey1: 0, grey2: 0, rgb: 0, work: WORK };
        calls::picture(part, Default, MODES[0], &empty, &empty, lent);
        calls::picture(part, Clahe, MODES[0], &empty, &empty, lent);
    }
}

/// Wrong marks and decibels in either band, then every pair of refusals in every pair of bands.
fn refusals(part: &mut Part, rng: &mut Rng) {
    let (band1, band2) = (random(rng, 2, 3, -14.0, 14.0, 1), random(rng, 2, 3, -20.0, 12.0, 1));
    let both = |part: &mut Part, fault: &dyn Fn(&mut Scene)| {
        let (mut one, mut two) = (band1.clone(), band2.clone());
        fault(&mut one);
        picture(part, Default, MODES[0], &one, &band2);
        fault(&mut two);
        picture(part, Tamed, MODES[0], &band1, &two);
        picture(part, Default, MODES[0], &one, &two);
    };
    for place in [0, 5] {
        for mark in [2, 255] {
            both(part, &|scene: &mut Scene| scene.marks[place] = mark);
        }
        for bad in BAD.into_iter().chain([1000.0, -1000.0]) {
            for mark in [1, 0] {
                both(part, &|scene: &mut Scene| {
                    scene.db[place] = bad;
                    scene.marks[place] = mark;
                });
            }
        }
    }
    let (band1, band2) = (sound(rng), sound(rng));
    let numbers = [2, 3, 4, 6];
    for first in numbers {
        picture(part, Standard, MODES[0], &with_fault(&band1, first), &band2);
        picture(part, Standard, MODES[0], &band1, &with_fault(&band2, first));
        for second in numbers {
            // in the same band, then one in each
            if first < second {
                picture(part, Standard, MODES[0], &with_fault(&with_fault(&band1, second), first), &band2);
                picture(part, Standard, MODES[0], &band1, &with_fault(&with_fault(&band2, second), first));
            }
            picture(part, Standard, MODES[0], &with_fault(&band1, first), &with_fault(&band2, second));
        }
        // 1 before any, in either band
        let lent = Lent { grey1: 49, grey2: 49, rgb: 147, work: 0 };
        let (mut wide, mut bad) = (band1.clone(), with_fault(&band1, first));
        (wide.sides.rows, bad.sides.rows) = (4097, 4097);
        calls::picture(part, Standard, MODES[0], &bad, &band2, lent);
        calls::picture(part, Standard, MODES[0], &wide, &with_fault(&band2, first), lent);
        wide.sides.cols = 6;
        calls::picture(part, Clahe, MODES[0], &wide, &band2, lent);
    }
    // with 5: six rows under Clahe
    let shorter = |scene: &Scene, missing: usize| {
        let mut scene = scene.clone();
        scene.sides.rows = 6;
        scene.db.truncate(42 - missing);
        scene.marks.truncate(42);
        scene
    };
    for number in [2, 3, 4] {
        let missing = usize::from(number == 2);
        let (bad1, bad2) = (shorter(&with_fault(&band1, number), missing), shorter(&with_fault(&band2, number), missing));
        picture(part, Clahe, MODES[0], &bad1, &shorter(&band2, 0));
        picture(part, Clahe, MODES[0], &shorter(&band1, 0), &bad2);
    }
}
