//! Pictures told which band is co-pol, and the windows of pictures: both choices on every pair of bands, right and refused.
use oracle::AutoscaleStrategy::{Clahe, Default, Tamed};
use oracle::{AutoscaleStrategy, COPOLS, Lent, MODES, STRATEGIES};
use random::Rng;

use crate::bands::{inverted_copol, random, short, sound, usual, with_fault};
use crate::beside::LARGE;
use crate::calls::{Scene, picture_copol, picture_windows};
use crate::pictures::named;
use crate::record::Part;

/// The picture and its windows, of either choice.
fn both(part: &mut Part, strategy: AutoscaleStrategy, band1: &Scene, band2: &Scene) {
    for (copol, mode) in COPOLS.into_iter().zip(MODES) {
        picture_copol(part, strategy, mode, copol, band1, band2, named(band1));
        picture_windows(part, strategy, copol, band1, band2);
    }
}

/// The picture lent these lengths, of either choice.
fn lent(part: &mut Part, strategy: AutoscaleStrategy, band1: &Scene, band2: &Scene, lent: Lent) {
    COPOLS.into_iter().for_each(|copol| picture_copol(part, strategy, MODES[0], copol, band1, band2, lent));
}

pub fn copol(rng: &mut Rng) -> Part {
    let mut part = Part::new("copol");
    for k in 0..10 {
        let (rows, cols) = (2 + rng.below(4), 3 + rng.below(8));
        let (band1, band2) = (random(rng, rows, cols, -14.0, 9.0, k % 4), random(rng, rows, cols, -22.0, 14.0, k % 3));
        both(&mut part, Tamed, &band1, &band2);
        both(&mut part, STRATEGIES[k % 7], &band1, &band2);
    }
    for scene in usual(rng).iter().step_by(5) {
        let other = random(rng, scene.sides.rows, scene.sides.cols, -18.0, 11.0, 2);
        both(&mut part, Tamed, scene, &other);
        both(&mut part, Tamed, &other, scene);
    }
    // flat bands, mixed zeros, few valid pixels or none, empty rasters
    for scene in short().iter().step_by(3) {
        both(&mut part, Tamed, scene, scene);
    }
    let other = random(rng, 10, 20, -18.0, 11.0, 2);
    both(&mut part, Tamed, &inverted_copol(), &other);
    both(&mut part, Tamed, &other, &inverted_copol());
    let (seen, blank) = (random(rng, 7, 7, -14.0, 14.0, 5), Scene::new(7, 7, &[f64::NAN; 49], &[0; 49]));
    for strategy in [Tamed, Clahe, Default] {
        both(&mut part, strategy, &seen, &blank);
        both(&mut part, strategy, &blank, &seen);
        both(&mut part, strategy, &blank, &blank);
    }
    refusals(&mut part, rng);
    part
}

/// The choice moves no refusal: every number in either band, lent lengths, sides that Clahe cannot paint.
fn refusals(part: &mut Part, rng: &mut Rng) {
    let (band1, band2) = (sound(rng), sound(rng));
    for number in [2, 3, 4] {
        both(part, Tamed, &with_fault(&band1, number), &band2);
        both(part, Tamed, &band1, &with_fault(&band2, number));
        both(part, Tamed, &with_fault(&band1, number), &with_fault(&band2, 6 - number));
        let mut wide = with_fault(&band1, number);
        wide.sides.rows = 4097;
        let as_lent = named(&band1);
        lent(part, Tamed, &wide, &band2, as_lent);
        COPOLS.into_iter().for_each(|copol| picture_windows(part, Tamed, copol, &wide, &band2));
    }
    let right = named(&band1);
    for wrong in [0, 48, 50] {
        for strategy in [Tamed, Clahe] {
            lent(part, strategy, &band1, &band2, Lent { grey1: wrong, ..right });
            lent(part, strategy, &band1, &band2, Lent { grey2: wrong, ..right });
            lent(part, strategy, &band1, &band2, Lent { rgb: 3 * wrong, ..right });
            lent(part, strategy, &band1, &band2, Lent { work: wrong, ..right });
        }
        let (mut one, mut two) = (band1.clone(), band2.clone());
        one.marks.resize(wrong, 1);
        two.db.resize(wrong, 1.0);
        both(part, Tamed, &one, &band2);
        both(part, Tamed, &band1, &two);
    }
    let narrow = random(rng, 3, 4, -13.0, 9.0, 0);
    both(part, Clahe, &narrow, &narrow);
    for (rows, cols) in LARGE {
        let empty = Scene::new(rows, cols, &[], &[]);
        lent(part, Tamed, &empty, &empty, Lent { grey1: 0, grey2: 0, rgb: 0, work: 0 });
        COPOLS.into_iter().for_each(|copol| picture_windows(part, Tamed, copol, &empty, &empty));
    }
}
