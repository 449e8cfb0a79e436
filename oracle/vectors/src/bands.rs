//! Scenes of one band on every side of every rule, and the statistics, window and grey parts made of them.
use oracle::AutoscaleStrategy::{Adaptive, Clahe, Default, Robust, Standard, Tamed};
use oracle::{AutoscaleStrategy, STRATEGIES};
use random::Rng;

use crate::beside::LARGE;
use crate::calls::{Scene, grey8, grey16, statistics, window};
use crate::record::{Part, strategy_code};
use crate::tiles;

const WORK: usize = oracle::table::CLAHE_WORK;

/// What stands under 0 marks.
const GARBAGE: [f64; 8] = [f64::NAN, f64::INFINITY, f64::NEG_INFINITY, 1e308, -5000.0, -0.0, 1000.5, f64::from_bits(1)];

/// Values around a mean, and some invalid pixels with garbage under them.
pub fn random(rng: &mut Rng, rows: usize, cols: usize, mean: f64, spread: f64, holes: usize) -> Scene {
    let n = rows * cols;
    let mut scene = Scene::new(rows, cols, &vec![0.0; n], &vec![1; n]);
    for v in &mut scene.db {
        *v = mean + spread * rng.around();
    }
    for _ in 0..holes {
        let k = rng.below(n);
        scene.marks[k] = 0;
        scene.db[k] = rng.one_of(&GARBAGE);
    }
    scene
}

/// How the Rust decides a window: its messages and its gamma.
fn branch(strategy: AutoscaleStrategy, db: &[f64]) -> (Vec<&'static str>, f64) {
    let marks = vec![1; db.len()];
    let (window, texts) = oracle::rust::window(strategy, oracle::Band { db, marks: &marks });
    (texts, window.unwrap().gamma)
}

/// Between two positive numbers with different decisions: the last on one side and the first on the other, with their neighbours.
fn edge(strategy: AutoscaleStrategy, low: f64, high: f64, scene: impl Fn(f64) -> Vec<f64>) -> Vec<Scene> {
    let here = branch(strategy, &scene(low));
    assert_ne!(here, branch(strategy, &scene(high)), "no edge between {low} and {high}");
    let (mut below, mut above) = (low.to_bits(), high.to_bits());
    while above - below > 1 {
        let middle = below + (above - below) / 2;
        if branch(strategy, &scene(f64::from_bits(middle))) == here {
            below = middle;
        } else {
            above = middle;
        }
    }
    [below - 1, below, above, above + 1].iter().map(|&bits| Scene::row(&scene(f64::from_bits(bits)))).collect()
}

/// Scenes at the edges of the window rules.
pub fn edges() -> Vec<Scene> {
    let mut all = Vec::new();
    // spreads 15 and 40, from 0, over 0, and far from 0
    for (low, high) in [(10.0, 20.0), (30.0, 50.0)] {
        all.extend(edge(Standard, low, high, |x| vec![0.0, x]));
        all.extend(edge(Standard, low, high, |x| vec![-7.0, x - 7.0]));
        all.extend(edge(Standard, low, high, |x| vec![-990.0, x - 990.0, x - 991.0, -989.0]));
    }
    for x in [15.0f64, 40.0] {
        all.extend([x.next_down(), x, x.next_up()].map(|x| Scene::row(&[0.0, x])));
    }
    // interquartile range 5: p25 and p75 are 5 apart at scale 1, within a spread of 16 and of 64
    let quartiles = |bins: [f64; 2], spread: f64, s: f64| {
        let [a, b] = bins.map(|bin| s * (bin + 0.5) * spread / 4096.0);
        vec![0.0, s * spread / 9.0, a, 0.8 * a + 0.2 * b, 0.5 * a + 0.5 * b, 0.3 * a + 0.7 * b, b, s * spread]
    };
    all.extend(edge(Standard, 0.99, 1.01, |s| quartiles([512.0, 1792.0], 16.0, s)));
    all.extend(edge(Standard, 0.99, 1.01, |s| quartiles([512.0, 832.0], 64.0, s)));
    // skew 0.5 and -0.5, with a deviation under 1 and above it
    all.extend(edge(Adaptive, 0.5, 1.2, |x| vec![0.0, x]));
    all.extend(edge(Adaptive, 1.0, 2.0, |x| vec![0.0, 0.0, x]));
    all.extend(edge(Adaptive, 6.0, 90.0, |x| vec![0.0, 1.0, 2.0, x]));
    all.extend(edge(Adaptive, 3.0, 6.0, |x| vec![0.0, -1.0, -2.0, -x]));
    // tail 2, with a divisor of 1 and above it
    let tail = |step: f64, x: f64| (0..40).map(|k| f64::from(k) * step).chain([x, -10.0]).collect::<Vec<f64>>();
    all.extend(edge(Adaptive, 4.0, 14.0, |x| tail(0.1, x)));
    all.extend(edge(Adaptive, 20.0, 60.0, |x| tail(0.5, x)));
    all
}

/// Short scenes: every list of up to two of some values, flat ones, mixed zeros, spans around 2^-52, few or no valid pixels, empty rasters.
pub fn short() -> Vec<Scene> {
    let mut all = Vec::new();
    let few = [-1000.0, -0.0, 0.0, 5.0, 1000.0];
    for a in few {
        all.push(Scene::row(&[a]));
        for b in few {
            all.push(Scene::row(&[a, b]));
        }
    }
    for db in [
        &[0.0, -0.0, 1.0][..],
        &[-0.0, 0.0, 1.0],
        &[-1.0, 0.0, -0.0],
        &[-1.0, -0.0, 0.0],
        &[0.0, -0.0, 0.0, -0.0, 0.5, -0.5],
        &[-0.0, 20.0, 0.0, 40.0],
        &[-0.0; 5],
        &[-12.5; 5],
        &[1000.0; 3],
        &[-1000.0, 1000.0, 0.0, 999.0],
        &[0.0, 14.0],
        &[0.0, 41.0],
        &[0.0, 0.5],
        &[0.0, 10.0],
        &[1.0, 2.0, 3.0, 4.0, 5.0, 6.0, 7.0, 8.0, 9.0],
    ] {
        all.push(Scene::row(db));
    }
    // spans around 2^-52
    let tiny = f64::EPSILON;
    for span in [tiny, tiny.next_up(), tiny.next_down(), 2.0 * tiny, tiny / 2.0, f64::from_bits(1), f64::MIN_POSITIVE] {
        all.push(Scene::row(&[0.0, span]));
        all.push(Scene::row(&[-span, -0.0, 0.0]));
    }
    for quarters in 1..=6 {
        let v = 0.25 + f64::from(quarters) * tiny / 4.0;
        all.push(Scene::row(&[0.25, v, 0.25]));
        all.push(Scene::row(&[-v, -0.25]));
    }
    // a percentile above the greatest, by one unit in the last place
    all.push(Scene::row(&[-0.5 - tiny * 1024.0, -0.5, -0.5, -0.5]));
    // marks: every pattern over three pixels, with garbage under 0 marks; then one valid pixel, and none
    for pattern in 0..8u8 {
        for (k, valid) in [[3.0, -8.5, 12.0], [-0.0, 0.0, 0.0], [-1000.0, 1000.0, -1000.0]].iter().enumerate() {
            let marks: Vec<u8> = (0..3).map(|i| pattern >> i & 1).collect();
            let db: Vec<f64> = (0..3).map(|i| if marks[i] == 1 { valid[i] } else { GARBAGE[(i + k + usize::from(pattern)) % 8] }).collect();
            all.push(Scene::new(1, 3, &db, &marks));
            all.push(Scene::new(3, 1, &db, &marks));
        }
    }
    for place in 0..6 {
        let mut scene = Scene::new(2, 3, &GARBAGE[..6], &[0; 6]);
        scene.db[place] = -12.5;
        scene.marks[place] = 1;
        all.push(scene);
    }
    all.push(Scene::new(2, 4, &GARBAGE, &[0; 8]));
    all.extend([(0, 0), (0, 5), (5, 0), (0, 4096), (4096, 0)].map(|(rows, cols)| Scene::new(rows, cols, &[], &[])));
    all
}

/// 512 dB and steps of its last place: 0 and the spread once, then two neighbouring values. Where these round apart, the lower
/// percentile comes out above the higher one.
fn close(cols: usize, rows: usize, spread: usize, lower: usize, lower_count: usize) -> Scene {
    let at = |step: usize, count: usize| vec![512.0 + step as f64 * 2f64.powi(-43); count];
    let n = rows * cols;
    let db = [at(0, 1), at(spread, 1), at(lower, lower_count), at(lower + 1, n - 2 - lower_count)].concat();
    Scene::new(rows, cols, &db, &vec![1; n])
}

/// p05 above p95: Default's low is above its high.
pub fn inverted_default() -> Scene {
    close(50, 40, 2069, 98, 100)
}

/// p25 above p99: Tamed's low is above its high.
pub fn inverted_tamed() -> Scene {
    close(28, 11, 2075, 76, 77)
}

/// p02 above p05: in a picture Tamed's low is p05 for the co-pol band too.
pub fn inverted_copol() -> Scene {
    close(20, 10, 3658, 255, 4)
}

/// By whole decibels: Standard's margin of 0.02 of the spread passes p02.
pub fn inverted_standard() -> Scene {
    let db: Vec<f64> = [-1000.0].into_iter().chain((0..49).map(|k| 970.0 + 30.0 * f64::from(k) / 48.0)).collect();
    Scene::new(5, 10, &db, &[1; 50])
}

/// Scenes like those of the trade, up to 100 pixels.
pub fn usual(rng: &mut Rng) -> Vec<Scene> {
    let mut all = Vec::new();
    for k in 0..40 {
        let (rows, cols) = (1 + rng.below(6), 2 + rng.below(9));
        let spread = rng.one_of(&[0.001, 0.5, 3.0, 7.0, 9.0, 12.0, 18.0, 30.0, 400.0]);
        let mean = rng.one_of(&[-15.0, -22.0, 0.0, 5.0, -300.0]);
        all.push(random(rng, rows, cols, mean, spread, if k % 3 == 0 { rows * cols / 4 } else { 0 }));
    }
    // few distinct values, so that bins hold several
    for _ in 0..8 {
        let db: Vec<f64> = (0..24).map(|_| -20.0 + 5.0 * rng.below(8) as f64).collect();
        all.push(Scene::new(4, 6, &db, &[1; 24]));
    }
    // heavy tails to either side, and a hundred pixels
    for sign in [1.0, -1.0] {
        let db: Vec<f64> = (0..30).map(|k| sign * if k < 25 { rng.around() } else { 10.0 + 30.0 * rng.unit() }).collect();
        all.push(Scene::new(5, 6, &db, &[1; 30]));
    }
    for spread in [8.0, 16.0, 25.0] {
        all.push(random(rng, 10, 10, -12.0, spread, 9));
    }
    all
}

/// The same scene with other garbage under its 0 marks.
pub fn altered(rng: &mut Rng) -> Vec<Scene> {
    let scene = random(rng, 3, 4, -14.0, 12.0, 5);
    let mut other = scene.clone();
    let places: Vec<usize> = (0..12).filter(|&k| scene.marks[k] == 0).collect();
    for k in places {
        other.db[k] = 3.0;
    }
    vec![scene, other]
}

/// A scene of 7 by 7 for every refusal to be put into: Standard paints it at both depths.
pub fn sound(rng: &mut Rng) -> Scene {
    loop {
        let scene = random(rng, 7, 7, -14.0, 12.0, 6);
        if oracle::grey_u16(Standard, scene.sides, scene.band(), 49, 0).is_ok() {
            return scene;
        }
    }
}

/// Values that 4 refuses, and the outermost that it accepts.
pub const BAD: [f64; 7] = [f64::NAN, f64::INFINITY, f64::NEG_INFINITY, 1000.0000000000001, -1000.0000000000001, f64::MAX, -1001.0];

/// A band with the fault of one number, 2 to 4 or 6.
pub fn with_fault(sound: &Scene, number: u8) -> Scene {
    let mut scene = sound.clone();
    let first = scene.marks.iter().position(|&m| m == 1).unwrap();
    match number {
        2 => {
            scene.db.pop();
        }
        3 => scene.marks[first + 1] = 2,
        4 => scene.db[first] = f64::NAN,
        6 => scene.db.iter_mut().for_each(|v| *v = (*v / 40.0).clamp(-900.0, 900.0)),
        _ => unreachable!(),
    }
    scene
}

/// Scenes that are refused by 1 to 4: one fault, then two together.
pub fn damaged(rng: &mut Rng) -> Vec<Scene> {
    let mut all = Vec::new();
    let small = random(rng, 2, 3, -14.0, 14.0, 2);
    for (db, marks) in [(5, 6), (6, 5), (7, 6), (6, 7), (0, 6), (6, 0), (0, 0), (5, 5), (7, 7), (12, 12), (5, 7)] {
        let mut scene = small.clone();
        scene.db.resize(db, 1.0);
        scene.marks.resize(marks, 1);
        all.push(scene);
    }
    for mark in [2, 255, 3, 128] {
        for place in [0, 3, 5] {
            let mut scene = small.clone();
            scene.marks[place] = mark;
            all.push(scene);
        }
    }
    for bad in BAD.into_iter().chain([1000.0, -1000.0, 999.9999999999999]) {
        for place in [0, 2, 5] {
            for mark in [1, 0] {
                let mut scene = small.clone();
                scene.db[place] = bad;
                scene.marks[place] = mark;
                all.push(scene);
            }
        }
    }
    // a wrong mark over a bad value is 3; a bad value before a wrong mark is 3; both with a wrong length are 2; all with a wide side are 1
    let mut scene = small.clone();
    scene.marks[1] = 2;
    scene.db[1] = f64::NAN;
    all.push(scene.clone());
    scene.marks[5] = 255;
    scene.db[0] = 2000.0;
    scene.marks[0] = 1;
    all.push(scene.clone());
    scene.db.push(0.0);
    all.push(scene.clone());
    scene.sides.rows = 4097;
    all.push(scene.clone());
    scene.sides.rows = 2;
    scene.sides.cols = 4097;
    all.push(scene);
    all.extend(LARGE.map(|(rows, cols)| Scene::new(rows, cols, &[], &[])));
    all.push(Scene::new(4097, 1, &[1.0], &[1]));
    all
}

/// One column of the largest side.
fn tall(rng: &mut Rng) -> Scene {
    random(rng, 4096, 1, -10.0, 12.0, 100)
}

pub fn statistics_part(rng: &mut Rng) -> Part {
    let mut part = Part::new("statistics");
    let scenes = [short(), edges(), usual(rng), altered(rng), damaged(rng)].concat();
    scenes.iter().for_each(|scene| statistics(&mut part, scene));
    [inverted_default(), inverted_standard(), inverted_tamed(), tall(rng)].iter().for_each(|scene| statistics(&mut part, scene));
    // counts whose product with a fraction is a whole number or next to one
    for n in [19, 20, 21, 49, 50, 51, 99, 100, 101, 199, 200, 201] {
        let db: Vec<f64> = (0..n).map(|k| (k * 37 % n) as f64 * 0.5 - 40.0).collect();
        statistics(&mut part, &Scene::row(&db));
    }
    part
}

pub fn window_part(rng: &mut Rng) -> Part {
    let mut part = Part::new("window");
    for scene in [short(), edges(), usual(rng), altered(rng)].concat() {
        STRATEGIES.iter().for_each(|&strategy| window(&mut part, strategy, &scene));
    }
    window(&mut part, Default, &inverted_default());
    window(&mut part, Tamed, &inverted_tamed());
    STRATEGIES.iter().for_each(|&strategy| window(&mut part, strategy, &inverted_standard()));
    for (k, scene) in damaged(rng).iter().enumerate() {
        window(&mut part, STRATEGIES[k % 7], scene);
    }
    // no 5 here: sides that Clahe cannot paint
    window(&mut part, Clahe, &random(rng, 3, 4, -10.0, 9.0, 0));
    part
}

/// Wrong lengths of what is lent to a grey call, and pairs of refusals.
fn grey_damage(rng: &mut Rng, mut grey: impl FnMut(AutoscaleStrategy, &Scene, usize, usize)) {
    let sound = sound(rng);
    for strategy in STRATEGIES {
        for out in [0, 1, 48, 50, 98] {
            grey(strategy, &sound, out, WORK);
        }
        for work in [0, 1, WORK - 1, WORK + 1] {
            grey(strategy, &sound, 49, work);
        }
    }
    // 5: with a valid pixel and without one; a wrong work length comes first
    for (rows, cols) in [(1, 2), (3, 4), (6, 7), (7, 6), (9, 8), (8, 13), (17, 7), (7, 20), (7, 27), (33, 7), (41, 7), (7, 41)] {
        let scene = random(rng, rows, cols, -10.0, 9.0, 0);
        grey(Clahe, &scene, rows * cols, WORK);
        let blank = Scene::new(rows, cols, &vec![f64::NAN; rows * cols], &vec![0; rows * cols]);
        grey(Clahe, &blank, rows * cols, WORK);
    }
    let blank = Scene::new(3, 4, &[1.0; 12], &[0; 12]);
    grey(Clahe, &blank, 12, WORK - 1);
    grey(Clahe, &blank, 11, WORK);
    grey(Standard, &blank, 12, 0);
    // pairs of refusals: 2, 3, 4 and 6 under Standard; 2 to 5 under Clahe
    for first in [2, 3, 4] {
        for second in [3, 4, 6] {
            if first < second {
                grey(Standard, &with_fault(&with_fault(&sound, second), first), 49, 0);
            }
        }
        let mut narrow = with_fault(&sound, first);
        narrow.sides.rows = 6;
        narrow.db.truncate(42 - usize::from(first == 2));
        narrow.marks.truncate(42);
        grey(Clahe, &narrow, 42, WORK);
    }
    for number in [2, 3, 4, 6] {
        let mut scene = with_fault(&sound, number);
        grey(Standard, &scene, 49, 0);
        scene.sides.cols = 4097;
        grey(Standard, &scene, 49, 0);
    }
}

/// The scenes that a grey part paints with every strategy, then those with some.
fn greys(rng: &mut Rng, mut grey: impl FnMut(AutoscaleStrategy, &Scene, usize, usize)) {
    for scene in short() {
        for strategy in [Default, Standard, Tamed] {
            grey(strategy, &scene, scene.count(), 0);
        }
    }
    for (k, scene) in usual(rng).iter().enumerate() {
        for strategy in STRATEGIES {
            if k < 12 || (k + usize::from(strategy_code(strategy))) % 3 == 0 {
                grey(strategy, scene, scene.count(), WORK);
            }
        }
    }
    for (k, scene) in edges().iter().enumerate() {
        for strategy in [Standard, Adaptive] {
            grey(strategy, scene, scene.count(), k % 3);
        }
    }
    for scene in altered(rng) {
        for strategy in [Default, Robust, Tamed] {
            grey(strategy, &scene, 12, 5);
        }
    }
    grey(Default, &inverted_default(), 2000, 0);
    grey(Tamed, &inverted_tamed(), 308, 0);
    grey(Standard, &inverted_standard(), 50, 0);
    grey(Robust, &inverted_standard(), 50, 0);
    for (k, scene) in damaged(rng).iter().enumerate() {
        let out = scene.count().min(12);
        grey(STRATEGIES[k % 7], scene, out, WORK);
    }
    grey_damage(rng, &mut grey);
}

pub fn grey8_part(rng: &mut Rng) -> Part {
    let mut part = Part::new("grey8");
    greys(rng, |strategy, scene, out, work| grey8(&mut part, strategy, scene, out, work));
    grey8(&mut part, Default, &tall(rng), 4096, 0);
    for scene in tiles::scenes(rng) {
        grey8(&mut part, Clahe, &scene, scene.count(), WORK);
    }
    part
}

pub fn grey16_part(rng: &mut Rng) -> Part {
    let mut part = Part::new("grey16");
    greys(rng, |strategy, scene, out, work| grey16(&mut part, strategy, scene, out, work));
    for scene in tiles::scenes(rng).iter().step_by(2) {
        grey16(&mut part, Clahe, scene, scene.count(), WORK);
    }
    part
}
