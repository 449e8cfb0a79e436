//! Scenes: sides, two bands with marks, and what may be wrong with them.

use random::Rng;

pub struct Scene {
    pub rows: usize,
    pub cols: usize,
    pub db: [Vec<f64>; 2],
    pub marks: [Vec<u8>; 2],
    /// Lengths of the two greys, the colours and the work.
    pub lent: [usize; 4],
}

/// Sides around those that Clahe accepts and refuses, and small ones.
const SIDES: [usize; 28] = [0, 1, 2, 3, 4, 5, 6, 7, 8, 9, 13, 14, 15, 16, 17, 20, 21, 24, 25, 28, 32, 33, 35, 40, 41, 42, 43, 50];

fn ulps(x: f64, n: i64) -> f64 {
    f64::from_bits((x.to_bits() as i64 + n) as u64)
}

/// n decibels of one of several kinds.
pub fn decibels(rng: &mut Rng, n: usize) -> Vec<f64> {
    let kind = rng.below(16);
    let base = -30.0 + 40.0 * rng.unit();
    let spread = rng.one_of(&[0.001, 0.3, 0.9999999, 1.0, 5.0, 14.999, 15.0, 15.001, 30.0, 40.0, 40.001, 300.0]);
    let low = rng.one_of(&[-1000.0, -500.0, -0.0, 0.0, 512.0, 999.0]);
    (0..n)
        .map(|_| match kind {
            0 => rng.one_of(&[0.0, -0.0]),
            1 => rng.one_of(&[0.0, -0.0, 1e-300, -1e-300, f64::MIN_POSITIVE]),
            2 => low,
            3 => ulps(512.0, rng.one_of(&[0, 98, 99, 99, 99, 99, 2069])),
            4 => ulps(1.0, rng.below(6) as i64),
            5 => -1000.0 + 2000.0 * rng.unit(),
            6 => rng.one_of(&[-1000.0, 1000.0, 970.0, 980.0, 990.0]),
            7 => rng.below(7) as f64,
            8 => base + spread * rng.unit().powi(6),
            9 => base - spread * rng.unit().powi(6),
            10 => base + spread * (rng.unit() + rng.unit() + rng.unit() - 1.5) / 3.0,
            11 => -0.5 - rng.one_of(&[0.0, 2f64.powi(-42), 2f64.powi(-53)]),
            12 => rng.one_of(&[0.0, 2f64.powi(-52), ulps(2f64.powi(-52), -1), ulps(2f64.powi(-52), 1)]),
            13 => rng.one_of(&[0.0, 14.0, 15.0, 40.0, 41.0]) * rng.below(2) as f64,
            // p02 above p05, where there are pixels enough
            14 => ulps(512.0, if rng.once_in(100) { rng.one_of(&[0, 3658]) } else { 256 - i64::from(rng.once_in(50)) }),
            _ => base + spread * rng.unit(),
        })
        .collect()
}

pub fn marks(rng: &mut Rng, n: usize) -> Vec<u8> {
    let kind = rng.below(8);
    let one = rng.below(n.max(1));
    (0..n)
        .map(|i| match kind {
            0 => 0,
            1 => (i == one) as u8,
            2 => rng.once_in(2) as u8,
            3 => !rng.once_in(8) as u8,
            _ => 1,
        })
        .collect()
}

/// What stands under 0 marks may be anything.
pub fn garbage(rng: &mut Rng, db: &mut [f64], marks: &[u8]) {
    for (v, &mark) in db.iter_mut().zip(marks) {
        if mark == 0 {
            *v = match rng.below(5) {
                0 => f64::NAN,
                1 => f64::INFINITY,
                2 => f64::NEG_INFINITY,
                3 => f64::from_bits(rng.bits()),
                _ => 1e6 * (rng.unit() - 0.5),
            };
        }
    }
}

/// A scene that is accepted but for 5 and 6.
pub fn sound(rng: &mut Rng) -> Scene {
    let (rows, cols) = (rng.one_of(&SIDES), rng.one_of(&SIDES));
    sound_of(rng, rows, cols)
}

pub fn sound_of(rng: &mut Rng, rows: usize, cols: usize) -> Scene {
    let n = rows * cols;
    let marks = [marks(rng, n), marks(rng, n)];
    let mut db = [decibels(rng, n), decibels(rng, n)];
    for k in 0..2 {
        if rng.once_in(2) {
            garbage(rng, &mut db[k], &marks[k]);
        }
    }
    Scene { rows, cols, db, marks, lent: [n, n, 3 * n, rng.one_of(&[0, 5, 16_384])] }
}

/// One thing wrong, or several.
pub fn damage(rng: &mut Rng, scene: &mut Scene) {
    loop {
        let k = rng.below(2);
        match rng.below(8) {
            0 => {
                let wide = rng.one_of(&[4_097, 5_000, usize::MAX, 1 << 32]);
                if rng.once_in(2) { scene.rows = wide } else { scene.cols = wide }
            }
            1 => resize(rng, &mut scene.db[k]),
            2 => resize(rng, &mut scene.marks[k]),
            3 => {
                let which = rng.below(4);
                let by = rng.one_of(&[1, 2, 1000]);
                scene.lent[which] = if rng.once_in(2) { scene.lent[which] + by } else { scene.lent[which].saturating_sub(by) };
            }
            4 => put(rng, &mut scene.marks[k], &[2, 3, 128, 255]),
            5 | 6 => {
                let bad = [f64::NAN, f64::INFINITY, f64::NEG_INFINITY, ulps(1000.0, 1), ulps(-1000.0, 1), 1e9, -1e9, 1000.0, -1000.0];
                put(rng, &mut scene.db[k], &bad);
            }
            _ => {}
        }
        if rng.once_in(2) {
            return;
        }
    }
}

fn resize<T: Copy + Default>(rng: &mut Rng, list: &mut Vec<T>) {
    let len = if rng.once_in(2) { list.len() + 1 } else { list.len().saturating_sub(1) };
    list.resize(len, T::default());
}

fn put<T: Copy>(rng: &mut Rng, list: &mut [T], values: &[T]) {
    if !list.is_empty() {
        let at = rng.below(list.len());
        list[at] = rng.one_of(values);
    }
}

/// A permutation of 0 .. n - 1.
pub fn order(rng: &mut Rng, n: usize) -> Vec<usize> {
    let mut places: Vec<usize> = (0..n).collect();
    for i in (1..n).rev() {
        places.swap(i, rng.below(i + 1));
    }
    places
}

pub fn moved<T: Copy>(places: &[usize], list: &[T]) -> Vec<T> {
    places.iter().map(|&i| list[i]).collect()
}

pub fn moved_triples(places: &[usize], rgb: &[u8]) -> Vec<u8> {
    places.iter().flat_map(|&i| [rgb[3 * i], rgb[3 * i + 1], rgb[3 * i + 2]]).collect()
}

/// A sea scene of any size: swell, speckle, some invalid pixels, every value in the accepted range.
pub fn sea(rng: &mut Rng, rows: usize, cols: usize) -> (Vec<f64>, Vec<u8>) {
    let mut db = Vec::with_capacity(rows * cols);
    let mut marks = Vec::with_capacity(rows * cols);
    for row in 0..rows {
        for col in 0..cols {
            let swell = ((row * 3 + col * 7) as f64 * 0.01).sin();
            db.push(-18.0 + 4.0 * swell + 12.0 * (rng.unit() + rng.unit() - 1.0));
            marks.push(!rng.once_in(50) as u8);
        }
    }
    (db, marks)
}
