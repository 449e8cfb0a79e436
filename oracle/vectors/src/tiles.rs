//! Clahe: scenes for the grey parts, and the part of its internals: tile sums from counts, tile sums of a band, equalised pixels.
use oracle::{Band, Sides};
use random::Rng;

use crate::bands::random;
use crate::calls::Scene;
use crate::record::{Part, Record};

/// Sides around a change of the tile side, from one to eight pixels a tile.
const SIDES: [usize; 10] = [7, 8, 14, 15, 16, 21, 24, 42, 43, 64];

/// A band with few levels, whose tiles clip.
fn clipping(rng: &mut Rng, rows: usize, cols: usize) -> Scene {
    let mut scene = random(rng, rows, cols, -15.0, 9.0, rows * cols / 10);
    for v in scene.db.iter_mut().filter(|v| v.is_finite() && v.abs() < 900.0) {
        *v = (*v / 4.0).round() * 4.0;
    }
    scene
}

/// A band with a block of invalid pixels, so that tiles have no valid one.
fn with_hole(rng: &mut Rng, rows: usize, cols: usize) -> Scene {
    let mut scene = random(rng, rows, cols, -20.0, 6.0, 3);
    for r in rows / 4..rows - rows / 4 {
        for c in cols / 3..cols {
            scene.marks[r * cols + c] = 0;
            scene.db[r * cols + c] = f64::NAN;
        }
    }
    scene
}

/// Every square of the sides, and the rectangles of up to 350 pixels: spread values, few levels and holes in turn.
pub fn scenes(rng: &mut Rng) -> Vec<Scene> {
    let mut all = Vec::new();
    for (i, &rows) in SIDES.iter().enumerate() {
        for (j, &cols) in SIDES.iter().enumerate() {
            if rows == cols || rows * cols <= 350 {
                all.push(match (i + j) % 3 {
                    0 => clipping(rng, rows, cols),
                    1 => random(rng, rows, cols, -12.0, 10.0, 5),
                    _ => with_hole(rng, rows, cols),
                });
            }
        }
    }
    // flat, two values, one valid pixel
    all.push(Scene::new(8, 8, &[-12.5; 64], &[1; 64]));
    all.push(Scene::new(8, 8, &std::array::from_fn::<f64, 64, _>(|k| if k % 2 == 0 { 0.0 } else { 20.0 }), &[1; 64]));
    let mut one = Scene::new(7, 7, &[f64::INFINITY; 49], &[0; 49]);
    one.db[24] = 3.0;
    one.marks[24] = 1;
    all.push(one);
    all
}

/// The 256 sums of a tile with these counts among its rows × cols pixels, the rest invalid. The Rust is given a band of 64 such tiles.
pub fn sums_of_counts(sides: Sides, counts: &[u32]) -> Vec<f64> {
    let (rows, cols) = (8 * sides.rows, 8 * sides.cols);
    let (mut norm, mut marks) = (vec![0.0; rows * cols], vec![0; rows * cols]);
    let mut places = (0..sides.rows).flat_map(|r| (0..sides.cols).map(move |c| r * cols + c));
    for (level, &count) in counts.iter().enumerate() {
        for place in places.by_ref().take(count as usize) {
            norm[place] = level as f64 / 255.0;
            marks[place] = 1;
        }
    }
    assert_eq!(marks.iter().map(|&m| u32::from(m)).sum::<u32>(), counts.iter().sum::<u32>());
    oracle::clahe(Sides { rows, cols }, Band { db: &norm, marks: &marks }).unwrap().1[..256].to_vec()
}

fn tile(part: &mut Part, rows: usize, cols: usize, counts: &[u32]) {
    let sides = Sides { rows, cols };
    part.add(Record::new(17).sides(sides).list(counts).list(&sums_of_counts(sides, counts)));
}

/// Some of the area, dealt to some bins.
fn dealt(rng: &mut Rng, area: u32, bins: usize, invalid: u32) -> Vec<u32> {
    let mut counts = vec![0; 256];
    let mut left = area - invalid.min(area);
    for k in 0..bins {
        let share = if k + 1 == bins { left } else { rng.below(left as usize / 2 + 1) as u32 };
        counts[rng.below(256)] += share;
        left -= share;
    }
    counts
}

pub fn clahe(rng: &mut Rng) -> Part {
    let mut part = Part::new("clahe");
    // areas below, at and above 128 and 256, up to a tile of a 4,096 by 4,096 band
    let areas =
        [(1, 1), (2, 1), (8, 8), (1, 127), (8, 16), (3, 43), (10, 13), (15, 17), (16, 16), (1, 257), (20, 50), (64, 64), (512, 512)];
    for (rows, cols) in areas {
        let area = (rows * cols) as u32;
        let mut one = vec![0; 256];
        one[200] = area;
        tile(&mut part, rows, cols, &one);
        tile(&mut part, rows, cols, &dealt(rng, area, 9, area / 10));
        tile(&mut part, rows, cols, &dealt(rng, area, 60, 0));
    }
    tile(&mut part, 16, 16, &[0; 256]);
    tile(&mut part, 16, 16, &[1; 256]);
    // at the threshold, 2, and above it
    tile(&mut part, 16, 16, &std::array::from_fn::<u32, 256, _>(|k| if k < 128 { 2 } else { 0 }));
    tile(&mut part, 16, 16, &std::array::from_fn::<u32, 256, _>(|k| if k < 85 { 3 } else { 0 }));
    // 1,000 pixels, threshold 7.8125: an excess of 255.5625, whose rest is one full round of 256
    let mut round = [0; 256];
    (round[3], round[100], round[255]) = (93, 93, 93);
    tile(&mut part, 20, 50, &round);
    // 160 pixels, threshold 1.25: two bins above it leave an excess with the fraction one half
    let mut half = [0; 256];
    (half[0], half[10]) = (50, 60);
    tile(&mut part, 10, 16, &half);

    // sums of some tiles of a band: the first, one in the middle, and the last ones, which may have no pixel
    for (rows, cols) in [(7, 7), (8, 8), (14, 15), (15, 14), (16, 16), (21, 24), (43, 21), (24, 42)] {
        let scene = [clipping(rng, rows, cols), with_hole(rng, rows, cols)][rows % 2].clone();
        let (normalised, _) = normalised(&scene);
        let (_, sums) = oracle::clahe(scene.sides, normalised.band()).unwrap();
        let tiles = [0u32, 27, 63];
        let some: Vec<f64> = tiles.iter().flat_map(|&t| sums[256 * t as usize..256 * (t as usize + 1)].to_vec()).collect();
        part.add(Record::new(18).sides(scene.sides).list(&normalised.db).list(&normalised.marks).list(&tiles).list(&some));
    }
    // equalised pixels
    for (rows, cols) in [(7, 7), (8, 8), (7, 16), (15, 8), (14, 14), (16, 21), (24, 15)] {
        for scene in [clipping(rng, rows, cols), random(rng, rows, cols, -9.0, 8.0, 4)] {
            let (normalised, equalised) = normalised(&scene);
            let record = Record::new(19).sides(scene.sides).list(&normalised.db).list(&normalised.marks);
            part.add(record.list(&equalised));
        }
    }
    part
}

/// The band as Clahe normalises it, 0 where invalid, and its equalised pixels.
pub fn normalised(scene: &Scene) -> (Scene, Vec<f64>) {
    let w = oracle::window(oracle::AutoscaleStrategy::Clahe, scene.sides, scene.band()).unwrap().unwrap();
    let mut given = scene.clone();
    for (v, &mark) in given.db.iter_mut().zip(&scene.marks) {
        *v = if mark == 1 { (v.max(w.low).min(w.high) - w.low) / w.range } else { 0.0 };
    }
    let (equalised, _) = oracle::clahe(given.sides, given.band()).unwrap();
    (given, equalised)
}
