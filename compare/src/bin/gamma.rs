//! gamma SCENES SEED: F-1's greys against the Rust's `powf`. First SCENES random scenes a gamma through both: how many greys and colours differ. Then
//! every f64 within 4,096 of each of the 765 thresholds: at which of them `powf` gives another byte. Prints what docs/DIFFERENCES.md quotes.

use compare::strategy_of;
use engine::{AutoscaleStrategy, Band, CoPol, PictureChoices, PictureOut, SyntheticRgbMode, Window};
use oracle::{Lent, Sides};
use random::Rng;
use std::fs::read_to_string;

const GAMMAS: [f64; 3] = [0.8, 0.9, 1.1];
const SIDE: usize = 256;

/// The thresholds as the engine's source has them.
fn thresholds() -> Vec<Vec<f64>> {
    let source = read_to_string("crates/gamma/src/numbers.rt").expect("run from the project's root");
    let body = source.split_once("= [").expect("a table").1;
    let numbers: Vec<f64> =
        body.split(|c: char| "[], ;\n".contains(c)).filter(|word| !word.is_empty()).map(|word| word.parse().expect(word)).collect();
    assert_eq!(numbers.len(), 765);
    numbers.chunks(255).map(<[f64]>::to_vec).collect()
}

/// A band to which a strategy gives this gamma: low contrast, wide, skewed or with heavy tails.
fn band(rng: &mut Rng, gamma: f64) -> (AutoscaleStrategy, Vec<f64>) {
    let standard = gamma != 0.8 && rng.once_in(2);
    let value = |rng: &mut Rng| match (gamma, standard) {
        (1.1, true) => -20.0 + 14.0 * rng.unit(),
        (0.9, true) => -40.0 + 60.0 * rng.unit(),
        (1.1, false) => -10.0 - 30.0 * rng.unit().powi(5),
        (0.9, false) => -30.0 + 30.0 * rng.unit().powi(5),
        _ => -15.0 + (rng.unit() + rng.unit() - 1.0) + if rng.once_in(12) { 24.0 * (rng.unit() - 0.5) } else { 0.0 },
    };
    let strategy = if standard { AutoscaleStrategy::Standard } else { AutoscaleStrategy::Adaptive };
    (strategy, (0..SIDE * SIDE).map(|_| value(rng)).collect())
}

/// Bytes that differ.
fn unlike(a: &[u8], b: &[u8]) -> usize {
    a.iter().zip(b).filter(|(x, y)| x != y).count()
}

fn scenes(count: usize, seed: u64) {
    let (sides, n) = (Sides { rows: SIDE, cols: SIDE }, SIDE * SIDE);
    for gamma in GAMMAS {
        let (mut rng, mut done, mut greys, mut colours) = (Rng::new(seed), 0, 0, 0);
        while done < count {
            let (strategy, db) = band(&mut rng, gamma);
            let turned: Vec<f64> = db.iter().rev().copied().collect();
            let marks: Vec<u8> = (0..n).map(|_| u8::from(!rng.once_in(50))).collect();
            let ours = [&db, &turned].map(|db| Band { db, valid_mask: &marks });
            if !matches!(engine::window(strategy, SIDE, SIDE, ours[0]), Ok(Window::Window { gamma: chosen, .. }) if chosen == gamma) {
                continue;
            }
            done += 1;
            let theirs = [&db, &turned].map(|db| oracle::Band { db, marks: &marks });
            let lent = Lent { grey1: n, grey2: n, rgb: 3 * n, work: 0 };
            let (mode, copol) = (oracle::SyntheticRgbMode::Default, oracle::CoPol::Band1);
            let expected = oracle::picture(strategy_of(strategy), mode, copol, sides, theirs[0], theirs[1], lent).expect("no refusal");
            let (mut grey1, mut grey2, mut rgb) = (vec![0; n], vec![0; n], vec![0; 3 * n]);
            let out = PictureOut { grey1: &mut grey1, grey2: &mut grey2, rgb: &mut rgb };
            let choices = PictureChoices { strategy, mode: SyntheticRgbMode::Default, copol: CoPol::Band1 };
            engine::picture(choices, SIDE, SIDE, ours[0], ours[1], out, &mut []).expect("no refusal");
            greys += unlike(&grey1, &expected.grey1) + unlike(&grey2, &expected.grey2);
            colours += unlike(&rgb, &expected.rgb);
        }
        println!("gamma {gamma}: {count} scenes, {} pixels of two bands: {greys} greys and {colours} colour bytes differ", 2 * count * n);
    }
}

/// The Rust's value of a normalised pixel.
fn rust(t: f64, gamma: f64) -> usize {
    usize::from((t.powf(gamma) * 255.0).clamp(0.0, 255.0) as u8)
}

fn next_to_thresholds() {
    for (gamma, table) in GAMMAS.into_iter().zip(thresholds()) {
        let (mut tried, mut apart, mut places) = (0, 0, Vec::new());
        let (mut least, mut most) = (0, 0);
        for (k, threshold) in (1..).zip(&table) {
            let mut offsets = Vec::new();
            for offset in -4096i64..=4096 {
                let t = f64::from_bits(threshold.to_bits().wrapping_add_signed(offset));
                if t > 1.0 {
                    continue;
                }
                tried += 1;
                if rust(t, gamma) != table.partition_point(|x| *x <= t) {
                    offsets.push(offset);
                }
            }
            apart += offsets.len();
            least = offsets.iter().copied().min().unwrap_or(least).min(least);
            most = offsets.iter().copied().max().unwrap_or(most).max(most);
            if !offsets.is_empty() {
                places.push(format!("{k} ({})", offsets.iter().map(i64::to_string).collect::<Vec<_>>().join(" ")));
            }
        }
        println!(
            "gamma {gamma}: {apart} of {tried} values within 4,096 of a threshold differ, at {} of 255 thresholds, from {least} to {most} places off",
            places.len()
        );
        println!("  k (places off): {}", places.join(", "));
    }
}

fn main() {
    let mut words = std::env::args().skip(1);
    let count = words.next().map_or(100, |word| word.parse().expect("a number of scenes"));
    let seed = words.next().map_or(1, |word| word.parse().expect("a seed"));
    scenes(count, seed);
    next_to_thresholds();
}
