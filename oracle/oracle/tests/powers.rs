//! Document 01's exact colour rules against the Rust's `powf`, for every cell. Prints how many cells were compared and how many differ.
use std::cmp::Ordering;

use oracle::{AutoscaleStrategy, SyntheticRgbMode};

/// A whole number below 2^480, in digits of 32 bits, the lowest first.
#[derive(Clone, Copy, PartialEq, Eq)]
struct Whole([u32; 15]);

impl Whole {
    fn one() -> Self {
        let mut digits = [0; 15];
        digits[0] = 1;
        Whole(digits)
    }

    fn times(mut self, factor: u32) -> Self {
        let mut carry = 0u64;
        for digit in &mut self.0 {
            let product = u64::from(*digit) * u64::from(factor) + carry;
            *digit = product as u32;
            carry = product >> 32;
        }
        assert_eq!(carry, 0);
        self
    }

    fn times_power(self, base: u32, exponent: u32) -> Self {
        (0..exponent).fold(self, |product, _| product.times(base))
    }

    fn at_most(&self, other: &Self) -> bool {
        self.0.iter().rev().cmp(other.0.iter().rev()) != Ordering::Greater
    }
}

/// "(2r-1)^p × D ≤ S^p × N < (2r+1)^p × D", where "at value 0 the lower side is dropped"
fn rounds(p: u32, d: Whole, right: Whole, r: u32) -> bool {
    let below = r == 0 || d.times_power(2 * r - 1, p).at_most(&right);
    below && !d.times_power(2 * r + 1, p).at_most(&right)
}

/// The one byte with that rule.
fn byte(p: u32, d: Whole, right: Whole) -> u8 {
    let bytes: Vec<u32> = (0..=255).filter(|&r| rounds(p, d, right, r)).collect();
    assert_eq!(bytes.len(), 1, "exactly one byte has the rule");
    bytes[0] as u8
}

/// Red or green of default: powers 10 and q, from a byte.
fn plain(q: u32, v: u32) -> u8 {
    byte(10, Whole::one().times_power(255, q), Whole::one().times_power(510, 10).times_power(v, q))
}

/// Red or green above f: powers p and q.
fn above(p: u32, q: u32, f: u32, v: u32) -> u8 {
    if v <= f {
        return 0;
    }
    byte(p, Whole::one().times_power(255 - f, q), Whole::one().times_power(510, p).times_power(v - f, q))
}

/// Blue of every pair r, g in 0..=255 + add: `(2b-1)^10 × 10^10 × g ≤ scale^10 × r < ..`, with `add` on both.
fn blues(scale: u32, add: u32) -> Vec<u8> {
    let mut table = vec![0; 65_536];
    for g in 0..256u32 {
        if g + add == 0 {
            continue; // only where v2 = 0, which has a rule of its own
        }
        let d = Whole::one().times_power(10, 10).times(g + add);
        // (2b-1)^10 × 10^10 × g rises with b, so the byte is how many b from 1 on reach the right side
        let steps: Vec<Whole> = (1..=256).map(|b| d.times_power(2 * b - 1, 10)).collect();
        for r in 0..256u32 {
            let right = Whole::one().times_power(scale, 10).times(r + add);
            let b = steps.iter().take_while(|step| step.at_most(&right)).count() as u32;
            assert!(rounds(10, d, right, b));
            table[(r << 8 | g) as usize] = b as u8;
        }
    }
    table
}

/// Every pair of bytes, in order, and the same pixels of a composition by the Rust.
fn pairs() -> (Vec<u8>, Vec<u8>) {
    (0..=65_535u32).map(|k| ((k >> 8) as u8, k as u8)).unzip()
}

/// How many cells of three tables differ from what the Rust gives for all pairs.
fn differing(rgb: &[u8], cell: impl Fn(usize, usize) -> [u8; 3]) -> [usize; 3] {
    let (mut red, mut green, mut blue) = ([false; 256], [false; 256], 0);
    for (v1, red) in red.iter_mut().enumerate() {
        for (v2, green) in green.iter_mut().enumerate() {
            let at = 3 * (v1 << 8 | v2);
            let expected = cell(v1, v2);
            *red |= rgb[at] != expected[0];
            *green |= rgb[at + 1] != expected[1];
            blue += usize::from(rgb[at + 2] != expected[2]);
        }
    }
    [red.iter().filter(|&&d| d).count(), green.iter().filter(|&&d| d).count(), blue]
}

#[test]
fn default_composition() {
    let red: Vec<u8> = (0..256).map(|v| plain(7, v)).collect();
    let green: Vec<u8> = (0..256).map(|v| plain(9, v)).collect();
    let blue = blues(1224, 0);
    let (band1, band2) = pairs();
    let rgb = oracle::composition(SyntheticRgbMode::Default, AutoscaleStrategy::Default, &band1, &band2, 3 * 65_536).unwrap();
    let differ = differing(&rgb, |v1, v2| {
        let (r, g) = (red[v1], green[v2]);
        [r, g, if v2 == 0 { 0 } else { blue[usize::from(r) << 8 | usize::from(g)] }]
    });
    println!("default: 256 red, 256 green, 65536 blue cells compared; {differ:?} differ");
    assert_eq!(differ, [0; 3]);
}

#[test]
fn suppressed_composition() {
    let blue = blues(918, 8);
    let mut differ = [0; 3];
    for f in 3..=40u32 {
        let red: Vec<u8> = (0..256).map(|v| above(20, 23, f, v)).collect();
        let green: Vec<u8> = (0..256).map(|v| above(10, 11, f, v)).collect();
        // after all pairs, enough pixels of level f - 3 in both bands that this level is the first to reach the target
        let (mut band1, mut band2) = pairs();
        band1.resize(300_000, f as u8 - 3);
        band2.resize(300_000, f as u8 - 3);
        let rgb = oracle::composition(SyntheticRgbMode::Default, AutoscaleStrategy::Tamed, &band1, &band2, 900_000).unwrap();
        let here = differing(&rgb, |v1, v2| {
            let (r, g) = (red[v1], green[v2]);
            let dark = v1 <= f as usize && v2 <= f as usize;
            [r, g, if dark { 0 } else { blue[usize::from(r) << 8 | usize::from(g)] }]
        });
        for k in 0..3 {
            differ[k] += here[k];
        }
    }
    println!("suppressed, f from 3 to 40: {} red, {} green, {} blue cells compared; {differ:?} differ", 38 * 256, 38 * 256, 38 * 65_536);
    assert_eq!(differ, [0; 3]);
}
