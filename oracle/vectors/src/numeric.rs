//! Steps on floats that the Rust takes by methods and by `as`, each on many operands.
use random::Rng;

use crate::record::{Element, Part, Record};

/// Operands of a record.
const TOGETHER: usize = 256;

fn one<A: Element, R: Element>(part: &mut Part, op: u8, operands: &[A], f: impl Fn(A) -> R) {
    for list in operands.chunks(TOGETHER) {
        let results: Vec<R> = list.iter().map(|&x| f(x)).collect();
        part.add(Record::new(op).list(list).list(&results));
    }
}

fn two<A: Element, R: Element>(part: &mut Part, op: u8, operands: &[(A, A)], f: impl Fn(A, A) -> R) {
    for pairs in operands.chunks(TOGETHER) {
        let (a, b): (Vec<A>, Vec<A>) = pairs.iter().copied().unzip();
        let results: Vec<R> = pairs.iter().map(|&(a, b)| f(a, b)).collect();
        part.add(Record::new(op).list(&a).list(&b).list(&results));
    }
}

/// x, its neighbours and their negatives.
fn near(x: f64) -> [f64; 6] {
    [x, x.next_up(), x.next_down(), -x, -x.next_up(), -x.next_down()]
}

fn near32(x: f32) -> [f32; 6] {
    [x, x.next_up(), x.next_down(), -x, -x.next_up(), -x.next_down()]
}

/// f64 where a step changes its mind: zeros, subnormals, halves, whole numbers, the limits of integers, the largest, infinities, NaN.
fn doubles() -> Vec<f64> {
    let mut all = vec![0.0, -0.0, f64::INFINITY, f64::NEG_INFINITY, f64::NAN, f64::MAX, f64::MIN];
    for bits in [1u64, 2, 3, 0x000F_FFFF_FFFF_FFFF, 0x0010_0000_0000_0000, 0x0010_0000_0000_0001, 0x0008_0000_0000_0000] {
        all.extend([f64::from_bits(bits), -f64::from_bits(bits)]);
    }
    for half in [0.25, 0.5, 0.75, 1.0, 1.5, 2.0, 2.5, 3.0, 3.5, 4.5, 127.5, 128.0, 254.5, 255.0, 255.5, 256.0, 1000.0, 4095.0, 4096.0] {
        all.extend(near(half));
    }
    for half in [65534.5, 65535.0, 65535.5, 65536.0, 4294967295.0, 4294967295.5, 4294967296.0, 1e-10, 1e300] {
        all.extend(near(half));
    }
    for power in [31, 32, 51, 52, 53, 54, 62, 63, 64, 65] {
        all.extend(near(2f64.powi(power)));
        all.extend(near(2f64.powi(power) - 0.5));
    }
    all
}

fn singles() -> Vec<f32> {
    let mut all = vec![0.0, -0.0, f32::INFINITY, f32::NEG_INFINITY, f32::NAN, f32::MAX, f32::MIN];
    for bits in [1u32, 2, 0x007F_FFFF, 0x0080_0000, 0x0080_0001] {
        all.extend([f32::from_bits(bits), -f32::from_bits(bits)]);
    }
    for half in [0.25, 0.5, 1.0, 1.5, 2.5, 3.5, 126.5, 127.5, 254.5, 255.0, 255.5, 256.0, 65535.0, 65535.5, 65536.0, 1e-10] {
        all.extend(near32(half));
    }
    for power in [22, 23, 24, 25, 31, 32, 63, 64] {
        all.extend(near32(2f32.powi(power)));
        all.extend(near32(2f32.powi(power) - 0.5));
    }
    all
}

/// Operands of the root: every power of two, every leading bit of a subnormal, squares and their neighbours, the kinds above.
fn radicands(rng: &mut Rng) -> Vec<f64> {
    let mut all = doubles();
    all.extend((0..52).map(|bit| f64::from_bits(1 << bit)));
    all.extend((0..52).map(|bit| f64::from_bits((1 << bit) | (rng.bits() & ((1 << bit) - 1)))));
    all.extend((1..2047u64).map(|exponent| f64::from_bits(exponent << 52)));
    for _ in 0..60 {
        let root = f64::from_bits((rng.bits() & 0x000F_FFFF_FC00_0000) | (1000 + rng.bits() % 60) << 52);
        all.extend([root * root, (root * root).next_up(), (root * root).next_down()]);
    }
    // next to the square of a 54 digit number: the nearest that a root comes to a half
    for _ in 0..60 {
        let whole = (rng.bits() >> 11) | (1 << 52);
        let square = (whole as f64 + 0.5) * (whole as f64 + 0.5);
        all.extend([square, square.next_up(), square.next_down()]);
    }
    all.extend((0..400).map(|_| f64::from_bits(rng.bits() >> 1)));
    all.extend((0..200).map(|_| rng.unit() * 1e6));
    all
}

pub fn numeric(rng: &mut Rng) -> Part {
    let mut part = Part::new("numeric");
    let (doubles, singles) = (doubles(), singles());
    let mut wide = doubles.clone();
    wide.extend((0..96).map(|_| rng.around() * 1000.0));
    wide.extend((0..64).map(|_| f64::from_bits(rng.bits())));
    let mut wide32 = singles.clone();
    wide32.extend((0..96).map(|_| (rng.around() * 300.0) as f32));
    wide32.extend((0..64).map(|_| f32::from_bits(rng.bits() as u32)));

    one(&mut part, 32, &radicands(rng), f64::sqrt);
    one(&mut part, 33, &wide, f64::round);
    one(&mut part, 34, &wide32, f32::round);
    one(&mut part, 35, &wide, f64::floor);
    one(&mut part, 36, &wide, f64::abs);
    one(&mut part, 37, &wide32, f32::abs);

    // a NaN stands in the first place only: see README.md
    let mut pairs = Vec::new();
    for &a in doubles.iter().step_by(3) {
        for _ in 0..6 {
            let b = rng.one_of(&doubles);
            pairs.extend([(a, b), (a, a)]);
        }
    }
    pairs.extend([(0.0, -0.0), (-0.0, 0.0), (f64::NAN, 1.0), (f64::NAN, f64::INFINITY), (f64::INFINITY, f64::NEG_INFINITY)]);
    pairs.retain(|(_, b)| !b.is_nan());
    two(&mut part, 38, &pairs, f64::max);
    two(&mut part, 39, &pairs, f64::min);

    // held to 0..1, 0..255, 0..65535 and between -12.5 and 40
    for (low, high) in [(0.0, 1.0), (0.0, 255.0), (0.0, 65535.0), (-12.5, 40.0)] {
        for list in wide.iter().copied().filter(|x| !x.is_nan()).collect::<Vec<f64>>().chunks(TOGETHER) {
            let results: Vec<f64> = list.iter().map(|x| x.clamp(low, high)).collect();
            part.add(Record::new(40).list(list).list(&[low, high]).list(&results));
        }
    }
    for list in wide32.iter().copied().filter(|x| !x.is_nan()).collect::<Vec<f32>>().chunks(TOGETHER) {
        let results: Vec<f32> = list.iter().map(|x| x.clamp(0.0, 255.0)).collect();
        part.add(Record::new(41).list(list).list(&[0f32, 255.0]).list(&results));
    }

    one(&mut part, 48, &wide, |x| x as u64);
    one(&mut part, 49, &wide, |x| x as i64);
    one(&mut part, 50, &wide, |x| x as u32);
    one(&mut part, 51, &wide, |x| x as u16);
    one(&mut part, 52, &wide, |x| x as u8);
    one(&mut part, 53, &wide32, |x| x as u8);
    one(&mut part, 54, &wide, |x| x.round() as u64);
    one(&mut part, 55, &wide32, |x| x.round() as u8);
    part
}
