//! The samples of document 01, on one row of valid pixels where not said otherwise.
use oracle::AutoscaleStrategy::{Clahe, Default, Standard, Tamed};
use oracle::{Answer, AutoscaleStrategy, Band, Sides, SyntheticRgbMode};

fn row(db: &[f64]) -> (Sides, Vec<u8>) {
    (Sides { rows: 1, cols: db.len() }, vec![1; db.len()])
}

fn floats(db: &[f64]) -> [f64; 15] {
    let (sides, marks) = row(db);
    oracle::statistics(sides, Band { db, marks: &marks }).unwrap().floats
}

fn u8_of(strategy: AutoscaleStrategy, db: &[f64]) -> Answer<Vec<u8>> {
    let (sides, marks) = row(db);
    oracle::grey_u8(strategy, sides, Band { db, marks: &marks }, db.len(), 0)
}

fn u16_of(strategy: AutoscaleStrategy, db: &[f64]) -> Answer<Vec<u16>> {
    let (sides, marks) = row(db);
    oracle::grey_u16(strategy, sides, Band { db, marks: &marks }, db.len(), 0)
}

fn colour(strategy: AutoscaleStrategy, v1: u8, v2: u8) -> Vec<u8> {
    oracle::composition(SyntheticRgbMode::Default, strategy, &[v1], &[v2], 3).unwrap()
}

#[test]
fn two_pixels() {
    let s = floats(&[0.0, 10.0]);
    assert_eq!((s[7], s[12]), (0.0, 9.99755859375));
    assert_eq!(u8_of(Default, &[0.0, 10.0]), Ok(vec![0, 255]));
    assert_eq!(u16_of(Default, &[0.0, 0.5]), Ok(vec![0, 32759]));
    assert_eq!(u8_of(Default, &[0.0, 0.5]), Ok(vec![0, 255]));
}

#[test]
fn one_pixel() {
    assert!(floats(&[-12.5])[4..].iter().all(|&p| p == -12.5));
    assert_eq!(u8_of(Default, &[-12.5]), Ok(vec![0]));
    assert_eq!(u16_of(Default, &[-12.5]), Ok(vec![0]));
}

#[test]
fn standard() {
    assert_eq!(u8_of(Standard, &[0.0, 14.0]), Ok(vec![0, 255]));
    assert_eq!(u16_of(Standard, &[0.0, 14.0]), Err(6));
    assert!(u8_of(Standard, &[0.0, 15.0]).is_ok());
    assert!(u8_of(Standard, &[0.0, 40.0]).is_ok());
    assert_eq!(u8_of(Standard, &[0.0, 41.0]), Ok(vec![0, 255]));
    assert_eq!(u16_of(Standard, &[0.0, 41.0]), Err(6));
}

#[test]
fn stretch() {
    assert_eq!(oracle::stretch(&[0, 1, 2], 3), Ok(vec![0, 128, 255]));
    assert_eq!(oracle::stretch(&[7, 7, 7], 3), Ok(vec![0, 0, 0]));
}

#[test]
fn colours() {
    assert_eq!(colour(Default, 255, 255), [255, 255, 61]);
    assert_eq!(colour(Default, 255, 1), [255, 2, 99]);
    assert_eq!(colour(Default, 1, 1), [5, 2, 67]);
    assert_eq!(colour(Default, 0, 255), [0, 255, 0]);
    for strategy in [Tamed, Clahe] {
        assert_eq!(colour(strategy, 255, 255), [255, 255, 46]);
        assert_eq!(colour(strategy, 255, 3), [255, 0, 65]);
        assert_eq!(colour(strategy, 3, 255), [0, 255, 32]);
        assert_eq!(colour(strategy, 4, 4), [0, 1, 45]);
    }
}

/// "Four pixels of 200 in both bands: f = 3; five: f = 40." The red of 200 is 192 by f = 3 and 182 by f = 40.
#[test]
fn suppressed_level() {
    let red = |n: usize| oracle::composition(SyntheticRgbMode::Default, Tamed, &vec![200; n], &vec![200; n], 3 * n).unwrap()[0];
    assert_eq!((red(4), red(5)), (192, 182));
}

#[test]
fn padding_and_marks() {
    assert_eq!(oracle::padding_u8(Sides { rows: 1, cols: 2 }, &[1, 2], 4), Ok(vec![1, 2, 0, 0]));
    assert_eq!(oracle::padding_u16(Sides { rows: 1, cols: 2 }, &[1, 2], 4), Ok(vec![1, 2, 0, 0]));
    let patterns = [0x3727C5AC, 0x3727C5AD, 0x7FC00000, 0x7F800000, 0xFF800000].map(f32::from_bits);
    assert_eq!(oracle::marks(&patterns, 5), Ok(vec![0, 1, 0, 1, 0]));
}

/// Every f32 against the rule, 4,294,967,296 patterns: some minutes. Run by `cargo test --release -- --ignored`.
#[test]
#[ignore]
fn marks_of_every_pattern() {
    let threshold = f32::from_bits(0x3727C5AC);
    for high in 0..=0xFFFFu32 {
        let patterns: Vec<f32> = (0..=0xFFFFu32).map(|low| f32::from_bits(high << 16 | low)).collect();
        let expected: Vec<u8> = patterns.iter().map(|&x| (x > threshold) as u8).collect();
        assert_eq!(oracle::marks(&patterns, patterns.len()), Ok(expected), "in {high:04X}0000..");
    }
}
