//! The table of replies. The Rust has no refusals: these are written from document 01, and the Rust is not called on an input that
//! 1 to 5 refuse. 6 needs the window that the Rust chooses and is tested where that is at hand.
use crate::{Answer, AutoscaleStrategy, Band, Sides};

/// "rows or cols above 4,096"
pub const LARGEST_SIDE: usize = 4_096;
/// "all lengths equal, at most 16,777,216 (above it, 2)"
pub const LONGEST_LIST: usize = 16_777_216;
/// "Clahe work is 16,384 f64"
pub const CLAHE_WORK: usize = 16_384;

/// "The smallest number that applies to any band is returned": tests in the table's order, from number 1.
pub fn first(tests: &[bool]) -> Answer<()> {
    match tests.iter().position(|&applies| applies) {
        Some(place) => Err(place as u8 + 1),
        None => Ok(()),
    }
}

/// 2 alone, for the calls that take whole lists.
pub fn lengths(unlike: bool) -> Answer<()> {
    first(&[false, unlike])
}

/// "n = rows × cols". Where the product does not fit, 1 applies.
pub fn count(sides: Sides) -> usize {
    sides.rows.saturating_mul(sides.cols)
}

/// 1
pub fn too_wide(sides: Sides) -> bool {
    sides.rows > LARGEST_SIDE || sides.cols > LARGEST_SIDE
}

/// 2 of a band: "dB, marks .. n"
pub fn band_unlike(sides: Sides, band: Band) -> bool {
    band.db.len() != count(sides) || band.marks.len() != count(sides)
}

/// 2 of the work: "Clahe work is 16,384 f64; other strategies accept any work length"
pub fn work_unlike(strategy: AutoscaleStrategy, work: usize) -> bool {
    strategy == AutoscaleStrategy::Clahe && work != CLAHE_WORK
}

/// 2 of a whole list beside a first one: "all lengths equal, at most 16,777,216"
pub fn list_unlike(first: usize, other: usize) -> bool {
    first != other || first > LONGEST_LIST
}

/// 3: "a mark is neither 0 nor 1"
pub fn bad_mark(marks: &[u8]) -> bool {
    marks.iter().any(|&mark| mark > 1)
}

/// 4: "a valid dB is NaN, infinite, below -1000 or above 1000"
pub fn bad_decibel(band: Band) -> bool {
    band.marks.iter().zip(band.db).any(|(&mark, db)| mark == 1 && !(-1000.0..=1000.0).contains(db))
}

/// 5: "a Clahe grey or picture call with a valid pixel and 7 × ceil(s/8) > s for s = rows or cols"
pub fn bad_tiles(strategy: AutoscaleStrategy, sides: Sides, marks: &[u8]) -> bool {
    strategy == AutoscaleStrategy::Clahe && marks.contains(&1) && (bad_side(sides.rows) || bad_side(sides.cols))
}

/// "7 × ceil(s/8) > s"
pub fn bad_side(s: usize) -> bool {
    s.div_ceil(8).saturating_mul(7) > s
}

/// 6: "a grey or picture call whose chosen gamma is not 1.0", since F-1 of document 02 "for U16 only"
pub fn other_gamma(gamma: f64) -> Answer<()> {
    first(&[false, false, false, false, false, gamma != 1.0])
}
