//! Every call of document 01, answered by a number of its table of replies or by the Rust originals.
pub mod rust;
pub mod table;

pub use sarpro::types::{AutoscaleStrategy, PolarizationOperation, SyntheticRgbMode};

use AutoscaleStrategy::*;

/// In the order of types.rs.
pub const STRATEGIES: [AutoscaleStrategy; 7] = [Standard, Robust, Adaptive, Equalized, Clahe, Tamed, Default];
pub const MODES: [SyntheticRgbMode; 4] =
    [SyntheticRgbMode::Default, SyntheticRgbMode::RgbRatio, SyntheticRgbMode::SarUrban, SyntheticRgbMode::Enhanced];
pub const OPERATIONS: [PolarizationOperation; 5] = [
    PolarizationOperation::Sum,
    PolarizationOperation::Diff,
    PolarizationOperation::Ratio,
    PolarizationOperation::NDiff,
    PolarizationOperation::LogRatio,
];

/// Which band of a picture is co-pol: F-2 of document 02. The Rust is told of each band whether it is.
#[derive(Clone, Copy, Debug, PartialEq)]
pub enum CoPol {
    Band1,
    Band2,
}

pub const COPOLS: [CoPol; 2] = [CoPol::Band1, CoPol::Band2];

/// What a call gives, or a refusal's number.
pub type Answer<T> = Result<T, u8>;

#[derive(Clone, Copy, Debug, PartialEq)]
pub struct Sides {
    pub rows: usize,
    pub cols: usize,
}

/// dB values and marks of one band, row by row.
#[derive(Clone, Copy, Debug)]
pub struct Band<'a> {
    pub db: &'a [f64],
    pub marks: &'a [u8],
}

/// The record: min, max, mean, std, median, p01, p02, p05, p10, p25, p75, p90, p95, p98, p99 after the count.
#[derive(Clone, Debug, PartialEq)]
pub struct Statistics {
    pub valid_count: usize,
    pub floats: [f64; 15],
}

#[derive(Clone, Copy, Debug, PartialEq)]
pub struct Window {
    pub low: f64,
    pub high: f64,
    pub range: f64,
    pub gamma: f64,
}

#[derive(Clone, Debug, PartialEq)]
pub struct Picture {
    pub grey1: Vec<u8>,
    pub grey2: Vec<u8>,
    pub rgb: Vec<u8>,
}

/// Lengths lent to a picture call.
#[derive(Clone, Copy, Debug)]
pub struct Lent {
    pub grey1: usize,
    pub grey2: usize,
    pub rgb: usize,
    pub work: usize,
}

/// 1 to 4 of a call that takes one band and is lent nothing.
fn band_tests(sides: Sides, band: Band) -> Answer<()> {
    table::first(&[table::too_wide(sides), table::band_unlike(sides, band), table::bad_mark(band.marks), table::bad_decibel(band)])
}

pub fn statistics(sides: Sides, band: Band) -> Answer<Statistics> {
    band_tests(sides, band)?;
    Ok(rust::statistics(sides, band))
}

/// None is blank.
pub fn window(strategy: AutoscaleStrategy, sides: Sides, band: Band) -> Answer<Option<Window>> {
    band_tests(sides, band)?;
    Ok(rust::window(strategy, band).0)
}

/// 1 to 5 of a grey call.
fn grey_tests(strategy: AutoscaleStrategy, sides: Sides, band: Band, out: usize, work: usize) -> Answer<()> {
    table::first(&[
        table::too_wide(sides),
        table::band_unlike(sides, band) || out != table::count(sides) || table::work_unlike(strategy, work),
        table::bad_mark(band.marks),
        table::bad_decibel(band),
        table::bad_tiles(strategy, sides, band.marks),
    ])
}

/// `out` and `work` are lent lengths.
pub fn grey_u8(strategy: AutoscaleStrategy, sides: Sides, band: Band, out: usize, work: usize) -> Answer<Vec<u8>> {
    grey_tests(strategy, sides, band, out, work)?;
    Ok(rust::grey_u8(strategy, sides, band).0)
}

pub fn grey_u16(strategy: AutoscaleStrategy, sides: Sides, band: Band, out: usize, work: usize) -> Answer<Vec<u16>> {
    grey_tests(strategy, sides, band, out, work)?;
    let (greys, window) = rust::grey_u16(strategy, sides, band);
    window.map_or(Ok(()), |w| table::other_gamma(w.gamma))?;
    Ok(greys)
}

/// The greys of one band of a Tamed picture.
pub fn tamed_synrgb_u8(is_copol: bool, sides: Sides, band: Band) -> Answer<Vec<u8>> {
    band_tests(sides, band)?;
    Ok(rust::tamed_synrgb_u8(is_copol, sides, band))
}

pub fn stretch(data: &[u16], out: usize) -> Answer<Vec<u8>> {
    table::lengths(table::list_unlike(data.len(), out))?;
    Ok(rust::scale_u16_to_u8(data))
}

pub fn composition(mode: SyntheticRgbMode, strategy: AutoscaleStrategy, band1: &[u8], band2: &[u8], out: usize) -> Answer<Vec<u8>> {
    table::lengths(table::list_unlike(band1.len(), band2.len()) || out != 3 * band1.len())?;
    Ok(rust::composition(mode, strategy, band1, band2))
}

/// The square of the larger side; only of sides that 1 accepts.
fn square(sides: Sides) -> usize {
    let side = sides.rows.max(sides.cols);
    side.saturating_mul(side)
}

pub fn padding_u8(sides: Sides, data: &[u8], out: usize) -> Answer<Vec<u8>> {
    table::first(&[table::too_wide(sides), data.len() != table::count(sides) || out != square(sides)])?;
    Ok(rust::padding_u8(sides, data))
}

pub fn padding_u16(sides: Sides, data: &[u16], out: usize) -> Answer<Vec<u16>> {
    table::first(&[table::too_wide(sides), data.len() != table::count(sides) || out != square(sides)])?;
    Ok(rust::padding_u16(sides, data))
}

pub fn arithmetic(operation: PolarizationOperation, a: &[f32], b: &[f32], out: usize) -> Answer<Vec<f32>> {
    table::lengths(table::list_unlike(a.len(), b.len()) || out != a.len())?;
    Ok(rust::arithmetic(operation, a, b))
}

pub fn marks(data: &[f32], out: usize) -> Answer<Vec<u8>> {
    table::lengths(table::list_unlike(data.len(), out))?;
    Ok(rust::marks(data))
}

/// Document 01's chaining: both bands to U8, Tamed by the function for synRGB, told which band is co-pol, and without the stretch, then the
/// colours of the two grey outputs. Document 01's own picture has band 1 as co-pol.
pub fn picture(
    strategy: AutoscaleStrategy, mode: SyntheticRgbMode, copol: CoPol, sides: Sides, band1: Band, band2: Band, lent: Lent,
) -> Answer<Picture> {
    let n = table::count(sides);
    table::first(&[
        table::too_wide(sides),
        table::band_unlike(sides, band1)
            || table::band_unlike(sides, band2)
            || lent.grey1 != n
            || lent.grey2 != n
            || lent.rgb != n.saturating_mul(3)
            || table::work_unlike(strategy, lent.work),
        table::bad_mark(band1.marks) || table::bad_mark(band2.marks),
        table::bad_decibel(band1) || table::bad_decibel(band2),
        table::bad_tiles(strategy, sides, band1.marks) || table::bad_tiles(strategy, sides, band2.marks),
    ])?;
    let (grey1, grey2) = if strategy == Tamed {
        (rust::tamed_synrgb_u8(copol == CoPol::Band1, sides, band1), rust::tamed_synrgb_u8(copol == CoPol::Band2, sides, band2))
    } else {
        (rust::grey_u8(strategy, sides, band1).0, rust::grey_u8(strategy, sides, band2).0)
    };
    let rgb = rust::composition(mode, strategy, &grey1, &grey2);
    Ok(Picture { grey1, grey2, rgb })
}

/// The windows that a picture's bands are painted with; None is blank.
pub fn picture_windows(strategy: AutoscaleStrategy, copol: CoPol, sides: Sides, band1: Band, band2: Band) -> Answer<[Option<Window>; 2]> {
    table::first(&[
        table::too_wide(sides),
        table::band_unlike(sides, band1) || table::band_unlike(sides, band2),
        table::bad_mark(band1.marks) || table::bad_mark(band2.marks),
        table::bad_decibel(band1) || table::bad_decibel(band2),
    ])?;
    Ok([(band1, CoPol::Band1), (band2, CoPol::Band2)].map(|(band, own)| match strategy {
        Tamed => rust::tamed_synrgb_window(copol == own, sides, band),
        _ => rust::window(strategy, band).0,
    }))
}

/// Clahe's parts on a band that is normalised already: equalised pixels before they are held to 0..1, and 64 × 256 tile sums.
/// No call of document 01: the refusals are those of a Clahe grey call without 4, and an empty raster, which has no tiles, is 5.
pub fn clahe(sides: Sides, normalised: Band) -> Answer<(Vec<f64>, Vec<f64>)> {
    table::first(&[
        table::too_wide(sides),
        table::band_unlike(sides, normalised),
        table::bad_mark(normalised.marks),
        false,
        table::bad_side(sides.rows) || table::bad_side(sides.cols) || table::count(sides) == 0,
    ])?;
    Ok(rust::clahe(sides, normalised))
}
