//! The originals called with plain slices, on inputs that the table accepts.
use ndarray::Array2;
use sarpro::core::processing::{autoscale, ops, padding, pipeline, synthetic_rgb};
use sarpro::types::{AutoscaleStrategy, BitDepth, PolarizationOperation, SyntheticRgbMode};
use tracing::Kept;

use crate::{Band, Sides, Statistics, Window};

fn array<T: Clone>(sides: Sides, elements: &[T]) -> Array2<T> {
    Array2::from_shape_vec((sides.rows, sides.cols), elements.to_vec()).expect("a length that the table accepts")
}

fn mask(marks: &[u8]) -> Vec<bool> {
    marks.iter().map(|&mark| mark == 1).collect()
}

fn row(length: usize) -> Sides {
    Sides { rows: 1, cols: length }
}

/// What `f` gives, and what its `debug!` calls kept.
fn shown<T>(f: impl FnOnce() -> T) -> (T, Vec<Kept>) {
    tracing::take();
    let given = f();
    (given, tracing::take())
}

/// The window, from the one `debug!` that names low, high and gamma. None was chosen if no pixel is valid.
fn window_in(kept: &[Kept]) -> Option<Window> {
    kept.iter().find(|k| k.floats.len() == 3).map(|k| {
        let (low, high, gamma) = (k.floats[0], k.floats[1], k.floats[2]);
        // "range = max(high - low, 1.0)", as all three functions have it
        Window { low, high, range: (high - low).max(1.0), gamma }
    })
}

pub fn statistics(sides: Sides, band: Band) -> Statistics {
    let (valid_count, floats) = autoscale::histogram_stats(&array(sides, band.db), &mask(band.marks));
    Statistics { valid_count, floats }
}

/// The values before the stretch, in the function to which `process_scalar_data_pipeline` sends the strategy; and its window and messages.
fn values(strategy: AutoscaleStrategy, depth: BitDepth, sides: Sides, band: Band) -> (Vec<u16>, Vec<Kept>) {
    let (db, valid) = (array(sides, band.db), mask(band.marks));
    shown(|| match strategy {
        AutoscaleStrategy::Standard => autoscale::autoscale_db_image(&db, &valid, depth),
        _ => autoscale::autoscale_db_image_advanced(&db, &valid, depth, strategy),
    })
}

/// The window, and the texts of the `debug!` calls on the way to it. It does not depend on the sides. Under Clahe the Rust goes on to
/// paint, so the band gets invalid pixels at its end, up to sides that number 5 accepts; no statistic counts them.
pub fn window(strategy: AutoscaleStrategy, band: Band) -> (Option<Window>, Vec<&'static str>) {
    let (_, kept) = if strategy == AutoscaleStrategy::Clahe {
        let sides = Sides { rows: band.db.len().div_ceil(64).max(64), cols: 64 };
        let (mut db, mut marks) = (band.db.to_vec(), band.marks.to_vec());
        db.resize(sides.rows * sides.cols, 0.0);
        marks.resize(sides.rows * sides.cols, 0);
        values(strategy, BitDepth::U8, sides, Band { db: &db, marks: &marks })
    } else {
        values(strategy, BitDepth::U8, row(band.db.len()), band)
    };
    (window_in(&kept), kept.iter().map(|k| k.text).collect())
}

/// Greys by the two `.._to_bitdepth` functions: bytes at U8, words at U16.
fn to_bitdepth(strategy: AutoscaleStrategy, depth: BitDepth, sides: Sides, band: Band) -> (Vec<u8>, Option<Vec<u16>>, Option<Window>) {
    let (db, valid) = (array(sides, band.db), mask(band.marks));
    let ((bytes, words), kept) = shown(|| match strategy {
        AutoscaleStrategy::Standard => autoscale::autoscale_db_image_to_bitdepth(&db, &valid, depth),
        _ => autoscale::autoscale_db_image_to_bitdepth_advanced(&db, &valid, depth, strategy),
    });
    (bytes, words, window_in(&kept))
}

pub fn grey_u8(strategy: AutoscaleStrategy, sides: Sides, band: Band) -> (Vec<u8>, Option<Window>) {
    let (bytes, _, window) = to_bitdepth(strategy, BitDepth::U8, sides, band);
    (bytes, window)
}

pub fn grey_u16(strategy: AutoscaleStrategy, sides: Sides, band: Band) -> (Vec<u16>, Option<Window>) {
    let (_, words, window) = to_bitdepth(strategy, BitDepth::U16, sides, band);
    (words.expect("words at U16"), window)
}

pub fn tamed_synrgb_u8(is_copol: bool, sides: Sides, band: Band) -> Vec<u8> {
    autoscale::autoscale_db_image_tamed_synrgb_u8(&array(sides, band.db), &mask(band.marks), is_copol)
}

/// The window of `tamed_synrgb_u8`, which shows it to nobody: by its source, from the Rust's statistics.
pub fn tamed_synrgb_window(is_copol: bool, sides: Sides, band: Band) -> Option<Window> {
    let Statistics { valid_count, floats: [_, _, _, _, _, _, p02, p05, .., p99] } = statistics(sides, band);
    let low = if is_copol { p02.min(p05) } else { p05 };
    (valid_count > 0).then_some(Window { low, high: p99, range: (p99 - low).max(1.0), gamma: 1.0 })
}

pub fn scale_u16_to_u8(data: &[u16]) -> Vec<u8> {
    autoscale::scale_u16_to_u8(data)
}

pub fn composition(mode: SyntheticRgbMode, strategy: AutoscaleStrategy, band1: &[u8], band2: &[u8]) -> Vec<u8> {
    synthetic_rgb::create_synthetic_rgb_by_mode_and_strategy(mode, strategy, band1, band2)
}

pub fn padding_u8(sides: Sides, data: &[u8]) -> Vec<u8> {
    padding::add_padding_to_square(data, None, sides.cols, sides.rows, BitDepth::U8).expect("bytes at U8").0
}

pub fn padding_u16(sides: Sides, data: &[u16]) -> Vec<u16> {
    let padded = padding::add_padding_to_square(&[], Some(data), sides.cols, sides.rows, BitDepth::U16);
    padded.expect("words given").1.expect("words at U16")
}

pub fn arithmetic(operation: PolarizationOperation, a: &[f32], b: &[f32]) -> Vec<f32> {
    let (a, b) = (array(row(a.len()), a), array(row(b.len()), b));
    let result = match operation {
        PolarizationOperation::Sum => ops::sum_arrays(&a, &b),
        PolarizationOperation::Diff => ops::difference_arrays(&a, &b),
        PolarizationOperation::Ratio => ops::ratio_arrays(&a, &b),
        PolarizationOperation::NDiff => ops::normalized_diff_arrays(&a, &b),
        PolarizationOperation::LogRatio => ops::log_ratio_arrays(&a, &b),
    };
    result.as_slice().expect("row by row").to_vec()
}

pub fn marks(data: &[f32]) -> Vec<u8> {
    let (_, valid) = pipeline::process_scalar_data_inplace(&array(row(data.len()), data));
    valid.iter().map(|&v| v as u8).collect()
}

/// The equalised pixels and the 64 × 256 tile sums of a normalised band.
pub fn clahe(sides: Sides, normalised: Band) -> (Vec<f64>, Vec<f64>) {
    let (norm, valid) = (array(sides, normalised.db), mask(normalised.marks));
    let (equalised, sums) = sarpro::tiles::clahe_sums(&norm, &valid);
    assert_eq!(equalised, autoscale::clahe_equalize(&norm, &valid), "the two inclusions of autoscale.rs agree");
    (equalised.as_slice().expect("row by row").to_vec(), sums)
}
