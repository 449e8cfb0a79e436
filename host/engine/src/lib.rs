//! The engine's calls for Rust: each function lends slices to the proved archive and hands its answer back.
//! Rust's own rules keep two duties of a caller (no overlap, alignment); the third, the floating-point environment, is kept here.

use std::ffi::c_void;
use std::fmt;

/// A number of the table of replies.
#[derive(Clone, Copy, Debug, PartialEq, Eq)]
pub struct Refusal(pub u8);

impl Refusal {
    /// What the table says of the number.
    pub fn meaning(self) -> &'static str {
        match self.0 {
            1 => "rows or cols above 4,096",
            2 => "a list has not the length that the call names",
            3 => "a mark is neither 0 nor 1",
            4 => "a valid decibel is NaN, infinite, below -1000 or above 1000",
            5 => "a side that Clahe's tiles do not fit (7 x ceil(s/8) > s)",
            6 => "16 bits, and the chosen gamma is not 1.0",
            255 => "a strategy, a mode or a co-pol band that names nothing",
            _ => "a number that the table does not have",
        }
    }
}

impl fmt::Display for Refusal {
    fn fmt(&self, f: &mut fmt::Formatter<'_>) -> fmt::Result {
        write!(f, "refused {}: {}", self.0, self.meaning())
    }
}

impl std::error::Error for Refusal {}

pub type Answer<T> = Result<T, Refusal>;

/// The strategies of types.rs.
#[derive(Clone, Copy, Debug, PartialEq, Eq)]
pub enum AutoscaleStrategy {
    Standard,
    Robust,
    Adaptive,
    Equalized,
    Clahe,
    Tamed,
    Default,
}

impl AutoscaleStrategy {
    pub const ALL: [Self; 7] = [Self::Standard, Self::Robust, Self::Adaptive, Self::Equalized, Self::Clahe, Self::Tamed, Self::Default];

    /// The code in the header.
    pub fn code(self) -> u8 {
        match self {
            Self::Standard => 0,
            Self::Robust => 1,
            Self::Adaptive => 2,
            Self::Equalized => 3,
            Self::Clahe => 4,
            Self::Tamed => 5,
            Self::Default => 6,
        }
    }

    /// The name that results carry.
    pub fn name(self) -> &'static str {
        match self {
            Self::Standard => "standard",
            Self::Robust => "robust",
            Self::Adaptive => "adaptive",
            Self::Equalized => "equalized",
            Self::Clahe => "clahe",
            Self::Tamed => "tamed",
            Self::Default => "default",
        }
    }

    /// The elements of `work` that the strategy needs.
    pub fn work_len(self) -> usize {
        if self == Self::Clahe { CLAHE_WORK } else { 0 }
    }
}

/// The modes of types.rs.
#[derive(Clone, Copy, Debug, PartialEq, Eq)]
pub enum SyntheticRgbMode {
    Default,
    RgbRatio,
    SarUrban,
    Enhanced,
}

impl SyntheticRgbMode {
    pub const ALL: [Self; 4] = [Self::Default, Self::RgbRatio, Self::SarUrban, Self::Enhanced];

    /// The code in the header.
    pub fn code(self) -> u8 {
        match self {
            Self::Default => 0,
            Self::RgbRatio => 1,
            Self::SarUrban => 2,
            Self::Enhanced => 3,
        }
    }

    /// The name that results carry.
    pub fn name(self) -> &'static str {
        match self {
            Self::Default => "default",
            Self::RgbRatio => "rgbratio",
            Self::SarUrban => "sarurban",
            Self::Enhanced => "enhanced",
        }
    }
}

/// Which of two bands is co-pol.
#[derive(Clone, Copy, Debug, PartialEq, Eq)]
pub enum CoPol {
    Band1,
    Band2,
}

impl CoPol {
    pub const ALL: [Self; 2] = [Self::Band1, Self::Band2];

    /// The code in the header.
    pub fn code(self) -> u8 {
        match self {
            Self::Band1 => 1,
            Self::Band2 => 2,
        }
    }

    /// The name that results carry.
    pub fn name(self) -> &'static str {
        match self {
            Self::Band1 => "band 1",
            Self::Band2 => "band 2",
        }
    }
}

/// What a picture is told beside its bands.
#[derive(Clone, Copy, Debug, PartialEq, Eq)]
pub struct PictureChoices {
    pub strategy: AutoscaleStrategy,
    pub mode: SyntheticRgbMode,
    pub copol: CoPol,
}

/// The operations of types.rs.
#[derive(Clone, Copy, Debug, PartialEq, Eq)]
pub enum PolarizationOperation {
    Sum,
    Diff,
    Ratio,
    NDiff,
    LogRatio,
}

impl PolarizationOperation {
    pub const ALL: [Self; 5] = [Self::Sum, Self::Diff, Self::Ratio, Self::NDiff, Self::LogRatio];
}

pub const CLAHE_WORK: usize = 16_384;

/// The whole numbers of the statistics.
pub const WHOLE: usize = 5;

/// The bins of a band's curve.
pub const BINS: usize = 4096;

/// The longest side of a raster, and the longest list of the calls without sides.
pub const LONGEST_SIDE: usize = 4096;
pub const LONGEST: usize = 16_777_216;

/// The record of a band's statistics, in decibels.
#[derive(Clone, Copy, Debug, PartialEq)]
pub struct Statistics {
    pub valid_count: u64,
    pub min_db: f64,
    pub max_db: f64,
    pub mean_db: f64,
    pub std_db: f64,
    pub median_db: f64,
    pub p01: f64,
    pub p02: f64,
    pub p05: f64,
    pub p10: f64,
    pub p25: f64,
    pub p75: f64,
    pub p90: f64,
    pub p95: f64,
    pub p98: f64,
    pub p99: f64,
    /// The bins of p05 and p95 on the curve that `histogram` gives.
    pub p05_bin: u64,
    pub p95_bin: u64,
    /// The row and the column of the first valid maximum, 0 and 0 without one.
    pub max_row: u64,
    pub max_col: u64,
}

/// A percentile with its bin on the curve.
#[derive(Clone, Copy, Debug, PartialEq)]
pub struct Tick {
    pub name: &'static str,
    pub db: f64,
    pub bin: u64,
}

impl Statistics {
    /// From the whole numbers and the floats as the call writes them.
    fn from_lent(whole: [u64; WHOLE], floats: [f64; 15]) -> Self {
        let [valid_count, p05_bin, p95_bin, max_row, max_col] = whole;
        let [min_db, max_db, mean_db, std_db, median_db, p01, p02, p05, p10, p25, p75, p90, p95, p98, p99] = floats;
        Statistics {
            valid_count,
            min_db,
            max_db,
            mean_db,
            std_db,
            median_db,
            p01,
            p02,
            p05,
            p10,
            p25,
            p75,
            p90,
            p95,
            p98,
            p99,
            p05_bin,
            p95_bin,
            max_row,
            max_col,
        }
    }

    /// The floats in the record's order, with the names that they are printed by.
    pub fn named(&self) -> [(&'static str, f64); 15] {
        [
            ("min", self.min_db),
            ("max", self.max_db),
            ("mean", self.mean_db),
            ("std", self.std_db),
            ("median", self.median_db),
            ("p01", self.p01),
            ("p02", self.p02),
            ("p05", self.p05),
            ("p10", self.p10),
            ("p25", self.p25),
            ("p75", self.p75),
            ("p90", self.p90),
            ("p95", self.p95),
            ("p98", self.p98),
            ("p99", self.p99),
        ]
    }

    /// The row and the column of the first valid maximum, if a pixel is valid.
    pub fn strongest(&self) -> Option<(u64, u64)> {
        (self.valid_count > 0).then_some((self.max_row, self.max_col))
    }

    /// The percentiles whose bins are known.
    pub fn ticks(&self) -> [Tick; 2] {
        [Tick { name: "p05", db: self.p05, bin: self.p05_bin }, Tick { name: "p95", db: self.p95, bin: self.p95_bin }]
    }
}

#[derive(Clone, Copy, Debug, PartialEq)]
pub enum Window {
    Blank,
    Window { low: f64, high: f64, range: f64, gamma: f64 },
}

impl Window {
    /// From the mark and the floats as the calls write them.
    fn from_lent(blank: u8, floats: [f64; 4]) -> Self {
        let [low, high, range, gamma] = floats;
        if blank == 1 { Window::Blank } else { Window::Window { low, high, range, gamma } }
    }
}

/// One band: decibels and marks.
#[derive(Clone, Copy)]
pub struct Band<'a> {
    pub db: &'a [f64],
    pub valid_mask: &'a [u8],
}

/// The functions of quicklook.h, for tests that lend what the bindings would not.
pub mod c {
    extern "C" {
        pub fn quicklook_marks(processed: *const f32, processed_len: usize, valid_mask: *mut u8, valid_mask_len: usize) -> u8;
        pub fn quicklook_statistics(
            rows: usize, cols: usize, db: *const f64, db_len: usize, valid_mask: *const u8, valid_mask_len: usize,
            whole: *mut [u64; super::WHOLE], floats: *mut [f64; 15],
        ) -> u8;
        pub fn quicklook_histogram(
            rows: usize, cols: usize, db: *const f64, db_len: usize, valid_mask: *const u8, valid_mask_len: usize, counts: *mut u32,
            counts_len: usize,
        ) -> u8;
        pub fn quicklook_window(
            strategy: u8, rows: usize, cols: usize, db: *const f64, db_len: usize, valid_mask: *const u8, valid_mask_len: usize,
            blank: *mut u8, floats: *mut [f64; 4],
        ) -> u8;
        pub fn quicklook_grey_u8(
            strategy: u8, rows: usize, cols: usize, db: *const f64, db_len: usize, valid_mask: *const u8, valid_mask_len: usize,
            out: *mut u8, out_len: usize, work: *mut f64, work_len: usize,
        ) -> u8;
        pub fn quicklook_grey_u16(
            strategy: u8, rows: usize, cols: usize, db: *const f64, db_len: usize, valid_mask: *const u8, valid_mask_len: usize,
            out: *mut u16, out_len: usize, work: *mut f64, work_len: usize,
        ) -> u8;
        pub fn quicklook_picture(
            strategy: u8, mode: u8, rows: usize, cols: usize, db1: *const f64, db1_len: usize, valid_mask1: *const u8,
            valid_mask1_len: usize, db2: *const f64, db2_len: usize, valid_mask2: *const u8, valid_mask2_len: usize, grey1: *mut u8,
            grey1_len: usize, grey2: *mut u8, grey2_len: usize, rgb: *mut u8, rgb_len: usize, work: *mut f64, work_len: usize,
        ) -> u8;
        pub fn quicklook_picture_copol(
            strategy: u8, mode: u8, copol: u8, rows: usize, cols: usize, db1: *const f64, db1_len: usize, valid_mask1: *const u8,
            valid_mask1_len: usize, db2: *const f64, db2_len: usize, valid_mask2: *const u8, valid_mask2_len: usize, grey1: *mut u8,
            grey1_len: usize, grey2: *mut u8, grey2_len: usize, rgb: *mut u8, rgb_len: usize, work: *mut f64, work_len: usize,
        ) -> u8;
        pub fn quicklook_picture_windows(
            strategy: u8, copol: u8, rows: usize, cols: usize, db1: *const f64, db1_len: usize, valid_mask1: *const u8,
            valid_mask1_len: usize, db2: *const f64, db2_len: usize, valid_mask2: *const u8, valid_mask2_len: usize, blank: *mut [u8; 2],
            floats: *mut [f64; 8],
        ) -> u8;
        pub fn quicklook_stretch(data: *const u16, data_len: usize, out: *mut u8, out_len: usize) -> u8;
        pub fn quicklook_compose(
            mode: u8, strategy: u8, band1: *const u8, band1_len: usize, band2: *const u8, band2_len: usize, rgb: *mut u8, rgb_len: usize,
        ) -> u8;
        pub fn quicklook_pad_u8(rows: usize, cols: usize, data: *const u8, data_len: usize, padded: *mut u8, padded_len: usize) -> u8;
        pub fn quicklook_pad_u16(rows: usize, cols: usize, data: *const u16, data_len: usize, padded: *mut u16, padded_len: usize) -> u8;
        pub fn quicklook_sum(a: *const f32, a_len: usize, b: *const f32, b_len: usize, out: *mut f32, out_len: usize) -> u8;
        pub fn quicklook_difference(a: *const f32, a_len: usize, b: *const f32, b_len: usize, out: *mut f32, out_len: usize) -> u8;
        pub fn quicklook_ratio(a: *const f32, a_len: usize, b: *const f32, b_len: usize, out: *mut f32, out_len: usize) -> u8;
        pub fn quicklook_normalized_diff(a: *const f32, a_len: usize, b: *const f32, b_len: usize, out: *mut f32, out_len: usize) -> u8;
        pub fn quicklook_log_ratio(a: *const f32, a_len: usize, b: *const f32, b_len: usize, out: *mut f32, out_len: usize) -> u8;
    }
}

/// A call in the floating-point environment that it is proved for.
fn call(call: impl FnOnce() -> u8) -> Answer<()> {
    set_environment();
    match call() {
        0 => Ok(()),
        number => Err(Refusal(number)),
    }
}

/// Gives this thread the floating-point environment that the engine is proved for: to the nearest, no flushing of small numbers to zero,
/// no traps.
pub fn set_environment() {
    extern "C" {
        fn fesetenv(environment: *const c_void) -> i32;
    }
    // FE_DFL_ENV of fenv.h.
    const DEFAULT: *const c_void = usize::MAX as *const c_void;
    unsafe { fesetenv(DEFAULT) };
}

// Each `unsafe` below hands over a pointer and the length of the slice it comes from; the archive writes only behind `*mut`.

pub fn marks(processed: &[f32], valid_mask: &mut [u8]) -> Answer<()> {
    call(|| unsafe { c::quicklook_marks(processed.as_ptr(), processed.len(), valid_mask.as_mut_ptr(), valid_mask.len()) })
}

pub fn statistics(rows: usize, cols: usize, band: Band) -> Answer<Statistics> {
    let mut whole = [0u64; WHOLE];
    let mut floats = [0f64; 15];
    codes::statistics(rows, cols, band, &mut whole, &mut floats)?;
    Ok(Statistics::from_lent(whole, floats))
}

/// The curve of a band: the counts of its valid decibels in 4,096 steps from the least to the greatest.
pub fn histogram(rows: usize, cols: usize, band: Band) -> Answer<Vec<u32>> {
    let mut counts = vec![0u32; BINS];
    codes::histogram(rows, cols, band, &mut counts)?;
    Ok(counts)
}

pub fn window(strategy: AutoscaleStrategy, rows: usize, cols: usize, band: Band) -> Answer<Window> {
    let mut blank = 0u8;
    let mut floats = [0f64; 4];
    codes::window(strategy.code(), rows, cols, band, &mut blank, &mut floats)?;
    Ok(Window::from_lent(blank, floats))
}

pub fn grey_u8(strategy: AutoscaleStrategy, rows: usize, cols: usize, band: Band, out: &mut [u8], work: &mut [f64]) -> Answer<()> {
    codes::grey_u8(strategy.code(), rows, cols, band, out, work)
}

pub fn grey_u16(strategy: AutoscaleStrategy, rows: usize, cols: usize, band: Band, out: &mut [u16], work: &mut [f64]) -> Answer<()> {
    codes::grey_u16(strategy.code(), rows, cols, band, out, work)
}

/// What the picture call writes.
pub struct PictureOut<'a> {
    pub grey1: &'a mut [u8],
    pub grey2: &'a mut [u8],
    pub rgb: &'a mut [u8],
}

pub fn picture(
    choices: PictureChoices, rows: usize, cols: usize, band1: Band, band2: Band, out: PictureOut, work: &mut [f64],
) -> Answer<()> {
    let PictureChoices { strategy, mode, copol } = choices;
    let choices = codes::PictureCodes { strategy: strategy.code(), mode: mode.code(), copol: copol.code() };
    codes::picture_copol(choices, rows, cols, band1, band2, out, work)
}

/// The windows that the picture call paints band 1 and band 2 with.
pub fn picture_windows(
    strategy: AutoscaleStrategy, copol: CoPol, rows: usize, cols: usize, band1: Band, band2: Band,
) -> Answer<[Window; 2]> {
    let mut blank = [0u8; 2];
    let mut floats = [0f64; 8];
    codes::picture_windows(strategy.code(), copol.code(), rows, cols, band1, band2, &mut blank, &mut floats)?;
    let [low1, high1, range1, gamma1, low2, high2, range2, gamma2] = floats;
    Ok([Window::from_lent(blank[0], [low1, high1, range1, gamma1]), Window::from_lent(blank[1], [low2, high2, range2, gamma2])])
}

pub fn stretch(data: &[u16], out: &mut [u8]) -> Answer<()> {
    call(|| unsafe { c::quicklook_stretch(data.as_ptr(), data.len(), out.as_mut_ptr(), out.len()) })
}

pub fn compose(mode: SyntheticRgbMode, strategy: AutoscaleStrategy, band1: &[u8], band2: &[u8], rgb: &mut [u8]) -> Answer<()> {
    codes::compose(mode.code(), strategy.code(), band1, band2, rgb)
}

pub fn pad_u8(rows: usize, cols: usize, data: &[u8], padded: &mut [u8]) -> Answer<()> {
    call(|| unsafe { c::quicklook_pad_u8(rows, cols, data.as_ptr(), data.len(), padded.as_mut_ptr(), padded.len()) })
}

pub fn pad_u16(rows: usize, cols: usize, data: &[u16], padded: &mut [u16]) -> Answer<()> {
    call(|| unsafe { c::quicklook_pad_u16(rows, cols, data.as_ptr(), data.len(), padded.as_mut_ptr(), padded.len()) })
}

pub fn operate(operation: PolarizationOperation, a: &[f32], b: &[f32], out: &mut [f32]) -> Answer<()> {
    let operate = match operation {
        PolarizationOperation::Sum => c::quicklook_sum,
        PolarizationOperation::Diff => c::quicklook_difference,
        PolarizationOperation::Ratio => c::quicklook_ratio,
        PolarizationOperation::NDiff => c::quicklook_normalized_diff,
        PolarizationOperation::LogRatio => c::quicklook_log_ratio,
    };
    call(|| unsafe { operate(a.as_ptr(), a.len(), b.as_ptr(), b.len(), out.as_mut_ptr(), out.len()) })
}

/// The calls by codes and lent memory, as the archive has them; tests use them for codes that name nothing and for memory left alone.
pub mod codes {
    use super::{Answer, Band, PictureOut, WHOLE, c, call};

    pub fn window(strategy: u8, rows: usize, cols: usize, band: Band, blank: &mut u8, floats: &mut [f64; 4]) -> Answer<()> {
        let Band { db, valid_mask } = band;
        call(|| unsafe {
            c::quicklook_window(strategy, rows, cols, db.as_ptr(), db.len(), valid_mask.as_ptr(), valid_mask.len(), blank, floats)
        })
    }

    pub fn statistics(rows: usize, cols: usize, band: Band, whole: &mut [u64; WHOLE], floats: &mut [f64; 15]) -> Answer<()> {
        let Band { db, valid_mask } = band;
        call(|| unsafe { c::quicklook_statistics(rows, cols, db.as_ptr(), db.len(), valid_mask.as_ptr(), valid_mask.len(), whole, floats) })
    }

    pub fn histogram(rows: usize, cols: usize, band: Band, counts: &mut [u32]) -> Answer<()> {
        let Band { db, valid_mask } = band;
        let (counts, counts_len) = (counts.as_mut_ptr(), counts.len());
        call(|| unsafe {
            c::quicklook_histogram(rows, cols, db.as_ptr(), db.len(), valid_mask.as_ptr(), valid_mask.len(), counts, counts_len)
        })
    }

    pub fn grey_u8(strategy: u8, rows: usize, cols: usize, band: Band, out: &mut [u8], work: &mut [f64]) -> Answer<()> {
        grey(c::quicklook_grey_u8, strategy, (rows, cols), band, out, work)
    }

    pub fn grey_u16(strategy: u8, rows: usize, cols: usize, band: Band, out: &mut [u16], work: &mut [f64]) -> Answer<()> {
        grey(c::quicklook_grey_u16, strategy, (rows, cols), band, out, work)
    }

    /// Either grey call.
    type Grey<T> = unsafe extern "C" fn(u8, usize, usize, *const f64, usize, *const u8, usize, *mut T, usize, *mut f64, usize) -> u8;

    fn grey<T>(grey: Grey<T>, strategy: u8, sides: (usize, usize), band: Band, out: &mut [T], work: &mut [f64]) -> Answer<()> {
        let (Band { db, valid_mask }, (rows, cols)) = (band, sides);
        let (out, out_len, work, work_len) = (out.as_mut_ptr(), out.len(), work.as_mut_ptr(), work.len());
        call(|| unsafe {
            grey(strategy, rows, cols, db.as_ptr(), db.len(), valid_mask.as_ptr(), valid_mask.len(), out, out_len, work, work_len)
        })
    }

    pub fn compose(mode: u8, strategy: u8, band1: &[u8], band2: &[u8], rgb: &mut [u8]) -> Answer<()> {
        call(|| unsafe {
            c::quicklook_compose(mode, strategy, band1.as_ptr(), band1.len(), band2.as_ptr(), band2.len(), rgb.as_mut_ptr(), rgb.len())
        })
    }

    /// What a picture is told beside its bands, by codes.
    #[derive(Clone, Copy)]
    pub struct PictureCodes {
        pub strategy: u8,
        pub mode: u8,
        pub copol: u8,
    }

    pub fn picture_copol(
        choices: PictureCodes, rows: usize, cols: usize, band1: Band, band2: Band, out: PictureOut, work: &mut [f64],
    ) -> Answer<()> {
        call(|| unsafe {
            c::quicklook_picture_copol(
                choices.strategy,
                choices.mode,
                choices.copol,
                rows,
                cols,
                band1.db.as_ptr(),
                band1.db.len(),
                band1.valid_mask.as_ptr(),
                band1.valid_mask.len(),
                band2.db.as_ptr(),
                band2.db.len(),
                band2.valid_mask.as_ptr(),
                band2.valid_mask.len(),
                out.grey1.as_mut_ptr(),
                out.grey1.len(),
                out.grey2.as_mut_ptr(),
                out.grey2.len(),
                out.rgb.as_mut_ptr(),
                out.rgb.len(),
                work.as_mut_ptr(),
                work.len(),
            )
        })
    }

    pub fn picture_windows(
        strategy: u8, copol: u8, rows: usize, cols: usize, band1: Band, band2: Band, blank: &mut [u8; 2], floats: &mut [f64; 8],
    ) -> Answer<()> {
        call(|| unsafe {
            c::quicklook_picture_windows(
                strategy,
                copol,
                rows,
                cols,
                band1.db.as_ptr(),
                band1.db.len(),
                band1.valid_mask.as_ptr(),
                band1.valid_mask.len(),
                band2.db.as_ptr(),
                band2.db.len(),
                band2.valid_mask.as_ptr(),
                band2.valid_mask.len(),
                blank,
                floats,
            )
        })
    }

    /// The picture call that is not told its co-pol band.
    pub fn picture(
        strategy: u8, mode: u8, rows: usize, cols: usize, band1: Band, band2: Band, out: PictureOut, work: &mut [f64],
    ) -> Answer<()> {
        call(|| unsafe {
            c::quicklook_picture(
                strategy,
                mode,
                rows,
                cols,
                band1.db.as_ptr(),
                band1.db.len(),
                band1.valid_mask.as_ptr(),
                band1.valid_mask.len(),
                band2.db.as_ptr(),
                band2.db.len(),
                band2.valid_mask.as_ptr(),
                band2.valid_mask.len(),
                out.grey1.as_mut_ptr(),
                out.grey1.len(),
                out.grey2.as_mut_ptr(),
                out.grey2.len(),
                out.rgb.as_mut_ptr(),
                out.rgb.len(),
                work.as_mut_ptr(),
                work.len(),
            )
        })
    }
}

#[cfg(test)]
mod tests {
    use super::*;

    #[test]
    fn every_code_is_the_headers() {
        assert_eq!(AutoscaleStrategy::ALL.map(AutoscaleStrategy::code), [0, 1, 2, 3, 4, 5, 6]);
        assert_eq!(SyntheticRgbMode::ALL.map(SyntheticRgbMode::code), [0, 1, 2, 3]);
        assert_eq!(CoPol::ALL.map(CoPol::code), [1, 2]);
    }

    /// Under Tamed the co-pol band's window begins at p02, the other's at p05; the greys follow.
    #[test]
    fn windows_and_greys_go_with_their_band() {
        let db: [Vec<f64>; 2] = [1.0, 3.0].map(|step| (0..100).map(|k| f64::from(k) * step).collect());
        let marks = [1u8; 100];
        let bands = db.each_ref().map(|db| Band { db, valid_mask: &marks });
        for copol in CoPol::ALL {
            let windows = picture_windows(AutoscaleStrategy::Tamed, copol, 10, 10, bands[0], bands[1]).unwrap();
            let (mut grey1, mut grey2, mut rgb) = ([0; 100], [0; 100], [0; 300]);
            let out = PictureOut { grey1: &mut grey1, grey2: &mut grey2, rgb: &mut rgb };
            let choices = PictureChoices { strategy: AutoscaleStrategy::Tamed, mode: SyntheticRgbMode::Default, copol };
            picture(choices, 10, 10, bands[0], bands[1], out, &mut []).unwrap();
            for (k, (is_copol, greys)) in [(copol == CoPol::Band1, grey1), (copol == CoPol::Band2, grey2)].into_iter().enumerate() {
                let s = statistics(10, 10, bands[k]).unwrap();
                let low = if is_copol { s.p02 } else { s.p05 };
                assert!(s.p02 < s.p05);
                assert_eq!(windows[k], Window::Window { low, high: s.p99, range: s.p99 - low, gamma: 1.0 });
                let expected = db[k].iter().map(|v| ((v.max(low).min(s.p99) - low) / (s.p99 - low) * 255.0) as u8);
                assert!(greys.into_iter().eq(expected), "{copol:?}, band {}", k + 1);
            }
        }
        let blank = Band { db: &db[0], valid_mask: &[0; 100] };
        let windows = picture_windows(AutoscaleStrategy::Tamed, CoPol::Band2, 10, 10, blank, bands[1]).unwrap();
        assert!(windows[0] == Window::Blank && windows[1] != Window::Blank);
    }

    #[test]
    fn statistics_keep_their_order() {
        let floats: [f64; 15] = std::array::from_fn(|k| k as f64);
        let statistics = Statistics::from_lent([7, 8, 9, 10, 11], floats);
        assert_eq!(statistics.named().map(|(_, value)| value), floats);
        let Statistics { valid_count, p05_bin, p95_bin, max_row, max_col, .. } = statistics;
        assert_eq!([valid_count, p05_bin, p95_bin, max_row, max_col], [7, 8, 9, 10, 11]);
    }
}
