//! The command line.

use crate::trouble::STATUSES;
use clap::{Args, Parser, Subcommand, ValueEnum};
use std::ffi::OsString;
use std::path::PathBuf;
use wire::Part;

/// The program's version with the commit that it was built from.
pub const VERSION: &str = concat!(env!("CARGO_PKG_VERSION"), " (", env!("QUICKLOOK_COMMIT"), ")");

const RASTERS: &str = "\
Rasters are NumPy .npy files of two dimensions and whatever GDAL opens: GeoTIFF and COG, ENVI, NetCDF, HFA, PNG and more. A raster of
several bands is named with its band, scene.tif:2; one of two bands serves both bands of a picture. Elements are floats or whole
numbers, taken exactly. Marks are 1 where a pixel is valid and 0 where not. Pictures go to .png, .tif or .npy, by the name's ending; a
.tif is a GeoTIFF with the marks as its mask and the georeference of the first raster. A raster named - is a .npy on standard input.

The outputs of a command are written all or none: after any status but 0 every earlier file stands as it was.
";

const EXAMPLES: &str = "
A first run:       quicklook demo scene
A picture:         quicklook picture scene/vv.npy scene/vv-marks.npy scene/vh.npy scene/vh-marks.npy --out sea.png --strategy tamed
From a GeoTIFF:    quicklook picture scene.tif --marks auto --out sea.tif --strategy tamed
A part of it:      quicklook grey scene.tif:1 --marks auto --crop 2000,3000,1024,1024 --out patch.tif";

fn after_help() -> String {
    let statuses: String = STATUSES.iter().map(|(number, meaning)| format!("  {number:<8}{meaning}\n")).collect();
    format!("{RASTERS}\nExit status:\n{statuses}{EXAMPLES}")
}

/// Radar quicklooks from decibel rasters: validity marks, statistics, windows, greys and colour pictures, each as the proved engine computes it.
#[derive(Parser)]
#[command(name = "quicklook", version = VERSION, after_help = after_help())]
pub struct Arguments {
    #[command(subcommand)]
    pub command: Command,
}

#[derive(Subcommand)]
pub enum Command {
    /// Marks of an intensity raster: 1 where the value lies above -50 dB
    Marks {
        /// Intensities: f32, or numbers that an f32 holds exactly
        intensities: OsString,
        #[command(flatten)]
        part: PartOf,
        /// Where the marks go
        #[arg(long)]
        out: PathBuf,
        #[command(flatten)]
        form: Form,
    },
    /// The decibels of one band just as they are read, to .npy (f8), and its marks (u1)
    Read {
        #[command(flatten)]
        band: BandFiles,
        /// Where the decibels go
        #[arg(long)]
        out: PathBuf,
        /// Where the marks go
        #[arg(long)]
        marks_out: Option<PathBuf>,
        /// Replaces read-only files too
        #[arg(long)]
        force: bool,
    },
    /// The statistics of one band: a count and fifteen numbers, a line each; behind p05 and p95 their bins on the curve, behind max its row and column
    Stats {
        #[command(flatten)]
        band: BandFiles,
        /// As JSON
        #[arg(long)]
        json: bool,
    },
    /// The curve of one band: the counts of its valid decibels in 4,096 equal steps from the least to the greatest
    Histogram {
        #[command(flatten)]
        band: BandFiles,
        /// As JSON
        #[arg(long)]
        json: bool,
    },
    /// The window that a strategy chooses for one band: low, high, range and gamma, or blank
    Window {
        #[command(flatten)]
        band: BandFiles,
        #[arg(long, value_enum, default_value = "default")]
        strategy: Strategy,
        /// As JSON
        #[arg(long)]
        json: bool,
    },
    /// The grey picture of one band
    Grey {
        #[command(flatten)]
        band: BandFiles,
        #[arg(long, value_enum, default_value = "default")]
        strategy: Strategy,
        /// Bits of a grey: 8 or 16
        #[arg(long, value_enum, default_value = "8")]
        depth: Bits,
        #[arg(long)]
        out: PathBuf,
        #[command(flatten)]
        form: Form,
    },
    /// The colour picture of two bands, and their greys on request
    Picture {
        #[command(flatten)]
        scene: SceneFiles,
        #[command(flatten)]
        painting: PicturePainting,
        /// Where the colours go
        #[arg(long)]
        out: PathBuf,
        /// Where the grey of band 1 goes
        #[arg(long)]
        grey1: Option<PathBuf>,
        /// Where the grey of band 2 goes
        #[arg(long)]
        grey2: Option<PathBuf>,
        #[command(flatten)]
        form: Form,
    },
    /// The colours of two 8-bit grey pictures
    Compose {
        band1: OsString,
        band2: OsString,
        #[command(flatten)]
        part: PartOf,
        #[command(flatten)]
        painting: Painting,
        #[arg(long)]
        out: PathBuf,
        #[command(flatten)]
        form: Form,
    },
    /// A grey picture of 16 or 8 bits stretched to 0..255
    Stretch {
        grey: OsString,
        #[command(flatten)]
        part: PartOf,
        #[arg(long)]
        out: PathBuf,
        #[command(flatten)]
        form: Form,
    },
    /// A grey picture of 8 or 16 bits padded with zeros to a square
    Pad {
        grey: OsString,
        #[command(flatten)]
        part: PartOf,
        #[arg(long)]
        out: PathBuf,
        #[command(flatten)]
        form: Form,
    },
    /// Arithmetic on two intensity rasters, element by element
    Op {
        #[arg(value_enum)]
        operation: Operation,
        a: OsString,
        b: OsString,
        #[command(flatten)]
        part: PartOf,
        #[arg(long)]
        out: PathBuf,
        #[command(flatten)]
        form: Form,
    },
    /// A page for the deck: one file that opens in any browser, with the picture, its values, coordinates, statistics, strongest echoes and patches to rank
    View {
        #[command(flatten)]
        scene: SceneFiles,
        #[command(flatten)]
        painting: PicturePainting,
        /// The page's title; by default the names of the decibel files
        #[arg(long)]
        title: Option<String>,
        /// Where the page goes
        #[arg(long)]
        out: PathBuf,
        /// Replaces a read-only file too
        #[arg(long)]
        force: bool,
    },
    /// Makes a synthetic sea scene of two bands, and runs every step on it
    Demo {
        /// A folder for the scene and its pictures
        folder: PathBuf,
        /// Rows and columns of the scene
        #[arg(long, default_value_t = 512)]
        side: usize,
        /// Takes a folder that holds files which the demo did not make, and replaces those of its names
        #[arg(long)]
        force: bool,
    },
}

/// The files of one band.
#[derive(Args)]
pub struct BandFiles {
    /// Decibels
    db: OsString,
    /// Their marks; none with --marks auto, or where `read` is to give the decibels alone
    marks_file: Option<OsString>,
    #[command(flatten)]
    pub reading: Reading,
}

impl BandFiles {
    /// The rasters in the order of a scene's.
    pub fn files(&self) -> Vec<OsString> {
        std::iter::once(&self.db).chain(&self.marks_file).cloned().collect()
    }
}

/// The files of a scene.
#[derive(Args)]
pub struct SceneFiles {
    /// DB1 MARKS1 DB2 MARKS2, or SCENE MARKS where the scene has two bands; with --marks auto DB1 DB2, or SCENE.
    /// A page (view) of one band takes DB MARKS, or DB with --marks auto
    #[arg(value_name = "RASTER", num_args = 1..=4, required = true)]
    pub files: Vec<OsString>,
    #[command(flatten)]
    pub reading: Reading,
}

/// How colours are painted.
#[derive(Args, Clone, Copy)]
pub struct Painting {
    #[arg(long, value_enum, default_value = "default")]
    pub strategy: Strategy,
    #[arg(long, value_enum, default_value = "default")]
    pub mode: Mode,
}

/// How the picture of a scene is painted.
#[derive(Args, Clone, Copy)]
pub struct PicturePainting {
    #[command(flatten)]
    painting: Painting,
    /// Which band is co-pol, where there are two; it sets the windows of a tamed picture and nothing else: red stays band 1's
    #[arg(long, value_name = "BAND", value_enum, default_value = "1")]
    copol: CoPol,
}

impl From<PicturePainting> for engine::PictureChoices {
    fn from(PicturePainting { painting: Painting { strategy, mode }, copol }: PicturePainting) -> Self {
        engine::PictureChoices { strategy: strategy.into(), mode: mode.into(), copol: copol.into() }
    }
}

/// The part of a raster that is read, and how.
#[derive(Args, Clone, Copy)]
pub struct PartOf {
    /// Reads this part alone: its first row and column, from 0, and its rows and columns
    #[arg(long, value_name = "ROW,COL,ROWS,COLS", value_parser = crop)]
    pub crop: Option<Part>,
    /// Maps .npy files into memory: less of it is needed, but a file that another program shortens meanwhile is told without its name
    #[arg(long)]
    pub map: bool,
}

/// How decibels and marks are read.
#[derive(Args)]
pub struct Reading {
    /// Reads this part alone of every raster: its first row and column, from 0, and its rows and columns
    #[arg(long, value_name = "ROW,COL,ROWS,COLS", value_parser = crop)]
    pub crop: Option<Part>,
    /// Where the marks come from, in place of a file
    #[arg(long, value_enum)]
    pub marks: Option<Marks>,
    /// The marks file has 255 where a pixel is valid, and 0
    #[arg(long)]
    pub marks_255: bool,
    /// What to do with the scale and offset of a band that has them
    #[arg(long, value_enum)]
    pub scaling: Option<Scaling>,
    /// Takes the values as decibels though their unit or description says something else
    #[arg(long)]
    pub as_decibels: bool,
    /// Maps .npy files into memory: less of it is needed, but a file that another program shortens meanwhile is told without its name
    #[arg(long)]
    pub map: bool,
}

/// What is written beside the elements.
#[derive(Args, Clone, Copy)]
pub struct Form {
    /// Makes a .tif a cloud optimized GeoTIFF
    #[arg(long)]
    pub cog: bool,
    /// Writes a world file and an .aux.xml beside a .png
    #[arg(long)]
    pub world: bool,
    /// Replaces read-only files too
    #[arg(long)]
    pub force: bool,
}

fn crop(text: &str) -> Result<Part, String> {
    let numbers: Option<Vec<usize>> = text.split(',').map(|word| word.trim().parse().ok()).collect();
    match numbers.as_deref() {
        Some(&[row, col, rows, cols]) if rows > 0 && cols > 0 => Ok(Part { row, col, rows, cols }),
        _ => Err("four whole numbers: first row, first column, rows and columns".into()),
    }
}

#[derive(Clone, Copy, PartialEq, Eq, ValueEnum)]
pub enum Marks {
    /// The decibels' own raster: its nodata value, mask band or alpha band, and NaN
    Auto,
}

#[derive(Clone, Copy, PartialEq, Eq, ValueEnum)]
pub enum Scaling {
    /// value x scale + offset
    Apply,
    /// The numbers as they stand in the file
    Raw,
}

#[derive(Clone, Copy, ValueEnum)]
pub enum Bits {
    #[value(name = "8")]
    Eight,
    #[value(name = "16")]
    Sixteen,
}

/// The strategies of types.rs.
#[derive(Clone, Copy, ValueEnum)]
pub enum Strategy {
    /// By the scene's spread: p02 to p98, or wide of the quartiles where they lie within 5 dB; a spread under 15 dB chooses gamma 1.1, else one over 40 dB with wider quartiles 0.9; both are painted at 8 bits and refused 6 at 16
    Standard,
    /// Quartiles widened by 2.5 interquartile ranges, within p01 to p99: where ships or land would spoil the window
    Robust,
    /// By skewness and tails, with a gamma of its own: 0.8, 0.9, 1.0 or 1.1; at 16 bits refused 6 where it is not 1.0
    Adaptive,
    /// p01 to p99: the widest window
    Equalized,
    /// Local contrast in 8 by 8 tiles: shows structure, but greys of different tiles cannot be ranked
    Clahe,
    /// Dark water kept dark: p25 to p99 for a grey; in a picture p02 or p05 (co-pol) and p05 (cross-pol) to p99, and suppressed colours
    Tamed,
    /// p05 to p95: the one to rank patches of sea by
    Default,
}

impl From<Strategy> for engine::AutoscaleStrategy {
    fn from(strategy: Strategy) -> Self {
        match strategy {
            Strategy::Standard => Self::Standard,
            Strategy::Robust => Self::Robust,
            Strategy::Adaptive => Self::Adaptive,
            Strategy::Equalized => Self::Equalized,
            Strategy::Clahe => Self::Clahe,
            Strategy::Tamed => Self::Tamed,
            Strategy::Default => Self::Default,
        }
    }
}

/// The modes of types.rs. All four give the same colours.
#[derive(Clone, Copy, ValueEnum)]
pub enum Mode {
    /// Red of band 1, green of band 2, blue of their ratio
    Default,
    /// The same colours as default
    RgbRatio,
    /// The same colours as default
    SarUrban,
    /// The same colours as default
    Enhanced,
}

impl From<Mode> for engine::SyntheticRgbMode {
    fn from(mode: Mode) -> Self {
        match mode {
            Mode::Default => Self::Default,
            Mode::RgbRatio => Self::RgbRatio,
            Mode::SarUrban => Self::SarUrban,
            Mode::Enhanced => Self::Enhanced,
        }
    }
}

#[derive(Clone, Copy, ValueEnum)]
pub enum CoPol {
    #[value(name = "1")]
    Band1,
    #[value(name = "2")]
    Band2,
}

impl From<CoPol> for engine::CoPol {
    fn from(copol: CoPol) -> Self {
        match copol {
            CoPol::Band1 => Self::Band1,
            CoPol::Band2 => Self::Band2,
        }
    }
}

#[derive(Clone, Copy, ValueEnum)]
pub enum Operation {
    Sum,
    Diff,
    Ratio,
    NDiff,
    LogRatio,
}

impl From<Operation> for engine::PolarizationOperation {
    fn from(operation: Operation) -> Self {
        match operation {
            Operation::Sum => Self::Sum,
            Operation::Diff => Self::Diff,
            Operation::Ratio => Self::Ratio,
            Operation::NDiff => Self::NDiff,
            Operation::LogRatio => Self::LogRatio,
        }
    }
}
