//! Worked scenes as declarations that compute: what a definition of the crate `spec` gives is the list of numbers that the Rust gave.
use std::collections::HashSet;
use std::fmt::{Display, LowerHex, Write};
use std::path::Path;
use std::{fs, io};

use oracle::AutoscaleStrategy::{Adaptive, Clahe, Default, Equalized, Robust, Standard, Tamed};
use oracle::{Answer, AutoscaleStrategy, CoPol, Lent, MODES, PolarizationOperation, STRATEGIES, Sides, SyntheticRgbMode};
use random::Rng;

use crate::bands::{self, random};
use crate::calls::Scene;
use crate::tiles;

const WORK: usize = oracle::table::CLAHE_WORK;

/// Where the names in the declarations come from; a file imports those that it has.
const NAMES: [(&str, &[&str]); 17] = [
    ("mathlib.Core.List", &["[]", "◌∷◌", "map"]),
    ("lib.Dec", &["T"]),
    ("lib.Ieee", &["binary64", "to_bits"]),
    (
        "Rattle.types.specs.declared.AutoscaleStrategy.TheVariants",
        &["Standard", "Robust", "Adaptive", "Equalized", "Clahe", "Tamed", "Default"],
    ),
    ("Rattle.types.specs.declared.SyntheticRgbMode.TheVariants", &["Default as Plain", "RgbRatio", "SarUrban", "Enhanced"]),
    ("Rattle.spec.specs.Pixels", &["pixels"]),
    ("Rattle.spec.specs.Statistics", &["statistics_of", "compute_histogram_stats"]),
    ("Rattle.spec.specs.Window", &["autoscale_window"]),
    ("Rattle.spec.specs.Grey", &["autoscale_db_image_to_u8", "autoscale_db_image_to_u16"]),
    ("Rattle.spec.specs.Stretch", &["scale_u16_to_u8"]),
    ("Rattle.spec.specs.Colour", &["create_synthetic_rgb_by_mode_and_strategy"]),
    ("Rattle.spec.specs.Clahe", &["tile_side", "clip", "sum_at", "tile_position"]),
    ("Rattle.spec.specs.RowResults", &["clahe_results", "tile_sums", "row_at", "row_results"]),
    ("Rattle.spec.specs.Padding", &["add_padding_to_square"]),
    ("Rattle.spec.specs.Marks", &["process_scalar_data_mask"]),
    ("Rattle.spec.specs.Ops", &["operate_arrays", "sum_op", "difference_op", "ratio_op", "log_ratio_op", "normalized_diff_op"]),
    ("Rattle.spec.specs.Picture", &["synthetic_rgb_picture"]),
];

const TESTS: &[&str] =
    &["same", "floats", "floats32", "stat_answer", "window_bits", "all_windows", "bytes", "words", "picture_bytes", "lent"];

/// The `use` lines of a file with these declarations.
fn imports(declarations: &str) -> String {
    let lines = declarations.lines().filter(|l| !l.starts_with("--"));
    let words: HashSet<&str> = lines.flat_map(|l| l.split([' ', '(', ')', '.'])).collect();
    let has = |name: &&&str| {
        let word = name.rsplit(' ').next().unwrap().trim_matches('◌');
        words.contains(word)
    };
    let line = |module: &str, names: &[&str]| {
        let used: Vec<&str> = names.iter().filter(has).copied().collect();
        if used.is_empty() { String::new() } else { format!("use {module}.{{{}}}\n", used.join(", ")) }
    };
    let mut text: String = NAMES.iter().map(|(module, names)| line(module, names)).collect();
    text += "use Rattle.starred.specs.Computing.{computing}\n";
    text + &line("Rattle.scenes.specs.Tests", TESTS)
}

fn list<T: Display>(elements: impl IntoIterator<Item = T>) -> String {
    elements.into_iter().fold("(".to_string(), |text, e| text + &format!("{e} ∷ ")) + "[])"
}

fn hex<T: LowerHex>(bits: T) -> String {
    format!("{bits:#x}")
}

fn bits(xs: &[f64]) -> Vec<String> {
    xs.iter().map(|x| hex(if x.is_nan() { 0x7ff8_0000_0000_0000 } else { x.to_bits() })).collect()
}

fn bits32(xs: &[f32]) -> Vec<String> {
    xs.iter().map(|x| hex(if x.is_nan() { 0x7fc0_0000 } else { x.to_bits() })).collect()
}

/// 0 and what a call gives, or a refusal's number.
fn answer<T>(given: Answer<T>, show: impl Fn(T) -> Vec<String>) -> String {
    list(match given {
        Ok(given) => [vec!["0".to_string()], show(given)].concat(),
        Err(number) => vec![number.to_string()],
    })
}

fn numbers<T: Display>(xs: Vec<T>) -> Vec<String> {
    xs.iter().map(T::to_string).collect()
}

fn mode_name(mode: SyntheticRgbMode) -> String {
    if mode == SyntheticRgbMode::Default { "Plain".to_string() } else { mode.to_string() }
}

/// One file of declarations.
struct File {
    name: &'static str,
    title: &'static str,
    text: String,
    count: usize,
}

impl File {
    fn new(name: &'static str, title: &'static str) -> Self {
        File { name, title, text: String::new(), count: 0 }
    }

    fn check(&mut self, label: &str, got: String, expected: String) {
        self.count += 1;
        let name = format!("{label}_{}", self.count);
        write!(self.text, "\npub {name} : T (same ({got}) {expected})\nunfolding computing\n{name} = tt\n").unwrap();
    }

    fn note(&mut self, text: &str) {
        write!(self.text, "\n-- {text}").unwrap();
    }

    fn band(scene: &Scene) -> String {
        format!("{} (floats {})", list(&scene.marks), list(bits(&scene.db)))
    }

    fn sided(scene: &Scene) -> String {
        format!("{} {} {}", scene.sides.rows, scene.sides.cols, Self::band(scene))
    }

    fn statistics(&mut self, scene: &Scene) {
        let expected =
            answer(oracle::statistics(scene.sides, scene.band()), |s| [vec![s.valid_count.to_string()], bits(&s.floats)].concat());
        self.check("statistics", format!("stat_answer (compute_histogram_stats {})", Self::sided(scene)), expected);
    }

    fn window(&mut self, strategy: AutoscaleStrategy, scene: &Scene) {
        let given = oracle::window(strategy, scene.sides, scene.band());
        let expected = answer(given, |w| w.map_or(Vec::new(), |w| bits(&[w.low, w.high, w.range, w.gamma])));
        self.check("window", format!("window_bits (autoscale_window {strategy} {})", Self::sided(scene)), expected);
    }

    /// All seven from one record.
    fn windows(&mut self, scene: &Scene) {
        let mut expected = Vec::new();
        for strategy in STRATEGIES {
            let w = oracle::window(strategy, scene.sides, scene.band()).unwrap();
            expected.push("0".to_string());
            expected.extend(w.map_or(Vec::new(), |w| bits(&[w.low, w.high, w.range, w.gamma])));
        }
        self.check("windows", format!("all_windows (statistics_of (pixels {}))", Self::band(scene)), list(expected));
    }

    fn grey8(&mut self, strategy: AutoscaleStrategy, scene: &Scene, out: usize, work: usize) {
        let expected = answer(oracle::grey_u8(strategy, scene.sides, scene.band(), out, work), numbers);
        self.check("grey8", format!("bytes (autoscale_db_image_to_u8 {strategy} {} {out} {work})", Self::sided(scene)), expected);
    }

    fn grey16(&mut self, strategy: AutoscaleStrategy, scene: &Scene, out: usize, work: usize) {
        let expected = answer(oracle::grey_u16(strategy, scene.sides, scene.band(), out, work), numbers);
        self.check("grey16", format!("bytes (autoscale_db_image_to_u16 {strategy} {} {out} {work})", Self::sided(scene)), expected);
    }

    fn picture(&mut self, strategy: AutoscaleStrategy, mode: SyntheticRgbMode, band1: &Scene, band2: &Scene, lent: Lent) {
        let given = oracle::picture(strategy, mode, CoPol::Band1, band1.sides, band1.band(), band2.band(), lent);
        let expected = answer(given, |p| numbers([p.grey1, p.grey2, p.rgb].concat()));
        let Lent { grey1, grey2, rgb, work } = lent;
        let got = format!(
            "picture_bytes (synthetic_rgb_picture {strategy} {} {} {} (lent {grey1} {grey2} {rgb} {work}))",
            mode_name(mode),
            Self::sided(band1),
            Self::band(band2)
        );
        self.check("picture", got, expected);
    }

    fn whole(&self) -> String {
        let (title, uses, text) = (self.title, imports(&self.text), &self.text);
        format!(
            "-- {title} Written by oracle/vectors; the expected numbers are the Rust's. Closed computations: assumes nothing.\n{uses}{text}"
        )
    }
}

/// Statistics, windows with every gamma, greys.
fn bands(rng: &mut Rng) -> File {
    let mut f = File::new("Bands", "Statistics, windows and greys of small bands.");
    let usual = random(rng, 3, 4, -15.0, 11.0, 3);
    f.statistics(&usual);
    f.note("mixed zeros: the least and the greatest are the first met");
    f.statistics(&Scene::row(&[-0.0, 0.0, -1.0, 0.0]));
    f.windows(&Scene::row(&[0.0, -0.0, -0.0, 20.0]));
    f.note("a span of 2^-52, and just under it: flat");
    f.statistics(&Scene::row(&[0.0, f64::EPSILON, -0.0]));
    f.statistics(&Scene::row(&[f64::EPSILON.next_down(), 0.0]));
    f.note("p99 above the greatest value");
    f.statistics(&Scene::row(&[-0.5 - 1024.0 * f64::EPSILON, -0.5, -0.5, -0.5]));
    f.note("no valid pixel, and none at all");
    f.statistics(&Scene::new(1, 3, &[f64::NAN, f64::INFINITY, 5000.0], &[0; 3]));
    f.windows(&Scene::new(0, 5, &[], &[]));

    f.note("Standard: gamma 1.1, 1.0 by quartiles, 1.0, 0.9. Adaptive: 1.0, 0.9, 1.1, 0.8");
    f.windows(&usual);
    f.windows(&Scene::row(&[-15.0, -14.5, -14.25, -14.0, -13.5, -13.0, -12.0, -9.0]));
    f.windows(&Scene::row(&[-20.0, -19.5, -19.0, -18.75, -18.5, -18.25, -18.0, 9.0]));
    f.windows(&Scene::row(&[10.0, 9.5, 9.25, 9.0, 8.5, -32.0, -25.0, 9.75]));
    let tail: Vec<f64> = (0..20).map(|k| f64::from(k) * 0.1).chain([9.0]).collect();
    f.windows(&Scene::row(&tail));
    f.note("low above high: by whole decibels, and by the roundings of 308 values around 512");
    f.window(Standard, &bands::inverted_standard());
    f.window(Tamed, &bands::inverted_tamed());

    let normal = Scene::new(2, 5, &[-20.0, -13.5, -2.25, 4.0, -8.0, f64::NAN, -17.0, -4.75, 1.0, -11.5], &[1, 1, 1, 1, 1, 0, 1, 1, 1, 1]);
    for strategy in STRATEGIES {
        let work = if strategy == Clahe { WORK } else { 3 };
        f.grey8(strategy, &normal, 10, work);
    }
    for strategy in [Standard, Adaptive, Equalized, Robust] {
        f.grey16(strategy, &normal, 10, 0);
    }
    f.note("one valid pixel; lengths, marks and decibels refused");
    f.grey8(Tamed, &Scene::new(1, 3, &[f64::NAN, -12.5, 2000.0], &[0, 1, 0]), 3, 0);
    f.grey8(Clahe, &normal, 10, WORK - 1);
    f.grey16(Default, &normal, 9, 0);
    f.window(Clahe, &Scene::new(1, 2, &[0.0, 1.0], &[2, 1]));
    f.window(Default, &Scene::row(&[0.0, 1000.0f64.next_up()]));
    f
}

/// Pictures with every strategy, and refusals over both bands.
fn pictures(rng: &mut Rng) -> File {
    let mut f = File::new("Pictures", "Pictures of small scenes, refusals over both bands.");
    let named = Lent { grey1: 6, grey2: 6, rgb: 18, work: WORK };
    // bands that every strategy but Clahe paints
    let painted =
        |strategy, a: &Scene, b: &Scene| oracle::picture(strategy, MODES[0], CoPol::Band1, a.sides, a.band(), b.band(), named).is_ok();
    let (band1, band2) = loop {
        let (a, b) = (random(rng, 2, 3, -14.0, 13.0, 1), random(rng, 2, 3, -21.0, 12.0, 1));
        if painted(Standard, &a, &b) && painted(Adaptive, &a, &b) {
            break (a, b);
        }
    };
    for (k, strategy) in STRATEGIES.into_iter().enumerate() {
        f.picture(strategy, MODES[k % 4], &band1, &band2, named);
    }
    f.note("mixed zeros beside a blank band");
    let zeros = Scene::new(2, 3, &[0.0, -0.0, 12.0, -0.0, 0.0, -3.0], &[1; 6]);
    let blank = Scene::new(2, 3, &[f64::NAN; 6], &[0; 6]);
    f.picture(Default, MODES[0], &zeros, &blank, named);
    f.picture(Tamed, MODES[0], &blank, &zeros, named);
    f.picture(Clahe, MODES[0], &blank, &blank, named);
    f.note("the smallest number over both bands");
    let change = |scene: &Scene, mark: u8, db: f64| {
        let mut scene = scene.clone();
        (scene.marks[0], scene.db[0]) = (mark, db);
        scene
    };
    let (wild, marked) = (change(&band1, 1, -1001.0), change(&band2, 2, 0.0));
    let mut wide = wild.clone();
    wide.sides.cols = 4097;
    f.picture(Default, MODES[0], &wide, &marked, named);
    f.picture(Default, MODES[0], &wild, &marked, Lent { rgb: 17, ..named });
    f.picture(Default, MODES[0], &wild, &marked, named);
    f.picture(Tamed, MODES[0], &band1, &change(&band2, 1, f64::INFINITY), named);
    f.picture(Clahe, MODES[0], &band1, &blank, named);
    let narrow = Scene::new(2, 3, &[1.0, 2.0, 3.0, 4.0, 5.0, 6.0], &[1; 6]);
    f.picture(Standard, MODES[0], &blank, &narrow, named);
    f
}

/// Clahe: a band whose tiles clip, and the sums of counts with a fraction in the excess.
fn tiles_file() -> File {
    let mut f = File::new("Tiles", "Clahe.");
    f.note("7 by 7: tiles of one pixel, and none in the last ones");
    let levels = [-20.0, -12.0, -12.0, 3.5, -7.25, -12.0, 11.0];
    let mut scene = Scene::new(7, 7, &std::array::from_fn::<f64, 49, _>(|k| levels[k * k % 7] + (k / 9) as f64), &[1; 49]);
    (scene.marks[9], scene.marks[30], scene.marks[48]) = (0, 0, 0);
    f.grey8(Clahe, &scene, 49, WORK);
    let (normal, equalised) = tiles::normalised(&scene);
    f.note("14 by 7: tiles of two pixels, in many of them at one level, so that they clip");
    let mut scene = Scene::new(14, 7, &std::array::from_fn::<f64, 98, _>(|k| levels[k / 14 * k % 7]), &[1; 98]);
    (scene.marks[0], scene.marks[43]) = (0, 0);
    f.grey16(Clahe, &scene, 98, WORK);
    f.note("160 pixels of threshold 1.25, an excess with the fraction one half; 1,000 pixels whose rest is one full round");
    let mut half = [0; 256];
    (half[0], half[10]) = (50, 60);
    let mut round = [0; 256];
    (round[3], round[100], round[255]) = (93, 93, 93);
    for (rows, cols, counts) in [(10, 16, half), (20, 50, round)] {
        let sums = tiles::sums_of_counts(Sides { rows, cols }, &counts);
        let places = [0usize, 3, 10, 99, 200, 255];
        let got = format!("map (λ b. to_bits binary64 (sum_at (clip {} {}) b)) {}", rows * cols, list(counts), list(places));
        f.check("sums", got, list(bits(&places.map(|b| sums[b]))));
    }
    f.note("the results in 0..1 of the 7 by 7 band, and those of its rows 0 and 4 by what they follow from");
    let results = bits(&equalised.iter().map(|x| x.clamp(0.0, 1.0)).collect::<Vec<f64>>());
    let px = format!("(pixels {})", File::band(&normal));
    f.check("results", format!("map (to_bits binary64) (clahe_results 7 7 {px})"), list(&results));
    for r in [0usize, 4] {
        let row = format!("row_results (tile_position (tile_side 7) {r}) (tile_sums 7 7 {px}) (row_at 7 {r} {px})");
        f.check("row", format!("map (to_bits binary64) ({row})"), list(&results[7 * r..7 * r + 7]));
    }
    f
}

/// The parts beside the picture.
fn beside() -> File {
    let mut f = File::new("Beside", "Stretch, colours, padding, arithmetic, marks.");
    for data in [&[0u16, 65535, 1, 257, 32768][..], &[3, 9, 5, 200, 77, 31], &[7, 7], &[]] {
        let expected = answer(oracle::stretch(data, data.len()), numbers);
        f.check("stretch", format!("bytes (scale_u16_to_u8 {} {})", list(data), data.len()), expected);
    }
    let (v1, v2) = ([0u8, 3, 4, 40, 41, 90, 200, 255], [255u8, 3, 9, 12, 0, 177, 41, 128]);
    for strategy in [Default, Clahe] {
        let expected = answer(oracle::composition(SyntheticRgbMode::Enhanced, strategy, &v1, &v2, 24), numbers);
        f.check(
            "composition",
            format!("bytes (create_synthetic_rgb_by_mode_and_strategy Enhanced {strategy} {} {} 24)", list(v1), list(v2)),
            expected,
        );
    }
    for (rows, cols) in [(2usize, 5usize), (4, 1)] {
        let data: Vec<u16> = (1..=rows * cols).map(|k| 1000 * k as u16).collect();
        let side = rows.max(cols);
        let expected = answer(oracle::padding_u16(Sides { rows, cols }, &data, side * side), numbers);
        f.check("padding", format!("bytes (add_padding_to_square 0 {rows} {cols} {} {})", list(&data), side * side), expected);
    }
    let a = [0x3f800000u32, 0x40490fdb, 0x7f800000, 0x7fc00000, 1, 0x3dcccccd, 0xc2f6e979, 0x80000000].map(f32::from_bits);
    let b = [0x3eaaaaabu32, 0x2edbe6ff, 0x7f800000, 0x3f800000, 0x80000001, 0x2edbe700, 0x42f6e979, 0].map(f32::from_bits);
    for (operation, name) in [
        (PolarizationOperation::Sum, "sum_op"),
        (PolarizationOperation::Diff, "difference_op"),
        (PolarizationOperation::Ratio, "ratio_op"),
        (PolarizationOperation::LogRatio, "log_ratio_op"),
        (PolarizationOperation::NDiff, "normalized_diff_op"),
    ] {
        let expected = answer(oracle::arithmetic(operation, &a, &b, 8), |xs| bits32(&xs));
        let got = format!("words (operate_arrays {name} (floats32 {}) (floats32 {}) 8)", list(bits32(&a)), list(bits32(&b)));
        f.check("arithmetic", got, expected);
    }
    let x = [0x3727c5acu32, 0x3727c5ad, 0x7f800000, 0x7fc00000, 0xff800000, 0, 0xbf800000, 0x3f800000].map(f32::from_bits);
    let expected = answer(oracle::marks(&x, 8), numbers);
    f.check("marks", format!("bytes (process_scalar_data_mask (floats32 {}) 8)", list(bits32(&x))), expected);
    f
}

/// The files of the crate's proofs, by name.
pub fn files(seed: u64) -> Vec<(String, String)> {
    let mut rng = Rng::new(seed);
    let files = [beside(), bands(&mut rng), pictures(&mut rng), tiles_file()];
    let names: String = files.iter().map(|f| format!("pub mod {}\n", f.name)).collect();
    let root = ("Lib.antt".to_string(), names);
    files.iter().map(|f| (format!("{}.antt", f.name), f.whole())).chain([root]).collect()
}

pub fn write(folder: &Path, seed: u64) -> io::Result<()> {
    fs::create_dir_all(folder)?;
    for (name, text) in files(seed) {
        println!("{name:15} {:3} scenes {:7} bytes", text.matches("= tt\n").count(), text.len());
        fs::write(folder.join(name), text)?;
    }
    Ok(())
}
