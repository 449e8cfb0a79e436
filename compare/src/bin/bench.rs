//! bench [SIDE ..]: the Rust originals and the archive on the same scenes in the same process, one thread, medians, as a Markdown table.
//! bench marks [alone] [SIDE ..]: what is painted pixel by pixel, on three kinds of marks: all valid, nine in ten valid in runs, one in two at
//! random; alone: without the Rust and in processor time, to hold two archives against each other on a busy machine.
//! bench before ARCHIVE.so [SIDE ..]: the greys and pictures of the Rust, of an archive before, as a shared library, and of this one, in turn.
//! The Rust's inputs (arrays and masks of bool) are made beforehand, outside its times; its outputs are allocated by it, inside them.

use compare::{scene, strategy_of};
use engine::{AutoscaleStrategy, Band, CoPol, PictureChoices, PictureOut, SyntheticRgbMode};
use ndarray::Array2;
use random::Rng;
use sarpro::core::processing::{autoscale, synthetic_rgb};
use sarpro::types::BitDepth;
use std::ffi::{CStr, CString, c_char, c_int, c_void};
use std::hint::black_box;
use std::time::Instant;

/// The median of several runs, in milliseconds; the first run is not counted.
fn median(runs: usize, work: impl FnMut()) -> f64 {
    times(runs, work)[runs / 2]
}

/// The times of several runs, in milliseconds, the least first; the first run is not counted.
fn times(runs: usize, mut work: impl FnMut()) -> Vec<f64> {
    work();
    let mut times: Vec<f64> = (0..runs)
        .map(|_| {
            let start = Instant::now();
            work();
            start.elapsed().as_secs_f64() * 1e3
        })
        .collect();
    times.sort_by(f64::total_cmp);
    times
}

fn row(what: &str, side: usize, rust: f64, ours: f64) {
    println!("| {what} | {side} | {rust:.2} | {ours:.2} | {:.2} |", ours / rust);
}

struct RustBand {
    db: Array2<f64>,
    mask: Vec<bool>,
}

fn rust_grey(strategy: AutoscaleStrategy, depth: BitDepth, band: &RustBand) -> (Vec<u8>, Option<Vec<u16>>) {
    match strategy {
        AutoscaleStrategy::Standard => autoscale::autoscale_db_image_to_bitdepth(&band.db, &band.mask, depth),
        _ => autoscale::autoscale_db_image_to_bitdepth_advanced(&band.db, &band.mask, depth, strategy_of(strategy)),
    }
}

fn rust_picture(strategy: AutoscaleStrategy, bands: &[RustBand; 2]) -> (Vec<u8>, Vec<u8>, Vec<u8>) {
    let grey = |k: usize| match strategy {
        AutoscaleStrategy::Tamed => autoscale::autoscale_db_image_tamed_synrgb_u8(&bands[k].db, &bands[k].mask, k == 0),
        _ => rust_grey(strategy, BitDepth::U8, &bands[k]).0,
    };
    let (grey1, grey2) = (grey(0), grey(1));
    let rgb =
        synthetic_rgb::create_synthetic_rgb_by_mode_and_strategy(oracle::SyntheticRgbMode::Default, strategy_of(strategy), &grey1, &grey2);
    (grey1, grey2, rgb)
}

/// What the archive is told where the Rust has band 1 as co-pol.
fn choices(strategy: AutoscaleStrategy) -> PictureChoices {
    PictureChoices { strategy, mode: SyntheticRgbMode::Default, copol: CoPol::Band1 }
}

fn bench(side: usize) {
    let runs = if side > 2_000 { 5 } else { 9 };
    let n = side * side;
    let mut rng = Rng::new(7);
    let scenes = [scene::sea(&mut rng, side, side), scene::sea(&mut rng, side, side)];
    let band = |k: usize| Band { db: &scenes[k].0, valid_mask: &scenes[k].1 };
    let rust = [0, 1].map(|k: usize| RustBand {
        db: Array2::from_shape_vec((side, side), scenes[k].0.clone()).unwrap(),
        mask: scenes[k].1.iter().map(|&m| m == 1).collect(),
    });
    let (mut grey1, mut grey2, mut rgb) = (vec![0u8; n], vec![0u8; n], vec![0u8; 3 * n]);
    let mut grey16 = vec![0u16; n];
    let mut work = vec![0f64; 16_384];

    let theirs = median(runs, || {
        black_box(autoscale::histogram_stats(&rust[0].db, &rust[0].mask));
    });
    let ours = median(runs, || {
        black_box(engine::statistics(side, side, band(0))).unwrap();
    });
    row("statistics", side, theirs, ours);

    for strategy in [AutoscaleStrategy::Default, AutoscaleStrategy::Clahe] {
        let theirs = median(runs, || drop(black_box(rust_grey(strategy, BitDepth::U8, &rust[0]))));
        let ours = median(runs, || engine::grey_u8(strategy, side, side, band(0), black_box(&mut grey1), &mut work).unwrap());
        row(&format!("grey 8 bits, {strategy:?}"), side, theirs, ours);
        let theirs = median(runs, || drop(black_box(rust_grey(strategy, BitDepth::U16, &rust[0]))));
        let ours = median(runs, || engine::grey_u16(strategy, side, side, band(0), black_box(&mut grey16), &mut work).unwrap());
        row(&format!("grey 16 bits, {strategy:?}"), side, theirs, ours);
    }

    // a scene of little contrast, to which Standard gives gamma 1.1, and the same by Default, gamma 1.0
    let flat: Vec<f64> = scenes[0].0.iter().map(|v| v / 3.0).collect();
    let rust_flat = RustBand { db: Array2::from_shape_vec((side, side), flat.clone()).unwrap(), mask: rust[0].mask.clone() };
    for (strategy, gamma) in [(AutoscaleStrategy::Standard, "1.1"), (AutoscaleStrategy::Default, "1.0")] {
        let theirs = median(runs, || drop(black_box(rust_grey(strategy, BitDepth::U8, &rust_flat))));
        let given = Band { db: &flat, valid_mask: &scenes[0].1 };
        let ours = median(runs, || engine::grey_u8(strategy, side, side, given, black_box(&mut grey1), &mut work).unwrap());
        row(&format!("grey 8 bits, gamma {gamma}"), side, theirs, ours);
    }

    let wide: Vec<u16> = (0..n).map(|_| rng.bits() as u16).collect();
    let theirs = median(runs, || drop(black_box(autoscale::scale_u16_to_u8(&wide))));
    let ours = median(runs, || engine::stretch(&wide, black_box(&mut grey1)).unwrap());
    row("stretch, full 16 bits", side, theirs, ours);
    let narrow: Vec<u16> = wide.iter().map(|v| v % 256).collect();
    let theirs = median(runs, || drop(black_box(autoscale::scale_u16_to_u8(&narrow))));
    let ours = median(runs, || engine::stretch(&narrow, black_box(&mut grey1)).unwrap());
    row("stretch, bytes", side, theirs, ours);

    let bytes1: Vec<u8> = (0..n).map(|_| rng.bits() as u8).collect();
    let bytes2: Vec<u8> = (0..n).map(|_| rng.bits() as u8).collect();
    let theirs = median(runs, || drop(black_box(synthetic_rgb::create_synthetic_rgb(&bytes1, &bytes2))));
    let ours = median(runs, || {
        engine::compose(SyntheticRgbMode::Default, AutoscaleStrategy::Default, &bytes1, &bytes2, black_box(&mut rgb)).unwrap()
    });
    row("composition, default", side, theirs, ours);
    let theirs = median(runs, || drop(black_box(synthetic_rgb::create_synthetic_rgb_suppressed(&bytes1, &bytes2))));
    let ours = median(runs, || {
        engine::compose(SyntheticRgbMode::Default, AutoscaleStrategy::Tamed, &bytes1, &bytes2, black_box(&mut rgb)).unwrap()
    });
    row("composition, suppressed", side, theirs, ours);

    for strategy in AutoscaleStrategy::ALL {
        let mut paint = || {
            let out = PictureOut { grey1: &mut grey1, grey2: &mut grey2, rgb: &mut rgb };
            engine::picture(choices(strategy), side, side, band(0), band(1), black_box(out), &mut work)
        };
        if let Err(refusal) = paint() {
            println!("| picture, {strategy:?} | {side} | | {refusal} | |");
            continue;
        }
        let ours = median(runs, || paint().unwrap());
        let theirs = median(runs, || drop(black_box(rust_picture(strategy, &rust))));
        row(&format!("picture, {strategy:?}"), side, theirs, ours);
    }
}

/// The calls of an archive before, by the names and types that they have here.
struct Before {
    grey_u8: GreyCall<u8>,
    grey_u16: GreyCall<u16>,
    picture: PictureCall,
}

type GreyCall<T> = unsafe extern "C" fn(u8, usize, usize, *const f64, usize, *const u8, usize, *mut T, usize, *mut f64, usize) -> u8;
type PictureCall = unsafe extern "C" fn(
    u8,
    u8,
    usize,
    usize,
    *const f64,
    usize,
    *const u8,
    usize,
    *const f64,
    usize,
    *const u8,
    usize,
    *mut u8,
    usize,
    *mut u8,
    usize,
    *mut u8,
    usize,
    *mut f64,
    usize,
) -> u8;

impl Before {
    fn load(path: &str) -> Before {
        extern "C" {
            fn dlopen(path: *const c_char, flags: c_int) -> *mut c_void;
            fn dlsym(library: *mut c_void, name: *const c_char) -> *mut c_void;
        }
        const RTLD_NOW: c_int = 2;
        let file = CString::new(path).unwrap();
        let library = unsafe { dlopen(file.as_ptr(), RTLD_NOW) };
        assert!(!library.is_null(), "{path} is no shared library");
        let call = |name: &CStr| {
            let found = unsafe { dlsym(library, name.as_ptr()) };
            assert!(!found.is_null(), "{path} has no {name:?}");
            found
        };
        // the header's types of these three, which have not moved since document 01's base
        unsafe {
            Before {
                grey_u8: std::mem::transmute::<*mut c_void, GreyCall<u8>>(call(c"quicklook_grey_u8")),
                grey_u16: std::mem::transmute::<*mut c_void, GreyCall<u16>>(call(c"quicklook_grey_u16")),
                picture: std::mem::transmute::<*mut c_void, PictureCall>(call(c"quicklook_picture")),
            }
        }
    }
}

/// One row: the medians of the Rust, the archive before and this one, each run once in every round.
fn before_row(what: &str, side: usize, mut theirs: impl FnMut(), mut before: impl FnMut(), mut after: impl FnMut()) {
    let rounds = if side > 2_000 { 7 } else { 21 };
    let mut taken = [(); 3].map(|()| Vec::new());
    for round in 0..=rounds {
        for (times, work) in taken.iter_mut().zip([&mut theirs as &mut dyn FnMut(), &mut before, &mut after]) {
            let start = Instant::now();
            work();
            if round > 0 {
                times.push(start.elapsed().as_secs_f64() * 1e3);
            }
        }
    }
    let [theirs, before, after] = taken.map(|mut times| {
        times.sort_by(f64::total_cmp);
        times[rounds / 2]
    });
    println!(
        "| {what} | {side} | {theirs:.2} | {before:.2} | {after:.2} | {:.2} | {:.2} | {:.2} |",
        before / theirs,
        after / theirs,
        after / before
    );
}

fn bench_before(side: usize, old: &Before) {
    let n = side * side;
    let mut rng = Rng::new(7);
    let scenes = [scene::sea(&mut rng, side, side), scene::sea(&mut rng, side, side)];
    let band = |k: usize| Band { db: &scenes[k].0, valid_mask: &scenes[k].1 };
    let rust = [0, 1].map(|k: usize| RustBand {
        db: Array2::from_shape_vec((side, side), scenes[k].0.clone()).unwrap(),
        mask: scenes[k].1.iter().map(|&m| m == 1).collect(),
    });
    let [db1, db2] = [0, 1].map(|k: usize| scenes[k].0.as_ptr());
    let [marks1, marks2] = [0, 1].map(|k: usize| scenes[k].1.as_ptr());
    // each archive has lists of its own, and both have the same
    let [mut grey1, mut was1, mut grey2, mut was2] = [(); 4].map(|()| vec![0u8; n]);
    let [mut rgb, mut was_rgb] = [(); 2].map(|()| vec![0u8; 3 * n]);
    let [mut grey16, mut was16] = [(); 2].map(|()| vec![0u16; n]);
    let [mut work, mut was_work] = [(); 2].map(|()| vec![0f64; 16_384]);
    for strategy in [AutoscaleStrategy::Default, AutoscaleStrategy::Clahe] {
        let code = strategy.code();
        before_row(
            &format!("grey 8 bits, {strategy:?}"),
            side,
            || drop(black_box(rust_grey(strategy, BitDepth::U8, &rust[0]))),
            || {
                let (out, work) = (black_box(was1.as_mut_ptr()), was_work.as_mut_ptr());
                assert_eq!(unsafe { (old.grey_u8)(code, side, side, db1, n, marks1, n, out, n, work, 16_384) }, 0);
            },
            || engine::grey_u8(strategy, side, side, band(0), black_box(&mut grey1), &mut work).unwrap(),
        );
        assert!(was1 == grey1);
        before_row(
            &format!("grey 16 bits, {strategy:?}"),
            side,
            || drop(black_box(rust_grey(strategy, BitDepth::U16, &rust[0]))),
            || {
                let (out, work) = (black_box(was16.as_mut_ptr()), was_work.as_mut_ptr());
                assert_eq!(unsafe { (old.grey_u16)(code, side, side, db1, n, marks1, n, out, n, work, 16_384) }, 0);
            },
            || engine::grey_u16(strategy, side, side, band(0), black_box(&mut grey16), &mut work).unwrap(),
        );
        assert!(was16 == grey16);
    }
    for strategy in AutoscaleStrategy::ALL {
        let code = strategy.code();
        before_row(
            &format!("picture, {strategy:?}"),
            side,
            || drop(black_box(rust_picture(strategy, &rust))),
            || {
                let (out1, out2, out, work) =
                    (was1.as_mut_ptr(), was2.as_mut_ptr(), black_box(was_rgb.as_mut_ptr()), was_work.as_mut_ptr());
                let reply = unsafe {
                    (old.picture)(code, 0, side, side, db1, n, marks1, n, db2, n, marks2, n, out1, n, out2, n, out, 3 * n, work, 16_384)
                };
                assert_eq!(reply, 0);
            },
            || {
                let out = PictureOut { grey1: &mut grey1, grey2: &mut grey2, rgb: &mut rgb };
                engine::picture(choices(strategy), side, side, band(0), band(1), black_box(out), &mut work).unwrap()
            },
        );
        assert!(was1 == grey1 && was2 == grey2 && was_rgb == rgb);
    }
}

/// n marks, nine in ten of them 1, in runs of 180 to 540 pixels with gaps of a ninth of that.
fn marks_in_runs(rng: &mut Rng, n: usize) -> Vec<u8> {
    let mut marks = Vec::with_capacity(n + 600);
    while marks.len() < n {
        let gap = 20 + rng.below(41);
        marks.resize(marks.len() + 9 * gap, 1);
        marks.resize(marks.len() + gap, 0);
    }
    marks.truncate(n);
    marks
}

/// The processor time of this thread so far, in milliseconds, as Linux counts it at its ticks.
fn processor_ms() -> f64 {
    let stat = std::fs::read_to_string("/proc/thread-self/schedstat").unwrap();
    stat.split_whitespace().next().unwrap().parse::<f64>().unwrap() / 1e6
}

/// One row: the Rust's median of three runs, the archive's median and least of nine.
fn marks_row(alone: bool, what: &str, kind: &str, theirs: impl FnMut(), mut ours: impl FnMut()) {
    if alone {
        ours();
        let mut ours: Vec<f64> = (0..9)
            .map(|_| {
                let start = processor_ms();
                ours();
                processor_ms() - start
            })
            .collect();
        ours.sort_by(f64::total_cmp);
        println!("| {what} | {kind} | | {:.1} | {:.1} | |", ours[4], ours[0]);
        return;
    }
    let ours = times(9, ours);
    let theirs = median(3, theirs);
    println!("| {what} | {kind} | {theirs:.1} | {:.1} | {:.1} | {:.2} |", ours[4], ours[0], ours[4] / theirs);
}

fn bench_marks(side: usize, alone: bool) {
    let n = side * side;
    let mut rng = Rng::new(7);
    let db = [scene::sea(&mut rng, side, side).0, scene::sea(&mut rng, side, side).0];
    let (mut grey1, mut grey2, mut rgb) = (vec![0u8; n], vec![0u8; n], vec![0u8; 3 * n]);
    let mut grey16 = vec![0u16; n];
    let mut work = vec![0f64; 16_384];
    for kind in ["all valid", "runs", "random"] {
        let marks = [0, 1].map(|_| match kind {
            "all valid" => vec![1u8; n],
            "runs" => marks_in_runs(&mut rng, n),
            _ => (0..n).map(|_| rng.once_in(2) as u8).collect(),
        });
        let band = |k: usize| Band { db: &db[k], valid_mask: &marks[k] };
        let rust = [0, 1].map(|k: usize| RustBand {
            db: Array2::from_shape_vec((side, side), db[k].clone()).unwrap(),
            mask: marks[k].iter().map(|&m| m == 1).collect(),
        });
        let strategy = AutoscaleStrategy::Default;
        marks_row(
            alone,
            "grey 8 bits, Default",
            kind,
            || drop(black_box(rust_grey(strategy, BitDepth::U8, &rust[0]))),
            || engine::grey_u8(strategy, side, side, band(0), black_box(&mut grey1), &mut work).unwrap(),
        );
        marks_row(
            alone,
            "grey 16 bits, Default",
            kind,
            || drop(black_box(rust_grey(strategy, BitDepth::U16, &rust[0]))),
            || engine::grey_u16(strategy, side, side, band(0), black_box(&mut grey16), &mut work).unwrap(),
        );
        for strategy in [AutoscaleStrategy::Default, AutoscaleStrategy::Tamed] {
            marks_row(
                alone,
                &format!("picture, {strategy:?}"),
                kind,
                || drop(black_box(rust_picture(strategy, &rust))),
                || {
                    let out = PictureOut { grey1: &mut grey1, grey2: &mut grey2, rgb: &mut rgb };
                    engine::picture(choices(strategy), side, side, band(0), band(1), black_box(out), &mut work).unwrap()
                },
            );
        }
    }
}

/// The most memory this process has had, in MiB.
fn peak_mib() -> Option<f64> {
    let status = std::fs::read_to_string("/proc/self/status").ok()?;
    let line = status.lines().find(|line| line.starts_with("VmHWM:"))?;
    line.split_whitespace().nth(1)?.parse::<f64>().ok().map(|kib| kib / 1024.0)
}

fn main() {
    let sides: Vec<usize> = std::env::args().skip(1).filter_map(|a| a.parse().ok()).collect();
    if std::env::args().nth(1).is_some_and(|a| a == "marks") {
        let sides = if sides.is_empty() { vec![4_096] } else { sides };
        println!("| call | marks | Rust, ms | archive, ms | least | ratio |\n|---|---|---|---|---|---|");
        let alone = std::env::args().any(|a| a == "alone");
        sides.into_iter().for_each(|side| bench_marks(side, alone));
        return;
    }
    if std::env::args().nth(1).is_some_and(|a| a == "before") {
        let old = Before::load(&std::env::args().nth(2).expect("bench before ARCHIVE.so [SIDE ..]"));
        let sides = if sides.is_empty() { vec![4_096] } else { sides };
        println!(
            "| call | side | Rust, ms | before, ms | after, ms | before / Rust | after / Rust | after / before |\n|---|---|---|---|---|---|---|---|"
        );
        sides.into_iter().for_each(|side| bench_before(side, &old));
        return;
    }
    let sides = if sides.is_empty() { vec![512, 1_024, 2_048, 4_096] } else { sides };
    println!("| call | side | Rust, ms | archive, ms | ratio |\n|---|---|---|---|---|");
    for side in sides {
        bench(side);
    }
    if let Some(peak) = peak_mib() {
        println!("\nPeak memory of the process, both sides' inputs and outputs included: {peak:.0} MiB");
    }
}
