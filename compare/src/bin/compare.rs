//! compare SCENES SEED [large]: the archive against the Rust originals on SCENES scenes, every result, refusal and untouched element.
//! With `large` it goes on to a 4,096 by 4,096 scene in every strategy. The last line is 'N passed, M failed'.

use compare::{copol_of, mode_of, operation_of, scene, scene::Scene, strategy_of};
use engine::{AutoscaleStrategy, Band, CoPol, PictureChoices, PictureOut, PolarizationOperation, SyntheticRgbMode, Window};
use oracle::{Lent, Sides};
use random::Rng;

/// Comparisons made and failed.
struct Tally {
    passed: u64,
    failed: u64,
}

impl Tally {
    fn check(&mut self, right: bool, what: impl Fn() -> String) {
        if right {
            self.passed += 1;
        } else {
            self.failed += 1;
            if self.failed <= 20 {
                eprintln!("differs: {}", what());
            }
        }
    }
}

/// Equal as numbers; all NaNs count as equal.
fn same(a: f64, b: f64) -> bool {
    a == b || (a.is_nan() && b.is_nan())
}

fn same32(a: f32, b: f32) -> bool {
    a.to_bits() == b.to_bits() || (a.is_nan() && b.is_nan())
}

/// A lent list before the call: a pattern that no result is likely to leave.
fn lent<T: Copy>(n: usize, fill: impl Fn(usize) -> T) -> Vec<T> {
    (0..n).map(fill).collect()
}

fn bytes(n: usize) -> Vec<u8> {
    lent(n, |i| (i * 37 + 11) as u8)
}

fn words(n: usize) -> Vec<u16> {
    lent(n, |i| (i * 4099 + 7) as u16)
}

fn floats(n: usize) -> Vec<f64> {
    lent(n, |i| i as f64 + 0.25)
}

/// What is owed of a lent list: the oracle's elements if done, else what stood there.
fn owed<T: Clone>(answer: &Result<Vec<T>, u8>, before: &[T]) -> Vec<T> {
    answer.clone().unwrap_or_else(|_| before.to_vec())
}

fn number<T>(answer: &Result<T, u8>) -> u8 {
    answer.as_ref().err().copied().unwrap_or(0)
}

fn engine_number<T>(answer: &engine::Answer<T>) -> u8 {
    answer.as_ref().err().map_or(0, |refusal| refusal.0)
}

fn bands(scene: &Scene) -> ([Band<'_>; 2], [oracle::Band<'_>; 2]) {
    let band = |k: usize| Band { db: &scene.db[k], valid_mask: &scene.marks[k] };
    let other = |k: usize| oracle::Band { db: &scene.db[k], marks: &scene.marks[k] };
    ([band(0), band(1)], [other(0), other(1)])
}

fn describe(scene: &Scene) -> String {
    format!(
        "{} x {}, lent {:?}, marks {:?}, dB {:x?}",
        scene.rows,
        scene.cols,
        scene.lent,
        scene.marks[0],
        scene.db[0].iter().take(8).map(|v| v.to_bits()).collect::<Vec<_>>()
    )
}

fn statistics(tally: &mut Tally, scene: &Scene) {
    let (ours, theirs) = bands(scene);
    let sides = Sides { rows: scene.rows, cols: scene.cols };
    for k in 0..2 {
        let mut whole = [77; engine::WHOLE];
        let mut found = [0.5; 15];
        let answer = engine::codes::statistics(scene.rows, scene.cols, ours[k], &mut whole, &mut found);
        let right = match oracle::statistics(sides, theirs[k]) {
            Ok(s) => answer.is_ok() && whole[0] == s.valid_count as u64 && found.iter().zip(s.floats).all(|(&a, b)| same(a, b)),
            Err(n) => engine_number(&answer) == n && whole == [77; engine::WHOLE] && found == [0.5; 15],
        };
        tally.check(right, || format!("statistics of {}", describe(scene)));
    }
}

fn windows(tally: &mut Tally, scene: &Scene) {
    let (ours, theirs) = bands(scene);
    let sides = Sides { rows: scene.rows, cols: scene.cols };
    for mine in AutoscaleStrategy::ALL {
        let other = strategy_of(mine);
        let answer = engine::window(mine, scene.rows, scene.cols, ours[0]);
        let right = match oracle::window(other, sides, theirs[0]) {
            Ok(None) => answer == Ok(Window::Blank),
            Ok(Some(w)) => match answer {
                Ok(Window::Window { low, high, range, gamma }) => {
                    same(low, w.low) && same(high, w.high) && same(range, w.range) && same(gamma, w.gamma)
                }
                _ => false,
            },
            Err(n) => engine_number(&answer) == n,
        };
        tally.check(right, || format!("window {mine:?} of {}", describe(scene)));
    }
}

fn picture_windows(tally: &mut Tally, scene: &Scene) {
    let (ours, theirs) = bands(scene);
    let sides = Sides { rows: scene.rows, cols: scene.cols };
    for mine in AutoscaleStrategy::ALL {
        for copol in CoPol::ALL {
            let (mut blank, mut found) = ([9; 2], [0.5; 8]);
            let (strategy, code) = (mine.code(), copol.code());
            let answer = engine::codes::picture_windows(strategy, code, scene.rows, scene.cols, ours[0], ours[1], &mut blank, &mut found);
            let right = match oracle::picture_windows(strategy_of(mine), copol_of(copol), sides, theirs[0], theirs[1]) {
                Ok(windows) => {
                    let floats = windows.map(|w| w.map_or([0.0; 4], |w| [w.low, w.high, w.range, w.gamma]));
                    answer.is_ok()
                        && blank == windows.map(|w| w.is_none() as u8)
                        && found.iter().zip(floats.concat()).all(|(&a, b)| same(a, b))
                }
                Err(n) => engine_number(&answer) == n && blank == [9; 2] && found == [0.5; 8],
            };
            tally.check(right, || format!("windows {mine:?} of a picture, co-pol {}, of {}", copol.name(), describe(scene)));
        }
    }
}

fn greys(tally: &mut Tally, scene: &Scene) {
    let (ours, theirs) = bands(scene);
    let sides = Sides { rows: scene.rows, cols: scene.cols };
    for mine in AutoscaleStrategy::ALL {
        let other = strategy_of(mine);
        let before_work = floats(scene.lent[3]);

        let before = bytes(scene.lent[0]);
        let (mut out, mut work) = (before.clone(), before_work.clone());
        let answer = engine::grey_u8(mine, scene.rows, scene.cols, ours[0], &mut out, &mut work);
        let expected = oracle::grey_u8(other, sides, theirs[0], before.len(), work.len());
        let kept = work == before_work || (mine == AutoscaleStrategy::Clahe && answer.is_ok());
        let right = engine_number(&answer) == number(&expected) && out == owed(&expected, &before) && kept;
        tally.check(right, || format!("grey 8 {mine:?} of {}", describe(scene)));

        let before = words(scene.lent[0]);
        let (mut out, mut work) = (before.clone(), before_work.clone());
        let answer = engine::grey_u16(mine, scene.rows, scene.cols, ours[0], &mut out, &mut work);
        let expected = oracle::grey_u16(other, sides, theirs[0], before.len(), work.len());
        let kept = work == before_work || (mine == AutoscaleStrategy::Clahe && answer.is_ok());
        let right = engine_number(&answer) == number(&expected) && out == owed(&expected, &before) && kept;
        tally.check(right, || format!("grey 16 {mine:?} of {}", describe(scene)));
    }
}

struct Painted {
    number: u8,
    grey1: Vec<u8>,
    grey2: Vec<u8>,
    rgb: Vec<u8>,
    work: Vec<f64>,
}

impl Painted {
    /// The same answer and bytes.
    fn is(&self, other: &Painted) -> bool {
        self.number == other.number && self.grey1 == other.grey1 && self.grey2 == other.grey2 && self.rgb == other.rgb
    }
}

/// What a picture call answers, and what it leaves of the memory that the scene lends.
fn painted(scene: &Scene, call: impl FnOnce([Band; 2], PictureOut, &mut [f64]) -> engine::Answer<()>) -> Painted {
    let (ours, _) = bands(scene);
    let [grey1, grey2, rgb, work] = scene.lent;
    let mut p = Painted { number: 0, grey1: bytes(grey1), grey2: bytes(grey2), rgb: bytes(rgb), work: floats(work) };
    let out = PictureOut { grey1: &mut p.grey1, grey2: &mut p.grey2, rgb: &mut p.rgb };
    let answer = call(ours, out, &mut p.work);
    p.number = engine_number(&answer);
    p
}

fn paint(choices: PictureChoices, scene: &Scene) -> Painted {
    painted(scene, |[band1, band2], out, work| engine::picture(choices, scene.rows, scene.cols, band1, band2, out, work))
}

/// By the call that is not told its co-pol band.
fn paint_untold(strategy: AutoscaleStrategy, mode: SyntheticRgbMode, scene: &Scene) -> Painted {
    let (strategy, mode, rows, cols) = (strategy.code(), mode.code(), scene.rows, scene.cols);
    painted(scene, |[band1, band2], out, work| engine::codes::picture(strategy, mode, rows, cols, band1, band2, out, work))
}

fn pictures(tally: &mut Tally, rng: &mut Rng, scene: &Scene) {
    let (_, theirs) = bands(scene);
    let sides = Sides { rows: scene.rows, cols: scene.cols };
    let [grey1, grey2, rgb, work] = scene.lent;
    for strategy in AutoscaleStrategy::ALL {
        let mode = rng.one_of(&SyntheticRgbMode::ALL);
        for copol in CoPol::ALL {
            let (choices, lent) = (PictureChoices { strategy, mode, copol }, Lent { grey1, grey2, rgb, work });
            let p = paint(choices, scene);
            let kept = p.work == floats(work) || (strategy == AutoscaleStrategy::Clahe && p.number == 0);
            let answer = oracle::picture(strategy_of(strategy), mode_of(mode), copol_of(copol), sides, theirs[0], theirs[1], lent);
            let right = match answer {
                Ok(e) => p.number == 0 && p.grey1 == e.grey1 && p.grey2 == e.grey2 && p.rgb == e.rgb,
                Err(n) => p.number == n && p.grey1 == bytes(grey1) && p.grey2 == bytes(grey2) && p.rgb == bytes(rgb),
            };
            tally.check(right && kept, || format!("picture {choices:?} of {}", describe(scene)));
            demand_3(tally, rng, scene, choices, &p);
            choice(tally, scene, choices, &p);
        }
    }
}

/// F-2 on the built calls: bands and choice swapped, the greys swap; the call that is not told has band 1.
fn choice(tally: &mut Tally, scene: &Scene, choices: PictureChoices, p: &Painted) {
    let PictureChoices { strategy, mode, copol } = choices;
    let other = PictureChoices { copol: if copol == CoPol::Band1 { CoPol::Band2 } else { CoPol::Band1 }, ..choices };
    let ([db1, db2], [marks1, marks2], [grey1, grey2, rgb, work]) = (scene.db.clone(), scene.marks.clone(), scene.lent);
    let q = paint(other, &Scene { db: [db2, db1], marks: [marks2, marks1], lent: [grey2, grey1, rgb, work], ..*scene });
    let right = q.number == p.number && q.grey1 == p.grey2 && q.grey2 == p.grey1;
    tally.check(right, || format!("swapped picture {choices:?} of {}", describe(scene)));
    if copol == CoPol::Band1 {
        tally.check(paint_untold(strategy, mode, scene).is(p), || format!("untold picture {choices:?} of {}", describe(scene)));
    }
}

/// Demand 3 on the built calls: altered under 0 marks, reordered, and ranked.
fn demand_3(tally: &mut Tally, rng: &mut Rng, scene: &Scene, choices: PictureChoices, p: &Painted) {
    let strategy = choices.strategy;
    let mut altered = Scene { rows: scene.rows, cols: scene.cols, db: scene.db.clone(), marks: scene.marks.clone(), lent: scene.lent };
    for k in 0..2 {
        scene::garbage(rng, &mut altered.db[k], &scene.marks[k]);
    }
    tally.check(paint(choices, &altered).is(p), || format!("altered picture {choices:?} of {}", describe(scene)));

    let len = scene.db[0].len();
    let one_length = [scene.db[1].len(), scene.marks[0].len(), scene.marks[1].len()].iter().all(|&l| l == len);
    if one_length && strategy != AutoscaleStrategy::Adaptive && strategy != AutoscaleStrategy::Clahe {
        let places = scene::order(rng, len);
        let reordered = Scene {
            rows: scene.rows,
            cols: scene.cols,
            db: [scene::moved(&places, &scene.db[0]), scene::moved(&places, &scene.db[1])],
            marks: [scene::moved(&places, &scene.marks[0]), scene::moved(&places, &scene.marks[1])],
            lent: scene.lent,
        };
        let q = paint(choices, &reordered);
        let right = q.number == p.number
            && (p.number != 0
                || (q.grey1 == scene::moved(&places, &p.grey1)
                    && q.grey2 == scene::moved(&places, &p.grey2)
                    && q.rgb == scene::moved_triples(&places, &p.rgb)));
        tally.check(right, || format!("reordered picture {choices:?} of {}", describe(scene)));
    }

    if p.number == 0 && strategy != AutoscaleStrategy::Clahe {
        for (k, greys) in [&p.grey1, &p.grey2].into_iter().enumerate() {
            let mut valid: Vec<usize> = (0..len).filter(|&i| scene.marks[k][i] == 1).collect();
            valid.sort_by(|&i, &j| scene.db[k][i].partial_cmp(&scene.db[k][j]).unwrap());
            let right = valid.windows(2).all(|pair| greys[pair[0]] <= greys[pair[1]]);
            tally.check(right, || format!("grey order {choices:?} of {}", describe(scene)));
        }
    }
}

/// The calls on whole lists.
fn lists(tally: &mut Tally, rng: &mut Rng) {
    let n = rng.one_of(&[0, 1, 2, 3, 5, 17, 64, 300]);
    let near = |rng: &mut Rng| if rng.once_in(6) { rng.below(n + 3) } else { n };

    let top = rng.one_of(&[1, 2, 255, 256, 4_096, 65_535]);
    let data: Vec<u16> = (0..n).map(|_| rng.below(top + 1) as u16).collect();
    let before = bytes(near(rng));
    let mut out = before.clone();
    let answer = engine::stretch(&data, &mut out);
    let expected = oracle::stretch(&data, before.len());
    tally.check(engine_number(&answer) == number(&expected) && out == owed(&expected, &before), || format!("stretch of {data:?}"));

    let top = rng.one_of(&[4, 45, 256]);
    let (len1, len2) = (n, near(rng));
    let band1: Vec<u8> = (0..len1).map(|_| rng.below(top) as u8).collect();
    let band2: Vec<u8> = (0..len2).map(|_| rng.below(top) as u8).collect();
    let before = bytes(if rng.once_in(8) { 3 * n + 1 } else { 3 * n });
    for mine in AutoscaleStrategy::ALL {
        let other = strategy_of(mine);
        let mode = rng.one_of(&SyntheticRgbMode::ALL);
        let mut out = before.clone();
        let answer = engine::compose(mode, mine, &band1, &band2, &mut out);
        let expected = oracle::composition(mode_of(mode), other, &band1, &band2, before.len());
        tally.check(engine_number(&answer) == number(&expected) && out == owed(&expected, &before), || {
            format!("composition {mine:?} of {band1:?} and {band2:?}")
        });
    }

    let edge = [
        0, 0x8000_0000, 0x2edb_e6ff, 0x2edb_e700, 0xaedb_e6ff, 0xaedb_e700, 0x3727_c5ab, 0x3727_c5ac, 0x3727_c5ad, 0x7f80_0000,
        0xff80_0000, 0x7fc0_0000, 1, 0x8000_0001, 0x7f7f_ffff, 0x0080_0000,
    ];
    let list = |rng: &mut Rng, len: usize| -> Vec<f32> {
        (0..len).map(|_| f32::from_bits(if rng.once_in(2) { rng.one_of(&edge) } else { rng.bits() as u32 })).collect()
    };
    let (a, len) = (list(rng, n), near(rng));
    let b = list(rng, len);
    let before: Vec<f32> = lent(near(rng), |i| i as f32 + 0.5);
    for operation in PolarizationOperation::ALL {
        let mut out = before.clone();
        let answer = engine::operate(operation, &a, &b, &mut out);
        let expected = oracle::arithmetic(operation_of(operation), &a, &b, before.len());
        let right = engine_number(&answer) == number(&expected) && out.iter().zip(owed(&expected, &before)).all(|(&x, y)| same32(x, y));
        tally.check(right, || format!("{operation:?} of {a:?} and {b:?}"));
    }
    let before = bytes(near(rng));
    let mut out = before.clone();
    let answer = engine::marks(&a, &mut out);
    let expected = oracle::marks(&a, before.len());
    tally.check(engine_number(&answer) == number(&expected) && out == owed(&expected, &before), || format!("marks of {a:?}"));

    let (rows, cols) = (rng.below(9), if rng.once_in(20) { 4_097 } else { rng.below(9) });
    let sides = Sides { rows, cols };
    let extra = rng.once_in(8) as usize;
    let data = bytes(rows * cols + extra);
    let before = bytes(rows.max(cols).pow(2).min(1 << 20) + rng.once_in(8) as usize);
    let mut out = before.clone();
    let answer = engine::pad_u8(rows, cols, &data, &mut out);
    let expected = oracle::padding_u8(sides, &data, before.len());
    tally.check(engine_number(&answer) == number(&expected) && out == owed(&expected, &before), || format!("padding 8 of {rows} x {cols}"));
    let data = words(rows * cols + extra);
    let before = words(before.len());
    let mut out = before.clone();
    let answer = engine::pad_u16(rows, cols, &data, &mut out);
    let expected = oracle::padding_u16(sides, &data, before.len());
    tally
        .check(engine_number(&answer) == number(&expected) && out == owed(&expected, &before), || format!("padding 16 of {rows} x {cols}"));
}

/// Codes that name nothing: 255, and nothing altered.
fn codes(tally: &mut Tally) {
    let (db, marks) = ([0.0, 20.0], [1, 1]);
    let band = Band { db: &db, valid_mask: &marks };
    for strategy in 7..=255u8 {
        let (mut blank, mut found) = (9, [0.5; 4]);
        let answer = engine::codes::window(strategy, 1, 2, band, &mut blank, &mut found);
        tally.check(engine_number(&answer) == 255 && blank == 9 && found == [0.5; 4], || format!("window code {strategy}"));
        let mut out = bytes(2);
        let answer = engine::codes::grey_u8(strategy, 1, 2, band, &mut out, &mut []);
        tally.check(engine_number(&answer) == 255 && out == bytes(2), || format!("grey 8 code {strategy}"));
        let mut out = words(2);
        let answer = engine::codes::grey_u16(strategy, 1, 2, band, &mut out, &mut []);
        tally.check(engine_number(&answer) == 255 && out == words(2), || format!("grey 16 code {strategy}"));
        let mut out = bytes(6);
        let answer = engine::codes::compose(0, strategy, &[1, 2], &[3, 4], &mut out);
        tally.check(engine_number(&answer) == 255 && out == bytes(6), || format!("composition code {strategy}"));
    }
    for mode in 4..=255u8 {
        let mut out = bytes(6);
        let answer = engine::codes::compose(mode, 6, &[1, 2], &[3, 4], &mut out);
        tally.check(engine_number(&answer) == 255 && out == bytes(6), || format!("composition mode {mode}"));
    }
    // one code that names nothing beside others that do; every co-pol code; all three
    let strategies = (7..=255u8).map(|code| (code, 0, 1));
    let modes = (4..=255u8).map(|code| (5, code, 2));
    let copols = (0..=255u8).filter(|code| !(1..=2).contains(code)).flat_map(|code| [(5, 0, code), (7, 4, code)]);
    for (strategy, mode, copol) in strategies.chain(modes).chain(copols) {
        picture_codes(tally, engine::codes::PictureCodes { strategy, mode, copol }, band);
    }
}

/// The calls of a picture to which these codes name nothing: 255, also where the sides are refused, and nothing altered.
fn picture_codes(tally: &mut Tally, choices: engine::codes::PictureCodes, band: Band) {
    let engine::codes::PictureCodes { strategy, mode, copol } = choices;
    for rows in [1, 4_097] {
        let mut refused = |call: &dyn Fn(PictureOut) -> engine::Answer<()>| {
            let (mut grey1, mut grey2, mut rgb) = (bytes(2), bytes(2), bytes(6));
            let answer = call(PictureOut { grey1: &mut grey1, grey2: &mut grey2, rgb: &mut rgb });
            tally.check(engine_number(&answer) == 255 && grey1 == bytes(2) && grey2 == bytes(2) && rgb == bytes(6), || {
                format!("picture codes {strategy}, {mode}, {copol} of {rows} rows")
            });
        };
        refused(&|out| engine::codes::picture_copol(choices, rows, 2, band, band, out, &mut []));
        if strategy > 6 || mode > 3 {
            refused(&|out| engine::codes::picture(strategy, mode, rows, 2, band, band, out, &mut []));
        }
        if strategy > 6 || !(1..=2).contains(&copol) {
            let (mut blank, mut found) = ([9; 2], [0.5; 8]);
            let answer = engine::codes::picture_windows(strategy, copol, rows, 2, band, band, &mut blank, &mut found);
            let right = engine_number(&answer) == 255 && blank == [9; 2] && found == [0.5; 8];
            tally.check(right, || format!("windows codes {strategy}, {copol} of {rows} rows"));
        }
    }
}

/// A scene of 16,777,216 pixels in every strategy, and lists one element longer.
fn large(tally: &mut Tally, rng: &mut Rng) {
    let (rows, cols) = (4_096, 4_096);
    let n = rows * cols;
    let (db1, marks1) = scene::sea(rng, rows, cols);
    let (db2, marks2) = scene::sea(rng, rows, cols);
    let scene = Scene { rows, cols, db: [db1, db2], marks: [marks1, marks2], lent: [n, n, 3 * n, 16_384] };
    statistics(tally, &scene);
    windows(tally, &scene);
    picture_windows(tally, &scene);
    greys(tally, &scene);
    pictures(tally, rng, &scene);
    let long = vec![1u16; n + 1];
    let mut out = vec![9u8; n + 1];
    tally.check(engine_number(&engine::stretch(&long, &mut out)) == 2 && out.iter().all(|&v| v == 9), || "a longer list".into());
    let long = vec![1f32; n + 1];
    tally.check(engine_number(&engine::marks(&long, &mut out)) == 2 && out.iter().all(|&v| v == 9), || "a longer list".into());
}

fn main() {
    let mut arguments = std::env::args().skip(1);
    let scenes: u64 = arguments.next().and_then(|a| a.parse().ok()).unwrap_or(1_000);
    let seed: u64 = arguments.next().and_then(|a| a.parse().ok()).unwrap_or(1);
    let with_large = arguments.next().is_some_and(|a| a == "large");
    let mut rng = Rng::new(seed);
    let mut tally = Tally { passed: 0, failed: 0 };
    codes(&mut tally);
    for k in 0..scenes {
        let mut scene = scene::sound(&mut rng);
        if k % 3 == 2 {
            scene::damage(&mut rng, &mut scene);
        }
        statistics(&mut tally, &scene);
        windows(&mut tally, &scene);
        picture_windows(&mut tally, &scene);
        greys(&mut tally, &scene);
        pictures(&mut tally, &mut rng, &scene);
        lists(&mut tally, &mut rng);
    }
    if with_large {
        large(&mut tally, &mut rng);
    }
    println!("compare: {scenes} scenes, seed {seed}{}", if with_large { ", and 4,096 by 4,096" } else { "" });
    println!("{} passed, {} failed", tally.passed, tally.failed);
    std::process::exit((tally.failed > 0) as i32);
}
