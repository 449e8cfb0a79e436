//! The commands: read, lend, write.

use crate::arguments::{BandFiles, Bits, Command, Form, Marks, Painting, PartOf, Reading, SceneFiles};
use crate::demo;
use crate::elements::Kind;
use crate::explain;
use crate::json;
use crate::memory::{self, Plain};
use crate::origin::{self, Items, Origin, Painted};
use crate::outputs;
use crate::parts::Parts;
use crate::progress::{note, step};
use crate::said::Role;
use crate::scene::{self, Scene, Wanted, judge_limit, same_sides, tell_elsewhere};
use crate::sheet::{self, Picture, Sheet};
use crate::source::{List, Name, Source};
use crate::threads;
use crate::trouble::{Outcome, Trouble};
use crate::view;
use engine::{AutoscaleStrategy, PictureChoices, PictureOut, PolarizationOperation, Statistics, SyntheticRgbMode, Window};
use serde::{Serialize, Serializer};
use std::ffi::{OsStr, OsString};
use std::fs::File;
use std::io::Write;
use std::mem::ManuallyDrop;
use std::os::unix::io::FromRawFd;
use std::path::{Path, PathBuf};
use std::sync::atomic::{AtomicBool, Ordering::SeqCst};
use wire::{Georeference, Part};

pub fn run(command: Command) -> Outcome<()> {
    match command {
        Command::Marks { intensities, part, out, form } => marks(&intensities, part, &out, form),
        Command::Read { band, out, marks_out, force } => read(&band.files(), &band.reading, [Some(&out), marks_out.as_ref()], force),
        Command::Stats { band, json } => stats(&band, json),
        Command::Histogram { band, json } => histogram(&band, json),
        Command::Window { band, strategy, json } => window(&band, strategy.into(), json),
        Command::Grey { band, strategy, depth, out, form } => grey(&band, strategy.into(), depth, &out, form),
        Command::Picture { scene, painting, out, grey1, grey2, form } => picture(&scene, painting.into(), [Some(out), grey1, grey2], form),
        Command::Compose { band1, band2, part, painting: Painting { strategy, mode }, out, form } => {
            compose([&band1, &band2], part, strategy.into(), mode.into(), &out, form)
        }
        Command::Stretch { grey, part, out, form } => stretch(&grey, part, &out, form),
        Command::Pad { grey, part, out, form } => pad(&grey, part, &out, form),
        Command::Op { operation, a, b, part, out, form } => operate(operation.into(), [&a, &b], part, &out, form),
        Command::View { scene, painting, title, out, force } => view::run(&scene, painting.into(), title, (&out, force)),
        Command::Demo { folder, side, force } => demo::run(&folder, side, force),
    }
}

/// A raster of a command without marks, judged by its header.
struct Single {
    source: Source,
    part: Part,
    georeference: Georeference,
    origin: Origin,
}

impl Single {
    /// The raster must not be one of the outputs.
    fn open(name: &OsStr, of: PartOf, role: Role, judge_sides: fn(&Source, Part) -> Outcome<()>, outs: &[PathBuf]) -> Outcome<Single> {
        let PartOf { crop, map } = of;
        let source = Source::open(&Name::new(name, map), 1)?;
        let part = source.part(crop)?;
        judge_sides(&source, part)?;
        source.judge(role)?;
        source.notes.iter().for_each(|text| note(&format!("{}: GDAL says: {text}", source.shown)));
        let georeference = source.georeference.moved(part.row as f64, part.col as f64);
        let origin = Origin { inputs: source.inputs.clone(), crop };
        outputs::spare(outs, origin.files())?;
        Ok(Single { source, part, georeference, origin })
    }

    /// Two rasters of the same sides; the first one's georeference is the result's.
    fn open_two(names: [&OsStr; 2], of: PartOf, role: Role, outs: &[PathBuf]) -> Outcome<[Single; 2]> {
        let open = |name: &OsStr| Single::open(name, of, role, judge_length, outs);
        let (a, b) = threads::join(|| open(names[0]), || open(names[1]));
        let (mut a, mut b) = (a?, b?);
        same_sides((&a.source, a.part), (&b.source, b.part))?;
        tell_elsewhere(&a.source, &b.source);
        a.origin.inputs.append(&mut b.origin.inputs);
        Ok([a, b])
    }

    /// Elements as f32, where each is one.
    fn f32s(&self) -> Outcome<List<f32>> {
        let take = |v: f64| if f64::from(v as f32) == v || v.is_nan() { Some(v as f32) } else { None };
        self.source.list(self.part, take).map_err(|failed| failed.trouble(&self.source, "is a number that no f32 holds"))
    }

    fn u8s(&self) -> Outcome<List<u8>> {
        if self.source.kind() != Some(Kind::U8) {
            return Err(Trouble::named(&self.source.shown, "grey of 8 bits is wanted here"));
        }
        self.source.list(self.part, |v| Some(v as u8)).map_err(|failed| failed.trouble(&self.source, ""))
    }

    fn u16s(&self) -> Outcome<List<u16>> {
        self.source.list(self.part, |v| Some(v as u16)).map_err(|failed| failed.trouble(&self.source, ""))
    }

    /// Marks by the raster's own mask (nodata, a mask band, alpha), where it has one.
    fn own_marks(&self) -> Outcome<Option<Vec<u8>>> {
        let mask = self.source.mask(self.part)?;
        Ok(mask.map(|mask| mask.into_iter().map(|byte| u8::from(byte != 0)).collect()))
    }

    fn write(&self, command: &str, out: &Path, picture: Picture, marks: Option<&[u8]>, form: Form) -> Outcome<()> {
        let origin = origin::items(command, &self.origin)?;
        let Part { rows, cols, .. } = self.part;
        let sheet = Sheet { rows, cols, picture, marks, georeference: &self.georeference, origin: &origin, form };
        step("writing", || finish(sheet::write(out, &sheet)?, &self.origin))
    }
}

/// Names the outputs of inputs that are still as they were read.
fn finish(parts: Parts, origin: &Origin) -> Outcome<()> {
    origin.unchanged()?;
    sheet::finish(parts)
}

/// Refusal 2 from the header alone: the calls without sides take a list of this length at most.
fn judge_length(source: &Source, part: Part) -> Outcome<()> {
    let Part { rows, cols, .. } = part;
    if rows.checked_mul(cols).is_some_and(|n| n <= engine::LONGEST) {
        return Ok(());
    }
    let name = &source.shown;
    Err(Trouble::Refused(
        2,
        format!(
            "{name} has {rows} rows of {cols}, and the list may have 16,777,216 elements; read a part of it with --crop ROW,COL,ROWS,COLS"
        ),
    ))
}

/// Valid in both, where either says.
fn both(one: Option<Vec<u8>>, two: Option<Vec<u8>>) -> Option<Vec<u8>> {
    match (one, two) {
        (Some(one), Some(two)) => Some(one.iter().zip(two).map(|(a, b)| a & b).collect()),
        (one, two) => one.or(two),
    }
}

/// Room for a picture of `each` elements a pixel. A side above 4,096 is refused before, so no room is made for it.
pub fn room<T: Plain>(rows: usize, cols: usize, each: usize) -> Outcome<Vec<T>> {
    if rows > engine::LONGEST_SIDE || cols > engine::LONGEST_SIDE { Ok(Vec::new()) } else { memory::zeros(rows * cols * each, "a picture") }
}

fn marks(intensities: &OsStr, part: PartOf, out: &Path, form: Form) -> Outcome<()> {
    let outs = sheet::plan(&[out], false, form)?;
    let single = Single::open(intensities, part, Role::Intensities, judge_length, &outs)?;
    let list = step("reading", || single.f32s())?;
    let mut marks = memory::zeros(list.elements().len(), "marks")?;
    step("marks", || engine::marks(list.elements(), &mut marks))?;
    if let Some(own) = single.own_marks()? {
        let more = marks.iter().zip(&own).filter(|(mark, own)| **mark > **own).count();
        if more > 0 {
            note(&format!("{}: {more} pixels more are invalid, by the raster's own nodata, mask or alpha", single.source.shown));
            marks.iter_mut().zip(own).for_each(|(mark, own)| *mark &= own);
        }
    }
    single.write("marks", out, Picture::Marks(&marks), None, form)
}

/// The outputs are the decibels and the marks.
fn read(files: &[OsString], reading: &Reading, outs: [Option<&PathBuf>; 2], force: bool) -> Outcome<()> {
    const NONE: &Georeference = &Georeference { transform: None, crs: None, gcps: Vec::new(), gcp_crs: None, area_or_point: None };
    const NOTHING: &Items = &Vec::new();
    let paths: Vec<&Path> = outs.into_iter().flatten().map(PathBuf::as_path).collect();
    if let Some(path) = paths.iter().find(|path| path.extension() != Some(OsStr::new("npy"))) {
        return Err(Trouble::Usage(format!("{}: name an output that ends in .npy", path.display())));
    }
    let form = Form { cog: false, world: false, force };
    let outs_all = sheet::plan(&paths, true, form)?;
    let write = |path: Option<&PathBuf>, rows: usize, cols: usize, picture: Picture| match path {
        Some(path) => sheet::write(path, &Sheet { rows, cols, picture, marks: None, georeference: NONE, origin: NOTHING, form }),
        None => Ok(Parts::default()),
    };
    if files.len() == 1 && reading.marks != Some(Marks::Auto) {
        if outs[1].is_some() {
            return Err(Trouble::Usage("marks are needed for --marks-out: name a marks file, or give --marks auto".into()));
        }
        let of = PartOf { crop: reading.crop, map: reading.map };
        let single = Single::open(&files[0], of, Role::Decibels { as_decibels: reading.as_decibels }, judge_limit, &outs_all)?;
        let (db, scaled) = step("reading", || scene::decibels(&single.source, single.part, reading.scaling))?;
        scaled.iter().for_each(|text| note(text));
        return finish(write(outs[0], single.part.rows, single.part.cols, Picture::F64(db.elements()))?, &single.origin);
    }
    let scene = step("reading", || Scene::read(files, Wanted::One, reading, &outs_all))?;
    explain::first_mark(&scene).map_or(Ok(()), Err)?;
    let lists = scene.bands[0].band();
    let db = write(outs[0], scene.rows, scene.cols, Picture::F64(lists.db));
    let marks = write(outs[1], scene.rows, scene.cols, Picture::Marks(lists.valid_mask));
    finish(Parts::join([db, marks])?, &scene.origin)
}

/// What the JSON of a band begins with.
#[derive(Serialize)]
struct Head<'a> {
    file: &'a str,
    band: usize,
    marks: &'a str,
    rows: usize,
    cols: usize,
    #[serde(skip_serializing_if = "Option::is_none")]
    crop: Option<[usize; 4]>,
}

impl<'a> Head<'a> {
    fn of(scene: &'a Scene) -> Self {
        let band = &scene.bands[0];
        let crop = scene.origin.crop.map(|crop| [crop.row, crop.col, crop.rows, crop.cols]);
        Head { file: &band.db_name, band: band.band, marks: &band.marks_name, rows: scene.rows, cols: scene.cols, crop }
    }
}

/// The JSON of `stats`.
#[derive(Serialize)]
struct ToldStatistics<'a> {
    #[serde(flatten)]
    head: Head<'a>,
    valid: u64,
    #[serde(flatten, serialize_with = "named")]
    floats: Statistics,
    p05_bin: u64,
    p95_bin: u64,
    max_row: u64,
    max_col: u64,
}

fn named<S: Serializer>(statistics: &Statistics, serializer: S) -> Result<S::Ok, S::Error> {
    serializer.collect_map(statistics.named())
}

/// The JSON of `histogram`.
#[derive(Serialize)]
struct ToldHistogram<'a> {
    #[serde(flatten)]
    head: Head<'a>,
    valid: u64,
    min: f64,
    max: f64,
    counts: &'a [u32],
}

/// The JSON of `window`; null is blank.
#[derive(Serialize)]
struct ToldWindow<'a> {
    #[serde(flatten)]
    head: Head<'a>,
    strategy: &'a str,
    window: Option<Numbers>,
}

#[derive(Serialize)]
struct Numbers {
    low: f64,
    high: f64,
    range: f64,
    gamma: f64,
}

fn stats(files: &BandFiles, as_json: bool) -> Outcome<()> {
    let scene = step("reading", || Scene::read(&files.files(), Wanted::One, &files.reading, &[]))?;
    let answer = step("statistics", || engine::statistics(scene.rows, scene.cols, scene.bands[0].band()));
    let statistics = answer.map_err(|refusal| explain::refused(refusal, &scene, AutoscaleStrategy::Default))?;
    scene.origin.unchanged()?;
    if as_json {
        let Statistics { valid_count: valid, p05_bin, p95_bin, max_row, max_col, .. } = statistics;
        let (head, floats) = (Head::of(&scene), statistics);
        return print(&json::line(&ToldStatistics { head, valid, floats, p05_bin, p95_bin, max_row, max_col }));
    }
    let mut text = format!("{:<8}{}\n", "valid", statistics.valid_count);
    for (name, value) in statistics.named() {
        let tick = statistics.ticks().into_iter().find(|tick| tick.name == name);
        let beside = match (tick, statistics.strongest()) {
            (Some(tick), _) => format!("  bin {}", tick.bin),
            (None, Some((row, col))) if name == "max" => format!("  row {row} column {col}{}", in_file(&scene, row, col)),
            _ => String::new(),
        };
        text.push_str(&format!("{name:<8}{value}{beside}\n"));
    }
    print(&text)
}

/// Where a pixel of a part stands in the whole file.
fn in_file(scene: &Scene, row: u64, col: u64) -> String {
    scene.origin.crop.map_or(String::new(), |crop| format!(" (row {} column {} of the file)", row + crop.row as u64, col + crop.col as u64))
}

fn histogram(files: &BandFiles, as_json: bool) -> Outcome<()> {
    let scene = step("reading", || Scene::read(&files.files(), Wanted::One, &files.reading, &[]))?;
    let band = scene.bands[0].band();
    let refused = |refusal| explain::refused(refusal, &scene, AutoscaleStrategy::Default);
    let Statistics { valid_count: valid, min_db: min, max_db: max, .. } =
        step("statistics", || engine::statistics(scene.rows, scene.cols, band)).map_err(refused)?;
    let counts = step("histogram", || engine::histogram(scene.rows, scene.cols, band)).map_err(refused)?;
    scene.origin.unchanged()?;
    if as_json {
        return print(&json::line(&ToldHistogram { head: Head::of(&scene), valid, min, max, counts: &counts }));
    }
    let mut text = format!("{:<8}{valid}\n{:<8}{min}\n{:<8}{max}\n", "valid", "min", "max");
    for (bin, count) in counts.iter().enumerate() {
        text.push_str(&format!("{bin:<8}{count}\n"));
    }
    print(&text)
}

fn window(files: &BandFiles, strategy: AutoscaleStrategy, as_json: bool) -> Outcome<()> {
    let scene = step("reading", || Scene::read(&files.files(), Wanted::One, &files.reading, &[]))?;
    let answer = step("window", || engine::window(strategy, scene.rows, scene.cols, scene.bands[0].band()));
    let window = answer.map_err(|refusal| explain::refused(refusal, &scene, strategy))?;
    scene.origin.unchanged()?;
    if as_json {
        let window = match window {
            Window::Blank => None,
            Window::Window { low, high, range, gamma } => Some(Numbers { low, high, range, gamma }),
        };
        return print(&json::line(&ToldWindow { head: Head::of(&scene), strategy: strategy.name(), window }));
    }
    print(&match window {
        Window::Blank => "blank\n".to_string(),
        Window::Window { low, high, range, gamma } => format!("low     {low}\nhigh    {high}\nrange   {range}\ngamma   {gamma}\n"),
    })
}

/// To standard output; a reader that closes it early is no trouble.
pub fn print(text: &str) -> Outcome<()> {
    let bad = |e: &dyn std::fmt::Display| Err(Trouble::named("standard output", e));
    if IS_CLOSED.load(SeqCst) {
        return bad(&"it is closed");
    }
    // Rust's own takes a result for written that was not, where the descriptor is not for writing.
    let mut out = ManuallyDrop::new(unsafe { File::from_raw_fd(libc::STDOUT_FILENO) });
    match out.write_all(text.as_bytes()) {
        Err(e) if e.kind() != std::io::ErrorKind::BrokenPipe => bad(&e),
        _ => Ok(()),
    }
}

/// Whether whoever started the program gave it no standard output: asked before Rust puts something in its place.
static IS_CLOSED: AtomicBool = AtomicBool::new(false);

#[used]
#[link_section = ".init_array"]
static ASK: extern "C" fn() = {
    extern "C" fn ask() {
        IS_CLOSED.store(unsafe { libc::fcntl(libc::STDOUT_FILENO, libc::F_GETFD) } == -1, SeqCst);
    }
    ask
};

fn grey(files: &BandFiles, strategy: AutoscaleStrategy, depth: Bits, out: &Path, form: Form) -> Outcome<()> {
    let outs = sheet::plan(&[out], false, form)?;
    let scene = step("reading", || Scene::read(&files.files(), Wanted::One, &files.reading, &outs))?;
    let (rows, cols) = (scene.rows, scene.cols);
    let band = scene.bands[0].band();
    let mut work = vec![0f64; strategy.work_len()];
    let (mut narrow, mut wide) = (Vec::new(), Vec::new());
    match depth {
        Bits::Eight => narrow = room::<u8>(rows, cols, 1)?,
        Bits::Sixteen => wide = room::<u16>(rows, cols, 1)?,
    }
    let (painted, origin) = step("painting", || {
        threads::join(
            || match depth {
                Bits::Eight => engine::grey_u8(strategy, rows, cols, band, &mut narrow, &mut work),
                Bits::Sixteen => engine::grey_u16(strategy, rows, cols, band, &mut wide, &mut work),
            },
            || origin::painted("grey", &scene, Painted::Grey(strategy)),
        )
    });
    painted.map_err(|refusal| explain::refused(refusal, &scene, strategy))?;
    let origin = origin?;
    let picture = match depth {
        Bits::Eight => Picture::Grey8(&narrow),
        Bits::Sixteen => Picture::Grey16(&wide),
    };
    let sheet = Sheet { rows, cols, picture, marks: Some(band.valid_mask), georeference: &scene.georeference, origin: &origin, form };
    step("writing", || finish(sheet::write(out, &sheet)?, &scene.origin))
}

/// The outputs are the colours, the grey of band 1 and the grey of band 2.
fn picture(files: &SceneFiles, choices: PictureChoices, outs: [Option<PathBuf>; 3], form: Form) -> Outcome<()> {
    let strategy = choices.strategy;
    let paths: Vec<&Path> = outs.iter().flatten().map(PathBuf::as_path).collect();
    let outs_all = sheet::plan(&paths, false, form)?;
    let scene = step("reading", || Scene::read(&files.files, Wanted::Two("a picture"), &files.reading, &outs_all))?;
    let (rows, cols) = (scene.rows, scene.cols);
    let mut grey1 = room::<u8>(rows, cols, 1)?;
    let mut grey2 = room::<u8>(rows, cols, 1)?;
    let mut rgb = room::<u8>(rows, cols, 3)?;
    let mut work = vec![0f64; strategy.work_len()];
    let [band1, band2] = [scene.bands[0].band(), scene.bands[1].band()];
    let (painted, origin) = step("painting", || {
        let lent = PictureOut { grey1: &mut grey1, grey2: &mut grey2, rgb: &mut rgb };
        threads::join(
            || engine::picture(choices, rows, cols, band1, band2, lent, &mut work),
            || origin::painted("picture", &scene, Painted::Picture(choices)),
        )
    });
    painted.map_err(|refusal| explain::refused(refusal, &scene, strategy))?;
    let origin = origin?;
    let common = scene.common_marks()?;
    let save = |path: &Option<PathBuf>, picture: Picture, marks: &[u8]| match path {
        Some(path) => {
            sheet::write(path, &Sheet { rows, cols, picture, marks: Some(marks), georeference: &scene.georeference, origin: &origin, form })
        }
        None => Ok(Parts::default()),
    };
    step("writing", || {
        let (colours, (first, second)) = threads::join(
            || save(&outs[0], Picture::Rgb(&rgb), &common),
            || {
                threads::join(
                    || save(&outs[1], Picture::Grey8(&grey1), band1.valid_mask),
                    || save(&outs[2], Picture::Grey8(&grey2), band2.valid_mask),
                )
            },
        );
        finish(Parts::join([colours, first, second])?, &scene.origin)
    })
}

fn compose(names: [&OsStr; 2], part: PartOf, strategy: AutoscaleStrategy, mode: SyntheticRgbMode, out: &Path, form: Form) -> Outcome<()> {
    let outs = sheet::plan(&[out], false, form)?;
    let [one, two] = Single::open_two(names, part, Role::Greys, &outs)?;
    let (band1, band2) = step("reading", || threads::join(|| one.u8s(), || two.u8s()));
    let (band1, band2) = (band1?, band2?);
    let mut rgb = memory::zeros(3 * band1.elements().len(), "a picture")?;
    step("composing", || engine::compose(mode, strategy, band1.elements(), band2.elements(), &mut rgb))?;
    one.write("compose", out, Picture::Rgb(&rgb), both(one.own_marks()?, two.own_marks()?).as_deref(), form)
}

fn stretch(grey: &OsStr, part: PartOf, out: &Path, form: Form) -> Outcome<()> {
    let outs = sheet::plan(&[out], false, form)?;
    let single = Single::open(grey, part, Role::Greys, judge_length, &outs)?;
    let data = step("reading", || single.u16s())?;
    let mut bytes = memory::zeros(data.elements().len(), "a picture")?;
    step("stretching", || engine::stretch(data.elements(), &mut bytes))?;
    single.write("stretch", out, Picture::Grey8(&bytes), single.own_marks()?.as_deref(), form)
}

fn pad(grey: &OsStr, part: PartOf, out: &Path, form: Form) -> Outcome<()> {
    let outs = sheet::plan(&[out], false, form)?;
    let mut single = Single::open(grey, part, Role::Greys, judge_limit, &outs)?;
    let Part { rows, cols, .. } = single.part;
    let side = rows.max(cols);
    let wide = single.source.kind() == Some(Kind::U16);
    let (mut padded8, mut padded16) = (Vec::new(), Vec::new());
    if wide {
        let data = step("reading", || single.u16s())?;
        padded16 = room::<u16>(side, side, 1)?;
        step("padding", || engine::pad_u16(rows, cols, data.elements(), &mut padded16))?;
    } else {
        let data = step("reading", || single.u8s())?;
        padded8 = room::<u8>(side, side, 1)?;
        step("padding", || engine::pad_u8(rows, cols, data.elements(), &mut padded8))?;
    }
    let marks = match single.own_marks()? {
        Some(own) => {
            let mut padded = room::<u8>(side, side, 1)?;
            engine::pad_u8(rows, cols, &own, &mut padded)?;
            Some(padded)
        }
        None => None,
    };
    // The square begins as far above and left of the grey as the padding is wide.
    single.georeference = single.georeference.moved(-(((side - rows) / 2) as f64), -(((side - cols) / 2) as f64));
    single.part = Part { rows: side, cols: side, ..single.part };
    single.write("pad", out, if wide { Picture::Grey16(&padded16) } else { Picture::Grey8(&padded8) }, marks.as_deref(), form)
}

fn operate(operation: PolarizationOperation, names: [&OsStr; 2], part: PartOf, out: &Path, form: Form) -> Outcome<()> {
    let outs = sheet::plan(&[out], true, form)?;
    let [a, b] = Single::open_two(names, part, Role::Numbers, &outs)?;
    let (of_a, of_b) = step("reading", || threads::join(|| a.f32s(), || b.f32s()));
    let (of_a, of_b) = (of_a?, of_b?);
    let mut result = memory::zeros(of_a.elements().len(), "a raster")?;
    step("arithmetic", || engine::operate(operation, of_a.elements(), of_b.elements(), &mut result))?;
    let marks = both(a.own_marks()?, b.own_marks()?);
    if let Some(invalid) = marks.as_ref().map(|marks| marks.iter().filter(|mark| **mark == 0).count()).filter(|invalid| *invalid > 0) {
        note(&format!(
            "{invalid} pixels are invalid by the rasters' own nodata, mask or alpha: what stands there in the result is no answer"
        ));
    }
    a.write("op", out, Picture::F32(&result), marks.as_deref(), form)
}
