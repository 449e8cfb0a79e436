//! The deck viewer's page: what the engine computed, packed into one HTML file that needs no network.

use crate::arguments::SceneFiles;
use crate::commands::room;
use crate::explain;
use crate::gdal::Process;
use crate::json;
use crate::origin::{self, Items, Painted};
use crate::outputs;
use crate::parts::Parts;
use crate::progress::{note, step};
use crate::scene::{Scene, Wanted};
use crate::threads;
use crate::trouble::{Outcome, Trouble};
use engine::{Answer, CoPol, PictureChoices, PictureOut, Statistics, Tick, Window};
use flate2::Compression;
use flate2::write::ZlibEncoder;
use serde::Serialize;
use std::io::Write;
use std::path::Path;
use wire::Georeference;

const PAGE: &str = include_str!("viewer/page.html");
const STYLE: &str = include_str!("viewer/style.css");
const SCRIPT: &str = include_str!("viewer/viewer.js");

/// A list of the page: its name, the bytes of an element, all bytes row by row.
struct List {
    name: String,
    width: usize,
    bytes: Vec<u8>,
}

pub fn run(files: &SceneFiles, choices: PictureChoices, title: Option<String>, (out, force): (&Path, bool)) -> Outcome<()> {
    if !matches!(out.extension().and_then(|e| e.to_str()), Some("html" | "htm")) {
        return Err(Trouble::Usage(format!("{}: name a page that ends in .html", out.display())));
    }
    let outs = [out.to_path_buf()];
    outputs::judge(&outs, force)?;
    let wanted = if choices.copol == CoPol::Band2 { Wanted::Two("--copol 2") } else { Wanted::OneOrTwo };
    let read = step("reading", || Scene::read(&files.files, wanted, &files.reading, &outs))?;
    let (rows, cols) = (read.rows, read.cols);
    let how = if read.bands.len() == 1 { Painted::Grey(choices.strategy) } else { Painted::Picture(choices) };
    let refused = |refusal| explain::refused(refusal, &read, choices.strategy);
    let (painted, origin) = step("painting", || threads::join(|| paint(choices, &read), || origin::painted("view", &read, how)));
    let (first, rest) = painted?.map_err(refused)?;
    let origin = origin?;
    let title = title.unwrap_or_else(|| {
        let mut names: Vec<String> = read.bands.iter().map(|band| name_of(&band.db_name)).collect();
        names.dedup();
        names.join(" and ")
    });
    let block_rows = (1usize << 20).div_ceil(cols.max(1)).min(rows.max(1));
    let described = step("statistics", || describe(&title, how, &read, &origin, block_rows)).map_err(refused)?;
    let scene = Described { ground: ground(&read.georeference, rows, cols)?, ..described };
    step("packing", || {
        let page = Parts::fill(out, force, |file| {
            let bad = |e: std::io::Error| Trouble::file(out, e);
            let mut page = PAGE;
            while let Some(at) = page.find("{{") {
                let end = at + page[at..].find("}}").expect("a closed place in page.html");
                file.write_all(&page.as_bytes()[..at]).map_err(bad)?;
                match &page[at + 2..end] {
                    "title" => file.write_all(escaped(&title).as_bytes()).map_err(bad)?,
                    "style" => file.write_all(STYLE.as_bytes()).map_err(bad)?,
                    "script" => file.write_all(SCRIPT.as_bytes()).map_err(bad)?,
                    "scene" => json::write(file, &scene).map_err(bad)?,
                    "first" => pack(file, &first, cols, block_rows).map_err(bad)?,
                    "rest" => rest.iter().try_for_each(|list| pack(file, list, cols, block_rows)).map_err(bad)?,
                    other => unreachable!("page.html names {other}"),
                }
                page = &page[end + 2..];
            }
            file.write_all(page.as_bytes()).map_err(bad)
        })?;
        read.origin.unchanged()?;
        page.finish()
    })
}

fn name_of(shown: &str) -> String {
    Path::new(shown).file_stem().unwrap_or_default().to_string_lossy().into_owned()
}

/// The lists of the page as the engine gives them: the one shown first, and the others.
fn paint(choices: PictureChoices, scene: &Scene) -> Outcome<Answer<(List, Vec<List>)>> {
    let &Scene { rows, cols, ref bands, .. } = scene;
    let strategy = choices.strategy;
    let mut work = vec![0f64; strategy.work_len()];
    let mut grey1 = room::<u8>(rows, cols, 1)?;
    let list = |name: String, width: usize, bytes: Vec<u8>| List { name, width, bytes };
    let (first, mut rest) = match &bands[..] {
        [one] => {
            if let Err(refusal) = engine::grey_u8(strategy, rows, cols, one.band(), &mut grey1, &mut work) {
                return Ok(Err(refusal));
            }
            (list("grey1".into(), 1, grey1), Vec::new())
        }
        [one, two, ..] => {
            let mut grey2 = room::<u8>(rows, cols, 1)?;
            let mut rgb = room::<u8>(rows, cols, 3)?;
            let lent = PictureOut { grey1: &mut grey1, grey2: &mut grey2, rgb: &mut rgb };
            if let Err(refusal) = engine::picture(choices, rows, cols, one.band(), two.band(), lent, &mut work) {
                return Ok(Err(refusal));
            }
            (list("rgb".into(), 3, rgb), vec![list("grey1".into(), 1, grey1), list("grey2".into(), 1, grey2)])
        }
        [] => unreachable!("a page has a band"),
    };
    for (k, band) in bands.iter().enumerate() {
        rest.push(list(format!("marks{}", k + 1), 1, band.band().valid_mask.to_vec()));
    }
    for (k, band) in bands.iter().enumerate() {
        rest.push(list(format!("db{}", k + 1), 8, band.band().db.iter().flat_map(|v| v.to_le_bytes()).collect()));
    }
    Ok(Ok((first, rest)))
}

/// Blocks of rows, each packed by zlib and written in base64 as an element of its own. The bytes of floats are put apart by their place,
/// since those of one place pack better together.
fn pack(out: &mut impl Write, list: &List, cols: usize, block_rows: usize) -> std::io::Result<()> {
    let block = (block_rows * cols * list.width).max(1);
    let packed = threads::map(list.bytes.chunks(block).collect(), |bytes: &[u8]| {
        let apart: Vec<u8>;
        let bytes = if list.width == 8 {
            apart = (0..8).flat_map(|place| bytes[place..].iter().step_by(8).copied()).collect();
            &apart
        } else {
            bytes
        };
        let mut encoder = ZlibEncoder::new(Vec::with_capacity(bytes.len() / 2), Compression::fast());
        encoder.write_all(bytes).and_then(|()| encoder.finish()).map(base64::encode)
    });
    let packed = packed.into_iter().collect::<std::io::Result<Vec<String>>>()?;
    for (k, text) in packed.iter().enumerate() {
        writeln!(out, "<script type=\"application/octet-stream\" id=\"{}-{k}\">{text}</script>", list.name)?;
    }
    Ok(())
}

/// The page's description of the scene.
#[derive(Serialize)]
#[serde(rename_all = "camelCase")]
struct Described<'a> {
    title: &'a str,
    about: String,
    rows: usize,
    cols: usize,
    /// The first row and column of the part that was read.
    #[serde(skip_serializing_if = "Option::is_none")]
    crop: Option<[usize; 2]>,
    bands: usize,
    statistic_names: Vec<String>,
    /// Of each band the count, the fifteen floats, two bins and the place of the maximum; a float holds these whole numbers.
    statistics: Vec<Vec<f64>>,
    windows: Vec<Option<Ends>>,
    strongest: Vec<Option<Spot>>,
    curves: Vec<Curve>,
    origin: &'a Items,
    block_rows: usize,
    ground: Option<Ground>,
}

/// The ends of a band's window, and its gamma.
#[derive(Serialize)]
struct Ends {
    low: f64,
    high: f64,
    gamma: f64,
}

/// A band's first valid maximum.
#[derive(Serialize)]
struct Spot {
    row: u64,
    col: u64,
    db: f64,
}

/// The engine's counts of a band's valid decibels between the least and the greatest, and the cuts on them.
#[derive(Serialize)]
struct Curve {
    min: f64,
    max: f64,
    counts: Vec<u32>,
    ticks: [ToldTick; 2],
}

/// A percentile on the curve.
#[derive(Serialize)]
struct ToldTick {
    name: &'static str,
    db: f64,
    bin: u64,
    /// The pixels in the bins before it.
    below: u64,
}

/// Where the pixels lie: the six numbers where there are such, and a grid of places to read between.
#[derive(Serialize)]
struct Ground {
    crs: String,
    transform: Option<[f64; 6]>,
    step: usize,
    down: usize,
    across: usize,
    off: f64,
    places: Vec<f64>,
}

fn describe<'a>(title: &'a str, how: Painted, scene: &Scene, origin: &'a Items, block_rows: usize) -> Answer<Described<'a>> {
    let &Scene { rows, cols, ref bands, .. } = scene;
    let statistics = bands.iter().map(|band| engine::statistics(rows, cols, band.band())).collect::<Answer<Vec<_>>>()?;
    let curves = bands.iter().map(|band| engine::histogram(rows, cols, band.band())).collect::<Answer<Vec<_>>>()?;
    let windows = origin::windows(scene, how)?.into_iter().map(|window| match window {
        Window::Window { low, high, gamma, .. } => Some(Ends { low, high, gamma }),
        Window::Blank => None,
    });
    let about = match how {
        Painted::Grey(strategy) => format!("{rows} rows of {cols}, {strategy:?}"),
        Painted::Picture(PictureChoices { strategy, mode, copol }) => {
            format!("{rows} rows of {cols}, {strategy:?}, mode {mode:?}, co-pol {}", copol.name())
        }
    };
    Ok(Described {
        title,
        about,
        rows,
        cols,
        crop: scene.origin.crop.map(|crop| [crop.row, crop.col]),
        bands: bands.len(),
        statistic_names: std::iter::once("valid".to_owned())
            .chain(statistics[0].named().map(|(name, _)| name.to_owned()))
            .chain(statistics[0].ticks().map(|tick| format!("{} bin", tick.name)))
            .chain(["max row", "max column"].map(str::to_owned))
            .collect(),
        statistics: statistics
            .iter()
            .map(|s| {
                let bins = s.ticks().map(|tick| tick.bin as f64);
                let place = [s.max_row as f64, s.max_col as f64];
                std::iter::once(s.valid_count as f64).chain(s.named().map(|(_, value)| value)).chain(bins).chain(place).collect()
            })
            .collect(),
        windows: windows.collect(),
        strongest: statistics.iter().map(|s| s.strongest().map(|(row, col)| Spot { row, col, db: s.max_db })).collect(),
        curves: statistics.iter().zip(curves).map(|(s, counts)| curve(s, counts)).collect(),
        origin,
        block_rows,
        ground: None,
    })
}

/// None, and a note, where GDAL cannot tell.
fn ground(georeference: &Georeference, rows: usize, cols: usize) -> Outcome<Option<Ground>> {
    if !georeference.is_there() || rows * cols == 0 {
        return Ok(None);
    }
    let bad = |why: String| Trouble::named("the page's coordinates", why);
    let bad_answer = |e: std::io::Error| bad(e.to_string());
    let mut fields = wire::Fields::default();
    georeference.put(&mut fields);
    fields.put("rows", rows);
    fields.put("cols", cols);
    let mut process = Process::start().map_err(bad)?;
    let told = match process.ask("places", &fields) {
        Ok(told) => told,
        Err(why) if process.is_lost => return Err(bad(why)),
        Err(why) => {
            note(&format!("the page has no coordinates: {why}"));
            return Ok(None);
        }
    };
    let lines = told.all("line").map(|words| wire::floats(words).map_err(bad_answer)).collect::<Outcome<Vec<_>>>()?;
    let side = |name: &str| told.number::<usize>(name).map_err(bad_answer);
    Ok(Some(Ground {
        crs: told.text("crs"),
        transform: georeference.transform,
        step: side("step")?,
        down: side("down")?,
        across: side("across")?,
        off: told.number("off").map_err(bad_answer)?,
        places: lines.concat(),
    }))
}

fn curve(s: &Statistics, counts: Vec<u32>) -> Curve {
    let below = |bin: u64| counts[..bin as usize].iter().copied().map(u64::from).sum();
    let ticks = s.ticks().map(|Tick { name, db, bin }| ToldTick { name, db, bin, below: below(bin) });
    Curve { min: s.min_db, max: s.max_db, counts, ticks }
}

fn escaped(text: &str) -> String {
    text.replace('&', "&amp;").replace('<', "&lt;").replace('>', "&gt;").replace('"', "&quot;")
}
