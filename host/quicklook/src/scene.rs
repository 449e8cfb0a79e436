//! Scenes: decibels and marks of one band or two, named, judged by their headers, and read.

use crate::arguments::{Marks, Reading, Scaling};
use crate::memory;
use crate::origin::{Input, Origin};
use crate::outputs;
use crate::progress::note;
use crate::said::Role;
use crate::source::{Failed, List, Name, OwnMarks, Source};
use crate::threads;
use crate::trouble::{Outcome, Trouble};
use engine::Band;
use std::ffi::OsString;
use std::path::PathBuf;
use wire::{Georeference, Part};

/// How many bands a command takes.
#[derive(Clone, Copy, PartialEq, Eq)]
pub enum Wanted {
    One,
    /// And what asks for two, in words.
    Two(&'static str),
    OneOrTwo,
}

/// The names of a band's rasters; without marks they come from the decibels' own raster, or are not wanted.
struct Names {
    db: Name,
    marks: Option<Name>,
}

/// Decibels and marks of one band, of the same sides.
pub struct BandRasters {
    /// What the user called the decibels and the marks.
    pub db_name: String,
    pub marks_name: String,
    /// Their bands.
    pub band: usize,
    pub marks_band: usize,
    /// What the user is to know of how it was read.
    notes: Vec<String>,
    db: List<f64>,
    marks: List<u8>,
}

impl BandRasters {
    pub fn band(&self) -> Band<'_> {
        Band { db: self.db.elements(), valid_mask: self.marks.elements() }
    }
}

pub struct Scene {
    pub rows: usize,
    pub cols: usize,
    pub bands: Vec<BandRasters>,
    pub georeference: Georeference,
    pub origin: Origin,
}

/// An opened band, judged and not read yet.
struct Opened {
    db: Source,
    marks: Option<Source>,
}

impl Scene {
    /// Reads the rasters that the words name, none of which may be one of the outputs.
    pub fn read(files: &[OsString], wanted: Wanted, reading: &Reading, outs: &[PathBuf]) -> Outcome<Scene> {
        let opened = open(files, wanted, reading)?;
        let crop = reading.crop;
        let parts = judge_sides(&opened, crop)?;
        for band in &opened {
            band.db.judge(Role::Decibels { as_decibels: reading.as_decibels })?;
            if let Some(marks) = &band.marks {
                marks.judge(Role::Marks)?;
            }
        }
        let part = parts[0];
        let georeference = opened[0].db.georeference.moved(part.row as f64, part.col as f64);
        for source in opened.iter().flat_map(|band| std::iter::once(&band.db).chain(&band.marks)) {
            tell_elsewhere(&opened[0].db, source);
        }
        let mut inputs: Vec<Input> = Vec::new();
        for source in opened.iter().flat_map(|band| std::iter::once(&band.db).chain(&band.marks)) {
            for input in &source.inputs {
                if !inputs.contains(input) {
                    inputs.push(input.clone());
                }
            }
            source.notes.iter().for_each(|text| note(&format!("{}: GDAL says: {text}", source.shown)));
        }
        let origin = Origin { inputs, crop };
        outputs::spare(outs, origin.files())?;
        let pairs = opened.into_iter().zip(parts).collect();
        let bands = threads::map(pairs, |(band, part)| read_band(&band, part, reading)).into_iter().collect::<Outcome<Vec<_>>>()?;
        bands.iter().flat_map(|band| &band.notes).for_each(|text| note(text));
        Ok(Scene { rows: part.rows, cols: part.cols, bands, georeference, origin })
    }

    /// Valid in every band.
    pub fn common_marks(&self) -> Outcome<Vec<u8>> {
        let first = self.bands[0].band().valid_mask;
        let mut marks = memory::zeros(first.len(), "marks")?;
        marks.copy_from_slice(first);
        for band in &self.bands[1..] {
            marks.iter_mut().zip(band.band().valid_mask).for_each(|(mark, other)| *mark &= other);
        }
        Ok(marks)
    }
}

/// Opens the rasters that the words name, those of a band beside each other.
fn open(files: &[OsString], wanted: Wanted, reading: &Reading) -> Outcome<Vec<Opened>> {
    let is_auto = reading.marks == Some(Marks::Auto);
    let usage = |text: &str| Err(Trouble::Usage(text.to_string()));
    let name = |k: usize| Name::new(&files[k], reading.map);
    let pair = |db: Name, marks: Option<Name>| Names { db, marks };
    let names = match (files.len(), is_auto) {
        (1, true) => vec![pair(name(0), None)],
        (2, false) => vec![pair(name(0), Some(name(1)))],
        (2, true) if wanted != Wanted::One => vec![pair(name(0), None), pair(name(1), None)],
        (4, false) if wanted != Wanted::One => vec![pair(name(0), Some(name(1))), pair(name(2), Some(name(3)))],
        (1, false) => return usage("marks are needed: name a marks file after the decibels, or give --marks auto"),
        (_, true) if wanted == Wanted::One => return usage("with --marks auto name the decibels alone"),
        (_, true) => return usage("with --marks auto name two rasters of decibels, or one of two bands"),
        _ if wanted == Wanted::One => return usage("name the decibels and their marks"),
        _ => return usage("name decibels and marks of two bands (DB1 MARKS1 DB2 MARKS2), or a raster of two bands and its marks"),
    };
    if is_auto && reading.marks_255 {
        return usage("--marks-255 is for a marks file, --marks auto for none");
    }
    let most = if wanted == Wanted::One || names.len() == 2 { 1 } else { 2 };
    let mut opened = threads::map(names.iter().collect(), |names: &Names| {
        let (db, marks) =
            threads::join(|| Source::open(&names.db, most), || names.marks.as_ref().map(|marks| Source::open(marks, most)).transpose());
        Ok(Opened { db: db?, marks: marks? })
    })
    .into_iter()
    .collect::<Outcome<Vec<_>>>()?;
    // One raster of two bands serves both, and its marks likewise.
    if let ([Opened { db, marks }], [names]) = (&opened[..], &names[..]) {
        match db.data_bands() {
            [_, second] if most == 2 && !names.db.names_band() => {
                let db = Source::open(&names.db.with_band(*second), 1)?;
                let marks = match (&names.marks, marks) {
                    (Some(name), Some(marks)) if marks.data_bands().len() == 2 && !name.names_band() => {
                        Some(Source::open(&name.with_band(marks.data_bands()[1]), 1)?)
                    }
                    (Some(name), _) => Some(Source::open(name, 1)?),
                    (None, _) => None,
                };
                opened.push(Opened { db, marks });
            }
            _ if marks.as_ref().is_some_and(|marks| marks.data_bands().len() > 1)
                && !names.marks.as_ref().is_some_and(Name::names_band) =>
            {
                let name = marks.as_ref().map_or("", |marks| marks.shown.as_str());
                return Err(Trouble::Usage(format!("{name}: 2 bands for the marks of one; name the one, as {name}:{}", db.band())));
            }
            _ => {
                if let Wanted::Two(taker) = wanted {
                    let advice =
                        if is_auto { "name a second raster" } else { "name decibels and marks of two bands, DB1 MARKS1 DB2 MARKS2" };
                    return Err(Trouble::Usage(format!("{}: one band, and {taker} takes two; {advice}", db.shown)));
                }
            }
        }
    }
    Ok(opened)
}

/// The part of each band that is read. Sides above the limit are refusal 1, sides that differ refusal 2, before a pixel is read.
fn judge_sides(opened: &[Opened], crop: Option<Part>) -> Outcome<Vec<Part>> {
    let parts = opened.iter().map(|band| band.db.part(crop)).collect::<Outcome<Vec<_>>>()?;
    for (band, part) in opened.iter().zip(&parts) {
        judge_limit(&band.db, *part)?;
    }
    let first = (&opened[0].db, parts[0]);
    for (band, part) in opened.iter().zip(&parts) {
        same_sides(first, (&band.db, *part))?;
        if let Some(marks) = &band.marks {
            same_sides((&band.db, *part), (marks, crop.unwrap_or(marks.whole())))?;
            marks.part(crop)?;
        }
    }
    Ok(parts)
}

/// Says so where a raster lies elsewhere on the ground than the first, as far as both say where they lie.
pub fn tell_elsewhere(first: &Source, other: &Source) {
    if first.georeference.is_there() && other.georeference.is_there() && first.georeference != other.georeference {
        note(&format!("{} lies elsewhere on the ground than {}; the first one's georeference is kept", other.shown, first.shown));
    }
}

/// Refusal 1 from the header alone.
pub fn judge_limit(source: &Source, part: Part) -> Outcome<()> {
    if part.rows <= engine::LONGEST_SIDE && part.cols <= engine::LONGEST_SIDE {
        return Ok(());
    }
    Err(Trouble::Refused(
        1,
        format!(
            "{} has {} rows of {}, and neither may be above 4,096; read a part of it with --crop ROW,COL,ROWS,COLS",
            source.shown, part.rows, part.cols
        ),
    ))
}

/// Refusal 2 for sides that differ.
pub fn same_sides((a, of_a): (&Source, Part), (b, of_b): (&Source, Part)) -> Outcome<()> {
    if (of_a.rows, of_a.cols) == (of_b.rows, of_b.cols) && (a.rows, a.cols) == (b.rows, b.cols) {
        return Ok(());
    }
    let words = |source: &Source| format!("{} has {} rows of {}", source.shown, source.rows, source.cols);
    Err(Trouble::Refused(2, format!("{}, but {}", words(b), words(a))))
}

fn read_band(band: &Opened, part: Part, reading: &Reading) -> Outcome<BandRasters> {
    let (db, marks) = threads::join(
        || decibels(&band.db, part, reading.scaling),
        || band.marks.as_ref().map(|marks| read_marks(marks, part, reading.marks_255)).transpose(),
    );
    let (db, scaled) = db?;
    let mut notes: Vec<String> = scaled.into_iter().collect();
    let (marks, of_marks) = match (marks?, &band.marks) {
        (Some(list), Some(source)) => {
            notes.extend(contradicted(band, part, list.elements()));
            (list, source)
        }
        _ => {
            let OwnMarks { marks, source } = band.db.own_marks(part, db.elements())?;
            notes.push(format!("{}, band {}: {source}", band.db.shown, band.db.band()));
            (List::Owned(marks), &band.db)
        }
    };
    let (db_name, marks_name) = (band.db.shown.clone(), of_marks.shown.clone());
    Ok(BandRasters { db_name, marks_name, band: band.db.band(), marks_band: of_marks.band(), notes, db, marks })
}

/// Says so where a marks file calls pixels valid that the raster itself calls invalid. The file decides.
fn contradicted(band: &Opened, part: Part, marks: &[u8]) -> Option<String> {
    let mask = band.db.mask(part).ok().flatten()?;
    let count = mask.iter().zip(marks).filter(|(mask, mark)| **mask == 0 && **mark == 1).count();
    if count == 0 {
        return None;
    }
    Some(format!(
        "{}, band {}: {count} pixels that the marks call valid are invalid by its own nodata, mask or alpha",
        band.db.shown,
        band.db.band()
    ))
}

/// Decibels exactly as they stand, or scaled by request, with a note that says so.
pub fn decibels(source: &Source, part: Part, scaling: Option<Scaling>) -> Outcome<(List<f64>, Option<String>)> {
    let trouble = |failed: Failed| failed.trouble(source, "is a whole number that no f64 holds");
    match (source.scaling(), scaling) {
        (None, _) | (_, Some(Scaling::Raw)) => Ok((source.list(part, Some).map_err(trouble)?, None)),
        (Some((scale, offset)), None) => Err(Trouble::named(
            &source.shown,
            format!(
                "its band has scale {scale} and offset {offset}: give --scaling apply to have value x scale + offset, or --scaling raw to \
                 take the numbers as they stand"
            ),
        )),
        (Some((scale, offset)), Some(Scaling::Apply)) => {
            let list = source.read(part, |v| Some(v * scale + offset)).map(List::Owned).map_err(trouble)?;
            Ok((list, Some(format!("{}, band {}: scale {scale} and offset {offset} applied", source.shown, source.band()))))
        }
    }
}

/// Marks from a file. A number that no byte holds is refused here as the engine refuses any other that is neither 0 nor 1.
fn read_marks(source: &Source, part: Part, is_255: bool) -> Outcome<List<u8>> {
    let byte = |v: f64| if (0.0..=255.0).contains(&v) && v.fract() == 0.0 { Some(v as u8) } else { None };
    let read = if is_255 {
        source
            .read(part, |v| {
                if v == 255.0 {
                    Some(1)
                } else if v == 0.0 {
                    Some(0)
                } else {
                    None
                }
            })
            .map(List::Owned)
    } else {
        source.list(part, byte)
    };
    read.map_err(|failed| match failed {
        Failed::Element { row, col, value } => wrong_mark(&source.shown, source.band(), (row, col), &value, is_255),
        Failed::File(_) | Failed::Memory(_) => failed.trouble(source, ""),
    })
}

/// Refusal 3, with its place.
pub fn wrong_mark(name: &str, band: usize, (row, col): (usize, usize), value: &str, is_255: bool) -> Trouble {
    let advice = match (is_255, value) {
        (true, _) => "with --marks-255 a mark is 0 or 255",
        (false, "255") => "a mark is 0 or 1; a file of 0 and 255 is read with --marks-255",
        (false, _) => "a mark is 0 (invalid) or 1 (valid)",
    };
    Trouble::Refused(3, format!("{name}, band {band}, row {row}, column {col}: {value}; {advice}"))
}
