//! Results as files: PNG, GeoTIFF or .npy by the name's ending, with their georeference and origin where the format has room for them.

use crate::arguments::Form;
use crate::elements::Kind;
use crate::gdal::Process;
use crate::memory;
use crate::naming::Locks;
use crate::npy;
use crate::origin::Items;
use crate::outputs;
use crate::parts::Parts;
use crate::progress::note;
use crate::trouble::{Outcome, Trouble};
use std::ffi::OsString;
use std::io::Write;
use std::path::{Path, PathBuf};
use wire::Georeference;

/// What a file is to hold.
#[derive(Clone, Copy)]
pub enum Picture<'a> {
    Grey8(&'a [u8]),
    Grey16(&'a [u16]),
    Rgb(&'a [u8]),
    Marks(&'a [u8]),
    F32(&'a [f32]),
    F64(&'a [f64]),
}

/// A picture with its sides and all that belongs to it.
pub struct Sheet<'a> {
    pub rows: usize,
    pub cols: usize,
    pub picture: Picture<'a>,
    /// Where the picture shows valid pixels.
    pub marks: Option<&'a [u8]>,
    pub georeference: &'a Georeference,
    pub origin: &'a Items,
    pub form: Form,
}

#[derive(Clone, Copy, PartialEq, Eq)]
enum Format {
    Png,
    Tiff,
    Npy,
}

fn format_of(path: &Path) -> Outcome<Format> {
    let ending = path.extension().and_then(|e| e.to_str()).unwrap_or("").to_ascii_lowercase();
    match ending.as_str() {
        "png" => Ok(Format::Png),
        "tif" | "tiff" => Ok(Format::Tiff),
        "npy" => Ok(Format::Npy),
        _ => Err(Trouble::Usage(format!("{}: name an output that ends in .png, .tif, .tiff or .npy", path.display()))),
    }
}

/// Judges a command's outputs before any work is done: their endings, and the places of all files that they consist of. Gives all files
/// that may be written.
pub fn plan(paths: &[&Path], is_float: bool, form: Form) -> Outcome<Vec<PathBuf>> {
    let (mut files, mut more) = (Vec::new(), Vec::new());
    for &path in paths {
        let usage = |what: &str| Err(Trouble::Usage(format!("{}: {what}", path.display())));
        match format_of(path)? {
            Format::Png if is_float => return usage("floats go to .npy or .tif"),
            Format::Png | Format::Npy if form.cog => return usage("--cog is for a .tif"),
            Format::Tiff | Format::Npy if form.world => return usage("--world is for a .png; a .tif has its georeference within"),
            Format::Tiff => more.push(with_suffix(path, AUX)),
            _ => {}
        }
        files.push(path.to_path_buf());
        if form.world {
            files.extend([with_suffix(path, AUX), path.with_extension(WORLD)]);
        }
    }
    outputs::judge(&files, form.force)?;
    files.append(&mut more);
    Ok(files)
}

/// What stands beside a PNG with --world: what GDAL keeps there, and the world file.
const AUX: &str = ".aux.xml";
const WORLD: &str = "pgw";

/// Writes a sheet, and what stands beside it.
pub fn write(path: &Path, sheet: &Sheet) -> Outcome<Parts> {
    let format = format_of(path)?;
    let is_empty = sheet.rows == 0 || sheet.cols == 0;
    if is_empty && format != Format::Npy {
        let name = if format == Format::Png { "PNG" } else { "TIFF" };
        return Err(Trouble::file(path, format!("a {name} cannot hold {} rows of {}; a .npy can", sheet.rows, sheet.cols)));
    }
    match format {
        Format::Npy => Parts::fill(path, sheet.form.force, |out| write_npy(out, sheet).map_err(|e| Trouble::file(path, e))),
        Format::Tiff => write_tiff(path, sheet),
        Format::Png => {
            let png = Parts::fill(path, sheet.form.force, |out| write_png(path, out, sheet));
            let beside = if sheet.form.world { write_world(path, sheet) } else { Ok(Parts::default()) };
            Parts::join([png, beside])
        }
    }
}

/// Names the outputs.
pub fn finish(parts: Parts) -> Outcome<()> {
    let locks = parts.lock();
    finish_locked(parts, &locks)
}

/// Names the outputs. What stands beside them from before, and would be read with them, is told.
pub fn finish_locked(parts: Parts, locks: &Locks) -> Outcome<()> {
    let mut strangers = Vec::new();
    for path in parts.paths() {
        let world = match format_of(path) {
            Ok(Format::Png) => WORLD,
            Ok(Format::Tiff) => "tfw",
            Ok(Format::Npy) | Err(_) => continue,
        };
        let by_suffix = [AUX, ".msk", ".ovr"].map(|suffix| with_suffix(path, suffix));
        let by_ending = [world, "wld"].map(|ending| path.with_extension(ending));
        let beside = by_suffix.into_iter().chain(by_ending).filter(|beside| beside.exists() && !parts.paths().any(|other| other == beside));
        strangers.extend(beside.map(|beside| (beside, path.to_path_buf())));
    }
    parts.finish_locked(locks)?;
    for (beside, path) in strangers {
        note(&format!("{} is not of this result, and programs that read {} read it too", beside.display(), path.display()));
    }
    Ok(())
}

fn with_suffix(path: &Path, suffix: &str) -> PathBuf {
    let mut name: OsString = path.as_os_str().to_owned();
    name.push(suffix);
    name.into()
}

fn write_png(path: &Path, out: &mut impl Write, sheet: &Sheet) -> Outcome<()> {
    let (colour, depth) = match sheet.picture {
        Picture::Grey8(_) | Picture::Marks(_) => (png::ColorType::Grayscale, png::BitDepth::Eight),
        Picture::Grey16(_) => (png::ColorType::Grayscale, png::BitDepth::Sixteen),
        Picture::Rgb(_) => (png::ColorType::Rgb, png::BitDepth::Eight),
        Picture::F32(_) | Picture::F64(_) => return Err(Trouble::Usage(format!("{}: floats go to .npy or .tif", path.display()))),
    };
    let bad = |e: png::EncodingError| Trouble::file(path, e);
    let mut encoder = png::Encoder::new(out, sheet.cols as u32, sheet.rows as u32);
    encoder.set_color(colour);
    encoder.set_depth(depth);
    encoder.set_compression(png::Compression::Fast);
    encoder.set_filter(png::FilterType::Up);
    for (name, words) in sheet.origin {
        encoder.add_itxt_chunk(name.clone(), words.clone()).map_err(bad)?;
    }
    let mut writer = encoder.write_header().map_err(bad)?;
    match sheet.picture {
        Picture::Grey8(list) | Picture::Marks(list) | Picture::Rgb(list) => writer.write_image_data(list).map_err(bad)?,
        Picture::Grey16(list) => {
            writer.write_image_data(&bytes_of(list, |v| v.to_be_bytes())?).map_err(bad)?;
        }
        Picture::F32(_) | Picture::F64(_) => {}
    }
    writer.finish().map_err(bad)
}

/// The bytes of a list's elements.
fn bytes_of<T: Copy, const N: usize>(list: &[T], turn: impl Fn(T) -> [u8; N]) -> Outcome<Vec<u8>> {
    let mut bytes = memory::room(list.len() * N, "a picture")?;
    list.iter().for_each(|&v| bytes.extend_from_slice(&turn(v)));
    Ok(bytes)
}

/// A GeoTIFF as GDAL makes it, and the .aux.xml beside it for what a TIFF has no tag for.
fn write_tiff(path: &Path, sheet: &Sheet) -> Outcome<Parts> {
    let wide: Vec<u8>;
    let (kind, bands, bytes): (Kind, usize, &[u8]) = match sheet.picture {
        Picture::Grey8(list) | Picture::Marks(list) => (Kind::U8, 1, list),
        Picture::Rgb(list) => (Kind::U8, 3, list),
        Picture::Grey16(list) => {
            wide = bytes_of(list, u16::to_ne_bytes)?;
            (Kind::U16, 1, &wide)
        }
        Picture::F32(list) => {
            wide = bytes_of(list, f32::to_ne_bytes)?;
            (Kind::F32, 1, &wide)
        }
        Picture::F64(_) => return Err(Trouble::Usage(format!("{}: f64 elements go to .npy", path.display()))),
    };
    let mut fields = wire::Fields::default();
    for (name, value) in [("rows", sheet.rows), ("cols", sheet.cols), ("bands", bands)] {
        fields.put(name, value);
    }
    fields.put("type", kind.name());
    if sheet.form.cog {
        fields.put("cog", "yes");
    }
    for (name, words) in sheet.origin {
        let name = if name == "Software" { "TIFFTAG_SOFTWARE" } else { name };
        fields.put("item", format!("{name}={words}"));
    }
    sheet.georeference.put(&mut fields);
    let mut process = Process::start().map_err(|why| Trouble::file(path, why))?;
    let made = process.write(&fields, bytes, sheet.marks.unwrap_or(&[])).map_err(|why| Trouble::file(path, why))?;
    if !matches!(made.iter().map(String::as_str).collect::<Vec<_>>()[..], [""] | ["", AUX]) {
        return Err(Trouble::file(path, format!("GDAL made {made:?} of it")));
    }
    Parts::join(made.iter().map(|suffix| take_file(&mut process, &with_suffix(path, suffix), sheet.form.force)))
}

/// The next file that GDAL's process made.
fn take_file(process: &mut Process, path: &Path, force: bool) -> Outcome<Parts> {
    Parts::fill(path, force, |out| match process.file(out) {
        Ok(written) => written.map_err(|e| Trouble::file(path, e)),
        Err(why) => Err(Trouble::file(path, why)),
    })
}

/// The world file and GDAL's .aux.xml of a PNG.
fn write_world(path: &Path, sheet: &Sheet) -> Outcome<Parts> {
    let (georeference, force) = (sheet.georeference, sheet.form.force);
    let bad = |what: String| Trouble::file(path, what);
    if !georeference.is_there() {
        return Err(bad("the scene has no georeference for --world".into()));
    }
    let mut fields = wire::Fields::default();
    georeference.put(&mut fields);
    let mut process = Process::start().map_err(bad)?;
    process.ask("sidecar", &fields).map_err(bad)?;
    let aux = take_file(&mut process, &with_suffix(path, AUX), force);
    let world = match georeference.transform {
        Some(t) => {
            // The six numbers of a world file are of the middle of the first pixel.
            let middle = [t[0] + 0.5 * t[1] + 0.5 * t[2], t[3] + 0.5 * t[4] + 0.5 * t[5]];
            let text: String = [t[1], t[4], t[2], t[5], middle[0], middle[1]].iter().map(|v| format!("{v}\n")).collect();
            let place = path.with_extension(WORLD);
            Parts::fill(&place, force, |out| out.write_all(text.as_bytes()).map_err(|e| Trouble::file(&place, e)))
        }
        None => Ok(Parts::default()),
    };
    Parts::join([aux, world])
}

fn write_npy(out: &mut impl Write, sheet: &Sheet) -> std::io::Result<()> {
    let (rows, cols) = (sheet.rows, sheet.cols);
    match sheet.picture {
        Picture::Grey8(list) | Picture::Marks(list) => {
            out.write_all(&npy::new_header(Kind::U8, rows, cols))?;
            out.write_all(list)
        }
        Picture::Rgb(list) => {
            out.write_all(&npy::new_rgb_header(rows, cols))?;
            out.write_all(list)
        }
        Picture::Grey16(list) => {
            out.write_all(&npy::new_header(Kind::U16, rows, cols))?;
            list.iter().try_for_each(|v| out.write_all(&v.to_le_bytes()))
        }
        Picture::F32(list) => {
            out.write_all(&npy::new_header(Kind::F32, rows, cols))?;
            list.iter().try_for_each(|v| out.write_all(&v.to_le_bytes()))
        }
        Picture::F64(list) => {
            out.write_all(&npy::new_header(Kind::F64, rows, cols))?;
            list.iter().try_for_each(|v| out.write_all(&v.to_le_bytes()))
        }
    }
}
