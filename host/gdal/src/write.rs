//! Making rasters: GeoTIFF and COG with their mask, georeference and origin; the file that stands beside a PNG. GDAL writes them to
//! memory, and the program takes their bytes and writes them to the disk: this process makes no file there.

use crate::dataset::{self, Dataset, Type};
use crate::ground::Crs;
use std::io::{self, Read, Write};
use wire::{Fields, Georeference, Part, Pieces};

/// Where the files stand in memory, by the names that they are made under.
const FOLDER: &str = "/vsimem/quicklook";
const TIFF: &str = "picture.tif";
const PNG: &str = "picture.png";

/// Makes a raster whose elements follow the request in pieces, pixel by pixel, then those of its mask. The outer error is the other
/// side's end; the inner one is told to it.
pub fn raster(fields: &Fields, input: &mut impl Read) -> io::Result<Result<(), String>> {
    let (rows, cols, bands): (usize, usize, usize) = (fields.number("rows")?, fields.number("cols")?, fields.number("bands")?);
    let kind = match fields.get("type") {
        Some("u1") => Type::Byte,
        Some("u2") => Type::UInt16,
        _ => Type::Float32,
    };
    let mut pixels = Vec::new();
    Pieces::new(input).read_to_end(&mut pixels)?;
    let mut mask = Vec::new();
    Pieces::new(input).read_to_end(&mut mask)?;
    let fits = rows
        .checked_mul(cols)
        .is_some_and(|n| n.checked_mul(bands * kind.width()) == Some(pixels.len()) && (mask.is_empty() || mask.len() == n));
    if !fits || !(bands == 1 || bands == 3) {
        return Ok(Err("a raster that is not as long as its sides say".into()));
    }
    if rows == 0 || cols == 0 {
        return Ok(Err(format!("a TIFF cannot hold {rows} rows of {cols}")));
    }
    Ok(write(fields, Shape { rows, cols, bands, kind }, &pixels, &mask))
}

struct Shape {
    rows: usize,
    cols: usize,
    bands: usize,
    kind: Type,
}

/// Writes by way of a dataset in memory: what GDAL copies it places rightly, where control points of a file that it creates and fills
/// move by a pixel under AREA_OR_POINT=Point.
fn write(fields: &Fields, shape: Shape, pixels: &[u8], mask: &[u8]) -> Result<(), String> {
    let path = format!("{FOLDER}/{TIFF}");
    let dataset = filled(fields, &shape, pixels, mask)?;
    if fields.get("cog").is_some() {
        let options = ["COMPRESS=DEFLATE", "PREDICTOR=YES", "BLOCKSIZE=256", "OVERVIEW_RESAMPLING=NEAREST", dataset::threads()];
        return dataset.copy("COG", &path, &options)?.close();
    }
    let predictor = if shape.kind == Type::Float32 { "PREDICTOR=3" } else { "PREDICTOR=2" };
    let photometric = if shape.bands == 3 { "PHOTOMETRIC=RGB" } else { "PHOTOMETRIC=MINISBLACK" };
    let mut options = vec!["COMPRESS=DEFLATE", "ZLEVEL=4", "INTERLEAVE=PIXEL", dataset::threads(), predictor, photometric];
    // A long list would be mostly the padding of its tiles.
    if shape.rows.min(shape.cols) >= 16 {
        options.extend(["TILED=YES", "BLOCKXSIZE=256", "BLOCKYSIZE=256"]);
    }
    dataset.copy("GTiff", &path, &options)?.close()
}

/// A dataset in memory with everything that the request names.
fn filled(fields: &Fields, shape: &Shape, pixels: &[u8], mask: &[u8]) -> Result<Dataset, String> {
    let &Shape { rows, cols, bands, kind } = shape;
    let dataset = Dataset::create("MEM", "", rows, cols, bands, kind, &[])?;
    place(&dataset, &Georeference::get(fields).map_err(|e| e.to_string())?)?;
    for item in fields.all("item") {
        let (name, value) = item.split_once('=').ok_or("an item without a value")?;
        dataset.set_metadata_item(name, value)?;
    }
    let whole = Part { row: 0, col: 0, rows, cols };
    for number in 1..=bands {
        let band = dataset.band(number)?;
        band.set_interpretation(if bands == 3 { dataset::RED + number as i32 - 1 } else { dataset::GREY });
        let width = kind.width();
        band.write(whole, kind, &pixels[(number - 1) * width..], bands * width)?;
    }
    if !mask.is_empty() {
        dataset.add_mask()?;
        let shown: Vec<u8> = mask.iter().map(|&mark| if mark == 0 { 0 } else { 255 }).collect();
        dataset.band(1)?.mask()?.write(whole, Type::Byte, &shown, 1)?;
    }
    Ok(dataset)
}

/// Puts a raster where its georeference says. A file has a geotransform or control points, not both: the geotransform goes first.
fn place(dataset: &Dataset, georeference: &Georeference) -> Result<(), String> {
    if let Some(word) = &georeference.area_or_point {
        dataset.set_metadata_item("AREA_OR_POINT", word)?;
    }
    if let Some(crs) = &georeference.crs {
        dataset.set_crs(&Crs::from_words(crs)?)?;
    }
    if let Some(transform) = &georeference.transform {
        return dataset.set_transform(transform);
    }
    if !georeference.gcps.is_empty() {
        let crs = georeference.gcp_crs.as_ref().map(Crs::from_words).transpose()?;
        dataset.set_gcps(&georeference.gcps, crs.as_ref())?;
    }
    Ok(())
}

/// Makes the .aux.xml that stands beside a PNG, as GDAL itself keeps it: it tells of the place alone, so a PNG of one pixel does.
pub fn sidecar(fields: &Fields) -> Result<(), String> {
    let path = format!("{FOLDER}/{PNG}");
    Dataset::create("MEM", "", 1, 1, 1, Type::Byte, &[])?.copy("PNG", &path, &[])?.close()?;
    let dataset = Dataset::open(&path, Some("PNG"))?;
    place(&dataset, &Georeference::get(fields).map_err(|e| e.to_string())?)?;
    dataset.close()
}

/// The answer to `raster`: the endings of the files that it made, and their bytes in the same order.
pub fn send_raster(out: &mut impl Write) -> io::Result<()> {
    let names = dataset::names_in(FOLDER);
    let endings: Vec<&str> = names.iter().filter_map(|name| name.strip_prefix(TIFF)).collect();
    send(out, &endings, TIFF)
}

/// The answer to `sidecar`.
pub fn send_sidecar(out: &mut impl Write) -> io::Result<()> {
    send(out, &[".aux.xml"], PNG)
}

fn send(out: &mut impl Write, endings: &[&str], name: &str) -> io::Result<()> {
    let files: Option<Vec<_>> = endings.iter().map(|ending| dataset::file_in_memory(&format!("{FOLDER}/{name}{ending}"))).collect();
    let Some(files) = files else { return crate::answer(out, Err("GDAL made no such file".into())) };
    let mut fields = Fields::default();
    endings.iter().for_each(|ending| fields.put("file", ending));
    crate::answer(out, Ok(fields))?;
    for bytes in files {
        bytes.chunks(1 << 20).try_for_each(|piece| wire::send_piece(out, piece))?;
        wire::send_piece(out, &[])?;
    }
    out.flush()
}
