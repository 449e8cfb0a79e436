//! Reading: what a file says of its rasters, and their elements, exactly as GDAL decodes them, or why not.

use crate::dataset::{self, Band, Dataset, RawFile, Type};
use crate::whole;
use flate2::{Decompress, FlushDecompress, Status};
use std::io::{self, Write};
use wire::{Fields, Georeference, Part};

/// The most that one block may take in memory: a whole scene of the widest type.
const MOST_BLOCK: usize = 4096 * 4096 * 16;
/// Bytes sent at a time, about.
const PIECE: usize = 4 << 20;
/// Drivers of radar products as agencies deliver them: amplitudes or complex numbers, never decibels.
const RADAR_PRODUCTS: [&str; 9] = ["SAFE", "RS2", "TSX", "COSAR", "SAR_CEOS", "CEOS", "JAXAPALSAR", "AirSAR", "COASP"];
/// Data bands that are listed, at most.
const LISTED: usize = 16;

/// Opens a raster and tells what its file says of it.
pub fn open(name: &str) -> Result<(Dataset, Fields), String> {
    let dataset = Dataset::open(name, None)?;
    let mut told = Fields::default();
    for note in sound_messages()? {
        told.put("note", note);
    }
    sound_file(&dataset)?;
    each_source(&dataset, DEEPEST, &mut |source| sound_file(source))?;
    told.put("driver", dataset.driver());
    told.put("rows", dataset.rows());
    told.put("cols", dataset.cols());
    told.put("bands", dataset.bands());
    let alpha = alpha_bands(&dataset).len();
    told.put("data-bands", dataset.bands() - alpha);
    for number in (1..=dataset.bands()).filter(|&number| !is_alpha(&dataset, number)).take(LISTED) {
        told.put("data-band", number);
    }
    for item in dataset.metadata("SUBDATASETS") {
        if let Some((_, value)) = item.split_once("_NAME=") {
            told.put("subdataset", value);
        }
    }
    for file in dataset.files() {
        told.put("file", file);
    }
    let gcps = dataset.gcps();
    let georeference = Georeference {
        transform: dataset.transform(),
        crs: dataset.crs(),
        gcp_crs: if gcps.is_empty() { None } else { dataset.gcp_crs() },
        gcps,
        area_or_point: dataset.metadata_item("AREA_OR_POINT", ""),
    };
    georeference.put(&mut told);
    sound_messages()?;
    Ok((dataset, told))
}

fn is_alpha(dataset: &Dataset, number: usize) -> bool {
    dataset.band(number).is_ok_and(|band| band.interpretation() == dataset::ALPHA)
}

fn alpha_bands(dataset: &Dataset) -> Vec<usize> {
    (1..=dataset.bands()).filter(|&number| is_alpha(dataset, number)).collect()
}

/// What the file says of one band.
pub fn band(dataset: &Dataset, number: usize) -> Result<Fields, String> {
    let band = dataset.band(number)?;
    let mut told = Fields::default();
    told.put("type", kind_name(&band)?);
    told.put("scale", band.scale());
    told.put("offset", band.offset());
    told.put("unit", band.unit());
    told.put("description", band.description());
    for name in ["long_name", "standard_name", "units", "NETCDF_VARNAME"] {
        if let Some(value) = band.metadata_item(name, "") {
            told.put("described", value);
        }
    }
    if let Some(value) = dataset.metadata_item("TIFFTAG_IMAGEDESCRIPTION", "") {
        told.put("described", value);
    }
    if RADAR_PRODUCTS.contains(&dataset.driver().as_str()) {
        told.put("described", format!("amplitude, in a product of the driver {}", dataset.driver()));
    }
    told.put("palette", band.has_palette());
    // A VRT does not hand on how the elements stand in its sources.
    let is_inverted = |band: &Band| band.dataset_item("MINISWHITE", "IMAGE_STRUCTURE").is_some();
    let (mut packed, mut inverted) = (bits(&band), is_inverted(&band));
    each_source(dataset, DEEPEST, &mut |source| {
        for number in 1..=source.bands() {
            let band = source.band(number)?;
            inverted |= is_inverted(&band);
            packed = if bits(&band).is_multiple_of(8) { packed } else { bits(&band) };
        }
        Ok(())
    })?;
    told.put("bits", packed);
    told.put("inverted", inverted);
    match own_mask(dataset, number) {
        Ok(Some(mask)) => told.put("mask", mask.words),
        Ok(None) => {}
        Err(why) => told.put("mask-unclear", why),
    }
    Ok(told)
}

/// The element type by NumPy's name; a complex one is just `complex`.
fn kind_name(band: &Band) -> Result<&'static str, String> {
    Ok(match band.kind().ok_or("an element type that GDAL 3.6 does not have")? {
        Type::Byte if band.metadata_item("PIXELTYPE", "IMAGE_STRUCTURE").as_deref() == Some("SIGNEDBYTE") => "i1",
        Type::Byte => "u1",
        Type::UInt16 => "u2",
        Type::Int16 => "i2",
        Type::UInt32 => "u4",
        Type::Int32 => "i4",
        Type::UInt64 => "u8",
        Type::Int64 => "i8",
        Type::Float32 => "f4",
        Type::Float64 => "f8",
        Type::CInt16 | Type::CInt32 | Type::CFloat32 | Type::CFloat64 => "complex",
    })
}

/// Bits of an element in the file.
fn bits(band: &Band) -> usize {
    let named = band.metadata_item("NBITS", "IMAGE_STRUCTURE").and_then(|word| word.parse().ok());
    named.unwrap_or_else(|| 8 * band.kind().map_or(0, Type::width))
}

/// A part of a band that the program asks for.
pub struct Asked {
    band: usize,
    part: Part,
}

impl Asked {
    pub fn get(fields: &Fields) -> io::Result<Self> {
        let number = |name: &str| fields.number::<usize>(name);
        let part = Part { row: number("row")?, col: number("col")?, rows: number("rows")?, cols: number("cols")? };
        Ok(Asked { band: number("band")?, part })
    }
}

/// Sends the elements of a part, or the bytes of its mask: an answer, then the bytes in pieces.
pub fn send(dataset: &Dataset, asked: &Asked, of_mask: bool, out: &mut impl Write) -> io::Result<()> {
    let begun = (|| {
        let within = |from: usize, count: usize, all: usize| from.checked_add(count).is_some_and(|end| end <= all);
        if !within(asked.part.row, asked.part.rows, dataset.rows()) || !within(asked.part.col, asked.part.cols, dataset.cols()) {
            return Err("a part that the raster does not have".to_string());
        }
        let sent = Sent::choose(dataset, asked.band, of_mask)?;
        let (rows, cols) = sent.band.block();
        if rows.saturating_mul(cols).saturating_mul(sent.kind.width()) > MOST_BLOCK {
            return Err(format!("its blocks of {rows} rows of {cols} are larger than a whole scene may be"));
        }
        if asked.part.rows * asked.part.cols > 0 {
            if !of_mask {
                sound_pixels(dataset, &sent.band, asked.part)?;
                each_source(dataset, DEEPEST, &mut sound_whole)?;
            }
            if let (Some(band), "GTiff") = (&sent.blocks, dataset.driver().as_str()) {
                sound_blocks(dataset, band, asked.part)?;
            }
        }
        Ok(sent)
    })();
    let sent = match begun {
        Ok(sent) => sent,
        Err(why) => return wire::send(out, &["error", &why]),
    };
    wire::send(out, &["ok"])?;
    match pieces(&sent, asked.part, out)? {
        Ok(()) => wire::send_piece(out, &[])?,
        Err(why) => wire::send_broken(out, &why)?,
    }
    out.flush()
}

/// The band that is sent, and how.
struct Sent<'a> {
    band: Band<'a>,
    kind: Type,
    /// The band whose blocks in the file it is read from, where they are its own.
    blocks: Option<Band<'a>>,
    way: Way,
}

/// What becomes of the elements of a band that is sent.
#[derive(Clone, Copy)]
enum Way {
    AsTheyAre,
    /// A mask: 0 for 0 and NaN, 255 for all others, of f64 elements.
    NotZero,
    /// A mask: 0 for this number, 255 for all others, of signed bytes.
    NotSigned(i8),
}

impl<'a> Sent<'a> {
    fn choose(dataset: &'a Dataset, number: usize, of_mask: bool) -> Result<Self, String> {
        if of_mask {
            return own_mask(dataset, number)?.map(|mask| mask.sent).ok_or_else(|| "it has no mask".into());
        }
        let band = dataset.band(number)?;
        let kind = band.kind().ok_or("an element type that GDAL 3.6 does not have")?;
        Ok(Sent { band, kind, blocks: Some(dataset.band(number)?), way: Way::AsTheyAre })
    }
}

/// The mask that a raster itself has for a band, and where it comes from.
struct OwnMask<'a> {
    words: String,
    sent: Sent<'a>,
}

/// GDAL's mask of the band; beside it the nodata value of signed bytes and the alpha bands that GDAL makes no mask of (it takes byte
/// alpha after one or three bands alone). None where all is valid.
fn own_mask(dataset: &Dataset, number: usize) -> Result<Option<OwnMask<'_>>, String> {
    let band = dataset.band(number)?;
    let alphas = alpha_bands(dataset);
    let (words, blocks) = match (band.mask_flags(), band.nodata(), &alphas[..]) {
        (flags, nodata, _) if flags & dataset::MASK_NODATA != 0 => {
            (nodata.map_or("nodata values".to_string(), |value| format!("nodata {value}")), None)
        }
        (flags, _, alphas) if flags & dataset::MASK_ALPHA != 0 => {
            ("alpha band".to_string(), alphas.last().map(|&alpha| dataset.band(alpha)).transpose()?)
        }
        (flags, _, _) if flags & dataset::MASK_ALL_VALID == 0 => ("mask band".to_string(), Some(band.mask()?)),
        (_, Some(value), _) if kind_name(&band)? == "i1" => {
            let Some(signed) = value.parse().ok() else { return Ok(None) };
            let sent = Sent { band, kind: Type::Byte, blocks: None, way: Way::NotSigned(signed) };
            return Ok(Some(OwnMask { words: format!("nodata {value}"), sent }));
        }
        (_, _, []) => return Ok(None),
        (_, _, &[alpha]) => {
            let sent = Sent { band: dataset.band(alpha)?, kind: Type::Float64, blocks: Some(dataset.band(alpha)?), way: Way::NotZero };
            return Ok(Some(OwnMask { words: "alpha band".into(), sent }));
        }
        (_, _, several) => return Err(format!("it has {} alpha bands; name a marks file", several.len())),
    };
    Ok(Some(OwnMask { words, sent: Sent { band: band.mask()?, kind: Type::Byte, blocks, way: Way::AsTheyAre } }))
}

/// The elements in pieces of whole rows that begin and end where the file's blocks do.
fn pieces(sent: &Sent, part: Part, out: &mut impl Write) -> io::Result<Result<(), String>> {
    let width = sent.kind.width();
    let row_bytes = (part.cols * width).max(1);
    let (block, _) = sent.band.block();
    let step = (PIECE / row_bytes / block).max(1).saturating_mul(block);
    let mut bytes = Vec::new();
    let (mut row, end) = (part.row, part.row + part.rows);
    while row < end {
        let next = (row / step + 1).saturating_mul(step).min(end);
        bytes.resize((next - row) * part.cols * width, 0);
        let read = sent.band.read(Part { row, rows: next - row, ..part }, sent.kind, &mut bytes).and_then(|()| sound_messages());
        if let Err(why) = read {
            return Ok(Err(why));
        }
        match sent.way {
            Way::AsTheyAre => {}
            Way::NotZero => {
                let number = |b: &[u8]| f64::from_ne_bytes(b.try_into().expect("its width"));
                bytes = bytes.chunks_exact(width).map(|b| if number(b) == 0.0 || number(b).is_nan() { 0 } else { 255 }).collect();
            }
            Way::NotSigned(nodata) => bytes.iter_mut().for_each(|byte| *byte = if *byte as i8 == nodata { 0 } else { 255 }),
        }
        for piece in bytes.chunks(PIECE) {
            wire::send_piece(out, piece)?;
        }
        row = next;
    }
    Ok(Ok(()))
}

/// What GDAL said so far. A warning that it repaired something that decides where or what the pixels are is an error here: a directory
/// that lists one strip of two is read as good otherwise, with zeros for the rest.
fn sound_messages() -> Result<Vec<String>, String> {
    const DECISIVE: [&str; 20] = [
        "offsets", "bytecounts", "byte counts", "predictor", "bitspersample", "sampleformat", "samplesperpixel", "compression",
        "planarconfig", "fillorder", "rowsperstrip", "tilewidth", "tilelength", "tile length", "tile width", "imagewidth", "imagelength",
        "missing required", "incorrect count", "incompatible type",
    ];
    let mut notes = Vec::new();
    for (is_error, text) in dataset::take_messages() {
        let small = text.to_lowercase();
        if is_error || DECISIVE.iter().any(|word| small.contains(word)) {
            return Err(format!("damaged: {text}"));
        }
        notes.push(text);
    }
    Ok(notes)
}

/// VRTs over VRTs are followed this deep.
const DEEPEST: usize = 8;
/// The most pixels of a TIFF behind a VRT whose blocks are all unpacked to check them: those of four scenes.
const MOST_CHECKED: usize = 4 * 4096 * 4096;

/// Every raster behind a VRT; none behind any other.
fn each_source(dataset: &Dataset, deep: usize, look: &mut dyn FnMut(&Dataset) -> Result<(), String>) -> Result<(), String> {
    if dataset.driver() != "VRT" {
        return Ok(());
    }
    if deep == 0 {
        return Err("a VRT over VRTs, too deep to be checked".into());
    }
    for name in dataset.files().into_iter().skip(1) {
        let Ok(source) = Dataset::open(&name, None) else {
            dataset::take_messages();
            continue;
        };
        sound_messages().and_then(|_| look(&source)).map_err(|why| format!("{name}: {why}"))?;
        each_source(&source, deep - 1, look)?;
    }
    Ok(())
}

/// What GDAL reads as good, or may read wrongly, without a word.
fn sound_file(dataset: &Dataset) -> Result<(), String> {
    let driver = dataset.driver();
    if driver == "PNG" && is_animated(dataset) {
        return Err("an animated PNG: which of its pictures is meant?".into());
    }
    if driver == "GTiff" && dataset.metadata_item("PREDICTOR", "IMAGE_STRUCTURE").as_deref() == Some("3") && is_big_endian(dataset) {
        return Err(
            "a big-endian TIFF with predictor 3: libtiff writes the bytes of such floats in one order and reads them in the other, so \
                    the two kinds of file cannot be told apart. Write it again, little-endian or with another predictor"
                .into(),
        );
    }
    if driver == "VRT" && vrt_text(dataset).contains("VRTRawRasterBand") {
        return Err("a VRT over raw bytes, whose length nobody checks; name the raw file with a header of its own (ENVI)".into());
    }
    whole::cut_short(dataset).map_or(Ok(()), Err)
}

fn vrt_text(dataset: &Dataset) -> String {
    dataset.metadata("xml:VRT").concat()
}

/// Pixels that are not in the file must be invalid by a nodata value, as far as the driver tells of them. A VRT that is warped, or whose
/// sources have nodata values of their own, has such pixels too.
fn sound_pixels(dataset: &Dataset, band: &Band, part: Part) -> Result<(), String> {
    let has_holes = || {
        let text = if dataset.driver() == "VRT" { vrt_text(dataset) } else { String::new() };
        band.lacks_blocks(part) || text.contains("VRTWarpedDataset") || text.contains("<NODATA>")
    };
    if band.nodata().is_some() || !has_holes() {
        return Ok(());
    }
    Err("sparse: some of its pixels are not in the file and it names no nodata value, so they would be read as 0. Name one (gdal_edit.py \
         -a_nodata) or write the file whole (gdal_translate)"
        .into())
}

/// A TIFF behind a VRT is sound as a whole: which of its blocks the VRT reads it does not say.
fn sound_whole(source: &Dataset) -> Result<(), String> {
    if source.driver() != "GTiff" {
        return Ok(());
    }
    let whole = Part { row: 0, col: 0, rows: source.rows(), cols: source.cols() };
    let together = source.metadata_item("INTERLEAVE", "IMAGE_STRUCTURE").as_deref() == Some("PIXEL");
    for number in 1..=source.bands() {
        let band = source.band(number)?;
        sound_pixels(source, &band, whole)?;
        if whole.rows.saturating_mul(whole.cols) <= MOST_CHECKED && (number == 1 || !together) {
            sound_blocks(source, &band, whole)?;
        }
    }
    Ok(())
}

/// Checks the blocks of a TIFF: each stands within the file and not in its header, and a deflated one has its Adler-32 and the length
/// that the directory gives it. libtiff takes a block whose stream goes on after the last element, and so lets flipped bits pass.
fn sound_blocks(dataset: &Dataset, band: &Band, part: Part) -> Result<(), String> {
    const HEADER: u64 = 8;
    // A mask beside the file has a name of its own; one within it, or a page of it, is in the main file.
    let names = std::iter::once(band.dataset_name()).chain(dataset.files());
    let Some(file) = names.filter(|name| !name.is_empty()).find_map(|name| RawFile::open(&name).ok()) else {
        return Err("cannot be opened again to check its blocks".into());
    };
    let length = file.len();
    let is_deflated = band.dataset_item("COMPRESSION", "IMAGE_STRUCTURE").as_deref() == Some("DEFLATE");
    let (all_rows, _, bands) = band.dataset_sides();
    let (rows, cols) = band.block();
    let together = band.dataset_item("INTERLEAVE", "IMAGE_STRUCTURE").as_deref() == Some("PIXEL");
    let row_bytes = cols.saturating_mul(bits(band)).saturating_mul(if together { bands } else { 1 }).div_ceil(8);
    if row_bytes.saturating_mul(rows) > MOST_BLOCK {
        return Err(format!("its blocks of {rows} rows of {cols} are larger than a whole scene may be"));
    }
    let mut packed = Vec::new();
    let mut unpacked = vec![0; if is_deflated { row_bytes * rows + 1 } else { 0 }];
    for y in part.row / rows..=(part.row + part.rows - 1) / rows {
        for x in part.col / cols..=(part.col + part.cols - 1) / cols {
            let item = |what: &str| band.metadata_item(&format!("BLOCK_{what}_{x}_{y}"), "TIFF").and_then(|word| word.parse::<u64>().ok());
            let (Some(offset), Some(size)) = (item("OFFSET"), item("SIZE")) else { continue };
            let damaged = |what: &str| Err(format!("damaged: the block at row {}, column {} {what}", y * rows, x * cols));
            if size > 0 && (offset < HEADER || offset.checked_add(size).is_none_or(|end| end > length)) {
                return damaged("is not within the file");
            }
            if !is_deflated {
                continue;
            }
            if size > 2 * MOST_BLOCK as u64 {
                return damaged("is longer than any block");
            }
            packed.resize(size as usize, 0);
            if file.read_at(offset, &mut packed) != packed.len() {
                return damaged("is not within the file");
            }
            let mut stream = Decompress::new(true);
            if !matches!(stream.decompress(&packed, &mut unpacked, FlushDecompress::Finish), Ok(Status::StreamEnd)) {
                return damaged("does not unpack with its checksum");
            }
            let last = (all_rows - y * rows).min(rows);
            if ![row_bytes * rows, row_bytes * last].contains(&(stream.total_out() as usize)) {
                return damaged("has not the length that its sides give");
            }
        }
    }
    Ok(())
}

/// Whether the dataset's main file begins as a big-endian TIFF does.
fn is_big_endian(dataset: &Dataset) -> bool {
    let mut first = [0; 2];
    let file = dataset.files().into_iter().next().and_then(|name| RawFile::open(&name).ok());
    file.is_some_and(|file| file.read_at(0, &mut first) == 2 && &first == b"MM")
}

/// Whether a PNG has an animation's chunk before its picture.
fn is_animated(dataset: &Dataset) -> bool {
    let Some(file) = dataset.files().into_iter().next().and_then(|name| RawFile::open(&name).ok()) else { return false };
    let mut at = 8u64;
    let mut head = [0; 8];
    for _ in 0..4096 {
        if file.read_at(at, &mut head) < 8 {
            return false;
        }
        match &head[4..] {
            b"acTL" => return true,
            b"IDAT" | b"IEND" => return false,
            _ => at += 12 + u64::from(u32::from_be_bytes([head[0], head[1], head[2], head[3]])),
        }
    }
    false
}
