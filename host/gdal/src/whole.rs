//! Files that end too early: some of GDAL's drivers read what is not there as zeros. A raster of such a driver is refused here unless its
//! file is as long as its own header says.

use crate::dataset::{Dataset, RawFile};

/// Why the dataset's file is not whole, where its driver would not say so.
pub fn cut_short(dataset: &Dataset) -> Option<String> {
    let files: Vec<RawFile> =
        dataset.files().iter().filter(|name| !name.ends_with(".xml")).filter_map(|name| RawFile::open(name).ok()).collect();
    let (file, wanted) = match dataset.driver().as_str() {
        "netCDF" => (files.first()?, classic_netcdf(files.first()?)?),
        "PCIDSK" => (files.first()?, pcidsk(files.first()?)?),
        name if RAW.contains(&name) => (files.iter().max_by_key(|file| file.len())?, raw(dataset)?),
        _ => return None,
    };
    if file.len() < wanted { Some(format!("truncated: {} of {wanted} bytes", file.len())) } else { None }
}

/// Formats whose elements stand in a file as they are, beside a header of their own.
const RAW: [&str; 13] = ["ENVI", "EHdr", "ISCE", "SAGA", "KRO", "PAux", "MFF", "ROI_PAC", "RRASTER", "NDF", "GenBin", "GSC", "PCRaster"];

/// Raw elements: all bands' bytes, after an offset where the header (ENVI's) names one.
fn raw(dataset: &Dataset) -> Option<u64> {
    let item = |name: &str| dataset.metadata_item(name, "ENVI").and_then(|word| word.trim().parse::<u64>().ok());
    if item("file_compression").is_some_and(|number| number != 0) {
        return None;
    }
    let mut widths = 0;
    for number in 1..=dataset.bands() {
        widths += dataset.band(number).ok()?.kind()?.width() as u64;
    }
    let count = (dataset.rows() as u64).checked_mul(dataset.cols() as u64)?;
    count.checked_mul(widths)?.checked_add(item("header_offset").unwrap_or(0))
}

/// PCIDSK: the file's size in blocks of 512 bytes stands in its header as digits.
fn pcidsk(file: &RawFile) -> Option<u64> {
    let mut digits = [0; 16];
    (file.read_at(16, &mut digits) == 16).then_some(())?;
    std::str::from_utf8(&digits).ok()?.trim().parse::<u64>().ok()?.checked_mul(512)
}

/// NetCDF's classic format (versions 1, 2 and 5): the end of the last element of any variable. None for NetCDF 4, whose own library checks.
fn classic_netcdf(file: &RawFile) -> Option<u64> {
    let mut head = vec![0; 1 << 20];
    let got = file.read_at(0, &mut head);
    head.truncate(got);
    let mut words = Words { rest: head.strip_prefix(b"CDF")?, version: 0 };
    words.version = words.take(1)?[0];
    let records = words.number()?;
    let mut sides = Vec::new();
    words.list(|words| {
        words.name()?;
        sides.push(words.number()?);
        Some(())
    })?;
    words.attributes()?;
    let mut ends = Vec::new();
    let mut of_records = Vec::new();
    words.list(|words| {
        words.name()?;
        let dimensions: Vec<u64> = (0..words.number()?).map(|_| Some(*sides.get(words.number()? as usize)?)).collect::<Option<_>>()?;
        words.attributes()?;
        let width = width(words.four()?)?;
        words.number()?;
        let begin = words.offset()?;
        let is_record = dimensions.first() == Some(&0);
        let bytes = dimensions[usize::from(is_record)..].iter().try_fold(width, |bytes, side| bytes.checked_mul(*side))?;
        if is_record {
            of_records.push((begin, bytes));
        } else {
            ends.push(begin.checked_add(bytes)?);
        }
        Some(())
    })?;
    // Records follow each other, each variable's part filled up to four bytes unless it is the only one.
    let padded = |bytes: u64| if of_records.len() == 1 { bytes } else { bytes.div_ceil(4) * 4 };
    let record: u64 = of_records.iter().map(|(_, bytes)| padded(*bytes)).sum();
    if records > 0 && records != u64::from(u32::MAX) {
        for (begin, bytes) in &of_records {
            ends.push(begin.checked_add(record.checked_mul(records - 1)?)?.checked_add(*bytes)?);
        }
    }
    ends.into_iter().max()
}

/// Bytes of an element of a classic type.
fn width(kind: u64) -> Option<u64> {
    match kind {
        1 | 2 | 7 => Some(1),
        3 | 8 => Some(2),
        4 | 5 | 9 => Some(4),
        6 | 10 | 11 => Some(8),
        _ => None,
    }
}

/// A classic header as it is read on.
struct Words<'a> {
    rest: &'a [u8],
    version: u8,
}

impl<'a> Words<'a> {
    fn take(&mut self, count: u64) -> Option<&'a [u8]> {
        let count = usize::try_from(count).ok().filter(|count| *count <= self.rest.len())?;
        let (taken, rest) = self.rest.split_at(count);
        self.rest = rest;
        Some(taken)
    }

    fn four(&mut self) -> Option<u64> {
        Some(u64::from(u32::from_be_bytes(self.take(4)?.try_into().ok()?)))
    }

    fn eight(&mut self) -> Option<u64> {
        Some(u64::from_be_bytes(self.take(8)?.try_into().ok()?))
    }

    /// A count: of eight bytes in version 5.
    fn number(&mut self) -> Option<u64> {
        if self.version == 5 { self.eight() } else { self.four() }
    }

    /// A place in the file: of four bytes in version 1.
    fn offset(&mut self) -> Option<u64> {
        if self.version == 1 { self.four() } else { self.eight() }
    }

    fn name(&mut self) -> Option<()> {
        let len = self.number()?;
        self.take(len.checked_add(3)? / 4 * 4).map(|_| ())
    }

    /// A tag, a count and that many things.
    fn list(&mut self, mut each: impl FnMut(&mut Self) -> Option<()>) -> Option<()> {
        self.four()?;
        (0..self.number()?).try_for_each(|_| each(self))
    }

    fn attributes(&mut self) -> Option<()> {
        self.list(|words| {
            words.name()?;
            let width = width(words.four()?)?;
            let bytes = words.number()?.checked_mul(width)?;
            words.take(bytes.checked_add(3)? / 4 * 4).map(|_| ())
        })
    }
}
