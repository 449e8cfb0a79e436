//! Rasters by name: opened, told what their files say, judged, and read exactly or refused. `.npy` files are read here, all others by
//! GDAL's process (gdal.rs).

use crate::bytes::{Bytes, STANDARD_INPUT, open_plain};
use crate::elements::{self, Kind, Layout, Stop};
use crate::gdal::Process;
use crate::memory::{self, Plain};
use crate::npy;
use crate::origin::Input;
use crate::said::{Role, Said};
use crate::trouble::{Outcome, Trouble};
use std::ffi::OsStr;
use std::fs::FileType;
use std::io::{self, Read};
use std::ops::Range;
use std::os::unix::fs::FileTypeExt;
use std::path::{Path, PathBuf};
use std::sync::{Arc, Mutex};
use wire::{Fields, Georeference, Part};

/// A raster's name: a file, standard input or whatever GDAL opens, and a band of it where one is named.
#[derive(Clone, Debug)]
pub struct Name {
    path: PathBuf,
    band: Option<usize>,
    /// Whether a .npy file is mapped.
    is_mapped: bool,
}

impl Name {
    /// `FILE`, or `FILE:BAND` where no file of the whole name exists.
    pub fn new(word: &OsStr, is_mapped: bool) -> Self {
        let whole = Name { path: word.into(), band: None, is_mapped };
        let Some((head, tail)) = word.to_str().and_then(|text| text.rsplit_once(':')) else { return whole };
        match tail.parse::<usize>() {
            Ok(band) if tail.bytes().all(|c| c.is_ascii_digit()) && !head.is_empty() && !whole.path.exists() => {
                Name { path: head.into(), band: Some(band), is_mapped }
            }
            _ => whole,
        }
    }

    pub fn with_band(&self, band: usize) -> Self {
        Name { band: Some(band), ..self.clone() }
    }

    pub fn names_band(&self) -> bool {
        self.band.is_some()
    }

    fn is_standard_input(&self) -> bool {
        self.path.as_os_str() == STANDARD_INPUT
    }

    fn shown(&self) -> String {
        if self.is_standard_input() {
            return "standard input".into();
        }
        match self.band {
            Some(band) => format!("{}:{band}", self.path.display()),
            None => self.path.display().to_string(),
        }
    }
}

enum Store {
    Npy { bytes: Arc<Bytes>, head: npy::Header },
    Gdal { process: Mutex<Process> },
}

/// One band of an opened raster.
pub struct Source {
    pub shown: String,
    pub rows: usize,
    pub cols: usize,
    pub georeference: Georeference,
    pub inputs: Vec<Input>,
    /// What GDAL had to say that decides nothing.
    pub notes: Vec<String>,
    band: usize,
    all_bands: usize,
    /// How many bands hold data, and the first of them.
    data_count: usize,
    data_bands: Vec<usize>,
    layout: Option<Layout>,
    said: Said,
    store: Store,
}

/// Marks of a raster's own.
pub struct OwnMarks {
    pub marks: Vec<u8>,
    /// Where they come from, with the pixels that each source makes invalid, in words.
    pub source: String,
}

/// What `own_marks` counts.
#[derive(Default)]
struct Invalid {
    masked: usize,
    nan: usize,
    partly: usize,
}

impl Source {
    /// Opens a raster by name; where no band is named it must have one data band, or `wanted` of them (the first is taken).
    pub fn open(name: &Name, wanted: usize) -> Outcome<Source> {
        // A name that ends in digits may be one of GDAL's own, such as an array's slice.
        if let (Some(band), false) = (name.band, name.path.exists() || name.is_standard_input()) {
            let whole = Name { path: format!("{}:{band}", name.path.display()).into(), band: None, ..*name };
            if let Ok(source) = Source::open(&whole, wanted) {
                return Ok(source);
            }
        }
        let is_special = |kind: FileType| kind.is_fifo() || kind.is_socket() || kind.is_char_device() || kind.is_block_device();
        if name.path.starts_with("/vsistdin") || std::fs::metadata(&name.path).is_ok_and(|meta| is_special(meta.file_type())) {
            return Err(Trouble::named(name.shown(), "not a plain file; - reads a .npy from standard input"));
        }
        let opened = if name.is_standard_input() || is_npy(&name.path) { open_npy(name) } else { open_gdal(name) };
        let mut source = opened?;
        match name.band {
            Some(band) if band == 0 || band > source.all_bands => {
                return Err(Trouble::Usage(format!("{}: there is no band {band}", source.shown)));
            }
            Some(_) => {}
            None if source.data_count == wanted || source.data_count == 1 => {}
            None => {
                return Err(Trouble::Usage(format!(
                    "{0}: {1} bands; name {2} one, as {0}:{3}",
                    source.shown,
                    source.data_count,
                    if wanted == 1 { "the" } else { "each" },
                    source.data_bands.last().copied().unwrap_or(1),
                )));
            }
        }
        source.choose(name.band.or(source.data_bands.first().copied()).unwrap_or(1))?;
        Ok(source)
    }

    /// The bands that hold data.
    pub fn data_bands(&self) -> &[usize] {
        &self.data_bands
    }

    pub fn band(&self) -> usize {
        self.band
    }

    /// Takes a band, with what the file says of it.
    fn choose(&mut self, band: usize) -> Outcome<()> {
        self.band = band;
        match &self.store {
            Store::Npy { .. } => {}
            Store::Gdal { process } => {
                let bad = |what: String| Trouble::named(&self.shown, what);
                let mut fields = Fields::default();
                fields.put("band", band);
                let told = held(process).ask("band", &fields).map_err(bad)?;
                let number = |name: &str| told.number::<f64>(name).map_err(|e| bad(e.to_string()));
                self.layout = Kind::of_name(&told.text("type")).map(|kind| Layout { kind, big_endian: cfg!(target_endian = "big") });
                self.said = Said {
                    is_complex: told.get("type") == Some("complex"),
                    has_palette: told.get("palette") == Some("true"),
                    is_inverted: told.get("inverted") == Some("true"),
                    bits: number("bits")? as usize,
                    unit: told.text("unit"),
                    descriptions: std::iter::once(told.text("description")).chain(told.all("described").map(str::to_string)).collect(),
                    scale: number("scale")?,
                    offset: number("offset")?,
                    mask: match (told.get("mask"), told.get("mask-unclear")) {
                        (Some(words), _) => Some(Ok(words.to_string())),
                        (None, why) => why.map(|why| Err(why.to_string())),
                    },
                };
            }
        }
        Ok(())
    }

    pub fn whole(&self) -> Part {
        Part { row: 0, col: 0, rows: self.rows, cols: self.cols }
    }

    /// The part that a crop names, which must lie within the raster.
    pub fn part(&self, crop: Option<Part>) -> Outcome<Part> {
        let Some(crop) = crop else { return Ok(self.whole()) };
        let within = |from: usize, count: usize, all: usize| from.checked_add(count).is_some_and(|end| end <= all);
        if within(crop.row, crop.rows, self.rows) && within(crop.col, crop.cols, self.cols) {
            return Ok(crop);
        }
        Err(Trouble::Usage(format!("--crop: {} has {} rows of {}, and the part goes beyond them", self.shown, self.rows, self.cols)))
    }

    /// Whether the file says that its elements are something else than what they are to be.
    pub fn judge(&self, role: Role) -> Outcome<()> {
        self.said.judge(self.layout, role).map_err(|why| Trouble::named(&self.shown, why))
    }

    pub fn kind(&self) -> Option<Kind> {
        self.layout.map(|layout| layout.kind)
    }

    /// The scale and offset of the band, where they change anything.
    pub fn scaling(&self) -> Option<(f64, f64)> {
        self.said.scaling()
    }

    /// The elements of a part, row by row, each turned from its exact number by `take`.
    pub fn read<T: Plain>(&self, part: Part, take: impl Fn(f64) -> Option<T>) -> Result<Vec<T>, Failed> {
        let layout = self.layout.ok_or_else(|| Failed::File("an element type that is not read".into()))?;
        let count = part.rows * part.cols;
        let read = match &self.store {
            Store::Npy { bytes, head } => read_npy(bytes, head, part, take),
            Store::Gdal { process } => held(process)
                .elements("pixels", self.band, part, |mut input| elements::read(&mut input, layout, count, take))
                .map_err(Failed::File)?,
        };
        read.map_err(|stop| match stop {
            Stop::Stream(_) => Failed::File(stop.to_string()),
            Stop::Memory(trouble) => Failed::Memory(trouble),
            Stop::Element { at, value } => Failed::Element { row: part.row + at / part.cols, col: part.col + at % part.cols, value },
        })
    }

    /// Whole lines of a .npy file whose elements are just those of T: where they stand in memory, else read at once.
    fn plain<T: Element>(&self, part: Part) -> Option<Result<List<T>, Failed>> {
        let Store::Npy { bytes, head } = &self.store else { return None };
        let is_plain = !head.fortran && !head.layout.big_endian && cfg!(target_endian = "little") && T::KINDS.contains(&head.layout.kind);
        if !is_plain || part.cols != self.cols {
            return None;
        }
        let width = std::mem::size_of::<T>();
        let start = head.start + part.row * self.cols * width;
        let count = part.rows * part.cols;
        if let Some(all) = bytes.in_memory() {
            let is_aligned = (all.as_ptr() as usize + start).is_multiple_of(std::mem::align_of::<T>());
            return is_aligned.then(|| Ok(List::InPlace { bytes: bytes.clone(), range: start..start + count * width }));
        }
        let read = memory::zeros(count, "a raster").map_err(Failed::Memory).and_then(|mut list: Vec<T>| {
            // SAFETY: every bit pattern is a T, and the bytes are just those of the list.
            let (before, into, after) = unsafe { list.align_to_mut::<u8>() };
            debug_assert!(before.is_empty() && after.is_empty());
            bytes.read(start, into).map_err(|e| Failed::File(Stop::Stream(e).to_string()))?;
            Ok(List::Owned(list))
        });
        Some(read)
    }

    /// The elements of a part: as they stand where that can be, else each turned by `take`.
    pub fn list<T: Element>(&self, part: Part, take: impl Fn(f64) -> Option<T>) -> Result<List<T>, Failed> {
        match self.plain(part) {
            Some(list) => list,
            None => self.read(part, take).map(List::Owned),
        }
    }

    /// Marks by what the raster itself says: GDAL's mask of the band (nodata, a mask band, alpha), and NaN.
    pub fn own_marks(&self, part: Part, db: &[f64]) -> Outcome<OwnMarks> {
        let mut counts = Invalid::default();
        let mut marks = match self.mask(part)? {
            Some(mask) => mask,
            None => {
                let mut all = memory::zeros(db.len(), "marks")?;
                all.fill(255);
                all
            }
        };
        for (mark, value) in marks.iter_mut().zip(db) {
            match *mark {
                0 => counts.masked += 1,
                255 => {}
                _ => counts.partly += 1,
            }
            counts.nan += usize::from(*mark != 0 && value.is_nan());
            *mark = u8::from(*mark != 0 && !value.is_nan());
        }
        let mut parts = Vec::new();
        if let Some(Ok(words)) = &self.said.mask {
            parts.push(format!("{words}: {} invalid", counts.masked));
        }
        if counts.partly > 0 {
            parts.push(format!("{} partly transparent, counted as valid", counts.partly));
        }
        if counts.nan > 0 {
            parts.push(format!("NaN: {} invalid", counts.nan));
        }
        let by =
            if parts.is_empty() { "no nodata, mask, alpha or NaN in it".to_string() } else { format!("marks by {}", parts.join(", ")) };
        let source = format!("{by}; {} of {} pixels invalid", counts.masked + counts.nan, db.len());
        Ok(OwnMarks { marks, source })
    }

    /// The raster's own mask of the band, 0 where invalid; none where it has none.
    pub fn mask(&self, part: Part) -> Outcome<Option<Vec<u8>>> {
        let bad = |what: String| Trouble::named(&self.shown, format!("its mask: {what}"));
        match (&self.store, &self.said.mask) {
            (Store::Npy { .. }, _) | (_, None) => Ok(None),
            (_, Some(Err(why))) => Err(bad(why.clone())),
            (Store::Gdal { process }, Some(Ok(_))) => {
                let mut list = memory::zeros(part.rows * part.cols, "a mask")?;
                let take = |input: &mut dyn Read| -> io::Result<Vec<u8>> {
                    input.read_exact(&mut list)?;
                    Ok(list)
                };
                let read = held(process).elements("mask", self.band, part, take).map_err(bad)?;
                read.map(Some).map_err(|e| bad(e.to_string()))
            }
        }
    }
}

/// Why elements could not be read.
pub enum Failed {
    File(String),
    Memory(Trouble),
    /// The element there, by the file's own rows and columns, has a value that cannot be taken.
    Element {
        row: usize,
        col: usize,
        value: String,
    },
}

impl Failed {
    /// As a file's trouble; `what` says of a single element why it cannot be taken.
    pub fn trouble(self, source: &Source, what: &str) -> Trouble {
        match self {
            Failed::File(why) => Trouble::named(&source.shown, why),
            Failed::Memory(trouble) => trouble,
            Failed::Element { row, col, value } => Trouble::named(&source.shown, format!("row {row}, column {col}: {value} {what}")),
        }
    }
}

/// Whether a file is NumPy's, by its name or its first bytes.
fn is_npy(path: &Path) -> bool {
    let mut first = [0; 6];
    path.extension().is_some_and(|ending| ending == "npy")
        || open_plain(path).is_ok_and(|(mut file, _)| file.read_exact(&mut first).is_ok() && &first == npy::MAGIC)
}

fn open_npy(name: &Name) -> Outcome<Source> {
    let shown = name.shown();
    let path = Path::new(&shown);
    let (bytes, stamp) = if name.is_standard_input() {
        (Bytes::of_standard_input()?, None)
    } else {
        let (bytes, stamp) = Bytes::open(&name.path, name.is_mapped)?;
        (bytes, Some(stamp))
    };
    let mut first = vec![0; bytes.len().min(npy::LONGEST_HEADER as u64) as usize];
    bytes.read(0, &mut first).map_err(|e| Trouble::file(path, Stop::Stream(e)))?;
    let head = npy::header(path, &first, bytes.len())?;
    let input = match (stamp, bytes.in_memory()) {
        (None, Some(all)) => Input::of_bytes(&shown, all),
        (stamp, _) => Input { path: name.path.clone(), stamp, digest: None },
    };
    Ok(Source {
        rows: head.rows,
        cols: head.cols,
        georeference: Georeference::default(),
        inputs: vec![input],
        notes: Vec::new(),
        band: 1,
        all_bands: 1,
        data_count: 1,
        data_bands: vec![1],
        layout: Some(head.layout),
        said: Said { scale: 1.0, ..Said::default() },
        store: Store::Npy { bytes: Arc::new(bytes), head },
        shown,
    })
}

/// The elements of a part of a .npy file.
fn read_npy<T: Plain>(bytes: &Bytes, head: &npy::Header, part: Part, take: impl Fn(f64) -> Option<T>) -> Result<Vec<T>, Stop> {
    let width = head.layout.kind.width();
    // As if the part stood row by row: lines of a Fortran file are its columns.
    let (lines, from, first, each) =
        if head.fortran { (part.cols, part.col, part.row, part.rows) } else { (part.rows, part.row, part.col, part.cols) };
    let line_len = if head.fortran { head.rows } else { head.cols };
    let mut list = memory::room(lines * each, "a raster").map_err(Stop::Memory)?;
    let mut line_bytes = memory::zeros(each * width, "a raster").map_err(Stop::Memory)?;
    for line in from..from + lines {
        bytes.read(head.start + (line * line_len + first) * width, &mut line_bytes)?;
        let read = elements::read(&mut &line_bytes[..], head.layout, each, &take).map_err(|stop| match stop {
            Stop::Element { at, value } if head.fortran => Stop::Element { at: at * part.cols + line - from, value },
            Stop::Element { at, value } => Stop::Element { at: (line - from) * part.cols + at, value },
            other => other,
        });
        list.extend(read?);
    }
    if head.fortran { elements::turned(&list, part.rows, part.cols).map_err(Stop::Memory) } else { Ok(list) }
}

/// The plain files that a name of GDAL's own has in it, such as `/vsizip/scene.zip/vv.tif` or `/vsisubfile/0,scene.tif`.
fn files_within(name: &str) -> Vec<PathBuf> {
    const MARKS: [char; 9] = ['/', ',', ':', '"', '=', '?', '&', '{', '}'];
    const MOST_MARKS: usize = 100;
    if name.matches(MARKS).count() > MOST_MARKS {
        return Vec::new();
    }
    let starts = std::iter::once(0).chain(name.match_indices(MARKS).flat_map(|(at, _)| [at, at + 1]));
    let ends: Vec<usize> = name.match_indices(MARKS).map(|(at, _)| at).chain([name.len()]).collect();
    let words = starts.flat_map(|start| ends.iter().filter(move |&&end| end > start).map(move |&end| &name[start..end]));
    let mut files: Vec<PathBuf> = words.map(PathBuf::from).filter(|path| path.is_file()).collect();
    files.sort();
    files.dedup();
    files
}

fn open_gdal(name: &Name) -> Outcome<Source> {
    let shown = name.shown();
    let bad = |what: String| Trouble::named(&shown, what);
    let path = name.path.to_str().ok_or_else(|| bad("a name that is not UTF-8: GDAL takes no other".into()))?;
    let mut process = Process::start().map_err(bad)?;
    let mut fields = Fields::default();
    fields.put("name", path);
    let told = process.ask("open", &fields).map_err(bad)?;
    let number = |name: &str| told.number::<usize>(name).map_err(|e| bad(e.to_string()));
    let parts: Vec<&str> = told.all("subdataset").collect();
    let is_paged = told.get("driver") == Some("GTiff") && !path.starts_with("GTIFF_DIR:");
    if !parts.is_empty() && (number("bands")? == 0 || is_paged) {
        return Err(bad(format!("several rasters; name one of {}", parts.join(", "))));
    }
    let mut files: Vec<PathBuf> = told.all("file").map(PathBuf::from).filter(|file| file.is_file()).collect();
    if files.is_empty() {
        files = files_within(path);
    }
    Ok(Source {
        rows: number("rows")?,
        cols: number("cols")?,
        georeference: Georeference::get(&told).map_err(|e| bad(e.to_string()))?,
        inputs: if files.is_empty() { vec![Input::of(&name.path)] } else { files.iter().map(|file| Input::of(file)).collect() },
        notes: told.all("note").map(str::to_string).collect(),
        band: 0,
        all_bands: number("bands")?,
        data_count: number("data-bands")?,
        data_bands: told.all("data-band").filter_map(|word| word.parse().ok()).collect(),
        layout: None,
        said: Said::default(),
        store: Store::Gdal { process: Mutex::new(process) },
        shown,
    })
}

/// A list of elements, or where they stand in a file's bytes.
pub enum List<T> {
    Owned(Vec<T>),
    InPlace { bytes: Arc<Bytes>, range: Range<usize> },
}

/// An element that any bit pattern is a value of.
pub trait Element: Plain {
    const KINDS: &'static [Kind];
}
impl Element for u8 {
    const KINDS: &'static [Kind] = &[Kind::U8, Kind::Bool];
}
impl Element for u16 {
    const KINDS: &'static [Kind] = &[Kind::U16];
}
impl Element for f32 {
    const KINDS: &'static [Kind] = &[Kind::F32];
}
impl Element for f64 {
    const KINDS: &'static [Kind] = &[Kind::F64];
}

impl<T: Element> List<T> {
    pub fn elements(&self) -> &[T] {
        match self {
            List::Owned(list) => list,
            List::InPlace { bytes, range } => {
                // SAFETY: every bit pattern is a T, and the start was tested to be aligned when the part was taken.
                let (before, elements, after) = unsafe { bytes.in_memory().unwrap_or_default()[range.clone()].align_to::<T>() };
                debug_assert!(before.is_empty() && after.is_empty());
                elements
            }
        }
    }
}

/// The process, for one request at a time.
fn held(process: &Mutex<Process>) -> std::sync::MutexGuard<'_, Process> {
    process.lock().unwrap_or_else(|poisoned| poisoned.into_inner())
}
