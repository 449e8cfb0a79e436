//! GDAL for Rust, as far as rasters are read and written here: datasets, bands and their masks, files. With ground.rs all that is
//! `unsafe` about GDAL; nothing here decides anything about pixels.

use crate::c;
use crate::ground::{Crs, GcpList, crs_words};
use std::ffi::{CStr, CString};
use std::marker::PhantomData;
use std::os::raw::{c_char, c_int, c_void};
use std::ptr::{null, null_mut};
use std::sync::Mutex;
use std::sync::atomic::{AtomicBool, Ordering::SeqCst};
use wire::{Crs as CrsWords, Gcp, Part};

/// What GDAL said since the last `take_messages`: errors and warnings, in their order.
static MESSAGES: Mutex<Vec<(bool, String)>> = Mutex::new(Vec::new());

/// Messages kept at most; one more is an error of its own, so that none is lost unseen.
const MOST_MESSAGES: usize = 1000;

extern "C" fn keep_message(class: c_int, _number: c_int, text: *const c_char) {
    const WARNING: c_int = 2;
    let Ok(mut messages) = MESSAGES.lock() else { return };
    if class < WARNING || messages.len() > MOST_MESSAGES {
        return;
    }
    let message = if messages.len() == MOST_MESSAGES { (true, "too many messages".into()) } else { (class > WARNING, string(text)) };
    messages.push(message);
}

/// The messages since the last call: (is an error, its text).
pub fn take_messages() -> Vec<(bool, String)> {
    MESSAGES.lock().map(|mut messages| std::mem::take(&mut *messages)).unwrap_or_default()
}

/// The last error's text, or what was being done where GDAL gave none.
pub(crate) fn error(doing: &str) -> String {
    let messages = take_messages();
    messages.into_iter().rev().find(|(is_error, _)| *is_error).map_or_else(|| doing.to_string(), |(_, text)| text)
}

/// Registers the drivers, keeps messages for `take_messages` and bounds the block cache.
pub fn start(cache_bytes: i64) {
    unsafe {
        c::CPLSetErrorHandler(keep_message);
        c::CPLSetConfigOption(text("GDAL_TIFF_INTERNAL_MASK").as_ptr(), text("YES").as_ptr());
        c::GDALSetCacheMax64(cache_bytes);
        c::GDALAllRegister();
    }
}

/// Ends the process by a signal unless it is called again, with 0 or more seconds, before these are over.
pub fn end_after(seconds: u32) {
    unsafe {
        libc::signal(libc::SIGALRM, libc::SIG_DFL);
        libc::alarm(seconds);
    }
}

/// Ends this process when the one that started it ends, however that ends.
pub fn end_with_parent() {
    unsafe { libc::prctl(libc::PR_SET_PDEATHSIG, libc::SIGKILL) };
}

/// Whether there is less memory than this process is meant to have.
static IS_NARROW: AtomicBool = AtomicBool::new(false);

/// The threads that a driver may write with. Where one of them finds no memory GDAL waits for it for ever, so none where memory is short.
pub fn threads() -> &'static str {
    if IS_NARROW.load(SeqCst) { "NUM_THREADS=1" } else { "NUM_THREADS=2" }
}

/// No more address space, memory and processor time than these, or than whoever started the program allows, so that a hostile file ends
/// the reader and nothing else.
pub fn limit(address_bytes: u64, memory_bytes: u64, seconds: u64) {
    for (resource, most) in
        [(libc::RLIMIT_AS, address_bytes), (libc::RLIMIT_DATA, memory_bytes), (libc::RLIMIT_CPU, seconds), (libc::RLIMIT_CORE, 0)]
    {
        let mut bounds = libc::rlimit { rlim_cur: most, rlim_max: most };
        unsafe { libc::getrlimit(resource, &mut bounds) };
        if [libc::RLIMIT_AS, libc::RLIMIT_DATA].contains(&resource) && bounds.rlim_cur < most {
            IS_NARROW.store(true, SeqCst);
        }
        let most = most.min(bounds.rlim_cur);
        bounds = libc::rlimit { rlim_cur: most, rlim_max: most };
        unsafe { libc::setrlimit(resource, &bounds) };
    }
}

pub fn version() -> String {
    string(unsafe { c::GDALVersionInfo(text("RELEASE_NAME").as_ptr()) })
}

/// A C string of Rust's; a NUL within ends it.
pub(crate) fn text(words: &str) -> CString {
    CString::new(words.split('\0').next().unwrap_or_default()).expect("no NUL is left")
}

/// Rust's string of a C one; null is empty.
pub(crate) fn string(words: *const c_char) -> String {
    if words.is_null() { String::new() } else { unsafe { CStr::from_ptr(words) }.to_string_lossy().into_owned() }
}

/// The strings of a list that ends in null.
fn strings(list: *const *mut c_char) -> Vec<String> {
    let mut found = Vec::new();
    if !list.is_null() {
        let mut at = list;
        while !unsafe { *at }.is_null() {
            found.push(string(unsafe { *at }));
            at = unsafe { at.add(1) };
        }
    }
    found
}

/// A list of C strings that ends in null, for a call.
pub(crate) struct Options {
    _strings: Vec<CString>,
    pub(crate) pointers: Vec<*const c_char>,
}

impl Options {
    pub(crate) fn new(words: &[&str]) -> Self {
        let strings: Vec<CString> = words.iter().map(|word| text(word)).collect();
        let pointers = strings.iter().map(|s| s.as_ptr()).chain([null()]).collect();
        Options { _strings: strings, pointers }
    }
}

/// GDAL's element types, by their numbers in gdal.h.
#[derive(Clone, Copy, Debug, PartialEq, Eq)]
pub enum Type {
    Byte = 1,
    UInt16 = 2,
    Int16 = 3,
    UInt32 = 4,
    Int32 = 5,
    Float32 = 6,
    Float64 = 7,
    CInt16 = 8,
    CInt32 = 9,
    CFloat32 = 10,
    CFloat64 = 11,
    UInt64 = 12,
    Int64 = 13,
}

impl Type {
    const ALL: [Type; 13] = [
        Type::Byte,
        Type::UInt16,
        Type::Int16,
        Type::UInt32,
        Type::Int32,
        Type::Float32,
        Type::Float64,
        Type::CInt16,
        Type::CInt32,
        Type::CFloat32,
        Type::CFloat64,
        Type::UInt64,
        Type::Int64,
    ];

    pub fn width(self) -> usize {
        match self {
            Type::Byte => 1,
            Type::UInt16 | Type::Int16 => 2,
            Type::UInt32 | Type::Int32 | Type::Float32 | Type::CInt16 => 4,
            Type::Float64 | Type::CInt32 | Type::CFloat32 | Type::UInt64 | Type::Int64 => 8,
            Type::CFloat64 => 16,
        }
    }
}

fn driver_of(name: &str) -> Result<c::Handle, String> {
    let driver = unsafe { c::GDALGetDriverByName(text(name).as_ptr()) };
    if driver.is_null() { Err(format!("this GDAL lacks the driver {name}")) } else { Ok(driver) }
}

/// An open dataset.
pub struct Dataset(c::Handle);

impl Drop for Dataset {
    fn drop(&mut self) {
        unsafe { c::GDALClose(self.0) }
    }
}

impl Dataset {
    /// Opens a raster for reading; by one driver alone where it is named.
    pub fn open(name: &str, driver: Option<&str>) -> Result<Dataset, String> {
        const RASTER: u32 = 0x02;
        const VERBOSE: u32 = 0x40;
        let drivers = driver.map(|name| Options::new(&[name]));
        let allowed = drivers.as_ref().map_or(null(), |list| list.pointers.as_ptr());
        let opened = unsafe { c::GDALOpenEx(text(name).as_ptr(), RASTER | VERBOSE, allowed, null(), null()) };
        if opened.is_null() { Err(error("GDAL does not open it")) } else { Ok(Dataset(opened)) }
    }

    /// A new dataset of a driver that can make one; options as the driver names them.
    pub fn create(
        driver: &str, name: &str, rows: usize, cols: usize, bands: usize, kind: Type, options: &[&str],
    ) -> Result<Dataset, String> {
        let options = Options::new(options);
        let driver = driver_of(driver)?;
        let made = unsafe {
            c::GDALCreate(
                driver,
                text(name).as_ptr(),
                cols as c_int,
                rows as c_int,
                bands as c_int,
                kind as c_int,
                options.pointers.as_ptr(),
            )
        };
        if made.is_null() { Err(error("GDAL does not create it")) } else { Ok(Dataset(made)) }
    }

    /// The same raster written by another driver.
    pub fn copy(&self, driver: &str, name: &str, options: &[&str]) -> Result<Dataset, String> {
        let options = Options::new(options);
        let driver = driver_of(driver)?;
        let made = unsafe { c::GDALCreateCopy(driver, text(name).as_ptr(), self.0, 1, options.pointers.as_ptr(), null(), null_mut()) };
        if made.is_null() { Err(error("GDAL does not write it")) } else { Ok(Dataset(made)) }
    }

    /// Writes what is left and closes; an error on the way is told.
    pub fn close(self) -> Result<(), String> {
        unsafe { c::GDALFlushCache(self.0) };
        drop(self);
        match take_messages().into_iter().find(|(is_error, _)| *is_error) {
            Some((_, text)) => Err(text),
            None => Ok(()),
        }
    }

    pub fn rows(&self) -> usize {
        unsafe { c::GDALGetRasterYSize(self.0) }.max(0) as usize
    }

    pub fn cols(&self) -> usize {
        unsafe { c::GDALGetRasterXSize(self.0) }.max(0) as usize
    }

    pub fn bands(&self) -> usize {
        unsafe { c::GDALGetRasterCount(self.0) }.max(0) as usize
    }

    pub fn driver(&self) -> String {
        string(unsafe { c::GDALGetDriverShortName(c::GDALGetDatasetDriver(self.0)) })
    }

    /// The files that make up the dataset, the main one first.
    pub fn files(&self) -> Vec<String> {
        let list = unsafe { c::GDALGetFileList(self.0) };
        let files = strings(list);
        unsafe { c::CSLDestroy(list) };
        files
    }

    /// Items `KEY=VALUE` of a domain; the domain "" is the plain one.
    pub fn metadata(&self, domain: &str) -> Vec<String> {
        strings(unsafe { c::GDALGetMetadata(self.0, text(domain).as_ptr()) })
    }

    pub fn metadata_item(&self, name: &str, domain: &str) -> Option<String> {
        item(self.0, name, domain)
    }

    pub fn set_metadata_item(&self, name: &str, value: &str) -> Result<(), String> {
        let failed = unsafe { c::GDALSetMetadataItem(self.0, text(name).as_ptr(), text(value).as_ptr(), null()) } != 0;
        if failed { Err(error("an item that GDAL does not take")) } else { Ok(()) }
    }

    /// Band 1 and up.
    pub fn band(&self, number: usize) -> Result<Band<'_>, String> {
        let number = c_int::try_from(number).map_err(|_| "no such band".to_string())?;
        let band = unsafe { c::GDALGetRasterBand(self.0, number) };
        if band.is_null() { Err(error("no such band")) } else { Ok(Band(band, PhantomData)) }
    }

    pub fn add_mask(&self) -> Result<(), String> {
        const PER_DATASET: c_int = 2;
        let failed = unsafe { c::GDALCreateDatasetMaskBand(self.0, PER_DATASET) } != 0;
        if failed { Err(error("a mask that GDAL does not make")) } else { Ok(()) }
    }

    /// The six numbers from pixel and line to x and y, where the raster has them.
    pub fn transform(&self) -> Option<[f64; 6]> {
        let mut six = [0.0; 6];
        let failed = unsafe { c::GDALGetGeoTransform(self.0, six.as_mut_ptr()) } != 0;
        if failed { None } else { Some(six) }
    }

    pub fn set_transform(&self, six: &[f64; 6]) -> Result<(), String> {
        let failed = unsafe { c::GDALSetGeoTransform(self.0, six.as_ptr()) } != 0;
        if failed { Err(error("a geotransform that GDAL does not take")) } else { Ok(()) }
    }

    pub fn crs(&self) -> Option<CrsWords> {
        crs_words(unsafe { c::GDALGetSpatialRef(self.0) })
    }

    pub fn set_crs(&self, crs: &Crs) -> Result<(), String> {
        let failed = unsafe { c::GDALSetSpatialRef(self.0, crs.0) } != 0;
        if failed { Err(error("a reference system that GDAL does not take")) } else { Ok(()) }
    }

    pub fn gcps(&self) -> Vec<Gcp> {
        let count = unsafe { c::GDALGetGCPCount(self.0) }.max(0) as usize;
        let list = unsafe { c::GDALGetGCPs(self.0) };
        if count == 0 || list.is_null() {
            return Vec::new();
        }
        let points = unsafe { std::slice::from_raw_parts(list, count) };
        points.iter().map(|p| Gcp { id: string(p.id), pixel: p.pixel, line: p.line, x: p.x, y: p.y, z: p.z }).collect()
    }

    pub fn gcp_crs(&self) -> Option<CrsWords> {
        crs_words(unsafe { c::GDALGetGCPSpatialRef(self.0) })
    }

    pub fn set_gcps(&self, points: &[Gcp], crs: Option<&Crs>) -> Result<(), String> {
        let list = GcpList::new(points);
        let failed =
            unsafe { c::GDALSetGCPs2(self.0, list.points.len() as c_int, list.points.as_ptr(), crs.map_or(null_mut(), |crs| crs.0)) } != 0;
        if failed { Err(error("ground control points that GDAL does not take")) } else { Ok(()) }
    }
}

fn item(object: c::Handle, name: &str, domain: &str) -> Option<String> {
    let value = unsafe { c::GDALGetMetadataItem(object, text(name).as_ptr(), text(domain).as_ptr()) };
    if value.is_null() { None } else { Some(string(value)) }
}

/// A band of an open dataset, or a band's mask.
pub struct Band<'a>(c::Handle, PhantomData<&'a Dataset>);

/// Flags of a band's mask, as gdal.h numbers them. No flag at all is a mask of this band alone.
pub const MASK_ALL_VALID: i32 = 1;
pub const MASK_ALPHA: i32 = 4;
pub const MASK_NODATA: i32 = 8;

/// Colour interpretations, as gdal.h numbers them.
pub const GREY: i32 = 1;
pub const RED: i32 = 3;
pub const ALPHA: i32 = 6;

impl Band<'_> {
    pub fn kind(&self) -> Option<Type> {
        let number = unsafe { c::GDALGetRasterDataType(self.0) };
        Type::ALL.into_iter().find(|kind| *kind as c_int == number)
    }

    /// Rows and columns of a block.
    pub fn block(&self) -> (usize, usize) {
        let (mut cols, mut rows) = (0, 0);
        unsafe { c::GDALGetBlockSize(self.0, &mut cols, &mut rows) };
        (rows.max(1) as usize, cols.max(1) as usize)
    }

    /// The nodata value in digits, where the band has one.
    pub fn nodata(&self) -> Option<String> {
        let mut there = 0;
        let value = unsafe {
            match self.kind() {
                Some(Type::Int64) => c::GDALGetRasterNoDataValueAsInt64(self.0, &mut there).to_string(),
                Some(Type::UInt64) => c::GDALGetRasterNoDataValueAsUInt64(self.0, &mut there).to_string(),
                _ => c::GDALGetRasterNoDataValue(self.0, &mut there).to_string(),
            }
        };
        if there == 0 { None } else { Some(value) }
    }

    pub fn scale(&self) -> f64 {
        let mut there = 0;
        let value = unsafe { c::GDALGetRasterScale(self.0, &mut there) };
        if there == 0 { 1.0 } else { value }
    }

    pub fn offset(&self) -> f64 {
        let mut there = 0;
        let value = unsafe { c::GDALGetRasterOffset(self.0, &mut there) };
        if there == 0 { 0.0 } else { value }
    }

    pub fn unit(&self) -> String {
        string(unsafe { c::GDALGetRasterUnitType(self.0) })
    }

    pub fn description(&self) -> String {
        string(unsafe { c::GDALGetDescription(self.0) })
    }

    pub fn interpretation(&self) -> i32 {
        unsafe { c::GDALGetRasterColorInterpretation(self.0) }
    }

    pub fn set_interpretation(&self, interpretation: i32) {
        unsafe { c::GDALSetRasterColorInterpretation(self.0, interpretation) };
    }

    pub fn has_palette(&self) -> bool {
        !unsafe { c::GDALGetRasterColorTable(self.0) }.is_null()
    }

    pub fn metadata_item(&self, name: &str, domain: &str) -> Option<String> {
        item(self.0, name, domain)
    }

    /// An item of the dataset that the band stands in: for a mask, the mask's own.
    pub fn dataset_item(&self, name: &str, domain: &str) -> Option<String> {
        let dataset = unsafe { c::GDALGetBandDataset(self.0) };
        if dataset.is_null() { None } else { item(dataset, name, domain) }
    }

    /// The name of the dataset that the band stands in; of a mask in a file of its own, that file's.
    pub fn dataset_name(&self) -> String {
        let dataset = unsafe { c::GDALGetBandDataset(self.0) };
        if dataset.is_null() { String::new() } else { string(unsafe { c::GDALGetDescription(dataset) }) }
    }

    /// Rows, columns and bands of the dataset that the band stands in.
    pub fn dataset_sides(&self) -> (usize, usize, usize) {
        let dataset = unsafe { c::GDALGetBandDataset(self.0) };
        if dataset.is_null() {
            return (0, 0, 0);
        }
        let sides = unsafe { (c::GDALGetRasterYSize(dataset), c::GDALGetRasterXSize(dataset), c::GDALGetRasterCount(dataset)) };
        (sides.0.max(0) as usize, sides.1.max(0) as usize, sides.2.max(0) as usize)
    }

    pub fn mask_flags(&self) -> i32 {
        unsafe { c::GDALGetMaskFlags(self.0) }
    }

    pub fn mask(&self) -> Result<Self, String> {
        let mask = unsafe { c::GDALGetMaskBand(self.0) };
        if mask.is_null() { Err(error("no mask")) } else { Ok(Band(mask, PhantomData)) }
    }

    /// Whether some block of the part is not in the file, as far as the driver tells.
    pub fn lacks_blocks(&self, part: Part) -> bool {
        const EMPTY: c_int = 4;
        let mut percent = 0.0;
        let status = unsafe {
            c::GDALGetDataCoverageStatus(
                self.0, part.col as c_int, part.row as c_int, part.cols as c_int, part.rows as c_int, EMPTY, &mut percent,
            )
        };
        status & EMPTY != 0
    }

    /// Reads a part row by row into bytes of the given type, in this machine's byte order.
    pub fn read(&self, part: Part, kind: Type, bytes: &mut [u8]) -> Result<(), String> {
        self.transfer(0, part, kind, bytes.as_mut_ptr().cast(), bytes.len(), kind.width())
    }

    /// Writes a part from bytes in which the elements of one pixel stand `pixel_space` bytes apart, starting at this band's own.
    pub fn write(&self, part: Part, kind: Type, bytes: &[u8], pixel_space: usize) -> Result<(), String> {
        self.transfer(1, part, kind, bytes.as_ptr() as *mut c_void, bytes.len(), pixel_space)
    }

    fn transfer(&self, direction: c_int, part: Part, kind: Type, bytes: *mut c_void, len: usize, pixel_space: usize) -> Result<(), String> {
        let count = part.rows * part.cols;
        if count == 0 {
            return Ok(());
        }
        assert!((count - 1) * pixel_space + kind.width() <= len, "room for every element");
        let (rows, cols) = (part.rows as c_int, part.cols as c_int);
        let failed = unsafe {
            c::GDALRasterIO(
                self.0,
                direction,
                part.col as c_int,
                part.row as c_int,
                cols,
                rows,
                bytes,
                cols,
                rows,
                kind as c_int,
                pixel_space as c_int,
                (pixel_space * part.cols) as c_int,
            )
        } != 0;
        if failed { Err(error("a part of it cannot be transferred")) } else { Ok(()) }
    }
}

/// A file as GDAL's own file layer sees it.
pub struct RawFile(c::Handle);

impl Drop for RawFile {
    fn drop(&mut self) {
        unsafe { c::VSIFCloseL(self.0) };
    }
}

impl RawFile {
    pub fn open(name: &str) -> Result<RawFile, String> {
        let file = unsafe { c::VSIFOpenL(text(name).as_ptr(), text("rb").as_ptr()) };
        if file.is_null() { Err(error("cannot be opened again")) } else { Ok(RawFile(file)) }
    }

    pub fn len(&self) -> u64 {
        unsafe {
            c::VSIFSeekL(self.0, 0, 2);
            c::VSIFTellL(self.0)
        }
    }

    /// Reads up to the buffer's length from a place; how many bytes were there.
    pub fn read_at(&self, offset: u64, bytes: &mut [u8]) -> usize {
        unsafe {
            if c::VSIFSeekL(self.0, offset, 0) != 0 {
                return 0;
            }
            c::VSIFReadL(bytes.as_mut_ptr().cast(), 1, bytes.len(), self.0)
        }
    }
}

/// The names in a folder of GDAL's files in memory.
pub fn names_in(folder: &str) -> Vec<String> {
    let list = unsafe { c::VSIReadDir(text(folder).as_ptr()) };
    let mut names = strings(list);
    unsafe { c::CSLDestroy(list) };
    names.sort();
    names
}

/// The bytes of a file in memory, which nobody writes any more.
pub fn file_in_memory(name: &str) -> Option<&'static [u8]> {
    let mut len = 0;
    let bytes = unsafe { c::VSIGetMemFileBuffer(text(name).as_ptr(), &mut len, 0) };
    if bytes.is_null() { None } else { Some(unsafe { std::slice::from_raw_parts(bytes, len as usize) }) }
}
