//! Where rasters lie: reference systems, ground control points, and ways from one coordinate to another.

use crate::c;
use crate::dataset::{Options, error, string, text};
use std::ffi::CString;
use std::os::raw::{c_char, c_double, c_int, c_void};
use std::ptr::{null, null_mut};
use wire::{Crs as CrsWords, Gcp};

/// A coordinate reference system.
pub struct Crs(pub(crate) c::Handle);

impl Drop for Crs {
    fn drop(&mut self) {
        unsafe { c::OSRDestroySpatialReference(self.0) }
    }
}

impl Crs {
    pub fn from_words(crs: &CrsWords) -> Result<Crs, String> {
        let made = unsafe { c::OSRNewSpatialReference(text(&crs.wkt).as_ptr()) };
        if made.is_null() {
            return Err(error("a coordinate reference system that cannot be read"));
        }
        let made = Crs(made);
        unsafe {
            c::OSRSetDataAxisToSRSAxisMapping(made.0, crs.axes.len() as c_int, crs.axes.as_ptr());
            if crs.epoch != 0.0 {
                c::OSRSetCoordinateEpoch(made.0, crs.epoch);
            }
        }
        Ok(made)
    }

    pub fn is_geographic(&self) -> bool {
        unsafe { c::OSRIsGeographic(self.0) != 0 }
    }

    /// Longitude and latitude on WGS 84, in this order.
    pub fn longitude_latitude() -> Crs {
        let made = Crs(unsafe { c::OSRNewSpatialReference(null()) });
        unsafe {
            c::OSRImportFromEPSG(made.0, 4326);
            c::OSRSetAxisMappingStrategy(made.0, 0);
        }
        made
    }
}

/// The words of a dataset's reference system; none where it has none.
pub(crate) fn crs_words(crs: c::Handle) -> Option<CrsWords> {
    if crs.is_null() {
        return None;
    }
    let mut wkt = null_mut();
    let options = Options::new(&["FORMAT=WKT2_2019"]);
    let (name, axes, epoch);
    unsafe {
        let failed = c::OSRExportToWktEx(crs, &mut wkt, options.pointers.as_ptr()) != 0;
        let mut count = 0;
        let mapping = c::OSRGetDataAxisToSRSAxisMapping(crs, &mut count);
        axes = if mapping.is_null() { vec![1, 2] } else { std::slice::from_raw_parts(mapping, count as usize).to_vec() };
        epoch = c::OSRGetCoordinateEpoch(crs);
        let code = string(c::OSRGetAuthorityCode(crs, null()));
        let plain = string(c::OSRGetName(crs));
        name = if code.is_empty() { plain } else { format!("{plain} ({}:{code})", string(c::OSRGetAuthorityName(crs, null()))) };
        let words = string(wkt);
        c::VSIFree(wkt.cast());
        if failed || words.is_empty() {
            return None;
        }
        Some(CrsWords { wkt: words, axes, epoch, name })
    }
}

/// Ground control points as the C calls take them.
pub(crate) struct GcpList {
    _ids: Vec<CString>,
    pub(crate) points: Vec<c::Gcp>,
}

impl GcpList {
    pub(crate) fn new(points: &[Gcp]) -> Self {
        static EMPTY: [u8; 1] = [0];
        let ids: Vec<CString> = points.iter().map(|p| text(&p.id)).collect();
        let points = points
            .iter()
            .zip(&ids)
            .map(|(p, id)| c::Gcp {
                id: id.as_ptr() as *mut c_char,
                info: EMPTY.as_ptr() as *mut c_char,
                pixel: p.pixel,
                line: p.line,
                x: p.x,
                y: p.y,
                z: p.z,
            })
            .collect();
        GcpList { _ids: ids, points }
    }
}

/// From x and y of one reference system to x and y of another.
pub struct Transformation(c::Handle);

impl Drop for Transformation {
    fn drop(&mut self) {
        unsafe { c::OCTDestroyCoordinateTransformation(self.0) }
    }
}

impl Transformation {
    pub fn new(from: &Crs, to: &Crs) -> Result<Transformation, String> {
        let made = unsafe { c::OCTNewCoordinateTransformation(from.0, to.0) };
        if made.is_null() { Err(error("no transformation between the reference systems")) } else { Ok(Transformation(made)) }
    }

    /// Where a point goes; none where the transformation has no answer.
    pub fn at(&self, x: f64, y: f64) -> Option<(f64, f64)> {
        let (mut x, mut y, mut z, mut done) = (x, y, 0.0 as c_double, 0 as c_int);
        unsafe { c::OCTTransformEx(self.0, 1, &mut x, &mut y, &mut z, &mut done) };
        if done != 0 && x.is_finite() && y.is_finite() { Some((x, y)) } else { None }
    }
}

/// From pixel and line to x and y by a thin plate spline that meets every ground control point.
pub struct Spline(*mut c_void);

impl Drop for Spline {
    fn drop(&mut self) {
        unsafe { c::GDALDestroyTPSTransformer(self.0) }
    }
}

impl Spline {
    pub fn new(points: &[Gcp]) -> Result<Spline, String> {
        let list = GcpList::new(points);
        let made = unsafe { c::GDALCreateTPSTransformer(list.points.len() as c_int, list.points.as_ptr(), 0) };
        if made.is_null() { Err(error("no spline through the ground control points")) } else { Ok(Spline(made)) }
    }

    pub fn at(&self, pixel: f64, line: f64) -> Option<(f64, f64)> {
        let (mut x, mut y, mut z, mut done) = (pixel, line, 0.0 as c_double, 0 as c_int);
        unsafe { c::GDALTPSTransform(self.0, 0, 1, &mut x, &mut y, &mut z, &mut done) };
        if done != 0 && x.is_finite() && y.is_finite() { Some((x, y)) } else { None }
    }
}
