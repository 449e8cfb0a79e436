//! GDAL's C functions as gdal.h, ogr_srs_api.h and the cpl headers of GDAL 3.6 declare them; only those that are used.

use std::os::raw::{c_char, c_double, c_int, c_uint, c_void};

pub type Handle = *mut c_void;
pub type Strings = *const *const c_char;

/// A ground control point, field by field as in gdal.h.
#[repr(C)]
pub struct Gcp {
    pub id: *mut c_char,
    pub info: *mut c_char,
    pub pixel: c_double,
    pub line: c_double,
    pub x: c_double,
    pub y: c_double,
    pub z: c_double,
}

pub type ErrorHandler = extern "C" fn(class: c_int, number: c_int, text: *const c_char);

extern "C" {
    pub fn CPLSetErrorHandler(handler: ErrorHandler) -> *mut c_void;
    pub fn CPLSetConfigOption(key: *const c_char, value: *const c_char);
    pub fn CSLDestroy(list: *mut *mut c_char);
    pub fn VSIFree(memory: *mut c_void);
    pub fn VSIFOpenL(name: *const c_char, access: *const c_char) -> Handle;
    pub fn VSIFSeekL(file: Handle, offset: u64, whence: c_int) -> c_int;
    pub fn VSIFTellL(file: Handle) -> u64;
    pub fn VSIFReadL(buffer: *mut c_void, size: usize, count: usize, file: Handle) -> usize;
    pub fn VSIFCloseL(file: Handle) -> c_int;
    pub fn VSIReadDir(folder: *const c_char) -> *mut *mut c_char;
    pub fn VSIGetMemFileBuffer(name: *const c_char, len: *mut u64, seize: c_int) -> *const u8;

    pub fn GDALAllRegister();
    pub fn GDALSetCacheMax64(bytes: i64);
    pub fn GDALVersionInfo(request: *const c_char) -> *const c_char;
    pub fn GDALOpenEx(name: *const c_char, flags: c_uint, drivers: Strings, options: Strings, siblings: Strings) -> Handle;
    pub fn GDALClose(dataset: Handle);
    pub fn GDALFlushCache(dataset: Handle);
    pub fn GDALGetDatasetDriver(dataset: Handle) -> Handle;
    pub fn GDALGetDriverShortName(driver: Handle) -> *const c_char;
    pub fn GDALGetDriverByName(name: *const c_char) -> Handle;
    pub fn GDALGetFileList(dataset: Handle) -> *mut *mut c_char;
    pub fn GDALGetRasterXSize(dataset: Handle) -> c_int;
    pub fn GDALGetRasterYSize(dataset: Handle) -> c_int;
    pub fn GDALGetRasterCount(dataset: Handle) -> c_int;
    pub fn GDALGetRasterBand(dataset: Handle, band: c_int) -> Handle;
    pub fn GDALGetDescription(object: Handle) -> *const c_char;
    pub fn GDALGetMetadata(object: Handle, domain: *const c_char) -> *mut *mut c_char;
    pub fn GDALGetMetadataItem(object: Handle, name: *const c_char, domain: *const c_char) -> *const c_char;
    pub fn GDALSetMetadataItem(object: Handle, name: *const c_char, value: *const c_char, domain: *const c_char) -> c_int;
    pub fn GDALGetBandDataset(band: Handle) -> Handle;
    pub fn GDALGetRasterDataType(band: Handle) -> c_int;
    pub fn GDALGetBlockSize(band: Handle, cols: *mut c_int, rows: *mut c_int);
    pub fn GDALGetRasterNoDataValue(band: Handle, there: *mut c_int) -> c_double;
    pub fn GDALGetRasterNoDataValueAsInt64(band: Handle, there: *mut c_int) -> i64;
    pub fn GDALGetRasterNoDataValueAsUInt64(band: Handle, there: *mut c_int) -> u64;
    pub fn GDALGetRasterScale(band: Handle, there: *mut c_int) -> c_double;
    pub fn GDALGetRasterOffset(band: Handle, there: *mut c_int) -> c_double;
    pub fn GDALGetRasterUnitType(band: Handle) -> *const c_char;
    pub fn GDALGetRasterColorInterpretation(band: Handle) -> c_int;
    pub fn GDALSetRasterColorInterpretation(band: Handle, interpretation: c_int) -> c_int;
    pub fn GDALGetRasterColorTable(band: Handle) -> Handle;
    pub fn GDALGetMaskFlags(band: Handle) -> c_int;
    pub fn GDALGetMaskBand(band: Handle) -> Handle;
    pub fn GDALCreateDatasetMaskBand(dataset: Handle, flags: c_int) -> c_int;
    pub fn GDALGetDataCoverageStatus(
        band: Handle, col: c_int, row: c_int, cols: c_int, rows: c_int, stop: c_int, percent: *mut c_double,
    ) -> c_int;
    pub fn GDALRasterIO(
        band: Handle, direction: c_int, col: c_int, row: c_int, cols: c_int, rows: c_int, buffer: *mut c_void, buffer_cols: c_int,
        buffer_rows: c_int, buffer_type: c_int, pixel_space: c_int, line_space: c_int,
    ) -> c_int;
    pub fn GDALCreate(driver: Handle, name: *const c_char, cols: c_int, rows: c_int, bands: c_int, kind: c_int, options: Strings)
    -> Handle;
    pub fn GDALCreateCopy(
        driver: Handle, name: *const c_char, source: Handle, strict: c_int, options: Strings, progress: *const c_void, data: *mut c_void,
    ) -> Handle;
    pub fn GDALGetGeoTransform(dataset: Handle, transform: *mut c_double) -> c_int;
    pub fn GDALSetGeoTransform(dataset: Handle, transform: *const c_double) -> c_int;
    pub fn GDALGetSpatialRef(dataset: Handle) -> Handle;
    pub fn GDALSetSpatialRef(dataset: Handle, crs: Handle) -> c_int;
    pub fn GDALGetGCPCount(dataset: Handle) -> c_int;
    pub fn GDALGetGCPs(dataset: Handle) -> *const Gcp;
    pub fn GDALGetGCPSpatialRef(dataset: Handle) -> Handle;
    pub fn GDALSetGCPs2(dataset: Handle, count: c_int, gcps: *const Gcp, crs: Handle) -> c_int;
    pub fn GDALCreateTPSTransformer(count: c_int, gcps: *const Gcp, reversed: c_int) -> *mut c_void;
    pub fn GDALTPSTransform(
        transformer: *mut c_void, to_source: c_int, count: c_int, x: *mut c_double, y: *mut c_double, z: *mut c_double, done: *mut c_int,
    ) -> c_int;
    pub fn GDALDestroyTPSTransformer(transformer: *mut c_void);

    pub fn OSRNewSpatialReference(wkt: *const c_char) -> Handle;
    pub fn OSRDestroySpatialReference(crs: Handle);
    pub fn OSRImportFromEPSG(crs: Handle, code: c_int) -> c_int;
    pub fn OSRExportToWktEx(crs: Handle, text: *mut *mut c_char, options: Strings) -> c_int;
    pub fn OSRIsGeographic(crs: Handle) -> c_int;
    pub fn OSRGetName(crs: Handle) -> *const c_char;
    pub fn OSRGetAuthorityName(crs: Handle, key: *const c_char) -> *const c_char;
    pub fn OSRGetAuthorityCode(crs: Handle, key: *const c_char) -> *const c_char;
    pub fn OSRGetCoordinateEpoch(crs: Handle) -> c_double;
    pub fn OSRSetCoordinateEpoch(crs: Handle, epoch: c_double);
    pub fn OSRGetDataAxisToSRSAxisMapping(crs: Handle, count: *mut c_int) -> *const c_int;
    pub fn OSRSetDataAxisToSRSAxisMapping(crs: Handle, count: c_int, mapping: *const c_int) -> c_int;
    pub fn OSRSetAxisMappingStrategy(crs: Handle, strategy: c_int);
    pub fn OCTNewCoordinateTransformation(from: Handle, to: Handle) -> Handle;
    pub fn OCTDestroyCoordinateTransformation(transformation: Handle);
    pub fn OCTTransformEx(
        transformation: Handle, count: c_int, x: *mut c_double, y: *mut c_double, z: *mut c_double, done: *mut c_int,
    ) -> c_int;
}
