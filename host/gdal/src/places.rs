//! Coordinates for the page: where pixels lie, in the raster's own reference system and as longitude and latitude, at the nodes of a grid
//! that is fine enough to read between.

use crate::dataset;
use crate::ground::{Crs, Spline, Transformation};
use wire::{Fields, Gcp, Georeference};

/// Nodes along a side, at most.
const MOST_NODES: usize = 257;
/// What reading between the nodes may be off by, in pixels.
const FAR: f64 = 0.01;

/// From pixel and line to a place.
enum Ground {
    Affine([f64; 6]),
    Spline(Spline),
}

impl Ground {
    fn at(&self, pixel: f64, line: f64) -> Option<(f64, f64)> {
        match self {
            Ground::Affine(t) => Some((t[0] + pixel * t[1] + line * t[2], t[3] + pixel * t[4] + line * t[5])),
            Ground::Spline(spline) => spline.at(pixel, line),
        }
    }
}

/// The place of a node: x, y, longitude and latitude, NaN where a transformation has no answer.
type Place = [f64; 4];

/// The nodes' places, row by row.
pub fn grid(fields: &Fields) -> Result<Fields, String> {
    let georeference = Georeference::get(fields).map_err(|e| e.to_string())?;
    let side = |name: &str| fields.number::<usize>(name).map_err(|e| e.to_string());
    let (rows, cols) = (side("rows")?, side("cols")?);
    let words = if georeference.transform.is_some() { &georeference.crs } else { &georeference.gcp_crs };
    let crs = words.as_ref().map(Crs::from_words).transpose()?;
    let ground = match georeference.transform {
        Some(transform) => Ground::Affine(transform),
        None => Ground::Spline(Spline::new(&unturned(georeference.gcps, crs.as_ref()))?),
    };
    let mut told = Fields::default();
    if let Some(words) = words {
        told.put("crs", &words.name);
    }
    // A local system has no longitudes; its x and y are told all the same.
    let to_lonlat = crs.as_ref().and_then(|crs| Transformation::new(crs, &Crs::longitude_latitude()).ok());
    let place = |pixel: f64, line: f64| -> Place {
        let Some((x, y)) = ground.at(pixel, line) else { return [f64::NAN; 4] };
        let (longitude, latitude) = to_lonlat.as_ref().and_then(|t| t.at(x, y)).unwrap_or((f64::NAN, f64::NAN));
        [x, y, longitude, latitude]
    };
    let mut step = 64.max(rows.max(cols).div_ceil(MOST_NODES - 1));
    let mut far = off(&place, rows, cols, step);
    while far > FAR && step > 1 && rows.max(cols).div_ceil(step / 2) < MOST_NODES {
        step /= 2;
        far = off(&place, rows, cols, step);
    }
    let (down, across) = (rows.div_ceil(step) + 1, cols.div_ceil(step) + 1);
    told.put("step", step);
    told.put("down", down);
    told.put("across", across);
    told.put("off", far);
    for i in 0..down {
        let line: Vec<f64> = (0..across).flat_map(|j| place((j * step) as f64, (i * step) as f64)).collect();
        told.put("line", wire::numbers(&line));
    }
    // GDAL's messages on places without an answer are told by the NaN.
    dataset::take_messages();
    Ok(told)
}

/// Control points whose longitudes go on beyond 180 degrees, so that the spline does not cross the globe between two of them.
fn unturned(mut points: Vec<Gcp>, crs: Option<&Crs>) -> Vec<Gcp> {
    if crs.is_some_and(Crs::is_geographic) {
        let first = points.first().map_or(0.0, |point| point.x);
        for point in &mut points {
            point.x -= 360.0 * ((point.x - first) / 360.0).round();
        }
    }
    points
}

/// A longitude and latitude as a point of the sphere: between such points there is neither a date line nor a pole.
fn on_sphere(place: Place) -> [f64; 3] {
    let (longitude, latitude) = (place[2].to_radians(), place[3].to_radians());
    [latitude.cos() * longitude.cos(), latitude.cos() * longitude.sin(), latitude.sin()]
}

/// How far reading between the nodes is off at the middle of the worst cell, in pixels.
fn off(place: &impl Fn(f64, f64) -> Place, rows: usize, cols: usize, step: usize) -> f64 {
    let mut most = 0.0f64;
    let side = step as f64;
    for i in 0..rows.div_ceil(step) {
        for j in 0..cols.div_ceil(step) {
            let (top, left) = ((i * step) as f64, (j * step) as f64);
            let corners = [place(left, top), place(left + side, top), place(left, top + side), place(left + side, top + side)];
            let middle = place(left + side / 2.0, top + side / 2.0);
            let flat = |p: Place| vec![p[0], p[1]];
            let round = |p: Place| on_sphere(p).to_vec();
            most = most.max(between(corners.map(flat), flat(middle), side)).max(between(corners.map(round), round(middle), side));
        }
    }
    most
}

/// The distance of the corners' mean from the middle, in pixels; 0 where a corner has no place.
fn between(corners: [Vec<f64>; 4], middle: Vec<f64>, side: f64) -> f64 {
    let far = |a: &[f64], b: &[f64]| a.iter().zip(b).map(|(a, b)| (a - b) * (a - b)).sum::<f64>().sqrt();
    let mean: Vec<f64> = (0..middle.len()).map(|k| corners.iter().map(|corner| corner[k]).sum::<f64>() / 4.0).collect();
    // A mean of points of the sphere lies a little within it, and is put back upon it by whoever reads it.
    let size = mean.iter().map(|v| v * v).sum::<f64>().sqrt();
    let mean: Vec<f64> = if middle.len() == 3 { mean.iter().map(|v| v / size).collect() } else { mean };
    let pixel = far(&corners[0], &corners[1]).min(far(&corners[0], &corners[2])) / side;
    let found = far(&mean, &middle) / pixel;
    if found.is_finite() { found } else { 0.0 }
}
