//! Refusals in words that help: which file, band, pixel and value, and what to do. Looks only after the engine has refused; it decides nothing.

use crate::scene::{Scene, wrong_mark};
use crate::trouble::Trouble;
use engine::{AutoscaleStrategy, Refusal, Window};

/// The trouble of a refused scene.
pub fn refused(refusal: Refusal, scene: &Scene, strategy: AutoscaleStrategy) -> Trouble {
    let found = match refusal.0 {
        3 => first_mark(scene),
        4 => first_decibel(scene),
        5 => Some(sides(scene)),
        6 => gammas(scene, strategy),
        _ => None,
    };
    found.unwrap_or_else(|| refusal.into())
}

/// Row and column by the file's own counting.
fn place(scene: &Scene, at: usize) -> (usize, usize) {
    let (row, col) = scene.origin.crop.map_or((0, 0), |crop| (crop.row, crop.col));
    (row + at / scene.cols, col + at % scene.cols)
}

/// Refusal 3 of a scene that has a mark which is neither 0 nor 1.
pub fn first_mark(scene: &Scene) -> Option<Trouble> {
    scene.bands.iter().find_map(|band| {
        let marks = band.band().valid_mask;
        let at = marks.iter().position(|&mark| mark > 1)?;
        Some(wrong_mark(&band.marks_name, band.marks_band, place(scene, at), &marks[at].to_string(), false))
    })
}

fn first_decibel(scene: &Scene) -> Option<Trouble> {
    scene.bands.iter().find_map(|band| {
        let lists = band.band();
        let at = lists.db.iter().zip(lists.valid_mask).position(|(&v, &mark)| mark == 1 && !(-1000.0..=1000.0).contains(&v))?;
        let (row, col) = place(scene, at);
        let advice = "a valid decibel is finite and from -1000 to 1000; mark the pixel 0, or give --marks auto where the raster itself says \
                      what is invalid (nodata, NaN, a mask)";
        Some(Trouble::Refused(4, format!("{}, band {}, row {row}, column {col}: {}; {advice}", band.db_name, band.band, lists.db[at])))
    })
}

fn sides(scene: &Scene) -> Trouble {
    let fits = |side: usize| 7 * side.div_ceil(8) <= side;
    let wrong: Vec<String> = [(scene.rows, "rows"), (scene.cols, "columns")]
        .into_iter()
        .filter(|(side, _)| !fits(*side))
        .map(|(side, name)| match (1..side).rev().find(|&less| fits(less)) {
            Some(less) => format!("{side} {name} (the next below that fit: {less})"),
            None => format!("{side} {name}"),
        })
        .collect();
    Trouble::Refused(
        5,
        format!(
            "{}: Clahe's 8 by 8 tiles do not fit {}; sides of 7, 8, 14 to 16, 21 to 24, 28 to 32, 35 to 40, 42 and up do. Read a part with \
             --crop, or take another strategy",
            scene.bands[0].db_name,
            wrong.join(" and ")
        ),
    )
}

fn gammas(scene: &Scene, strategy: AutoscaleStrategy) -> Option<Trouble> {
    let wrong: Vec<String> = scene
        .bands
        .iter()
        .filter_map(|band| match engine::window(strategy, scene.rows, scene.cols, band.band()) {
            Ok(Window::Window { gamma, .. }) if gamma != 1.0 => {
                Some(format!("{}, band {}: {strategy:?} chooses gamma {gamma}", band.db_name, band.band))
            }
            _ => None,
        })
        .collect();
    if wrong.is_empty() {
        return None;
    }
    Some(Trouble::Refused(
        6,
        format!(
            "{}; at 16 bits only gamma 1.0 is painted. Take --depth 8, or another strategy: default, robust, equalized, tamed and clahe always choose 1.0",
            wrong.join("; ")
        ),
    ))
}
