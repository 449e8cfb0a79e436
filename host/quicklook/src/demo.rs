//! A synthetic two-band sea scene (swell, a lee behind an island, ships, a coast without data), and every step of a quicklook on it.

use crate::arguments::Form;
use crate::commands::print;
use crate::folder::Folder;
use crate::memory;
use crate::origin::{self, Origin};
use crate::parts::Parts;
use crate::progress::step;
use crate::sheet::{self, Picture, Sheet};
use crate::trouble::{Outcome, Trouble};
use engine::{AutoscaleStrategy, Band, CoPol, PictureChoices, PictureOut, SyntheticRgbMode, Window};
use random::Rng;
use std::fmt::Write as _;
use std::path::Path;
use wire::Georeference;

/// Speckle: an intensity's factor, of mean 1.
fn speckle(rng: &mut Rng) -> f64 {
    -(0..4).map(|_| (1.0 - rng.unit()).ln()).sum::<f64>() / 4.0
}

/// The intensities of one band, linear. A coast on the right has none.
fn intensities(side: usize, level_db: f64, swell_db: f64, seed: u64) -> Vec<f32> {
    let mut rng = Rng::new(seed);
    let scale = side as f64;
    let mut list = Vec::with_capacity(side * side);
    for row in 0..side {
        for col in 0..side {
            let (y, x) = (row as f64 / scale, col as f64 / scale);
            let coast = 0.88 + 0.05 * (9.0 * y).sin() + 0.02 * (31.0 * y).cos();
            let swell = (2.0 * std::f64::consts::PI * (22.0 * x + 9.0 * y)).sin();
            let island = ((x - 0.35).powi(2) + (y - 0.4).powi(2)).sqrt();
            let lee = if x > 0.35 { (-((y - 0.4 - 0.15 * (x - 0.35)) / 0.07).powi(2)).exp() * (-(x - 0.35) / 0.3).exp() } else { 0.0 };
            let mut db = level_db + swell_db * swell - 7.0 * lee + 3.0 * y;
            if island < 0.035 {
                db = level_db + 14.0;
            }
            let intensity = 10f64.powf(db / 10.0) * speckle(&mut rng);
            list.push(if x > coast { 0.0 } else { intensity as f32 });
        }
    }
    for ship in 0..6 {
        let (row, col) = ((side * (2 * ship + 3)) / 17, (side * (3 * ship + 2)) / 23);
        for dy in 0..3.min(side - row.min(side)) {
            for dx in 0..5.min(side - col.min(side)) {
                list[(row + dy) * side + col + dx] *= 300.0;
            }
        }
    }
    list
}

/// 10 log10 of an intensity, as a raster that arrives ready made has it; the floor stands where there is nothing.
fn decibels(intensities: &[f32]) -> Vec<f64> {
    intensities.iter().map(|&v| 10.0 * f64::from(v).max(1e-10).log10()).collect()
}

/// A result of the demo, whose origin is the program alone.
fn save(folder: &Folder, name: &str, side: usize, picture: Picture, force: bool) -> Outcome<Parts> {
    let origin = origin::items("demo", &Origin::default())?;
    let form = Form { cog: false, world: false, force };
    let sheet = Sheet { rows: side, cols: side, picture, marks: None, georeference: &Georeference::default(), origin: &origin, form };
    sheet::write(&folder.path.join(name), &sheet)
}

pub fn run(folder: &Path, side: usize, force: bool) -> Outcome<()> {
    if side == 0 || side > 4096 {
        return Err(Trouble::Usage("a demo scene has 1 to 4096 rows and columns".into()));
    }
    let folder = Folder::take(folder, force)?;
    let save = |name: &str, picture: Picture| save(&folder, name, side, picture, force);
    let n = side * side;
    let mut parts = Vec::new();
    let mut text = String::new();

    let bands = step("making the scene", || [("vv", intensities(side, -12.0, 2.0, 1)), ("vh", intensities(side, -20.0, 1.0, 2))]);
    let mut made: Vec<(Vec<f64>, Vec<u8>)> = Vec::new();
    for (name, list) in &bands {
        parts.push(save(&format!("{name}-intensity.npy"), Picture::F32(list))?);
        let db = decibels(list);
        parts.push(save(&format!("{name}.npy"), Picture::F64(&db))?);
        let mut valid_mask = memory::zeros(n, "marks")?;
        step("marks", || engine::marks(list, &mut valid_mask))?;
        parts.push(save(&format!("{name}-marks.npy"), Picture::Marks(&valid_mask))?);

        let band = Band { db: &db, valid_mask: &valid_mask };
        let statistics = step("statistics", || engine::statistics(side, side, band))?;
        let _ = writeln!(text, "{name}: {} of {n} pixels valid", statistics.valid_count);
        for (float, value) in statistics.named() {
            let _ = writeln!(text, "  {float:<7}{value:>10.3} dB");
        }
        if let Window::Window { low, high, .. } = step("window", || engine::window(AutoscaleStrategy::Default, side, side, band))? {
            let _ = writeln!(text, "  window {low:.3} to {high:.3} dB");
        }
        let mut greys = memory::zeros(n, "a picture")?;
        step("grey", || engine::grey_u16(AutoscaleStrategy::Default, side, side, band, &mut greys, &mut []))?;
        parts.push(save(&format!("{name}-grey16.png"), Picture::Grey16(&greys))?);
        made.push((db, valid_mask));
    }

    let band = |k: usize| Band { db: &made[k].0, valid_mask: &made[k].1 };
    for strategy in [AutoscaleStrategy::Default, AutoscaleStrategy::Tamed, AutoscaleStrategy::Clahe] {
        let (mut grey1, mut grey2, mut rgb) =
            (memory::zeros(n, "a picture")?, memory::zeros(n, "a picture")?, memory::zeros(3 * n, "a picture")?);
        let mut work = vec![0f64; strategy.work_len()];
        let lent = PictureOut { grey1: &mut grey1, grey2: &mut grey2, rgb: &mut rgb };
        let name = strategy.name();
        let choices = PictureChoices { strategy, mode: SyntheticRgbMode::Default, copol: CoPol::Band1 };
        match step("picture", || engine::picture(choices, side, side, band(0), band(1), lent, &mut work)) {
            Ok(()) => {
                for (kind, picture) in [("rgb", Picture::Rgb(&rgb)), ("grey1", Picture::Grey8(&grey1)), ("grey2", Picture::Grey8(&grey2))] {
                    parts.push(save(&format!("{name}-{kind}.png"), picture)?);
                }
            }
            Err(refusal) => drop(writeln!(text, "{name}: {refusal}")),
        }
    }
    print(&text)?;
    folder.finish(parts)
}
