//! One function for each call: asks the oracle and adds the record. The op codes are these functions' first numbers.
use oracle::{Answer, AutoscaleStrategy, Band, CoPol, Lent, OPERATIONS, Picture, PolarizationOperation, Sides, SyntheticRgbMode, Window};

use crate::record::{Part, Record, copol_code};

/// One band with its sides, right or wrong.
#[derive(Clone, Debug)]
pub struct Scene {
    pub sides: Sides,
    pub db: Vec<f64>,
    pub marks: Vec<u8>,
}

impl Scene {
    pub fn new(rows: usize, cols: usize, db: &[f64], marks: &[u8]) -> Self {
        Scene { sides: Sides { rows, cols }, db: db.to_vec(), marks: marks.to_vec() }
    }

    /// One row of valid pixels.
    pub fn row(db: &[f64]) -> Self {
        Scene::new(1, db.len(), db, &vec![1; db.len()])
    }

    pub fn band(&self) -> Band<'_> {
        Band { db: &self.db, marks: &self.marks }
    }

    /// rows × cols, as far as it fits.
    pub fn count(&self) -> usize {
        oracle::table::count(self.sides)
    }
}

pub fn statistics(part: &mut Part, scene: &Scene) {
    let answer = oracle::statistics(scene.sides, scene.band());
    let given = answer.as_ref().ok();
    let count = given.map(|s| [s.valid_count as u64]);
    let record = Record::new(1).sides(scene.sides).reply(&answer).list(&scene.db).list(&scene.marks);
    part.add(record.out(count.as_ref().map(|c| &c[..]), 1).out(given.map(|s| &s.floats[..]), 15));
}

/// The kind is 1 for a window, 0 for a blank one, whose floats are written as 0.
fn kind_and_floats(window: Option<Window>) -> (u8, [f64; 4]) {
    window.map_or((0, [0.0; 4]), |w| (1, [w.low, w.high, w.range, w.gamma]))
}

pub fn window(part: &mut Part, strategy: AutoscaleStrategy, scene: &Scene) {
    let answer = oracle::window(strategy, scene.sides, scene.band());
    let given = answer.ok().map(kind_and_floats);
    let record = Record::new(2).strategy(strategy).sides(scene.sides).reply(&answer).list(&scene.db).list(&scene.marks);
    part.add(record.out(given.as_ref().map(|g| std::slice::from_ref(&g.0)), 1).out(given.as_ref().map(|g| &g.1[..]), 4));
}

pub fn grey8(part: &mut Part, strategy: AutoscaleStrategy, scene: &Scene, out: usize, work: usize) {
    let answer = oracle::grey_u8(strategy, scene.sides, scene.band(), out, work);
    let record = Record::new(3).strategy(strategy).sides(scene.sides).reply(&answer).list(&scene.db).list(&scene.marks);
    part.add(record.list(&[work as u32]).out(answer.as_deref().ok(), out));
}

pub fn grey16(part: &mut Part, strategy: AutoscaleStrategy, scene: &Scene, out: usize, work: usize) {
    let answer = oracle::grey_u16(strategy, scene.sides, scene.band(), out, work);
    let record = Record::new(4).strategy(strategy).sides(scene.sides).reply(&answer).list(&scene.db).list(&scene.marks);
    part.add(record.list(&[work as u32]).out(answer.as_deref().ok(), out));
}

/// The sides are the first scene's.
pub fn picture(part: &mut Part, strategy: AutoscaleStrategy, mode: SyntheticRgbMode, band1: &Scene, band2: &Scene, lent: Lent) {
    let answer = oracle::picture(strategy, mode, CoPol::Band1, band1.sides, band1.band(), band2.band(), lent);
    add_picture(part, Record::new(5).strategy(strategy).mode(mode), answer, band1, band2, lent);
}

/// Told which band is co-pol.
pub fn picture_copol(
    part: &mut Part, strategy: AutoscaleStrategy, mode: SyntheticRgbMode, copol: CoPol, band1: &Scene, band2: &Scene, lent: Lent,
) {
    let answer = oracle::picture(strategy, mode, copol, band1.sides, band1.band(), band2.band(), lent);
    add_picture(part, Record::new(20).strategy(strategy).mode(mode).list(&[copol_code(copol)]), answer, band1, band2, lent);
}

fn add_picture(part: &mut Part, record: Record, answer: Answer<Picture>, band1: &Scene, band2: &Scene, lent: Lent) {
    let given = answer.as_ref().ok();
    let record = record.sides(band1.sides).reply(&answer);
    let record = record.list(&band1.db).list(&band1.marks).list(&band2.db).list(&band2.marks).list(&[lent.work as u32]);
    let record = record.out(given.map(|p| &p.grey1[..]), lent.grey1).out(given.map(|p| &p.grey2[..]), lent.grey2);
    part.add(record.out(given.map(|p| &p.rgb[..]), lent.rgb));
}

/// The windows of a picture: two kinds, then the floats of band 1 and of band 2.
pub fn picture_windows(part: &mut Part, strategy: AutoscaleStrategy, copol: CoPol, band1: &Scene, band2: &Scene) {
    let answer = oracle::picture_windows(strategy, copol, band1.sides, band1.band(), band2.band());
    let given = answer.ok().map(|windows| windows.map(kind_and_floats));
    let (kinds, floats) = (given.map(|two| two.map(|(kind, _)| kind)), given.map(|two| two.map(|(_, floats)| floats).concat()));
    let record = Record::new(21).strategy(strategy).sides(band1.sides).reply(&answer).list(&[copol_code(copol)]);
    let record = record.list(&band1.db).list(&band1.marks).list(&band2.db).list(&band2.marks);
    part.add(record.out(kinds.as_ref().map(|k| &k[..]), 2).out(floats.as_deref(), 8));
}

pub fn stretch(part: &mut Part, data: &[u16], out: usize) {
    let answer = oracle::stretch(data, out);
    part.add(Record::new(6).reply(&answer).list(data).out(answer.as_deref().ok(), out));
}

pub fn composition(part: &mut Part, mode: SyntheticRgbMode, strategy: AutoscaleStrategy, band1: &[u8], band2: &[u8], out: usize) {
    let answer = oracle::composition(mode, strategy, band1, band2, out);
    let record = Record::new(7).strategy(strategy).mode(mode).reply(&answer).list(band1).list(band2);
    part.add(record.out(answer.as_deref().ok(), out));
}

/// 8 sum, 9 difference, 10 ratio, 11 log ratio, 12 normalised difference.
pub fn arithmetic(part: &mut Part, operation: PolarizationOperation, a: &[f32], b: &[f32], out: usize) {
    let op = match operation {
        PolarizationOperation::Sum => 8,
        PolarizationOperation::Diff => 9,
        PolarizationOperation::Ratio => 10,
        PolarizationOperation::LogRatio => 11,
        PolarizationOperation::NDiff => 12,
    };
    let answer = oracle::arithmetic(operation, a, b, out);
    part.add(Record::new(op).reply(&answer).list(a).list(b).out(answer.as_deref().ok(), out));
}

pub fn every_arithmetic(part: &mut Part, a: &[f32], b: &[f32], out: usize) {
    for operation in OPERATIONS {
        arithmetic(part, operation, a, b, out);
    }
}

pub fn marks(part: &mut Part, data: &[f32], out: usize) {
    let answer = oracle::marks(data, out);
    part.add(Record::new(13).reply(&answer).list(data).out(answer.as_deref().ok(), out));
}

pub fn padding8(part: &mut Part, sides: Sides, data: &[u8], out: usize) {
    let answer = oracle::padding_u8(sides, data, out);
    part.add(Record::new(14).sides(sides).reply(&answer).list(data).out(answer.as_deref().ok(), out));
}

pub fn padding16(part: &mut Part, sides: Sides, data: &[u16], out: usize) {
    let answer = oracle::padding_u16(sides, data, out);
    part.add(Record::new(15).sides(sides).reply(&answer).list(data).out(answer.as_deref().ok(), out));
}
