//! Records of a vector file. README.md has the layout.
use std::collections::HashSet;

use oracle::{Answer, AutoscaleStrategy, CoPol, Sides, SyntheticRgbMode};

/// No list is longer, so that a program without a heap can read every record.
pub const LONGEST: usize = 4_096;

/// Every byte of a lent output before the call.
const FILL: u8 = 0xA5;

pub trait Element: Copy {
    const WIDTH: u8;
    fn put(self, bytes: &mut Vec<u8>);
}

macro_rules! whole {
    ($($t:ty)*) => { $(
        impl Element for $t {
            const WIDTH: u8 = std::mem::size_of::<$t>() as u8;
            fn put(self, bytes: &mut Vec<u8>) {
                bytes.extend(self.to_le_bytes());
            }
        }
    )* };
}
whole!(u8 u16 u32 u64 i64);

impl Element for f32 {
    const WIDTH: u8 = 4;
    fn put(self, bytes: &mut Vec<u8>) {
        let bits = if self.is_nan() { 0x7FC0_0000 } else { self.to_bits() };
        bits.put(bytes);
    }
}

impl Element for f64 {
    const WIDTH: u8 = 8;
    fn put(self, bytes: &mut Vec<u8>) {
        let bits = if self.is_nan() { 0x7FF8_0000_0000_0000 } else { self.to_bits() };
        bits.put(bytes);
    }
}

/// A strategy's code: its place in types.rs.
pub fn strategy_code(strategy: AutoscaleStrategy) -> u8 {
    match strategy {
        AutoscaleStrategy::Standard => 0,
        AutoscaleStrategy::Robust => 1,
        AutoscaleStrategy::Adaptive => 2,
        AutoscaleStrategy::Equalized => 3,
        AutoscaleStrategy::Clahe => 4,
        AutoscaleStrategy::Tamed => 5,
        AutoscaleStrategy::Default => 6,
    }
}

/// A co-pol band's code: its number.
pub fn copol_code(copol: CoPol) -> u8 {
    match copol {
        CoPol::Band1 => 1,
        CoPol::Band2 => 2,
    }
}

pub struct Record {
    op: u8,
    strategy: u8,
    mode: u8,
    reply: u8,
    rows: u32,
    cols: u32,
    lists: u8,
    bytes: Vec<u8>,
}

impl Record {
    pub fn new(op: u8) -> Self {
        Record { op, strategy: 0, mode: 0, reply: 0, rows: 0, cols: 0, lists: 0, bytes: Vec::new() }
    }

    pub fn strategy(mut self, strategy: AutoscaleStrategy) -> Self {
        self.strategy = strategy_code(strategy);
        self
    }

    pub fn mode(mut self, mode: SyntheticRgbMode) -> Self {
        self.mode = match mode {
            SyntheticRgbMode::Default => 0,
            SyntheticRgbMode::RgbRatio => 1,
            SyntheticRgbMode::SarUrban => 2,
            SyntheticRgbMode::Enhanced => 3,
        };
        self
    }

    pub fn sides(mut self, sides: Sides) -> Self {
        self.rows = sides.rows.try_into().expect("sides of 32 bits");
        self.cols = sides.cols.try_into().expect("sides of 32 bits");
        self
    }

    pub fn reply<T>(mut self, answer: &Answer<T>) -> Self {
        self.reply = answer.as_ref().err().copied().unwrap_or(0);
        self
    }

    pub fn list<T: Element>(mut self, elements: &[T]) -> Self {
        assert!(elements.len() <= LONGEST);
        self.head(T::WIDTH, elements.len());
        elements.iter().for_each(|&e| e.put(&mut self.bytes));
        self
    }

    /// A lent output of that length: as the call leaves it, or as it was if the call refuses.
    pub fn out<T: Element>(mut self, given: Option<&[T]>, lent: usize) -> Self {
        match given {
            Some(elements) => {
                assert_eq!(elements.len(), lent);
                self.list(elements)
            }
            None => {
                assert!(lent <= LONGEST);
                self.head(T::WIDTH, lent);
                self.bytes.resize(self.bytes.len() + lent * usize::from(T::WIDTH), FILL);
                self
            }
        }
    }

    fn head(&mut self, width: u8, length: usize) {
        self.lists += 1;
        width.put(&mut self.bytes);
        (length as u32).put(&mut self.bytes);
    }
}

/// One file: records one after another, none twice.
pub struct Part {
    pub name: &'static str,
    pub refused: usize,
    pub bytes: Vec<u8>,
    bodies: HashSet<Vec<u8>>,
}

impl Part {
    pub fn new(name: &'static str) -> Self {
        Part { name, refused: 0, bytes: Vec::new(), bodies: HashSet::new() }
    }

    pub fn records(&self) -> usize {
        self.bodies.len()
    }

    pub fn add(&mut self, record: Record) {
        let mut body = vec![record.op, record.strategy, record.mode, record.reply];
        record.rows.put(&mut body);
        record.cols.put(&mut body);
        record.lists.put(&mut body);
        body.extend(record.bytes);
        if self.bodies.insert(body.clone()) {
            (body.len() as u32).put(&mut self.bytes);
            self.bytes.extend(body);
            self.refused += usize::from(record.reply != 0);
        }
    }
}
