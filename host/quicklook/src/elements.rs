//! Elements of rasters: their kinds by NumPy's names, and their exact numbers.

use crate::memory::{self, Plain};
use crate::trouble::{Outcome, Trouble};
use std::fmt;
use std::io::{self, Read};

#[derive(Clone, Copy, Debug, PartialEq, Eq)]
pub enum Kind {
    F64,
    F32,
    F16,
    I64,
    I32,
    I16,
    I8,
    U64,
    U32,
    U16,
    U8,
    Bool,
}

impl Kind {
    const ALL: [Kind; 12] =
        [Kind::F64, Kind::F32, Kind::F16, Kind::I64, Kind::I32, Kind::I16, Kind::I8, Kind::U64, Kind::U32, Kind::U16, Kind::U8, Kind::Bool];

    pub fn of_name(name: &str) -> Option<Self> {
        Self::ALL.into_iter().find(|kind| kind.name() == name)
    }

    /// NumPy's name, which the GDAL process uses too.
    pub fn name(self) -> &'static str {
        match self {
            Kind::F64 => "f8",
            Kind::F32 => "f4",
            Kind::F16 => "f2",
            Kind::I64 => "i8",
            Kind::I32 => "i4",
            Kind::I16 => "i2",
            Kind::I8 => "i1",
            Kind::U64 => "u8",
            Kind::U32 => "u4",
            Kind::U16 => "u2",
            Kind::U8 => "u1",
            Kind::Bool => "b1",
        }
    }

    pub fn width(self) -> usize {
        match self {
            Kind::F64 | Kind::I64 | Kind::U64 => 8,
            Kind::F32 | Kind::I32 | Kind::U32 => 4,
            Kind::F16 | Kind::I16 | Kind::U16 => 2,
            Kind::I8 | Kind::U8 | Kind::Bool => 1,
        }
    }
}

/// How elements stand in a stream of bytes.
#[derive(Clone, Copy, Debug, PartialEq, Eq)]
pub struct Layout {
    pub kind: Kind,
    pub big_endian: bool,
}

/// Why a list could not be read.
#[derive(Debug)]
pub enum Stop {
    Stream(io::Error),
    Memory(Trouble),
    /// The element at this place has a value that the list cannot hold.
    Element {
        at: usize,
        value: String,
    },
}

impl From<io::Error> for Stop {
    fn from(error: io::Error) -> Self {
        Stop::Stream(error)
    }
}

impl fmt::Display for Stop {
    fn fmt(&self, f: &mut fmt::Formatter<'_>) -> fmt::Result {
        match self {
            Stop::Stream(error) if error.kind() == io::ErrorKind::UnexpectedEof => f.write_str("it ends too early"),
            Stop::Stream(error) => error.fmt(f),
            Stop::Memory(trouble) => trouble.fmt(f),
            Stop::Element { at, value } => write!(f, "element {at} is {value}"),
        }
    }
}

/// Reads `count` elements, each turned from its exact number by `take`; none of `take` stops at that element.
pub fn read<T>(input: &mut impl Read, layout: Layout, count: usize, take: impl Fn(f64) -> Option<T>) -> Result<Vec<T>, Stop> {
    const PIECE: usize = 1 << 16;
    let width = layout.kind.width();
    let mut list = memory::room(count, "a raster").map_err(Stop::Memory)?;
    let mut bytes = vec![0; PIECE.min(count) * width];
    let mut numbers = Vec::with_capacity(PIECE.min(count));
    while list.len() < count {
        let piece = (count - list.len()).min(PIECE);
        let bytes = &mut bytes[..piece * width];
        input.read_exact(bytes)?;
        if layout.big_endian {
            bytes.chunks_exact_mut(width).for_each(<[u8]>::reverse);
        }
        numbers.clear();
        let at = |k: usize| list.len() + k;
        widen(layout.kind, bytes, &mut numbers).map_err(|(k, value)| Stop::Element { at: at(k), value })?;
        let before = list.len();
        list.extend(numbers.iter().map_while(|&number| take(number)));
        let taken = list.len() - before;
        if taken < piece {
            return Err(Stop::Element { at: list.len(), value: numbers[taken].to_string() });
        }
    }
    Ok(list)
}

/// Little-endian elements as exact f64 numbers; the place and the digits of one that f64 does not hold.
fn widen(kind: Kind, bytes: &[u8], numbers: &mut Vec<f64>) -> Result<(), (usize, String)> {
    macro_rules! each {
        ($type:ty) => {
            numbers.extend(
                bytes
                    .chunks_exact(std::mem::size_of::<$type>())
                    .map(|b| f64::from(<$type>::from_le_bytes(b.try_into().expect("its width")))),
            )
        };
    }
    macro_rules! each_held {
        ($type:ty) => {
            for (k, b) in bytes.chunks_exact(8).enumerate() {
                let whole = <$type>::from_le_bytes(b.try_into().expect("its width"));
                // The saturating cast back cannot hide a rounding up to 2^63 or 2^64: those are compared in 128 bits.
                if (whole as f64) as i128 != i128::from(whole) {
                    return Err((k, whole.to_string()));
                }
                numbers.push(whole as f64);
            }
        };
    }
    match kind {
        Kind::F64 => each!(f64),
        Kind::F32 => each!(f32),
        Kind::F16 => numbers.extend(bytes.chunks_exact(2).map(|b| half(u16::from_le_bytes([b[0], b[1]])))),
        Kind::I64 => each_held!(i64),
        Kind::I32 => each!(i32),
        Kind::I16 => each!(i16),
        Kind::I8 => each!(i8),
        Kind::U64 => each_held!(u64),
        Kind::U32 => each!(u32),
        Kind::U16 => each!(u16),
        Kind::U8 => each!(u8),
        Kind::Bool => match bytes.iter().position(|&byte| byte > 1) {
            Some(k) => return Err((k, bytes[k].to_string())),
            None => each!(u8),
        },
    }
    Ok(())
}

/// The number of a binary16 pattern.
fn half(bits: u16) -> f64 {
    let fraction = f64::from(bits & 0x3ff);
    let size = match (bits >> 10) & 0x1f {
        0 => fraction * 2f64.powi(-24),
        31 if fraction == 0.0 => f64::INFINITY,
        31 => f64::NAN,
        exponent => (1024.0 + fraction) * 2f64.powi(i32::from(exponent) - 25),
    };
    if bits >> 15 == 1 { -size } else { size }
}

/// Row by row what stands column by column.
pub fn turned<T: Plain>(columns: &[T], rows: usize, cols: usize) -> Outcome<Vec<T>> {
    const TILE: usize = 64;
    let mut list = memory::zeros(columns.len(), "a raster")?;
    for top in (0..rows).step_by(TILE) {
        for left in (0..cols).step_by(TILE) {
            for row in top..rows.min(top + TILE) {
                for col in left..cols.min(left + TILE) {
                    list[row * cols + col] = columns[col * rows + row];
                }
            }
        }
    }
    Ok(list)
}

#[cfg(test)]
mod tests {
    use super::*;

    #[test]
    fn halves() {
        for (bits, value) in [
            (0x3c00, 1.0),
            (0xc000, -2.0),
            (0x7bff, 65504.0),
            (0x0001, 2f64.powi(-24)),
            (0x03ff, 1023.0 * 2f64.powi(-24)),
            (0x3555, 0.333251953125),
            (0x7c00, f64::INFINITY),
        ] {
            assert_eq!(half(bits), value, "{bits:x}");
        }
        assert!(half(0x7e00).is_nan());
        assert!(half(0x8000) == 0.0 && half(0x8000).is_sign_negative());
    }

    #[test]
    fn whole_numbers_that_f64_does_not_hold_stop() {
        let read_u = |v: u64| read(&mut &v.to_le_bytes()[..], Layout { kind: Kind::U64, big_endian: false }, 1, Some);
        let read_i = |v: i64| read(&mut &v.to_be_bytes()[..], Layout { kind: Kind::I64, big_endian: true }, 1, Some);
        for v in [0, 1 << 53, (1 << 53) + 2, 1 << 63, u64::MAX - 2047] {
            assert_eq!(read_u(v).unwrap(), [v as f64]);
        }
        for v in [(1 << 53) + 1, u64::MAX, u64::MAX - 1023, (1 << 63) + 1] {
            assert!(matches!(read_u(v), Err(Stop::Element { at: 0, .. })), "{v}");
        }
        assert_eq!(read_i(i64::MIN).unwrap(), [-(2f64.powi(63))]);
        for v in [i64::MAX, i64::MIN + 1, -(1 << 53) - 1] {
            assert!(matches!(read_i(v), Err(Stop::Element { at: 0, .. })), "{v}");
        }
    }

    #[test]
    fn columns_become_rows() {
        let (rows, cols) = (67, 130);
        let columns: Vec<f64> = (0..cols).flat_map(|col| (0..rows).map(move |row| (row * 1000 + col) as f64)).collect();
        let list = turned(&columns, rows, cols).unwrap();
        assert!((0..rows * cols).all(|i| list[i] == ((i / cols) * 1000 + i % cols) as f64));
        assert!(turned::<u8>(&[], 0, 5).unwrap().is_empty());
    }
}
