//! Replays the stored vectors on the archive: each record of tests/vectors/*.bin names a call, what it is lent, and what it must answer and
//! leave. The record format is in oracle/README.md. A file must have the number of records that its test names.

use std::fmt::Debug;
use std::ops::RangeInclusive;
use std::path::Path;

use engine::{AutoscaleStrategy, c};

/// What came of a record: nothing, or what differs.
type Outcome = Result<(), String>;

/// Elements behind a lent list, which no call may change.
const BEHIND: usize = 64;

// ---- elements

trait Element: Copy + Debug {
    const WIDTH: usize;
    /// Every byte is A5: what a lent list holds before the call.
    const FILL: Self;
    fn read(bytes: &[u8]) -> Self;
    /// Equal to the bit; all NaNs count as equal.
    fn same(self, other: Self) -> bool;
}

macro_rules! element {
    ($t:ty, $fill:expr, $same:expr) => {
        impl Element for $t {
            const WIDTH: usize = size_of::<$t>();
            const FILL: Self = $fill;
            fn read(bytes: &[u8]) -> Self {
                Self::from_le_bytes(bytes.try_into().unwrap())
            }
            fn same(self, other: Self) -> bool {
                $same(self, other)
            }
        }
    };
}
element!(u8, 0xA5, |a, b| a == b);
element!(u16, 0xA5A5, |a, b| a == b);
element!(u32, 0xA5A5_A5A5, |a, b| a == b);
element!(u64, 0xA5A5_A5A5_A5A5_A5A5, |a, b| a == b);
element!(f32, f32::from_bits(0xA5A5_A5A5), |a: f32, b: f32| a.to_bits() == b.to_bits() || a.is_nan() && b.is_nan());
element!(f64, f64::from_bits(0xA5A5_A5A5_A5A5_A5A5), |a: f64, b: f64| a.to_bits() == b.to_bits() || a.is_nan() && b.is_nan());

// ---- records

/// The bytes of a file that are left to read.
struct Bytes<'a>(&'a [u8]);

impl<'a> Bytes<'a> {
    fn take(&mut self, count: usize) -> Result<&'a [u8], String> {
        let (taken, rest) = self.0.split_at_checked(count).ok_or("is cut")?;
        self.0 = rest;
        Ok(taken)
    }

    fn one<T: Element>(&mut self) -> Result<T, String> {
        Ok(T::read(self.take(T::WIDTH)?))
    }

    fn end(&self) -> Outcome {
        if self.0.is_empty() { Ok(()) } else { Err(format!("has {} bytes after its last list", self.0.len())) }
    }
}

struct List<'a> {
    width: usize,
    bytes: &'a [u8],
}

struct Record<'a> {
    op: u8,
    strategy: u8,
    mode: u8,
    reply: u8,
    rows: usize,
    cols: usize,
    lists: Vec<List<'a>>,
}

impl<'a> Record<'a> {
    fn read(bytes: &mut Bytes<'a>) -> Result<Self, String> {
        let length = bytes.one::<u32>()? as usize;
        let mut rest = Bytes(bytes.take(length)?);
        let [op, strategy, mode, reply] = [rest.one()?, rest.one()?, rest.one()?, rest.one()?];
        let [rows, cols] = [rest.one::<u32>()? as usize, rest.one::<u32>()? as usize];
        let count = rest.one::<u8>()?;
        let lists = (0..count).map(|_| read_list(&mut rest)).collect::<Result<_, _>>()?;
        rest.end()?;
        Ok(Record { op, strategy, mode, reply, rows, cols, lists })
    }

    /// A record of this many lists.
    fn has(&self, lists: usize) -> Outcome {
        if self.lists.len() == lists { Ok(()) } else { Err(format!("has {} lists, not {lists}", self.lists.len())) }
    }

    fn list<T: Element>(&self, k: usize) -> Result<Vec<T>, String> {
        let list = &self.lists[k];
        if list.width != T::WIDTH {
            return Err(format!("list {k} has elements of {} bytes, not {}", list.width, T::WIDTH));
        }
        Ok(list.bytes.chunks_exact(T::WIDTH).map(T::read).collect())
    }

    fn answers(&self, reply: u8) -> Outcome {
        if reply == self.reply { Ok(()) } else { Err(format!("answers {reply}, expected {}", self.reply)) }
    }
}

fn read_list<'a>(bytes: &mut Bytes<'a>) -> Result<List<'a>, String> {
    let width = bytes.one::<u8>()? as usize;
    let count = bytes.one::<u32>()? as usize;
    Ok(List { width, bytes: bytes.take(width * count)? })
}

// ---- lent lists

/// A list to lend, with more elements behind it; A5 in every byte.
struct Lent<T> {
    memory: Vec<T>,
    len: usize,
}

impl<T: Element> Lent<T> {
    fn new(len: usize) -> Self {
        Lent { memory: vec![T::FILL; len + BEHIND], len }
    }

    fn ptr(&mut self) -> *mut T {
        self.memory.as_mut_ptr()
    }

    /// The lent list is as expected, and what stands behind it as it was.
    fn is(&self, name: &str, expected: &[T]) -> Outcome {
        self.is_by(name, expected, T::same)
    }

    fn is_by(&self, name: &str, expected: &[T], same: fn(T, T) -> bool) -> Outcome {
        if expected.len() != self.len {
            return Err(format!("{name} has {} elements, expected {}", self.len, expected.len()));
        }
        match (0..self.len).find(|&i| !same(self.memory[i], expected[i])) {
            Some(i) => Err(format!("{name}[{i}] is {:?}, expected {:?}", self.memory[i], expected[i])),
            None => self.is_untouched_from(name, self.len),
        }
    }

    fn is_untouched_from(&self, name: &str, from: usize) -> Outcome {
        match (from..self.memory.len()).find(|&i| !self.memory[i].same(T::FILL)) {
            Some(i) => Err(format!("{name}[{i}] of {} lent is {:?}, not as it was", self.len, self.memory[i])),
            None => Ok(()),
        }
    }
}

/// As numbers: -0 is 0.
fn as_numbers(a: f64, b: f64) -> bool {
    a == b
}

/// Work is as it was, unless the call is done under Clahe: then what was not lent is.
fn is_work(record: &Record, work: &Lent<f64>) -> Outcome {
    let free = record.reply == 0 && record.strategy == AutoscaleStrategy::Clahe.code();
    work.is_untouched_from("work", if free { work.len } else { 0 })
}

// ---- the calls

fn marks(record: &Record) -> Outcome {
    record.has(2)?;
    let (data, expected) = (record.list::<f32>(0)?, record.list(1)?);
    let mut out = Lent::new(expected.len());
    record.answers(unsafe { c::quicklook_marks(data.as_ptr(), data.len(), out.ptr(), out.len) })?;
    out.is("marks", &expected)
}

fn stretch(record: &Record) -> Outcome {
    record.has(2)?;
    let (data, expected) = (record.list::<u16>(0)?, record.list(1)?);
    let mut out = Lent::new(expected.len());
    record.answers(unsafe { c::quicklook_stretch(data.as_ptr(), data.len(), out.ptr(), out.len) })?;
    out.is("bytes", &expected)
}

fn arithmetic(record: &Record) -> Outcome {
    record.has(3)?;
    let (a, b, expected) = (record.list::<f32>(0)?, record.list::<f32>(1)?, record.list(2)?);
    let mut out = Lent::new(expected.len());
    let operate = match record.op {
        8 => c::quicklook_sum,
        9 => c::quicklook_difference,
        10 => c::quicklook_ratio,
        11 => c::quicklook_log_ratio,
        _ => c::quicklook_normalized_diff,
    };
    record.answers(unsafe { operate(a.as_ptr(), a.len(), b.as_ptr(), b.len(), out.ptr(), out.len) })?;
    out.is("result", &expected)
}

/// The padding call at one depth.
type Pad<T> = unsafe extern "C" fn(usize, usize, *const T, usize, *mut T, usize) -> u8;

fn pad<T: Element>(record: &Record, call: Pad<T>) -> Outcome {
    record.has(2)?;
    let (data, expected) = (record.list::<T>(0)?, record.list(1)?);
    let mut out = Lent::new(expected.len());
    record.answers(unsafe { call(record.rows, record.cols, data.as_ptr(), data.len(), out.ptr(), out.len) })?;
    out.is("padded", &expected)
}

fn compose(record: &Record) -> Outcome {
    record.has(3)?;
    let (band1, band2, expected) = (record.list::<u8>(0)?, record.list::<u8>(1)?, record.list(2)?);
    let mut rgb = Lent::new(expected.len());
    record.answers(unsafe {
        c::quicklook_compose(record.mode, record.strategy, band1.as_ptr(), band1.len(), band2.as_ptr(), band2.len(), rgb.ptr(), rgb.len)
    })?;
    rgb.is("colours", &expected)
}

fn statistics(record: &Record) -> Outcome {
    record.has(4)?;
    let (db, valid_mask) = (record.list::<f64>(0)?, record.list::<u8>(1)?);
    let (mut whole, mut floats) = (Lent::<u64>::new(engine::WHOLE), Lent::<f64>::new(15));
    record.answers(unsafe {
        c::quicklook_statistics(
            record.rows,
            record.cols,
            db.as_ptr(),
            db.len(),
            valid_mask.as_ptr(),
            valid_mask.len(),
            whole.ptr().cast(),
            floats.ptr().cast(),
        )
    })?;
    // The originals have no bins: those are compared by tests/reference.
    let count = record.list::<u64>(2)?;
    if count != whole.memory[..1] {
        return Err(format!("count is {}, expected {count:?}", whole.memory[0]));
    }
    whole.is_untouched_from("whole", if record.reply == 0 { engine::WHOLE } else { 1 })?;
    floats.is_by("floats", &record.list(3)?, as_numbers)
}

/// The record says whether there is a window, the call whether there is none.
fn blank_of(kind: u8) -> u8 {
    if kind <= 1 { 1 - kind } else { kind }
}

fn window(record: &Record) -> Outcome {
    record.has(4)?;
    let (db, valid_mask) = (record.list::<f64>(0)?, record.list::<u8>(1)?);
    let (mut blank, mut floats) = (Lent::new(1), Lent::<f64>::new(4));
    record.answers(unsafe {
        c::quicklook_window(
            record.strategy,
            record.rows,
            record.cols,
            db.as_ptr(),
            db.len(),
            valid_mask.as_ptr(),
            valid_mask.len(),
            blank.ptr(),
            floats.ptr().cast(),
        )
    })?;
    let expected: Vec<u8> = record.list(2)?.into_iter().map(blank_of).collect();
    blank.is("blank", &expected)?;
    floats.is_by("floats", &record.list(3)?, as_numbers)
}

/// The length of work to lend, which a record gives as one number.
fn work_of(record: &Record, k: usize) -> Result<Lent<f64>, String> {
    match record.list::<u32>(k)?[..] {
        [len] => Ok(Lent::new(len as usize)),
        _ => Err("has not one length of work".to_owned()),
    }
}

/// The grey call at one depth.
type Grey<T> = unsafe extern "C" fn(u8, usize, usize, *const f64, usize, *const u8, usize, *mut T, usize, *mut f64, usize) -> u8;

fn grey<T: Element>(record: &Record, call: Grey<T>) -> Outcome {
    record.has(4)?;
    let (db, valid_mask, expected) = (record.list::<f64>(0)?, record.list::<u8>(1)?, record.list(3)?);
    let (mut out, mut work) = (Lent::new(expected.len()), work_of(record, 2)?);
    record.answers(unsafe {
        call(
            record.strategy,
            record.rows,
            record.cols,
            db.as_ptr(),
            db.len(),
            valid_mask.as_ptr(),
            valid_mask.len(),
            out.ptr(),
            out.len,
            work.ptr(),
            work.len,
        )
    })?;
    out.is("greys", &expected)?;
    is_work(record, &work)
}

/// A picture whose bands begin at list `first`, by the call that is told this co-pol band or by the one that is not told.
fn picture(record: &Record, first: usize, copol: Option<u8>) -> Outcome {
    record.has(first + 8)?;
    let (db1, marks1) = (record.list::<f64>(first)?, record.list::<u8>(first + 1)?);
    let (db2, marks2) = (record.list::<f64>(first + 2)?, record.list::<u8>(first + 3)?);
    let expected: [Vec<u8>; 3] = [record.list(first + 5)?, record.list(first + 6)?, record.list(first + 7)?];
    let [mut grey1, mut grey2, mut rgb] = expected.each_ref().map(|list| Lent::new(list.len()));
    let mut work = work_of(record, first + 4)?;
    macro_rules! paint {
        ($call:ident $(, $copol:expr)?) => {
            c::$call(
                record.strategy,
                record.mode,
                $($copol,)?
                record.rows,
                record.cols,
                db1.as_ptr(),
                db1.len(),
                marks1.as_ptr(),
                marks1.len(),
                db2.as_ptr(),
                db2.len(),
                marks2.as_ptr(),
                marks2.len(),
                grey1.ptr(),
                grey1.len,
                grey2.ptr(),
                grey2.len,
                rgb.ptr(),
                rgb.len,
                work.ptr(),
                work.len,
            )
        };
    }
    record.answers(unsafe {
        match copol {
            None => paint!(quicklook_picture),
            Some(copol) => paint!(quicklook_picture_copol, copol),
        }
    })?;
    grey1.is("grey 1", &expected[0])?;
    grey2.is("grey 2", &expected[1])?;
    rgb.is("colours", &expected[2])?;
    is_work(record, &work)
}

/// The co-pol band, which a record gives as its first list.
fn copol_of(record: &Record) -> Result<u8, String> {
    match record.list::<u8>(0)?[..] {
        [copol] => Ok(copol),
        _ => Err("has not one co-pol band".to_owned()),
    }
}

fn picture_windows(record: &Record) -> Outcome {
    record.has(7)?;
    let (db1, marks1) = (record.list::<f64>(1)?, record.list::<u8>(2)?);
    let (db2, marks2) = (record.list::<f64>(3)?, record.list::<u8>(4)?);
    let (mut blank, mut floats) = (Lent::<u8>::new(2), Lent::<f64>::new(8));
    record.answers(unsafe {
        c::quicklook_picture_windows(
            record.strategy,
            copol_of(record)?,
            record.rows,
            record.cols,
            db1.as_ptr(),
            db1.len(),
            marks1.as_ptr(),
            marks1.len(),
            db2.as_ptr(),
            db2.len(),
            marks2.as_ptr(),
            marks2.len(),
            blank.ptr().cast(),
            floats.ptr().cast(),
        )
    })?;
    let expected: Vec<u8> = record.list(5)?.into_iter().map(blank_of).collect();
    blank.is("blank", &expected)?;
    floats.is_by("floats", &record.list(6)?, as_numbers)
}

// ---- files

/// A record of a file that has these ops.
fn replay(record: &Record, ops: &RangeInclusive<u8>) -> Outcome {
    match record.op {
        op if !ops.contains(&op) => Err(format!("op {op} is not one of this file")),
        1 => statistics(record),
        2 => window(record),
        3 => grey(record, c::quicklook_grey_u8),
        4 => grey(record, c::quicklook_grey_u16),
        // the old call, and the new one by its reading of the old
        5 => picture(record, 0, None).and_then(|()| picture(record, 0, Some(1))),
        6 => stretch(record),
        7 => compose(record),
        8..=12 => arithmetic(record),
        13 => marks(record),
        14 => pad(record, c::quicklook_pad_u8),
        15 => pad(record, c::quicklook_pad_u16),
        20 => picture(record, 1, Some(copol_of(record)?)),
        21 => picture_windows(record),
        op => Err(format!("op {op} names no call")),
    }
}

fn read_records<'a>(name: &str, bytes: &'a [u8]) -> Vec<Record<'a>> {
    let mut bytes = Bytes(bytes);
    let mut records = Vec::new();
    while !bytes.0.is_empty() {
        let record = Record::read(&mut bytes);
        records.push(record.unwrap_or_else(|what| panic!("{name}, record {}: {what}", records.len() + 1)));
    }
    records
}

/// Replays a file: so many records, all of these ops. Names every record that differs.
fn replay_file(name: &str, ops: RangeInclusive<u8>, count: usize) {
    let path = Path::new(env!("CARGO_MANIFEST_DIR")).join("../../tests/vectors").join(name);
    let bytes = std::fs::read(&path).unwrap_or_else(|error| panic!("{}: {error}", path.display()));
    let records = read_records(name, &bytes);
    assert_eq!(records.len(), count, "records of {name}");
    engine::set_environment();
    let said = |(record, n): (&Record, usize)| replay(record, &ops).err().map(|what| format!("{name}, record {n}: {what}"));
    let differ: Vec<String> = records.iter().zip(1..).filter_map(said).collect();
    assert!(differ.is_empty(), "{} of {count} records differ\n{}", differ.len(), differ.join("\n"));
}

macro_rules! files {
    ($($test:ident: $name:literal, $ops:expr, $count:literal;)*) => { $(
        #[test]
        fn $test() {
            replay_file($name, $ops, $count);
        }
    )* };
}
files! {
    replays_ops: "ops.bin", 8..=12, 465;
    replays_padding: "padding.bin", 14..=15, 284;
    replays_marks: "marks.bin", 13..=13, 56;
    replays_stretch: "stretch.bin", 6..=6, 545;
    replays_compose: "compose.bin", 7..=7, 510;
    replays_statistics: "statistics.bin", 1..=1, 358;
    replays_window: "window.bin", 2..=2, 1786;
    replays_grey8: "grey8.bin", 3..=3, 974;
    replays_grey16: "grey16.bin", 4..=4, 945;
    replays_picture: "picture.bin", 5..=5, 759;
    replays_copol: "copol.bin", 20..=21, 568;
}
