//! NumPy's .npy files of two dimensions: where their elements stand, and headers of new ones.

use crate::elements::{Kind, Layout};
use crate::trouble::{Outcome, Trouble};
use std::path::Path;

/// Where the elements of a file begin, how they stand, and the two sides.
#[derive(Clone, Copy, Debug, PartialEq, Eq)]
pub struct Header {
    pub layout: Layout,
    /// Column by column.
    pub fortran: bool,
    pub rows: usize,
    pub cols: usize,
    pub start: usize,
}

pub const MAGIC: &[u8; 6] = b"\x93NUMPY";

/// Bytes of a file that hold its header: far above what NumPy writes.
pub const LONGEST_HEADER: usize = 1 << 20;

/// Reads the header from a file's first bytes, at most LONGEST_HEADER of them, and checks that a file of `len` bytes holds just the
/// elements that it names.
pub fn header(path: &Path, bytes: &[u8], len: u64) -> Outcome<Header> {
    let bad = |what: &str| Trouble::file(path, what);
    if bytes.len() < 10 || &bytes[..6] != MAGIC {
        return Err(bad("not a .npy file"));
    }
    let (at, text_len): (usize, usize) = match bytes[6] {
        1 => (10, u16::from_le_bytes([bytes[8], bytes[9]]) as usize),
        2 | 3 if bytes.len() >= 12 => (12, u32::from_le_bytes([bytes[8], bytes[9], bytes[10], bytes[11]]) as usize),
        _ => return Err(bad("a .npy version that is not 1, 2 or 3")),
    };
    let start = at.checked_add(text_len).filter(|&end| end <= bytes.len()).ok_or_else(|| bad("truncated .npy header"))?;
    let text = std::str::from_utf8(&bytes[at..start]).map_err(|_| bad("a .npy header that is not text"))?;
    let layout = match field(text, "descr").and_then(quoted) {
        Some(descr) => layout(descr).ok_or_else(|| bad(&format!("element type {descr}: floats, whole numbers and bools are read")))?,
        None => return Err(bad("a .npy header without an element type")),
    };
    let fortran = match field(text, "fortran_order") {
        Some(rest) if rest.starts_with("False") => false,
        Some(rest) if rest.starts_with("True") => true,
        _ => return Err(bad("a .npy header without its order")),
    };
    let sides = field(text, "shape").and_then(tuple).ok_or_else(|| bad("a .npy header without a shape"))?;
    let [rows, cols] = sides[..] else {
        return Err(bad(&format!("{} dimensions: two are read", sides.len())));
    };
    if rows.max(cols) > i32::MAX as usize {
        return Err(bad("a shape that is too large"));
    }
    let wanted =
        rows.checked_mul(cols).and_then(|n| n.checked_mul(layout.kind.width())).ok_or_else(|| bad("a shape that is too large"))? as u64;
    match len - start as u64 {
        there if there < wanted => Err(bad(&format!("truncated: {there} of {wanted} bytes of elements"))),
        there if there > wanted => Err(bad(&format!("{} bytes beyond the last element", there - wanted))),
        _ => Ok(Header { layout, fortran, rows, cols, start }),
    }
}

/// An element type in NumPy's words: byte order, then kind and width.
fn layout(descr: &str) -> Option<Layout> {
    let kind = Kind::of_name(descr.get(1..)?)?;
    match descr.as_bytes()[0] {
        b'<' | b'=' => Some(Layout { kind, big_endian: false }),
        b'>' => Some(Layout { kind, big_endian: true }),
        b'|' if kind.width() == 1 => Some(Layout { kind, big_endian: false }),
        _ => None,
    }
}

/// What follows a key of the header's dictionary.
fn field<'a>(text: &'a str, key: &str) -> Option<&'a str> {
    let at = text.find(&format!("'{key}'"))?;
    let rest = &text[at + key.len() + 2..];
    Some(rest.trim_start().strip_prefix(':')?.trim_start())
}

fn quoted(text: &str) -> Option<&str> {
    let rest = text.strip_prefix('\'')?;
    Some(&rest[..rest.find('\'')?])
}

fn tuple(text: &str) -> Option<Vec<usize>> {
    let rest = text.strip_prefix('(')?;
    let inside = &rest[..rest.find(')')?];
    inside.split(',').map(str::trim).filter(|part| !part.is_empty()).map(|part| part.parse().ok()).collect()
}

/// The header of a new file; the elements follow it, aligned to 64 bytes.
pub fn new_header(kind: Kind, rows: usize, cols: usize) -> Vec<u8> {
    shaped_header(kind, &format!("({rows}, {cols})"))
}

/// The header of a new file of three dimensions: rows, cols and three colour bytes.
pub fn new_rgb_header(rows: usize, cols: usize) -> Vec<u8> {
    shaped_header(Kind::U8, &format!("({rows}, {cols}, 3)"))
}

fn shaped_header(kind: Kind, shape: &str) -> Vec<u8> {
    let order = if kind.width() == 1 { '|' } else { '<' };
    let mut text = format!("{{'descr': '{order}{}', 'fortran_order': False, 'shape': {shape}, }}", kind.name());
    while (10 + text.len() + 1) % 64 != 0 {
        text.push(' ');
    }
    text.push('\n');
    let mut bytes = MAGIC.to_vec();
    bytes.extend_from_slice(&[1, 0]);
    bytes.extend_from_slice(&(text.len() as u16).to_le_bytes());
    bytes.extend_from_slice(text.as_bytes());
    bytes
}

#[cfg(test)]
mod tests {
    use super::*;

    fn read(bytes: &[u8]) -> Result<Header, String> {
        header(Path::new("x.npy"), bytes, bytes.len() as u64).map_err(|trouble| trouble.to_string())
    }

    #[test]
    fn a_new_header_reads_back() {
        for kind in [Kind::F64, Kind::F32, Kind::U16, Kind::U8, Kind::Bool] {
            let mut bytes = new_header(kind, 3, 5);
            let start = bytes.len();
            assert_eq!(start % 64, 0);
            bytes.resize(start + 15 * kind.width(), 0);
            let layout = Layout { kind, big_endian: false };
            assert_eq!(read(&bytes), Ok(Header { layout, fortran: false, rows: 3, cols: 5, start }));
            bytes.pop();
            assert!(read(&bytes).unwrap_err().contains("truncated"));
            bytes.extend([0, 0]);
            assert!(read(&bytes).unwrap_err().contains("beyond"));
        }
    }

    #[test]
    fn orders_are_told() {
        let mut bytes = b"\x93NUMPY\x01\x00".to_vec();
        let text = "{'descr': '>i2', 'fortran_order': True, 'shape': (2, 3), }";
        bytes.extend((text.len() as u16).to_le_bytes());
        bytes.extend(text.as_bytes());
        bytes.extend([0; 12]);
        let head = read(&bytes).unwrap();
        assert_eq!((head.layout, head.fortran, head.rows, head.cols), (Layout { kind: Kind::I16, big_endian: true }, true, 2, 3));
    }

    #[test]
    fn other_files_are_turned_away() {
        let whole = |text: &str| {
            let mut bytes = b"\x93NUMPY\x01\x00".to_vec();
            bytes.extend((text.len() as u16).to_le_bytes());
            bytes.extend(text.as_bytes());
            bytes
        };
        assert!(read(b"").unwrap_err().contains("not a .npy"));
        assert!(read(b"\x89PNG\r\n\x1a\n....").unwrap_err().contains("not a .npy"));
        assert!(read(b"\x93NUMPY\x09\x00\x00\x00").unwrap_err().contains("version"));
        assert!(read(&whole("{}")[..9]).unwrap_err().contains("not a .npy"));
        assert!(read(b"\x93NUMPY\x01\x00\xff\xff{").unwrap_err().contains("truncated"));
        for descr in ["<c16", "<U4", "|O", "|f8", "<f16", "", "<"] {
            let header = format!("{{'descr': '{descr}', 'fortran_order': False, 'shape': (1, 1), }}");
            assert!(read(&whole(&header)).unwrap_err().contains("element type"), "{descr}");
        }
        assert!(read(&whole("{'descr': '<f8', 'fortran_order': False, 'shape': (1,), }")).unwrap_err().contains("1 dimensions"));
        assert!(
            read(&whole("{'descr': '<f8', 'fortran_order': False, 'shape': (99999999999, 99999999999), }"))
                .unwrap_err()
                .contains("too large")
        );
        assert!(read(&whole("{'descr': '<f8', 'fortran_order': False, 'shape': (1, -1), }")).unwrap_err().contains("shape"));
        assert!(read(&whole("{'fortran_order': False, 'shape': (1, 1), }")).unwrap_err().contains("element type"));
    }
}
