//! The bytes of a .npy file: read when they are wanted, mapped by request, or taken from standard input.

use crate::trouble::{Outcome, Trouble};
use memmap2::Mmap;
use std::fs::{File, Metadata, OpenOptions};
use std::io::{self, Read};
use std::os::unix::fs::{FileExt, MetadataExt, OpenOptionsExt};
use std::path::Path;
use std::sync::atomic::{AtomicBool, Ordering::SeqCst};

/// The name of standard input.
pub const STANDARD_INPUT: &str = "-";

/// Standard input is read up to this many bytes: the largest scene of the widest elements twice over.
const MOST_OF_STANDARD_INPUT: u64 = 1 << 28;

pub enum Bytes {
    File(File, u64),
    Map(Mmap),
    Held(Vec<u8>),
}

/// Whether a file is the same and as it was, as far as the file system tells.
#[derive(Clone, Copy, Debug, PartialEq, Eq)]
pub struct Stamp {
    file: (u64, u64),
    pub len: u64,
    /// When its bytes changed, and when anything of it did.
    changed: [(i64, i64); 2],
}

impl From<&Metadata> for Stamp {
    fn from(there: &Metadata) -> Self {
        Stamp {
            file: (there.dev(), there.ino()),
            len: there.len(),
            changed: [(there.mtime(), there.mtime_nsec()), (there.ctime(), there.ctime_nsec())],
        }
    }
}

/// Opens a plain file to read, without waiting for anybody.
pub fn open_plain(path: &Path) -> io::Result<(File, Metadata)> {
    let file = OpenOptions::new().read(true).custom_flags(libc::O_NONBLOCK).open(path)?;
    let there = file.metadata()?;
    if there.is_file() { Ok((file, there)) } else { Err(io::Error::other("not a plain file")) }
}

impl Bytes {
    /// Opens a plain file. With `is_mapped` it is mapped: another program that shortens it ends this one.
    pub fn open(path: &Path, is_mapped: bool) -> Outcome<(Bytes, Stamp)> {
        let bad = |e: io::Error| Trouble::file(path, e);
        let (file, there) = open_plain(path).map_err(bad)?;
        let stamp = Stamp::from(&there);
        if is_mapped && there.len() > 0 {
            crate::signals::expect_shortened();
            // SAFETY: the map is only read, and a file that is shortened meanwhile ends the program.
            return Ok((Bytes::Map(unsafe { Mmap::map(&file) }.map_err(bad)?), stamp));
        }
        Ok((Bytes::File(file, there.len()), stamp))
    }

    /// All of standard input, which can be had once.
    pub fn of_standard_input() -> Outcome<Bytes> {
        static TAKEN: AtomicBool = AtomicBool::new(false);
        if TAKEN.swap(true, SeqCst) {
            return Err(Trouble::Usage("-: standard input can be one raster only".into()));
        }
        let bad = |what: &dyn std::fmt::Display| Trouble::named("standard input", what);
        let mut list = Vec::new();
        io::stdin().lock().take(MOST_OF_STANDARD_INPUT + 1).read_to_end(&mut list).map_err(|e| bad(&e))?;
        if list.len() as u64 > MOST_OF_STANDARD_INPUT {
            return Err(bad(&format!("more than {MOST_OF_STANDARD_INPUT} bytes")));
        }
        Ok(Bytes::Held(list))
    }

    pub fn len(&self) -> u64 {
        match self {
            Bytes::File(_, len) => *len,
            Bytes::Map(map) => map.len() as u64,
            Bytes::Held(list) => list.len() as u64,
        }
    }

    /// All of them, where they stand in memory.
    pub fn in_memory(&self) -> Option<&[u8]> {
        match self {
            Bytes::File(..) => None,
            Bytes::Map(map) => Some(map),
            Bytes::Held(list) => Some(list),
        }
    }

    /// The bytes from `at` on, as many as `into` has.
    pub fn read(&self, at: usize, into: &mut [u8]) -> io::Result<()> {
        if let Bytes::File(file, _) = self {
            return file.read_exact_at(into, at as u64);
        }
        let from = self.in_memory().and_then(|all| all.get(at..at.checked_add(into.len())?));
        into.copy_from_slice(from.ok_or(io::ErrorKind::UnexpectedEof)?);
        Ok(())
    }
}
