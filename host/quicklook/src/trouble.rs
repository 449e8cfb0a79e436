//! What can go wrong, and the exit status of each.

use std::fmt;
use std::path::Path;

pub const USAGE_STATUS: u8 = 64;
pub const INTERNAL_STATUS: u8 = 70;
pub const MEMORY_STATUS: u8 = 71;
pub const FILE_STATUS: u8 = 74;

/// The table of exit statuses, as help, manual and README show it.
pub const STATUSES: [(&str, &str); 6] = [
    ("0", "done: every output is written"),
    ("1 to 6", "the engine's refusal of that number, printed with its meaning, place and remedy"),
    ("64", "wrong use: words that do not fit together, or an output that cannot be meant"),
    ("70", "internal error: a fault of this program"),
    ("71", "no memory for the scene; how much was wanted is printed"),
    ("74", "a file, or standard output, that cannot be read or written"),
];

#[derive(Debug)]
pub enum Trouble {
    /// A number of the table of replies, with what it is about and what to do.
    Refused(u8, String),
    File(String),
    Usage(String),
    Memory(String),
}

pub type Outcome<T> = Result<T, Trouble>;

impl Trouble {
    pub fn file(path: &Path, what: impl fmt::Display) -> Self {
        Trouble::named(path.display(), what)
    }

    /// A file by the name that the user gave it.
    pub fn named(name: impl fmt::Display, what: impl fmt::Display) -> Self {
        Trouble::File(format!("{name}: {what}"))
    }

    pub fn status(&self) -> u8 {
        match self {
            Trouble::Refused(number, _) => *number,
            Trouble::File(_) => FILE_STATUS,
            Trouble::Usage(_) => USAGE_STATUS,
            Trouble::Memory(_) => MEMORY_STATUS,
        }
    }
}

impl From<engine::Refusal> for Trouble {
    fn from(refusal: engine::Refusal) -> Self {
        Trouble::Refused(refusal.0, refusal.meaning().to_string())
    }
}

impl fmt::Display for Trouble {
    fn fmt(&self, f: &mut fmt::Formatter<'_>) -> fmt::Result {
        match self {
            Trouble::Refused(number, words) => write!(f, "refused {number}: {words}"),
            Trouble::File(what) | Trouble::Usage(what) | Trouble::Memory(what) => f.write_str(what),
        }
    }
}
