//! The files that stand on the disk while outputs are written, and what becomes of each where the program ends early. Signals' handlers and
//! the allocator read this table: no locks, no memory.

use crate::signals;
use std::cell::Cell;
use std::ffi::CString;
use std::fs::Metadata;
use std::io;
use std::mem::{ManuallyDrop, MaybeUninit};
use std::os::raw::c_char;
use std::os::unix::ffi::OsStrExt;
use std::os::unix::fs::MetadataExt;
use std::path::{Path, PathBuf};
use std::ptr::null_mut;
use std::sync::atomic::{AtomicBool, AtomicPtr, AtomicU8, AtomicU64, AtomicUsize, Ordering::SeqCst};

/// A part file, or a second name of a file that has its own still: removed.
const PART: u8 = 0;
/// An earlier file whose place a new one has taken: put back, or removed once all outputs are named.
const EARLIER: u8 = 1;
/// A new file in a place that was empty: removed, or left once all outputs are named.
const NEW: u8 = 2;
/// A new folder: removed if it is empty, or left once all outputs are named.
const FOLDER: u8 = 3;

struct Slot {
    path: AtomicPtr<c_char>,
    /// The place of an output, and the file that this program has put there.
    place: AtomicPtr<c_char>,
    device: AtomicU64,
    inode: AtomicU64,
    kind: AtomicU8,
}

const MOST: usize = 256;
static TABLE: [Slot; MOST] = [const {
    Slot {
        path: AtomicPtr::new(null_mut()),
        place: AtomicPtr::new(null_mut()),
        device: AtomicU64::new(0),
        inode: AtomicU64::new(0),
        kind: AtomicU8::new(PART),
    }
}; MOST];

/// From here on no file may be made.
static IS_ENDING: AtomicBool = AtomicBool::new(false);
/// How many are being made now.
static MAKING: AtomicUsize = AtomicUsize::new(0);
thread_local! {
    static IS_MAKING: Cell<bool> = const { Cell::new(false) };
}

/// For an end that runs no destructors, of whatever thread: lets those that make a file finish, and undoes everything that stands.
pub fn end() {
    const WAITS: usize = 1000;
    const MILLISECOND: libc::timespec = libc::timespec { tv_sec: 0, tv_nsec: 1_000_000 };
    IS_ENDING.store(true, SeqCst);
    let own = usize::from(IS_MAKING.try_with(Cell::get).unwrap_or(false));
    for _ in 0..WAITS {
        if MAKING.load(SeqCst) <= own {
            break;
        }
        unsafe { libc::nanosleep(&MILLISECOND, null_mut()) };
    }
    undo_all();
}

/// Undoes everything that stands, files before the folders that were made for them.
pub fn undo_all() {
    for slot in TABLE.iter().rev() {
        slot.undo();
    }
}

impl Slot {
    /// What the file's kind says. False where the system refused; a file that could not be put back stays. The slot is free only after it:
    /// a thread that ends the program does the same again where another was about to. The path's memory is not freed: a handler may not.
    fn undo(&self) -> bool {
        let path = self.path.load(SeqCst);
        if path.is_null() {
            return true;
        }
        let is_undone = match (self.kind.load(SeqCst), signals::is_done()) {
            (NEW | FOLDER, true) => true,
            (NEW, false) if self.is_anothers() => true,
            (FOLDER, false) => unsafe { libc::rmdir(path) == 0 },
            (EARLIER, false) if !self.is_anothers() => unsafe { libc::rename(path, self.place.load(SeqCst)) == 0 },
            _ => unsafe { libc::unlink(path) == 0 },
        };
        self.free();
        is_undone
    }

    /// Whether another program has put a file of its own into the place since.
    fn is_anothers(&self) -> bool {
        let mut there = MaybeUninit::<libc::stat>::uninit();
        if unsafe { libc::lstat(self.place.load(SeqCst), there.as_mut_ptr()) } != 0 {
            return false;
        }
        let there = unsafe { there.assume_init() };
        (there.st_dev, there.st_ino) != (self.device.load(SeqCst), self.inode.load(SeqCst))
    }

    fn put(&self, place: *mut c_char, (device, inode): Id) {
        self.place.store(place, SeqCst);
        self.device.store(device, SeqCst);
        self.inode.store(inode, SeqCst);
    }

    fn free(&self) {
        self.kind.store(PART, SeqCst);
        self.path.store(null_mut(), SeqCst);
    }
}

/// A file of the table. Dropped, it is undone.
pub struct Fleeting {
    pub path: PathBuf,
    slot: usize,
}

impl Fleeting {
    /// Before the file stands, so that no signal can come between.
    pub fn new(path: PathBuf) -> io::Result<Self> {
        let name = CString::new(path.as_os_str().as_bytes())?.into_raw();
        let free = |slot: &Slot| slot.path.compare_exchange(null_mut(), name, SeqCst, SeqCst).is_ok();
        match TABLE.iter().position(free) {
            Some(slot) => Ok(Fleeting { path, slot }),
            None => {
                drop(unsafe { CString::from_raw(name) });
                Err(io::Error::other("too many outputs at once"))
            }
        }
    }

    /// Makes the file by `make`; one that could not be made is not this program's to remove.
    pub fn made<T>(self, make: impl FnOnce(&Path) -> io::Result<T>) -> io::Result<(T, Self)> {
        MAKING.fetch_add(1, SeqCst);
        IS_MAKING.with(|making| making.set(true));
        let made = if IS_ENDING.load(SeqCst) { None } else { Some(make(&self.path)) };
        IS_MAKING.with(|making| making.set(false));
        MAKING.fetch_sub(1, SeqCst);
        match made {
            Some(Ok(made)) => Ok((made, self)),
            Some(Err(error)) => {
                self.keep();
                Err(error)
            }
            None => signals::wait_for_the_end(),
        }
    }

    /// The file is from now on an earlier one, whose place the file `new` has taken. Asks for no memory.
    pub fn becomes_earlier(self, place: CString, new: Id) -> Self {
        TABLE[self.slot].put(place.into_raw(), new);
        TABLE[self.slot].kind.store(EARLIER, SeqCst);
        self
    }

    /// The file, which is `new`, has from now on the name of an output, and none stood there before. Asks for no memory.
    pub fn becomes_new(self, place: CString, new: Id) -> Self {
        let place = place.into_raw();
        TABLE[self.slot].put(place, new);
        TABLE[self.slot].path.store(place, SeqCst);
        TABLE[self.slot].kind.store(NEW, SeqCst);
        self
    }

    /// The file is from now on a part file again.
    pub fn becomes_part(&self) {
        TABLE[self.slot].kind.store(PART, SeqCst);
    }

    /// A folder, made by this.
    pub fn folder(path: PathBuf) -> io::Result<Self> {
        let folder = Fleeting::new(path)?;
        TABLE[folder.slot].kind.store(FOLDER, SeqCst);
        folder.made(|path| std::fs::create_dir(path)).map(|((), folder)| folder)
    }

    /// Whether the file could be undone.
    pub fn undone(self) -> bool {
        TABLE[ManuallyDrop::new(self).slot].undo()
    }

    /// There is nothing to undo any more.
    pub fn keep(self) {
        TABLE[ManuallyDrop::new(self).slot].free();
    }
}

/// A file's own number, whatever its name.
pub type Id = (u64, u64);

pub fn id(there: &Metadata) -> Id {
    (there.dev(), there.ino())
}

impl Drop for Fleeting {
    fn drop(&mut self) {
        TABLE[self.slot].undo();
    }
}
