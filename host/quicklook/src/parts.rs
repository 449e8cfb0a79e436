//! Part files: every output is written under a random name in its own folder, and only when all outputs of a command are whole and on the
//! disk do they take their names (naming.rs). A part file is held by a lock while its process lives: one that nobody holds was left by a
//! process that was killed, and the next run for the same output removes it.

use crate::naming::{self, Locks};
use crate::origin::checksum;
use crate::outputs::Target;
use crate::standing::Fleeting;
use crate::trouble::{Outcome, Trouble};
use sha2::{Digest, Sha256};
use std::ffi::{OsStr, OsString};
use std::fs::{self, File, OpenOptions};
use std::io::{self, BufWriter, Write};
use std::os::raw::c_int;
use std::os::unix::ffi::OsStrExt;
use std::os::unix::fs::{MetadataExt, OpenOptionsExt};
use std::os::unix::io::AsRawFd;
use std::path::{Path, PathBuf};
use std::time::{Duration, Instant};

/// What the names of an output's part files begin with: by the output's name, which may be as long as a name can be.
fn prefix(target: &Target) -> OsString {
    let digest = Sha256::digest(target.place.file_name().unwrap_or_default().as_bytes());
    let digits: String = digest.iter().take(8).map(|byte| format!("{byte:02x}")).collect();
    format!(".quicklook-{digits}-").into()
}

const SUFFIX: &str = ".part";

/// Whether a name is one of a part file: two times sixteen digits.
pub fn is_part(name: &OsStr) -> bool {
    let digits = name.to_str().and_then(|name| name.strip_prefix(".quicklook-")?.strip_suffix(SUFFIX)?.split_once('-'));
    let is_number = |word: &str| word.len() == 16 && word.bytes().all(|digit| digit.is_ascii_hexdigit());
    digits.is_some_and(|(one, two)| is_number(one) && is_number(two))
}

/// A new name for a part file.
pub fn new_name(target: &Target) -> io::Result<PathBuf> {
    let mut random = [0u8; 8];
    if unsafe { libc::getrandom(random.as_mut_ptr().cast(), random.len(), 0) } != random.len() as isize {
        return Err(io::Error::last_os_error());
    }
    let mut name = prefix(target);
    name.push(format!("{:016x}{SUFFIX}", u64::from_le_bytes(random)));
    Ok(target.folder.join(name))
}

fn lock(file: &File, how: c_int) -> io::Result<bool> {
    if unsafe { libc::flock(file.as_raw_fd(), how | libc::LOCK_NB) } == 0 {
        return Ok(true);
    }
    let error = io::Error::last_os_error();
    if error.kind() == io::ErrorKind::WouldBlock { Ok(false) } else { Err(error) }
}

/// Holds a file while this process lives and has it open, as others may too. False where somebody has taken it; an error where the file
/// system has no locks.
pub fn hold(file: &File) -> io::Result<bool> {
    lock(file, libc::LOCK_SH)
}

/// Takes a file that nobody holds, until it is closed. False where somebody does.
pub fn take(file: &File) -> io::Result<bool> {
    lock(file, libc::LOCK_EX)
}

/// Takes a file as soon as nobody holds it, if that is soon enough; `meanwhile` is done between two tries.
pub fn take_within(file: &File, longest: Duration, mut meanwhile: impl FnMut()) -> bool {
    let begun = Instant::now();
    loop {
        match take(file) {
            Ok(false) if begun.elapsed() < longest => {
                meanwhile();
                std::thread::sleep(Duration::from_millis(2));
            }
            taken => return taken.unwrap_or(false),
        }
    }
}

/// A file that is only looked at: no link is followed, and nobody is waited for.
pub fn look(path: &Path) -> io::Result<File> {
    look_as(path, false)
}

fn look_as(path: &Path, is_to_write: bool) -> io::Result<File> {
    OpenOptions::new().read(true).write(is_to_write).custom_flags(libc::O_NOFOLLOW | libc::O_NONBLOCK).open(path)
}

pub fn open_folder(path: &Path) -> io::Result<File> {
    OpenOptions::new().read(true).custom_flags(libc::O_DIRECTORY).open(path)
}

/// Makes an output's part file, new and held. One that replaces an earlier file is nobody else's to read until it has its rights.
pub fn create(target: &Target) -> io::Result<(File, Fleeting)> {
    const TRIES: usize = 8;
    let mode = if target.earlier.is_some() { 0o600 } else { 0o666 };
    for _ in 0..TRIES {
        let open =
            |path: &Path| OpenOptions::new().read(true).write(true).create_new(true).mode(mode).custom_flags(libc::O_NOFOLLOW).open(path);
        let (file, standing) = match Fleeting::new(new_name(target)?)?.made(open) {
            Err(e) if e.kind() == io::ErrorKind::AlreadyExists => continue,
            made => made?,
        };
        // Another run may have taken it for a left one between its making and its lock.
        if hold(&file).unwrap_or(true) && file.metadata()?.nlink() == 1 {
            return Ok((file, standing));
        }
    }
    Err(io::Error::new(io::ErrorKind::AlreadyExists, "no free name for its part file"))
}

/// Removes the part files of this output whose processes are gone, while nobody gives names in the folder.
fn sweep(target: &Target) {
    let prefix = prefix(target);
    let Ok(folder) = open_folder(&target.folder) else { return };
    if !take_within(&folder, Duration::from_secs(1), || {}) {
        return;
    }
    let Ok(entries) = fs::read_dir(&target.folder) else { return };
    for entry in entries.flatten() {
        let name = entry.file_name();
        if !name.as_bytes().starts_with(prefix.as_bytes()) || !is_part(&name) {
            continue;
        }
        // Some file systems lock only what is open to write.
        let Ok(file) = look_as(&entry.path(), true).or_else(|_| look(&entry.path())) else { continue };
        // Taken until it is removed: its maker, if it is just being made, makes another.
        if file.metadata().is_ok_and(|there| there.is_file()) && take(&file).unwrap_or(false) {
            let _ = fs::remove_file(entry.path());
        }
    }
}

/// An output under its part file's name.
pub struct Part {
    pub target: Target,
    pub file: File,
    pub standing: Fleeting,
}

impl Part {
    /// An empty one.
    pub fn begin(path: &Path, force: bool) -> Outcome<Part> {
        let target = Target::of(path, force)?;
        sweep(&target);
        let (file, standing) = create(&target).map_err(|e| Trouble::file(path, e))?;
        Ok(Part { target, file, standing })
    }

    /// Writes it through a buffer, and waits until it is on the disk.
    pub fn fill(self, fill: impl FnOnce(&mut BufWriter<&File>) -> Outcome<()>) -> Outcome<Parts> {
        let bad = |e: io::Error| Trouble::file(&self.target.shown, e);
        let mut out = BufWriter::with_capacity(1 << 20, &self.file);
        fill(&mut out)?;
        out.flush().map_err(bad)?;
        drop(out);
        self.file.sync_all().map_err(bad)?;
        Ok(Parts(vec![self]))
    }
}

/// Outputs that are whole and not named yet. Dropped before `finish`, they go.
#[derive(Default)]
pub struct Parts(Vec<Part>);

impl Parts {
    /// All of them, to be named together.
    pub fn join(parts: impl IntoIterator<Item = Outcome<Parts>>) -> Outcome<Parts> {
        let mut all = Parts::default();
        let mut trouble = None;
        for parts in parts {
            match parts {
                Ok(mut parts) => all.0.append(&mut parts.0),
                Err(error) => trouble = trouble.or(Some(error)),
            }
        }
        trouble.map_or(Ok(all), Err)
    }

    /// Writes one file.
    pub fn fill(path: &Path, force: bool, fill: impl FnOnce(&mut BufWriter<&File>) -> Outcome<()>) -> Outcome<Parts> {
        Part::begin(path, force)?.fill(fill)
    }

    /// The outputs, as the user named them.
    pub fn paths(&self) -> impl Iterator<Item = &Path> {
        self.0.iter().map(|part| part.target.shown.as_path())
    }

    /// The names in their folders, each with its bytes' checksum.
    pub fn written(&self) -> io::Result<Vec<(String, String)>> {
        let name = |part: &Part| part.target.place.file_name().unwrap_or_default().to_string_lossy().into_owned();
        self.0.iter().map(|part| Ok((name(part), checksum(&part.standing.path)?))).collect()
    }

    /// Locks their folders.
    pub fn lock(&self) -> Locks {
        Locks::of(naming::folders(&self.0).values().map(PathBuf::as_path))
    }

    /// Gives the files their names: all of them, or none.
    pub fn finish(self) -> Outcome<()> {
        let locks = self.lock();
        self.finish_locked(&locks)
    }

    /// The same, for one who has locked their folders.
    pub fn finish_locked(self, locks: &Locks) -> Outcome<()> {
        naming::name_all(self.0, locks)
    }
}
