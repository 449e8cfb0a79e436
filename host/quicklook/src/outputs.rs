//! Where outputs go, judged before any work is done: links followed; folders, pipes and devices refused; no two of one name.

use crate::standing::{Id, id};
use crate::trouble::{Outcome, Trouble};
use std::ffi::CString;
use std::fs::{self, Metadata};
use std::io;
use std::os::unix::ffi::OsStrExt;
use std::os::unix::fs::MetadataExt;
use std::path::{Path, PathBuf};

/// The place of one output.
pub struct Target {
    /// As the user named it.
    pub shown: PathBuf,
    /// Its folder, and the file in it, links followed.
    pub folder: PathBuf,
    pub place: PathBuf,
    /// The folder's own number, whatever its name.
    pub folder_id: Id,
    /// What stands there now.
    pub earlier: Option<Metadata>,
    /// Whether a read-only file is replaced.
    force: bool,
}

impl Target {
    /// The place that a name means. A read-only file is not replaced unless `force` asks for it.
    pub fn of(path: &Path, force: bool) -> Outcome<Target> {
        let usage = |what: &str| Err(Trouble::Usage(format!("{}: {what}", path.display())));
        let bad = |what: io::Error| Trouble::file(path, what);
        let place = followed(path).map_err(bad)?;
        let Some(name) = place.file_name().filter(|_| !path.as_os_str().as_bytes().ends_with(b"/")) else {
            return usage("a folder, and a file is wanted");
        };
        let folder = place.parent().filter(|folder| !folder.as_os_str().is_empty()).unwrap_or(Path::new("."));
        let folder = fs::canonicalize(folder).map_err(|e| Trouble::file(path, format!("its folder: {e}")))?;
        let place = folder.join(name);
        let earlier = match fs::symlink_metadata(&place) {
            Ok(there) => Some(there),
            Err(e) if e.kind() == io::ErrorKind::NotFound => None,
            Err(e) => return Err(bad(e)),
        };
        match &earlier {
            Some(there) if there.is_dir() => return usage("a folder, and a file is wanted"),
            Some(there) if !there.is_file() => return usage("a pipe, a socket or a device, and a plain file is wanted"),
            Some(there) if !force && (there.mode() & 0o222 == 0 || may_write(&place).is_err()) => {
                return Err(Trouble::file(path, "read-only; --force replaces it"));
            }
            _ => {}
        }
        let bad_folder = |e: io::Error| Trouble::file(path, format!("its folder: {e}"));
        may_write(&folder).map_err(bad_folder)?;
        let around = fs::metadata(&folder).map_err(bad_folder)?;
        let user = unsafe { libc::geteuid() };
        let is_sticky = around.mode() & 0o1000 != 0 && user != 0 && around.uid() != user;
        if is_sticky && earlier.as_ref().is_some_and(|there| there.uid() != user) {
            return Err(Trouble::file(path, "another user's, in a folder where only its owner may replace it"));
        }
        Ok(Target { shown: path.to_path_buf(), folder, place, folder_id: id(&around), earlier, force })
    }

    /// The place once more, when the output is to take its name: judged again, and the same.
    pub fn again(&self) -> Outcome<Target> {
        let target = Target::of(&self.shown, self.force)?;
        if target.is_at(self) { Ok(target) } else { Err(Trouble::file(&self.shown, "its name leads elsewhere now")) }
    }

    fn is_at(&self, other: &Target) -> bool {
        self.folder_id == other.folder_id && self.place.file_name() == other.place.file_name()
    }

    /// Whether two names mean one file, as far as the file system tells.
    fn is(&self, other: &Target) -> bool {
        let same_file = |a: &Metadata, b: &Metadata| a.nlink() == 1 && id(a) == id(b);
        self.is_at(other) || matches!((&self.earlier, &other.earlier), (Some(a), Some(b)) if same_file(a, b))
    }
}

/// Judges all files that a command is to write.
pub fn judge(paths: &[PathBuf], force: bool) -> Outcome<()> {
    let targets = paths.iter().map(|path| Target::of(path, force)).collect::<Outcome<Vec<_>>>()?;
    for (k, one) in targets.iter().enumerate() {
        if let Some(other) = targets[..k].iter().find(|other| one.is(other)) {
            return Err(Trouble::Usage(format!(
                "{} and {} are one file, and two outputs are to go there",
                other.shown.display(),
                one.shown.display()
            )));
        }
    }
    Ok(())
}

/// An output that is one of the inputs is wrong use: a scene arrives once.
pub fn spare<'a>(paths: &[PathBuf], inputs: impl Iterator<Item = &'a Path> + Clone) -> Outcome<()> {
    let same = |a: &Path, b: &Path| match (fs::metadata(a), fs::metadata(b)) {
        (Ok(a), Ok(b)) => id(&a) == id(&b),
        _ => false,
    };
    match paths.iter().find(|path| inputs.clone().any(|input| same(path, input))) {
        Some(path) => Err(Trouble::Usage(format!("{}: the output is one of the inputs", path.display()))),
        None => Ok(()),
    }
}

/// Where the links of a name lead; the last of them may lead to a file that is not there yet.
fn followed(path: &Path) -> io::Result<PathBuf> {
    const MOST: usize = 40;
    let mut place = path.to_path_buf();
    for _ in 0..MOST {
        match fs::symlink_metadata(&place) {
            Ok(there) if there.file_type().is_symlink() => place = place.parent().unwrap_or(Path::new("")).join(fs::read_link(&place)?),
            _ => return Ok(place),
        }
    }
    Err(io::Error::from_raw_os_error(libc::ELOOP))
}

/// Whether the file or folder may be written to, by its rights and its file system.
fn may_write(path: &Path) -> io::Result<()> {
    let name = CString::new(path.as_os_str().as_bytes())?;
    match unsafe { libc::faccessat(libc::AT_FDCWD, name.as_ptr(), libc::W_OK, libc::AT_EACCESS) } {
        0 => Ok(()),
        _ => Err(io::Error::last_os_error()),
    }
}
