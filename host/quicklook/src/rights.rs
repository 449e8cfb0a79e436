//! Owner, group, rights and access list of an earlier file, for the file that takes its place.

use std::ffi::{CStr, CString};
use std::fs::{File, Metadata};
use std::io;
use std::os::unix::ffi::OsStrExt;
use std::os::unix::fs::MetadataExt;
use std::os::unix::io::AsRawFd;
use std::path::Path;
use std::sync::atomic::{AtomicU32, Ordering::SeqCst};

static UMASK: AtomicU32 = AtomicU32::new(0o077);

/// Asked once, before there are threads: the mask can be read only by setting it.
pub fn start() {
    unsafe {
        let mask = libc::umask(0o077);
        libc::umask(mask);
        UMASK.store(mask, SeqCst);
    }
}

fn set(file: &File, rights: u32) -> io::Result<()> {
    match unsafe { libc::fchmod(file.as_raw_fd(), rights) } {
        0 => Ok(()),
        _ => Err(io::Error::last_os_error()),
    }
}

/// Those of any new file in a folder, where that is known: a folder that has a list for new files says it in its own way.
pub fn give_new(file: &File, folder: &Path) -> io::Result<()> {
    match list(folder, FOLDER_LIST)? {
        None => set(file, 0o666 & !UMASK.load(SeqCst)),
        Some(_) => Ok(()),
    }
}

/// Those of the earlier file at `place`, where that is allowed. What only a group or an owner might that the file cannot have, nobody may.
pub fn give_earlier(file: &File, earlier: &Metadata, place: &Path) -> io::Result<()> {
    let descriptor = file.as_raw_fd();
    let owners = |there: &Metadata| (there.uid(), there.gid());
    if owners(&file.metadata()?) != owners(earlier) && unsafe { libc::fchown(descriptor, earlier.uid(), earlier.gid()) } != 0 {
        // Not the owner's to give away; the group may still be.
        unsafe { libc::fchown(descriptor, u32::MAX, earlier.gid()) };
    }
    let new = file.metadata()?;
    let mut rights = earlier.mode() & 0o7777;
    if owners(&new) != owners(earlier) {
        rights &= 0o777;
    }
    let is_same_group = new.gid() == earlier.gid();
    let list = list(place, ACCESS_LIST)?;
    if !is_same_group || list.is_some() {
        // Where there is a list these are rights of more than the group.
        rights = without_group(rights);
    }
    // A folder may give new files a list of its own.
    unsafe { libc::fremovexattr(descriptor, ACCESS_LIST.as_ptr()) };
    set(file, rights)?;
    if let Some(list) = list.filter(|_| is_same_group) {
        unsafe { libc::fsetxattr(descriptor, ACCESS_LIST.as_ptr(), list.as_ptr().cast(), list.len(), 0) };
    }
    Ok(())
}

/// The group may what everybody may.
fn without_group(rights: u32) -> u32 {
    rights & 0o7707 | (rights & 0o007) << 3
}

const ACCESS_LIST: &CStr = c"system.posix_acl_access";
const FOLDER_LIST: &CStr = c"system.posix_acl_default";

/// A list of a file or folder; none where it has none or the file system knows none.
fn list(place: &Path, name: &CStr) -> io::Result<Option<Vec<u8>>> {
    const LONGEST: usize = 1 << 16;
    let place = CString::new(place.as_os_str().as_bytes())?;
    let mut list = vec![0u8; LONGEST];
    let len = unsafe { libc::lgetxattr(place.as_ptr(), name.as_ptr(), list.as_mut_ptr().cast(), list.len()) };
    if len < 0 {
        let error = io::Error::last_os_error();
        return if matches!(error.raw_os_error(), Some(libc::ENODATA | libc::ENOTSUP | libc::ENOSYS)) { Ok(None) } else { Err(error) };
    }
    list.truncate(len as usize);
    Ok(Some(list).filter(|list| !list.is_empty()))
}
