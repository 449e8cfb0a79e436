//! How outputs take their names: all of them, or none. A part file and an earlier file change places, and the earlier one goes when the last
//! output has its name; where one cannot take it, those before it are put back.

use crate::outputs::Target;
use crate::parts::{self, Part};
use crate::progress::note;
use crate::rights;
use crate::signals;
use crate::standing::{Fleeting, Id, id};
use crate::trouble::{Outcome, Trouble};
use std::collections::BTreeMap;
use std::ffi::CString;
use std::fs::{self, File, Metadata};
use std::io;
use std::os::raw::{c_char, c_int, c_uint};
use std::os::unix::ffi::OsStrExt;
use std::path::{Path, PathBuf};
use std::time::{Duration, Instant};

/// Gives whole outputs their names, in folders that the caller has locked.
pub fn name_all(outputs: Vec<Part>, _locks: &Locks) -> Outcome<()> {
    let folders = folders(&outputs);
    let mut named = Vec::with_capacity(outputs.len());
    signals::begin_naming();
    let outcome = give_names(outputs, &mut named).and_then(|()| sync(&folders));
    // Where all are named the earlier files go with `named`.
    if outcome.is_ok() && signals::done() {
        return Ok(());
    }
    named.into_iter().rev().for_each(Named::undo);
    let _ = sync(&folders);
    signals::give_up_naming();
    outcome
}

fn give_names(outputs: Vec<Part>, named: &mut Vec<Named>) -> Outcome<()> {
    let ready = outputs.into_iter().map(Ready::new).collect::<Outcome<Vec<_>>>()?;
    for one in ready {
        if signals::came() {
            break;
        }
        let shown = one.part.target.shown.clone();
        named.push(one.name().map_err(|e| Trouble::file(&shown, e))?);
    }
    Ok(())
}

/// An output with all that its naming needs.
struct Ready {
    part: Part,
    place: CString,
    new: Id,
    earlier: Option<Earlier>,
}

/// What stands in an output's place.
struct Earlier {
    there: Metadata,
    /// Held, so that no other run takes its second name for a left one.
    held: Option<File>,
}

impl Ready {
    fn new(mut part: Part) -> Outcome<Ready> {
        let was_there = part.target.earlier.is_some();
        part.target = part.target.again()?;
        let Part { target, file, .. } = &part;
        let prepared = || -> io::Result<(CString, Id)> {
            match &target.earlier {
                Some(there) => rights::give_earlier(file, there, &target.place)?,
                // It went meanwhile, and the part file was made for its rights.
                None if was_there => rights::give_new(file, &target.folder)?,
                None => {}
            }
            Ok((CString::new(target.place.as_os_str().as_bytes())?, id(&file.metadata()?)))
        };
        let (place, new) = prepared().map_err(|e| Trouble::file(&target.shown, e))?;
        let held = || parts::look(&target.place).ok().filter(|file| parts::hold(file).is_ok());
        let earlier = target.earlier.clone().map(|there| Earlier { there, held: held() });
        Ok(Ready { part, place, new, earlier })
    }

    /// Names the output. After the system has done so nothing asks for memory until the table of what stands knows.
    fn name(self) -> io::Result<Named> {
        let Ready { part: Part { target, standing, file }, place, new, earlier } = self;
        let shown = target.shown.clone();
        let Some(Earlier { there, held }) = earlier else {
            match move_at_once(&standing.path, &target.place, libc::RENAME_NOREPLACE) {
                Err(e) if is_unknown(&e) => {
                    unchanged(&target, None)?;
                    fs::rename(&standing.path, &target.place)?;
                }
                Err(e) if e.kind() == io::ErrorKind::AlreadyExists => return Err(taken()),
                moved => moved?,
            }
            return Ok(Named { shown, way_back: standing.becomes_new(place, new), had_earlier: false, _held: [Some(file), None] });
        };
        let way_back = match move_at_once(&standing.path, &target.place, libc::RENAME_EXCHANGE) {
            Ok(()) => {
                let way_back = standing.becomes_earlier(place, new);
                // What came must be what was looked at; else it goes back.
                if fs::symlink_metadata(&way_back.path).as_ref().map(id).ok() != Some(id(&there)) {
                    if move_at_once(&way_back.path, &target.place, libc::RENAME_EXCHANGE).is_ok() {
                        way_back.becomes_part();
                    }
                    return Err(taken());
                }
                way_back
            }
            Err(e) if is_unknown(&e) => {
                let second = second_name(&target, &there)?;
                unchanged(&target, Some(&there))?;
                fs::rename(&standing.path, &target.place)?;
                standing.keep();
                second.becomes_earlier(place, new)
            }
            Err(e) => return Err(e),
        };
        Ok(Named { shown, way_back, had_earlier: true, _held: [Some(file), held] })
    }
}

fn taken() -> io::Error {
    io::Error::new(io::ErrorKind::AlreadyExists, "another file took its name meanwhile")
}

/// Whether a place still has what was looked at, where the system cannot do that and the move at once.
fn unchanged(target: &Target, earlier: Option<&Metadata>) -> io::Result<()> {
    match fs::symlink_metadata(&target.place) {
        Ok(there) if Some(id(&there)) == earlier.map(id) => Ok(()),
        Err(e) if e.kind() == io::ErrorKind::NotFound && earlier.is_none() => Ok(()),
        _ => Err(taken()),
    }
}

/// A second name of the earlier file, or a copy where there are no second names.
fn second_name(target: &Target, there: &Metadata) -> io::Result<Fleeting> {
    let link = Fleeting::new(parts::new_name(target)?)?.made(|path| fs::hard_link(&target.place, path));
    if let Ok(((), second)) = link {
        return Ok(second);
    }
    let (copy, second) = parts::create(target)?;
    io::copy(&mut parts::look(&target.place)?, &mut &copy)?;
    rights::give_earlier(&copy, there, &target.place)?;
    copy.sync_all()?;
    Ok(second)
}

/// Renames a file to a place that is empty, or changes it with what stands there.
fn move_at_once(one: &Path, two: &Path, how: c_uint) -> io::Result<()> {
    extern "C" {
        fn renameat2(old_folder: c_int, old: *const c_char, new_folder: c_int, new: *const c_char, flags: c_uint) -> c_int;
    }
    let (one, two) = (CString::new(one.as_os_str().as_bytes())?, CString::new(two.as_os_str().as_bytes())?);
    match unsafe { renameat2(libc::AT_FDCWD, one.as_ptr(), libc::AT_FDCWD, two.as_ptr(), how) } {
        0 => Ok(()),
        _ => Err(io::Error::last_os_error()),
    }
}

/// Whether the file system does not know such moves.
fn is_unknown(error: &io::Error) -> bool {
    matches!(error.raw_os_error(), Some(libc::EINVAL | libc::ENOSYS | libc::ENOTSUP))
}

/// An output that has its name, and the way back.
struct Named {
    shown: PathBuf,
    way_back: Fleeting,
    had_earlier: bool,
    /// Open as long as they are told by their numbers: the new file and the earlier one.
    _held: [Option<File>; 2],
}

impl Named {
    /// Puts back what stood there before; where that cannot be, tells where it is.
    fn undo(self) {
        let path = self.way_back.path.clone();
        if self.way_back.undone() {
            return;
        }
        let shown = self.shown.display();
        if !self.had_earlier {
            return note(&format!("{shown} is new and cannot be removed"));
        }
        // Under this name no run removes it.
        let lasting = path.with_extension("earlier");
        let is_kept = fs::hard_link(&path, &lasting).is_ok() || fs::copy(&path, &lasting).is_ok();
        if is_kept {
            let _ = fs::remove_file(&path);
        }
        let (path, advice) = if is_kept { (lasting, "") } else { (path, "; take it away before the next run for this output") };
        note(&format!("{shown} is the new file and cannot be put back; the earlier one is {}{advice}", path.display()));
    }
}

/// The folders of outputs, by their own numbers.
pub fn folders(outputs: &[Part]) -> BTreeMap<Id, PathBuf> {
    outputs.iter().map(|part| (part.target.folder_id, part.target.folder.clone())).collect()
}

/// Folders in which no other run names outputs, until this goes.
pub struct Locks {
    _files: Vec<File>,
}

impl Locks {
    /// Runs that name outputs in one folder do so one after the other, so that the outputs of one run stay together. A folder that cannot be
    /// locked, or not within some seconds, is done without.
    pub fn of<'a>(folders: impl IntoIterator<Item = &'a Path>) -> Locks {
        const TOLD_AFTER: Duration = Duration::from_secs(1);
        const LONGEST: Duration = Duration::from_secs(20);
        let begun = Instant::now();
        let mut is_told = false;
        let mut files = Vec::new();
        for folder in folders {
            let Ok(file) = parts::open_folder(folder) else { continue };
            parts::take_within(&file, LONGEST.saturating_sub(begun.elapsed()), || {
                if !is_told && begun.elapsed() > TOLD_AFTER {
                    note(&format!("another program has a lock on {}; it is waited for", folder.display()));
                    is_told = true;
                }
            });
            files.push(file);
        }
        Locks { _files: files }
    }
}

/// The names too are to be on the disk.
fn sync(folders: &BTreeMap<Id, PathBuf>) -> Outcome<()> {
    for folder in folders.values() {
        match File::open(folder).and_then(|opened| opened.sync_all()) {
            // Some file systems have no such thing for folders, and some folders may be written but not listed.
            Err(e) if !matches!(e.raw_os_error(), Some(libc::EINVAL | libc::ENOTSUP | libc::EACCES)) => {
                return Err(Trouble::file(folder, e));
            }
            _ => {}
        }
    }
    Ok(())
}
