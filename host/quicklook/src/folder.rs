//! The demo's own folder: a list in it says what the demo made there, and anything else is left alone.

use crate::bytes::open_plain;
use crate::naming::Locks;
use crate::origin::checksum;
use crate::parts::{Part, Parts, is_part};
use crate::sheet;
use crate::standing::Fleeting;
use crate::trouble::{Outcome, Trouble};
use std::collections::BTreeSet;
use std::ffi::OsStr;
use std::fmt::Write as _;
use std::fs;
use std::io::{self, Read, Write as _};
use std::path::{Path, PathBuf};

/// All files that a demo may make.
const NAMES: [&str; 17] = [
    "vv-intensity.npy", "vv.npy", "vv-marks.npy", "vv-grey16.png", "vh-intensity.npy", "vh.npy", "vh-marks.npy", "vh-grey16.png",
    "default-rgb.png", "default-grey1.png", "default-grey2.png", "tamed-rgb.png", "tamed-grey1.png", "tamed-grey2.png", "clahe-rgb.png",
    "clahe-grey1.png", "clahe-grey2.png",
];

/// The list: checksums and names in the words of sha256sum, as comments those of files that the next ones replace.
const LIST: &str = ".quicklook-demo";

/// A checksum and the name of a file that has it.
type Made = (String, &'static str);

pub struct Folder {
    pub path: PathBuf,
    /// Folders that the demo made, which go again if it comes to nothing, the inner ones first.
    new: Vec<Fleeting>,
    /// What an earlier demo made; none where there is no list of the demo's.
    earlier: Option<BTreeSet<Made>>,
    /// What of that stands there.
    standing: Vec<Made>,
    force: bool,
}

impl Folder {
    /// Takes a folder that holds nothing which the demo did not make, or any with `force`, or makes it.
    pub fn take(path: &Path, force: bool) -> Outcome<Folder> {
        let bad = |e: io::Error| Trouble::file(path, e);
        let mut folder = Folder { path: path.to_path_buf(), new: Vec::new(), earlier: None, standing: Vec::new(), force };
        let missing: Vec<&Path> = path.ancestors().take_while(|folder| !folder.as_os_str().is_empty() && !folder.exists()).collect();
        for &one in missing.iter().rev() {
            folder.new.insert(0, Fleeting::folder(one.to_path_buf()).map_err(bad)?);
        }
        let locks = Locks::of([path]);
        folder.judge(&locks)?;
        Ok(folder)
    }

    /// Looks at the folder's list, and whether it holds anything else, while no other demo gives names there.
    fn judge(&mut self, _locks: &Locks) -> Outcome<()> {
        let bad = |e: io::Error| Trouble::file(&self.path, e);
        self.earlier = read_list(&self.path.join(LIST));
        self.standing = NAMES.iter().filter_map(|name| self.made_of(name)).collect();
        for entry in fs::read_dir(&self.path).map_err(bad)? {
            let name = entry.map_err(bad)?.file_name();
            let is_link = NAMES.iter().chain([&LIST]).any(|known| name == *known) && self.path.join(&name).is_symlink();
            if is_link || !self.force && !self.has_made(&name) {
                return Err(Trouble::Usage(format!(
                    "{}: it holds {}, which the demo did not make; name another folder, or give --force to replace what has the names of the \
                     demo's files and is no link",
                    self.path.display(),
                    name.to_string_lossy()
                )));
            }
        }
        Ok(())
    }

    /// Whether an earlier demo made the file, as it stands there now.
    fn has_made(&self, name: &OsStr) -> bool {
        let is_list = self.earlier.is_some() && name == LIST;
        is_file(&self.path.join(name)) && (is_part(name) || is_list || self.standing.iter().any(|(_, known)| name == *known))
    }

    /// What an earlier demo made under the name, if that stands there now.
    fn made_of(&self, name: &'static str) -> Option<Made> {
        let earlier = self.earlier.as_ref()?;
        let path = Some(self.path.join(name)).filter(|path| is_file(path))?;
        let made = (checksum(&path).ok()?, name);
        earlier.contains(&made).then_some(made)
    }

    /// Names the files, the list of them first, and removes what an earlier demo made and this one did not.
    pub fn finish(mut self, parts: Vec<Parts>) -> Outcome<()> {
        let parts = Parts::join(parts.into_iter().map(Ok))?;
        let made = parts.written().map_err(|e| Trouble::file(&self.path, e))?;
        let path = self.path.join(LIST);
        let list = Part::begin(&path, self.force)?;
        // Once more, since the work may have taken a while; and no other demo gives names until this one has, whose list must hold all.
        let locks = Locks::of([self.path.as_path()]);
        self.judge(&locks)?;
        let is_made = |(digest, name): &Made| made.iter().any(|(other, bytes)| other == name && bytes == digest);
        let replaced: Vec<&Made> = self.standing.iter().filter(|one| !is_made(one)).collect();
        let mut text = String::new();
        for (name, digest) in &made {
            let _ = writeln!(text, "{digest}  {name}");
        }
        for (digest, name) in &replaced {
            let _ = writeln!(text, "# {digest}  {name}");
        }
        let list = list.fill(|out| out.write_all(text.as_bytes()).map_err(|e| Trouble::file(&path, e)));
        sheet::finish_locked(Parts::join([list, Ok(parts)])?, &locks)?;
        for (_, name) in replaced {
            if !made.iter().any(|(other, _)| other == name) && self.made_of(name).is_some() {
                let _ = fs::remove_file(self.path.join(name));
            }
        }
        Ok(())
    }
}

/// A plain file and no link.
fn is_file(path: &Path) -> bool {
    fs::symlink_metadata(path).is_ok_and(|there| there.is_file())
}

/// The list, where it is one of the demo's from its first line to its last.
fn read_list(path: &Path) -> Option<BTreeSet<Made>> {
    const LONGEST: u64 = 10_000;
    if !is_file(path) {
        return None;
    }
    let mut text = String::new();
    open_plain(path).ok()?.0.take(LONGEST).read_to_string(&mut text).ok()?;
    text.lines()
        .map(|line| {
            let (digest, name) = line.strip_prefix("# ").unwrap_or(line).split_once("  ")?;
            let is_digest = digest.len() == 64 && digest.bytes().all(|digit| digit.is_ascii_hexdigit());
            let name = NAMES.iter().find(|known| **known == name)?;
            is_digest.then(|| (digest.to_string(), *name))
        })
        .collect()
}
