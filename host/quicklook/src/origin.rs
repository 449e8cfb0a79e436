//! Where a result came from: program and commit, strategy, co-pol band, windows, and the checksums of the input files. Outputs that can carry
//! it do.

use crate::arguments::VERSION;
use crate::bytes::{Stamp, open_plain};
use crate::scene::Scene;
use crate::threads;
use crate::trouble::{Outcome, Trouble};
use engine::{Answer, AutoscaleStrategy, PictureChoices, Window};
use sha2::{Digest, Sha256};
use std::fs;
use std::io::{self, Read};
use std::path::{Path, PathBuf};
use wire::Part;

/// Names and words, in their order.
pub type Items = Vec<(String, String)>;

/// The largest file whose checksum is taken: a scene is at most half as large, but a part may be read from more.
const LARGEST: u64 = 1 << 30;

/// A file that a scene is read from, as it was when it was opened.
#[derive(Clone, Debug, PartialEq)]
pub struct Input {
    pub path: PathBuf,
    pub stamp: Option<Stamp>,
    /// The checksum, where it is known already.
    pub digest: Option<String>,
}

impl Input {
    pub fn of(path: &Path) -> Self {
        Input { path: path.to_path_buf(), stamp: fs::metadata(path).ok().as_ref().map(Stamp::from), digest: None }
    }

    /// The file's checksum, in words; it is not taken of a very large one, nor of what is no file.
    fn checksum(&self) -> Outcome<String> {
        match (&self.digest, self.stamp) {
            (Some(digest), _) => Ok(digest.clone()),
            (None, None) => Ok("not taken (no file)".into()),
            (None, Some(stamp)) if stamp.len > LARGEST => Ok(format!("not taken ({} bytes)", stamp.len)),
            (None, Some(_)) => checksum(&self.path).map_err(|e| Trouble::file(&self.path, e)),
        }
    }

    /// Bytes that no file holds.
    pub fn of_bytes(name: &str, bytes: &[u8]) -> Self {
        Input { path: name.into(), stamp: None, digest: Some(digits(Sha256::digest(bytes).as_slice())) }
    }
}

/// Which files a scene came from, and which part of them.
#[derive(Clone, Default)]
pub struct Origin {
    pub inputs: Vec<Input>,
    pub crop: Option<Part>,
}

impl Origin {
    pub fn files(&self) -> impl Iterator<Item = &Path> + Clone {
        self.inputs.iter().filter(|input| input.stamp.is_some()).map(|input| input.path.as_path())
    }

    /// Asked before anything is told or named: a file that changed while it was read may have given a part of either.
    pub fn unchanged(&self) -> Outcome<()> {
        let is_same = |input: &&Input| input.stamp.is_none() || fs::metadata(&input.path).ok().as_ref().map(Stamp::from) == input.stamp;
        match self.inputs.iter().find(|input| !is_same(input)) {
            Some(input) => Err(Trouble::file(&input.path, "it changed while it was read")),
            None => Ok(()),
        }
    }
}

pub fn software() -> String {
    format!("quicklook {VERSION}")
}

/// Of a result that no strategy made.
pub fn items(command: &str, origin: &Origin) -> Outcome<Items> {
    let mut items = vec![("Software".to_string(), software()), ("quicklook_command".into(), command.into())];
    if let Some(crop) = origin.crop {
        items.push(("quicklook_crop".into(), format!("{},{},{},{}", crop.row, crop.col, crop.rows, crop.cols)));
    }
    for (k, input) in origin.inputs.iter().enumerate() {
        let name = input.path.file_name().unwrap_or_default().to_string_lossy();
        items.push((format!("quicklook_input{}", k + 1), format!("{name} sha256 {}", input.checksum()?)));
    }
    Ok(items)
}

/// How a scene was painted: each band by itself, or two as a picture.
#[derive(Clone, Copy)]
pub enum Painted {
    Grey(AutoscaleStrategy),
    Picture(PictureChoices),
}

/// Of a painted scene.
pub fn painted(command: &str, scene: &Scene, how: Painted) -> Outcome<Items> {
    let (items, windows) = threads::join(|| items(command, &scene.origin), || windows(scene, how));
    let (mut items, windows) = (items?, windows?);
    let mut put = |name: &str, words: String| items.push((format!("quicklook_{name}"), words));
    match how {
        Painted::Grey(strategy) => put("strategy", strategy.name().into()),
        Painted::Picture(PictureChoices { strategy, mode, copol }) => {
            put("strategy", strategy.name().into());
            put("mode", mode.name().into());
            put("copol", copol.name().into());
        }
    }
    for (k, window) in windows.into_iter().enumerate() {
        let words = match window {
            Window::Window { low, high, range, gamma } => format!("{low} {high} {range} {gamma}"),
            Window::Blank => "blank".into(),
        };
        put(&format!("window{}", k + 1), words);
    }
    Ok(items)
}

/// The windows that the bands are painted with.
pub fn windows(scene: &Scene, how: Painted) -> Answer<Vec<Window>> {
    let &Scene { rows, cols, ref bands, .. } = scene;
    match how {
        Painted::Grey(strategy) => bands.iter().map(|band| engine::window(strategy, rows, cols, band.band())).collect(),
        Painted::Picture(PictureChoices { strategy, copol, .. }) => {
            engine::picture_windows(strategy, copol, rows, cols, bands[0].band(), bands[1].band()).map(Vec::from)
        }
    }
}

pub fn checksum(path: &Path) -> io::Result<String> {
    let (mut file, _) = open_plain(path)?;
    let mut hasher = Sha256::new();
    let mut bytes = vec![0; 1 << 20];
    loop {
        match file.read(&mut bytes)? {
            0 => return Ok(digits(hasher.finalize().as_slice())),
            got => hasher.update(&bytes[..got]),
        }
    }
}

fn digits(digest: &[u8]) -> String {
    digest.iter().map(|byte| format!("{byte:02x}")).collect()
}
