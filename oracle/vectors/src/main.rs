//! Writes the vectors for replay to their places in a repository, or the worked scenes to a folder. Everything follows from one fixed seed.
mod bands;
mod beside;
mod calls;
mod compose;
mod copol;
mod numeric;
mod pictures;
mod record;
mod scenes;
mod tiles;

use std::path::{Path, PathBuf};
use std::{env, fs, io, process};

use random::Rng;
use record::Part;

const SEED: u64 = 0x5A5;

/// Every part with a seed of its own, so that a change of one leaves the others as they are.
fn parts() -> Vec<Part> {
    let rng = |k: u64| Rng::new(SEED + k);
    vec![
        beside::ops(&mut rng(1)),
        beside::padding(),
        beside::marks_part(&mut rng(2)),
        numeric::numeric(&mut rng(3)),
        beside::stretches(&mut rng(4)),
        compose::compose(&mut rng(5)),
        bands::statistics_part(&mut rng(6)),
        bands::window_part(&mut rng(7)),
        bands::grey8_part(&mut rng(8)),
        bands::grey16_part(&mut rng(9)),
        pictures::pictures(&mut rng(10)),
        tiles::clahe(&mut rng(11)),
        copol::copol(&mut rng(12)),
    ]
}

/// The file of a part in the repository: what no call of the archive reaches is beside the program `vectors`, the calls beside the tests.
fn file(repository: &Path, part: &Part) -> PathBuf {
    let folder = match part.name {
        "numeric" | "clahe" => "crates/vectors/data",
        _ => "tests/vectors",
    };
    repository.join(folder).join(part.name).with_extension("bin")
}

fn write(repository: &Path) -> io::Result<()> {
    let (mut records, mut bytes) = (0, 0);
    for part in parts() {
        let file = file(repository, &part);
        fs::create_dir_all(file.parent().unwrap())?;
        fs::write(file, &part.bytes)?;
        println!("{:10} {:6} records {:5} refused {:8} bytes", part.name, part.records(), part.refused, part.bytes.len());
        records += part.records();
        bytes += part.bytes.len();
    }
    println!("{:10} {records:6} records               {bytes:8} bytes", "all");
    Ok(())
}

fn main() -> io::Result<()> {
    let arguments: Vec<String> = env::args().skip(1).collect();
    match arguments.iter().map(String::as_str).collect::<Vec<_>>()[..] {
        ["scenes", folder] => scenes::write(Path::new(folder), SEED),
        [repository] => write(Path::new(repository)),
        _ => {
            eprintln!("usage: vectors REPOSITORY, or vectors scenes FOLDER");
            process::exit(2)
        }
    }
}

#[cfg(test)]
mod tests {
    use super::*;

    fn repository() -> PathBuf {
        Path::new(env!("CARGO_MANIFEST_DIR")).join("../..")
    }

    /// The files in the repository's crates/vectors/data and tests/vectors are what this program writes.
    #[test]
    fn stored_sample_is_written_by_this_program() {
        for part in parts() {
            let stored = fs::read(file(&repository(), &part)).unwrap();
            assert!(stored == part.bytes, "{}.bin", part.name);
        }
    }

    /// The proofs of the crate `scenes` are what this program writes.
    #[test]
    fn worked_scenes_are_written_by_this_program() {
        let folder = repository().join("crates/scenes/proofs");
        for (name, text) in scenes::files(SEED) {
            let stored = fs::read_to_string(folder.join(&name)).unwrap();
            assert!(stored == text, "{name}");
        }
    }
}
