//! Says where the originals are: QUICKLOOK_ORIGINALS, or else shared/docs/src beside the repository.
use std::{env, fs, path::PathBuf};

fn main() {
    println!("cargo:rerun-if-env-changed=QUICKLOOK_ORIGINALS");
    let beside = || PathBuf::from(env::var("CARGO_MANIFEST_DIR").unwrap()).join("../../../shared/docs/src");
    let folder = env::var("QUICKLOOK_ORIGINALS").map(PathBuf::from).unwrap_or_else(|_| beside()).join("src");
    let folder = fs::canonicalize(&folder)
        .unwrap_or_else(|e| panic!("{}: {e}; QUICKLOOK_ORIGINALS names the folder that holds src/types.rs", folder.display()));

    let mut modules = String::new();
    for name in ["types", "ops", "padding", "pipeline", "synthetic_rgb", "autoscale"] {
        let file = match name {
            "types" => folder.join("types.rs"),
            _ => folder.join("core/processing").join(name).with_extension("rs"),
        };
        println!("cargo:rerun-if-changed={}", file.display());
        println!("cargo:rustc-env=ORIGINAL_{}={}", name.to_uppercase(), file.display());
        // types.rs opens with inner comments, which `include!` does not take: it is read as a module file
        if name == "types" {
            modules = format!("#[path = {:?}]\npub mod types;\n", file);
        }
    }
    fs::write(PathBuf::from(env::var("OUT_DIR").unwrap()).join("types.rs"), modules).unwrap();
}
