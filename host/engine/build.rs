// Links the proved archive. QUICKLOOK_ARCHIVE names its folder; by default it is where `tools/build archive` puts it.
use std::path::PathBuf;

fn main() {
    println!("cargo:rerun-if-env-changed=QUICKLOOK_ARCHIVE");
    let folder = match std::env::var_os("QUICKLOOK_ARCHIVE") {
        Some(folder) => PathBuf::from(folder),
        None => PathBuf::from(std::env::var_os("CARGO_MANIFEST_DIR").unwrap()).join("../../target/staticlib"),
    };
    println!("cargo:rerun-if-changed={}", folder.join("libquicklook.a").display());
    println!("cargo:rustc-link-search=native={}", folder.display());
    println!("cargo:rustc-link-lib=static=quicklook");
}
