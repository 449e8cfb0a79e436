// Links the installed libgdal (Debian's libgdal-dev).
fn main() {
    println!("cargo:rustc-link-lib=dylib=gdal");
}
