// Names the commit that the program is built from: QUICKLOOK_COMMIT, or what git says, with a plus where the checkout differs from it.
use std::process::Command;

fn main() {
    println!("cargo:rerun-if-env-changed=QUICKLOOK_COMMIT");
    for file in ["HEAD", "logs/HEAD", "index"] {
        println!("cargo:rerun-if-changed=../../.git/{file}");
    }
    let git = |words: &[&str]| {
        let output = Command::new("git").args(words).output().ok().filter(|output| output.status.success())?;
        String::from_utf8(output.stdout).ok().map(|text| text.trim().to_string())
    };
    let commit = std::env::var("QUICKLOOK_COMMIT").ok().or_else(|| {
        let commit = git(&["rev-parse", "--short=12", "HEAD"])?;
        let built_from = ["..", "../../crates", "../../Cargo.toml", "../../Cargo.lock", "../../.cargo"];
        let status = git(&[&["status", "--porcelain", "--untracked-files=no", "--"], &built_from[..]].concat());
        let differs = status.is_none_or(|text| !text.is_empty());
        Some(if differs { commit + "+" } else { commit })
    });
    println!("cargo:rustc-env=QUICKLOOK_COMMIT={}", commit.unwrap_or_else(|| "commit unknown".into()));
}
