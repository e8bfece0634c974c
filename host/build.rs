//! Says where the proved library is: `libstation.a` in the folder that `THOWELDECK_LIBRARY` names, or else in
//! `target/staticlib` of the project, where `./tour` puts it. Without it `src/lib.rs` ends the build with one line; with it the
//! tests find it by `THOWELDECK_LINKED`.
use std::env;
use std::path::{Path, PathBuf};

/// The variable that names the folder of a library which was built elsewhere.
const VARIABLE: &str = "THOWELDECK_LIBRARY";

fn main() {
    println!("cargo:rerun-if-env-changed={VARIABLE}");
    match folder() {
        Ok(folder) => {
            println!("cargo:rustc-link-search=native={}", folder.display());
            println!("cargo:rustc-env=THOWELDECK_LINKED={}", folder.join("libstation.a").display());
            println!("cargo:rustc-link-lib=static=station");
        }
        Err(line) => {
            println!("cargo:rustc-cfg=no_library");
            println!("cargo:rustc-env=THOWELDECK_NO_LIBRARY={line}");
        }
    }
}

/// The folder of the library, or a line that says what is missing and which command makes it.
fn folder() -> Result<PathBuf, String> {
    let host = env::var_os("CARGO_MANIFEST_DIR").map(PathBuf::from).unwrap_or_default();
    let project = host.parent().unwrap_or(&host);
    let tour = format!("run `./tour` in {}, which", project.display());
    let processor = env::var("CARGO_CFG_TARGET_ARCH").unwrap_or_default();
    if processor != "x86_64" {
        return Err(format!(
            "the proved library links only into programs for x86-64, and this one is for {processor}: {tour} builds for x86-64"
        ));
    }
    let named = env::var_os(VARIABLE).map(PathBuf::from).unwrap_or_default();
    if named.as_os_str().is_empty() {
        let own = project.join("target").join("staticlib");
        let archive = archive(&own);
        let line = format!("there is no {}, the proved library: {tour} makes it", archive.display());
        return archive.is_file().then_some(own).ok_or(line);
    }
    // a path that is not full would start at this package, wherever cargo is run
    if named.is_relative() {
        return Err(format!("{VARIABLE} is `{}`, and a full path is wanted, from / on", named.display()));
    }
    let line = format!("{VARIABLE} is `{}`, and there is no libstation.a in it: {tour} makes one", named.display());
    archive(&named).is_file().then_some(named).ok_or(line)
}

/// The library in a folder, which cargo then watches.
fn archive(folder: &Path) -> PathBuf {
    let archive = folder.join("libstation.a");
    println!("cargo:rerun-if-changed={}", archive.display());
    archive
}
