//! Links the archive with the comparing tests only: the unit tests of the plain implementation do without it.

use std::env;
use std::path::{Path, PathBuf};

const ARCHIVE: &str = "libburst.a";

fn archive_folder() -> PathBuf {
    let package = env::var("CARGO_MANIFEST_DIR").unwrap_or_default();
    let package = Path::new(&package);
    match env::var("BURST_LIB") {
        Ok(folder) if !folder.is_empty() => package.join(folder), // an absolute folder replaces the package's
        _ => package.join("../../target/lib"),
    }
}

fn main() {
    let archive = archive_folder().join(ARCHIVE);
    println!("cargo:rerun-if-env-changed=BURST_LIB");
    println!("cargo:rerun-if-changed={}", archive.display());
    println!("cargo:rustc-link-arg-tests={}", archive.display());
}
