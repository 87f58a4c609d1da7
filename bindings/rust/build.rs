//! Finds the proved library, libplate_export.a: in the folder that PLATE_LIB_DIR
//! names, else in the repository's crates/plate_export/out.

use std::env;
use std::path::{Path, PathBuf};
use std::process;

const ARCHIVE: &str = "libplate_export.a";

fn main() {
    println!("cargo:rerun-if-changed=build.rs");
    println!("cargo:rerun-if-env-changed=PLATE_LIB_DIR");
    if !for_this_target() {
        fail("the proved library is for x86-64 Linux only");
    }
    let folder = match env::var_os("PLATE_LIB_DIR").filter(|name| !name.is_empty()) {
        Some(name) => named(PathBuf::from(name)),
        None => in_repository(),
    };
    let archive = folder.join(ARCHIVE);
    println!("cargo:rerun-if-changed={}", archive.display());
    if !archive.is_file() {
        fail(&format!(
            "{} isn't there. `rt lib` in the repository's crates/plate_export writes it to \
             its out/; PLATE_LIB_DIR names another folder that has it",
            archive.display()
        ));
    }
    println!("cargo:rustc-link-search=native={}", folder.display());
}

fn for_this_target() -> bool {
    let target = |name| env::var(name).unwrap_or_default();
    target("CARGO_CFG_TARGET_ARCH") == "x86_64" && target("CARGO_CFG_TARGET_OS") == "linux"
}

/// The folder of PLATE_LIB_DIR. Cargo runs this script in the crate's folder, so a
/// relative path wouldn't start where its writer stood.
fn named(folder: PathBuf) -> PathBuf {
    if folder.is_relative() {
        fail(&format!(
            "PLATE_LIB_DIR is {}, and must be an absolute path",
            folder.display()
        ));
    }
    folder
}

fn in_repository() -> PathBuf {
    let here = env::var_os("CARGO_MANIFEST_DIR").unwrap_or_default();
    Path::new(&here).join("../../crates/plate_export/out")
}

fn fail(message: &str) -> ! {
    eprintln!("plates: {message}");
    process::exit(1)
}
