//! Links the archive that `tools/archive` builds: from PUFFBRAMBLE_ARCHIVE, a folder, or from the repository's target/staticlib.

use std::env;
use std::path::PathBuf;
use std::process::exit;

fn main() {
    println!("cargo:rerun-if-env-changed=PUFFBRAMBLE_ARCHIVE");
    if env::var("CARGO_CFG_TARGET_ARCH").as_deref() != Ok("x86_64") {
        return;
    }
    let own = || PathBuf::from(env::var_os("CARGO_MANIFEST_DIR").unwrap_or_default()).join("../../target/staticlib");
    let folder = env::var_os("PUFFBRAMBLE_ARCHIVE").map_or_else(own, PathBuf::from);
    let archive = folder.join("libpuffbramble.a");
    println!("cargo:rerun-if-changed={}", archive.display());
    if !archive.is_file() {
        eprintln!("{} is not there: `tools/archive` at the repository's top writes it", archive.display());
        exit(1);
    }
    println!("cargo:rustc-link-search=native={}", folder.display());
    println!("cargo:rustc-link-lib=static=puffbramble");
}
