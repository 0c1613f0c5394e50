//! Links libvolmeixi.a: VOLMEIXI_ARCHIVE, or what `tools/build volmeixi` left in target/.
//! It is copied to cargo's output folder, so that its file may have any name.

use std::path::{Path, PathBuf};
use std::{env, fs};

fn main() {
    let here = PathBuf::from(env::var_os("CARGO_MANIFEST_DIR").unwrap());
    let given = env::var_os("VOLMEIXI_ARCHIVE").filter(|path| !path.is_empty());
    let archive = given.map_or(here.join("../../target/staticlib/libvolmeixi.a"), PathBuf::from);
    let out = env::var("OUT_DIR").unwrap();
    if let Err(e) = fs::copy(&archive, Path::new(&out).join("libvolmeixi.a")) {
        panic!("{}: {e}; make it by `tools/build volmeixi` or set VOLMEIXI_ARCHIVE", archive.display());
    }
    println!("cargo:rerun-if-env-changed=VOLMEIXI_ARCHIVE");
    println!("cargo:rerun-if-changed={}", archive.display());
    println!("cargo:rustc-link-search=native={out}");
    println!("cargo:rustc-link-lib=static=volmeixi");
}
