//! Links the static library. `BALSAEUCHRE_LIB_DIR` names the folder with the library: `libbalsaeuchre.a`, as
//! it is installed, or `libbalsaeuchre_c.a` with the heap's `liblibc_c.a`. If the variable isn't set, it
//! takes the library that `rt lib` built in the clone of this package, and the toolchain's heap. It takes a
//! library that `foreign/unproved` built only if the variable names its folder, and prints a warning.

use std::path::{Path, PathBuf, absolute};
use std::process::Command;
use std::{env, fs};

const VARIABLE: &str = "BALSAEUCHRE_LIB_DIR";

/// Returns the folder of the library in a clone, and the toolchain's folder of the heap, which `rt doc`
/// names.
fn built() -> Vec<PathBuf> {
    let here = env::var_os("CARGO_MANIFEST_DIR").expect("cargo sets it");
    let mut folders = vec![Path::new(&here).join("../../crates/balsaeuchre_c/out")];
    if let Ok(told) = Command::new("rt").arg("doc").output() {
        folders.push(Path::new(String::from_utf8_lossy(&told.stdout).trim()).with_file_name("c"));
    }
    folders
}

/// Returns whether an archive has the member of an unproved library. A member's name takes 16 bytes.
fn is_unproved(archive: &Path) -> bool {
    let member = b"unproved.o/     ";
    fs::read(archive).is_ok_and(|bytes| bytes.windows(member.len()).any(|window| window == member))
}

/// Links a library of one of the folders, and returns whether there is one.
fn link(library: &str, folders: &[PathBuf]) -> bool {
    let mut files = folders.iter().map(|folder| folder.join(format!("lib{library}.a")));
    let Some(file) = files.find_map(|file| fs::canonicalize(file).ok()) else { return false };
    println!("cargo::rerun-if-changed={}", file.display());
    if is_unproved(&file) {
        println!("cargo::rustc-cfg=balsaeuchre_unproved");
        println!("cargo::warning={} is unproved: foreign/install --unproved built it", file.display());
    }
    println!("cargo::rustc-link-search=native={}", file.parent().expect("a file has a folder").display());
    println!("cargo::rustc-link-lib=static={library}");
    true
}

fn main() {
    println!("cargo::rerun-if-env-changed={VARIABLE}");
    println!("cargo::rerun-if-env-changed=DOCS_RS");
    println!("cargo::rustc-check-cfg=cfg(balsaeuchre_unproved)");
    if env::var_os("DOCS_RS").is_some() {
        return; // the documentation needs no library
    }
    let named = env::var_os(VARIABLE).map(|folder| vec![absolute(folder).unwrap_or_default()]);
    let folders = named.unwrap_or_else(built);
    let linked = link("balsaeuchre", &folders) || link("balsaeuchre_c", &folders) && link("libc_c", &folders);
    if !linked {
        println!("cargo::error=neither libbalsaeuchre.a nor libbalsaeuchre_c.a with liblibc_c.a is in {folders:?}");
        println!(
            "cargo::error=set {VARIABLE} to its folder, or prove and build it by `rt lib` in crates/balsaeuchre_c"
        );
        println!(
            "cargo::error=foreign/install --unproved PREFIX builds an unproved one, in a minute: PREFIX/lib has it"
        );
    }
}
