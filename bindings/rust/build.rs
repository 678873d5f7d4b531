//! Links the static library of the `upbit_*` functions: the file that UPBIT_LIB names, or else
//! target/staticlib/libupbit.a of the repository.

use std::env;
use std::path::{Path, PathBuf};
use std::process;

fn main() {
    println!("cargo:rerun-if-env-changed=UPBIT_LIB");
    let library = library();
    println!("cargo:rerun-if-changed={}", library.display());
    if !library.is_file() {
        stop(&format!(
            "there is no static library at {}; the command `bash tools/staticlib.sh`, given in the repository's root, \
             makes target/staticlib/libupbit.a there, and UPBIT_LIB may name another file",
            library.display()
        ));
    }
    let (Some(folder), Some(name)) = (library.parent(), link_name(&library)) else {
        stop(&format!(
            "UPBIT_LIB is to name a file libNAME.a, and is {}",
            library.display()
        ));
    };
    println!("cargo:rustc-link-search=native={}", folder.display());
    println!("cargo:rustc-link-lib=static={name}");
}

/// Where the static library is expected. A relative UPBIT_LIB is taken from the folder of this crate.
fn library() -> PathBuf {
    let here = PathBuf::from(env::var_os("CARGO_MANIFEST_DIR").unwrap_or_default());
    match env::var_os("UPBIT_LIB") {
        Some(named) => here.join(named),
        None => here.join("../../target/staticlib/libupbit.a"),
    }
}

/// NAME of a file libNAME.a.
fn link_name(library: &Path) -> Option<&str> {
    let file = library.file_name()?.to_str()?;
    file.strip_prefix("lib")?.strip_suffix(".a")
}

fn stop(why: &str) -> ! {
    eprintln!("upbit: {why}");
    process::exit(1);
}
