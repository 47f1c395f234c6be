//! Links the library: where BESKLAUN_LIB names a folder, the archive or the
//! shared object there (`tools/install` puts them into PREFIX/lib); else the
//! archive that `tools/static-library` writes at the top of the project.

use std::env;
use std::path::PathBuf;

fn main() {
    println!("cargo:rerun-if-env-changed=BESKLAUN_LIB");
    let installed = env::var_os("BESKLAUN_LIB").map(PathBuf::from);
    let is_installed = installed.is_some();
    let folder = installed.unwrap_or_else(built);
    let archive = folder.join("libbesklaun.a");
    let shared = folder.join("libbesklaun.so");
    let (kind, file) = match archive.exists() || !is_installed {
        true => ("static", archive),
        false => ("dylib", shared),
    };
    println!("cargo:rerun-if-changed={}", file.display());
    let advice = match is_installed {
        true => "BESKLAUN_LIB is the folder that has it",
        false => "`tools/static-library` proves the library and writes it",
    };
    assert!(file.exists(), "there is no {}: {advice}", file.display());
    println!("cargo:rustc-link-search=native={}", folder.display());
    println!("cargo:rustc-link-lib={kind}=besklaun");
}

/// Asked for when it runs: a project that was moved keeps this program as it
/// was compiled.
fn built() -> PathBuf {
    let library = env::var_os("CARGO_MANIFEST_DIR").map(PathBuf::from);
    let library = library.expect("cargo says where the package is");
    library.with_file_name("target").join("staticlib")
}
