//! Finds the library: in the folder that `GWB_LIB_DIR` names, in bindings/out, where `make -C bindings` leaves it, or as pkg-config says. It links
//! libgwb.a, or libgwb.so where `GWB_DYNAMIC` is set. Where there is none, `cargo check` and `cargo doc` go on; only linking needs it.
use std::env;
use std::path::{Path, PathBuf};
use std::process::Command;

/// The folder that pkg-config names.
fn installed() -> Option<PathBuf> {
    let said = Command::new("pkg-config").args(["--variable=libdir", "gwb"]).output().ok()?;
    let folder = String::from_utf8(said.stdout).ok()?;
    said.status.success().then(|| PathBuf::from(folder.trim()))
}

fn main() {
    for name in ["GWB_LIB_DIR", "GWB_DYNAMIC", "PKG_CONFIG_PATH"] {
        println!("cargo:rerun-if-env-changed={name}");
    }
    let is_dynamic = env::var_os("GWB_DYNAMIC").is_some();
    let file = if is_dynamic { "libgwb.so" } else { "libgwb.a" };
    let built = Path::new(env!("CARGO_MANIFEST_DIR")).join("../../out");
    let mut folders = env::var_os("GWB_LIB_DIR").map(PathBuf::from).map_or_else(|| [Some(built), installed()], |named| [Some(named), None]).into_iter().flatten();
    match folders.find_map(|folder| folder.join(file).canonicalize().ok()) {
        Some(library) => {
            println!("cargo:rerun-if-changed={}", library.display());
            println!("cargo:rustc-link-search=native={}", library.parent().unwrap_or(&library).display());
            println!("cargo:rustc-link-lib={}=gwb", if is_dynamic { "dylib" } else { "static" });
        }
        None => println!("cargo:warning=there is no {file}, so nothing can be linked; `make -C bindings` makes it, and GWB_LIB_DIR names another folder"),
    }
}
