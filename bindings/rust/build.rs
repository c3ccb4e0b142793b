//! Links `libgas_day.a`: from the folder that `GAS_DAY_LIB` names, else from where `bindings/build` puts it.

use std::path::{Path, PathBuf};
use std::process::exit;
use std::{env, fs};

/// The calls that were added after the first library: one that lacks them is older than this crate.
const ADDED: [&str; 3] = ["gas_day_write_hour_file", "gas_day_preview_hour", "gas_day_judge_hour"];

fn folder() -> PathBuf {
    match env::var_os("GAS_DAY_LIB") {
        Some(named) if !named.is_empty() => PathBuf::from(named),
        _ => Path::new(env!("CARGO_MANIFEST_DIR")).join("../../target/bindings/lib"),
    }
}

/// Whether the library names the call: the name stands in it with a zero byte behind it.
fn has(library: &[u8], call: &str) -> bool {
    let name = [call.as_bytes(), b"\0"].concat();
    library.windows(name.len()).any(|part| part == name)
}

fn main() {
    let folder = folder();
    let library = folder.join("libgas_day.a");
    println!("cargo:rerun-if-env-changed=GAS_DAY_LIB");
    println!("cargo:rerun-if-changed={}", library.display());
    if !folder.is_absolute() {
        eprintln!("gas_day: GAS_DAY_LIB is to be an absolute path, not {}", folder.display());
        exit(1);
    }
    if !library.exists() {
        eprintln!("gas_day: there is no {}: run bindings/build, or set GAS_DAY_LIB to the folder of libgas_day.a", library.display());
        exit(1);
    }
    let bytes = fs::read(&library).unwrap_or_else(|error| {
        eprintln!("gas_day: {} cannot be read: {error}", library.display());
        exit(1);
    });
    if let Some(call) = ADDED.iter().find(|call| !has(&bytes, call)) {
        eprintln!("gas_day: {} has no {call}: it is older than this crate; run bindings/build", library.display());
        exit(1);
    }
    println!("cargo:rustc-link-search=native={}", folder.display());
    println!("cargo:rustc-link-lib=static=gas_day");
}
