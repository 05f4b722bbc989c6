//! Links the static library: `dist/` of the repository, or the folder that
//! `LOWLINE_DIR` names, counted from this package where it is relative.

use std::env;
use std::path::Path;

fn main() {
    println!("cargo::rerun-if-env-changed=LOWLINE_DIR");
    let package = env::var_os("CARGO_MANIFEST_DIR").expect("cargo sets CARGO_MANIFEST_DIR");
    let named = env::var_os("LOWLINE_DIR").unwrap_or_else(|| "../../dist".into());
    let folder = Path::new(&package).join(named);
    let archive = folder.join("liblowline.a");
    println!("cargo::rerun-if-changed={}", archive.display());
    if !archive.is_file() {
        println!(
            "cargo::error={} is missing: run `make lib` at the root of the repository, \
             or set LOWLINE_DIR to the folder that has it",
            archive.display()
        );
        return;
    }
    println!("cargo::rustc-link-search=native={}", folder.display());
    println!("cargo::rustc-link-lib=static=lowline");
}
