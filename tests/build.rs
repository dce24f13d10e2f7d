//! Links the proved library, which the gate leaves in the crate's out/.

use std::path::Path;
use std::process::exit;

fn main() {
    let folder = Path::new(env!("CARGO_MANIFEST_DIR")).join("../crates/dairyepoch/out");
    let library = folder.join("libdairyepoch.a");
    println!("cargo:rerun-if-changed={}", library.display());
    if !library.is_file() {
        eprintln!("{} is missing: run .ci/run, or make it alone by `rt lib` in crates/dairyepoch", library.display());
        exit(1);
    }
    println!("cargo:rustc-link-search=native={}", folder.display());
    println!("cargo:rustc-link-lib=static=dairyepoch");
}
