//! Finds the proved library and links it. `MERINO_LIB` names the folder that has libmerino.a; without it, crates/merino/out of this
//! repository is taken.
use std::path::PathBuf;

fn main() {
    println!("cargo:rerun-if-env-changed=MERINO_LIB");
    let here = PathBuf::from(std::env::var("CARGO_MANIFEST_DIR").unwrap());
    let folder = match std::env::var("MERINO_LIB") {
        Ok(folder) => std::env::current_dir().unwrap().join(folder),
        Err(_) => here.join("../../crates/merino/out"),
    };
    let library = folder.join("libmerino.a");
    println!("cargo:rerun-if-changed={}", library.display());
    if !library.exists() {
        eprintln!("\nThe proved library is not there: {}", library.display());
        eprintln!("Make it with `rt lib` in crates/merino, which proves what it needs first (long, if nothing is proved yet), or let");
        eprintln!("MERINO_LIB name the folder that has libmerino.a.\n");
        std::process::exit(1);
    }
    println!("cargo:rustc-link-search=native={}", folder.display());
    println!("cargo:rustc-link-lib=static=merino");
}
