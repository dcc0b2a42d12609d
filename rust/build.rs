//! Links the proved library: `libtext.a`, from the folder that `ARIB_TEXT_LIB` names, else from
//! `target/staticlib` of the repository, where `./build text_c` leaves it.

use std::env::var;
use std::path::Path;

fn main() {
    let here = var("CARGO_MANIFEST_DIR").expect("cargo names the package's folder");
    let folder = var("ARIB_TEXT_LIB").unwrap_or(format!("{here}/../target/staticlib"));
    println!("cargo::rerun-if-env-changed=ARIB_TEXT_LIB");
    println!("cargo::rerun-if-changed={folder}/libtext.a");
    if !Path::new(&folder).join("libtext.a").exists() {
        println!(
            "cargo::error=no libtext.a in {folder}: run `./build text_c` in the repository"
        );
    }
    println!("cargo::rustc-link-search=native={folder}");
    println!("cargo::rustc-link-lib=static=text");
}
