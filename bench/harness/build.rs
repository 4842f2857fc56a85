//! Tells cargo where the model's static library is: in the folder that MODEL_LIB names, else where `rt lib` leaves it.

use std::path::PathBuf;

fn main() {
    let here = PathBuf::from(std::env::var("CARGO_MANIFEST_DIR").unwrap());
    let folder = match std::env::var("MODEL_LIB") {
        Ok(folder) => PathBuf::from(folder),
        Err(_) => here.join("../../crates/model/out"),
    };
    let library = folder.join("libmodel.a");
    println!("cargo:rerun-if-env-changed=MODEL_LIB");
    println!("cargo:rerun-if-changed={}", library.display());
    if !library.exists() {
        panic!("there is no {}: run `rt lib` in crates/model first", library.display());
    }
    println!("cargo:rustc-link-search=native={}", folder.display());
    println!("cargo:rustc-link-lib=static=model");
}
