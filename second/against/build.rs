//! Links `libagreement.a`, the proved static library, from the folder that
//! AGREEMENT_LIB_DIR names.

use std::env;
use std::path::Path;

fn main() {
    println!("cargo::rerun-if-env-changed=AGREEMENT_LIB_DIR");
    let Ok(folder) = env::var("AGREEMENT_LIB_DIR") else {
        println!("cargo::error=AGREEMENT_LIB_DIR must name the folder of libagreement.a");
        return;
    };
    let archive = Path::new(&folder).join("libagreement.a");
    println!("cargo::rerun-if-changed={}", archive.display());
    println!("cargo::rustc-link-search=native={folder}");
    println!("cargo::rustc-link-lib=static=agreement");
}
