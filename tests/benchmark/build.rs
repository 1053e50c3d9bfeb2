//! Links the proved libraries from the folder that GRAFTPIGEON_PROVED names.

use std::env;
use std::fs;

const FOLDER: &str = "GRAFTPIGEON_PROVED";
const LIBRARIES: &[&str] = &[
    "exports",
    "controller",
    #[cfg(feature = "beside")]
    "beside_exports",
    #[cfg(feature = "beside")]
    "beside_controller",
];

fn main() {
    println!("cargo:rerun-if-env-changed={FOLDER}");
    let folder = env::var(FOLDER).unwrap_or_else(|_| panic!("{FOLDER} is not set"));
    let folder = fs::canonicalize(&folder).unwrap_or_else(|error| panic!("{folder}: {error}"));
    let folder = folder.display();
    println!("cargo:rustc-link-search=native={folder}");
    for library in LIBRARIES {
        println!("cargo:rerun-if-changed={folder}/lib{library}.a");
        println!("cargo:rustc-link-lib=static={library}");
    }
}
