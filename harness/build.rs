// Links libcontroller.a from the folder that CONTROLLER_LIB names, else from ../target/staticlib.
use std::{env, fs, path::PathBuf};

fn main() {
    println!("cargo:rerun-if-env-changed=CONTROLLER_LIB");
    let here = PathBuf::from(env::var("CARGO_MANIFEST_DIR").unwrap());
    let folder = env::var_os("CONTROLLER_LIB").map_or_else(|| here.join("../target/staticlib"), PathBuf::from);
    let folder = fs::canonicalize(&folder).unwrap_or_else(|e| panic!("no folder {}: {e} (examples/run.sh makes it)", folder.display()));
    println!("cargo:rerun-if-changed={}", folder.join("libcontroller.a").display());
    println!("cargo:rustc-link-search=native={}", folder.display());
    println!("cargo:rustc-link-lib=static=controller");
}
