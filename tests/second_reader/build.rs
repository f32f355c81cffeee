//! With the feature `library`: links libaff_c.a from the folder that the environment variable AFF_LIBRARY names, else from the
//! repository's crates/aff_c/out, where `rt lib` in crates/aff_c puts it.

use std::env;
use std::path::PathBuf;

fn main() {
    println!("cargo:rerun-if-env-changed=AFF_LIBRARY");
    if env::var_os("CARGO_FEATURE_LIBRARY").is_none() {
        return;
    }
    let here = PathBuf::from(env::var_os("CARGO_MANIFEST_DIR").expect("set by cargo"));
    let usual = here.join("../../crates/aff_c/out");
    let folder = env::var_os("AFF_LIBRARY").map_or(usual, PathBuf::from);
    println!(
        "cargo:rerun-if-changed={}",
        folder.join("libaff_c.a").display()
    );
    println!("cargo:rustc-link-search=native={}", folder.display());
    println!("cargo:rustc-link-lib=static=aff_c");
}
