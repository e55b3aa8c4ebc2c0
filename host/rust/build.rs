//! Tells rustc where the static libraries are: TULBAZHIK_LIB, or the folder that host/archives writes to.

use std::path::PathBuf;

fn main() {
    println!("cargo::rerun-if-env-changed=TULBAZHIK_LIB");
    let folder = match std::env::var_os("TULBAZHIK_LIB") {
        Some(folder) => PathBuf::from(folder),
        None => PathBuf::from(env!("CARGO_MANIFEST_DIR")).join("../../target/staticlib"),
    };
    println!("cargo::rustc-link-search=native={}", folder.display());
    for name in
        ["tulbazhik_lex", "tulbazhik_feed", "tulbazhik_trees", "tulbazhik_windows", "tulbazhik_settings"]
    {
        println!("cargo::rerun-if-changed={}", folder.join(format!("lib{name}.a")).display());
        println!("cargo::rustc-link-lib=static={name}");
    }
}
