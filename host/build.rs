//! Compiles the C example and what measures the stack, so that they run in the comparison's process. CC names the compiler.

use std::path::PathBuf;
use std::process::Command;

fn main() {
    println!("cargo::rerun-if-env-changed=CC");
    let out = PathBuf::from(std::env::var_os("OUT_DIR").expect("cargo sets it"));
    let compiler = std::env::var("CC").unwrap_or("cc".to_string());
    for name in ["in_process", "stack"] {
        let object = out.join(format!("{name}.o"));
        let status = Command::new(&compiler)
            .args(["-std=gnu11", "-O2", "-Wall", "-Wextra", "-Werror", "-fPIE", "-I", "include", "-c"])
            .arg(format!("c/{name}.c"))
            .arg("-o")
            .arg(&object)
            .status()
            .expect("there is a C compiler");
        assert!(status.success(), "{name}.c does not compile");
        println!("cargo::rustc-link-arg={}", object.display());
        println!("cargo::rerun-if-changed=c/{name}.c");
    }
    for file in ["c/example.c", "include/tulbazhik.h"] {
        println!("cargo::rerun-if-changed={file}");
    }
}
