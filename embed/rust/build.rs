//! Links the libraries, as `rt lib` has built them, and the heap that they allocate from.

use std::path::{Path, PathBuf};
use std::process::Command;

fn main() {
    let top = Path::new(env!("CARGO_MANIFEST_DIR")).join("../..");
    for name in ["embed", "embed_scenario"] {
        let folder = top.join("crates").join(name).join("out");
        println!("cargo:rustc-link-search=native={}", folder.display());
        println!("cargo:rustc-link-lib=static={name}");
        println!("cargo:rerun-if-changed={}", folder.join(format!("lib{name}.a")).display());
    }
    let heap = top.join("embed/heap.c");
    println!("cargo:rerun-if-changed={}", heap.display());
    let out = PathBuf::from(std::env::var("OUT_DIR").expect("cargo tells where to build"));
    run(Command::new("cc").args(["-O2", "-c"]).arg(&heap).arg("-o").arg(out.join("heap.o")));
    run(Command::new("ar").arg("crs").arg(out.join("libheap.a")).arg(out.join("heap.o")));
    println!("cargo:rustc-link-search=native={}", out.display());
    println!("cargo:rustc-link-lib=static=heap");
}

fn run(command: &mut Command) {
    let status = command.status().expect("a C compiler");
    assert!(status.success(), "{command:?}");
}
