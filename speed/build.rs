//! Links the library `workloads`, as `rt lib` has built it. The crate `dabberblue` brings the heap that it allocates from.

use std::path::Path;

fn main() {
    let folder = Path::new(env!("CARGO_MANIFEST_DIR")).join("../crates/workloads/out");
    println!("cargo:rustc-link-search=native={}", folder.display());
    println!("cargo:rustc-link-lib=static=workloads");
    println!("cargo:rerun-if-changed={}", folder.join("libworkloads.a").display());
}
