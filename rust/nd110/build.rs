//! Links the archive that `rt lib` writes in the Rattle crate that it is made of. The file `archive` beside this one
//! names that crate, for the scripts too. The archive is not copied into the Rust library, so what calls none of its
//! functions builds without it.

use std::path::Path;

fn main() {
    let name = include_str!("archive").trim();
    let folder = Path::new(env!("CARGO_MANIFEST_DIR")).join(format!("../../crates/{name}/out"));
    let file = folder.join(format!("lib{name}.a"));
    println!("cargo::rustc-link-search=native={}", folder.display());
    println!("cargo::rustc-link-lib=static:-bundle={name}");
    println!("cargo::rerun-if-changed=archive");
    println!("cargo::rerun-if-changed={}", file.display());
}
