//! Where the static library lies, and the parts of the kit's C code that it stands on.

use std::path::Path;
use std::process::Command;

fn main() {
    let library = Path::new(env!("CARGO_MANIFEST_DIR")).join("../../crates/c_host/out");
    let page = Command::new("rt").arg("doc").output().expect("the kit's rt on the path").stdout;
    let page = String::from_utf8(page).expect("a path");
    let page = page.lines().find(|line| line.ends_with("START-HERE.md")).expect("the page to read first");
    let kit = Path::new(page.trim()).parent().expect("a folder").join("c");
    println!("cargo:rustc-link-search=native={}", library.display());
    println!("cargo:rustc-link-search=native={}", kit.display());
    println!("cargo:rustc-link-lib=static=c_host");
    println!("cargo:rustc-link-lib=static=libc_c");
    println!("cargo:rerun-if-changed={}", library.join("libc_host.a").display());
}
