//! Links the proved archive that the manifest's `links` names: target/staticlib/lib<links>.a of the repository.
use std::{env, path::Path, process::exit};

fn main() {
    let [manifest, links] = ["CARGO_MANIFEST_DIR", "CARGO_MANIFEST_LINKS"].map(|name| env::var(name).expect("cargo sets it"));
    let root = Path::new(&manifest).ancestors().find(|folder| folder.join("crates").is_dir()).expect("the repository has crates/");
    let folder = root.join("target/staticlib");
    let archive = folder.join(format!("lib{links}.a"));
    println!("cargo:rerun-if-changed={}", archive.display());
    if !archive.exists() {
        eprintln!("{} is missing: `tools/archive {links}`, run at the repository's root, proves and makes it", archive.display());
        exit(1);
    }
    println!("cargo:rustc-link-search=native={}", folder.display());
    println!("cargo:rustc-link-lib=static={links}");
}
