//! Links the archive that `tools/build` writes, and says in one sentence what is missing
//! where that cannot work.

use std::env;
use std::path::Path;

#[path = "build/needs.rs"]
mod needs;

fn main() {
    println!("cargo::rerun-if-changed=build.rs");
    println!("cargo::rerun-if-changed=build/needs.rs");
    println!("cargo::rerun-if-env-changed={}", needs::VARIABLE);
    let target = needs::Target::from_cargo(|name| env::var(name).unwrap_or_default());
    let manifest = env::var_os("CARGO_MANIFEST_DIR").expect("cargo sets the manifest's folder");
    let folder = target
        .check()
        .and_then(|()| needs::folder(env::var_os(needs::VARIABLE), Path::new(&manifest)))
        .and_then(needs::with_archive);
    match folder {
        Ok(folder) => {
            let archive = folder.join(needs::ARCHIVE);
            println!("cargo::rerun-if-changed={}", archive.display());
            println!("cargo::rustc-link-search=native={}", folder.display());
            println!("cargo::rustc-link-lib=static=captable");
        }
        Err(sentence) => println!("cargo::error={sentence}"),
    }
}
