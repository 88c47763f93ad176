//! What the build script decides: for which targets the archive is linked, where it is looked for, and
//! what is said where it cannot be.

#[path = "../build/needs.rs"]
mod needs;

use needs::{folder, with_archive, Target, ARCHIVE};
use std::fs;
use std::path::{Path, PathBuf};

/// A target as cargo's variables give it.
fn target(arch: &str, pointer_width: &str, system: &str) -> Target {
    Target::from_cargo(|variable| {
        match variable {
            "CARGO_CFG_TARGET_ARCH" => arch,
            "CARGO_CFG_TARGET_POINTER_WIDTH" => pointer_width,
            "CARGO_CFG_TARGET_OS" => system,
            other => panic!("the build script has no need of {other}"),
        }
        .to_string()
    })
}

#[test]
fn x86_64_with_elf_and_system_v_calls_is_linked() {
    for system in ["linux", "none", "freebsd"] {
        assert_eq!(target("x86_64", "64", system).check(), Ok(()));
    }
}

#[test]
fn any_other_target_is_refused_in_one_sentence() {
    for (arch, width, system) in [
        ("aarch64", "64", "linux"),
        ("x86", "32", "linux"),
        ("x86_64", "32", "linux"), // x32: 64-bit code with 32-bit pointers
        ("x86_64", "64", "windows"),
        ("x86_64", "64", "uefi"),
        ("x86_64", "64", "macos"),
        ("thumbv7em", "32", "none"),
        ("", "", ""),
    ] {
        let said = target(arch, width, system)
            .check()
            .expect_err("there is no such code in the archive");
        assert!(said.contains("x86-64 with 64-bit pointers"), "{said}");
        let there = format!("this build is for {arch} with {width}-bit pointers on {system}");
        assert!(said.ends_with(&there), "{said}");
        assert!(!said.contains('\n'), "{said}");
    }
}

#[test]
fn the_variable_goes_before_the_repositorys_folder() {
    let manifest = Path::new("/yavrinks/rust/captable");
    let own = Ok(manifest.join("../../target/staticlib"));
    assert_eq!(folder(None, manifest), own);
    assert_eq!(folder(Some("".into()), manifest), own);
    let named = folder(Some("/opt/captable".into()), manifest);
    assert_eq!(named, Ok(PathBuf::from("/opt/captable")));
    let said = folder(Some("target/staticlib".into()), manifest).expect_err("it is relative");
    assert_eq!(
        said,
        "CAPTABLE_LIB_DIR has to be an absolute path, and is `target/staticlib`"
    );
}

#[test]
fn a_folder_without_the_archive_is_named() {
    let empty = Path::new(env!("CARGO_TARGET_TMPDIR")).join("no archive");
    fs::create_dir_all(empty.join(ARCHIVE)).expect("a folder"); // of that name, and no file
    let said = with_archive(empty.clone()).expect_err("there is no file");
    assert!(said.starts_with(&format!("there is no libcaptable.a in {}", empty.display())));
    assert!(said.contains("tools/build") && said.contains("CAPTABLE_LIB_DIR"));
    assert!(!said.contains('\n'), "{said}");
    let full = Path::new(env!("CARGO_TARGET_TMPDIR")).join("with archive");
    fs::create_dir_all(&full).expect("a folder");
    fs::write(full.join(ARCHIVE), "!<arch>\n").expect("a file");
    assert_eq!(with_archive(full.clone()), Ok(full));
}
