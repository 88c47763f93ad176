//! What the build needs: a target that the archive was built for, and the archive. A module of its own,
//! so that a test can ask it what a build script cannot be asked.

use std::ffi::OsString;
use std::path::{Path, PathBuf};

/// The variable that names the archive's folder.
pub const VARIABLE: &str = "CAPTABLE_LIB_DIR";

/// The archive's file.
pub const ARCHIVE: &str = "libcaptable.a";

/// Systems whose objects are not ELF or whose C calls are not System V's, on x86-64 too.
const OTHER_SYSTEMS: [&str; 8] = [
    "windows", "uefi", "cygwin", "macos", "ios", "tvos", "watchos", "visionos",
];

/// The target of a build, as cargo names its parts.
pub struct Target {
    pub arch: String,
    pub pointer_width: String,
    pub system: String,
}

impl Target {
    /// The target by cargo's variables.
    pub fn from_cargo(variable: impl Fn(&str) -> String) -> Target {
        Target {
            arch: variable("CARGO_CFG_TARGET_ARCH"),
            pointer_width: variable("CARGO_CFG_TARGET_POINTER_WIDTH"),
            system: variable("CARGO_CFG_TARGET_OS"),
        }
    }

    /// Can the archive's code be linked and called there? A wrong calling convention would link and then
    /// read a table from the wrong place, so it is refused here.
    pub fn check(&self) -> Result<(), String> {
        let known = self.arch == "x86_64"
            && self.pointer_width == "64"
            && !OTHER_SYSTEMS.contains(&self.system.as_str());
        if known {
            return Ok(());
        }
        Err(format!(
            "libcaptable.a is code for x86-64 with 64-bit pointers, ELF objects and System V calls (Linux, or no \
             system at all), and this build is for {} with {}-bit pointers on {}",
            self.arch, self.pointer_width, self.system
        ))
    }
}

/// Where the archive is looked for: the folder that the variable names, or the repository's own.
pub fn folder(named: Option<OsString>, manifest: &Path) -> Result<PathBuf, String> {
    match named.filter(|name| !name.is_empty()) {
        None => Ok(manifest.join("../../target/staticlib")),
        Some(name) if Path::new(&name).is_absolute() => Ok(PathBuf::from(name)),
        // A build script runs in its package's folder, and not where its caller stood.
        Some(name) => Err(format!(
            "{VARIABLE} has to be an absolute path, and is `{}`",
            name.to_string_lossy()
        )),
    }
}

/// The folder, if the archive is in it.
pub fn with_archive(folder: PathBuf) -> Result<PathBuf, String> {
    if folder.join(ARCHIVE).is_file() {
        return Ok(folder);
    }
    Err(format!(
        "there is no {ARCHIVE} in {}: run `tools/build` in the repository's folder, or set {VARIABLE} to \
         the folder that has it",
        folder.display()
    ))
}
