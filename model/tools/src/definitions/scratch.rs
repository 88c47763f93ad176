//! A copy of the repository in a folder of its own, where crates of cases are added and checked.
//! Nothing is ever written into the repository itself.

use super::crates::CaseCrate;
use super::verdicts::heading;
use crate::progress::Progress;
use std::fmt::Display;
use std::fs::{self, File};
use std::io;
use std::path::{Path, PathBuf};
use std::process::{self, Command};
use std::thread::{self, sleep};
use std::time::{Duration, SystemTime, UNIX_EPOCH};

/// Folders that are not copied: edits that must fail, and what the toolchain makes.
const LEFT_OUT: [&str; 3] = ["must-fail", "out", "target"];
/// How long to wait before the toolchain is looked at again.
const PAUSE: Duration = Duration::from_millis(200);
/// How many crates are checked at a time at most: each may take some gigabytes.
const MOST_JOBS: usize = 4;

pub struct Scratch {
    pub folder: PathBuf,
}

impl Scratch {
    /// Copies the repository at `root` into a folder that is new or empty and lies outside it.
    pub fn new(root: &Path, folder: Option<&Path>) -> io::Result<Scratch> {
        let list = fs::read(root.join("crates.txt"))
            .map_err(|error| fault("no repository", &root.join("crates.txt"), &error))?;
        let folder = match folder {
            Some(folder) => std::path::absolute(folder)?,
            None => temporary_folder(),
        };
        if nearest_real_folder(&folder)?.starts_with(root.canonicalize()?) {
            return Err(fault("no place for a copy", &folder, &"in the repository"));
        }
        fs::create_dir_all(&folder)?;
        if fs::read_dir(&folder)?.next().is_some() {
            return Err(fault("no place for a copy", &folder, &"not empty"));
        }
        fs::write(folder.join("crates.txt"), list)?;
        copy_folder(&root.join("crates"), &folder.join("crates"))?;
        Ok(Scratch { folder })
    }

    /// Leaves these crates alone in the copy, so that the toolchain checks no other. It begins with what it has kept of them on
    /// this machine, and proves again what has changed since, and what is missing.
    pub fn keep_only(&self, names: &[String]) -> io::Result<()> {
        let list = self.crate_list()?;
        let kept = list.lines().filter(|line| is_line_of(line, names));
        let kept: String = kept.map(|line| format!("{line}\n")).collect();
        fs::write(self.folder.join("crates.txt"), kept)?;
        for entry in fs::read_dir(self.folder.join("crates"))? {
            let entry = entry?;
            if !names.iter().any(|name| entry.file_name() == name.as_str()) {
                fs::remove_dir_all(entry.path())?;
            }
        }
        Ok(())
    }

    /// The list of the crates, as it stands.
    pub fn crate_list(&self) -> io::Result<String> {
        fs::read_to_string(self.folder.join("crates.txt"))
    }

    /// Adds a crate that holds a module of cases and no code, over the crates named.
    pub fn add_crate(&self, added: &CaseCrate, below: &[String]) -> io::Result<()> {
        let folder = self.folder.join("crates").join(&added.name);
        fs::create_dir_all(folder.join("src"))?;
        fs::create_dir_all(folder.join("proofs"))?;
        fs::write(
            folder.join("src/lib.rt"),
            "// Cases, and no code.\n#![tactic(auto)]\n",
        )?;
        fs::write(folder.join("proofs/Lib.antt"), "pub mod Cases\n")?;
        fs::write(self.folder.join(added.file()), &added.text)?;
        let mut list = self.crate_list()?;
        list += &format!("{}: {}\n", added.name, below.join(" "));
        fs::write(self.folder.join("crates.txt"), list)
    }

    /// Has the toolchain check crates and those that they stand on, and says how far it is; gives all
    /// that the toolchain said.
    pub fn check(&self, crates: &[CaseCrate], below: &[String]) -> io::Result<String> {
        let (said, errors) = (self.folder.join("said"), self.folder.join("errors"));
        let jobs = thread::available_parallelism().map_or(1, |cores| cores.get().min(MOST_JOBS));
        let mut child = Command::new("rt")
            .args(["all", "check", "--jobs", &jobs.to_string()])
            .current_dir(&self.folder)
            .stdout(File::create(&said)?)
            .stderr(File::create(&errors)?)
            .spawn()
            .map_err(|error| fault("cannot run", Path::new("rt"), &error))?;
        let mut proving = Progress::new("definitions: crates proved", below.len() as u64);
        let mut checking = Progress::new("definitions: modules checked", crates.len() as u64);
        while child.try_wait()?.is_none() {
            let proved = self.ended(below.iter());
            if proved < below.len() as u64 {
                proving.at(proved);
            } else {
                checking.at(self.ended(crates.iter().map(|one| &one.name)));
            }
            sleep(PAUSE);
        }
        Ok(read_lossy(&said)? + &read_lossy(&errors)?)
    }

    /// How many of the crates the toolchain is done with: it then says all of a crate at once.
    fn ended<'a>(&self, names: impl Iterator<Item = &'a String>) -> u64 {
        let said = read_lossy(&self.folder.join("said")).unwrap_or_default();
        let headings: Vec<&str> = said.lines().filter_map(heading).collect();
        names
            .filter(|name| headings.contains(&name.as_str()))
            .count() as u64
    }

    pub fn remove(self) -> io::Result<()> {
        fs::remove_dir_all(self.folder)
    }
}

/// Whether a line of crates.txt is that of one of these crates.
fn is_line_of(line: &str, names: &[String]) -> bool {
    let line = line.split('#').next().unwrap_or("");
    let listed = line.split_once(':').map(|(listed, _)| listed.trim());
    names.iter().any(|name| listed == Some(name.as_str()))
}

fn read_lossy(file: &Path) -> io::Result<String> {
    Ok(String::from_utf8_lossy(&fs::read(file)?).into_owned())
}

fn fault(what: &str, place: &Path, why: &dyn Display) -> io::Error {
    io::Error::other(format!("{what}: {}: {why}", place.display()))
}

/// A path that no other run uses.
fn temporary_folder() -> PathBuf {
    let now = SystemTime::now().duration_since(UNIX_EPOCH);
    let nanoseconds = now.map_or(0, |time| time.as_nanos());
    let name = format!("yavrinks-definitions-{}-{nanoseconds}", process::id());
    std::env::temp_dir().join(name)
}

/// The folder itself, or the nearest one above it that exists, without links.
fn nearest_real_folder(folder: &Path) -> io::Result<PathBuf> {
    let existing = folder.ancestors().find(|above| above.exists());
    existing.unwrap_or(Path::new("/")).canonicalize()
}

fn copy_folder(from: &Path, to: &Path) -> io::Result<()> {
    fs::create_dir_all(to)?;
    for entry in fs::read_dir(from)? {
        let entry = entry?;
        let target = to.join(entry.file_name());
        if LEFT_OUT.iter().any(|name| entry.file_name() == *name) {
            continue;
        }
        if entry.file_type()?.is_dir() {
            copy_folder(&entry.path(), &target)?;
        } else {
            fs::copy(entry.path(), target)?;
        }
    }
    Ok(())
}
