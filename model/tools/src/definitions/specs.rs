//! What a repository says of its definitions: the names that may be looked into, and which crate
//! stands on which. Both are read anew at each run, so that added definitions are found.

use std::fs;
use std::io;
use std::path::Path;

/// The definitions of a text that are marked `unfoldable pub`, in order.
pub fn unfoldable_names(text: &str) -> Vec<String> {
    text.lines().filter_map(unfoldable_name).collect()
}

/// The name on a line `unfoldable pub NAME : ..`; other marks may stand between.
fn unfoldable_name(line: &str) -> Option<String> {
    let mut words = line.split_whitespace();
    if words.next() != Some("unfoldable") {
        return None;
    }
    let name = words.find(|word| !matches!(*word, "abbrev" | "pub"))?;
    // What `use` passes on is found where it is defined; a `mutual` block is named by its members.
    let declared = !matches!(name, "use" | "mutual") && line.contains(" pub ");
    declared.then(|| name.to_string())
}

/// The names of a crate that may be looked into, each with its whole path.
pub fn unfoldable_paths(root: &Path, name: &str) -> io::Result<Vec<String>> {
    let mut paths = Vec::new();
    let folder = root.join("crates").join(name).join("specs");
    collect_paths(&folder, &format!("Rattle.{name}.specs"), &mut paths)?;
    Ok(paths)
}

/// Adds the names of the modules in a folder and in the folders below it.
fn collect_paths(folder: &Path, module: &str, paths: &mut Vec<String>) -> io::Result<()> {
    if !folder.is_dir() {
        return Ok(());
    }
    let mut entries: Vec<_> = fs::read_dir(folder)?.collect::<io::Result<_>>()?;
    entries.sort_by_key(|entry| entry.file_name());
    for entry in entries {
        let path = entry.path();
        let stem = path.file_stem().unwrap_or_default().to_string_lossy();
        let inner = format!("{module}.{stem}");
        if path.is_dir() {
            collect_paths(&path, &inner, paths)?;
        } else if path
            .extension()
            .is_some_and(|extension| extension == "antt")
            && stem != "Lib"
        {
            let names = unfoldable_names(&fs::read_to_string(&path)?);
            paths.extend(names.iter().map(|name| format!("{inner}.{name}")));
        }
    }
    Ok(())
}

/// The names of all the crates that may be looked into, in one line.
pub fn unfoldable(root: &Path, crates: &[String]) -> io::Result<String> {
    let mut paths = Vec::new();
    for name in crates {
        paths.extend(unfoldable_paths(root, name)?);
    }
    Ok(paths.join(" "))
}

/// The crates and all that they stand on, near or far, as `crates.txt` lists them. A library of the
/// toolchain is not listed, and ends its branch.
pub fn with_all_below(crates_txt: &str, names: &[&str]) -> io::Result<Vec<String>> {
    let mut found: Vec<String> = names.iter().map(|name| name.to_string()).collect();
    if let Some(name) = names
        .iter()
        .find(|name| dependencies(crates_txt, name).is_none())
    {
        return Err(io::Error::other(format!("crates.txt does not list {name}")));
    }
    let mut next = 0;
    while next < found.len() {
        for below in dependencies(crates_txt, &found[next]).unwrap_or_default() {
            if !found.contains(&below) {
                found.push(below);
            }
        }
        next += 1;
    }
    Ok(found)
}

/// The crates on the line of a crate.
fn dependencies(crates_txt: &str, name: &str) -> Option<Vec<String>> {
    crates_txt.lines().find_map(|line| {
        let line = line.split('#').next().unwrap_or("");
        let (listed, rest) = line.split_once(':')?;
        (listed.trim() == name).then(|| rest.split_whitespace().map(String::from).collect())
    })
}
