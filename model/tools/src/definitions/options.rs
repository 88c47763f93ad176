//! The options of the command.

use super::draw::Counts;
use crate::repository;
use std::path::PathBuf;

#[derive(Clone, Debug, PartialEq, Eq)]
pub struct Options {
    pub seed: u64,
    pub counts: Counts,
    /// Where the copy of the repository is made and kept. None: in a temporary folder, which is
    /// removed if all went well.
    pub keep: Option<PathBuf>,
    /// The repository.
    pub root: PathBuf,
}

impl Default for Options {
    /// The package lies in the repository whose definitions it checks.
    fn default() -> Options {
        Options {
            seed: 1,
            counts: Counts::default(),
            keep: None,
            root: repository::root(),
        }
    }
}

impl Options {
    /// Reads pairs of an option and its value.
    pub fn parse(words: &[&str]) -> Result<Options, String> {
        let mut options = Options::default();
        for pair in words.chunks(2) {
            let [name, value] = pair else {
                return Err(format!("{} needs a value", pair[0]));
            };
            match *name {
                "--seed" => options.seed = number(name, value)?,
                "--runs" => options.counts.runs = number(name, value)?,
                "--rounds" => options.counts.rounds = number(name, value)?,
                "--imports" => options.counts.imports = number(name, value)?,
                "--tests" => options.counts.tests = number(name, value)?,
                "--steps" => options.counts.steps = number(name, value)?,
                "--images" => options.counts.images = number(name, value)?,
                "--keep" => options.keep = Some(value.into()),
                "--root" => options.root = value.into(),
                _ => return Err(format!("unknown option {name}")),
            }
        }
        Ok(options)
    }
}

fn number<T: std::str::FromStr>(name: &str, value: &str) -> Result<T, String> {
    value
        .parse()
        .map_err(|_| format!("{name} needs a number, and {value} is none"))
}
