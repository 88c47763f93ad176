//! `yavrinks confine`: prints what the proved program `confine` prints, and tells a refusal by its status
//! too, which a program of that language cannot.

use std::ffi::OsString;
use std::fs::File;

use crate::fault::Fault;
use crate::standard;
use crate::Answer;

const HELP: &str = "\
Usage: yavrinks confine [FILE]

Which objects can a subsystem ever influence, if its members hold no more over
others than a list says, wk alone not counted? Reads from FILE, or from standard
input: an image of version 1, which has 1,923 bytes, the members (8 bytes, bit n for
object n, the most significant byte first), a count byte, and 2 bytes (target,
rights) for each entry of the list. Prints `accepted` and then those objects, one
number a line; or `refused N`.

An image of another version is refused: `refused 15` at any version byte but 1, once
the input has its right length. Version 2 is longer, so that an input with such an
image is most often `refused 17`.

What a member holds over an object outside with wk alone (rights 4) needs no entry.
All else that it holds outside needs every right listed, wk too where it is beside
others (rights 5, 6, 12): `refused 12` if one is missing.

The exit status is 0 for accepted, 1 for refused, and 2 where nothing was decided
or the answer could not be printed: then a message is on standard error.
";

pub fn run(words: &[OsString]) -> Result<Answer, Fault> {
    let input = match words {
        [] => standard::read(captable::CONFINE_BYTES as u64)?,
        [word] if word == "--help" || word == "-h" => return crate::say(HELP),
        // A file whose name begins with a dash is given as ./-name.
        [file] if !file.as_encoded_bytes().starts_with(b"-") => read_file(file)?,
        _ => return Err(Fault::usage("confine takes at most one FILE", HELP)),
    };
    let printed = captable::confine(&input);
    standard::print(printed.as_bytes())?;
    if printed.is_accepted() {
        Ok(Answer::Yes)
    } else {
        Ok(Answer::No)
    }
}

fn read_file(name: &OsString) -> Result<Vec<u8>, Fault> {
    File::open(name)
        .and_then(|file| standard::read_some(file, captable::CONFINE_BYTES as u64))
        .map_err(|why| Fault::reading(name.to_string_lossy(), why))
}
