//! The repository that the packages lie in, as far as it is there: the model can also stand alone.

use std::fs;
use std::path::{Path, PathBuf};

/// Its folder: this package lies in the one of the model, and that lies in the repository.
pub fn root() -> PathBuf {
    let package = Path::new(env!("CARGO_MANIFEST_DIR"));
    package.ancestors().nth(2).unwrap_or(package).to_path_buf()
}

/// The text of a file in a folder of the repository; none if the folder is not there. A file that is missing in a
/// folder that is there is a fault.
pub fn text_of(folder: &str, file: &str) -> Option<String> {
    let folder = root().join(folder);
    let path = folder.join(file);
    folder.is_dir().then(|| {
        fs::read_to_string(&path).unwrap_or_else(|error| panic!("{}: {error}", path.display()))
    })
}
