//! The scripts of `scripts/`, each stored with what is answered to it.

use std::fs;
use std::path::Path;

const FOLDER: &str = concat!(env!("CARGO_MANIFEST_DIR"), "/scripts");

/// How many there are, so that a lost one is missed.
pub const COUNT: usize = 14;

pub struct Stored {
    pub name: String,
    pub script: Vec<u8>,
    pub output: Vec<u8>,
}

pub fn scripts() -> Vec<Stored> {
    let entries = fs::read_dir(FOLDER).expect("the folder of scripts");
    let mut paths: Vec<_> = entries.map(|entry| entry.expect("an entry").path()).collect();
    paths.retain(|path| path.extension().is_some_and(|extension| extension == "script"));
    paths.sort();
    assert_eq!(paths.len(), COUNT, "the scripts stored in {FOLDER}");
    paths.iter().map(|path| stored(path)).collect()
}

fn stored(path: &Path) -> Stored {
    let bytes = |path: &Path| fs::read(path).unwrap_or_else(|error| panic!("{}: {error}", path.display()));
    Stored {
        name: path.file_stem().expect("a name").to_string_lossy().into(),
        script: bytes(path),
        output: bytes(&path.with_extension("out")),
    }
}
