//! A filed folder as it is found. Nothing outside of it is read, whatever its list names, and nothing is written.

use crate::failure::Failure;
use crate::input::plain_file;
use crate::manifest::{Manifest, NAME};
use crate::name::shown;
use std::ffi::OsStr;
use std::fs;
use std::path::Path;

pub struct Kept {
    pub manifest: Manifest,
    /// The list, as it is there.
    pub list: String,
    /// The files of the list with their bytes, or why these cannot be had.
    files: Vec<(String, Result<Vec<u8>, String>)>,
    /// The names of what else is in the folder.
    pub others: Vec<String>,
}

impl Kept {
    pub fn read(folder: &OsStr) -> Result<Kept, Failure> {
        let path = Path::new(folder);
        let place = path.join(NAME);
        let named = |problem: String| Failure::Other(format!("{}: {problem}", shown(place.as_os_str())));
        let missed = |problem: String| named(format!("{problem}; a folder that 'menduvo file' made has one"));
        let list = String::from_utf8(plain_file(&place).map_err(missed)?).map_err(|_| named("not text".to_string()))?;
        let manifest = Manifest::read(&list).map_err(named)?;
        let names = manifest.files.iter().map(|entry| entry.name.clone());
        let files = names.map(|name| (name.clone(), plain_file(&path.join(name)))).collect();
        let others = others(path, &manifest)?;
        Ok(Kept { manifest, list, files, others })
    }

    /// The bytes of a file of the list.
    pub fn bytes(&self, name: &str) -> Result<&[u8], String> {
        match self.files.iter().find(|(other, _)| other == name) {
            Some((_, Ok(bytes))) => Ok(bytes),
            Some((_, Err(problem))) => Err(problem.clone()),
            None => Err(format!("{NAME} does not list it")),
        }
    }
}

/// What is in the folder and not in its list, by name.
fn others(folder: &Path, manifest: &Manifest) -> Result<Vec<String>, Failure> {
    let named = |error: std::io::Error| Failure::of_file(folder, &error);
    let mut others = Vec::new();
    for entry in fs::read_dir(folder).map_err(named)? {
        let name = shown(&entry.map_err(named)?.file_name());
        if name != NAME && !manifest.has(&name) {
            others.push(name);
        }
    }
    others.sort();
    Ok(others)
}
