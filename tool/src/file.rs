//! `menduvo file`: a check as a folder that can be read and checked again later. A folder is whole or not there: it is made under
//! another name beside its place, and renamed at the end.

use crate::calls::Loaded;
use crate::failure::{note, Failure, Status};
use crate::folder::{one_line, Check, Folder, CASE};
use crate::input::Source;
use crate::manifest::{Made, Program, NAME};
use crate::name::shown;
use crate::output::Output;
use crate::quote;
use crate::sha256;
use crate::solve::{solve, Asking, Settings};
use crate::words::count;
use std::ffi::{OsStr, OsString};
use std::fs::{self, File, OpenOptions};
use std::io::Write;
use std::path::{Path, PathBuf};

/// `file`, as it was called.
pub struct Filing {
    pub case: Source,
    pub folder: OsString,
    /// What the case was made from.
    pub source: Option<Source>,
    pub settings: Settings,
}

pub fn file(filing: &Filing, output: &mut Output) -> Result<Status, Failure> {
    let place = place(&filing.folder)?;
    let mut loaded = Loaded::from(&filing.case)?;
    let source = filing.source.as_ref().map(Source::bytes).transpose()?;
    let asking = filing.settings.asking(false)?;
    let unfinished = Unfinished::beside(&place)?;
    let name = std::mem::replace(&mut loaded.name, CASE.to_string());
    let solved = solve(&loaded, &asking, &mut |_| {})?;
    let made = made(&asking);
    let folder = Folder::of(&Check { loaded: &loaded, source, solved: &solved, made: &made })?;
    let manifest = folder.manifest.text();
    let answer = format!("{name}: {}: {}", solved.word(), solved.note(&loaded));
    if let Err(failure) = unfinished.become_whole(&folder, &manifest, &place) {
        // A solver's hours are not lost with the folder.
        note(&format!("{answer}; IT IS NOT FILED"));
        return Err(failure);
    }
    output.say(&format!(
        "{answer}\nfiled in {}: {} and {NAME}\nSHA-256 of {NAME}, to be written down elsewhere:\n{}\n",
        shown(&filing.folder),
        count(folder.files.len(), "file", "files"),
        sha256::hex(manifest.as_bytes())
    ))?;
    Status::of(solved.status(false))
}

/// Where the folder will be: nothing may be there, not even a link that leads nowhere.
fn place(folder: &OsStr) -> Result<PathBuf, Failure> {
    let path = Path::new(folder);
    // Without a slash at the end, which would follow a link.
    let path = match (path.parent(), path.file_name()) {
        (Some(parent), Some(name)) => parent.join(name),
        _ => path.to_path_buf(),
    };
    match path.symlink_metadata() {
        Ok(_) => Err(Failure::Other(format!("{} is there already; a check is filed in a new folder", shown(folder)))),
        Err(_) if path.file_name().is_none() => Err(Failure::Other(format!("'{}' is no name for a folder", shown(folder)))),
        Err(_) => Ok(path),
    }
}

/// What the folder is made with.
fn made(asking: &Asking) -> Made {
    let solvers = asking.solvers.iter().map(|solver| Program {
        name: one_line(&solver.name),
        version: one_line(&solver.version()),
        command: one_line(&solver.command()),
    });
    let arguments: Vec<OsString> = std::iter::once("menduvo".into()).chain(std::env::args_os().skip(1)).collect();
    Made { command: quote::line(&arguments), solvers: solvers.collect(), ..this_command() }
}

/// What is known of this command itself. Its commit is compiled in where it is built to be installed; else the script that starts
/// it tells it, which knows of commits that came after the build.
pub fn this_command() -> Made {
    let compiled = option_env!("MENDUVO_BUILD_COMMIT").unwrap_or_default();
    let commit = match compiled.is_empty() {
        true => std::env::var("MENDUVO_COMMIT").unwrap_or_default(),
        false => compiled.to_string(),
    };
    Made {
        version: env!("CARGO_PKG_VERSION").to_string(),
        commit: one_line(&commit),
        library: env!("MENDUVO_LIBRARY_SHA256").to_string(),
        ..Made::default()
    }
}

/// `menduvo --version`, in one line.
pub fn version() -> String {
    let Made { version, commit, library, .. } = this_command();
    format!("menduvo {version} (commit {commit}, library SHA-256 {library})\n")
}

/// A folder that is not whole yet. It goes where it is not renamed.
struct Unfinished(PathBuf);

impl Unfinished {
    fn beside(place: &Path) -> Result<Unfinished, Failure> {
        let mut name = place.file_name().unwrap_or_default().to_os_string();
        name.push(format!(".unfinished-{}", std::process::id()));
        let path = place.with_file_name(name);
        fs::create_dir(&path).map_err(|error| Failure::of_file(&path, &error))?;
        Ok(Unfinished(path))
    }

    fn become_whole(self, folder: &Folder, manifest: &str, place: &Path) -> Result<(), Failure> {
        for file in &folder.files {
            self.write(&file.name, &file.bytes)?;
        }
        self.write(NAME, manifest.as_bytes())?;
        self.rename(place)
    }

    /// Writes a file to the disk itself, so that the folder is not renamed before it is whole.
    fn write(&self, name: &str, bytes: &[u8]) -> Result<(), Failure> {
        let path = self.0.join(name);
        let opened = OpenOptions::new().write(true).create_new(true).open(&path);
        let written = opened.and_then(|mut file| file.write_all(bytes).and_then(|()| file.sync_all()));
        written.map_err(|error| Failure::of_file(&path, &error))
    }

    fn rename(self, place: &Path) -> Result<(), Failure> {
        // Renaming would replace an empty folder that has come meanwhile.
        if place.symlink_metadata().is_ok() {
            return Err(Failure::Other(format!("{} has come while solvers were asked", shown(place.as_os_str()))));
        }
        let synced = File::open(&self.0).and_then(|folder| folder.sync_all());
        synced.and_then(|()| fs::rename(&self.0, place)).map_err(|error| Failure::of_file(place, &error))
    }
}

impl Drop for Unfinished {
    fn drop(&mut self) {
        // After renaming nothing is there under this name. What cannot be removed says by its name what it is.
        let _ = fs::remove_dir_all(&self.0);
    }
}
