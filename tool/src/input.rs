//! Reading files. `-` is standard input. Nothing is read beyond what could be of use, so that an endless input ends too.

use crate::case::set_switches;
use crate::failure::Failure;
use crate::name::shown;
use crate::source::{self, Draft};
use std::ffi::{OsStr, OsString};
use std::fs::File;
use std::io::{self, Read};
use std::path::Path;

/// The most bytes of a text with numbers: a model of the largest case has about a tenth of it.
const MOST_TEXT_BYTES: usize = 1 << 20;
/// The most bytes of a file that is kept as it is.
const MOST_FILE_BYTES: usize = 1 << 26;

/// Where an input comes from; and of a case the n that it gets in the place of its own, where one was chosen.
#[derive(Clone, Debug, PartialEq, Eq)]
pub struct Source(OsString, Option<u16>);

impl Source {
    pub fn new(argument: &OsStr) -> Source {
        Source(argument.to_os_string(), None)
    }

    /// The same input, as a case with this n.
    pub fn with_switches(self, switches: Option<u16>) -> Source {
        Source(self.0, switches)
    }

    /// The n that was chosen.
    pub fn switches(&self) -> Option<u16> {
        self.1
    }

    /// The name for messages, and the n that was chosen.
    pub fn name_and_bound(&self) -> String {
        match self.1 {
            None => self.name(),
            Some(switches) => format!("{} with n = {switches}", self.name()),
        }
    }

    pub fn is_standard_input(&self) -> bool {
        self.0 == "-"
    }

    /// The name for messages.
    pub fn name(&self) -> String {
        match self.is_standard_input() {
            true => "standard input".to_string(),
            false => shown(&self.0),
        }
    }

    /// What files that are made from this one are named after: its own name, byte by byte, without folder and ending, and with
    /// the n that was chosen, so that the answers at several n stand beside each other.
    pub fn stem(&self) -> OsString {
        let stem = Path::new(&self.0).file_stem().filter(|_| !self.is_standard_input());
        let mut stem = stem.unwrap_or_else(|| OsStr::new("case")).to_os_string();
        if let Some(switches) = self.1 {
            stem.push(format!("-n{switches}"));
        }
        stem
    }

    pub fn is_folder(&self) -> bool {
        !self.is_standard_input() && Path::new(&self.0).is_dir()
    }

    pub fn path(&self) -> &OsStr {
        &self.0
    }

    /// A case: its bytes, or the source that they are made from. Of bytes that are too many, one more than the longest case has:
    /// enough for the library to refuse it. Where an n was chosen, the case is no longer what the source says.
    pub fn case(&self) -> Result<Draft, Failure> {
        let mut draft = self.draft()?;
        if let Some(switches) = self.1 {
            set_switches(&mut draft.bytes, switches);
            draft.source = None;
        }
        Ok(draft)
    }

    fn draft(&self) -> Result<Draft, Failure> {
        let mut bytes = self.read(source::MOST_BYTES + 1)?;
        if !source::is_text(&bytes) {
            let no_source = source::no_source(&bytes);
            bytes.truncate(menduvo::MOST_CASE_BYTES + 1);
            return Ok(Draft { no_source, ..Draft::of_bytes(bytes) });
        }
        let text = String::from_utf8(bytes).unwrap_or_default();
        let most = source::MOST_BYTES;
        match text.len() > most {
            true => Err(Failure::Refused(format!("{}: over {most} bytes of text, which is no case", self.name()))),
            false => source::read(&text).map_err(|problem| problem.failure(&self.name(), &text)),
        }
    }

    /// The text of an assignment or a schedule.
    pub fn text(&self) -> Result<String, Failure> {
        let bytes = self.read(MOST_TEXT_BYTES + 1)?;
        if bytes.len() > MOST_TEXT_BYTES {
            return Err(Failure::Refused(format!(
                "{}: over {MOST_TEXT_BYTES} bytes, which is no list of numbers and no model of a case",
                self.name()
            )));
        }
        String::from_utf8(bytes)
            .map_err(|_| Failure::Refused(format!("{}: not text: numbers, or a solver's model, are expected", self.name())))
    }

    /// The bytes of a file that is kept as it is.
    pub fn bytes(&self) -> Result<Vec<u8>, Failure> {
        let bytes = self.read(MOST_FILE_BYTES + 1)?;
        match bytes.len() > MOST_FILE_BYTES {
            true => Err(Failure::Other(format!("{}: over {MOST_FILE_BYTES} bytes, the most that is kept", self.name()))),
            false => Ok(bytes),
        }
    }

    fn read(&self, most: usize) -> Result<Vec<u8>, Failure> {
        let read = match self.is_standard_input() {
            true => read_at_most(io::stdin().lock(), most),
            false => File::open(&self.0).and_then(|file| read_at_most(file, most)),
        };
        read.map_err(|error| Failure::Other(format!("{}: {error}", self.name())))
    }
}

/// The bytes of a plain file that was kept, or why they cannot be had: a link may lead elsewhere, and a pipe may never end.
pub fn plain_file(path: &Path) -> Result<Vec<u8>, String> {
    let found = path.symlink_metadata().map_err(|error| error.to_string())?;
    if !found.is_file() {
        return Err("it is not a plain file".to_string());
    }
    let read = File::open(path).and_then(|file| read_at_most(file, MOST_FILE_BYTES + 1));
    match read.map_err(|error| error.to_string())? {
        bytes if bytes.len() > MOST_FILE_BYTES => Err(format!("it has over {MOST_FILE_BYTES} bytes")),
        bytes => Ok(bytes),
    }
}

fn read_at_most(from: impl Read, most: usize) -> io::Result<Vec<u8>> {
    let mut bytes = Vec::new();
    from.take(most as u64).read_to_end(&mut bytes)?;
    Ok(bytes)
}
