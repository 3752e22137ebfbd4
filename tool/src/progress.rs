//! On a terminal, one line that says what is at work; it is written over, so it must not be wider than the terminal. Progress that
//! cannot be printed is no failure.

use crate::words::count;
use std::fs::File;
use std::io::{stderr, IsTerminal, Write};
use std::process::{Command, Stdio};

pub struct Progress {
    /// The terminal's columns; none where standard error is no terminal.
    width: Option<usize>,
    cases: usize,
    done: usize,
    at_work: Vec<String>,
}

impl Progress {
    pub fn new(cases: usize) -> Progress {
        let width = stderr().is_terminal().then(|| terminal_width().unwrap_or(80));
        Progress { width, cases, done: 0, at_work: Vec::new() }
    }

    pub fn at_work_on(&mut self, name: &str) {
        self.at_work.push(name.to_string());
        self.print();
    }

    pub fn done_with(&mut self, name: &str) {
        self.done += 1;
        if let Some(place) = self.at_work.iter().position(|other| other == name) {
            self.at_work.remove(place);
        }
        self.print();
    }

    /// Makes room for a line of the output.
    pub fn clear(&self) {
        if self.width.is_some() {
            let _ = write!(stderr(), "\r\x1b[K");
        }
    }

    fn print(&self) {
        let Some(width) = self.width else { return };
        let text =
            format!("{} of {} done; at work: {}", self.done, count(self.cases, "case", "cases"), self.at_work.join(", "));
        // The last column is left free: some terminals go on to the next line after it.
        let _ = write!(stderr(), "\r\x1b[K{}", fitting(&text, width.saturating_sub(1)));
    }
}

/// The text, cut where it may be too wide: a sign that is not ASCII may take two columns.
fn fitting(text: &str, width: usize) -> String {
    let columns = |sign: char| if sign.is_ascii() { 1 } else { 2 };
    if text.chars().map(columns).sum::<usize>() <= width {
        return text.to_string();
    }
    let mut used = 2;
    let fits = |sign: &char| {
        used += columns(*sign);
        used <= width
    };
    text.chars().take_while(fits).chain("..".chars().take(width)).collect()
}

/// The standard library does not tell; `stty` does, of the terminal that it is given.
fn terminal_width() -> Option<usize> {
    let terminal = File::open("/dev/tty").ok()?;
    let size = Command::new("stty").arg("size").stdin(terminal).stderr(Stdio::null()).output().ok()?;
    let columns = String::from_utf8(size.stdout).ok()?.split_whitespace().nth(1)?.parse().ok()?;
    (columns > 0).then_some(columns)
}
