//! Running a program that reads its input and prints its answer, such as a
//! solver. Waiting for it has an end.

use std::io::{Read, Write};
use std::process::{Command, Stdio};
use std::sync::mpsc;
use std::thread;
use std::time::Duration;

/// The most that one run may take.
const TIME_LIMIT: Duration = Duration::from_secs(20);

/// What the program prints when it is given this input. A program that cannot
/// be started, or does not end in time, is an error.
pub fn run(name: &str, arguments: &[&str], input: &[u8]) -> Result<String, String> {
    let mut command = Command::new(name);
    command.args(arguments).stdin(Stdio::piped()).stdout(Stdio::piped()).stderr(Stdio::null());
    let started = command.spawn();
    let mut child = started.map_err(|error| format!("{name} cannot be started: {error}"))?;
    let mut to_child = child.stdin.take().expect("piped above");
    let mut from_child = child.stdout.take().expect("piped above");
    let input = input.to_vec();
    let (sender, receiver) = mpsc::channel();
    // Writing and reading are done aside, so that waiting can have an end.
    let talk = thread::spawn(move || {
        let mut printed = Vec::new();
        // A program that stops reading early is judged by what it prints.
        let _ = to_child.write_all(&input);
        drop(to_child);
        let _ = from_child.read_to_end(&mut printed);
        let _ = sender.send(printed);
    });
    let printed = receiver.recv_timeout(TIME_LIMIT);
    // By now it has closed its output or is over time. (A program of its own
    // that it started may still hold the output; nobody waits for that.)
    let _ = child.kill();
    let _ = child.wait();
    if printed.is_ok() {
        let _ = talk.join();
    }
    let printed = printed.map_err(|_| format!("{name} did not answer within {TIME_LIMIT:?}"))?;
    String::from_utf8(printed).map_err(|_| format!("what {name} printed is no text"))
}

/// How a program ended, and what it wrote to its two outputs.
pub struct Ended {
    pub status: Option<i32>,
    pub printed: Vec<u8>,
    pub said: Vec<u8>,
}

/// Runs a program that ends by itself once it has closed its outputs, and that
/// says little enough for a pipe.
pub fn run_to_end(name: &str, arguments: &[&str], input: &[u8]) -> Result<Ended, String> {
    let mut command = Command::new(name);
    command.args(arguments).stdin(Stdio::piped()).stdout(Stdio::piped()).stderr(Stdio::piped());
    let mut child = command.spawn().map_err(|error| format!("{name} cannot be started: {error}"))?;
    let mut to_child = child.stdin.take().expect("piped above");
    let mut from_child = child.stdout.take().expect("piped above");
    let mut errors = child.stderr.take().expect("piped above");
    let input = input.to_vec();
    let (sender, receiver) = mpsc::channel();
    thread::spawn(move || {
        let (mut printed, mut said) = (Vec::new(), Vec::new());
        let _ = to_child.write_all(&input);
        drop(to_child);
        let _ = from_child.read_to_end(&mut printed);
        let _ = errors.read_to_end(&mut said);
        let _ = sender.send((printed, said));
    });
    let talked = receiver.recv_timeout(TIME_LIMIT);
    if talked.is_err() {
        let _ = child.kill();
    }
    let status = child.wait().map_err(|error| error.to_string())?.code();
    let (printed, said) = talked.map_err(|_| format!("{name} did not answer within {TIME_LIMIT:?}"))?;
    Ok(Ended { status, printed, said })
}
