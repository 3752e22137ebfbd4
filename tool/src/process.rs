//! One run of a solver's program: it is given a text, and what it prints is read until it ends or its time is up.

use crate::guard::Guarded;
use std::ffi::OsStr;
use std::io::{self, Read, Write};
use std::os::unix::process::CommandExt;
use std::process::{Child, ChildStdin, ChildStdout, Command, ExitStatus, Stdio};
use std::sync::mpsc::{self, Receiver, RecvTimeoutError};
use std::thread;
use std::time::{Duration, Instant};

/// The most bytes of a reply: a model of the largest case has about a hundredth of it.
const MOST_REPLY_BYTES: u64 = 4 << 20;

/// How often it is looked whether a program that prints nothing has ended.
const LOOK: Duration = Duration::from_millis(20);

/// How long a program that ended may leave its pipe to another before the reply is taken as it is.
const SILENCE: Duration = Duration::from_millis(100);

/// How long a program that closed its output may go on.
const PATIENCE: Duration = Duration::from_secs(2);

/// How a program ended.
pub enum End {
    Itself(ExitStatus),
    /// Its time was up.
    Timeout,
    /// It closed its output, or printed more than any reply has, and did not end.
    Stuck,
}

/// Becomes a program, once it is told to go on. A command that is killed before it has told the guard of it tells it nothing.
const WAITING: &str = "read -r go && exec \"$@\"";

/// Of a small case a solver spends most of its time on memory that it is given page by page; so the C library of GNU is told to ask
/// for large pages. It changes nothing else.
const LARGE_PAGES: (&str, &str) = ("GLIBC_TUNABLES", "glibc.malloc.hugetlb=1");

/// Runs a program on a text. It and all that it started is gone where this returns.
pub fn run<A: AsRef<OsStr>>(
    program: &OsStr,
    arguments: &[A],
    text: &str,
    limit: Option<Duration>,
) -> io::Result<(Vec<u8>, End)> {
    let deadline = limit.map(|limit| Instant::now() + limit);
    let mut command = Command::new("/bin/sh");
    command.args(["-c", WAITING, "sh"]).arg(program).args(arguments);
    if std::env::var_os(LARGE_PAGES.0).is_none() {
        command.env(LARGE_PAGES.0, LARGE_PAGES.1);
    }
    let mut child = command.stdin(Stdio::piped()).stdout(Stdio::piped()).process_group(0).spawn()?;
    let guarded = Guarded::group_of(child.id());
    let (input, output) = (child.stdin.take(), child.stdout.take());
    let heard = guarded.is_ok().then(|| {
        write(input, format!("\n{text}"));
        hear(&mut child, &read(output), deadline)
    });
    let ended = heard.as_ref().is_some_and(|(_, end)| matches!(end, End::Itself(_)));
    if !ended {
        let _ = child.kill();
        let _ = child.wait();
    }
    drop(guarded?);
    heard.ok_or_else(|| io::Error::other("it was not started"))
}

/// Aside, as a program may print before it has read everything, or never read.
fn write(input: Option<ChildStdin>, text: String) {
    thread::spawn(move || {
        if let Some(mut input) = input {
            // A solver that does not read to the end is found out by its reply.
            let _ = input.write_all(text.as_bytes());
        }
    });
}

/// What is printed, piece by piece; nothing more comes after the end, or after too much.
fn read(output: Option<ChildStdout>) -> Receiver<Vec<u8>> {
    let (sender, receiver) = mpsc::channel();
    thread::spawn(move || {
        let Some(output) = output else { return };
        let mut output = output.take(MOST_REPLY_BYTES);
        let mut piece = vec![0; 1 << 16];
        while let Ok(length @ 1..) = output.read(&mut piece) {
            if sender.send(piece[..length].to_vec()).is_err() {
                return;
            }
        }
    });
    receiver
}

fn hear(child: &mut Child, pieces: &Receiver<Vec<u8>>, deadline: Option<Instant>) -> (Vec<u8>, End) {
    let mut reply = Vec::new();
    let mut exited: Option<(ExitStatus, Instant)> = None;
    loop {
        let wait = deadline.map_or(LOOK, |deadline| LOOK.min(deadline.saturating_duration_since(Instant::now())));
        match pieces.recv_timeout(wait) {
            Ok(piece) => reply.extend(piece),
            Err(RecvTimeoutError::Disconnected) => return (reply, last_wait(child, deadline)),
            Err(RecvTimeoutError::Timeout) => {}
        }
        match exited {
            Some((status, since)) if since.elapsed() > SILENCE => return (reply, End::Itself(status)),
            Some(_) => {}
            None => exited = child.try_wait().ok().flatten().map(|status| (status, Instant::now())),
        }
        if exited.is_none() && deadline.is_some_and(|deadline| deadline <= Instant::now()) {
            return (reply, End::Timeout);
        }
    }
}

/// Where a program has closed its output it has no more to say, and should end.
fn last_wait(child: &mut Child, deadline: Option<Instant>) -> End {
    let patience = Instant::now() + PATIENCE;
    let mut pause = Duration::from_micros(50);
    loop {
        if let Ok(Some(status)) = child.try_wait() {
            return End::Itself(status);
        }
        let now = Instant::now();
        if deadline.is_some_and(|deadline| deadline <= now) {
            return End::Timeout;
        }
        if patience <= now {
            return End::Stuck;
        }
        thread::sleep(pause);
        pause = (pause * 2).min(LOOK);
    }
}
