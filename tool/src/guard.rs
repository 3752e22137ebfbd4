//! A solver dies with the command, and so does what the solver started. A command that is killed can end nothing any more, and the
//! standard library sends no signal to a group of processes. So a shell stands beside the command, and is told each group that
//! there is; where it is told no more, the command is gone, and it kills the groups that are left.

use std::io::{self, Write};
use std::os::unix::process::CommandExt;
use std::process::{ChildStdin, Command, Stdio};
use std::sync::{Mutex, PoisonError};

/// `+ GROUP` names a group, `- GROUP` has it killed.
const SCRIPT: &str = "\
groups=' '
while read -r sign group; do
    case $sign in
    +) groups=\"$groups$group \" ;;
    -) groups=\"${groups%% $group *} ${groups#* $group }\"; kill -9 \"-$group\" ;;
    esac
done
for group in $groups; do kill -9 \"-$group\"; done
";

static SHELL: Mutex<Option<ChildStdin>> = Mutex::new(None);

/// A group of processes that ends where this is dropped, or where the command ends.
pub struct Guarded {
    group: u32,
}

impl Guarded {
    /// The process must be the first of a group of its own.
    pub fn group_of(process: u32) -> io::Result<Guarded> {
        tell('+', process)?;
        Ok(Guarded { group: process })
    }
}

impl Drop for Guarded {
    fn drop(&mut self) {
        // A shell that is gone has killed the group.
        let _ = tell('-', self.group);
    }
}

fn tell(sign: char, group: u32) -> io::Result<()> {
    let mut shell = SHELL.lock().unwrap_or_else(PoisonError::into_inner);
    let line = format!("{sign} {group}\n");
    if shell.as_mut().is_some_and(|input| input.write_all(line.as_bytes()).is_ok()) {
        return Ok(());
    }
    // There is none yet, or somebody ended it.
    let input = start()?;
    shell.insert(input).write_all(line.as_bytes())
}

/// In a group of its own, so that an interrupt from the keyboard does not reach it.
fn start() -> io::Result<ChildStdin> {
    let mut shell = Command::new("/bin/sh");
    shell.args(["-c", SCRIPT]).process_group(0);
    let child = shell.stdin(Stdio::piped()).stdout(Stdio::null()).stderr(Stdio::null()).spawn()?;
    child.stdin.ok_or_else(|| io::Error::other("the shell that ends solvers cannot be told anything"))
}
