//! The page of a filed folder, for a reader who has none of our programs.

use crate::folder::{File, Folder, CASE_SOURCE};
use crate::manifest::{self, Made, Program};

pub const NAME: &str = "README.txt";
pub const ABOUT: &str = "this page";

/// How cases, runs and constraints are laid out, as document 01 says it.
const LAYOUT: &str = include_str!("layout.txt");

const INTRODUCTION: &str = "\
A BOUNDED CHECK OF THREADED CODE, FILED BY MENDUVO

A case describes up to four threads over shared globals and mutexes. Constraints over numbers follow
from it. They can be met exactly where a legal run of the threads, in round robin and within n switches,
violates: where an assert is zero in it, or a thread unlocks a mutex that it does not hold. A solver was
asked whether they can be met. This folder has the case, the constraints, what the solver said, and what
follows from it, so that it can be read and checked again without the programs that made it.
";

const CHECKING: &str = "\
HOW TO CHECK THE FILES

In this folder, with sha256sum (GNU coreutils), or any program for SHA-256:
  sha256sum -c MANIFEST
It says whether the files are those that MANIFEST lists. It cannot say whether MANIFEST was changed
too: compare the SHA-256 of MANIFEST itself with the one that was written down elsewhere.
With menduvo, which makes again all that follows from the case and the replies, byte by byte:
  menduvo verify FOLDER
  menduvo verify FOLDER --solver z3     asks again as well
Any solver that reads SMT-LIB 2 can be asked about the *.smt2 files; one that printed no model after sat
was asked once more, with (set-option :produce-models true) before the text and (get-value (v0 v1 ..))
after it. By hand, run.txt can be followed beside show.txt where there is a run.
";

const PROVED: &str = "\
WHAT WAS PROVED, AND WHAT WAS NOT

Proved by machine, of the library's code and for all cases: that the listing has just the constraints
below; that they can be met exactly where a legal run within the bound violates, with the 8s and without
them; that constraints.smt2 is true of an assignment exactly where it meets them; and what the checker,
decoder and replayer answer. So a violation does not rest on the solver: where there is one, the assignment
was checked, decoded and replayed.
The proofs rest on their definitions, on the prover and on the front end of its toolchain.
Not proved: the solver's word where it says unsat, also where it says that an assert or unlock is never
reached; the compiler that made the library's machine code; the other texts and the picture; that the case
says what its source, or the controller, does. A run in another order of threads, or with more switches, is
outside of all this.
";

/// How a source is laid out, where one is filed.
const SOURCE: &str = "\
HOW THE SOURCE READS (case.source)

A statement stands on a line; # begins a comment. 'switches' has n. Each 'global' and 'mutex' is the next
one, from 0, with its name, and with a global's initial value. Each 'thread' begins the next thread, from
0; 'local X = L3' names its local 3, and a local without a name is L and its number. Every other statement
is a line of that thread. Its record is the one before it in the text and 1, beginning with 1, unless
'record 7:' before it says otherwise. 'when X != 0:' or 'when X == 0:' is its guard. 'X = input' is kind 4;
'X = Y' with a local X and a global Y is kind 3; other lines with = are kind 1, or kind 2 where a global
stands before it; 'assert', 'assume', 'lock' and 'unlock' are kinds 5 to 8. The signs + - & | == < are ops
1 to 6; without one the op is 0. A number is the constant c.
";

/// The page, from the files that stand before it and the head of the list.
pub fn text(folder: &Folder) -> String {
    let made = &folder.manifest.made;
    let has_source = folder.files.iter().any(|file| file.name == CASE_SOURCE);
    let sections = [
        INTRODUCTION.to_string(),
        format!("The answer: {}. verdict.txt says what it means, and what it does not mean.\n", folder.manifest.answer),
        format!("THE FILES\n\n{}", files(folder)),
        CHECKING.to_string(),
        PROVED.to_string(),
        if has_source { format!("{SOURCE}\n{LAYOUT}") } else { LAYOUT.to_string() },
        format!("WHAT IT WAS MADE WITH\n\n{}", made_with(made)),
        format!("WHAT WAS GIVEN, AND DOES NOT FOLLOW FROM THE OTHER FILES (SHA-256)\n\n{}", given(folder)),
    ];
    sections.join("\n")
}

fn files(folder: &Folder) -> String {
    let list = (manifest::NAME, "what this was made with, what was asked, and the SHA-256 of each other file");
    let others = folder.files.iter().map(|file| (file.name.as_str(), file.about.as_str()));
    let all: Vec<(&str, &str)> = [list].into_iter().chain(others).chain([(NAME, ABOUT)]).collect();
    let width = all.iter().map(|(name, _)| name.len()).max().unwrap_or(0);
    all.iter().map(|(name, about)| format!("{name:width$}  {about}\n")).collect()
}

fn made_with(made: &Made) -> String {
    let Made { version, commit, library, command, solvers } = made;
    let mut text = format!(
        "menduvo {version}, of commit {commit}\nits library libmenduvo.a, which has SHA-256\n  {library}\nthe command\n  {command}\n"
    );
    for Program { name, version, command } in solvers {
        text.push_str(&format!("the solver {name}, which says of itself: {version}\n  called as: {command}\n"));
    }
    text
}

fn given(folder: &Folder) -> String {
    folder
        .files
        .iter()
        .filter(|file| file.given)
        .map(File::entry)
        .map(|entry| format!("{}  {}\n", entry.hash, entry.name))
        .collect()
}
