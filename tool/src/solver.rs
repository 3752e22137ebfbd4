//! Asking a solver. Its word is reported as its own; nothing that it prints is trusted.

use crate::failure::Failure;
use crate::numbers::{model, shortened, Model};
use crate::process::{self, End};
use crate::smt;
use std::ffi::OsStr;
use std::os::unix::fs::PermissionsExt;
use std::os::unix::process::ExitStatusExt;
use std::path::Path;
use std::process::ExitStatus;
use std::time::Duration;

/// How long a solver may take to say its version.
const VERSION_LIMIT: Duration = Duration::from_secs(10);

/// A program, and the arguments with which it reads a text from its standard input.
#[derive(Clone, Debug, PartialEq, Eq)]
pub struct Solver {
    pub name: String,
    program: String,
    arguments: Vec<String>,
}

/// What a solver says of a text.
#[derive(Clone, Debug, PartialEq, Eq)]
pub enum Answer {
    Sat(Model),
    Unsat,
    Unknown,
    Timeout,
    /// No answer, and why.
    None(String),
}

/// A question to a solver: its answer, and its reply as it came.
#[derive(Clone, Debug)]
pub struct Asked {
    pub solver: String,
    pub answer: Answer,
    pub reply: Vec<u8>,
}

/// The solvers that are known by name. With these arguments they print a model after sat, and nothing after unsat.
const KNOWN: [(&str, &[&str]); 2] = [("z3", &["-in", "-smt2", "-model"]), ("cvc5", &["--lang=smt2", "--dump-models", "-"])];

/// Those that are known by name, in the order in which they are looked for.
pub fn known() -> [Solver; 2] {
    KNOWN.map(|(name, arguments)| Solver {
        name: name.to_string(),
        program: name.to_string(),
        arguments: arguments.iter().map(|argument| argument.to_string()).collect(),
    })
}

/// The first known solver that is installed.
pub fn first_installed() -> Option<Solver> {
    known().into_iter().find(Solver::is_installed)
}

/// The solvers that are to be asked: the chosen ones, or the first that is installed.
pub fn choose(chosen: &[Solver]) -> Result<Vec<Solver>, Failure> {
    if let Some(solver) = chosen.iter().find(|solver| !solver.is_installed()) {
        return Err(Failure::Other(format!("the solver {} is not installed, or not in PATH{}", solver.name, solver.remedy())));
    }
    if !chosen.is_empty() {
        return Ok(chosen.to_vec());
    }
    first_installed().map(|solver| vec![solver]).ok_or_else(|| {
        Failure::Other("no solver is installed, or none is in PATH; on Debian: apt-get install z3 (or cvc5)".to_string())
    })
}

impl Solver {
    /// A known solver, or `both` of them.
    pub fn named(name: &str) -> Option<Vec<Solver>> {
        match name {
            "both" => Some(known().to_vec()),
            _ => known().into_iter().find(|solver| solver.name == name).map(|solver| vec![solver]),
        }
    }

    /// Any other: a program and its arguments, with white space between them.
    pub fn of_command(words: &str) -> Option<Solver> {
        let mut words = words.split_whitespace().map(str::to_string);
        let program = words.next()?;
        let name = Path::new(&program).file_name().map_or(program.clone(), |name| name.to_string_lossy().into_owned());
        Some(Solver { name: shortened(&name), program, arguments: words.collect() })
    }

    /// Whether there is a program of this name, in PATH where the name has no slash. It is not run for that: what it does is
    /// seen when it is asked.
    pub fn is_installed(&self) -> bool {
        let is_program =
            |path: &Path| path.metadata().is_ok_and(|program| program.is_file() && program.permissions().mode() & 0o111 != 0);
        if self.program.contains('/') {
            return is_program(Path::new(&self.program));
        }
        let path = std::env::var_os("PATH").unwrap_or_default();
        let found = std::env::split_paths(&path).any(|folder| is_program(&folder.join(&self.program)));
        found
    }

    fn remedy(&self) -> String {
        match known().contains(self) {
            true => format!("; on Debian: apt-get install {}", self.name),
            false => String::new(),
        }
    }

    /// Its program and arguments.
    pub fn command(&self) -> String {
        [std::slice::from_ref(&self.program), &self.arguments].concat().join(" ")
    }

    /// The first line that it prints when it is asked for its version.
    pub fn version(&self) -> String {
        let printed = process::run(OsStr::new(&self.program), &["--version"], "", Some(VERSION_LIMIT));
        let line = printed.ok().and_then(|(printed, end)| match end {
            End::Itself(status) if status.success() => String::from_utf8_lossy(&printed).lines().next().map(shortened),
            _ => None,
        });
        line.filter(|line| !line.is_empty()).unwrap_or_else(|| "unknown".to_string())
    }

    /// Asks for a model of an SMT-LIB text with this many variables, which ends by asking `(check-sat)`. The model is asked for
    /// only after sat: a solver that does not print one of itself is run once more.
    pub fn ask(&self, text: &str, variables: usize, limit: Option<Duration>) -> Asked {
        let first = self.asked(text, variables, limit);
        match first.answer {
            Answer::Sat(ref model) if model.values.len() != variables => {
                self.asked(&smt::with_model(text, variables), variables, limit).after_sat(variables)
            }
            _ => first,
        }
    }

    /// What stands where nothing came back.
    pub fn silent(&self) -> Asked {
        Asked { solver: self.name.clone(), answer: Answer::None("it was not heard".to_string()), reply: Vec::new() }
    }

    /// One run of the program. A bare sat, without a model, has no values here.
    fn asked(&self, text: &str, variables: usize, limit: Option<Duration>) -> Asked {
        let (reply, answer) = match process::run(OsStr::new(&self.program), &self.arguments, text, limit) {
            Err(error) => (Vec::new(), Answer::None(error.to_string())),
            Ok((reply, end)) => {
                let answer = answer(&String::from_utf8_lossy(&reply), variables, &end);
                (reply, answer)
            }
        };
        Asked { solver: self.name.clone(), answer, reply }
    }
}

impl Asked {
    /// The same where sat was said before, and a model was asked for.
    fn after_sat(self, variables: usize) -> Asked {
        let problem = match &self.answer {
            Answer::Sat(model) if model.values.len() != variables => "it says sat, and gives no model",
            Answer::Unsat => "it says sat, and then unsat where a model is asked for",
            Answer::Unknown => "it says sat, and then unknown where a model is asked for",
            _ => return self,
        };
        Asked { answer: Answer::None(problem.to_string()), ..self }
    }
}

/// What a reply comes to, with the way in which the program ended.
fn answer(reply: &str, variables: usize, end: &End) -> Answer {
    let (word, _) = word_and_rest(reply);
    if let End::Timeout = end {
        return Answer::Timeout;
    }
    if let Some(problem) = bad_end(word, end) {
        return Answer::None(match word {
            "" => format!("it printed nothing, and {problem}"),
            _ => format!("it printed '{}', but {problem}", shortened(word)),
        });
    }
    read(reply, variables)
}

/// The first line, and what follows it.
fn word_and_rest(reply: &str) -> (&str, &str) {
    let (word, rest) = reply.trim_start().split_once('\n').unwrap_or((reply.trim(), ""));
    (word.trim(), rest)
}

/// What the reply of a program that ended well comes to.
pub fn read(reply: &str, variables: usize) -> Answer {
    let (word, rest) = word_and_rest(reply);
    match word {
        "sat" if rest.trim().is_empty() => Answer::Sat(Model::default()),
        "sat" => match model(rest, variables) {
            Ok(model) => Answer::Sat(model),
            Err(problem) => Answer::None(problem),
        },
        "unsat" if !rest.trim().is_empty() => Answer::None(format!(
            "it printed 'unsat', and then '{}'",
            shortened(rest.trim().lines().next().unwrap_or_default())
        )),
        "unsat" => Answer::Unsat,
        "unknown" => Answer::Unknown,
        "timeout" => Answer::Timeout,
        "" => Answer::None("it printed nothing".to_string()),
        other => Answer::None(format!("it printed '{}' in place of sat or unsat", shortened(other))),
    }
}

/// Why a program that ended so has given no answer. Some solvers end with 10 after sat and with 20 after unsat.
fn bad_end(word: &str, end: &End) -> Option<String> {
    let status: &ExitStatus = match end {
        End::Itself(status) => status,
        End::Timeout => return Some("its time was up".to_string()),
        End::Stuck => return Some("it did not end".to_string()),
    };
    match (status.code(), word) {
        (Some(0), _) | (Some(10), "sat") | (Some(20), "unsat") => None,
        (Some(code), _) => Some(format!("it ended with exit status {code}")),
        (None, _) => Some(format!("it was ended by signal {}", status.signal().unwrap_or_default())),
    }
}
