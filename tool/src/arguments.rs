//! From the command's arguments to what is to be done.

use crate::case::MOST_SWITCHES;
use crate::failure::Failure;
use crate::file::Filing;
use crate::help::{named, Page};
use crate::input::Source;
use crate::keep::Keep;
use crate::name::shown;
use crate::several::is_several;
use crate::solve::{About, Settings, Wanted};
use crate::solver::Solver;
use crate::step::Stepping;
use crate::verified::Verifying;
use std::ffi::{OsStr, OsString};
use std::os::unix::ffi::OsStrExt;
use std::time::Duration;

pub enum Call {
    Help(Option<&'static Page>),
    Manual,
    Completion,
    Version,
    Demo,
    Make { source: Source, file: OsString, force: bool },
    Source { case: Source },
    List { cases: Vec<Source>, words: bool, json: bool },
    Smt { case: Source, file: Option<OsString>, force: bool },
    Show { cases: Vec<Source>, json: bool },
    Check { case: Source, assignment: Source, json: bool },
    Decode { case: Source, assignment: Source },
    Replay { case: Source, schedule: Source, values: bool, json: bool },
    Fill { case: Source, schedule: Source, json: bool },
    Step(Stepping),
    Solve(Wanted),
    Picture { case: Source, schedule: Source, file: OsString, force: bool },
    File(Filing),
    Verify(Verifying),
}

/// What follows a command's name.
struct Parts {
    page: &'static Page,
    operands: std::vec::IntoIter<Source>,
    options: Vec<(&'static str, OsString)>,
}

pub fn parse(arguments: &[OsString]) -> Result<Call, Failure> {
    let Some((first, rest)) = arguments.split_first() else {
        return Ok(Call::Help(None));
    };
    match first.to_str() {
        Some("help") if rest.is_empty() => return Ok(Call::Help(None)),
        Some("--help" | "-h") => return Ok(Call::Help(None)),
        Some("--version" | "-V" | "version") => return Ok(Call::Version),
        _ => {}
    }
    let name = Source::new(first).name();
    let page = named(&name).ok_or_else(|| Failure::Other(format!("there is no command '{name}'; see 'menduvo help'")))?;
    match split(page, rest)? {
        None => Ok(Call::Help(Some(page))),
        Some(mut parts) => {
            let call = call(&mut parts)?;
            match parts.operands.next() {
                Some(extra) if extra.path().as_bytes().iter().all(u8::is_ascii_digit) => Err(usage(
                    page,
                    &format!("'{}' is too much: numbers come from one file, or from standard input by '-'", extra.name()),
                )),
                Some(extra) => Err(usage(page, &format!("'{}' is too much", extra.name()))),
                None => Ok(call),
            }
        }
    }
}

/// Splits what follows the command's name; nothing where its help is asked for.
fn split(page: &'static Page, arguments: &[OsString]) -> Result<Option<Parts>, Failure> {
    let mut operands: Vec<Source> = Vec::new();
    let mut options: Vec<(&'static str, OsString)> = Vec::new();
    let mut rest = arguments.iter();
    let mut open = true;
    while let Some(argument) = rest.next() {
        if !open || argument == "-" || !argument.as_bytes().starts_with(b"-") {
            operands.push(Source::new(argument));
            continue;
        }
        let (name, attached) = name_and_value(argument);
        match name.to_str() {
            Some("--") => {
                open = false;
                continue;
            }
            Some("--help" | "-h") => return Ok(None),
            _ => {}
        }
        let Some(option) = page.options.iter().find(|option| OsStr::new(option.name) == name) else {
            return Err(usage(page, &format!("there is no option '{}'", Source::new(name).name())));
        };
        let value = match (option.value.is_empty(), attached) {
            (true, None) => OsString::new(),
            (true, Some(_)) => return Err(usage(page, &format!("{} takes no value", option.name))),
            (false, Some(value)) => value.to_os_string(),
            (false, None) => rest.next().cloned().ok_or_else(|| usage(page, &format!("{} needs a value", option.name)))?,
        };
        if options.iter().any(|(name, _)| *name == option.name) {
            return Err(usage(page, &format!("{} is given twice", option.name)));
        }
        options.push((option.name, value));
    }
    if operands.iter().filter(|source| source.is_standard_input()).count() > 1 {
        return Err(usage(page, "only one input can be standard input"));
    }
    Ok(Some(Parts { page, operands: operands.into_iter(), options }))
}

/// `--name=value`, or an option without a value.
fn name_and_value(argument: &OsStr) -> (&OsStr, Option<&OsStr>) {
    let bytes = argument.as_bytes();
    match bytes.iter().position(|&byte| byte == b'=') {
        Some(place) => (OsStr::from_bytes(&bytes[..place]), Some(OsStr::from_bytes(&bytes[place + 1..]))),
        None => (argument, None),
    }
}

fn call(parts: &mut Parts) -> Result<Call, Failure> {
    Ok(match parts.page.name {
        "demo" => Call::Demo,
        "make" => Call::Make { source: parts.next("SOURCE")?, file: parts.output("CASE")?, force: parts.has("--force") },
        "source" => Call::Source { case: parts.next("CASE")? },
        "list" => Call::List { cases: parts.cases()?, words: parts.has("--words"), json: parts.has("--json") },
        "smt" => smt(parts)?,
        "show" => Call::Show { cases: parts.cases()?, json: parts.has("--json") },
        "check" => Call::Check { case: parts.case()?, assignment: parts.next("ASSIGNMENT")?, json: parts.has("--json") },
        "decode" => Call::Decode { case: parts.case()?, assignment: parts.next("ASSIGNMENT")? },
        "replay" => Call::Replay {
            case: parts.case()?,
            schedule: parts.next("SCHEDULE")?,
            values: parts.has("--values"),
            json: parts.has("--json"),
        },
        "fill" => Call::Fill { case: parts.case()?, schedule: parts.next("SCHEDULE")?, json: parts.has("--json") },
        "step" => Call::Step(stepping(parts)?),
        "solve" => Call::Solve(wanted(parts)?),
        "picture" => Call::Picture {
            case: parts.case()?,
            schedule: parts.next("SCHEDULE")?,
            file: parts.output("FILE.svg")?,
            force: parts.has("--force"),
        },
        "file" => Call::File(filing(parts)?),
        "verify" => Call::Verify(verifying(parts)?),
        _ => help(parts)?,
    })
}

fn help(parts: &mut Parts) -> Result<Call, Failure> {
    match (parts.has("--man"), parts.has("--bash-completion")) {
        (true, true) => Err(parts.usage("--man and --bash-completion exclude each other")),
        (true, false) => Ok(Call::Manual),
        (false, true) => Ok(Call::Completion),
        (false, false) => {
            let command = parts.next("COMMAND")?.name();
            let page = named(&command).ok_or_else(|| parts.usage(&format!("there is no command '{command}'")))?;
            Ok(Call::Help(Some(page)))
        }
    }
}

fn smt(parts: &mut Parts) -> Result<Call, Failure> {
    let (case, file, force) = (parts.case()?, parts.value("-o"), parts.has("--force"));
    match (&file, force) {
        (Some(file), _) if file.is_empty() => Err(parts.usage("-o FILE is missing")),
        (None, true) => Err(parts.usage("--force needs -o")),
        _ => Ok(Call::Smt { case, file, force }),
    }
}

/// Why nothing is kept where one line is asked about.
const OF_ONE: &str = "what is kept is the answer of a case, and not that of one line";

/// Options of `solve` that exclude each other, and why.
const EXCLUDED: [(&str, &str, &str); 6] = [
    ("--assert", "--each", "the one is about a record, the other about all"),
    ("--assert", "--keep", OF_ONE),
    ("--assert", "--resume", OF_ONE),
    ("--each", "--keep", OF_ONE),
    ("--each", "--resume", OF_ONE),
    ("--short", "--resume", "a run that is filed stays as it is"),
];

fn wanted(parts: &mut Parts) -> Result<Wanted, Failure> {
    let (cases, about) = (parts.cases()?, parts.about()?);
    if about != About::All && is_several(&cases) {
        return Err(parts.usage("--assert and --each take one case"));
    }
    if let Some((one, other, why)) = EXCLUDED.iter().find(|(one, other, _)| parts.has(one) && parts.has(other)) {
        return Err(parts.usage(&format!("{one} and {other} exclude each other: {why}")));
    }
    Ok(Wanted {
        cases,
        settings: settings(parts)?,
        jobs: parts.jobs()?,
        keep: parts.keep()?,
        strict: parts.has("--strict"),
        json: parts.has("--json"),
        least: parts.least()?,
        about,
        short: parts.has("--short"),
    })
}

fn stepping(parts: &mut Parts) -> Result<Stepping, Failure> {
    let (case, file) = (parts.case()?, parts.value("-o"));
    if case.is_standard_input() {
        return Err(parts.usage("CASE cannot be standard input: the commands are read from there"));
    }
    if file.as_ref().is_some_and(|file| file.is_empty() || file == "-") {
        return Err(parts.usage("-o needs a file's name; of one that is named '-' it is ./-"));
    }
    if parts.has("--force") && file.is_none() {
        return Err(parts.usage("--force needs -o"));
    }
    Ok(Stepping { case, file, force: parts.has("--force") })
}

fn filing(parts: &mut Parts) -> Result<Filing, Failure> {
    let (case, folder) = (parts.next("CASE")?, parts.folder()?);
    let source = parts.value("--source").map(|file| Source::new(&file));
    if case.is_standard_input() && source.as_ref().is_some_and(Source::is_standard_input) {
        return Err(parts.usage("only one input can be standard input"));
    }
    Ok(Filing { case, folder, source, settings: settings(parts)? })
}

fn verifying(parts: &mut Parts) -> Result<Verifying, Failure> {
    let asks = parts.has("--solver") || parts.has("--solver-command");
    if parts.has("--timeout") && !asks {
        return Err(parts.usage("--timeout needs --solver or --solver-command"));
    }
    let settings = settings(parts)?;
    Ok(Verifying { folder: parts.folder()?, settings: asks.then_some(settings), json: parts.has("--json") })
}

/// Whom to ask, and how long.
fn settings(parts: &Parts) -> Result<Settings, Failure> {
    Ok(Settings { solvers: parts.solvers()?, limit: parts.limit()? })
}

impl Parts {
    fn usage(&self, problem: &str) -> Failure {
        usage(self.page, problem)
    }

    fn next(&mut self, what: &str) -> Result<Source, Failure> {
        self.operands.next().ok_or_else(|| usage(self.page, &format!("{what} is missing")))
    }

    /// The operand that names a folder.
    fn folder(&mut self) -> Result<OsString, Failure> {
        let folder = self.next("DIR")?;
        match folder.is_standard_input() || folder.path().is_empty() {
            true => Err(self.usage("DIR is a folder's name; of one that is named '-' it is ./-")),
            false => Ok(folder.path().to_os_string()),
        }
    }

    /// The file of -o.
    fn output(&self, what: &str) -> Result<OsString, Failure> {
        let file = self.value("-o").filter(|file| !file.is_empty());
        file.ok_or_else(|| self.usage(&format!("-o {what} is missing")))
    }

    /// The operand that is a case, with the n that was chosen.
    fn case(&mut self) -> Result<Source, Failure> {
        Ok(self.next("CASE")?.with_switches(self.number("--switches")?))
    }

    /// All operands, at least one, with the n that was chosen.
    fn cases(&mut self) -> Result<Vec<Source>, Failure> {
        let (first, switches) = (self.case()?, self.number("--switches")?);
        let others = self.operands.by_ref().map(|case| case.with_switches(switches));
        Ok(std::iter::once(first).chain(others).collect())
    }

    /// The value of an option that takes a number of 16 bits.
    fn number(&self, name: &str) -> Result<Option<u16>, Failure> {
        let Some(text) = self.text(name) else {
            return Ok(None);
        };
        match text.parse() {
            Ok(number) if text.bytes().all(|byte| byte.is_ascii_digit()) => Ok(Some(number)),
            _ => Err(self.usage(&format!("{name} needs a number from 0 to 65535, and not '{text}'"))),
        }
    }

    fn has(&self, name: &str) -> bool {
        self.value(name).is_some()
    }

    fn value(&self, name: &str) -> Option<OsString> {
        self.options.iter().find(|(option, _)| *option == name).map(|(_, value)| value.clone())
    }

    /// An option's value as it is shown, which is the value itself where it is plain.
    fn text(&self, name: &str) -> Option<String> {
        self.value(name).map(|value| shown(&value))
    }

    /// The chosen solvers; none where none is chosen.
    fn solvers(&self) -> Result<Vec<Solver>, Failure> {
        match (self.text("--solver"), self.value("--solver-command")) {
            (Some(_), Some(_)) => Err(self.usage("--solver and --solver-command exclude each other")),
            (Some(name), None) => {
                let unknown = || format!("'{name}' is not a solver that this command knows; --solver-command takes any other");
                Solver::named(&name).ok_or_else(|| self.usage(&unknown()))
            }
            (None, Some(words)) => {
                let solver = words.to_str().and_then(Solver::of_command);
                Ok(vec![solver.ok_or_else(|| self.usage("--solver-command names no program"))?])
            }
            (None, None) => Ok(Vec::new()),
        }
    }

    /// The seconds of --timeout: nothing where it is not given, and `Some(None)` where it is 0.
    fn limit(&self) -> Result<Option<Option<Duration>>, Failure> {
        let Some(text) = self.text("--timeout") else {
            return Ok(None);
        };
        let plain = text.bytes().all(|byte| byte.is_ascii_digit() || byte == b'.');
        match text.parse::<f64>() {
            Ok(seconds) if plain && seconds <= 1e9 => Ok(Some((seconds > 0.0).then(|| Duration::from_secs_f64(seconds)))),
            _ => Err(self.usage(&format!("--timeout needs seconds, 0 for none, and not '{text}'"))),
        }
    }

    /// The n up to which --least looks: that of --switches, or the largest.
    fn least(&self) -> Result<Option<u16>, Failure> {
        let most = self.number("--switches")?.unwrap_or(MOST_SWITCHES);
        match self.has("--least") {
            true if most > MOST_SWITCHES => {
                Err(self.usage(&format!("--least looks up to n = {MOST_SWITCHES}, the largest of a case, and not to {most}")))
            }
            least => Ok(least.then_some(most)),
        }
    }

    fn about(&self) -> Result<About, Failure> {
        let all = if self.has("--each") { About::Each } else { About::All };
        Ok(self.number("--assert")?.map_or(all, About::One))
    }

    fn jobs(&self) -> Result<usize, Failure> {
        let Some(text) = self.text("--jobs") else {
            return Ok(1);
        };
        match text.parse::<usize>() {
            Ok(jobs @ 1..=1024) if text.bytes().all(|byte| byte.is_ascii_digit()) => Ok(jobs),
            _ => Err(self.usage(&format!("--jobs needs a number from 1 to 1024, and not '{text}'"))),
        }
    }

    fn keep(&self) -> Result<Option<Keep>, Failure> {
        let force = self.has("--force");
        let (folder, resume) = match (self.value("--keep"), self.value("--resume")) {
            (Some(_), Some(_)) => return Err(self.usage("--keep and --resume exclude each other")),
            (Some(folder), None) => (folder, false),
            (None, Some(folder)) => (folder, true),
            (None, None) if force => return Err(self.usage("--force needs --keep or --resume")),
            (None, None) => return Ok(None),
        };
        match folder.is_empty() {
            true => Err(self.usage(&format!("{} needs the name of a folder", if resume { "--resume" } else { "--keep" }))),
            false => Ok(Some(Keep { folder, force, resume })),
        }
    }
}

fn usage(page: &Page, problem: &str) -> Failure {
    Failure::Other(format!("{problem}\nusage: menduvo {}\n'menduvo {} --help' says more", page.usage, page.name))
}
