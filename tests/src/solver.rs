//! Asking a solver, with the text of a case as it stands. A solver that does
//! not answer in time, or has anything else to say, is an error.

use crate::program;

#[derive(Clone, Copy)]
pub struct Solver {
    pub name: &'static str,
    /// Whether the tests fail where it is missing.
    pub is_needed: bool,
    arguments: &'static [&'static str],
    asked: Asked,
}

/// How a solver is asked for the model.
#[derive(Clone, Copy)]
enum Asked {
    /// By a command after the text.
    ByCommand,
    /// By an argument: it knows no such command, prints a line for each
    /// variable, and wants to be told where the text ends.
    ByArgument(&'static str),
}

const Z3: Solver = Solver { name: "z3", is_needed: true, arguments: &["-in", "-smt2"], asked: Asked::ByCommand };
const CVC5: Solver =
    Solver { name: "cvc5", is_needed: true, arguments: &["--lang=smt2", "--produce-models", "-"], asked: Asked::ByCommand };
const CVC4: Solver = Solver { name: "cvc4", is_needed: false, ..CVC5 };
const BOOLECTOR: Solver =
    Solver { name: "boolector", is_needed: false, arguments: &["--smt2"], asked: Asked::ByArgument("--model") };

pub const ALL: [Solver; 4] = [Z3, CVC5, CVC4, BOOLECTOR];

#[derive(Debug)]
pub enum Answer {
    /// The value of each variable, in order.
    Sat(Vec<u16>),
    Unsat,
}

impl Solver {
    pub fn is_there(self) -> bool {
        program::run(self.name, &["--version"], b"").is_ok()
    }

    /// Asks a text, and for the model where it is sat. A command that asks for
    /// a model that is not there is met with a complaint, so the text is asked
    /// with it where sat is expected, and else alone first. Then whatever a
    /// solver prints beside its answer is a complaint of the text.
    pub fn ask(self, text: &str, expects_sat: bool) -> Result<Answer, String> {
        if expects_sat {
            return self.model(text);
        }
        match self.reply(&[], text, "")?.as_str() {
            "unsat\n" => Ok(Answer::Unsat),
            "sat\n" => self.model(text),
            reply => Err(format!("{} replied: {reply}", self.name)),
        }
    }

    /// What it prints, where it says nothing else.
    fn reply(self, more: &[&str], text: &str, commands: &str) -> Result<String, String> {
        let end = match self.asked {
            Asked::ByCommand => "",
            Asked::ByArgument(_) => "(exit)\n",
        };
        let arguments = [self.arguments, more].concat();
        let ended = program::run_to_end(self.name, &arguments, format!("{text}{commands}{end}").as_bytes())?;
        if !ended.said.is_empty() {
            return Err(format!("{} said: {}", self.name, String::from_utf8_lossy(&ended.said)));
        }
        String::from_utf8(ended.printed).map_err(|_| format!("what {} printed is no text", self.name))
    }

    /// Asks a text for its model.
    fn model(self, text: &str) -> Result<Answer, String> {
        let variables = text.matches("(declare-fun ").count();
        let names: Vec<String> = (0..variables).map(|variable| format!("v{variable}")).collect();
        let reply = match self.asked {
            // There is no such command without a name in it.
            Asked::ByCommand if variables == 0 => self.reply(&[], text, "")?,
            Asked::ByCommand => self.reply(&[], text, &format!("(get-value ({}))\n", names.join(" ")))?,
            Asked::ByArgument(argument) => self.reply(&[argument], text, "")?,
        };
        if reply.starts_with("unsat\n") {
            return Ok(Answer::Unsat);
        }
        let model = reply.strip_prefix("sat\n").ok_or_else(|| format!("{} replied: {reply}", self.name))?;
        Ok(Answer::Sat(read_model(model, variables)?))
    }
}

/// Reads `((v0 #x0000) (v1 #b0000000000000001) ...)`, or a line such as
/// `v0 0000000000000000` for each.
fn read_model(text: &str, variables: usize) -> Result<Vec<u16>, String> {
    let text = text.replace(['(', ')'], " ");
    let words: Vec<&str> = text.split_whitespace().collect();
    let mut numbers = Vec::new();
    for (variable, pair) in words.chunks(2).enumerate() {
        let number = match pair {
            [name, number] if *name == format!("v{variable}") => constant(number),
            _ => None,
        };
        numbers.push(number.ok_or_else(|| format!("not a model: {text}"))?);
    }
    if numbers.len() != variables {
        return Err(format!("{} values for {variables} variables", numbers.len()));
    }
    Ok(numbers)
}

fn constant(word: &str) -> Option<u16> {
    if let Some(digits) = word.strip_prefix("#x") {
        return u16::from_str_radix(digits, 16).ok();
    }
    let digits = word.strip_prefix("#b").unwrap_or(word);
    // An x is a bit that may be either.
    (digits.len() == 16).then_some(())?;
    u16::from_str_radix(&digits.replace('x', "0"), 2).ok()
}

/// The text with one more assertion, which excludes this model.
pub fn other_than(text: &str, model: &[u16]) -> Result<String, String> {
    let differs = |(variable, number)| format!(" (not (= v{variable} #x{number:04x}))");
    let differences: String = model.iter().enumerate().map(differs).collect();
    let open = text.strip_suffix("(check-sat)\n").ok_or("the text does not end with (check-sat)")?;
    Ok(format!("{open}(assert (or false{differences}))\n(check-sat)\n"))
}
