//! The commands of a run by hand, one a line, from a terminal or over a pipe. What comes over a pipe is printed where a terminal
//! would show it, so that what is printed reads the same.

use crate::failure::Failure;
use crate::numbers::{decimal, shortened, uncommented};
use crate::output::Output;
use std::io::{self, BufRead, IsTerminal, Read, StdinLock};

pub enum Order {
    /// A line of a thread.
    Line(usize),
    /// All lines that a thread has left.
    Rest(usize),
    Switch,
    Undo,
    Values,
    Schedule,
    Help,
    Quit,
}

impl Order {
    pub fn of(text: &str) -> Result<Order, String> {
        let words: Vec<&str> = text.split_whitespace().collect();
        Ok(match words.as_slice() {
            ["rest", thread] => Order::Rest(decimal(thread)?.into()),
            ["switch"] => Order::Switch,
            ["undo"] => Order::Undo,
            ["values"] => Order::Values,
            ["schedule"] => Order::Schedule,
            ["help"] => Order::Help,
            ["quit"] => Order::Quit,
            [thread] if thread.bytes().all(|byte| byte.is_ascii_digit()) => Order::Line(decimal(thread)?.into()),
            _ => return Err(format!("'{}' is not a command; 'help' lists them", shortened(text))),
        })
    }
}

/// The most bytes of a line, which is more than any command has: an endless line ends too.
const MOST_LINE_BYTES: u64 = 4096;

pub struct Orders {
    input: StdinLock<'static>,
    is_terminal: bool,
    /// How many lines were read.
    line: usize,
}

impl Orders {
    pub fn standard() -> Orders {
        Orders { input: io::stdin().lock(), is_terminal: io::stdin().is_terminal(), line: 0 }
    }

    /// The next line that has something in it, without its comment; nothing where the input ends.
    pub fn next(&mut self, output: &mut Output) -> Result<Option<String>, Failure> {
        loop {
            if self.is_terminal {
                output.say("> ")?;
            }
            let mut bytes = Vec::new();
            let read = (&mut self.input).take(MOST_LINE_BYTES).read_until(b'\n', &mut bytes);
            if read.map_err(|error| Failure::Other(format!("standard input: {error}")))? == 0 {
                // The next text must not stand behind the prompt.
                output.say(if self.is_terminal { "\n" } else { "" })?;
                return Ok(None);
            }
            self.line += 1;
            let text = String::from_utf8_lossy(&bytes);
            let text = uncommented(&text).trim();
            if !text.is_empty() {
                if !self.is_terminal {
                    output.say(&format!("> {}\n", shortened(text)))?;
                }
                return Ok(Some(text.to_string()));
            }
        }
    }

    /// Says what is wrong with the line that was read last. At a terminal another one can be typed; a script's other lines may
    /// mean something else without this one, so there it is the end.
    pub fn refuse(&self, problem: &str, output: &mut Output) -> Result<(), Failure> {
        match self.is_terminal {
            true => output.say(&format!("{problem}\n")),
            false => Err(Failure::Other(format!(
                "standard input, line {}: {problem}\n  It ends here, without a schedule.",
                self.line
            ))),
        }
    }
}
