//! `solve --short`: a run worth showing. Solvers are asked for runs that use fewer switches, then for such with fewer blocks that
//! have lines, then with fewer lines, then for smaller inputs, the first one first. A question is the case's own with wishes beside
//! the constraints: what is found is checked, decoded and replayed by the library as ever, and measured, so a wish decides nothing.
//! That there is no shorter run is the solvers' word. It is about all runs, and not about those that keep the rule alone: one with each
//! invisible line in the block of the line before it is no longer (`rule`).

use crate::calls::Loaded;
use crate::case::Case;
use crate::json::{list, Json};
use crate::smt;
use crate::solve::{verdict, Ask, Found, Verdict};
use crate::wishes;
use crate::words::{count, enumeration};

/// The most questions that are asked for a shorter run: a few for switches, blocks and lines, and at most about 20 for an input.
const MOST_QUESTIONS: usize = 64;

/// How many times larger than what is too small the next number may be that is asked about.
const STRIDE: u16 = 16;

/// How long a run is: the switches that are used, which is the number of the last block with lines; the blocks with lines; the lines;
/// and then each input's value. The first number counts most.
type Length = Vec<u16>;

/// The place of the switches in a length.
const SWITCHES: usize = 0;
/// The place of the blocks with lines.
const BLOCKS: usize = 1;
/// The place of the lines.
const LINES: usize = 2;
/// The place of the first input.
const INPUTS: usize = 3;

/// How short a run was made.
#[derive(Clone, Debug)]
pub struct Short {
    length: Length,
    /// That of the run that was found first.
    before: Length,
    questions: usize,
    /// Why a shorter one may be there.
    stopped: Option<String>,
}

/// What came of the question for a shorter run.
enum Asked {
    Shorter,
    None,
    NotKnown(String),
}

struct Search<'a> {
    loaded: &'a Loaded,
    /// The case's own question.
    text: &'a str,
    asking: &'a dyn Ask,
    best: Box<Found>,
    wishes: Vec<String>,
    questions: usize,
}

/// The verdict with a short run in the place of the one that was found to the question of this text.
pub fn shortened(loaded: &Loaded, text: &str, asking: &dyn Ask, verdict: Verdict) -> Verdict {
    let Verdict::Violated(best) = verdict else {
        return verdict;
    };
    let before = length(&loaded.case, &best.schedule);
    let mut search = Search { loaded, text, asking, best, wishes: Vec::new(), questions: 0 };
    let stopped = (0..before.len()).try_for_each(|place| search.make_least(place)).err();
    let Search { best, questions, .. } = search;
    let length = length(&loaded.case, &best.schedule);
    Verdict::Violated(Box::new(Found { short: Some(Short { length, before, questions, stopped }), ..*best }))
}

fn length(case: &Case, schedule: &[u16]) -> Length {
    let (lengths, inputs) = schedule.split_at(case.switches + 1);
    let used = lengths.iter().rposition(|&length| length != 0).unwrap_or(0);
    let blocks = lengths.iter().filter(|&&length| length != 0).count();
    [&[used as u16, blocks as u16, lengths.iter().sum()], inputs].concat()
}

/// What a number of a length is at least, in every run that violates: it runs one of the asserts or unlocks that are asked about, and
/// all lines of its thread before it.
fn least(loaded: &Loaded, place: usize) -> u16 {
    let lines = loaded.lines().into_iter().filter_map(|record| loaded.case.position(record));
    let least = match place {
        SWITCHES => lines.map(|(thread, _)| thread).min(),
        BLOCKS => Some(1),
        LINES => lines.map(|(_, line)| line).min(),
        _ => None,
    };
    least.unwrap_or(0) as u16
}

/// The wish that a number of a length is at most this.
fn wish(loaded: &Loaded, place: usize, most: u16) -> String {
    match place {
        SWITCHES => wishes::blocks_up_to(&loaded.case, most),
        BLOCKS => wishes::blocks_with_lines_at_most(&loaded.case, most),
        LINES => wishes::lines_at_most(&loaded.case, most),
        input => wishes::input_at_most(loaded, loaded.case.inputs()[input - INPUTS], most),
    }
}

impl Search<'_> {
    fn length(&self) -> Length {
        length(&self.loaded.case, &self.best.schedule)
    }

    /// Makes one number of the length as small as it can be, where those before it stay so. The failure says why it may be smaller.
    fn make_least(&mut self, place: usize) -> Result<(), String> {
        let mut low = least(self.loaded, place);
        loop {
            let high = self.length()[place];
            if low >= high {
                break;
            }
            // The middle; but small numbers first, among which the least ones mostly are.
            let most = (low + (high - 1 - low) / 2).min(low.saturating_mul(STRIDE));
            match self.ask(place, most) {
                Asked::Shorter => {}
                Asked::None => low = most + 1,
                Asked::NotKnown(why) => return Err(why),
            }
        }
        self.wishes.push(wish(self.loaded, place, self.length()[place]));
        Ok(())
    }

    fn ask(&mut self, place: usize, most: u16) -> Asked {
        if self.questions == MOST_QUESTIONS {
            return Asked::NotKnown(format!("{MOST_QUESTIONS} questions are the most that are asked"));
        }
        self.questions += 1;
        let wishes = [self.wishes.as_slice(), &[wish(self.loaded, place, most)]].concat();
        let asked = self.asking.ask(&smt::with_wishes(self.text, &wishes), self.loaded.table.variables);
        match verdict(self.loaded, &asked) {
            Verdict::Violated(found) => {
                let (new, old) = (length(&self.loaded.case, &found.schedule), self.length());
                if new[..place] > old[..place] || new[place] > most {
                    return Asked::NotKnown(format!("the run of {} is not as short as was asked", found.solver));
                }
                self.best = found;
                Asked::Shorter
            }
            Verdict::Unsat => Asked::None,
            other => Asked::NotKnown(other.message().lines().next().unwrap_or_default().to_string()),
        }
    }
}

impl Short {
    /// `3 of 7 switches used, 4 blocks with lines, 9 of 20 lines run, inputs 0 1`.
    pub fn words(&self, case: &Case) -> String {
        words(&self.length, case)
    }

    /// What was gained, and whose word it is that no run is shorter.
    pub fn text(&self, case: &Case, solvers: &[&str]) -> String {
        let questions = count(self.questions, "more question", "more questions");
        let rests = match &self.stopped {
            Some(why) => format!("a shorter one may be there: {why}"),
            None if self.questions == 0 => "no run can be shorter".to_string(),
            None => format!("that none is shorter is the word of {}", enumeration(solvers)),
        };
        let before = match self.before == self.length {
            true => "as it was found".to_string(),
            false => format!("as it was found first: {}", words(&self.before, case)),
        };
        format!("short: {}\n  {before}\n  {questions}; {rests}\n", self.words(case))
    }

    pub fn object(&self) -> Json {
        Json::Object(vec![
            ("switches", self.length[SWITCHES].into()),
            ("blocks", self.length[BLOCKS].into()),
            ("lines", self.length[LINES].into()),
            ("inputs", list(self.length[INPUTS..].iter().copied())),
            ("questions", self.questions.into()),
            ("shortest", self.stopped.is_none().into()),
        ])
    }
}

fn words(length: &Length, case: &Case) -> String {
    let blocks = count(usize::from(length[BLOCKS]), "block with lines", "blocks with lines");
    let bound = count(case.switches, "switch", "switches");
    let lines = count(case.records.len(), "line", "lines");
    let inputs = match &length[INPUTS..] {
        [] => String::new(),
        [input] => format!(", input {input}"),
        inputs => format!(", inputs {}", inputs.iter().map(u16::to_string).collect::<Vec<_>>().join(" ")),
    };
    format!("{} of {bound} used, {blocks}, {} of {lines} run{inputs}", length[SWITCHES], length[LINES])
}
