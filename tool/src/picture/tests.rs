//! Pictures of many runs: nothing leaves its cell or its page, no text stands on another, and every line is told.

use super::Picture;
use crate::calls::Ending;
use crate::case::Case;
use crate::names::Name;
use crate::run::Run;
use crate::walk::{walk, Event};
use std::ffi::OsStr;

/// Numbers that look like chance, and are the same in every run.
struct Dice(u64);

impl Dice {
    fn below(&mut self, limit: usize) -> usize {
        self.0 = self.0.wrapping_mul(6364136223846793005).wrapping_add(1442695040888963407);
        (self.0 >> 33) as usize % limit
    }

    fn between(&mut self, least: usize, most: usize) -> usize {
        least + self.below(most - least + 1)
    }
}

/// A record's kind, guard, target, op, a, b and c, of those that a case may have.
fn line(dice: &mut Dice, globals: usize, mutexes: usize) -> [usize; 7] {
    let guard = [0, dice.between(1, 32)][usize::from(dice.below(3) == 0)];
    let (local, op, constant) = (dice.below(16), dice.below(7), dice.below(65536));
    let kinds = [1, 1, 1, 2, 3, 4, 5, 6, 7, 8];
    match kinds[dice.below(10)] {
        2 if globals > 0 => [2, guard, dice.below(globals), op, dice.below(17), dice.below(17), constant],
        3 if globals > 0 => [3, guard, local, 0, dice.below(globals), 0, 0],
        4 => [4, guard, local, 0, 0, 0, 0],
        5 => [5, guard, 0, op, dice.below(17), dice.below(17), constant],
        6 => [6, guard, 0, 4, dice.below(17), 16, 1],
        7 if mutexes > 0 && dice.below(4) == 0 => [7, guard, dice.below(mutexes), 0, 0, 0, 0],
        8 if mutexes > 0 => [8, guard, dice.below(mutexes), 0, 0, 0, 0],
        _ => [1, guard, local, op, dice.below(17), dice.below(17), constant],
    }
}

fn case(dice: &mut Dice) -> Case {
    let (threads, switches) = (dice.between(2, 4), dice.below(16));
    let (globals, mutexes) = (dice.below(9), dice.below(5));
    let most = [1, 8, 15, 64][dice.below(4)];
    let lines: Vec<usize> = (0..threads).map(|_| dice.between(0, most)).collect();
    let mut header = vec![threads, switches, globals, mutexes, 0, 0, 0, 0];
    header.extend((0..8).map(|global| if global < globals { 9 } else { 0 }));
    let mut records = Vec::new();
    for (thread, &lines) in lines.iter().enumerate() {
        header[4 + thread] = if lines > 0 { records.len() / 8 + 1 } else { 0 };
        for left in (0..lines).rev() {
            records.push(if left > 0 { records.len() / 8 + 2 } else { 0 });
            records.extend(line(dice, globals, mutexes));
        }
    }
    let bytes = header.into_iter().chain(records).flat_map(|field| (field as u16).to_le_bytes());
    let mut case = Case::of(bytes.collect()).expect("a case of an allowed size");
    give_names(&mut case, dice);
    case
}

/// No names, or long ones.
fn give_names(case: &mut Case, dice: &mut Dice) {
    let length = [0, 0, 12, 32][dice.below(4)];
    let locals = (0..4).flat_map(|thread| (0..16).map(move |local| Name::Local(thread, local)));
    let items = (0..8).map(Name::Global).chain((0..4).map(Name::Mutex));
    for name in locals.chain(items).filter(|_| length > 0) {
        let parts = ["upper_gate_", "waterlevelofthelowerbasin", "x"][dice.below(3)];
        let word: String = parts.chars().cycle().take(length - 3).collect();
        case.names.give(name, &format!("{word}_{}", name.plain()));
    }
}

/// A schedule in which the threads that have blocks run all their lines, or stop early.
fn schedule(case: &Case, dice: &mut Dice) -> Vec<u16> {
    let mut schedule = vec![0; case.switches + 1];
    for (thread, chain) in case.chains.iter().enumerate() {
        let blocks = case.blocks_of(thread);
        let used = blocks.len().min(dice.between(1, 6));
        let most = if dice.below(4) == 0 { dice.below(chain.len() + 1) } else { chain.len() };
        (0..most).filter(|_| used > 0).for_each(|_| schedule[blocks[dice.below(used)]] += 1);
    }
    schedule.extend(case.inputs().iter().map(|_| dice.below(65536) as u16));
    schedule
}

/// What is drawn at a place: its left and right edge, its upper and lower edge, and its text if it has one.
#[derive(Clone, Debug, Default)]
struct Drawn {
    across: (f64, f64),
    down: (f64, f64),
    text: String,
}

impl Drawn {
    fn holds(&self, inner: &Drawn) -> bool {
        let holds = |(from, to): (f64, f64), (least, most): (f64, f64)| from <= least && most <= to;
        holds(self.across, inner.across) && holds(self.down, inner.down)
    }

    fn meets(&self, other: &Drawn) -> bool {
        let meet = |(from, to): (f64, f64), (least, most): (f64, f64)| from < most && least < to;
        meet(self.across, other.across) && meet(self.down, other.down)
    }

    /// Whether the text of this begins there.
    fn begins_in(&self, place: &Drawn) -> bool {
        let (x, y) = (self.across.0, self.down.0);
        place.across.0 <= x && x < place.across.1 && place.down.0 <= y && y < place.down.1
    }
}

fn attribute(element: &str, name: &str) -> Option<f64> {
    let (_, rest) = element.split_once(&format!(" {name}=\""))?;
    rest.split_once('"')?.0.trim_end_matches("mm").parse().ok()
}

/// The frames of cells in a page: all that have an edge, but the lanes, the samples of the legend and the columns' heads.
fn cells(svg: &str) -> Vec<Drawn> {
    let is_cell = |line: &&str| line.starts_with("<rect x=") && line.contains("stroke=") && !line.contains("#f4f4f4");
    let is_large = |line: &&str| attribute(line, "height") != Some(14.0) && !line.contains("stroke=\"black\"/>");
    svg.lines().filter(is_cell).filter(is_large).map(rectangle).collect()
}

fn rectangle(line: &str) -> Drawn {
    let [x, y, width, height] = ["x", "y", "width", "height"].map(|name| attribute(line, name).unwrap_or(0.0));
    Drawn { across: (x, x + width), down: (y, y + height), text: String::new() }
}

/// The lines of text in a page, as wide as in a common font; and each text as a whole.
fn texts(svg: &str) -> (Vec<Drawn>, Vec<String>) {
    let (mut lines, mut wholes) = (Vec::new(), Vec::new());
    for element in svg.lines().filter(|line| line.starts_with("<text ")) {
        let mut whole = String::new();
        for piece in element.trim_end_matches("</text>").replace("</tspan>", "").split("<t").skip(1) {
            let (tag, text) = piece.split_once('>').expect("a tag ends");
            let text = text.replace("&lt;", "<").replace("&gt;", ">").replace("&quot;", "\"").replace("&amp;", "&");
            whole.push_str(&text);
            lines.extend((!text.trim().is_empty()).then(|| line_of_text(element, tag, text.trim_end())));
        }
        wholes.push(whole);
    }
    (lines, wholes)
}

fn line_of_text(element: &str, tag: &str, text: &str) -> Drawn {
    let size = attribute(element, "font-size").unwrap_or(0.0);
    let (x, y) = (attribute(tag, "x").unwrap_or(0.0), attribute(tag, "y").unwrap_or(0.0));
    let width = text.chars().count() as f64 * size * 0.602;
    let left = if element.contains("text-anchor=\"end\"") { x - width } else { x };
    Drawn { across: (left, left + width), down: (y - size * 0.75, y + size * 0.2), text: text.to_string() }
}

/// How many lines of the run a text stands for: a cell begins with its record, one of folded lines has their count.
fn lines_told(text: &str) -> usize {
    let Some((records, rest)) = text.split_once(": ") else {
        return 0;
    };
    match rest.split_once(" lines folded") {
        Some((count, _)) => count.parse().unwrap_or(0),
        None => usize::from(records.parse::<u16>().is_ok()),
    }
}

fn assert_is_in_order(svg: &str, threads: usize, about: &str) {
    let size = ["width", "height"].map(|name| attribute(svg, name).unwrap_or(f64::MAX));
    let (least, most) = (size[0].min(size[1]), size[0].max(size[1]));
    assert!(least <= 184.0 && most <= 270.0, "{about}: {size:?} is no page of A4");
    let page = svg.lines().find(|line| line.starts_with("<rect width=")).map(rectangle).unwrap_or_default();
    let smallest = svg.lines().filter_map(|line| attribute(line, "font-size")).fold(f64::MAX, f64::min);
    let points = smallest * size[0] / page.across.1 * 72.0 / 25.4;
    assert!(points >= 7.0, "{about}: a text of {points} points");
    let (cells, (lines, wholes)) = (cells(svg), texts(svg));
    for cell in &cells {
        assert!(page.holds(cell), "{about}: {cell:?} leaves the page");
        assert_eq!(cells.iter().filter(|other| cell.meets(other)).count(), 1, "{about}: cells meet at {cell:?}");
    }
    for text in &lines {
        assert!(page.holds(text), "{about}: '{}' leaves the page", text.text);
        assert_eq!(lines.iter().filter(|other| text.meets(other)).count(), 1, "{about}: texts meet at '{}'", text.text);
        for cell in cells.iter().filter(|cell| text.begins_in(cell)) {
            assert!(cell.holds(text), "{about}: '{}' leaves its cell", text.text);
        }
    }
    for thread in 0..threads {
        assert_eq!(wholes.iter().filter(|text| **text == format!("thread {thread}")).count(), 1, "{about}: heads");
    }
}

#[test]
fn many_runs() {
    let mut dice = Dice(7);
    let (mut lanes, mut several, mut stopped, mut strangers) = (0, 0, 0, 0);
    for number in 0..600 {
        let case = case(&mut dice);
        let walk = walk(&case, &schedule(&case, &mut dice));
        let run = Run { ending: walk.ending, items: walk.items, steps: walk.steps };
        let name = ["a", "a rather_long-name <&> of a case ".repeat(9).as_str()][dice.below(2)].to_string();
        let files = Picture::of(&case, &name, &run).files(OsStr::new("run.svg"));
        let mut told = Vec::new();
        for (file, svg) in &files {
            assert_is_in_order(svg, case.threads, &format!("case {number}, {file:?}"));
            told.extend(texts(svg).1);
        }
        assert_eq!(told.iter().map(|text| lines_told(text)).sum::<usize>(), run.steps.len(), "case {number}: lines");
        let not_run = run.not_run_in_words(&case);
        assert!(not_run.iter().all(|words| told.iter().any(|text| text.contains(words))), "case {number}: {not_run:?}");
        stopped += usize::from(!not_run.is_empty() && !matches!(run.ending, Ending::CutOff(_)));
        let strange = run.steps.iter().filter(|step| matches!(step.event, Event::Stranger(..))).count();
        let told_of = told.iter().filter(|text| text.contains("STRANGER: ")).count();
        assert_eq!(told_of, strange, "case {number}: strangers");
        strangers += usize::from(strange > 0);
        lanes += usize::from(files.iter().any(|(_, svg)| svg.contains("#f4f4f4")));
        several += usize::from(files.len() > 1);
    }
    // There were enough of each kind.
    assert!(lanes > 100 && several > 100, "{lanes} in lanes, {several} of several pages");
    assert!(stopped > 100 && strangers > 100, "{stopped} that stop, {strangers} with strangers");
}
