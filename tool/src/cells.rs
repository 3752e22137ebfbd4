//! The cells of a picture: what a line says there and how it looks. What is told by colour is told without it too, for print and
//! for a copier: by a bar, a frame or a word.

use crate::case::Case;
use crate::run::Run;
use crate::sha256;
use crate::svg::{Style, Svg};
use crate::walk::{Event, Step};
use crate::words::item_value;

pub const PLAIN: Style = Style { size: 12, colour: "black", bold: false };
pub const SMALL: Style = Style { size: 11, colour: "#222222", bold: false };
pub const FAINT: Style = Style { size: 11, colour: "#555555", bold: false };
pub const HEAD: Style = Style { size: 13, colour: "black", bold: true };
pub const TITLE: Style = Style { size: 16, ..HEAD };

/// The width of the bar at the left of a shared cell.
const BAR: u32 = 5;
/// From a cell's left edge to its text, past the bar.
pub const INDENT: u32 = BAR + 4;

/// How a cell looks.
#[derive(Clone, Copy, Debug, PartialEq, Eq, PartialOrd, Ord)]
pub enum Look {
    Plain,
    Shared,
    Skipped,
    Folded,
    CutOff,
    Broken,
    Stranger,
}

impl Look {
    pub fn of(case: &Case, step: &Step) -> Look {
        match step.event {
            Event::Broken(_) => Look::Broken,
            Event::Stranger(..) => Look::Stranger,
            Event::CutOff(_) => Look::CutOff,
            Event::Skipped(_) => Look::Skipped,
            _ if is_shared(case, step) => Look::Shared,
            _ => Look::Plain,
        }
    }

    /// The frame of a cell, with the bar of a shared one.
    pub fn frame(self, svg: &mut Svg, place: [u32; 4], is_shared: bool) {
        let (fill, more) = match self {
            Look::Plain => ("white", "stroke=\"#555555\""),
            Look::Shared => ("#dfe8f5", "stroke=\"#555555\""),
            Look::Skipped => ("white", "stroke=\"#666666\" stroke-dasharray=\"3 3\""),
            Look::Folded => ("#eeeeee", "stroke=\"#888888\""),
            Look::CutOff => ("white", "stroke=\"black\" stroke-width=\"3\" stroke-dasharray=\"8 4\""),
            Look::Broken | Look::Stranger => ("#b00000", "stroke=\"black\" stroke-width=\"3\""),
        };
        svg.rectangle(place, fill, more);
        let [x, y, width, height] = place;
        if is_shared {
            svg.rectangle([x, y, BAR, height], "black", "");
        }
        if self == Look::Folded {
            let edges = [y + 2, y + height - 2];
            edges.into_iter().for_each(|y| svg.line((x, y), (x + width, y), "stroke=\"#888888\""));
        }
    }

    /// A text of a cell, in its look.
    pub fn style(self, style: Style) -> Style {
        match self {
            Look::Broken | Look::Stranger => Style { colour: "white", bold: true, ..style },
            Look::CutOff => Style { colour: "black", bold: true, ..style },
            Look::Skipped => Style { colour: FAINT.colour, ..style },
            Look::Plain | Look::Shared | Look::Folded => style,
        }
    }

    fn meaning(self) -> &'static str {
        match self {
            Look::Plain => "a line: its record, what it does, what came of it",
            Look::Shared => "a line that reads or writes a shared item",
            Look::Skipped => "skipped: its guard is false",
            Look::Folded => "folded: lines without shared items",
            Look::CutOff => "cut off: the run ends here",
            Look::Broken => "a broken assertion",
            Look::Stranger => "an unlock by a stranger: its thread does not hold the mutex",
        }
    }

    /// Whether a run violates at such a cell.
    pub fn violates(self) -> bool {
        matches!(self, Look::Broken | Look::Stranger)
    }

    /// Whether every cell that looks so is a shared one.
    fn is_shared(self) -> bool {
        matches!(self, Look::Shared | Look::Stranger)
    }
}

/// Whether the line reads or writes a shared item; one that is skipped does neither.
pub fn is_shared(case: &Case, step: &Step) -> bool {
    is_of_shared_kind(case, step) && !matches!(step.event, Event::Skipped(_))
}

/// Whether the line is there to read or write a shared item.
pub fn is_of_shared_kind(case: &Case, step: &Step) -> bool {
    case.record(step.record).is_visible()
}

/// The line's record and what it does.
pub fn head(case: &Case, step: &Step) -> String {
    format!("{}: {}", step.record, case.record(step.record).words(&case.names))
}

/// The items' values at the end of a block, in words, and whether the block changed them.
pub fn values(case: &Case, run: &Run, block: usize) -> Vec<(String, bool)> {
    let before = block.checked_sub(1).map_or_else(|| case.items_at_start(), |before| items_after(case, run, before));
    let after = items_after(case, run, block);
    let words = |(item, (before, after)): (usize, (u16, u16))| (item_value(case, item, after), before != after);
    before.into_iter().zip(after).enumerate().map(words).collect()
}

fn items_after(case: &Case, run: &Run, block: usize) -> Vec<u16> {
    let last = run.steps.iter().rev().find(|step| step.block <= block);
    last.map_or_else(|| case.items_at_start(), |step| step.items.clone())
}

/// How many blocks are drawn: those at the end that run no line are not.
pub fn blocks(run: &Run) -> usize {
    run.steps.last().map_or(0, |step| step.block + 1)
}

/// What is said after the verdict: of a line that violates in vain, of the lines that were not run and of the blocks
/// that are not drawn, and which case it is, so that a printed page can be matched to it.
pub fn notes(case: &Case, run: &Run, width: u32) -> Vec<String> {
    let (first, last) = (blocks(run), case.switches);
    let what = match (run.ended_before(last), first == last) {
        (true, true) => "is not run",
        (true, false) => "are not run",
        (false, true) => "runs no line",
        (false, false) => "run no line",
    };
    let left_out = (first <= last).then(|| format!("{} {what}", range_in_words("block", first, last)));
    let of_case = format!("n = {last}; the case has SHA-256 {}", sha256::hex(&case.bytes));
    let all = run.fault_in_vain().into_iter().chain(run.not_run_in_words(case)).chain(left_out).chain([of_case]);
    all.flat_map(|words| SMALL.lines(&words, width)).collect()
}

/// `block 4`, `blocks 4 and 5`, `blocks 4 to 6`.
pub fn range_in_words(one: &str, first: usize, last: usize) -> String {
    match last.saturating_sub(first) {
        0 => format!("{one} {last}"),
        1 => format!("{one}s {first} and {last}"),
        _ => format!("{one}s {first} to {last}"),
    }
}

const SAMPLE: [u32; 2] = [26, 14];
const LEGEND_ROW: u32 = 20;

/// What the cells' looks mean, a sample and its words beside each other, in rows.
pub struct Legend {
    rows: Vec<Vec<(u32, Look)>>,
    values: Vec<String>,
}

impl Legend {
    /// The legend of the looks that occur, and of a plain line, since that says what stands in a cell.
    pub fn of(case: &Case, mut looks: Vec<Look>, width: u32) -> Legend {
        looks.push(Look::Plain);
        looks.sort();
        looks.dedup();
        let mut rows: Vec<Vec<(u32, Look)>> = Vec::new();
        let mut x = width;
        for look in looks {
            let needed = SAMPLE[0] + 6 + SMALL.width(look.meaning()) + 10;
            if x + needed > width {
                rows.push(Vec::new());
                x = 0;
            }
            rows.last_mut().into_iter().for_each(|row| row.push((x, look)));
            x += needed;
        }
        let values = "under each block: the items' values at its end, bold where the block changed them";
        let values = if case.items() > 0 { SMALL.lines(values, width) } else { Vec::new() };
        Legend { rows, values }
    }

    pub fn height(&self) -> u32 {
        self.rows.len() as u32 * LEGEND_ROW + self.values.len() as u32 * SMALL.leading()
    }

    pub fn draw(&self, svg: &mut Svg, left: u32, top: u32) {
        for (row, y) in self.rows.iter().zip((top..).step_by(LEGEND_ROW as usize)) {
            for &(x, look) in row {
                look.frame(svg, [left + x, y, SAMPLE[0], SAMPLE[1]], look.is_shared());
                svg.text(left + x + SAMPLE[0] + 6, y + 11, SMALL, look.meaning());
            }
        }
        svg.text_lines(left, top + self.rows.len() as u32 * LEGEND_ROW + 11, SMALL, &self.values);
    }
}
