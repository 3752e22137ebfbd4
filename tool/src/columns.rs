//! A long run as pages: threads as columns, time running down, block after block. The columns' heads repeat on each page,
//! stretches without shared items are folded, and no cell is cut by a page's end.

use crate::calls::Ending;
use crate::case::Case;
use crate::cells::{blocks, head, notes, range_in_words, values, Legend, Look, FAINT, HEAD, INDENT, SMALL, TITLE};
use crate::folds::{fold_in_words, parts, Part};
use crate::run::{verdict, Run};
use crate::svg::{Style, Svg, PAGE};
use crate::walk::{Event, Step};
use crate::words::{item_value, value_in_words};

const MARGIN: u32 = 8;
const WIDTH: u32 = PAGE[0] - 2 * MARGIN;
const RIGHT: u32 = MARGIN + WIDTH;
const BOTTOM: u32 = PAGE[1] - MARGIN;
const COLUMN_HEAD: u32 = 22;
const STRIP: u32 = 20;
const GAP: u32 = 3;
/// The width of the column of a thread that runs no line.
const NARROW: u32 = 86;
/// The width of what stands before values, and of the page's number.
const LABEL: u32 = 114;

const TEXT: Style = Style { colour: "black", ..SMALL };
const BOLD: Style = Style { bold: true, ..TEXT };

/// What stands below one another on the pages.
enum Row {
    /// The head of a block, or of several after one another that run no line: the first and the last.
    Strip(usize, usize),
    /// A line, or several that are folded: its block, its words, and what stands at the right of the last of them.
    Cell { block: usize, look: Look, is_shared: bool, lines: Vec<String>, result: String },
    /// The items at a block's end.
    Values(usize),
    /// What the run comes to.
    Ending,
}

/// A row, and its upper edge.
type Placed = (u32, Row);

struct Pages<'a> {
    case: &'a Case,
    run: &'a Run,
    name: &'a str,
    /// The left edge and width of each thread's column.
    columns: Vec<(u32, u32)>,
    /// Where each item stands with its value: its left edge, and how many rows are above it.
    items: Vec<(u32, u32)>,
    legend: Legend,
}

pub fn draw(case: &Case, name: &str, run: &Run) -> Vec<Svg> {
    let looks = (0..blocks(run)).flat_map(|block| parts(case, run, block)).map(|part| part.look(case)).collect();
    let legend = Legend::of(case, looks, WIDTH);
    let pages = Pages { case, run, name, columns: columns(case, run), items: places(case, run), legend };
    let placed = pages.placed();
    (0..placed.len()).map(|page| pages.page(&placed, page)).collect()
}

/// The columns share the page; that of a thread that runs no line is narrow.
fn columns(case: &Case, run: &Run) -> Vec<(u32, u32)> {
    let runs = |thread: usize| run.steps.iter().any(|step| case.thread_of_block(step.block) == thread);
    let running = (0..case.threads).filter(|&thread| runs(thread)).count() as u32;
    let wide = (WIDTH - (case.threads as u32 - running) * NARROW) / running.max(1);
    let widths = (0..case.threads).map(|thread| if runs(thread) { wide } else { NARROW });
    let mut right = MARGIN;
    let place = |width: u32| {
        right += width;
        (right - width, width)
    };
    widths.map(place).collect()
}

/// Items stand beside each other, each as wide as its widest value, in as many rows as they need.
fn places(case: &Case, run: &Run) -> Vec<(u32, u32)> {
    let all: Vec<Vec<(String, bool)>> =
        (0..blocks(run)).map(|block| values(case, run, block)).chain([at_start(case)]).collect();
    let width = |item: usize| all.iter().map(|values| SMALL.width(&values[item].0)).max().unwrap_or(0) + 14;
    let (mut right, mut row) = (MARGIN + LABEL, 0);
    let place = |item: usize| {
        if right > MARGIN + LABEL && right + width(item) > RIGHT {
            (right, row) = (MARGIN + LABEL, row + 1);
        }
        right += width(item);
        (right - width(item), row)
    };
    (0..case.items()).map(place).collect()
}

fn at_start(case: &Case) -> Vec<(String, bool)> {
    let items = case.items_at_start().into_iter().enumerate();
    items.map(|(item, value)| (item_value(case, item, value), false)).collect()
}

impl Pages<'_> {
    /// All rows, page by page. A block's head stays with what follows it, and is there again where a page begins within a block;
    /// what is said at the end does not stand on a page alone.
    fn placed(&self) -> Vec<Vec<Placed>> {
        let (mut pages, mut page) = (Vec::new(), Vec::new());
        let mut y = self.first_head(&mut Svg::new(0, 0), 0, None);
        let mut rows = self.rows().into_iter().peekable();
        while let Some(row) = rows.next() {
            let after = rows.peek().filter(|next| matches!(row, Row::Strip(..)) || matches!(next, Row::Ending));
            let needed = self.height(&row) + after.map_or(0, |next| self.height(next));
            if y + needed > BOTTOM {
                pages.push(std::mem::take(&mut page));
                y = self.further_head(&mut Svg::new(0, 0), 0, 0);
                if let Row::Cell { block, .. } | Row::Values(block) = row {
                    page.push((y, Row::Strip(block, block)));
                    y += STRIP;
                }
            }
            let height = self.height(&row);
            page.push((y, row));
            y += height;
        }
        pages.push(page);
        pages
    }

    fn rows(&self) -> Vec<Row> {
        let mut rows = Vec::new();
        let blocks: Vec<usize> = (0..blocks(self.run)).collect();
        for stretch in blocks.chunk_by(|&one, &next| !self.runs(one) && !self.runs(next)) {
            let (first, last) = (stretch[0], stretch[stretch.len() - 1]);
            rows.push(Row::Strip(first, last));
            rows.extend(parts(self.case, self.run, last).iter().map(|part| self.cell(last, part)));
            rows.extend((self.case.items() > 0).then_some(Row::Values(last)));
        }
        rows.push(Row::Ending);
        rows
    }

    /// Whether a line runs in the block.
    fn runs(&self, block: usize) -> bool {
        self.run.steps.iter().any(|step| step.block == block)
    }

    fn cell(&self, block: usize, part: &Part) -> Row {
        let (look, is_shared) = (part.look(self.case), part.is_shared(self.case));
        let (_, width) = self.columns[self.case.thread_of_block(block)];
        let width = width - 2 * GAP - INDENT - 5;
        let (mut lines, mut result) = match part {
            Part::Line(step) => (self.head(step, width), self.result(step, width)),
            Part::Fold(steps) => (TEXT.lines(&fold_in_words(self.case, steps), width), String::new()),
        };
        let last = lines.last().map_or(0, |line| TEXT.width(line.trim_end()));
        if TEXT.width(&result) > width {
            lines.extend(TEXT.lines(&std::mem::take(&mut result), width));
        } else if !result.is_empty() && last + TEXT.width("  ") + TEXT.width(&result) > width {
            lines.push(String::new());
        }
        Row::Cell { block, look, is_shared, lines, result }
    }

    /// A line's record and what it does; where that needs more than one line, what it does stands below its guard.
    fn head(&self, step: &Step, width: u32) -> Vec<String> {
        let (head, action) = (head(self.case, step), self.case.record(step.record).action(&self.case.names));
        match head.strip_suffix(&action) {
            Some(guard) if TEXT.width(&head) > width && self.case.record(step.record).guard != 0 => {
                TEXT.lines(guard, width).into_iter().chain(TEXT.lines(&action, width)).collect()
            }
            _ => TEXT.lines(&head, width),
        }
    }

    /// What came of a line. Where that is a value and is too long, the name is left out, which the line has before.
    fn result(&self, step: &Step, width: u32) -> String {
        let words = step.event.words(self.case);
        match step.event {
            Event::Set(name, value) if TEXT.width(&words) > width => {
                format!("= {}", value_in_words(self.case, name, value, None))
            }
            _ => words,
        }
    }

    fn height(&self, row: &Row) -> u32 {
        match row {
            Row::Strip(..) => STRIP,
            Row::Cell { lines, .. } => lines.len() as u32 * TEXT.leading() + 5 + GAP,
            Row::Values(_) => self.values_height(),
            Row::Ending => self.ending(&mut Svg::new(0, 0), 0),
        }
    }

    fn values_height(&self) -> u32 {
        let rows = self.items.last().map_or(0, |(_, row)| row + 1);
        rows * TEXT.leading() + 8
    }

    fn page(&self, placed: &[Vec<Placed>], page: usize) -> Svg {
        let mut svg = Svg::new(PAGE[0], PAGE[1]);
        let top = match page {
            0 => self.first_head(&mut svg, placed.len(), self.page_of_the_end(placed)),
            _ => self.further_head(&mut svg, page, placed.len()),
        };
        let bottom = placed[page].iter().filter(|(_, row)| matches!(row, Row::Cell { .. }));
        let bottom = bottom.map(|(y, row)| y + self.height(row)).max().unwrap_or(top);
        for &(x, _) in &self.columns[1..] {
            svg.line((x, top), (x, bottom), "stroke=\"#999999\" stroke-dasharray=\"2 3\"");
        }
        for (y, row) in &placed[page] {
            self.row(&mut svg, *y, row);
        }
        svg
    }

    /// The page, from 1, that has the first line that violates, or the line that ends the run.
    fn page_of_the_end(&self, placed: &[Vec<Placed>]) -> Option<usize> {
        let is_wanted = |look: Look| match self.run.ending {
            Ending::Violated(_) => look.violates(),
            Ending::CutOff(_) => look == Look::CutOff,
            Ending::Clean => false,
        };
        let has = |rows: &Vec<Placed>| rows.iter().any(|(_, row)| matches!(row, Row::Cell { look, .. } if is_wanted(*look)));
        placed.iter().position(has).map(|page| page + 1)
    }

    /// The head of the first page. Gives where the rows begin.
    fn first_head(&self, svg: &mut Svg, pages: usize, end: Option<usize>) -> u32 {
        let mut y = MARGIN;
        svg.text_to(RIGHT, y + TITLE.size, TEXT, &format!("page 1 of {pages}"));
        y += svg.text_lines(MARGIN, y + TITLE.size, TITLE, &TITLE.lines(self.name, WIDTH - LABEL)) + 4;
        if let Some(end) = end.filter(|_| pages > 1) {
            svg.text_to(RIGHT, y + HEAD.size, TEXT, &format!("see page {end}"));
        }
        y += svg.text_lines(MARGIN, y + HEAD.size, HEAD, &HEAD.lines(&verdict(self.case, self.run.ending), WIDTH - LABEL)) + 2;
        self.legend.draw(svg, MARGIN, y + 6);
        y += self.legend.height() + 14;
        if self.case.items() > 0 {
            self.values(svg, y, "at the start:", &at_start(self.case));
            y += self.values_height() + 4;
        }
        self.column_heads(svg, y)
    }

    /// The head of a further page.
    fn further_head(&self, svg: &mut Svg, page: usize, pages: usize) -> u32 {
        let name = TEXT.lines(self.name, WIDTH - LABEL - TEXT.width(".."));
        let name = if name.len() > 1 { format!("{}..", name[0]) } else { self.name.to_string() };
        svg.text(MARGIN, MARGIN + TEXT.size, TEXT, &name);
        svg.text_to(RIGHT, MARGIN + TEXT.size, TEXT, &format!("page {} of {pages}", page + 1));
        self.column_heads(svg, MARGIN + TEXT.leading() + 6)
    }

    fn column_heads(&self, svg: &mut Svg, y: u32) -> u32 {
        for (thread, &(x, width)) in self.columns.iter().enumerate() {
            svg.rectangle([x, y, width, COLUMN_HEAD], "white", "stroke=\"black\"");
            svg.text(x + GAP + INDENT, y + 16, HEAD, &format!("thread {thread}"));
        }
        y + COLUMN_HEAD + GAP
    }

    fn row(&self, svg: &mut Svg, y: u32, row: &Row) {
        match row {
            Row::Strip(first, last) => self.strip(svg, y, *first, *last),
            Row::Cell { block, look, is_shared, lines, result } => {
                let (x, width) = self.columns[self.case.thread_of_block(*block)];
                let [x, right] = [x + GAP, x + width - GAP];
                let height = lines.len() as u32 * TEXT.leading() + 5;
                look.frame(svg, [x, y, right - x, height], *is_shared);
                svg.text_lines(x + INDENT, y + TEXT.leading(), look.style(TEXT), lines);
                svg.text_to(right - 5, y + height - 5, look.style(TEXT), result);
            }
            Row::Values(block) => {
                svg.rectangle([MARGIN, y, WIDTH, self.values_height()], "white", "");
                self.values(svg, y, &format!("after block {block}:"), &values(self.case, self.run, *block));
            }
            Row::Ending => {
                self.ending(svg, y);
            }
        }
    }

    /// A block's head: its text stands above its thread's column, or as near to it as it fits.
    fn strip(&self, svg: &mut Svg, y: u32, first: usize, last: usize) {
        let words = match first == last {
            true => self.block_in_words(last),
            false => format!("{}: no line", range_in_words("block", first, last)),
        };
        let x = if first == last { self.columns[self.case.thread_of_block(last)].0 } else { MARGIN };
        svg.rectangle([MARGIN, y, WIDTH, STRIP - GAP], "#e0e0e0", "");
        svg.text((x + GAP + INDENT).min(RIGHT - BOLD.width(&words) - GAP), y + 12, BOLD, &words);
    }

    fn block_in_words(&self, block: usize) -> String {
        let steps: Vec<&Step> = self.run.steps.iter().filter(|step| step.block == block).collect();
        let thread = self.case.thread_of_block(block);
        let all = self.case.chains[thread].len();
        let lines = match (steps.first(), steps.last()) {
            (Some(first), Some(last)) => format!("{} of {all}", range_in_words("line", first.line, last.line)),
            _ => "no line".to_string(),
        };
        format!("block {block}: thread {thread}, {lines}")
    }

    /// Items with their values, each in its own place, so that they stand below each other on the page.
    fn values(&self, svg: &mut Svg, y: u32, label: &str, values: &[(String, bool)]) {
        svg.text(MARGIN, y + TEXT.size, FAINT, label);
        for ((words, changed), (x, row)) in values.iter().zip(&self.items) {
            let y = y + row * TEXT.leading() + TEXT.size;
            svg.text(*x, y, if *changed { BOLD } else { FAINT }, words);
        }
    }

    /// What is said at the end. Gives its height.
    fn ending(&self, svg: &mut Svg, y: u32) -> u32 {
        let (lines, notes) = (HEAD.lines(&verdict(self.case, self.run.ending), WIDTH), notes(self.case, self.run, WIDTH));
        let height = GAP + svg.text_lines(MARGIN, y + GAP + HEAD.size, HEAD, &lines);
        height + svg.text_lines(MARGIN, y + height + SMALL.size, SMALL, &notes) + GAP
    }
}
