//! A short run as a picture: threads as lanes, blocks as columns, lines as cells, and under each block the items' values.

use crate::case::Case;
use crate::cells::{blocks, head, is_shared, notes, values, Legend, Look, FAINT, HEAD, INDENT, PLAIN, SMALL, TITLE};
use crate::run::{verdict, Run};
use crate::svg::{Style, Svg, UNBROKEN};
use crate::walk::Step;
use crate::words::item_value;

const MARGIN: u32 = 8;
const LANE_HEAD: u32 = 84;
const CELL: u32 = 35;
const GAP: u32 = 6;
/// The width of a column that holds no line.
const NARROW: u32 = 74;
/// So wide that the texts around the lanes do not take many lines.
const NARROWEST_PICTURE: u32 = 600;

/// Where the lanes and columns stand.
struct Layout {
    /// The left edge and width of each block's column.
    columns: Vec<(u32, u32)>,
    /// The upper edge and height of each thread's lane.
    lanes: Vec<(u32, u32)>,
    title: Vec<String>,
    start: Vec<String>,
    ending: Vec<String>,
    notes: Vec<String>,
    legend: Legend,
    /// The upper edges of the lanes, the values and the foot.
    top: u32,
    under: u32,
    foot: u32,
}

pub fn draw(case: &Case, name: &str, run: &Run) -> Svg {
    let (columns, width) = columns(case, run);
    let layout = layout(case, name, run, columns, width - 2 * MARGIN);
    let told = layout.ending.len() as u32 * HEAD.leading() + layout.notes.len() as u32 * SMALL.leading();
    let mut svg = Svg::new(width, layout.foot + told + 12 + layout.legend.height() + MARGIN);
    let y = MARGIN + TITLE.size + svg.text_lines(MARGIN, MARGIN + TITLE.size, TITLE, &layout.title);
    svg.text_lines(MARGIN, y, SMALL, &layout.start);
    lanes(&mut svg, &layout);
    for (block, &(x, width)) in layout.columns.iter().enumerate() {
        column(&mut svg, case, run, block, [x, layout.lanes[case.thread_of_block(block)].0, width]);
        svg.text(x, layout.top - 8, Style { bold: true, ..PLAIN }, &format!("block {block}"));
        for ((words, changed), y) in values(case, run, block).iter().zip((layout.under..).step_by(SMALL.leading() as usize)) {
            svg.text(x, y + SMALL.size, if *changed { Style { bold: true, ..SMALL } } else { FAINT }, words);
        }
    }
    foot(&mut svg, &layout);
    svg
}

/// The left edge and width of each block's column, and the width of the picture.
fn columns(case: &Case, run: &Run) -> (Vec<(u32, u32)>, u32) {
    let mut x = MARGIN + LANE_HEAD;
    let mut columns = Vec::new();
    for block in 0..blocks(run) {
        let cells = steps_of(run, block).map(|step| cell_width(case, step));
        let values = values(case, run, block).into_iter().map(|(words, _)| SMALL.width(&words));
        let width = cells.chain(values).max().unwrap_or(0).max(NARROW);
        columns.push((x, width));
        x += width + 2 * GAP;
    }
    (columns, (x + MARGIN).max(NARROWEST_PICTURE))
}

fn layout(case: &Case, name: &str, run: &Run, columns: Vec<(u32, u32)>, width: u32) -> Layout {
    let title = TITLE.lines(name, width);
    let start = case.items_at_start().into_iter().enumerate();
    let start = start.map(|(item, value)| item_value(case, item, value).replace(' ', &UNBROKEN.to_string()));
    let start = start.collect::<Vec<_>>().join(", ");
    let start = SMALL.lines(&format!("start: {}", if start.is_empty() { "none" } else { &start }), width);
    let top = MARGIN + title.len() as u32 * TITLE.leading() + start.len() as u32 * SMALL.leading() + 36;
    let mut y = top;
    let mut lanes = Vec::new();
    for thread in 0..case.threads {
        let rows = case.blocks_of(thread).into_iter().map(|block| steps_of(run, block).count() as u32).max().unwrap_or(0);
        let height = rows.max(1) * CELL + 2 * GAP;
        lanes.push((y, height));
        y += height + GAP;
    }
    let looks = run.steps.iter().map(|step| Look::of(case, step)).collect();
    let legend = Legend::of(case, looks, width);
    let (ending, notes) = (HEAD.lines(&verdict(case, run.ending), width), notes(case, run, width));
    let foot = y + case.items() as u32 * SMALL.leading() + 12;
    Layout { columns, lanes, title, start, ending, notes, legend, top, under: y, foot }
}

fn steps_of(run: &Run, block: usize) -> impl Iterator<Item = &Step> {
    run.steps.iter().filter(move |step| step.block == block)
}

fn cell_width(case: &Case, step: &Step) -> u32 {
    PLAIN.width(&head(case, step)).max(SMALL.width(&step.event.words(case))) + INDENT + 6
}

fn lanes(svg: &mut Svg, layout: &Layout) {
    for (thread, &(y, height)) in layout.lanes.iter().enumerate() {
        svg.rectangle([MARGIN, y, svg.width - 2 * MARGIN, height], "#f4f4f4", "stroke=\"#999999\"");
        svg.text(MARGIN + 6, y + GAP + 16, HEAD, &format!("thread {thread}"));
    }
    for &(x, _) in &layout.columns {
        svg.line((x - GAP, layout.top), (x - GAP, layout.foot - 12), "stroke=\"#999999\" stroke-dasharray=\"2 3\"");
    }
    if layout.foot - 12 > layout.under {
        svg.text(MARGIN + 6, layout.under + SMALL.size, FAINT, "at its end");
    }
}

fn column(svg: &mut Svg, case: &Case, run: &Run, block: usize, [x, y, width]: [u32; 3]) {
    for (step, row) in steps_of(run, block).zip(0..) {
        cell(svg, case, step, [x, y + GAP + row * CELL, width, CELL - 3]);
    }
    if steps_of(run, block).next().is_none() {
        svg.text(x, y + GAP + 16, FAINT, "no line");
    }
}

fn cell(svg: &mut Svg, case: &Case, step: &Step, place: [u32; 4]) {
    let look = Look::of(case, step);
    let [x, y, ..] = place;
    look.frame(svg, place, is_shared(case, step));
    svg.text(x + INDENT, y + 13, look.style(PLAIN), &head(case, step));
    svg.text(x + INDENT, y + 27, look.style(SMALL), &step.event.words(case));
}

fn foot(svg: &mut Svg, layout: &Layout) {
    let mut y = layout.foot;
    y += svg.text_lines(MARGIN, y + HEAD.size, HEAD, &layout.ending);
    y += svg.text_lines(MARGIN, y + SMALL.size, SMALL, &layout.notes);
    layout.legend.draw(svg, MARGIN, y + 12);
}
