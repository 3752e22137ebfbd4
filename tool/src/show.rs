//! A case as readable text: its header, and each thread's lines with their copies.

use crate::calls::Loaded;
use crate::case::Case;
use crate::names::Name;
use crate::words::{count, enumeration, items_in_words, legend};

pub fn text(loaded: &Loaded) -> String {
    let case = &loaded.case;
    let mut text = format!(
        "{}: {}\n{} over {}\n{}\nstart: {}\n{}",
        loaded.name,
        size(loaded),
        count(loaded.table.rows.len(), "constraint", "constraints"),
        count(loaded.table.variables, "variable", "variables"),
        legend(case),
        items_in_words(case, &case.items_at_start()),
        names(case, None),
    );
    for thread in 0..case.threads {
        text.push_str(&thread_text(loaded, thread));
    }
    text.push_str("\nA copy is the latest earlier record of the same thread that has the name as target.\n");
    text
}

/// How much there is of everything.
pub fn size(loaded: &Loaded) -> String {
    let case = &loaded.case;
    let sizes = [
        count(case.threads, "thread", "threads"),
        count(case.switches, "switch", "switches"),
        count(case.globals, "global", "globals"),
        count(case.mutexes, "mutex", "mutexes"),
        count(case.records.len(), "record", "records"),
    ];
    sizes.join(", ")
}

/// Which names stand for what, as constraints number it: a thread's locals, or the items. Nothing where no name was given.
fn names(case: &Case, thread: Option<usize>) -> String {
    let of_thread = |name: &Name| match name {
        Name::Local(of, _) => Some(*of) == thread,
        Name::Global(_) | Name::Mutex(_) => thread.is_none(),
    };
    let given = case.names.given().filter(|(name, _)| of_thread(name));
    let given: Vec<String> = given.map(|(name, word)| format!("{word} is {}", name.plain())).collect();
    match given.is_empty() {
        true => String::new(),
        false => format!("names: {}\n", given.join(", ")),
    }
}

fn thread_text(loaded: &Loaded, thread: usize) -> String {
    let case = &loaded.case;
    let chain = &case.chains[thread];
    let lines = count(chain.len(), "line", "lines");
    let mut text = format!("\nthread {thread}: {lines}, {}\n{}", blocks(case, thread), names(case, Some(thread)));
    let rows: Vec<[String; 5]> = chain.iter().zip(1..).map(|(&number, line)| line_cells(loaded, number, line)).collect();
    if !rows.is_empty() {
        let heads = ["line", "record", "guard", "does", "copies"].map(str::to_string);
        text.push_str(&columns(&[vec![heads], rows].concat()));
    }
    text
}

fn blocks(case: &Case, thread: usize) -> String {
    match case.blocks_of(thread).as_slice() {
        [] => "no block: its lines cannot run".to_string(),
        [block] => format!("block {block}"),
        blocks => format!("blocks {}", enumeration(blocks)),
    }
}

fn line_cells(loaded: &Loaded, number: u16, line: usize) -> [String; 5] {
    let (record, names) = (loaded.case.record(number), &loaded.case.names);
    let copies = copies(loaded, number).into_iter().map(|(name, copy)| match copy {
        0 => format!("{}: none", names.called(name)),
        copy => format!("{}: {copy}", names.called(name)),
    });
    let guard = record.guard_words(names).unwrap_or_else(|| "always".to_string());
    [line.to_string(), number.to_string(), guard, record.action(names), copies.collect::<Vec<_>>().join(", ")]
}

/// The names of a line with their copies, as the table has them: each once, and 0 for no copy.
pub fn copies(loaded: &Loaded, number: u16) -> Vec<(Name, u16)> {
    let record = loaded.case.record(number);
    let Some([_, _, guard_copy, a_copy, b_copy, target_copy]) = loaded.table.value_row(number) else {
        return Vec::new();
    };
    let named = [
        (record.guard_local().map(|local| record.local(local)), guard_copy),
        (record.a_name(), a_copy),
        (record.b_name(), b_copy),
        (record.target_name(), target_copy),
    ];
    let mut copies: Vec<(Name, u16)> = Vec::new();
    for (name, copy) in named {
        if let Some(one) = name.map(|name| (name, copy)).filter(|one| !copies.contains(one)) {
            copies.push(one);
        }
    }
    copies
}

/// Cells in columns, the first two to the right.
fn columns(rows: &[[String; 5]]) -> String {
    let widths: [usize; 5] = std::array::from_fn(|column| rows.iter().map(|row| row[column].len()).max().unwrap_or(0));
    let lines = rows.iter().map(|row| {
        let cells = row.iter().zip(widths).enumerate().map(|(column, (cell, width))| match column {
            0 | 1 => format!("{cell:>width$}"),
            _ => format!("{cell:width$}"),
        });
        format!("  {}", cells.collect::<Vec<_>>().join("  ")).trim_end().to_string() + "\n"
    });
    lines.collect()
}
