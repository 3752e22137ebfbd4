//! Sources as people write them: with names, comments, blanks, line ends and
//! record numbers of all sorts.

use std::collections::BTreeSet;

use crate::draft::Draft;
use crate::random::Random;
use crate::second::source::{source, Names};
use crate::second::Wrong;

/// Names that look like something else, and some that do not.
const BASES: [&str; 20] = [
    "upper", "lower", "x", "L", "G", "M", "l0", "L0x", "G_1", "M1_", "Switches", "ends", "INPUT", "recordx", "whenL0", "a_b_c",
    "thread1", "Lock", "z9", "n0",
];

const BLANKS: [&str; 8] = ["", " ", " ", " ", "  ", "\t", " \t ", "          "];

const COMMENTS: [&str; 8] = [
    "#",
    "# a comment",
    "## # two",
    "#switches 3",
    "# Schütz öffnet",
    "#\t世界 \u{1f6aa}",
    "# thread: \"'`\\$@>",
    "# \u{feff}",
];

/// A source of an accepted case, and the names in it.
pub fn written(random: &mut Random, draft: &Draft) -> (Vec<u8>, Names) {
    let names = some_names(random, draft);
    let text = source(&draft.bytes(), Some(&names), Wrong::Nothing).expect("the case is accepted");
    (styled(random, &text), names)
}

/// Plain names, of which some are new.
fn some_names(random: &mut Random, draft: &Draft) -> Names {
    let mut names = Names::plain(usize::from(draft.globals), usize::from(draft.mutexes), usize::from(draft.threads));
    let percent = random.pick(&[10, 50, 100]);
    let mut taken = BTreeSet::new();
    for name in names.globals.iter_mut().chain(&mut names.mutexes) {
        rename(random, percent, name, &mut taken);
    }
    for locals in &mut names.locals {
        // Another thread's local may have the same name.
        let mut taken = taken.clone();
        locals.iter_mut().for_each(|name| rename(random, percent / 2, name, &mut taken));
    }
    names
}

fn rename(random: &mut Random, percent: usize, name: &mut String, taken: &mut BTreeSet<String>) {
    if !random.chance(percent) {
        return;
    }
    let base = random.pick(&BASES);
    let is_long = random.chance(10);
    let new = (0..).map(|number| match (number, is_long) {
        (0, false) => base.to_string(),
        (_, false) => format!("{base}_{number}"),
        (_, true) => format!("{base:_<30}{number:02}"),
    });
    *name = new.into_iter().find(|name| taken.insert(name.clone())).expect("some number is free");
}

/// The same statements, written in another way.
pub fn styled(random: &mut Random, text: &str) -> Vec<u8> {
    let ends = random.pick(&[&["\n"][..], &["\r\n"], &["\r"], &["\n", "\r\n", "\r"]]);
    let records = random.pick(&[0, 0, 20, 100]);
    let comments = random.pick(&[0, 10, 60]);
    let mut styled = String::from(if random.chance(15) { "\u{feff}" } else { "" });
    let mut record = 0;
    for line in text.lines() {
        let words = with_record(random, records, words_of(line), &mut record);
        styled += &joined(random, &words);
        if random.chance(comments) {
            styled += random.pick(&BLANKS);
            styled += random.pick(&COMMENTS);
        }
        styled += random.pick(ends);
    }
    if random.chance(20) {
        styled.truncate(styled.trim_end_matches(['\n', '\r']).len());
    }
    styled.into_bytes()
}

fn words_of(line: &str) -> Vec<String> {
    let apart = line.replace(':', " :");
    apart.split_whitespace().map(str::to_string).collect()
}

/// The words, at times with a record number where none is needed.
fn with_record(random: &mut Random, percent: usize, words: Vec<String>, record: &mut usize) -> Vec<String> {
    match words.first().map(String::as_str) {
        None | Some("switches" | "global" | "mutex" | "thread" | "local") => return words,
        Some("record") => {
            *record = words[1].parse().expect("a number stands after it");
            return words;
        }
        Some(_) => *record += 1,
    }
    if !random.chance(percent) {
        return words;
    }
    [vec!["record".to_string(), record.to_string(), ":".to_string()], words].concat()
}

/// The words with blanks between them, at least where they would run together.
fn joined(random: &mut Random, words: &[String]) -> String {
    let mut line = random.pick(&BLANKS).to_string();
    for word in words {
        let in_name = |character: char| character.is_ascii_alphanumeric() || character == '_';
        let blanks = random.pick(&BLANKS);
        let needed = blanks.is_empty() && line.ends_with(in_name) && word.starts_with(in_name);
        line += if needed { " " } else { blanks };
        line += word;
    }
    line + random.pick(&BLANKS)
}
