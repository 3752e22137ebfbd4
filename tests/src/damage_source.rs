//! Sources with something wrong in them, or at least changed.

use std::ops::Range;

use crate::random::Random;

const WORDS: [&str; 44] = [
    "switches", "global", "mutex", "thread", "local", "record", "when", "lock", "unlock", "assert", "assume", "input", "if",
    "else", "while", "end", "L0", "L15", "L16", "L00", "G0", "G8", "G00", "M0", "M4", "M", "other", "0", "1", "00", "65535",
    "65536", "0x10", "257", "=", "==", "!=", "<", "+", "-", "&", "|", ":", "_",
];

const CHARACTERS: [&str; 22] = [
    "!", ">", "=", ":", ";", "#", "$", "\"", "ü", "世", "\u{a0}", "\u{feff}", "\u{2028}", "\u{85}", "\u{7f}", "\u{0}", "\u{b}",
    "\u{c}", "\t", "\r", "\n", "\n\r",
];

/// The text with one to three changes.
pub fn damaged(random: &mut Random, text: &[u8]) -> Vec<u8> {
    let mut text = text.to_vec();
    for _ in 0..random.pick(&[1, 1, 1, 2, 3]) {
        text = match random.below(10) {
            0..=5 => with_another_word(random, &text),
            6..=7 => with_other_lines(random, &text),
            8 => with_another_character(random, &text),
            _ => with_another_byte(random, &text),
        };
    }
    text
}

/// Where words stand: runs of letters and digits, or single signs.
fn words(text: &str) -> Vec<Range<usize>> {
    let mut words: Vec<Range<usize>> = Vec::new();
    for (place, character) in text.char_indices().filter(|(_, character)| !character.is_whitespace()) {
        let end = place + character.len_utf8();
        let in_name = |text: &str| text.chars().all(|character| character.is_ascii_alphanumeric() || character == '_');
        match words.last_mut() {
            Some(last) if last.end == place && in_name(&text[last.start..end]) => last.end = end,
            _ => words.push(place..end),
        }
    }
    words
}

/// A word dropped, doubled, swapped with another, changed in case, changed in a
/// digit, or another one in its place.
fn with_another_word(random: &mut Random, text: &[u8]) -> Vec<u8> {
    let Ok(text) = std::str::from_utf8(text) else { return text.to_vec() };
    let words = words(text);
    if words.is_empty() {
        return text.as_bytes().to_vec();
    }
    let place = random.below(words.len());
    let word = &text[words[place].clone()];
    let other = random.below(words.len());
    let new = match random.below(8) {
        0 => String::new(),
        1 => format!("{word} {word}"),
        2 => swapped_case(word),
        3 => another_number(random, word),
        4 => return swapped(text, words[place.min(other)].clone(), words[place.max(other)].clone()).into_bytes(),
        5 => text[words[other].clone()].to_string(),
        6 => format!("{word} {}", random.pick(&WORDS)),
        _ => random.pick(&WORDS).to_string(),
    };
    let Range { start, end } = words[place].clone();
    [&text[..start], &new, &text[end..]].concat().into_bytes()
}

fn swapped_case(word: &str) -> String {
    let upper = word.to_uppercase();
    if upper == word {
        word.to_lowercase()
    } else {
        upper
    }
}

/// For a number or a plain name one with another number.
fn another_number(random: &mut Random, word: &str) -> String {
    let letters = word.trim_end_matches(|character: char| character.is_ascii_digit());
    let number: u32 = word[letters.len()..].parse().unwrap_or(0);
    match random.below(4) {
        0 => format!("{letters}{}", number + 1),
        1 => format!("{letters}{}", number.saturating_sub(1)),
        2 => format!("{letters}0{number}"),
        _ => format!("{letters}{}", random.word()),
    }
}

fn swapped(text: &str, first: Range<usize>, second: Range<usize>) -> String {
    if first.end > second.start {
        return text.to_string();
    }
    let between = &text[first.end..second.start];
    [&text[..first.start], &text[second.clone()], between, &text[first], &text[second.end..]].concat()
}

/// Lines dropped, doubled or swapped.
fn with_other_lines(random: &mut Random, text: &[u8]) -> Vec<u8> {
    let mut lines: Vec<&[u8]> = text.split_inclusive(|byte| b"\r\n".contains(byte)).collect();
    if lines.is_empty() {
        return Vec::new();
    }
    let (one, other) = (random.below(lines.len()), random.below(lines.len()));
    match random.below(4) {
        0 => drop(lines.remove(one)),
        1 => lines.insert(other, lines[one]),
        2 => lines.truncate(one),
        _ => lines.swap(one, other),
    }
    lines.concat()
}

fn with_another_character(random: &mut Random, text: &[u8]) -> Vec<u8> {
    let place = random.below(text.len() + 1);
    let new = random.pick(&CHARACTERS).as_bytes();
    let left_out = random.below(2).min(text.len() - place);
    [&text[..place], new, &text[place + left_out..]].concat()
}

fn with_another_byte(random: &mut Random, text: &[u8]) -> Vec<u8> {
    let mut text = text.to_vec();
    if !text.is_empty() {
        let place = random.below(text.len());
        text[place] = if random.chance(70) { 32 + (random.any() % 95) as u8 } else { random.any() as u8 };
    }
    text
}
