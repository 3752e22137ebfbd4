//! The manual page, as man reads it (roff), made of the same pages as the help.

use crate::help::{capitalised, Choice, Page, ABOUT, FILES, PAGES, STATUSES};

/// `menduvo help --man`.
pub fn page() -> String {
    let mut text = format!(".TH MENDUVO 1 \"\" \"menduvo {}\"\n", env!("CARGO_PKG_VERSION"));
    text.push_str(&format!(".SH NAME\nmenduvo \\- {}\n", plain(ABOUT)));
    text.push_str(".SH SYNOPSIS\n.nf\n");
    for page in PAGES {
        text.push_str(&format!("{}\n", usage(page)));
    }
    text.push_str("\\fBmenduvo \\-\\-version\\fR\n.fi\n.SH COMMANDS\n");
    text.extend(PAGES.iter().map(command));
    text + &section(FILES) + &section(STATUSES)
}

/// How a command is called, its name in bold.
fn usage(page: &Page) -> String {
    let rest = page.usage.strip_prefix(page.name).unwrap_or_default();
    format!("\\fBmenduvo {}\\fR{}", plain(page.name), plain(rest))
}

fn command(page: &Page) -> String {
    let mut text = format!(".SS {}\n{}.\n", usage(page), plain(&capitalised(page.summary)));
    text.push_str(&lines(page.more));
    for Choice { name, value, does } in page.options {
        let blank = if value.is_empty() { "" } else { " " };
        text.push_str(&item(&format!("\\fB{}\\fR{blank}{}", plain(name), plain(value)), does));
    }
    text
}

/// A text of the help with its head, which ends in a colon.
fn section(text: &str) -> String {
    let (head, rest) = text.split_once('\n').unwrap_or((text, ""));
    format!(".SH {}\n{}", plain(&head.trim_end_matches(':').to_uppercase()), lines(rest))
}

/// Lines of the help. A line that is set in has a word, two blanks or more, and what it means; or it goes on with the text.
fn lines(text: &str) -> String {
    let mut roff = String::new();
    let mut among_items = false;
    for line in text.lines() {
        let row = line.strip_prefix("  ").and_then(|row| row.split_once("  "));
        match row {
            Some((word, meaning)) => roff.push_str(&item(&format!("\\fB{}\\fR", plain(word)), meaning.trim_start())),
            None if among_items => roff.push_str(&format!(".PP\n{}\n", plain(line.trim_start()))),
            None => roff.push_str(&format!("{}\n", plain(line.trim_start()))),
        }
        among_items = row.is_some();
    }
    roff
}

fn item(head: &str, does: &str) -> String {
    let does: Vec<String> = does.lines().map(plain).collect();
    format!(".TP\n{head}\n{}\n", does.join("\n"))
}

/// A line as it is to be seen: no sign has a meaning for roff, and each is printed as it stands.
fn plain(line: &str) -> String {
    let mut text = String::new();
    // A dot or a quote would begin a request; the others are escaped anywhere.
    if line.starts_with('.') {
        text.push_str("\\&");
    }
    for sign in line.chars() {
        match sign {
            '\\' => text.push_str("\\e"),
            '-' => text.push_str("\\-"),
            '\'' => text.push_str("\\(aq"),
            '`' => text.push_str("\\(ga"),
            '^' => text.push_str("\\(ha"),
            '~' => text.push_str("\\(ti"),
            _ => text.push(sign),
        }
    }
    text
}
