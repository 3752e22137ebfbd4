//! The completion for bash, made of the same pages as the help.

use crate::help::{Choice, Page, PAGES};

/// `menduvo help --bash-completion`.
pub fn script() -> String {
    let commands: Vec<&str> = PAGES.iter().map(|page| page.name).collect();
    include_str!("completion.bash")
        .replace("@COMMANDS@", &commands.join(" "))
        .replace("#OPTIONS\n", &arms(PAGES.iter().map(options)))
        .replace("#VALUES\n", &arms(PAGES.iter().flat_map(values)))
}

/// The arms of a case, each on its line, where the first line begins already.
fn arms(arms: impl Iterator<Item = String>) -> String {
    arms.collect::<Vec<_>>().join("\n        ") + "\n"
}

fn options(page: &Page) -> String {
    let names = page.options.iter().map(|choice| choice.name).chain(["--help"]);
    format!("{}) options='{}' ;;", page.name, names.collect::<Vec<_>>().join(" "))
}

/// For each option with some values to choose from: these.
fn values(page: &Page) -> impl Iterator<Item = String> + '_ {
    let chosen = page.options.iter().filter(|choice| choice.value.contains('|'));
    chosen.map(|Choice { name, value, .. }| format!("'{} {name}') values='{}' ;;", page.name, value.replace('|', " ")))
}
