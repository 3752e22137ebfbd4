//! The groups of tests. Each is given the library under test: the proved one
//! with the feature `proved`, else the second implementation itself. `mutants`
//! leaves it aside and takes the second implementation with mistakes; `listing`
//! holds it and the second implementation to what a program prints, and
//! `answers`, `step`, `bounds` and `sources` the command to the second implementation.

pub mod answers;
mod bounds;
mod case_a;
mod checks;
mod decodings;
mod demand_3;
mod differential;
mod fields;
mod fill;
mod fill_refusals;
mod generator;
mod holders;
mod holders_in_constraints;
mod limits;
mod lines;
mod listing;
mod mutants;
mod refusals;
mod refusals_of_calls;
mod runs;
mod slices;
mod solvers;
mod sources;
mod sources_by_hand;
mod step;
mod tables;
mod text;
mod visible;

use crate::calls::Calls;
use crate::command;
use crate::report::Report;

pub struct Group {
    pub name: &'static str,
    pub about: &'static str,
    pub run: fn(&dyn Calls, &mut Report),
    /// Whether it is run when no group is named.
    pub by_default: bool,
}

/// All groups in the order in which they are run.
pub fn all() -> Vec<Group> {
    let group = |name, about, run| Group { name, about, run, by_default: true };
    let mut groups = vec![
        group("case-a", "case A's listing and P1 to P10", case_a::run),
        group("tables", "tables worked out by hand", tables::run),
        group("runs", "runs worked out by hand", runs::run),
        group("holders", "mutexes and who unlocks them", holders::run),
        group("visible", "the 8s and the rule that they keep", visible::run),
        group("checks", "each kind of constraint fails first", checks::run),
        group("decodings", "decodings worked out by hand", decodings::run),
        group("fill", "schedules filled, and refused", fill::run),
        group("fields", "refusal 9, field by field", fields::run),
        group("limits", "both sides of every limit", limits::run),
        group("refusals", "refusals 1 to 9 and their order", refusals::run),
        group("calls", "refusals 10 to 15 and their order", refusals_of_calls::run),
        group("lines", "lines taken one by one", lines::run),
        group("generator", "random cases have all there is", generator::run),
        group("slices", "what calls leave in slices", slices::run),
        group("text", "the constraints as SMT-LIB text", text::run),
        group("demand-3", "demand 3 by trying schedules", demand_3::run),
        group("solvers", "solvers on the text beside replay", solvers::run),
        group("mutants", "deliberate mistakes are found", mutants::run),
    ];
    // Beside itself the second implementation would always be right.
    groups.push(Group {
        by_default: cfg!(feature = "proved"),
        ..group("differential", "beside the second implementation", differential::run)
    });
    groups.push(Group {
        by_default: std::env::var_os(listing::PROGRAM).is_some(),
        ..group("listing", "the program in MENDUVO_LISTING", listing::run)
    });
    let of_command = [
        group("answers", "the command in MENDUVO_COMMAND", answers::run),
        group("step", "runs by hand in MENDUVO_COMMAND", step::run),
        group("bounds", "its --least, --each and --short", bounds::run),
        group("sources", "sources, by the same command", sources::run),
    ];
    let by_default = std::env::var_os(command::PROGRAM).is_some();
    groups.extend(of_command.map(|group| Group { by_default, ..group }));
    groups
}
