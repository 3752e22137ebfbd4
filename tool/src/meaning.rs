//! The verdict that is filed: what `solve` prints, and what it means and does not mean, for a reader who has nothing else.

use crate::calls::Loaded;
use crate::solve::{Solved, Verdict};
use crate::told;

pub fn text(loaded: &Loaded, solved: &Solved) -> String {
    let solvers: Vec<&str> = solved.asked.iter().map(|asked| asked.solver.as_str()).collect();
    let answer = told::answer(loaded, &solvers, &solved.verdict);
    let means = match &solved.verdict {
        Verdict::Violated(found) => format!(
            "{answer}\
             It means: this run is legal, stays within the bound, and violates:\n\
             {}.\n\
             The proved library checked the assignment, decoded it and replayed the schedule, so this does not rest\n\
             on the solver. Anyone can follow run.txt by hand.\n\
             It does not mean: that no other line violates, or that this one does in every run; that the case\n\
             says what the controller does.\n",
            found.fault.words(&loaded.case)
        ),
        Verdict::Unsat => answer,
        Verdict::Disagree(why, Some(_)) => format!(
            "{answer}\
             The solvers disagree: {why}.\n\
             It means: the run above is legal, stays within the bound, and violates. A solver is wrong about this case,\n\
             and its other answers are worth nothing until it is known why.\n\
             It does not mean: that no other line violates; that the case says what the controller does.\n"
        ),
        Verdict::Unknown(why) | Verdict::Timeout(why) | Verdict::Disagree(why, None) | Verdict::Failed(why) => format!(
            "There is no answer: {why}.\n\
             It means: nothing is known of this case by this check; a violation may be there or not.\n\
             It does not mean: that the case is wrong, or that another solver or more time finds no answer.\n"
        ),
    };
    format!("The answer: {}.\n\n{means}\n{}{}", solved.word(), told::reached(loaded, &solved.reach), told::warning(solved))
}
