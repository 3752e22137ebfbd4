//! The help texts.

/// A command: its name, how it is called, what it does in a line, its options, and the rest of its help.
pub struct Page {
    pub name: &'static str,
    pub usage: &'static str,
    pub summary: &'static str,
    pub options: &'static [Choice],
    pub more: &'static str,
}

/// An option: its name, what its value is, if it has one, and what it does, in lines.
pub struct Choice {
    pub name: &'static str,
    pub value: &'static str,
    pub does: &'static str,
}

const JSON: Choice =
    Choice { name: "--json", value: "", does: "print one JSON object a line, as docs/output.schema.json describes them" };
const SWITCHES: Choice = Choice { name: "--switches", value: "N", does: "take the case with this n in the place of its own" };
const FORCE: Choice = Choice { name: "--force", value: "", does: "replace files that are there" };
const SOLVER: Choice = Choice {
    name: "--solver",
    value: "z3|cvc5|both",
    does: "the solver; without it z3, or cvc5 where z3 is not installed;\nboth: they are asked at once, and compared",
};
const SOLVER_COMMAND: Choice = Choice {
    name: "--solver-command",
    value: "'PROGRAM ARGS'",
    does: "any other solver, which reads SMT-LIB text from its standard input;\nwhite space divides the arguments",
};
const TIMEOUT: Choice = Choice {
    name: "--timeout",
    value: "S",
    does: "give a solver this many seconds for each question, 0 for no limit;\nwithout it no limit for one case, and 60 for several",
};

pub const PAGES: &[Page] = &[
    Page {
        name: "demo",
        usage: "demo",
        summary: "show the whole job on a case that ships",
        options: &[],
        more: "Shows a case, checks a filed assignment, decodes it to a schedule and replays the schedule; and then,\n\
               where z3 or cvc5 is installed, lets a solver look for itself. It needs no file and writes none.\n\
               Exit status 0, although the demo's case has a violation to show.\n",
    },
    Page {
        name: "make",
        usage: "make SOURCE -o CASE",
        summary: "make a case from its source",
        options: &[Choice { name: "-o", value: "CASE", does: "the file; - is standard output" }, FORCE],
        more: "The source is text: docs/SOURCE.md is its grammar on one page. The made case goes through the library's accept.\n\
               What is wrong is told with its line and column, and what could stand there. Exit status 2 where the text is no\n\
               source, or the case is refused; nothing is written then.\n\
               Every other command takes a source in the place of a case too, and shows its names.\n",
    },
    Page {
        name: "source",
        usage: "source CASE",
        summary: "print the source of a case",
        options: &[],
        more: "'menduvo make' of it gives the same bytes. Of a source it prints the same case in the one form that this command\n\
               writes, with its names and without its comments.\n",
    },
    Page {
        name: "list",
        usage: "list CASE..",
        summary: "print the constraints, six numbers a line",
        options: &[
            SWITCHES,
            Choice { name: "--words", value: "", does: "print each with its number and what it demands, in words" },
            JSON,
        ],
        more: "The first line has the count of constraints and of variables. File it with the case: constants and\n\
               operations stand in the case alone.\n\
               For a refused case it prints the refusal's number and its place on one line, with exit status 2.\n\
               Of several cases each one's text comes after a line '== NAME'. All are done, though one is refused or\n\
               is not there; the exit status is then 3 where something failed, else 2.\n",
    },
    Page {
        name: "smt",
        usage: "smt CASE [-o FILE]",
        summary: "print the constraints as text for solvers",
        options: &[SWITCHES, Choice { name: "-o", value: "FILE", does: "write the text to this file; - is standard output" }, FORCE],
        more: "SMT-LIB 2, logic QF_BV, as docs/SMT-TEXT.md spells it byte for byte, so that a case has one text. The proved library\n\
               writes it: an assignment meets the constraints exactly where it makes every assertion true, and the first that it\n\
               makes false is the first constraint that it fails. 'solve' sends just this text, and 'file' files it.\n\
               It asks for no model: add (get-value (v0 v1 ..)) after it, or let the solver print one (z3 -model).\n\
               Exit status 2 where the case is refused; nothing is printed or written then.\n",
    },
    Page {
        name: "show",
        usage: "show CASE..",
        summary: "print the threads as readable text",
        options: &[SWITCHES, JSON],
        more: "For each line: its record, its guard, what it does, and the copies of its names.\n\
               Of several cases each one's text comes after a line '== NAME'. All are done, though one is refused or\n\
               is not there; the exit status is then 3 where something failed, else 2.\n",
    },
    Page {
        name: "check",
        usage: "check CASE ASSIGNMENT",
        summary: "say whether an assignment meets the constraints",
        options: &[SWITCHES, JSON],
        more: "Exit status 0 where it meets them all; 1 where it fails, with the first constraint that it fails.\n",
    },
    Page {
        name: "decode",
        usage: "decode CASE ASSIGNMENT",
        summary: "print the schedule of an assignment, as numbers",
        options: &[SWITCHES],
        more: "The numbers are n + 1 block lengths, and then a value for each input line. A line with block number n + 1 was\n\
               not run, and counts in no block. By constraint 8 a line that touches no shared item (no load, store, lock or\n\
               unlock) is in the block of the line before it: assignments that meet the constraints stand for the violating\n\
               schedules that keep this rule, one for one. 'menduvo fill' is the way back.\n\
               Exit status 1 where the assignment fails (refusal 15).\n",
    },
    Page {
        name: "replay",
        usage: "replay CASE SCHEDULE",
        summary: "run a schedule, and print the run line by line",
        options: &[
            SWITCHES,
            Choice { name: "--values", value: "", does: "print all items after each line; what changed says what it was" },
            JSON,
        ],
        more: "A thread's block lengths may add up to less than its lines: it then stops, and the lines that are left are not\n\
               run. An input line among them has value 0.\n\
               A run violates where an assert is zero, or where a thread unlocks a mutex that it does not hold: an unlock by a\n\
               stranger, which frees it all the same, and is told with whose the mutex was. A mutex has 0 while it is free, and\n\
               t + 1 while thread t holds it.\n\
               A switch may stand before any line. Where it stands before a line that touches no shared item, no assignment\n\
               stands for the schedule (constraint 8); of one that violates it is told which schedule does the same and has one.\n\
               A solver's model in the place of the schedule is decoded first.\n\
               Exit status 1 where the run violates; 0 where it is clean or cut off.\n",
    },
    Page {
        name: "fill",
        usage: "fill CASE SCHEDULE",
        summary: "print the assignment that decodes to a schedule, as numbers",
        options: &[SWITCHES, JSON],
        more: "For a schedule that was found by thought: its assignment is checked, decoded and filed as a solver's is. The numbers\n\
               are of each record its block number and its value, and then the items' values at the end of each block but the\n\
               last. 'menduvo decode' of them gives the schedule back.\n\
               The schedule must violate (else refusal 16: it is told what its run comes to), and keep the rule of constraint 8:\n\
               no line that touches no shared item is in a later block than the line before it. Where it breaks the rule\n\
               (refusal 17) the message names the line, and a schedule that keeps the rule and violates too, with the same\n\
               inputs; the library has filled that one before it is named.\n\
               A solver's model in the place of the schedule is decoded first.\n\
               Exit status 0 where the assignment is printed; 2 where the schedule is refused, and then no number is.\n",
    },
    Page {
        name: "step",
        usage: "step CASE [-o FILE]",
        summary: "run a case by hand, thread by thread, and get the schedule",
        options: &[
            SWITCHES,
            Choice { name: "-o", value: "FILE", does: "write the schedule to this file, at the end" },
            FORCE,
        ],
        more: "Commands are read from standard input, one a line, so CASE is a file; '#' starts a comment:\n\
               \x20 1          run the next line of thread 1; so for each thread\n\
               \x20 rest 1     run all lines that thread 1 has left\n\
               \x20 switch     end the block, so that a later one of the same thread can be used\n\
               \x20 undo       take the last of these commands back, as often as wanted\n\
               \x20 values     print all items and locals\n\
               \x20 schedule   print the schedule so far\n\
               \x20 help       print this\n\
               \x20 quit       end, as the end of the input does\n\
               Block 0 is thread 0's, block 1 thread 1's, and so on, round robin; from one to the next is a switch. A line\n\
               runs in the open block where that is its thread's, or else in its thread's next one. An input line asks for\n\
               its value, which is the next line that is read.\n\
               At the end the schedule is printed, and replayed by the proved library: a run may end anywhere, and each\n\
               thread then stops where it is. Over a pipe a command that cannot be done is the end, without a schedule; at a\n\
               terminal it is not.\n\
               Exit status 1 where the run violates; 0 where it is clean or cut off; 3 without a schedule.\n",
    },
    Page {
        name: "solve",
        usage: "solve CASE|DIR.. [OPTIONS]",
        summary: "let a solver look for a violation, and replay what it finds",
        options: &[
            SWITCHES,
            Choice {
                name: "--least",
                value: "",
                does: "look for the smallest n with a violation: 0, 1, 2, .. up to the N of\n--switches, or to 15, the largest",
            },
            Choice {
                name: "--assert",
                value: "RECORD",
                does: "ask about the assert or unlock of this record alone",
            },
            Choice { name: "--each", value: "", does: "ask about each assert and unlock by itself, and print a table of the answers" },
            Choice {
                name: "--short",
                value: "",
                does: "ask on for a run worth showing: the fewest switches that are used, then\nthe fewest blocks with lines, \
                       then the fewest lines, then the first input as\nsmall as it can be, then the next",
            },
            SOLVER,
            SOLVER_COMMAND,
            TIMEOUT,
            Choice { name: "--jobs", value: "N", does: "solve so many cases at a time" },
            Choice {
                name: "--keep",
                value: "FOLDER",
                does:
                    "write NAME.smt2 (the text), NAME.reply, NAME.assignment, NAME.schedule,\nNAME.reached and NAME.answer \
                       to this folder, named as the case",
            },
            Choice {
                name: "--resume",
                value: "FOLDER",
                does: "as --keep, and skip each case that has its answer there;\na timeout is no answer, and is asked again",
            },
            FORCE,
            Choice {
                name: "--strict",
                value: "",
                does: "exit status 1 also where an unsat is vacuous, or leaves an assert\nor unlock that is not shown to be reached",
            },
            JSON,
        ],
        more: "The solver gets the text that 'smt' prints. Its assignment is checked, decoded and replayed by the\n\
               proved library; the run is printed as by 'replay'. A run violates where an assert is zero, or where a thread\n\
               unlocks a mutex that it does not hold, which is an unlock by a stranger. A thread may stop after any of its\n\
               lines. For each assert and each unlock it is told whether a legal run within the bound reaches it with a true\n\
               guard: of one that is never reached, nothing was checked.\n\
               DIR: every file in it that ends in .source, and each that ends in .case and has no source of the same name.\n\
               Of several cases each one's line is printed when it is known,\n\
               and at the end how many have each answer:\n\
               \x20 violated   a run that violates was found, checked and replayed\n\
               \x20 unsat      nothing meets the constraints, by the solver's word; the note names lines that are not reached\n\
               \x20 vacuous    nothing meets the constraints, and no assert or unlock is reached: it says nothing\n\
               \x20 timeout    the solver's time was up\n\
               \x20 unknown    the solver gave up\n\
               \x20 disagree   one solver says sat, and another unsat\n\
               \x20 refused    the case is refused\n\
               \x20 failed     something else: a file, or a solver that talks nonsense, fails or is killed\n\
               --least, --each and --short ask many questions, so each has 60 seconds where --timeout is not given. They go\n\
               together: --each --least says by line the first n. What is kept at a chosen n is named NAME-nN; with --short,\n\
               text and reply are those of the first question, and assignment and schedule those of the short run.\n\
               A question about one line is the case's text with its part alone in the last assertion, that of constraint 7\n\
               (docs/SMT-TEXT.md). Its assignment meets the case's own constraints; the run may violate at another line before.\n\
               Exit status 1 where a violation is found; 0 for unsat and vacuous; 2 refused; 3 for the others. Of several\n\
               cases, n or lines: 1 where one of them has it, else 3, else 2.\n",
    },
    Page {
        name: "picture",
        usage: "picture CASE SCHEDULE -o FILE.svg",
        summary: "draw the run of a schedule",
        options: &[
            Choice {
                name: "-o",
                value: "FILE.svg",
                does: "the file, or FILE-1.svg, FILE-2.svg, .. where the picture has several pages;\n- is standard output, \
                       and gets all pages in one picture, one below the other",
            },
            SWITCHES,
            FORCE,
        ],
        more: "A run of at most 40 lines is drawn on one page where it fits: threads are lanes, blocks are columns, lines\n\
               are cells. Any other is drawn downwards: threads are columns, and three or more lines after one another that\n\
               touch no shared item are folded into one cell, unless they violate, end the run or are inputs. A line that\n\
               violates is red; of an unlock it is told whose the mutex was. Under each block stand the items' values at its\n\
               end, of a mutex with its holder. Empty blocks at the end and lines that are not run are left out, and named\n\
               below the run. Pages fit A4, and cut no cell.\n\
               A solver's model in the place of the schedule is decoded first.\n\
               Exit status 0 where the picture is written, whatever the run comes to.\n",
    },
    Page {
        name: "file",
        usage: "file CASE DIR [OPTIONS]",
        summary: "solve a case, and file everything about it in a new folder",
        options: &[
            Choice {
                name: "--source",
                value: "FILE",
                does: "what the case was made from, to be filed with it; - is standard input",
            },
            SOLVER,
            SOLVER_COMMAND,
            TIMEOUT,
        ],
        more: "DIR must not be there; it is whole or not there. It gets the case, the listing, the text for solvers, the\n\
               solver's reply, what follows from it (assignment, schedule, run, picture), which asserts and unlocks are\n\
               reached, the verdict with what it means, a page for readers, and MANIFEST: the SHA-256 of each file, and what\n\
               it was made with. 'sha256sum -c MANIFEST' takes it as it is. See docs/FILING.md.\n\
               Exit status 1 where a violation is found; 0 for unsat and vacuous; 3 where there is no answer, which is\n\
               filed too; 2 where the case is refused, and then nothing is filed.\n",
    },
    Page {
        name: "verify",
        usage: "verify DIR [OPTIONS]",
        summary: "say, file by file, whether a filed folder is the same",
        options: &[
            Choice { name: "--solver", value: "z3|cvc5|both", does: "ask again, and compare the answer" },
            SOLVER_COMMAND,
            Choice { name: "--timeout", value: "S", does: "give a solver this many seconds for each question, 0 for no limit" },
            JSON,
        ],
        more: "Each file's SHA-256 is compared with MANIFEST, and all that follows from the case and the replies is made\n\
               again by the proved library and compared byte by byte. No solver is needed for that, and nothing is written.\n\
               Exit status 0 where all is the same; 1 where something differs, is missing or is not listed, or a solver\n\
               gives another answer; 2 where the filed case is refused; 3 where the folder cannot be read, or a solver that\n\
               is asked again gives no answer.\n",
    },
    Page {
        name: "help",
        usage: "help [COMMAND]",
        summary: "print this, or the help of a command",
        options: &[
            Choice { name: "--man", value: "", does: "print the manual page, for man" },
            Choice { name: "--bash-completion", value: "", does: "print the completion of commands and options, for bash" },
        ],
        more: "",
    },
];

/// What the command is.
pub const ABOUT: &str = "bounded checking of threaded cases, over a proved library";

pub const FILES: &str = "\
Files:
  CASE         the bytes of a case file, or its source (docs/SOURCE.md); '-' is standard input
  ASSIGNMENT   a number for each variable, or a solver's model (z3's or cvc5's) over v0, v1, ..
  SCHEDULE     block lengths, then input values
  Numbers are decimal, 0 to 65535, with white space or commas between them; '#' starts a comment to the
  line's end. '-' is standard input.
";

pub const STATUSES: &str = "\
Exit status:
  0  done
  1  a violation was found, an assignment fails, or a filed folder is not the same
  2  an input was refused; the message has the refusal's number, its place and what it means
  3  something else failed: a file, a solver, standard output, the arguments
";

/// `menduvo help`.
pub fn all() -> String {
    let mut text = format!("menduvo: {ABOUT}\n\nCommands:\n");
    let width = PAGES.iter().map(|page| page.usage.len()).max().unwrap_or(0);
    for page in PAGES {
        text.push_str(&format!("  {:width$}  {}\n", page.usage, page.summary));
    }
    text.push_str("  --version\n\n'menduvo COMMAND --help' says more about one. 'menduvo demo' shows the whole job.\n\n");
    text + FILES + "\n" + STATUSES
}

/// `menduvo COMMAND --help`.
pub fn one(page: &Page) -> String {
    let Page { usage, summary, more, .. } = page;
    format!("usage: menduvo {usage}\n\n{}.\n{more}{}\n{FILES}\n{STATUSES}", capitalised(summary), options(page))
}

/// The options with what they do, their further lines below the first.
fn options(page: &Page) -> String {
    let names = page.options.iter().map(|choice| format!("{} {}", choice.name, choice.value).trim_end().to_string());
    let width = names.clone().map(|name| name.len()).max().unwrap_or(0);
    let lines = names.zip(page.options).map(|(name, choice)| {
        let does = choice.does.replace('\n', &format!("\n{:indent$}", "", indent = width + 4));
        format!("  {name:width$}  {does}\n")
    });
    match page.options {
        [] => String::new(),
        _ => format!("\nOptions:\n{}", lines.collect::<String>()),
    }
}

pub fn capitalised(text: &str) -> String {
    let mut signs = text.chars();
    signs.next().map(|first| first.to_uppercase().collect::<String>() + signs.as_str()).unwrap_or_default()
}

pub fn named(name: &str) -> Option<&'static Page> {
    PAGES.iter().find(|page| page.name == name)
}
