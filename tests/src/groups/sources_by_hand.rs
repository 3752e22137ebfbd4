//! Sources worked out by hand: what is made of each, or where it is refused.
//! `made`, `3:5` for a place, or `refusal 2 at 3:5`.

use std::iter::repeat_n;

/// A source that is right, but for the words in question.
const HEAD: &str = "switches 0\nglobal G0 = 0\nmutex M0\nthread\nthread\n";

/// Behind `HEAD`, in the second thread: line 6 is its first.
const IN_THREAD: [(&str, &str); 60] = [
    ("", "made"),
    ("L0 = 0", "made"),
    ("L15 = 65535", "made"),
    ("L16 = 0", "6:1"),
    ("L00 = 0", "6:1"),
    ("L0 = 65536", "6:6"),
    ("L0 = 00", "6:6"),
    ("L0 = 0x1", "6:6"),
    ("L0 = -1", "6:6"),
    ("L0 = 1 + 1", "made"),
    ("L0 = 1 + 2", "6:10"),
    ("L0 = 1 + 01", "6:10"),
    ("L0 = 1 + L1", "made"),
    ("L0 = 1 + L1 + L2", "6:13"),
    ("L0 = 1 +", "6:9"),
    ("L0 = 1 +   # L1", "6:9"),
    ("L0 = G0", "made"),
    ("L0 = G0 + 1", "6:9"),
    ("L0 = 1 + G0", "6:10"),
    ("L0 = G1", "6:6"),
    ("L0 = M0", "6:6"),
    ("L0 = input", "made"),
    ("L0 = input + 1", "6:12"),
    ("L0 == 1", "6:4"),
    ("L0 === 1", "6:4"),
    ("L0 = = 1", "6:6"),
    ("L0 = L1 != 0", "6:9"),
    ("L0 = L1 > 0", "6:9"),
    ("L0 = L1 <= 1", "6:9"),
    ("L0=L1<1", "made"),
    ("G0 = G0", "6:6"),
    ("G0 = input", "6:6"),
    ("G1 = 0", "6:1"),
    ("M0 = 0", "6:1"),
    ("lock M0", "made"),
    ("lock M1", "6:6"),
    ("lock G0", "6:6"),
    ("lock", "6:5"),
    ("unlock M0 M0", "6:11"),
    ("assert L0", "made"),
    ("assert G0", "6:8"),
    ("assume 0", "made"),
    ("Assume 0", "6:1"),
    ("when L0 != 0: lock M0", "made"),
    ("when L0 == 0: lock M0", "made"),
    ("when L0 == 1: lock M0", "6:12"),
    ("when L0 < 0: lock M0", "6:9"),
    ("when G0 == 0: lock M0", "6:6"),
    ("when L0 ! = 0: lock M0", "6:9"),
    ("when L0 == 0 lock M0", "6:14"),
    ("when L0 == 0: record 1: lock M0", "6:15"),
    ("if L0 == 0: lock M0", "6:1"),
    ("global a = 0", "6:1"),
    ("mutex a", "6:1"),
    ("switches 0", "6:1"),
    ("thread thread", "6:8"),
    ("L0 = ü", "6:6"),
    ("L0 = 1 ü = 2 $", "6:8"),
    ("# ü\n# ü\nL0 = 1 = 2", "8:8"),
    ("L0 = 1\u{a0}", "6:7"),
];

/// Behind `HEAD`: names.
const NAMES: [(&str, &str); 26] = [
    ("local a = L0\na = 1", "made"),
    ("local a = L0\nL0 = 1", "7:1"),
    ("local a = L0\nb = a + L0", "7:1"),
    ("local a = L0\na = a + L0", "7:9"),
    ("local a = L0\nlocal a = L1", "7:7"),
    ("local a = L0\nlocal b = L0", "7:11"),
    ("local a = L0\nlocal b = a", "7:11"),
    ("local a = L0\nthread\nlocal a = L0\na = 1", "made"),
    ("local a = L0\nthread\na = 1", "8:1"),
    ("local a = L16", "6:11"),
    ("local a = G0", "6:11"),
    ("local L0 = L0", "6:7"),
    ("local L1 = L0", "6:7"),
    ("local L99 = L0", "6:7"),
    ("local G5 = L0", "6:7"),
    ("local M0 = L0", "6:7"),
    ("local L = L0\nlocal Lx = L1\nlocal l2 = L2\nL = Lx + l2", "made"),
    ("local end = L0", "6:7"),
    ("local End = L0", "made"),
    ("local _a = L0", "6:7"),
    ("local 1a = L0", "6:7"),
    ("local ä = L0", "6:7"),
    ("local a L0", "6:9"),
    ("local a", "6:8"),
    ("local", "6:6"),
    ("L1 = 1\nlocal a = L0", "7:1"),
];

/// Behind `HEAD`: record numbers. They are looked at when all else is right.
const RECORDS: [(&str, &str); 14] = [
    ("record 1: L0 = 1", "made"),
    ("record 0: L0 = 1", "6:1"),
    ("record 2: L0 = 1", "6:1"),
    ("  record 2: L0 = 1", "6:3"),
    ("L0 = 1\nrecord 1: L0 = 1", "7:1"),
    ("record 2: L0 = 1\nrecord 1: L0 = 1", "made"),
    ("record 2: L0 = 1\nL0 = 1", "7:1"),
    ("record 2: L0 = 1\nrecord 1: L0 = 1\nL0 = 1", "8:1"),
    ("record 3: L0 = 1\nrecord 1: L0 = 1\nL0 = 1", "made"),
    ("record 65535: L0 = 1\nL0 = 1", "6:1"),
    ("record 65536: L0 = 1", "6:8"),
    ("record 0: L0 = 1\nL0 = = 1", "7:6"),
    ("record 1 L0 = 1", "6:10"),
    ("record: L0 = 1", "6:7"),
];

/// Whole texts.
const TEXTS: [(&str, &str); 33] = [
    ("switches 0\nthread\nthread", "made"),
    ("\u{feff}switches 0\nthread\nthread", "made"),
    ("\u{feff} switch 0", "1:2"),
    ("switches 0\rthread\rthread\r", "made"),
    ("switches 0\r\nthread\r\nthread\r\n", "made"),
    ("\r\nswitches 0\n\rthread\r\r\nx", "6:1"),
    ("switches 0\nthread\n", "refusal 2 at 3:1"),
    ("switches 0\rthread\r", "refusal 2 at 3:1"),
    ("switches 0\r\nthread\r\n", "refusal 2 at 3:1"),
    ("switches 0\nthread # one", "refusal 2 at 2:13"),
    ("switches 0\nthread # ü", "refusal 2 at 2:11"),
    ("switches 0\n", "refusal 2 at 2:1"),
    ("\n", "2:1"),
    ("\r", "2:1"),
    ("# nothing", "1:10"),
    ("Switches 0", "1:1"),
    ("switches", "1:9"),
    ("switches 0 0", "1:12"),
    ("switches 0 global G0 = 0", "1:12"),
    ("thread\nswitches 0\nthread", "1:1"),
    ("switches 0\nswitches 0", "2:1"),
    ("switches 0\nmutex M0\nglobal G0 = 0", "3:1"),
    ("switches 0\nthread\nthread\nmutex M0", "4:1"),
    ("switches 0\nlocal a = L0", "2:1"),
    ("switches 0\nglobal G1 = 0", "2:8"),
    ("switches 0\nglobal a = 0\nglobal G0 = 0", "3:8"),
    ("switches 0\nglobal a = 0\nglobal a = 0", "3:8"),
    ("switches 0\nglobal a = 0\nmutex a", "3:7"),
    ("switches 0\nglobal a = 65535\nglobal G1 = 65536", "3:13"),
    ("switches 0\nglobal a = 0\nthread\nlocal a = L0", "4:7"),
    ("switches 0\nglobal a = 0\nthread\nG0 = 1", "4:1"),
    ("switches 0\nglobal a", "2:9"),
    ("switches 0\nglobal a = L0", "2:12"),
];

/// A source of so many statements of each sort; the lines of each thread.
fn sized(switches: u16, globals: usize, mutexes: usize, threads: &[usize]) -> String {
    let mut text = format!(" switches {switches}\n");
    text.extend((0..globals).map(|number| format!("  global G{number} = {number}\n")));
    text.extend((0..mutexes).map(|number| format!("  mutex M{number}\n")));
    for &lines in threads {
        text.push_str("  thread\n");
        text.extend(repeat_n("   L0 = 1\n", lines));
    }
    text
}

/// Both sides of every limit, and what is told first where two are passed.
fn limits() -> Vec<(String, &'static str)> {
    let name = |length: usize| format!("switches 0\nmutex {}\nthread\nthread", "n".repeat(length));
    vec![
        (sized(15, 8, 4, &[64; 4]), "made"),
        (sized(0, 0, 0, &[0; 2]), "made"),
        (sized(0, 0, 0, &[]), "refusal 2 at 2:1"),
        (sized(0, 0, 0, &[1]), "refusal 2 at 4:1"),
        (sized(0, 0, 0, &[1; 5]), "refusal 2 at 10:3"),
        (sized(0, 0, 0, &[0; 6]), "refusal 2 at 6:3"),
        (sized(16, 0, 0, &[0; 2]), "refusal 3 at 1:11"),
        (sized(65535, 9, 5, &[0; 2]), "refusal 3 at 1:11"),
        (sized(65535, 9, 5, &[0; 5]), "refusal 2 at 20:3"),
        (sized(15, 9, 0, &[0; 2]), "refusal 4 at 10:3"),
        (sized(15, 0, 5, &[0; 2]), "refusal 4 at 6:3"),
        (sized(15, 9, 5, &[0; 2]), "refusal 4 at 10:3"),
        (sized(15, 8, 5, &[65; 2]), "refusal 4 at 14:3"),
        (sized(15, 8, 4, &[65; 2]), "refusal 8 at 79:4"),
        (sized(15, 8, 4, &[64, 66]), "refusal 8 at 144:4"),
        (sized(15, 8, 4, &[0, 256]), "refusal 8 at 80:4"),
        (sized(15, 8, 4, &[0, 257]), "refusal 1 at 272:4"),
        (sized(15, 8, 4, &[64, 64, 64, 65]), "refusal 1 at 274:4"),
        (sized(16, 9, 5, &[60; 5]), "refusal 1 at 277:4"),
        (name(32), "made"),
        (name(33), "2:7"),
    ]
}

/// All of them.
pub fn examples() -> Vec<(String, &'static str)> {
    let in_thread = IN_THREAD.iter().chain(&NAMES).chain(&RECORDS);
    let behind = in_thread.map(|(text, wanted)| (format!("{HEAD}{text}"), *wanted));
    let whole = TEXTS.iter().map(|(text, wanted)| (text.to_string(), *wanted));
    behind.chain(whole).chain(limits()).collect()
}
