#!/usr/bin/env bash
# Tests the command menduvo as a user meets it: what it prints (compared with tests/command/*.expected), its exit statuses,
# damaged files, and outputs that fail. With --store it writes the expected texts anew.
set -u
cd -- "$(dirname -- "${BASH_SOURCE[0]}")/.." || exit
. tests/helpers.sh || exit

calling() {
    says 'the command is built' 0 'menduvo 0.' "$menduvo" --version
    same help 0 "$menduvo" help
    same help-solve 0 "$menduvo" solve --help
    local command
    for command in demo list smt show check decode replay fill step solve picture file verify help; do
        says "help $command" 0 "usage: menduvo $command" "$menduvo" help "$command"
        says "$command --help" 0 "usage: menduvo $command" "$menduvo" "$command" --help
    done
    says 'no command' 0 'Commands:' "$menduvo"
    says 'an unknown command' 3 "there is no command 'lst'" "$menduvo" lst
    says 'an unknown option' 3 "there is no option '--fast'" "$menduvo" list --fast cases/case-a.case
    says 'an option of another command' 3 "there is no option '-o'" "$menduvo" show cases/case-a.case -o x
    run "$menduvo" --version
    local version made='commit (unknown|[0-9a-f]{40}( with changes)?), library SHA-256 [0-9a-f]{64}'
    version=$(sed -n 's/^#define MENDUVO_VERSION "\(.*\)"/\1/p' bindings/menduvo.h)
    result 'the version is one line' eval '[[ $out =~ ^"menduvo $version ("$made")"$ ]]'
    says 'the manual and the completion at once' 3 'exclude each other' "$menduvo" help --man --bash-completion
    says 'the manual of a command' 3 "'list' is too much" "$menduvo" help --man list
    says 'an operand is missing' 3 'ASSIGNMENT is missing' "$menduvo" check cases/case-a.case
    says 'an operand too many' 3 "'x' is too much" "$menduvo" decode cases/case-a.case cases/case-a.assignment x
    says 'numbers in the place of a file' 3 "'1' is too much: numbers come from one file" "$menduvo" replay cases/case-a.case 2 1 2
    says 'a usage says where more is said' 3 "'menduvo replay --help' says more" "$menduvo" replay cases/case-a.case
    says 'an assignment for a schedule' 2 "an assignment has so many; 'menduvo decode' makes a schedule" \
        "$menduvo" replay cases/case-a.case cases/case-a.assignment
    says 'a file for a filed folder' 3 "a folder that 'menduvo file' made has one" "$menduvo" verify README.md
    says 'a folder that is not filed' 3 "a folder that 'menduvo file' made has one" "$menduvo" verify cases
    says 'an option twice' 3 '--solver is given twice' "$menduvo" solve cases/case-a.case --solver z3 --solver=z3
    says 'a value for an option that has none' 3 '--json takes no value' "$menduvo" list cases/case-a.case --json=yes
    says 'no seconds' 3 '--timeout needs seconds' "$menduvo" solve cases/case-a.case --timeout -1
    says 'no number of jobs' 3 '--jobs needs a number' "$menduvo" solve cases --jobs 0
    says 'two ways to name a solver' 3 'exclude each other' "$menduvo" solve cases --solver z3 --solver-command z3
    says 'a solver without a name' 3 'names no program' "$menduvo" solve cases --solver-command ' '
    says 'a value is missing' 3 '--solver needs a value' "$menduvo" solve cases/case-a.case --solver
    says 'an unknown solver' 3 "'yices' is not a solver that this command knows; --solver-command takes any other" "$menduvo" solve cases/case-a.case --solver yices
    says 'picture without -o' 3 '-o FILE.svg is missing' "$menduvo" picture cases/case-a.case cases/case-a.schedule
    says 'standard input twice' 3 'only one input' "$menduvo" check - -
    says 'a missing file' 3 'none.case: ' "$menduvo" list "$scratch/none.case"
    says 'a folder for a file' 3 'cases: ' "$menduvo" list cases
    cd "$scratch" && says 'it runs from any folder' 0 'menduvo 0.' "$menduvo" --version
    cd - >/dev/null || exit
}

# A case with every kind of line, guards of both sorts, and names with and without a copy.
every_kind() {
    fields 2 2 2 1 1 14 0 0 3 0 0 0 0 0 0 0
    fields 2 4 0 0 0 0 0 0    # L0 = input
    fields 3 1 0 1 2 0 16 3   # L1 = L0 - 3
    fields 4 3 2 2 0 0 0 0    # if L1 != 0: L2 = G0
    fields 5 2 18 0 4 2 0 0   # if L1 == 0: G0 = L2 | L0
    fields 6 4 4 2 0 0 0 0    # if L3 != 0: L2 = input
    fields 7 7 0 0 0 0 0 0    # lock M0
    fields 8 8 2 0 0 0 0 0    # if L1 != 0: unlock M0
    fields 9 7 2 0 0 0 0 0    # if L1 != 0: lock M0
    fields 10 6 0 0 6 0 2 0   # assume L0 < L2
    fields 11 5 18 0 0 2 0 0  # if L1 == 0: assert L2
    fields 12 2 0 0 0 16 0 7  # G0 = 7
    fields 13 3 0 4 0 0 0 0   # L4 = G0
    fields 0 5 0 0 3 4 4 0    # assert L4 & L4
    fields 15 2 0 1 1 0 16 1  # G1 = L0 + 1
    fields 0 6 1 0 1 16 16 9  # if L0 != 0: assume 9 + 9
}

reading() {
    local name
    same list-case-a 0 "$menduvo" list cases/case-a.case
    same list-words-case-a 0 "$menduvo" list --words cases/case-a.case
    for name in cases/*.case; do
        name=$(basename "$name" .case)
        same "show-$name" 0 "$menduvo" show "cases/$name.case"
        result "cases/$name.md" test -s "cases/$name.md"
    done
    same check-case-a 0 "$menduvo" check cases/case-a.case cases/case-a.assignment
    same decode-case-a 0 "$menduvo" decode cases/case-a.case cases/case-a.assignment
    same replay-case-a 1 "$menduvo" replay cases/case-a.case cases/case-a.schedule
    same replay-lost-update 1 "$menduvo" replay cases/lost-update.case cases/lost-update.schedule
    same replay-interlock 0 "$menduvo" replay cases/interlock.case cases/interlock.schedule
    same replay-interlock-broken 1 "$menduvo" replay cases/interlock-broken.case cases/interlock-broken.schedule
    same replay-lock-order 0 "$menduvo" replay cases/lock-order.case cases/lock-order.schedule
    same replay-handshake 1 "$menduvo" replay cases/handshake.case cases/handshake.schedule
    same replay-release-broken 1 "$menduvo" replay cases/release-broken.case cases/release-broken.schedule
    same replay-release 0 "$menduvo" replay cases/release.case cases/release.schedule
    for name in case-a lost-update interlock-broken handshake release-broken; do
        says "$name's assignment meets" 0 'meets: the assignment meets all' "$menduvo" check "cases/$name.case" "cases/$name.assignment"
        run "$menduvo" decode "cases/$name.case" "cases/$name.assignment"
        result "$name's assignment decodes to its schedule" cmp -s "$scratch/out" <(sed 1d "cases/$name.schedule")
    done
    # A broken assertion before a cut-off is no violation, but the run that stops there violates: assert 0, then assume 0.
    fields 2 0 0 0 1 0 0 0 0 0 0 0 0 0 0 0 2 5 0 0 0 16 0 0 0 6 0 0 0 16 0 0 >"$scratch/vain.case"
    same replay-in-vain 0 "$menduvo" replay "$scratch/vain.case" <(echo 2)
    same replay-stops 1 "$menduvo" replay "$scratch/vain.case" <(echo 1)
    echo 0 0 1 1 >"$scratch/stops"
    says 'a line that was not run meets its constraints' 0 'meets all 9 constraints' "$menduvo" check "$scratch/vain.case" "$scratch/stops"
    run "$menduvo" decode "$scratch/vain.case" "$scratch/stops"
    result 'it counts in no block' test "$status, $out" = '0, 1'
    # So is an unlock by a stranger: unlock M0, which is free, then assume 0.
    fields 2 0 0 1 1 0 0 0 0 0 0 0 0 0 0 0 2 8 0 0 0 0 0 0 0 6 0 0 0 16 0 0 >"$scratch/vain.case"
    same replay-stranger-in-vain 0 "$menduvo" replay "$scratch/vain.case" <(echo 2)
    same replay-stranger-stops 1 "$menduvo" replay "$scratch/vain.case" <(echo 1)
    # A violating schedule that breaks the rule, at one line and at two; and one that does not violate.
    same replay-late 1 "$menduvo" replay cases/handshake.source <(echo 1 3 1 0 1)
    same replay-late-twice 1 "$menduvo" replay cases/handshake.source <(echo 1 1 0 2 1 0 1) --switches 6
    run "$menduvo" replay cases/handshake.source <(echo 1 3 2 0 0)
    result 'the schedule that is named' eval '[ "$status" = 1 ] && [[ $out != *"no assignment"* ]]'
    run "$menduvo" replay cases/case-a.case <(echo 3 0 1)
    result 'nothing is said of a clean one' eval '[ "$status" = 0 ] && [[ $out != *"no assignment"* ]]'
    # A run of no line at all.
    same replay-nothing 0 "$menduvo" replay cases/case-a.case <(echo 0 0 0)
    # No record, no switch: one constraint, over no variable.
    fields 2 0 0 0 0 0 0 0 0 0 0 0 0 0 0 0 >"$scratch/empty.case"
    same check-empty 1 "$menduvo" check "$scratch/empty.case" /dev/null
    same list-words-empty 0 "$menduvo" list --words "$scratch/empty.case"
    every_kind >"$scratch/kinds.case"
    same list-words-kinds 0 "$menduvo" list --words "$scratch/kinds.case"
    run "$menduvo" list "$scratch/kinds.case" && cp "$scratch/out" "$scratch/list"
    result "the words stand beside the listing's rows" cmp -s <(sed 1d "$scratch/list") \
        <(sed -nE 's/^ *[0-9]+: ([0-9 ]*[0-9])  .*/\1/p' tests/command/list-words-kinds.expected)
    same picture-case-a 0 "$menduvo" picture cases/case-a.case cases/case-a.schedule -o -
    same picture-lock-order 0 "$menduvo" picture cases/lock-order.case cases/lock-order.schedule -o -
    same picture-handshake 0 "$menduvo" picture cases/handshake.case cases/handshake.schedule -o -
    same picture-release-broken 0 "$menduvo" picture cases/release-broken.case cases/release-broken.schedule -o -
    says 'picture to a file' 0 'violated' "$menduvo" picture cases/case-a.case cases/case-a.schedule -o "$scratch/a.svg"
    result 'the file has the picture' cmp -s "$scratch/a.svg" tests/command/picture-case-a.expected
    says 'a picture replaces no file' 3 'a.svg is there already; --force replaces it' \
        "$menduvo" picture cases/lock-order.case cases/lock-order.schedule -o "$scratch/a.svg"
    result 'the picture is still there' cmp -s "$scratch/a.svg" tests/command/picture-case-a.expected
    says 'a picture replaces a file' 0 'cut off' \
        "$menduvo" picture cases/lock-order.case cases/lock-order.schedule -o "$scratch/a.svg" --force
    result 'the picture is replaced' cmp -s "$scratch/a.svg" tests/command/picture-lock-order.expected
    cp cases/case-a.schedule "$scratch/input.schedule"
    says 'a picture replaces no input' 3 'input.schedule is an input' \
        "$menduvo" picture cases/case-a.case "$scratch/input.schedule" -o "$scratch/input.schedule" --force
    says 'a picture without a name' 3 '-o FILE.svg is missing' "$menduvo" picture cases/case-a.case cases/case-a.schedule -o ''
    says 'picture to a place that is not there' 3 'a.svg: ' \
        "$menduvo" picture cases/case-a.case cases/case-a.schedule -o "$scratch/none/a.svg"
}

# Who holds a mutex, and whose it was that a stranger unlocks. Eight blocks of four threads over two mutexes.
holders() {
    local case=$scratch/holders.source schedule wanted text
    printf '%s\n' 'switches 7' 'mutex gate' 'mutex sluice' \
        thread 'lock gate' 'unlock sluice' 'assert 0' \
        thread 'lock sluice' 'unlock gate' 'assume 0' \
        thread 'when L0 != 0: unlock gate' 'lock gate' 'unlock gate' 'lock sluice' \
        thread 'unlock sluice' 'lock sluice' 'lock sluice' >"$case"
    while IFS='~' read -r schedule wanted text; do
        # shellcheck disable=SC2086 # several numbers
        says "holders, $schedule: $text" "$wanted" "$text" "$menduvo" replay "$case" <(echo $schedule)
    done <<'RUNS'
1 0 0 0 0 0 0 0~0~lock gate  gate = 1 (held by thread 0)
1 0 0 0 0 0 0 0~0~end: gate = 1 (held by thread 0), sluice = 0 (free)
0 1 0 0 0 0 0 0~0~end: gate = 0 (free), sluice = 2 (held by thread 1)
0 0 2 0 0 0 0 0~0~end: gate = 3 (held by thread 2), sluice = 0 (free)
0 0 0 2 0 0 0 0~1~end: gate = 0 (free), sluice = 4 (held by thread 3)
0 0 0 1 0 0 0 0~1~>> line  1  record  11  unlock sluice  STRANGER: sluice was free
0 0 0 1 0 0 0 0~1~violated: record 11 (thread 3, line 1: unlock sluice) is an unlock by a stranger: sluice was free
0 1 0 1 0 0 0 0~1~>> line  1  record  11  unlock sluice  STRANGER: thread 1 held sluice
0 1 0 1 0 0 0 0~1~end: gate = 0 (free), sluice = 0 (free)
1 2 0 0 0 0 0 0~1~(thread 1, line 2: unlock gate) is an unlock by a stranger: thread 0 held gate
0 1 2 0 0 1 0 0~1~(thread 1, line 2: unlock gate) is an unlock by a stranger: thread 2 held gate
1 0 0 2 1 0 0 0~1~violated: record 11 (thread 3, line 1: unlock sluice) is an unlock by a stranger: sluice was free
1 0 0 2 1 0 0 0~1~STRANGER: thread 3 held sluice
0 0 1 0 0 0 0 0~0~skipped: L0 is 0
0 0 1 0 0 0 0 0~0~clean: nothing cuts the run off, and no line violates
0 0 3 0 0 0 0 0~0~clean: nothing cuts the run off, and no line violates
0 0 0 2 0 0 0 1~0~CUT OFF: thread 3 holds sluice
0 0 0 2 0 0 0 1~0~record 11 is an unlock by a stranger too, but a run that is cut off is not legal; one that stops before record 13 violates
1 3 0 0 0 0 0 0~0~record 5 is an unlock by a stranger too, but a run that is cut off is not legal; one that stops before record 6 violates
3 0 0 0 0 0 0 0~1~violated: record 2 (thread 0, line 2: unlock sluice) is an unlock by a stranger: sluice was free
RUNS
    # The first of either sort: an assert, then a stranger, whose record is the lower one.
    printf '%s\n' 'switches 1' 'mutex gate' thread 'assert 0' thread 'record 1: unlock gate' >"$case"
    sed -i 's/^assert 0/record 2: assert 0/' "$case"
    says 'an assert before a stranger' 1 'violated: record 2 (thread 0, line 1: assert 0) is broken' "$menduvo" replay "$case" <(echo 1 1)
    says 'a stranger alone' 1 'violated: record 1 (thread 1, line 1: unlock gate) is an unlock by a stranger: gate was free' \
        "$menduvo" replay "$case" <(echo 0 1)
    # Where there are no names.
    says 'a mutex without a name' 1 'is an unlock by a stranger: thread 0 held M0' \
        "$menduvo" replay cases/release-broken.case cases/release-broken.schedule
    # What a library says of it is all that is asked: a schedule with inputs that are not run, and a guard.
    printf '%s\n' 'switches 2' 'mutex gate' thread 'lock gate' 'L0 = input' 'L1 = input' thread 'L2 = input' 'when L2 != 0: unlock gate' \
        'L3 = input' >"$case"
    says 'inputs before it' 1 'is an unlock by a stranger: thread 0 held gate' "$menduvo" replay "$case" <(echo 2 2 0 7 0 5 0)
    says 'and behind it' 1 'is an unlock by a stranger: thread 0 held gate' "$menduvo" replay "$case" <(echo 2 3 1 7 8 5 9)
    says 'and a guard that is false' 0 'clean: ' "$menduvo" replay "$case" <(echo 2 3 1 7 8 0 9)
}

# The text of case A on the page that fixes it: the first block after its head.
text_on_the_page() {
    sed -n '/^## Case A$/,$p' docs/SMT-TEXT.md | sed -n '/^```text$/,/^```$/p' | sed '1d;/^```$/,$d'
}

# smt_is NAME FILE WORDS..: 'menduvo smt' with these words prints the bytes of the file.
smt_is() {
    local name=$1 file=$2
    shift 2
    run "$menduvo" smt "$@"
    result "$name" eval '[ "$status" = 0 ] && [ -s "$file" ] && cmp -s "$scratch/out" "$file"'
}

texts() {
    local file=$scratch/a.smt2
    text_on_the_page >"$scratch/page"
    smt_is "case A's text is that of its page" "$scratch/page" cases/case-a.case
    smt_is 'of its source, too' "$scratch/page" cases/case-a.source
    run bash -c "$menduvo smt - <cases/case-a.case"
    result 'of a case on standard input' cmp -s "$scratch/out" "$scratch/page"
    says 'a text to a file' 0 'a.smt2: 19 constraints over 12 variables, in 1524 bytes' "$menduvo" smt cases/case-a.case -o "$file"
    result 'the file has the text, and nothing else' cmp -s "$file" "$scratch/page"
    says 'a text replaces no file' 3 'a.smt2 is there already; --force replaces it' "$menduvo" smt cases/lock-order.case -o "$file"
    result 'the text is still there' cmp -s "$file" "$scratch/page"
    says 'a text replaces a file' 0 'a.smt2: ' "$menduvo" smt cases/lock-order.case -o "$file" --force
    smt_is 'the text is replaced' "$file" cases/lock-order.case
    smt_is 'standard output by name' "$file" cases/lock-order.case -o -
    cp cases/case-a.case "$scratch/input.case"
    says 'a text replaces no input' 3 'input.case is an input' "$menduvo" smt "$scratch/input.case" -o "$scratch/input.case" --force
    damaged 1 3 && "$menduvo" smt "$scratch/damaged.case" >"$scratch/three.smt2"
    smt_is 'a text with another n' "$scratch/three.smt2" cases/case-a.case --switches 3
    says 'it has that n' 0 '(bvule v8 #x0004)' "$menduvo" smt cases/case-a.case --switches 3
    says 'nothing to force' 3 '--force needs -o' "$menduvo" smt cases/case-a.case --force
    says 'a file without a name' 3 '-o FILE is missing' "$menduvo" smt cases/case-a.case -o ''
    says 'one text at a time' 3 "'cases/lock-order.case' is too much" "$menduvo" smt cases/case-a.case cases/lock-order.case
    damaged 27 1
    says 'a refused case has no text' 2 'refusal 9, place 2' "$menduvo" smt "$scratch/damaged.case" -o "$scratch/none.smt2"
    result 'no file is left' test ! -e "$scratch/none.smt2"
    run bash -c "$menduvo smt '$scratch/damaged.case' 2>'$scratch/errors'"
    result 'nothing is printed' eval '[ "$status" = 2 ] && [ -z "$out" ] && [ -s "$scratch/errors" ]'
    says 'an n that is refused' 2 'refusal 3, place 0' "$menduvo" smt cases/case-a.case --switches 16
    # No record, no switch: one assertion, which nothing meets.
    fields 2 0 0 0 0 0 0 0 0 0 0 0 0 0 0 0 >"$scratch/empty.case"
    printf '%s\n' '(set-logic QF_BV)' '(assert false)' '(check-sat)' >"$scratch/empty.smt2"
    smt_is 'the smallest text' "$scratch/empty.smt2" "$scratch/empty.case"
}

numbers() {
    local model
    run bash -c "$menduvo list - <cases/case-a.case"
    result 'a case on standard input' cmp -s "$scratch/out" tests/command/list-case-a.expected
    run bash -c "tr ' ' ',' <cases/case-a.schedule | $menduvo replay cases/case-a.case -"
    result 'a schedule on standard input, with commas' cmp -s "$scratch/out" tests/command/replay-case-a.expected
    for model in tests/command/*.model; do
        says "$model is checked" 0 'meets' "$menduvo" check cases/case-a.case "$model"
        says "$model is decoded" 0 '2 1 2' "$menduvo" decode cases/case-a.case "$model"
        says "$model is replayed" 1 'violated: record 4' "$menduvo" replay cases/case-a.case "$model"
        head -c 100 "$model" >"$scratch/cut.model"
        says "$model, cut" 2 'not a whole model' "$menduvo" check cases/case-a.case "$scratch/cut.model"
    done
    local text
    while IFS='|' read -r text message; do
        echo "$text" >"$scratch/text"
        says "the text '$text'" 2 "text: $message" "$menduvo" check cases/case-a.case "$scratch/text"
    done <<'TEXTS'
0 0 0 x|line 1, column 7: 'x' is not a number
65536|line 1, column 1: '65536' is not a number
-1|line 1, column 1: '-1' is not a number
1.5|line 1, column 1: '1.5' is not a number
unsat|a solver's answer 'unsat'
(hello)|no value of v0
((v0 #x0000) (v0 #x0000))|line 1: v0 has two values
((v12 #x0000))|line 1: v12 has a value, but the case has 12 variables
((v0 #x00000))|line 1: the value of v0 is not a constant of 16 bits
((v0 #x0000)))|line 1: a parenthesis too many
((((((((((v0 #x0000))))))))))|line 1: too many parentheses
TEXTS
    head -c 300 /dev/urandom >"$scratch/noise" && printf '\xff' >>"$scratch/noise"
    says 'noise for numbers' 2 'not text' "$menduvo" check cases/case-a.case "$scratch/noise"
}

# Refusals 1 to 15 but 10, which this command's slices never meet (tests/command_fill.sh has 16 and 17): number, place, meaning, and what helps to mend it.
refusals() {
    head -c 100 cases/case-a.case >"$scratch/damaged.case" && same refusal-1 2 "$menduvo" show "$scratch/damaged.case"
    : >"$scratch/damaged.case" && same refusal-1-empty 2 "$menduvo" list "$scratch/damaged.case"
    damaged 0 5 && same refusal-2 2 "$menduvo" show "$scratch/damaged.case"
    damaged 1 16 && same refusal-3 2 "$menduvo" show "$scratch/damaged.case"
    damaged 2 9 && same refusal-4 2 "$menduvo" show "$scratch/damaged.case"
    damaged 6 3 && same refusal-5 2 "$menduvo" show "$scratch/damaged.case"
    damaged 48 6 && same refusal-6-over 2 "$menduvo" show "$scratch/damaged.case"
    damaged 40 1 && same refusal-6-twice 2 "$menduvo" show "$scratch/damaged.case"
    damaged 5 0 && same refusal-7 2 "$menduvo" show "$scratch/damaged.case"
    damaged 27 1 && same refusal-9 2 "$menduvo" show "$scratch/damaged.case"
    same refusal-9-list 2 "$menduvo" list "$scratch/damaged.case"
    run "$menduvo" list --words "$scratch/damaged.case"
    result 'a refused case has no words' eval '[ "$status" = 2 ] && cmp -s "$scratch/out" tests/command/refusal-9-list.expected'
    damaged 17 9 && same refusal-9-kind 2 "$menduvo" show "$scratch/damaged.case"
    local record records=()
    for record in {2..65} 0; do records+=("$record" 7 0 0 0 0 0 0); done
    fields 2 0 0 1 1 0 0 0 0 0 0 0 0 0 0 0 "${records[@]}" >"$scratch/damaged.case"
    same refusal-8 2 "$menduvo" show "$scratch/damaged.case"
    echo 0 0 0 >"$scratch/short" && same refusal-11 2 "$menduvo" check cases/case-a.case "$scratch/short"
    echo 2 1 >"$scratch/short" && same refusal-12 2 "$menduvo" replay cases/case-a.case "$scratch/short"
    echo 4 2 1 >"$scratch/wrong" && same refusal-13 2 "$menduvo" replay cases/case-a.case "$scratch/wrong"
    # An input line with guard 'L0 is not zero', which is false.
    fields 2 0 0 0 1 0 0 0 0 0 0 0 0 0 0 0 0 4 1 3 0 0 0 0 >"$scratch/input.case"
    echo 1 7 >"$scratch/stray" && same refusal-14 2 "$menduvo" replay "$scratch/input.case" "$scratch/stray"
    echo 0 7 >"$scratch/stray" && same refusal-14-not-run 2 "$menduvo" replay "$scratch/input.case" "$scratch/stray"
    # L0 = input in each thread, and then an assume 0 in thread 0: what cuts the run off comes before an input that was not run.
    fields 2 1 0 0 1 3 0 0 0 0 0 0 0 0 0 0 2 4 0 0 0 0 0 0 0 6 0 0 0 16 0 0 0 4 0 0 0 0 0 0 >"$scratch/inputs.case"
    says 'an input behind a cut-off' 0 'cut off: record 2' "$menduvo" replay "$scratch/inputs.case" <(echo 2 0 5 7)
    says 'an input that was not run' 2 'refusal 14, place 3' "$menduvo" replay "$scratch/inputs.case" <(echo 1 0 5 7)
    says 'the first by thread and chain' 2 'refusal 14, place 1' "$menduvo" replay "$scratch/inputs.case" <(echo 0 0 5 7)
    says 'without values it is taken' 0 'clean: ' "$menduvo" replay "$scratch/inputs.case" <(echo 0 1 0 7)
    echo 0 0 0 2 2 5 2 0 1 5 1 5 >"$scratch/fails" && same refusal-15 1 "$menduvo" decode cases/case-a.case "$scratch/fails"
    same check-fails 1 "$menduvo" check cases/case-a.case "$scratch/fails"
    says 'a picture of a refused schedule' 2 'refusal 13' \
        "$menduvo" picture cases/case-a.case "$scratch/wrong" -o "$scratch/none.svg"
    result 'no picture is left' test ! -e "$scratch/none.svg"
    says 'a case that never ends' 2 'refusal 1, place 0' bash -c "$menduvo show - </dev/zero"
    says 'numbers that never end' 2 'over 1048576 bytes' bash -c "yes 1 | $menduvo check cases/case-a.case -"
}

outputs() {
    run bash -c "$menduvo list cases/case-a.case >&-"
    result 'standard output is closed' eval '[ "$status" = 3 ] && [[ $out = *"standard output is closed"* ]]'
    run bash -c "$menduvo list cases/case-a.case >/dev/full"
    result 'standard output is full' eval '[ "$status" = 3 ] && [[ $out = *"standard output: "* ]]'
    run bash -c "{ sleep 0.2; $menduvo list cases/case-a.case; echo \$? >'$scratch/status'; } | true"
    result 'nobody reads standard output' eval '[ "$out" = "" ] && [ "$(<"$scratch/status")" = 3 ]'
    run bash -c "$menduvo show cases/interlock.case | head -n 1"
    result 'head reads a line' eval '[ "$status" = 0 ] && [ "$(wc -l <"$scratch/out")" = 1 ]'
    run bash -c "$menduvo list none.case 2>&-"
    result 'standard error is closed' test "$status" = 3
}

calling
reading
holders
texts
numbers
refusals
outputs
finish
