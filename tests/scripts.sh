#!/usr/bin/env bash
# Tests what scripts build on: every object that the command prints with --json is as docs/output.schema.json says, text and
# objects agree, and the commands of docs/PARALLEL.md do what stands there. tests/json reads the objects and holds them to the
# schema; tests/validator.sh tests that it can say no.
set -u
cd -- "$(dirname -- "${BASH_SOURCE[0]}")/.." || exit
. tests/helpers.sh || exit
json=$PWD/target/json/release/menduvo-json
schema=$PWD/docs/output.schema.json
export TMPDIR=$scratch

# ---- The objects.

# called ARGUMENTS..: calls the command with --json. Sets status; the objects stay in a file, and so do messages.
called() {
    env PATH="$seen" timeout 60 "$menduvo" "$@" --json >"$scratch/objects" 2>"$scratch/errors" <"${input:-/dev/null}"
    status=$?
    out=$(cat "$scratch/objects" "$scratch/errors")
    cat "$scratch/objects" >>"$scratch/all"
}

get() {
    "$json" get "$@" <"$scratch/objects" 2>&1
}

# has LINES STATUSES ANSWERS: so many valid objects were printed, with these statuses and these answers.
has() {
    [ "$("$json" validate "$schema" <"$scratch/objects" 2>&1)" = "$1 lines, all valid" ] &&
        [ "$(get status)" = "$2" ] && [ "$(get answer)" = "$3" ]
}

# object NAME STATUS ANSWER ARGUMENTS..: with --json the command prints one object with this status and this answer, and ends
# with that status, as it does without.
object() {
    local name=$1 wanted=$2 answer=$3 plain
    shift 3
    env PATH="$seen" timeout 60 "$menduvo" "$@" >"$scratch/text" 2>"$scratch/told" <"${input:-/dev/null}"
    plain=$?
    called "$@"
    result "$name" eval '[ "$plain" = "$wanted" ] && [ "$status" = "$wanted" ] && has 1 "$wanted" "$answer"'
}

# is NAME VALUE FIELD..: the field of the object has this value.
is() {
    local name=$1 wanted=$2 value
    shift 2
    value=$(get "$@")
    result "$name: $* is $value" test "$value" = "$wanted"
}

# tells NAME: what is told on standard error is the object's message, as it is without --json.
tells() {
    local lines=() line count
    count=$(get message)
    [[ $count =~ ^[0-9]+$ ]] || count=0
    for ((line = 0; line < count; line++)); do lines+=("$(get message "$line")"); done
    printf 'menduvo: %s\n' "$(printf '%s\n' "${lines[@]:-}")" >"$scratch/message"
    result "$1, the message" eval 'cmp -s "$scratch/message" "$scratch/errors" && cmp -s "$scratch/told" "$scratch/errors"'
}

checks() {
    object 'check, meets' 0 meets check cases/case-a.case cases/case-a.assignment
    is 'check, meets' cases/case-a.case case
    is 'check, meets' cases/case-a.assignment assignment
    is 'check, meets' 19 constraints
    result 'no message' test ! -s "$scratch/errors"
    echo 0 0 0 2 2 5 2 0 1 5 1 5 >"$scratch/fails"
    object 'check, fails' 1 fails check cases/case-a.case "$scratch/fails"
    local constraint line
    constraint=$(get constraint)
    result 'the constraint is the one of the text' grep -q "fails constraint $constraint\$" "$scratch/text"
    result 'the row is that constraint' test "$(sed -n $((constraint + 1))p tests/command/list-case-a.expected)" = \
        "$(for line in {0..5}; do get row "$line"; done | tr '\n' ' ' | sed 's/ $//')"
    for ((line = 0; line < $(get words); line++)); do get words "$line"; done >"$scratch/words"
    result 'the words are those of the text' cmp -s "$scratch/words" <(sed -n 's/^  //p' "$scratch/text")
    fields 2 0 0 0 0 0 0 0 0 0 0 0 0 0 0 0 >"$scratch/empty.case"
    object 'check, one constraint over nothing' 1 fails check "$scratch/empty.case" /dev/null
}

replays() {
    object 'replay, violated' 1 violated replay cases/case-a.case cases/case-a.schedule
    is 'replay, violated' 4 record
    result 'the record is the one of the text' grep -q '^violated: record 4 ' "$scratch/text"
    is 'replay, violated' 3 schedule
    is 'replay, violated' G0 items 0 name
    result 'the items are those of the text' grep -q "^end: G0 = $(get items 0 value)\$" "$scratch/text"
    is 'replay, violated' 0 notRun
    is 'replay, violated' 5 steps
    result 'the steps are those of the text' test "$(grep -c ' record ' "$scratch/text")" = 6
    local field step=
    for field in block thread line record does event words; do step+="$(get steps 2 "$field"), "; done
    result 'a step' test "$step" = '1, 1, 1, 5, G0 = 5, set, G0 = 5, '
    step=
    for field in block thread line record event words; do step+="$(get steps 4 "$field"), "; done
    result 'the broken one' test "$step" = '2, 0, 4, 4, broken, 5 == 1 is false, '
    is 'replay without values' 'line 1: has no steps/1/items' steps 1 items
    object 'replay, with values' 1 violated replay cases/case-a.case cases/case-a.schedule --values
    is 'replay, with values' 5 steps
    is 'replay, with values' 1 steps 1 items 0 value
    is 'replay, with values' 5 steps 2 items 0 value
    is 'replay, violated' 0 late
    echo 1 1 0 2 1 0 1 >"$scratch/late"
    object 'replay, late' 1 violated replay cases/handshake.case "$scratch/late" --switches 6
    is 'replay, late' 2 late
    result 'the late lines' test "$(get late 0), $(get late 1)" = '3, 13'
    object 'replay, clean' 0 clean replay cases/interlock.case cases/interlock.schedule
    is 'replay, clean' null record
    object 'replay, cut off' 0 'cut off' replay cases/lock-order.case cases/lock-order.schedule
    result 'the record is the one of the text' grep -q "^cut off: record $(get record) " "$scratch/text"
    object 'replay, stopped' 1 violated replay cases/handshake.case cases/handshake.schedule
    is 'replay, stopped' 6 steps
    is 'replay, stopped' 17 notRun
    result 'the lines that were not run' test "$(get notRun 0), $(get notRun 7), $(get notRun 8), $(get notRun 16)" = '4, 11, 15, 23'
    result 'no holder of a global' eval '[[ $(get items 0 holder) = *"has no items/0/holder" ]]'
    object 'replay, a stranger' 1 violated replay cases/release-broken.case cases/release-broken.schedule --values
    is 'replay, a stranger' 11 record
    result 'the fault' test "$(get fault record), $(get fault kind), $(get fault mutex), $(get fault holder)" = '11, unlock, M0, 0'
    result 'the record is the one of the text' grep -q '^violated: record 11 .*: thread 0 held M0$' "$scratch/text"
    result 'its step' test "$(get steps 6 event), $(get steps 6 words)" = 'stranger, thread 0 held M0'
    result 'the items before it' test "$(get steps 5 items 2 name), $(get steps 5 items 2 value), $(get steps 5 items 2 holder)" = 'M0, 1, 0'
    result 'and after it' test "$(get steps 6 items 2 value), $(get steps 6 items 2 holder), $(get items 2 holder)" = '0, null, null'
    echo 0 5 0 >"$scratch/free.schedule"
    object 'replay, not a stranger' 0 clean replay cases/release-broken.case "$scratch/free.schedule"
    is 'replay, not a stranger' null fault
    # Thread 1 unlocks M0, which is free.
    fields 2 1 0 1 0 1 0 0 0 0 0 0 0 0 0 0 0 8 0 0 0 0 0 0 >"$scratch/free.case"
    echo 0 1 >"$scratch/free.schedule"
    object 'replay, a stranger to a free mutex' 1 violated replay "$scratch/free.case" "$scratch/free.schedule"
    result 'its fault' test "$(get fault kind), $(get fault mutex), $(get fault holder)" = 'unlock, M0, null'
    object 'replay, an assert' 1 violated replay cases/case-a.case cases/case-a.schedule
    result 'its fault' test "$(get fault record), $(get fault kind), $(get fault mutex 2>&1)" = '4, assert, line 1: has no fault/mutex'
    object 'replay, held at the end' 0 'cut off' replay cases/lock-order.case cases/lock-order.schedule
    result 'by whom' test "$(get items 1 holder), $(get items 2 holder), $(get fault)" = '0, 1, null'
    object 'replay of a model' 1 violated replay cases/case-a.case tests/command/z3.model
    is 'replay of a model' 3 schedule
    sed 's/#x0001/#x0002/' tests/command/z3.model >"$scratch/wrong.model"
    object 'replay of a model that fails' 1 refused replay cases/case-a.case "$scratch/wrong.model"
    is 'replay of a model that fails' 15 refusal number
    is 'replay of a model that fails' "$scratch/wrong.model" input
    tells 'replay of a model that fails'
}

# tests/command_fill.sh has what they say; here they are among those that are damaged.
fills() {
    object 'fill, filled' 0 filled fill cases/case-a.case cases/case-a.schedule
    echo 1 1 3 >"$scratch/clean"
    object 'fill, clean' 2 refused fill cases/case-a.case "$scratch/clean"
    object 'fill, cut off' 2 refused fill cases/lock-order.case cases/lock-order.schedule
    object 'fill, late' 2 refused fill cases/handshake.case "$scratch/late" --switches 6
    object 'fill of a model that fails' 1 refused fill cases/case-a.case "$scratch/wrong.model"
}

listings() {
    local name
    for name in cases/*.case; do
        object "list $name" 0 listed list "$name"
        # The rows, written as the listing has them.
        { echo "$(get constraints) $(get variables)"
            sed 's/.*"rows":\[\[//; s/\]\].*//; s/\],\[/\n/g' "$scratch/objects" | tr , ' '
        } >"$scratch/rows"
        result "list $name: the rows are those of the text" cmp -s "$scratch/rows" "$scratch/text"
        object "list --words $name" 0 listed list --words "$name"
        result "list --words $name: the words are those of the text" cmp -s \
            <(sed 's/.*"words":\["//; s/"\]}$//; s/","/\n/g' "$scratch/objects") \
            <(sed -nE 's/^ *[0-9]+: [0-9 ]*[0-9]  +//p' "$scratch/text")
        object "show $name" 0 shown show "$name"
        is "show $name" "$name" case
        result "show $name: the counts are those of the text" grep -q \
            "^$(get constraints) constraints over $(get variables) variables\$" "$scratch/text"
        # Each line with its copies, written as the text has it but for the width of its columns.
        grep -o '{"line":[0-9]*,"record":[0-9]*,"guard":[^,]*,"does":"[^"]*","copies":\[[^]]*' "$scratch/objects" | sed -E '
            s/\{"line":([0-9]+),"record":([0-9]+),"guard":(null|"[^"]*"),"does":"([^"]*)","copies":\[/\1 \2 \3 \4 /
            s/ null / always /
            s/\{"name":("[^"]*"),"copy":0\}/\1: none/g
            s/\{"name":("[^"]*"),"copy":([0-9]+)\}/\1: \2/g
            s/,"/, /g
            s/"//g' >"$scratch/rows"
        grep -E '^ +[0-9]+ +[0-9]+ ' "$scratch/text" | tr -s ' ' | sed 's/^ //' >"$scratch/lines"
        result "show $name: the lines are those of the text" cmp -s "$scratch/rows" "$scratch/lines"
        result "show $name: there are lines" test -s "$scratch/lines"
    done
    object 'show, a case without a record' 0 shown show "$scratch/empty.case"
    # L0 = L0 + L0
    fields 2 0 0 0 1 0 0 0 0 0 0 0 0 0 0 0 0 1 0 0 1 0 0 0 >"$scratch/double.case"
    object 'show, a name three times' 0 shown show "$scratch/double.case"
    is 'show, a name three times' 1 threads 0 lines 0 copies
    is 'show, a name three times' L0 threads 0 lines 0 copies 0 name
}

# What is refused, and what is not there: in every command, for every input.
failures() {
    local command
    damaged 0 5
    for command in list show solve; do
        object "$command, a refused case" 2 refused "$command" "$scratch/damaged.case"
        is "$command, a refused case" 2 refusal number
        is "$command, a refused case" "$scratch/damaged.case" input
        tells "$command, a refused case"
        object "$command, no case" 3 failed "$command" "$scratch/none.case"
        tells "$command, no case"
        object "$command, a case on standard input that is refused" 2 refused "$command" -
        is "$command, a case on standard input" 'standard input' case
    done
    for command in check replay fill; do
        object "$command, a refused case" 2 refused "$command" "$scratch/damaged.case" cases/case-a.assignment
        is "$command, a refused case" "$scratch/damaged.case" input
        object "$command, no case" 3 failed "$command" "$scratch/none.case" cases/case-a.assignment
        object "$command, no numbers" 3 failed "$command" cases/case-a.case "$scratch/none"
        tells "$command, no numbers"
        echo 1 2 x >"$scratch/short"
        object "$command, no number" 2 refused "$command" cases/case-a.case "$scratch/short"
        is "$command, no number" null refusal
        is "$command, no number" "$scratch/short" input
        is "$command, no number" cases/case-a.case case
        tells "$command, no number"
        echo 1 >"$scratch/short"
        object "$command, too few numbers" 2 refused "$command" cases/case-a.case "$scratch/short"
        is "$command, too few numbers" "$scratch/short" input
        tells "$command, too few numbers"
        input=cases/case-a.case object "$command, both from standard input and a file" 2 refused "$command" - "$scratch/short"
        called "$command" cases/case-a.case
        result "$command, wrong arguments have no object" eval '[ "$status" = 3 ] && [ ! -s "$scratch/objects" ]'
    done
    called solve cases --jobs 0
    result 'solve, wrong arguments have no object' eval '[ "$status" = 3 ] && [ ! -s "$scratch/objects" ]'
    called decode cases/case-a.case cases/case-a.assignment
    result 'decode has no --json' eval '[ "$status" = 3 ] && [ ! -s "$scratch/objects" ]'
}

# Whatever a file is called, its object is one line, and has the name that the text has.
names() {
    local name shown seen=$scratch/fakes:$seen
    fake z3 "cat >/dev/null; echo sat; echo '$model'"
    for name in 'quo"te' $'new\nline' $'\e[2Jclear' $'no\xff\xfeutf' 'back\slash' $'tab\tbed' 'ünï😀' $'\xe2\x80\xaeturned' \
        '","status":0,"answer":"unsat' ' '; do
        cp cases/case-a.case "$scratch/$name.case"
        object "show $(printf %q "$name")" 0 shown show "$scratch/$name.case"
        shown=$(get case)
        result 'the name is that of the text' test "$(head -n 1 "$scratch/text")" = \
            "$shown: 2 threads, 2 switches, 1 global, 0 mutexes, 5 records"
        object "check $(printf %q "$name")" 2 refused check cases/case-a.case "$scratch/$name.case"
        is 'check' "$shown" input
        object "solve $(printf %q "$name")" 1 violated solve "$scratch/$name.case"
        is 'solve' "$shown" case
        called solve "$scratch/$name.case" --resume "$scratch/named"
        called solve "$scratch/$name.case" --resume "$scratch/named"
        result 'it is resumed' eval 'has 1 1 violated && [ "$(get case)" = "$shown" ] && [ "$(get resumed)" = true ]'
        rm -r "$scratch/$name.case" "$scratch/named"
    done
}

several() {
    local a=cases/case-a.case b=cases/lock-order.case command
    damaged 0 5
    for command in list show; do
        run "$menduvo" "$command" "$a" "$b"
        { echo "== $a"; "$menduvo" "$command" "$a"; echo "== $b"; "$menduvo" "$command" "$b"; } >"$scratch/both"
        result "$command, two cases" eval '[ "$status" = 0 ] && cmp -s "$scratch/out" "$scratch/both"'
        called "$command" "$a" "$b"
        result "$command, two objects" eval '[ "$status" = 0 ] && has_all 2 && [ "$(get case | tr "\n" " ")" = "$a $b " ]'
        run "$menduvo" "$command" "$scratch/damaged.case" "$a"
        result "$command, the first is refused" eval '[ "$status" = 2 ] && [[ $out = *"refusal 2"*"== $a"* ]]'
        run "$menduvo" "$command" "$scratch/damaged.case" "$scratch/none" "$a"
        result "$command, one is not there" eval '[ "$status" = 3 ] && [[ $out = *"refusal 2"*"none: No such"*"== $a"* ]]'
        run "$menduvo" "$command" "$scratch/none" "$scratch/damaged.case"
        result "$command, the status does not go by their order" test "$status" = 3
        called "$command" "$scratch/damaged.case" "$scratch/none" "$a"
        result "$command, three objects" eval '[ "$status" = 3 ] && [ "$(get status)" = $'"'2\n3\n0'"' ] && has_all 3'
        result "$command, two messages" test "$(grep -c '^menduvo: ' "$scratch/errors")" = 2
        run bash -c "'$menduvo' $command $a $b --json >/dev/full"
        result "$command, standard output is full, told once" eval '[ "$status" = 3 ] &&
            [ "$(grep -c "standard output: " "$scratch/out")" = 1 ]'
        run bash -c "'$menduvo' $command $a $b >&-"
        result "$command, standard output is closed" eval '[ "$status" = 3 ] && [[ $out = *"standard output is closed"* ]]'
    done
    for command in 'check cases/case-a.case cases/case-a.assignment' 'replay cases/case-a.case cases/case-a.schedule' \
        'fill cases/case-a.case cases/case-a.schedule' 'check cases/case-a.case none' 'solve cases/case-a.case' 'solve cases'; do
        run bash -c "'$menduvo' $command --json >/dev/full"
        result "$command, standard output is full" eval '[ "$status" = 3 ] && [[ $out = *"standard output: "* ]]'
    done
}

# has_all LINES: so many valid objects were printed.
has_all() {
    [ "$("$json" validate "$schema" <"$scratch/objects" 2>&1)" = "$1 lines, all valid" ]
}

# ---- solve, with solvers that are fakes, and with z3.

solves() {
    local seen=$scratch/fakes:$seen a=cases/case-a.case
    fake z3 "cat >/dev/null; echo sat; echo '$model'"
    object 'solve, violated' 1 violated solve "$a"
    is 'solve, violated' 4 record
    is 'solve, violated' assert fault kind
    is 'solve, violated' 0 unlocks
    is 'solve, violated' 12 assignment
    is 'solve, violated' 3 schedule
    is 'solve, violated' z3 solvers 0
    fake z3 'cat >/dev/null; echo unsat'
    object 'solve, unsat' 0 unsat solve "$a"
    is 'solve, unsat' null record
    # An assert with the guard 'L0 is not zero', which is never reached.
    fields 2 0 0 0 1 0 0 0 0 0 0 0 0 0 0 0 0 5 1 0 0 16 0 0 >"$scratch/guarded.case"
    object 'solve, vacuous' 0 vacuous solve "$scratch/guarded.case"
    is 'solve, vacuous' false asserts 0 reached
    object 'solve, strict' 1 vacuous solve "$scratch/guarded.case" --strict
    # An unlock with the same guard.
    fields 2 0 0 1 1 0 0 0 0 0 0 0 0 0 0 0 0 8 1 0 0 0 0 0 >"$scratch/unlock.case"
    object 'solve, vacuous of an unlock' 0 vacuous solve "$scratch/unlock.case"
    result 'it is among the unlocks' test "$(get unlocks 0 record), $(get unlocks 0 reached), $(get asserts)" = '1, false, 0'
    # What was filed is told with the status of the call that resumes it.
    called solve "$scratch/guarded.case" --strict --keep "$scratch/strict"
    called solve "$scratch/guarded.case" --resume "$scratch/strict"
    result 'solve, resumed, not strict' eval '[ "$status" = 0 ] && has 1 0 vacuous && [ "$(get resumed)" = true ]'
    called solve "$scratch/./guarded.case" --strict --resume "$scratch/strict"
    result 'solve, resumed, strict' eval '[ "$status" = 1 ] && has 1 1 vacuous && [ "$(get case)" = "$scratch/./guarded.case" ]'
    echo nonsense >"$scratch/strict/guarded.answer"
    called solve "$scratch/guarded.case" --resume "$scratch/strict"
    result 'solve, a damaged answer' eval '[ "$status" = 3 ] && has 1 3 failed'
    object 'solve, a folder that cannot be made' 3 failed solve "$a" --keep "$a/x"
    called solve "$scratch/guarded.case" --keep "$scratch/strict"
    result 'solve, something is in the way' eval '[ "$status" = 3 ] && has 1 3 failed'
    fake z3 'cat >/dev/null; echo unknown'
    object 'solve, unknown' 3 unknown solve "$a"
    fake z3 'cat >/dev/null; echo hello'
    object 'solve, nonsense' 3 failed solve "$a"
    fake z3 'exec sleep 20'
    object 'solve, timeout' 3 timeout solve "$a" --timeout 0.1
    fake z3 "cat >/dev/null; echo sat; echo '$model'"
    fake cvc5 'cat >/dev/null; echo unsat'
    object 'solve, disagree' 3 disagree solve "$a" --solver both
    object 'solve, another solver' 1 violated solve "$a" --solver-command "$scratch/fakes/z3 -x"
    damaged 0 5
    called solve "$a" "$scratch/damaged.case" "$scratch/none.case"
    result 'solve, three cases and a summary' eval '[ "$status" = 1 ] && has_all 4 && [ "$(get status)" = $'"'1\n2\n3\n1'"' ]'
    sed -i '$!d' "$scratch/objects"
    is 'solve, the summary' 3 cases
    is 'solve, the summary' 1 counts violated
    is 'solve, the summary' 1 counts refused
    is 'solve, the summary' 1 counts failed
    is 'solve, the summary' "$scratch/damaged.case" answers 1 case
    is 'solve, the summary' refused answers 1 answer
    mkdir "$scratch/hollow"
    object 'solve, a folder without cases' 3 failed solve "$scratch/hollow"
    called solve "$a" "$scratch/hollow"
    result 'solve, nothing begins: an object for each operand' eval '[ "$status" = 3 ] && has 2 $'"'3\n3'"' $'"'failed\nfailed'"
    bare
    seen=$scratch/bare
    object 'solve, no solver' 3 failed solve "$a"
    tells 'solve, no solver'
    object 'solve, no solver, and nothing to check' 3 failed solve "$scratch/empty.case"
    is 'solve, no solver, and nothing to check' \
        "  $scratch/empty.case: nothing is checked here, whatever a solver says: the case has no assert and no unlock" message 1
    called solve "$a" "$scratch/empty.case"
    result 'solve, no solver: each object tells of its own case' eval 'has 2 $'"'3\n3'"' $'"'failed\nfailed'"' &&
        [ "$(get message | tr "\n" " ")" = "1 2 " ]'
}

# Every case that ships, one after the other and two at a time: the same answers.
real() {
    local order again
    called solve cases --solver z3
    result 'z3, all cases' eval '[ "$status" = 1 ] && has_all 9'
    order=$(sed -n 's/.*"answers"://p' "$scratch/objects")
    called solve cases --solver z3 --jobs 2
    again=$(sed -n 's/.*"answers"://p' "$scratch/objects")
    result 'z3, two at a time' eval '[ "$status" = 1 ] && has_all 9 && [ "$again" = "$order" ]'
    result 'the answers' test "$(grep -o '"answer":"[a-z]*"' <<<"$order" | cut -d '"' -f 4 | tr '\n' ' ')" = \
        'violated violated violated unsat unsat violated violated unsat '
    called solve cases/release-broken.case --solver z3
    result 'z3, a stranger' eval 'has 1 1 violated && [ "$(get record), $(get fault kind), $(get fault holder)" = "11, unlock, 0" ]'
    result 'each line is reached' test "$(get asserts 0 reached), $(get unlocks), $(get unlocks 2 reached)" = 'true, 3, true'
}

# A filed folder: the same, changed, with a case that is refused, not there; and a solver that is asked again.
verifies() {
    local seen=$scratch/fakes:$seen folder=$scratch/filed
    fake z3 "cat >/dev/null; echo sat; echo '$model'"
    run "$menduvo" file cases/case-a.case "$folder" --solver z3
    result 'a check is filed' test "$status" = 1
    object 'verify, the same' 0 same verify "$folder"
    is 'verify, the same' violated filed
    is 'verify, the same' "$folder" folder
    is 'verify, the same' "$(sha256sum "$folder/MANIFEST" | cut -d ' ' -f 1)" manifest
    result 'the files are those of the text' test "$(get files)" = "$(grep -cE '  (same|not recomputed)' "$scratch/text")"
    is 'verify, the same' MANIFEST files 0 name
    is 'verify, the same' same files 0 state
    object 'verify, asked again' 0 same verify "$folder" --solver z3
    is 'verify, asked again' true again same
    fake z3 'cat >/dev/null; echo unsat'
    object 'verify, another answer' 1 differs verify "$folder" --solver z3
    is 'verify, another answer' unsat again answer
    fake z3 'cat >/dev/null; echo unknown'
    object 'verify, no answer' 3 'not known' verify "$folder" --solver z3
    is 'verify, no answer' null again same
    echo >>"$folder/show.txt"
    object 'verify, a difference' 1 differs verify "$folder"
    is 'verify, a difference' differs files 3 state
    is 'verify, a difference' false files 3 same
    head -c 40 cases/case-a.case >"$folder/case.case"
    object 'verify, a refused case' 2 refused verify "$folder"
    tells 'verify, a refused case'
    object 'verify, no folder' 3 failed verify "$scratch/none"
    tells 'verify, no folder'
    called verify
    result 'verify, wrong arguments have no object' eval '[ "$status" = 3 ] && [ ! -s "$scratch/objects" ]'
}

# ---- The schema can say no.

# forms: of the objects that were printed one of each form, as far as fields and answer tell.
forms() {
    sort -u "$scratch/all" | awk '{
        form = match($0, /"answer":"[a-z ]*"/) ? substr($0, RSTART, RLENGTH) : ""
        form = substr($0, 1, index($0, ",")) form ($0 ~ /"status":1/)
        form = form ($0 ~ /"late"/) ($0 ~ /"run":"clean"/) ($0 ~ /"run":"cut off"/) ($0 ~ /"summary"/) ($0 ~ /"refusal":null/) ($0 ~ /"message"/) ($0 ~ /"kind":"unlock"/)
        if (!(form in seen)) print
        seen[form] = 1
    }'
}

# damaged_objects: each object of standard input, damaged in one place: a field less, another or one too many, also in an object
# within; a value of another type; a number that is negative; another element in a list, or none; another status.
damaged_objects() {
    awk '
        function change(key, pattern, before, after, kept,    head) {
            head = "\"" key "\":"
            if (!match($0, head pattern)) return
            kept = kept ? substr($0, RSTART + length(head), RLENGTH - length(head)) : ""
            print substr($0, 1, RSTART - 1) head before kept after substr($0, RSTART + RLENGTH)
        }
        function damage(key,    head) {
            head = "\"" key "\":"
            if (match($0, head)) print substr($0, 1, RSTART) "x" substr($0, RSTART + 1)
            if (match($0, "[{]" head)) print substr($0, 1, RSTART) "\"stray\":1," substr($0, RSTART + 1)
            if (match($0, head "(null|true|false|[0-9.]+|\"[^\"\\\\]*\"|\\[[^][{]*\\]),"))
                print substr($0, 1, RSTART - 1) substr($0, RSTART + RLENGTH)
            if (match($0, head "\\[[^]]")) {
                print substr($0, 1, RSTART + length(head)) "{}," substr($0, RSTART + length(head) + 1)
                print substr($0, 1, RSTART + length(head)) "null," substr($0, RSTART + length(head) + 1)
            }
            change(key, "\\[\\]", "[{}]", "", 0)
            change(key, "\\[[^][]*\\]", "{}", "", 0)
            change(key, "([0-9.]+|true|false)", "\"", "\"", 1)
            change(key, "(null|true|false|\"[^\"\\\\]*\")", "70000", "", 0)
            change(key, "[0-9.]+", "-1", "", 1)
        }
        {
            print "{\"stray\":1," substr($0, 2)
            change("status", "[0-9]", "4", "", 0)
            if ($0 !~ /"summary":true/) change("status", "[0-9]", $0 ~ /"status":[02]/ ? 3 : $0 ~ /"status":3/ ? 0 : 2, "", 0)
            change("answer", "\"[a-z ]*\"", "\"sat\"", "", 0)
            change("message", "\\[[^]]*\\]", "[]", "", 0)
            change("words", "\\[[^]]*\\]", "[]", "", 0)
            change("solvers", "\\[[^]]*\\]", "[]", "", 0)
            change("row", "\\[", "[0,", "", 0)
            change("rows", "\\[\\[", "[[0,", "", 0)
            change("row", "\\[[0-9]+,", "[", "", 0)
            split("", seen)
            rest = $0
            while (match(rest, /"[a-z]+":/)) {
                key = substr(rest, RSTART + 1, RLENGTH - 3)
                rest = substr(rest, RSTART + RLENGTH)
                if (!(key in seen)) damage(key)
                seen[key] = 1
            }
        }'
}

damages() {
    forms >"$scratch/forms"
    out=$(cut -c 1-120 "$scratch/forms")
    result 'every form was printed' test "$(wc -l <"$scratch/forms")" = 44
    damaged_objects <"$scratch/forms" >"$scratch/damages"
    out=$("$json" refuse "$schema" <"$scratch/damages" 2>&1)
    [[ $out != line*valid ]] || out+=": $(sed -n "$(tr -dc 0-9 <<<"$out")p" "$scratch/damages")"
    result 'damaged objects are refused' test "$out" = "$(wc -l <"$scratch/damages") lines, none valid"
    result 'there are many of them' test "$(wc -l <"$scratch/damages")" -gt 900
    out=$("$json" refuse "$schema" <"$scratch/forms" 2>&1)
    result 'those that are not damaged are not' test "$out" = 'line 1: valid'
}

# ---- docs/PARALLEL.md.

# block HEADING: the commands that stand in the document under this heading.
block() {
    awk -v heading="## $1" '/^## /{ on = $0 == heading } /^```/{ fenced = !fenced; next } on && fenced' docs/PARALLEL.md
}

# recipe NAME HEADING: runs these commands in a scratch folder with the cases, as someone who has nothing in the home folder.
# ssh is a fake that runs what it is given here, and notes for which machine.
recipe() {
    local commands
    commands=$(block "$2")
    result "$1: there are commands" test -n "$commands"
    out=$(cd "$scratch/place" && env HOME="$scratch/home" SHELL="$BASH" PATH="$scratch/fakes:$PATH" \
        timeout 60 bash -c "$commands" 2>&1 </dev/null)
    status=$?
}

parallel_jobs() {
    local place=$scratch/place
    mkdir -p "$place/bin" "$scratch/home" && cp -r cases "$place/" && ln -s "$menduvo" "$place/bin/menduvo"
    rm -rf "$scratch/fakes"
    fake ssh 'echo "$1" >>"${0%/fakes/*}/machines"; shift; [ "$1" != -- ] || shift; exec bash -c "$*"'

    recipe 'one machine' 'On one machine'
    result 'one machine: the status counts what is not 0' test "$status" = 5
    result 'one machine: nothing is said but the version' test "$out" = "$("$menduvo" --version)"
    jobs_are_done 'one machine'
    result 'one machine: the job log names two jobs at a time' eval 'block "On one machine" | grep -q -- "--jobs 2 "'

    recipe 'what came of it' 'What came of it'
    result 'what came of it' test "$(sed -E 's/^ +//' <<<"$out")" = \
        $'3 "answer":"unsat"\n5 "answer":"violated"\n3 0\n5 1'

    # Two answers are lost, and one case has not been solved at all.
    rm "$place"/out/{case-a,interlock,lock-order}.*
    recipe 'going on' 'Going on after a stop'
    jobs_are_done 'going on'
    cp "$place/out.jsonl" "$scratch/objects"
    result 'going on: what has an answer is not asked again' test "$(get resumed | sort | uniq -c | tr -s ' \n' ' ')" = \
        ' 3 false 5 true '

    rm -r "$place/out" "$place/out.jsonl" "$place/out.joblog"
    recipe 'several machines' 'On several machines'
    jobs_are_done 'several machines'
    result 'several machines: both had work' test "$(sort -u "$scratch/machines")" = $'alpha\nbeta'
    result 'several machines: the job log names them' test \
        "$(tail -n +2 "$place/out.joblog" | cut -f 2 | sort -u)" = $'alpha\nbeta'
}

# jobs_are_done NAME: each case has an object, its files, and a line in the job log with the status of its object.
jobs_are_done() {
    local place=$scratch/place file
    cp "$place/out.jsonl" "$scratch/objects"
    cat "$scratch/objects" >>"$scratch/all"
    result "$1: eight objects" has_all 8
    result "$1: of eight cases" test "$(get case | sort)" = "$(printf '%s\n' cases/*.case | sort)"
    paste -d ' ' <(get status) <(get case) | sort >"$scratch/told"
    tail -n +2 "$place/out.joblog" | awk -F '\t' '{ sub(/.* /, "", $9); print $7, $9 }' | sort >"$scratch/logged"
    result "$1: the job log has their statuses" cmp -s "$scratch/told" "$scratch/logged"
    for file in cases/*.case; do
        file=$place/out/$(basename "$file" .case)
        result "$1: ${file##*/} is filed" eval 'test -s "$file.answer" && test -s "$file.smt2"'
    done
}

: >"$scratch/all"
run cargo build --release --offline --locked --quiet --manifest-path tests/json/Cargo.toml --target-dir target/json
result 'the validator is built' test "$status" = 0
run "$menduvo" --version
result 'the command is built' test "$status" = 0
[ "$failed" = 0 ] || { finish; exit; }
checks
replays
fills
listings
failures
names
several
solves
real
verifies
damages
parallel_jobs
finish
