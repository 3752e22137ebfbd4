#!/usr/bin/env bash
# Tests `menduvo fill`: the assignment that it prints is checked and decoded, for shipped cases and for schedules that were found in
# other ways; what it says of each schedule that it refuses (compared with tests/command/fill-*.expected, which --store writes anew),
# and its objects.
set -u
cd -- "$(dirname -- "${BASH_SOURCE[0]}")/.." || exit
. tests/helpers.sh || exit
json=$PWD/target/json/release/menduvo-json

# numbers FILE: the numbers of a file, without comments, on one line.
numbers() {
    sed 's/#.*//' "$1" | tr -s ' \n' ' ' | sed 's/^ //; s/ $//'
}

# round NAME CASE NUMBERS WORDS..: the schedule with these numbers is filled; what is printed is an assignment that meets the
# constraints, and decodes to the schedule. The words are options of the commands.
round() {
    local name=$1 case=$2 schedule=$3
    shift 3
    echo "$schedule" >"$scratch/schedule"
    run "$menduvo" fill "$case" "$scratch/schedule" "$@"
    cp "$scratch/out" "$scratch/filled"
    result "$name: it is filled" eval '[ "$status" = 0 ] && [[ $out =~ ^[0-9\ ]+($'"'\n'"'[0-9\ ]+)*$ ]]'
    says "$name: what is filled meets" 0 'meets: the assignment meets all' "$menduvo" check "$case" "$scratch/filled" "$@"
    run "$menduvo" decode "$case" "$scratch/filled" "$@"
    result "$name: it decodes to the schedule" test "$status, ${out//$'\n'/ }" = "0, $schedule"
}

round_trips() {
    local name form
    for name in case-a handshake interlock-broken lost-update release-broken; do
        for form in case source; do
            round "$name.$form" "cases/$name.$form" "$(numbers "cases/$name.schedule")"
            result "$name.$form: it is the shipped assignment" cmp -s "$scratch/filled" <(sed 1d "cases/$name.assignment")
        done
        # A reply of a solver in the place of the schedule is decoded first, and filled to itself.
        { echo sat && numbers "cases/$name.assignment" | tr ' ' '\n' | awk '{ printf "(v%d #x%04x)\n", NR - 1, $1 }'; } >"$scratch/model"
        run "$menduvo" fill "cases/$name.case" "$scratch/model"
        result "$name: a model is filled to itself" eval '[ "$status" = 0 ] && cmp -s "$scratch/out" "$scratch/filled"'
    done
    # Cases that ship with a schedule that does not violate.
    for name in interlock lock-order release; do
        says "$name: its schedule does not violate" 2 'refusal 16, place 0' "$menduvo" fill "cases/$name.case" "cases/$name.schedule"
    done
    # Found in other ways: with another n, with an input, by the rest of P2, by hand.
    round 'P2' cases/case-a.case '0 1 4'
    round 'another n' cases/case-a.case '2 1 2 0 0 0' --switches 5
    round 'no room for another thread' cases/release-broken.source '2 7 0' --switches 2
    round 'an input' cases/lost-update.source '3 3 6 99'
    printf '%s\n' 0 0 0 1 1 1 1 1 1 1 1 0 0 0 0 0 | "$menduvo" step cases/interlock-broken.case -o "$scratch/by-hand" >"$scratch/steps"
    round 'by hand' cases/interlock-broken.case "$(numbers "$scratch/by-hand")"
    run bash -c "$menduvo fill cases/case-a.case cases/case-a.schedule >'$scratch/f' && $menduvo check cases/case-a.case '$scratch/f'"
    result 'filed and checked' test "$status, $out" = '0, meets: the assignment meets all 19 constraints'
    run bash -c "echo 2,1,2 | $menduvo fill cases/case-a.case -"
    result 'a schedule on standard input, with commas' test "$status, $out" = '0, 0 0 0 1 2 5 2 0 1 5 1 5'
    run bash -c "$menduvo fill - cases/case-a.schedule <cases/case-a.case"
    result 'a case on standard input' test "$status, $out" = '0, 0 0 0 1 2 5 2 0 1 5 1 5'
    # Inputs that are run, with a false guard, and not run: L0 = input, when L1 != 0: L2 = input, assert 0, L3 = input.
    printf '%s\n' 'switches 0' thread 'L0 = input' 'when L1 != 0: L2 = input' 'assert 0' 'L3 = input' thread >"$scratch/inputs.source"
    round 'inputs' "$scratch/inputs.source" '3 7 0 0'
    result 'inputs: their values' test "$(<"$scratch/filled")" = '0 7 0 0 0 0 1 0'
    # Of a line with a false guard the target's old value; of one that is not run 0, and 1 of an assert and an assume.
    printf '%s\n' 'switches 1' 'global g = 5' thread 'L0 = 3' 'when L1 != 0: L0 = 4' 'when L1 != 0: g = 9' 'when L1 != 0: assert 0' \
        'assert 0' thread 'L0 = 1' 'assume 1' 'assert 1' 'g = 2' >"$scratch/values.source"
    round 'values' "$scratch/values.source" '5 0'
    result 'values: guards and lines that are not run' test "$(<"$scratch/filled")" = '0 3 0 3 0 5 0 1 0 0 2 0 2 1 2 1 2 0 5'
}

# refused NAME CASE NUMBERS WORDS..: the schedule with these numbers is refused, and what is told is stored under fill-NAME.
refused() {
    local name=$1 case=$2
    echo "$3" >"$scratch/schedule"
    shift 3
    same "fill-$name" 2 "$menduvo" fill "$case" "$scratch/schedule" "$@"
}

# Each refusal with its place, and what is told of it; no number is printed then.
refusals() {
    refused 12 cases/case-a.case '2 1'
    refused 13 cases/case-a.case '4 2 1'
    printf '%s\n' 'switches 0' thread 'assert 0' 'when L0 != 0: L3 = input' 'L4 = input' thread >"$scratch/inputs.source"
    refused 14 "$scratch/inputs.source" '2 7 0'
    refused 14-not-run "$scratch/inputs.source" '1 0 7'
    refused 16-clean cases/case-a.case '1 1 3'
    refused 16-cut-off cases/lock-order.source "$(numbers cases/lock-order.schedule)"
    # An assert of 0, and then an assume of 0: without it the run violates.
    printf '%s\n' 'switches 0' thread 'assert 0' 'assume 0' thread >"$scratch/vain.source"
    refused 16-in-vain "$scratch/vain.source" 2
    round 'one that stops before the cut-off' "$scratch/vain.source" 1
    refused 17-case cases/handshake.case '1 3 1 0 1'
    refused 17 cases/handshake.source '1 3 1 0 1'
    refused 17-twice cases/handshake.source '1 1 0 2 1 0 1' --switches 6
    run bash -c "$menduvo fill cases/handshake.source '$scratch/schedule' --switches 6 2>'$scratch/errors'"
    result 'no number is printed' eval '[ "$status, $out" = "2, " ] && [ -s "$scratch/errors" ]'
    run bash -c "$menduvo fill - '$scratch/schedule' --switches 6 <cases/handshake.source"
    result 'of a case on standard input' eval '[ "$status" = 2 ] && [[ $out = *"to file that one: give it in the place of this one" ]]'
    cp "$scratch/schedule" "$scratch/late"
    round 'the schedule that it names' cases/handshake.source "$(sed -n 's/.*the same inputs: //p' tests/command/fill-17-twice.expected)" \
        --switches 6
    # The command that it names is run as it stands, whatever the case is called.
    cp cases/handshake.source "$scratch/it's a case.source" && ln -s "$menduvo" "$scratch/menduvo"
    run bash -c "cd '$scratch' && ./menduvo fill 'it'\\''s a case.source' late --switches 6"
    out=$(sed -n 's/.*to file that one: //p' "$scratch/out")
    result 'it names a command' eval '[[ $out = "echo "*" | menduvo fill "*" - --switches 6" ]]'
    run bash -c "cd '$scratch' && PATH=.:\$PATH && $out"
    result 'the command that it names' eval '[ "$status" = 0 ] && cmp -s "$scratch/out" "$scratch/filled"'
    # Four late lines, with an input: the place is the first by thread and chain, here and where one of thread 1 is late before it.
    printf '%s\n' 'switches 6' 'global g = 0' thread 'g = 1' 'L0 = input' 'assert L0 == 4' thread 'g = 2' 'L0 = 1' 'L1 = 2' \
        >"$scratch/several.source"
    refused 17-several "$scratch/several.source" '1 1 1 1 1 1 0 6'
    round 'what keeps the rule' "$scratch/several.source" '3 3 0 0 0 0 0 6'
    says 'the first by thread' 2 'refusal 17, place 2' "$menduvo" fill "$scratch/several.source" <(echo 1 2 0 1 2 0 0 6)
    says 'a late line of thread 1' 2 'refusal 17, place 6' "$menduvo" fill "$scratch/several.source" <(echo 3 2 0 1 0 0 0 6)
    # In which order they are met.
    says '12 before 13' 2 'refusal 12, place 0' "$menduvo" fill "$scratch/several.source" <(echo 9 9 9 9 9 9 9)
    says '13 before 14' 2 'refusal 13, place 0' "$menduvo" fill "$scratch/several.source" <(echo 0 9 0 0 0 0 0 6)
    says '14 before 16' 2 'refusal 14, place 2' "$menduvo" fill "$scratch/several.source" <(echo 1 3 0 0 0 0 0 6)
    says '16 before 17' 2 'refusal 16, place 0' "$menduvo" fill "$scratch/several.source" <(echo 1 2 0 1 2 0 0 4)
    printf '%s\n' 'switches 2' 'global g = 0' thread 'g = 1' 'assert 0' 'L0 = input' thread >"$scratch/inputs.source"
    says '14 before 17' 2 'refusal 14, place 3' "$menduvo" fill "$scratch/inputs.source" <(echo 1 0 1 7)
    says 'and without it 17' 2 'refusal 17, place 2' "$menduvo" fill "$scratch/inputs.source" <(echo 1 0 1 0)
    damaged 1 16
    says 'a refused case, whatever the schedule' 2 'refusal 3, place 0' "$menduvo" fill "$scratch/damaged.case" <(echo x)
    says 'no number' 2 "line 1, column 3: 'x' is not a number" "$menduvo" fill cases/case-a.case <(echo 2 x 2)
    says 'an assignment for a schedule' 2 "an assignment has so many; 'menduvo decode' makes a schedule" \
        "$menduvo" fill cases/case-a.case cases/case-a.assignment
    says 'a schedule for an assignment' 2 "a schedule has so many; 'menduvo fill' makes an assignment" \
        "$menduvo" check cases/case-a.case cases/case-a.schedule
    sed 's/#x0001/#x0002/' tests/command/z3.model >"$scratch/wrong.model"
    says 'a model that fails' 1 'refusal 15' "$menduvo" fill cases/case-a.case "$scratch/wrong.model"
}

calling() {
    says 'no schedule' 3 'SCHEDULE is missing' "$menduvo" fill cases/case-a.case
    says 'no case' 3 'CASE is missing' "$menduvo" fill
    says 'an operand too many' 3 "'1' is too much: numbers come from one file" "$menduvo" fill cases/case-a.case 2 1 2
    says 'an option of another command' 3 "there is no option '--values'" "$menduvo" fill cases/case-a.case cases/case-a.schedule --values
    says 'both from standard input' 3 'only one input can be standard input' "$menduvo" fill - -
    says 'a file that is not there' 3 'none: No such file' "$menduvo" fill cases/case-a.case "$scratch/none"
    says 'a bound that is none' 2 'refusal 3, place 0' "$menduvo" fill cases/case-a.case cases/case-a.schedule --switches 16
    run bash -c "$menduvo fill cases/case-a.case cases/case-a.schedule >/dev/full"
    result 'standard output is full' eval '[ "$status" = 3 ] && [[ $out = *"standard output: "* ]]'
}

# object NAME STATUS ANSWER WORDS..: with --json one object that the schema takes, with this status and this answer; the exit status
# and what is told besides are those without.
object() {
    local name=$1 wanted=$2 answer=$3 plain
    shift 3
    "$menduvo" fill "$@" >"$scratch/text" 2>"$scratch/told" </dev/null
    plain=$?
    "$menduvo" fill "$@" --json >"$scratch/objects" 2>"$scratch/errors" </dev/null
    status=$?
    out=$(cat "$scratch/objects" "$scratch/errors")
    result "$name" eval '[ "$plain, $status" = "$wanted, $wanted" ] && cmp -s "$scratch/told" "$scratch/errors" &&
        [ "$("$json" validate docs/output.schema.json <"$scratch/objects" 2>&1)" = "1 lines, all valid" ] &&
        [ "$(get command), $(get status), $(get answer)" = "fill, $wanted, $answer" ]'
    cat "$scratch/objects" >>"$scratch/all"
}

get() {
    "$json" get "$@" <"$scratch/objects" 2>&1
}

# listed FIELD: the numbers of a list of the object.
listed() {
    sed -nE "s/.*\"$1\":\[([0-9,]*)\].*/\1/p" "$scratch/objects" | tr , ' '
}

objects() {
    local late=$scratch/late.schedule
    object 'filled' 0 filled cases/case-a.case cases/case-a.schedule
    result 'the numbers are those of the text' test "$(listed schedule), $(listed assignment)" = "2 1 2, $(<"$scratch/text")"
    result 'the case and its n' test "$(get case), $(get switches)" = 'cases/case-a.case, 2'
    echo 1 1 3 >"$scratch/clean"
    object 'clean' 2 refused cases/case-a.case "$scratch/clean"
    result 'clean: the run' test "$(get refusal number), $(get refusal place), $(get run), $(get record)" = '16, 0, clean, null'
    object 'cut off' 2 refused cases/lock-order.case cases/lock-order.schedule
    result 'cut off: the run' test "$(get refusal number), $(get run), $(get record)" = '16, cut off, 11'
    echo 1 1 0 2 1 0 1 >"$late"
    object 'late' 2 refused cases/handshake.case "$late" --switches 6
    result 'late: the place and the lines' test "$(get refusal number), $(get refusal place), $(listed late)" = '17, 3, 3 13'
    result 'late: the schedule is that of the text' grep -q "the same inputs: $(listed moved)\$" "$scratch/told"
    round 'late: that schedule' cases/handshake.case "$(listed moved)" --switches 6
    echo 2 1 >"$scratch/short"
    object 'too few numbers' 2 refused cases/case-a.case "$scratch/short"
    result 'too few numbers: the refusal' test "$(get refusal number), $(get input)" = "12, $scratch/short"
    object 'no number' 2 refused cases/case-a.case README.md
    result 'no number: no refusal of the library' test "$(get refusal)" = null
    damaged 0 5
    object 'a refused case' 2 refused "$scratch/damaged.case" cases/case-a.schedule
    result 'a refused case: the input' test "$(get refusal number), $(get input)" = "2, $scratch/damaged.case"
    object 'no file' 3 failed cases/case-a.case "$scratch/none"
    sed 's/#x0001/#x0002/' tests/command/z3.model >"$scratch/wrong.model"
    object 'a model that fails' 1 refused cases/case-a.case "$scratch/wrong.model"
    result 'a model that fails: the refusal' test "$(get refusal number)" = 15
    # The schema says no: another answer, status, command, refusal or run, a field less or more, and lists of other things.
    local edit
    for edit in 's/"answer":"[a-z]*"/"answer":"sat"/' 's/"status":[0-9]/"status":4/' \
        's/"command":"fill"\(.*"number":1[67]\)/"command":"replay"\1/' 's/"command":"fill"\(.*"filled"\)/"command":"replay"\1/' \
        's/"number":16/"number":17/' 's/"number":17/"number":16/' 's/"number":16,"place":0/"number":16,"place":1/' \
        's/"number":17,"place":3/"number":17,"place":0/' 's/"run":"clean"/"run":"cut off"/' \
        's/"run":"cut off"/"run":"violated"/' 's/"run":"[a-z ]*",//' 's/"record":[a-z0-9]*,//' 's/"late":\[/"late":[0,/' \
        's/"late":\[[0-9,]*\]/"late":[]/' 's/"moved":\[[0-9,]*\],//' 's/"moved":\[/"moved":["x",/' 's/"schedule":\[[0-9,]*\],//' \
        's/"assignment":\[/"assignment":[65536,/' 's/^{/{"stray":1,/' 's/"message":\[.*\]/"message":[]/'; do
        sed "$edit" "$scratch/all" | grep -vxF -f "$scratch/all" >"$scratch/damages"
        out=$("$json" refuse docs/output.schema.json <"$scratch/damages" 2>&1)
        result "the schema refuses $edit" eval '[ -s "$scratch/damages" ] && [[ $out = *" lines, none valid" ]]'
    done
}

: >"$scratch/all"
run cargo build --release --offline --locked --quiet --manifest-path tests/json/Cargo.toml --target-dir target/json
result 'the validator is built' test "$status" = 0
says 'the command is built' 0 'menduvo 0.' "$menduvo" --version
[ "$failed" = 0 ] || { finish; exit; }
round_trips
refusals
calling
objects
finish
