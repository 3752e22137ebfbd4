#!/usr/bin/env bash
# Tests the values that `menduvo replay --values` prints, and `menduvo step`: every command of a run by hand, over a pipe and at a
# terminal. What is printed is compared with tests/command/*.expected; with --store these are written anew.
set -u
cd -- "$(dirname -- "${BASH_SOURCE[0]}")/.." || exit
. tests/helpers.sh || exit

# Thread 0 reads values, the second or the third of them, and stores their sum; thread 1 asserts that it is below 10.
fields 2 3 1 0 1 5 0 0 0 0 0 0 0 0 0 0 \
    2 4 0 0 0 0 0 0 3 4 1 1 0 0 0 0 4 4 17 2 0 0 0 0 0 2 0 0 1 1 2 0 \
    6 3 0 0 0 0 0 0 0 5 0 0 6 0 16 10 >"$scratch/inputs.case"
# Four threads of a line each, of which thread 3 has no block.
fields 4 2 1 0 1 2 3 4 0 0 0 0 0 0 0 0 \
    0 2 0 0 0 16 0 1 0 2 0 0 0 16 0 2 0 2 0 0 0 16 0 3 0 2 0 0 0 16 0 4 >"$scratch/four.case"
# Every item there can be: thread 0 stores to global 7, and locks mutex 3.
fields 2 1 8 4 1 0 0 0 60000 60001 60002 60003 60004 60005 60006 60007 \
    2 2 0 7 0 16 0 65535 0 7 0 3 0 0 0 0 >"$scratch/items.case"
# assert 0, then assume 0, and two lines of thread 1, which has one block.
fields 2 1 0 0 1 3 0 0 0 0 0 0 0 0 0 0 \
    2 5 0 0 0 16 0 0 0 6 0 0 0 16 0 0 4 1 0 0 0 16 0 1 0 1 0 1 0 16 0 2 >"$scratch/vain.case"
# Thread 1 alone, of an assume 0.
fields 2 1 0 0 0 1 0 0 0 0 0 0 0 0 0 0 0 6 0 0 0 16 0 0 >"$scratch/last.case"
# No line at all.
fields 2 1 0 0 0 0 0 0 0 0 0 0 0 0 0 0 >"$scratch/empty.case"

# typed LINE..: what is to be typed.
typed() {
    printf '%s\n' "$@" >"$scratch/typed"
}

# steps NAME STATUS CASE LINE..: these lines over a pipe; it ends with this status, and prints what is stored under step-NAME.
steps() {
    local name=$1 wanted=$2 case=$3
    shift 3
    typed "$@"
    same "step-$name" "$wanted" bash -c "cat '$scratch/typed' | '$menduvo' step '$case'"
    cp "$scratch/out" "$scratch/out.steps"
}

# shellcheck disable=SC2034 # eval reads them
# replays NAME CASE: the schedule that was printed last, by itself, ends as it did there, with the same status.
replays() {
    local ended=$status verdict
    awk '/^schedule:$/ { text = "" } { text = text $0 "\n" } END { printf "%s", text }' "$scratch/out" >"$scratch/end"
    verdict=$(grep -E '^(violated|clean|cut off): ' "$scratch/end")
    sed -n '/^[0-9 ]*$/p' "$scratch/end" >"$scratch/printed.schedule"
    run "$menduvo" replay "$2" "$scratch/printed.schedule"
    result "$1: it replays to the same" eval '[ -n "$verdict" ] && [ "$status" = "$ended" ] && [[ $out = *"$verdict"* ]]'
}

values() {
    same replay-values-case-a 1 "$menduvo" replay cases/case-a.case cases/case-a.schedule --values
    same replay-values-lock-order 0 "$menduvo" replay cases/lock-order.case cases/lock-order.schedule --values
    same replay-values-twelve 0 "$menduvo" replay "$scratch/items.case" <(echo 2 0) --values
    same replay-values-none 0 "$menduvo" replay "$scratch/vain.case" <(echo 2 2) --values
    local name
    same replay-values-release-broken 1 "$menduvo" replay cases/release-broken.source <(echo 2 7 4) --values
    for name in case-a handshake interlock interlock-broken lock-order lost-update release release-broken; do
        "$menduvo" replay --values "cases/$name.case" "cases/$name.schedule" | sed '/^ *items: /d' >"$scratch/without"
        run "$menduvo" replay "cases/$name.case" "cases/$name.schedule"
        result "$name: without the items it is the same run" cmp -s "$scratch/without" "$scratch/out"
    done
}

picking() {
    steps violated 1 cases/case-a.case 0 0 1 0 0 quit
    replays violated cases/case-a.case
    steps every-command 1 cases/case-a.case help values schedule 0 switch undo switch 0 values undo undo undo \
        'rest 0' schedule undo 0 0 1 schedule 'rest 0' undo 'rest 0' '# a comment' '' ' values  # another' schedule quit 'nobody reads this'
    replays 'every command' cases/case-a.case
    steps clean 0 cases/interlock.case 'rest 0' 'rest 1'
    replays clean cases/interlock.case
    steps switched 0 cases/interlock.case 0 switch 0 switch switch switch 0 'rest 0' switch 'rest 1'
    replays switched cases/interlock.case
    result 'blocks are ended early' grep -qx '1 0 1 0 0 0 7 9' "$scratch/printed.schedule"
    steps guards 1 cases/lost-update.case 0 10 0 0 'rest 1' 'rest 0'
    replays guards cases/lost-update.case
    # A stranger's unlock is told at once, and whose the mutex was; a run that goes on keeps it, and may violate again.
    steps stranger 1 cases/release-broken.source 0 0 'rest 1' undo 1 1 1 1 values 1 schedule 1 1 'rest 0'
    replays stranger cases/release-broken.source
    result 'a run that stops there violates' grep -qx 'record 11 is an unlock by a stranger: a run that stops here violates' "$scratch/out.steps"
    # A switch before a line that touches no shared item: the schedule is given all the same.
    steps late 1 cases/handshake.source 0 1 1 1 0 switch switch 0
    replays late cases/handshake.source
    result 'the schedule is the one that was made' grep -qx '1 3 1 0 1' "$scratch/printed.schedule"
    steps no-lines 0 "$scratch/empty.case"
    replays 'no lines' "$scratch/empty.case"
    steps twelve 0 "$scratch/items.case" 0 0
    replays twelve "$scratch/items.case"
}

# To the start and on again: the schedule is that of the way that was taken last.
undoing() {
    steps undo 0 cases/case-a.case 0 1 undo undo 'rest 0' 1
    replays undo cases/case-a.case
    result 'what was undone is not in it' grep -qx '4 1 0' "$scratch/printed.schedule"
    steps undo-at-start 3 cases/case-a.case 0 undo undo
}

giving() {
    steps inputs 1 "$scratch/inputs.case" 0 7 0 65535 'rest 0' 'rest 1'
    replays inputs "$scratch/inputs.case"
    result 'the values are in the schedule' grep -qx '4 2 0 0 7 65535 0' "$scratch/printed.schedule"
    steps inputs-skipped 0 "$scratch/inputs.case" 'rest 0' 0 3 'rest 1'
    replays 'a skipped input' "$scratch/inputs.case"
    result 'a skipped input has value 0' grep -qx '4 2 0 0 0 0 3' "$scratch/printed.schedule"
    steps inputs-undone 0 "$scratch/inputs.case" 0 undo 'rest 0' 1 undo 0 4 undo 'rest 0' 5 2 'rest 1'
    replays 'inputs, undone' "$scratch/inputs.case"
    result 'what was undone is not in it' grep -qx '4 2 0 0 5 2 0' "$scratch/printed.schedule"
    steps inputs-wrong 3 "$scratch/inputs.case" 0 65536
    steps inputs-ended 0 "$scratch/inputs.case" 'rest 0' 1
    replays 'ended at an input' "$scratch/inputs.case"
    steps inputs-quit 0 "$scratch/inputs.case" 0 quit 7
    replays 'quit at an input' "$scratch/inputs.case"
    steps inputs-so-far 0 "$scratch/inputs.case" 0 7 0 9 schedule
    replays 'inputs so far' "$scratch/inputs.case"
    result 'an input that was not run has value 0' grep -qx '2 0 0 0 7 9 0' "$scratch/printed.schedule"
}

cutting() {
    steps cut-off 0 cases/lock-order.case 0 1 1 schedule
    replays 'cut off' cases/lock-order.case
    steps cut-off-undone 0 cases/lock-order.case 0 1 1 undo undo 'rest 0' 'rest 1'
    replays 'cut off, undone' cases/lock-order.case
    result 'it is no longer cut off' grep -q '^clean: ' "$scratch/end"
    steps cut-off-in-rest 0 cases/lock-order.case 0 'rest 1'
    replays 'cut off in the rest' cases/lock-order.case
    steps cut-off-goes-on 3 cases/lock-order.case 0 1 1 0
    steps cut-off-switch 3 cases/lock-order.case 0 1 1 switch
    steps in-vain 0 "$scratch/vain.case" 'rest 0'
    replays 'in vain' "$scratch/vain.case"
    # The last line of all fails: none is left.
    steps cut-off-at-the-end 0 "$scratch/last.case" 'rest 1' schedule
    replays 'cut off at the end' "$scratch/last.case"
    # Block 3 is the last, so thread 0 has no block for its other lines.
    steps cut-off-in-the-last-block 0 cases/lock-order.case 0 switch switch 1 1
    replays 'cut off in the last block' cases/lock-order.case
}

# A run may end anywhere: each thread stops where it is.
stopping() {
    steps stops 0 cases/case-a.case 0 0 1 0
    replays stops cases/case-a.case
    result 'its blocks have the lines that ran' grep -qx '2 1 1' "$scratch/printed.schedule"
    steps stops-broken 1 "$scratch/vain.case" 0
    replays 'stops before it is cut off' "$scratch/vain.case"
    says 'no input' 0 $'schedule:\n0 0 0\n' "$menduvo" step cases/case-a.case
    # Thread 3 has no block, and is left where it is.
    steps stops-without-block 0 "$scratch/four.case" 2
    replays 'stops without a block' "$scratch/four.case"
}

refusing() {
    steps thread-done 3 cases/case-a.case 1 1
    steps thread-unknown 3 cases/case-a.case 2
    steps thread-without-block 3 "$scratch/four.case" 'rest 0' 1 2 3
    steps too-late 3 cases/case-a.case switch 0 1
    steps too-many-switches 3 cases/case-a.case switch switch switch
    local text long
    long=$(printf 'x%.0s' {1..9000})
    for text in step 0x rest 'rest x' 'rest 0 1' '0 1' -1 65536 99999999999999999999 Quit $'\x1b[2J' $'\xff' "$long"; do
        typed 0 "$text" 0
        run bash -c "'$menduvo' step cases/case-a.case <'$scratch/typed'"
        result "the command '${text:0:20}'" eval '[ "$status" = 3 ] && [[ $out = *"line 2: "* ]] && [[ $out != *$'"'\\x1b'"'* ]]'
        result 'it goes no further' test "$(grep -c ' record   2  G0 = L0 + 1  G0 = 1' "$scratch/out")" = 0
    done
    says 'a line without an end' 3 'is not a command' bash -c "'$menduvo' step cases/case-a.case </dev/zero"
    says 'a folder as input' 3 'standard input: ' bash -c "'$menduvo' step cases/case-a.case </"
    says 'a last line without its end' 1 'violated' bash -c "printf '0\n0\n1\nrest 0' | '$menduvo' step cases/case-a.case"
    says 'lines of another system' 1 'violated' bash -c "printf '0\r\n0\r\n1\r\nrest 0\r\n' | '$menduvo' step cases/case-a.case"
    says 'a case on standard input' 3 'the commands are read from there' "$menduvo" step -
    damaged 0 5
    says 'a refused case' 2 'refusal 2' "$menduvo" step "$scratch/damaged.case"
    says 'no case' 3 'CASE is missing' "$menduvo" step
    says '--force alone' 3 '--force needs -o' "$menduvo" step cases/case-a.case --force
}

writing() {
    typed 0 0 1 'rest 0'
    local step="'$menduvo' step cases/case-a.case <'$scratch/typed' -o"
    says 'to a file' 1 'the schedule is in a.schedule' bash -c "$step '$scratch/a.schedule'"
    result 'the file is as those that are kept' cmp -s "$scratch/a.schedule" cases/case-a.schedule
    says 'the file is replayed' 1 'violated: record 4' "$menduvo" replay cases/case-a.case "$scratch/a.schedule"
    says 'the file is drawn' 0 'violated: record 4' \
        "$menduvo" picture cases/case-a.case "$scratch/a.schedule" -o "$scratch/a.svg"
    echo mine >"$scratch/a.schedule"
    says 'no file is replaced' 3 'a.schedule is there already; --force replaces it' bash -c "$step '$scratch/a.schedule'"
    result 'that is told before the work' eval '[[ $out != *"> 0"* ]] && [ "$(<"$scratch/a.schedule")" = mine ]'
    says 'a file is replaced' 1 'the schedule is in a.schedule' bash -c "$step '$scratch/a.schedule' --force"
    result 'it has the schedule' cmp -s "$scratch/a.schedule" cases/case-a.schedule
    says 'no place for the file' 3 $'schedule:\n2 1 2\nviolated' bash -c "$step '$scratch/none/a.schedule'"
    result 'that is told' grep -q '^menduvo: none/a.schedule: ' "$scratch/out"
    cp cases/case-a.case "$scratch/own.case"
    says 'the case is not replaced' 3 'own.case is an input' \
        bash -c "'$menduvo' step '$scratch/own.case' -o '$scratch/own.case' --force <'$scratch/typed'"
    result 'the case is still there' cmp -s cases/case-a.case "$scratch/own.case"
    says 'a file named -' 3 "-o needs a file's name" bash -c "$step -"
    typed 0 0
    says 'a run that stops, to a file' 0 'the schedule is in b.schedule' bash -c "$step '$scratch/b.schedule'"
    result 'the file has the lines that ran' grep -qx '2 0 0' "$scratch/b.schedule"
    typed 0 nonsense
    says 'a wrong command, no file' 3 'is not a command' bash -c "$step '$scratch/c.schedule'"
    result 'there is no file' test ! -e "$scratch/c.schedule"
}

outputs() {
    typed 0 0 1 'rest 0'
    says 'standard output is closed' 3 'standard output is closed' \
        bash -c "'$menduvo' step cases/case-a.case <'$scratch/typed' >&-"
    says 'standard output is full' 3 'standard output: ' bash -c "'$menduvo' step cases/case-a.case <'$scratch/typed' >/dev/full"
    run bash -c "yes values | { '$menduvo' step cases/case-a.case; echo \$? >'$scratch/status'; } | head -n 1"
    result 'nobody reads on' eval '[ "$(wc -l <"$scratch/out")" = 1 ] && [ "$(<"$scratch/status")" = 3 ]'
}

# What is printed comes before the next command is read, also over a pipe.
talking() {
    local line heard=
    coproc walk { "$menduvo" step cases/case-a.case; }
    # shellcheck disable=SC2154 # coproc sets it
    while IFS= read -r -t 20 line <&"${walk[0]}" && [[ $line != *'thread 1 '* ]]; do :; done
    echo 0 >&"${walk[1]}"
    while IFS= read -r -t 20 line <&"${walk[0]}" && [[ $line != *'thread 1 '* ]]; do heard+=$line$'\n'; done
    result 'it answers before it is asked again' eval '[[ $heard = *"L0 = G0  L0 = 0"* ]]'
    echo quit >&"${walk[1]}"
    # shellcheck disable=SC2154 # coproc sets it
    wait "$walk_PID"
}

# at_terminal LINE..: types the lines at a terminal.
at_terminal() {
    typed "$@"
    run bash -c "script -qec '$menduvo step cases/case-a.case' /dev/null <'$scratch/typed' | tr -d '\r'; exit \${PIPESTATUS[0]}"
}

terminal() {
    at_terminal 0 0 1 'rest 0' quit
    result 'at a terminal' eval '[ "$status" = 1 ] && [[ $out = *$'"'schedule:\\n2 1 2\\nviolated: record 4 '"'* ]]'
    result 'a prompt for each command' test "$(grep -o '^> ' "$scratch/out" | wc -l)" = 5
    at_terminal 0 nonsense 7 0 1 'rest 0'
    result 'a wrong command is not the end there' eval '[ "$status" = 1 ] && [[ $out = *"'"'nonsense'"' is not a command"* ]]'
    result 'nor is a wrong thread' eval '[[ $out = *"there is no thread 7; the threads are 0 and 1"* ]]'
    result 'the end of the input is the end' eval '[[ $out = *$'"'schedule:\\n2 1 2\\nviolated: record 4 '"'* ]]'
}

says 'the command is built' 0 'menduvo 0.' "$menduvo" --version
values
picking
undoing
giving
cutting
stopping
refusing
writing
outputs
talking
terminal
finish
