#!/usr/bin/env bash
# Tests cases that are written as source: the commands make and source, what is said of a text that is no source, refusals that point
# back to it, and names in what the other commands print. tests/src compares both commands with a second implementation.
set -u
cd -- "$(dirname -- "${BASH_SOURCE[0]}")/.." || exit
. tests/helpers.sh || exit

# written LINE..: a source of these lines in the scratch folder.
written() {
    printf '%s\n' "$@" >"$scratch/gate.source"
}

# lines COUNT TEXT: the text, so many times, a line each.
lines() {
    local i
    for ((i = 0; i < $1; i++)); do echo "$2"; done
}

# at PLACE TEXT COULD LINE..: the source of these lines is refused at this place with this text, and with what could stand there.
at() {
    local place=$1 wrong=$2 could=$3
    shift 3
    written "$@"
    rm -f "$scratch/gate.case"
    run "$menduvo" make "$scratch/gate.source" -o "$scratch/gate.case"
    result "at $place: $wrong" eval '[ "$status" = 2 ] && [ "${out%%$'"'\n'"'*}" = "menduvo: gate.source: line ${place/:/, column }: $wrong" ]'
    result "at $place: what could stand there" eval '[ "${out##*$'"'\n'"'}" = "  could stand here: $could" ]'
    result "at $place: no case" test ! -e "$scratch/gate.case"
}

# refused PLACE NUMBER: the source there is, which is refused by the library with this number, points to this place.
refused() {
    local place=$1 number=$2
    run "$menduvo" make "$scratch/gate.source" -o "$scratch/gate.case"
    result "refusal $2 points to $1" eval '[ "$status" = 2 ]' '&&' \
        '[[ $out = "menduvo: gate.source: line ${place/:/, column }: refusal $number, place 0: "* ]]'
    result "refusal $2: no case" test ! -e "$scratch/gate.case"
    run "$menduvo" list "$scratch/gate.source"
    result "refusal $2 is listed" eval '[ "$status" = 2 ] && [[ $out = "$number 0"$'"'\n'"'* ]]'
}

shipped() {
    local source name
    for source in cases/*.source; do
        name=$(basename "$source" .source)
        says "$source is made" 0 "$name.case: 2 threads" "$menduvo" make "$source" -o "$scratch/$name.case"
        result "$source makes $name.case" cmp -s "$scratch/$name.case" "cases/$name.case"
    done
    for name in cases/*.case; do result "$name has a source" test -f "${name%.case}.source"; done
    same source-case-a 0 "$menduvo" source cases/case-a.case
    same source-interlock-broken 0 "$menduvo" source cases/interlock-broken.source
    result 'there and back, over pipes' cmp -s cases/interlock.case <("$menduvo" source cases/interlock.case | "$menduvo" make - -o -)
}

files() {
    written 'switches 0' thread thread
    says 'a case is made' 0 'gate.case: 2 threads, 0 switches, 0 globals, 0 mutexes, 0 records' \
        "$menduvo" make "$scratch/gate.source" -o "$scratch/gate.case"
    cp "$scratch/gate.case" "$scratch/before"
    written 'switches 1' thread thread
    says 'it is not replaced' 3 'gate.case is there already; --force replaces it' \
        "$menduvo" make "$scratch/gate.source" -o "$scratch/gate.case"
    result 'it is as it was' cmp -s "$scratch/gate.case" "$scratch/before"
    says 'it is replaced' 0 '1 switch' "$menduvo" make "$scratch/gate.source" -o "$scratch/gate.case" --force
    result 'it is another' eval '! cmp -s "$scratch/gate.case" "$scratch/before"'
    says 'the source is not replaced' 3 'is an input' "$menduvo" make "$scratch/gate.source" -o "$scratch/gate.source" --force
    says 'no file' 3 '-o CASE is missing' "$menduvo" make "$scratch/gate.source"
    says 'a place that is not there' 3 'gate.case: ' "$menduvo" make "$scratch/gate.source" -o "$scratch/none/gate.case"
    says 'a full disk' 3 '/dev/full: ' "$menduvo" make "$scratch/gate.source" -o /dev/full --force
    says 'a case is no source' 2 'a case already' "$menduvo" make cases/case-a.case -o "$scratch/again.case"
    says 'numbers are no source' 2 'line 2, column 1' "$menduvo" show cases/case-a.schedule
    says 'a source that never ends' 2 'over 262144 bytes of text' bash -c "yes '# and on' | '$menduvo' show -"
    printf '\xef\xbb\xbfswitches 1\r\nthread # one\r\n\tL0=0\r\nthread' >"$scratch/gate.source"
    run "$menduvo" source "$scratch/gate.source"
    result 'a mark before it, carriage returns, tabs, no last line end' eval \
        '[ "$status" = 0 ] && [ "$out" = "$(printf "switches 1\n\nthread\n    L0 = 0\n\nthread")" ]'
    printf 'switches 1\nthread\nthread\0' >"$scratch/gate.source"
    says 'a text with a byte 0 is no source' 2 'refusal 1, place 0' "$menduvo" show "$scratch/gate.source"
}

local_or_global='a local (L0 to L15), a global (G0)'
actions="$local_or_global, lock, unlock, assert, assume"
number='a number from 0 to 65535'
name='a new name, of at most 32 letters, digits and _, that begins with a letter'
head=('switches 2' 'global G0 = 0' 'mutex M0')

errors() {
    at 1:1 "'thread' cannot stand here" switches thread
    at 2:1 'the source ends too soon' switches '# nothing'
    at 1:9 'the line ends too soon' "$number" switches
    at 1:10 "'x' cannot stand here" "$number" 'switches x'
    at 1:10 "'65536' is not $number" "$number" 'switches 65536'
    at 1:10 "'0x10' is not $number" "$number" 'switches 0x10'
    at 1:10 "'007' has one spelling, 7" "$number" 'switches 007'
    at 1:10 "'-' cannot stand here" "$number" 'switches -1'
    at 1:12 "'3' cannot stand here" 'the end of the line' 'switches 2 3'
    at 2:1 "'switches' cannot stand here" 'global, mutex, thread' 'switches 2' 'switches 2'
    at 2:1 "'lock' cannot stand here" 'global, mutex, thread' 'switches 2' 'lock M0'
    at 4:1 "'global' cannot stand here" 'mutex, thread' "${head[@]}" 'global G1 = 0'
    at 2:10 'the line ends too soon' = 'switches 2' 'global G0'
    at 2:8 "'G1' is no name for what is G0 here" "G0, or $name" 'switches 2' 'global G1 = 0'
    at 2:8 "'when' is a word of the language" "G0, or $name" 'switches 2' 'global when = 0'
    at 2:8 "'while' is a word of the language" "G0, or $name" 'switches 2' 'global while = 0'
    at 2:8 "'9th' cannot stand here" "G0, or $name" 'switches 2' 'global 9th = 0'
    at 2:8 "'_x' cannot stand here" "G0, or $name" 'switches 2' 'global _x = 0'
    at 2:8 "'gäte' cannot stand here" "G0, or $name" 'switches 2' 'global gäte = 0'
    at 2:8 "'a23456789012345678901234567890123' has 33 characters" "G0, or $name" 'switches 2' \
        'global a23456789012345678901234567890123 = 0'
    at 3:8 "'gate' is a name already, by line 2" "G1, or $name" 'switches 2' 'global gate = 0' 'global gate = 1'
    at 3:7 "'gate' is a name already, by line 2" "M0, or $name" 'switches 2' 'global gate = 0' 'mutex gate'
    at 5:7 "'G0' is a name already, by line 2" "$name" "${head[@]}" thread 'local G0 = L0'
    at 5:7 "'L1' is no name of its own" "$name" "${head[@]}" thread 'local L1 = L0'
    at 5:11 "'L16' cannot stand here" 'a local that has no name yet, of L0 to L15' "${head[@]}" thread 'local x = L16'
    at 6:11 'L0 is called x already' 'a local that has no name yet, of L0 to L15' "${head[@]}" thread 'local x = L0' 'local y = L0'
    at 6:1 "'local' cannot stand after a thread's first line" "$actions, when, record, thread" "${head[@]}" thread 'lock M0' \
        'local x = L0'
    at 5:1 "'mutex' cannot stand here" "local, $actions, when, record, thread" "${head[@]}" thread 'mutex M1'
    at 5:1 "'if' is a word that is kept for later; a guard is 'when L0 != 0:'" "local, $actions, when, record, thread" \
        "${head[@]}" thread 'if L0 == 0'
    at 5:6 "'G0' cannot stand here" 'a mutex (M0)' "${head[@]}" thread 'lock G0'
    at 5:6 "there is no 'M1' here" 'a mutex (M0)' "${head[@]}" thread 'lock M1'
    at 3:6 "there is no 'M0' here" 'a mutex, and none is declared' 'switches 2' thread 'lock M0'
    at 5:1 "'M0' is a mutex: 'lock M0' and 'unlock M0' are its lines" "local, $actions, when, record, thread" "${head[@]}" thread 'M0 = 1'
    at 5:6 "there is no 'G1' here" "$local_or_global, $number, input" "${head[@]}" thread 'L0 = G1'
    at 5:9 "'G0' is a global, and is loaded by a line of its own: L0 = G0" 'the end of the line' "${head[@]}" thread 'L0 = G0 + 1'
    at 5:14 "'L3' cannot stand here" 'the end of the line' "${head[@]}" thread 'L0 = L1 + L2 L3'
    at 5:9 "'>' cannot stand here: a > b is b < a" '+, -, &, |, ==, <, the end of the line' "${head[@]}" thread 'L0 = L1 > 2'
    at 5:6 "'G0' is a global, and is loaded by a line of its own: L0 = G0" "a local (L0 to L15), $number" "${head[@]}" thread \
        'G0 = G0'
    at 5:8 "'M0' is a mutex, and has no value in a line" "a local (L0 to L15), $number" "${head[@]}" thread 'assert M0'
    at 5:12 'a line has one number, and 5 is it' 'a local (L0 to L15), 5' "${head[@]}" thread 'assert 5 + 6'
    at 5:8 "'input' cannot stand here" "a local (L0 to L15), $number" "${head[@]}" thread 'assert input'
    at 5:9 "'<' cannot stand here: a guard compares a local with 0" '!=, ==' "${head[@]}" thread 'when L0 < 0: lock M0'
    at 5:12 "'1' cannot stand here: a guard compares a local with 0" 0 "${head[@]}" thread 'when L0 != 1: lock M0'
    at 5:14 "'lock' cannot stand here" : "${head[@]}" thread 'when L0 != 0 lock M0'
    at 5:9 "'<=' cannot stand here: a <= b is that b < a is 0" '+, -, &, |, ==, <, the end of the line' "${head[@]}" thread \
        'L0 = L1 <= 2'
    at 5:13 "';' cannot stand here: nothing ends a line but its end" 'the end of the line' "${head[@]}" thread 'L0 = L1 + L2;'
    at 1:1 "'//' cannot stand here: a comment begins with #" switches '// n' 'switches 2'
    at 1:1 "'2' cannot stand here: a list of numbers is no case" switches '2 1 2'
    at 5:1 "'while' is a word that is kept for later; lines that are run again are written again" \
        "local, $actions, when, record, thread" "${head[@]}" thread 'while L0 == 0'
    at 5:6 "'G0' is a global, and is loaded by a line of its own: L0 = G0" 'a local (L0 to L15)' "${head[@]}" thread \
        'when G0 != 0: lock M0'
    at 6:8 "'G0' is a global, and is loaded by a line of its own: L1 = G0" 'a local (x, others of L0 to L15), '"$number" \
        "${head[@]}" thread 'local x = L0' 'assume G0 < x'
    at 5:15 "'record' cannot stand here" "$actions" "${head[@]}" thread 'when L0 != 0: record 1: lock M0'
    at 5:11 "'record' cannot stand here" "$actions, when" "${head[@]}" thread 'record 1: record 1: lock M0'
    at 6:1 "'L0' is called x here" "local, a local (x, others of L0 to L15), a global (G0), lock, unlock, assert, assume, when, record, thread" \
        "${head[@]}" thread 'local x = L0' 'L0 = 1'
    at 4:1 "'G0' is called gate here" 'local, a local (L0 to L15), a global (gate), lock, unlock, assert, assume, when, record, thread' \
        'switches 2' 'global gate = 0' thread 'G0 = 1'
    at 5:1 'this line would be record 0, but records go from 1 to 1, the number of lines' 'record 1:' "${head[@]}" thread 'record 0: lock M0'
    at 5:1 'this line would be record 3, but records go from 1 to 2, the number of lines' 'record 1:' "${head[@]}" thread 'record 3: lock M0' 'unlock M0'
    at 7:1 'this line would be record 1, but line 5 is that already' 'record 2:' "${head[@]}" thread 'lock M0' thread \
        'record 1: lock M0'
    run "$menduvo" show "$scratch/gate.source"
    same source-error 2 "$menduvo" solve "$scratch/gate.source" --json
    written 'switches 2' thread "$(printf '\tL0\xe2\x80\xae = 1')"
    says 'what cannot be seen is named' 2 'line 3, column 4: '\''\u{202e}'\'' cannot stand here' "$menduvo" show "$scratch/gate.source"
}

limits() {
    rm -f "$scratch/gate.case"
    { echo 'switches 1'; lines 4 thread; lines 1 thread; } >"$scratch/gate.source" && refused 6:1 2
    { echo 'switches 1'; lines 1 thread; } >"$scratch/gate.source" && refused 3:1 2
    { echo 'switches 16'; lines 2 thread; } >"$scratch/gate.source" && refused 1:10 3
    { echo 'switches 1'; for i in {0..8}; do echo "  global G$i = 0"; done; lines 2 thread; } >"$scratch/gate.source" && refused 10:3 4
    { echo 'switches 1'; for i in {0..4}; do echo "mutex M$i"; done; lines 2 thread; } >"$scratch/gate.source" && refused 6:1 4
    { echo 'switches 1'; lines 1 thread; lines 1 thread; lines 65 ' L0 = 1'; } >"$scratch/gate.source" && refused 68:2 8
    { echo 'switches 1'; lines 2 thread; lines 257 'L0 = 1'; } >"$scratch/gate.source" && refused 260:1 1
    { echo 'switches 15'; for i in {0..7}; do echo "global G$i = 65535"; done; for i in {0..3}; do echo "mutex M$i"; done
        for _ in {1..4}; do echo thread; lines 64 'when L15 == 0: L15 = 65535 - L14'; done; } >"$scratch/gate.source"
    says 'the largest case' 0 '4 threads, 15 switches, 8 globals, 4 mutexes, 256 records' \
        "$menduvo" make "$scratch/gate.source" -o "$scratch/gate.case"
    # What is over every limit, as far as a source can be, ends soon and is refused.
    local of statement
    while read -r of number statement; do
        { echo 'switches 1'; [ "$of" = items ] || lines 2 thread; lines 18000 "$statement" | awk '{ sub(/@/, NR); print }'; } \
            >"$scratch/gate.source"
        says "18,000 of '$statement'" 2 "refusal $number, place 0" timeout 10 "$menduvo" show "$scratch/gate.source"
    done <<'MANY'
items 2 mutex m@
items 2 thread
lines 1 L0=1
MANY
    { echo 'switches 1'; lines 2 thread; lines 18000 'L0=1'; echo 'record 1:L0=1'; } >"$scratch/gate.source"
    says 'a record twice, and 18,000 others' 2 'could stand here: record 18001:' timeout 10 "$menduvo" show "$scratch/gate.source"
    result 'it has the most bytes' test "$(wc -c <"$scratch/gate.case")" = 4128
}

# Everything that is printed of a source has its names.
names() {
    same show-names 0 "$menduvo" show cases/interlock.source
    same replay-names 1 "$menduvo" replay cases/lost-update.source cases/lost-update.schedule
    says 'a broken assertion is found in the source' 1 "that is line $(grep -n 'assert right' cases/lost-update.source | cut -d: -f1) of the source" \
        "$menduvo" replay cases/lost-update.source cases/lost-update.schedule
    says 'and a cut-off' 0 "that is line $(grep -n ' lock first' cases/lock-order.source | tail -n 1 | cut -d: -f1) of the source" \
        "$menduvo" replay cases/lock-order.source cases/lock-order.schedule
    run "$menduvo" replay cases/lost-update.case cases/lost-update.schedule
    result 'a case has no line of a source' eval '[[ $out != *source* ]]'
    says 'solve has names' 1 'assert both == 0) is broken' "$menduvo" solve cases/interlock-broken.source
    says 'and a stranger has one' 1 'unlock interlock) is an unlock by a stranger: thread 0 held interlock' "$menduvo" solve cases/release-broken.source
    says 'it is found in the source' 1 "that is line $(grep -n '# the way out' cases/release-broken.source | cut -d: -f1) of the source" \
        "$menduvo" replay cases/release-broken.source cases/release-broken.schedule
    says 'a holder has one in what is needed' 1 'needed: value 2 (a lock by thread 1 gives 2); found: 1' \
        "$menduvo" check cases/interlock-broken.source <(sed '1d; s/ 1 2 1 0 1 0 / 1 1 1 0 1 0 /' cases/interlock-broken.assignment)
    says 'the 7 has them' 0 'record 11 was run and interlock is not 2 (held by thread 1), read as interlock by record 8' \
        "$menduvo" list --words cases/release-broken.source
    says 'an assert is named' 0 'assert expected == after): reached' "$menduvo" solve cases/lock-order.source
    run "$menduvo" picture cases/lost-update.source cases/lost-update.schedule -o -
    result 'a picture has names' eval '[[ $out = *"position = before + amount"* && $out = *">position = 10<"* && $out = *">done = 1<"* ]]'
    run "$menduvo" list cases/interlock.source
    result 'the list is the same' cmp -s "$scratch/out" <("$menduvo" list cases/interlock.case)
    says 'a failing constraint has names' 1 'needed: value 0 (lower = 0 at the start); found: 9' \
        "$menduvo" check cases/interlock-broken.source <(sed '1d; s/^0 1 0 0/0 1 0 9/' cases/interlock-broken.assignment)
    run "$menduvo" replay --json cases/release-broken.source cases/release-broken.schedule
    result 'a fault has the name of its mutex' eval '[[ $out = *"\"fault\":{\"record\":11,\"kind\":\"unlock\",\"mutex\":\"interlock\",\"holder\":0}"* ]]'
    run "$menduvo" show --json cases/lost-update.source
    result 'objects have names' eval '[[ $out = *"\"name\":\"position\""* && $out = *"\"does\":\"before = position\""* ]]'
    mkdir "$scratch/folder" && cp cases/lock-order.source cases/lock-order.case cases/case-a.case "$scratch/folder"
    says 'a folder: sources, and cases without one' 1 'folder/lock-order.source' "$menduvo" solve "$scratch/folder"
    result 'each once' eval '[[ $out = *"2 cases: 1 violated, 1 unsat"* && $out = *folder/case-a.case* && $out != *lock-order.case* ]]'
}

# A source is filed with its case, and verify makes the one from the other.
filing() {
    run "$menduvo" file cases/interlock-broken.source "$scratch/filed"
    result 'a source is filed' eval '[ "$status" = 1 ] && cmp -s "$scratch/filed/case.source" cases/interlock-broken.source'
    result 'with its case' cmp -s "$scratch/filed/case.case" cases/interlock-broken.case
    result 'with its names' grep -q 'assert both == 0' "$scratch/filed/run.txt"
    result 'the page says how a source reads' grep -q 'HOW THE SOURCE READS' "$scratch/filed/README.txt"
    says 'it is verified' 0 'case.case         same' "$menduvo" verify "$scratch/filed"
    sed -i 's/both/all/' "$scratch/filed/case.source"
    says 'another name' 1 'case.source       differs' "$menduvo" verify "$scratch/filed"
    cp cases/interlock-broken.source "$scratch/filed/case.source"
    says 'it is the same again' 0 'the same' "$menduvo" verify "$scratch/filed"
    cp cases/interlock.source "$scratch/filed/case.source"
    says 'a source of another case' 1 'case.source       differs' "$menduvo" verify "$scratch/filed"
    # Neither is a source, so no name is taken from it: one is longer than any, the other has a control character in a comment.
    { echo 'switches 3'; lines 70000 'global a@=0' | awk '{ sub(/@/, NR); print }'; } >"$scratch/filed/case.source"
    says 'a source that is too long' 1 'case.source       differs' timeout 10 "$menduvo" verify "$scratch/filed"
    result 'a source that is too long: no panic' eval '[[ $out != *panicked* ]]'
    { cat cases/interlock-broken.source; printf '# \001\n'; } >"$scratch/filed/case.source"
    says 'a text that is no source' 1 'case.source       differs: its SHA-256 is not that of MANIFEST; this check has no such file' \
        "$menduvo" verify "$scratch/filed"
    rm "$scratch/filed/case.source"
    says 'the source is gone' 1 'case.source       missing' "$menduvo" verify "$scratch/filed"
}

shipped
files
errors
limits
names
filing
finish
