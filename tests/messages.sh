#!/usr/bin/env bash
# Tests what the command says where something is wrong: files of numbers by line and column, a failing constraint by what it needs
# and what is found, refusal 6 by its links; and names of files, which may have any bytes, in messages, files and pictures.
# Needs xmllint (Debian package libxml2-utils).
set -u
cd -- "$(dirname -- "${BASH_SOURCE[0]}")/.." || exit
. tests/helpers.sh || exit
seen=$scratch/fakes:$PATH

# text NAME STATUS WORDS TEXT: what check says of case A and this text, whose escapes are those of printf.
text() {
    printf '%b' "$4" >"$scratch/text"
    says "$1" "$2" "$3" "$menduvo" check cases/case-a.case "$scratch/text"
}

texts() {
    local mark='\xef\xbb\xbf' meets='meets: the assignment meets all 19 constraints'
    local six='0 0 0 1 2 5' rest='2 0 1 5 1 5'
    text 'a byte-order mark before numbers' 0 "$meets" "$mark$six $rest"
    text 'a byte-order mark before a model' 0 "$meets" "$mark$model"
    text 'a byte-order mark elsewhere' 2 "text: line 1, column 13: '\\u{feff}2' is not a number" "$six $mark$rest"
    text 'a comment before numbers' 0 "$meets" "# a comment: 1 2 3 x\n$six $rest"
    text 'a mark and a comment before numbers' 0 "$meets" "$mark# a comment\n\n  # another\n$six $rest"
    text 'a comment after numbers' 0 "$meets" "$six # x\n$rest# y"
    text 'a comment with the word sat' 0 "$meets" "# sat\n$six\n$rest\n"
    text 'a comment before a model' 0 "$meets" "# a comment\n$model"
    text 'a mark and a comment before a model' 0 "$meets" "$mark# a comment\nsat\n$model"
    text 'a comment before an answer' 2 "a solver's answer 'unsat'" '# a comment\nunsat\n'
    text 'lines of other systems' 0 "$meets" "# a comment\r\n$six\r\n# more\r$rest\r"
    text 'nothing but a comment' 2 'refusal 11' '# 0 0 0'
    text 'a bad number' 2 "text: line 3, column 5: 'x' is not a number from 0 to 65535" '0 0\n# x\n1 2 x 4\n'
    text 'a bad number after commas' 2 "text: line 1, column 6: '1.5' is not a number" '0,,0,1.5\n'
    text 'a bad number after a mark' 2 "text: line 1, column 1: '65536' is not a number" "${mark}65536"
    text 'a bad number after other signs' 2 "text: line 2, column 4: 'é' is not a number" "\n0\xe3\x80\x80\xc2\xa0\xc3\xa9"
    text 'a bad number in lines of other systems' 2 "text: line 3, column 3: 'x' is not a number" '0\r\n0\r1 x'
    text 'a bad number with control signs' 2 "'\\x1b[2J\\u{202e}' is not a number" '\x1b[2J\xe2\x80\xae'
    text 'two values in a model' 2 'text: line 3: v0 has two values' '# x\n((v0 #x0000)\n(v0 #x0000))'
    text 'a variable too many' 2 'text: line 2: v12 has a value, but the case has 12 variables' '\n((v12 #x0000))'
    text 'no constant' 2 'text: line 2: the value of v1 is not a constant' '((v0 #x0000)\n (v1\n 5))'
    text 'an open parenthesis' 2 'text: line 2: a parenthesis is not closed' '((v0 #x0000))\n((v1 #x0000)\n'
    text 'a parenthesis too many' 2 'text: line 2: a parenthesis too many' '((v0 #x0000))\n)'
    text 'too deep' 2 'text: line 3: too many parentheses' '(((((\n((\n(('
    text 'an error' 2 'text: line 2: the solver reports an error: error' 'sat\n(error "no model")'
    local first=${model%% (v6*}
    text 'a model with missing values' 1 \
        "menduvo: text: the model has no value for 6 of 12 variables (v6, v7, v8, v9, v10 and 1 more); 0 is taken for them" \
        "${first%$'\n'})"
    result 'its output is as before' eval '[[ $out = *$'\''\n'\''"fails: the assignment fails constraint"* ]]'
    text 'a model with one missing value' 0 'no value for 1 of 12 variables (v0); 0 is taken for it, and the checker decides' \
        "${model/(v0 #x0000)/}"
    run bash -c "$menduvo decode cases/case-a.case '$scratch/text' 2>'$scratch/note'"
    result 'the note is on standard error' test "$out, $(wc -l <"$scratch/note")" = '2 1 2, 1'
    run bash -c "$menduvo decode cases/case-a.case '$scratch/text' 2>&-"
    result 'standard error is closed' test "$status, $out" = '0, 2 1 2'
    text 'a whole model' 0 "$meets" "$model"
    result 'has no note' test "$out" = "$meets"
}

# The files of numbers that the command writes say what they are, and so do those that ship.
files() {
    fake z3 "cat >/dev/null; echo sat; echo '$model'"
    says 'files are kept' 1 'violated' "$menduvo" solve cases/case-a.case --keep "$scratch/kept"
    result 'an assignment as it ships' cmp "$scratch/kept/case-a.assignment" cases/case-a.assignment
    result 'a schedule as it ships' cmp "$scratch/kept/case-a.schedule" cases/case-a.schedule
    result 'the words of an assignment' test "$(head -n 1 cases/case-a.assignment)" = "# assignment of case-a.case: \
12 numbers, block number and value of 5 records, then the value of 1 item at the end of 2 blocks"
    result 'the words of a schedule' test "$(head -n 1 cases/case-a.schedule)" = \
        '# schedule of case-a.case: 3 block lengths, then 0 input values'
    says 'a kept assignment is read' 0 meets "$menduvo" check cases/case-a.case "$scratch/kept/case-a.assignment"
    says 'a kept schedule is read' 1 violated "$menduvo" replay cases/case-a.case "$scratch/kept/case-a.schedule"
    run "$menduvo" decode cases/case-a.case cases/case-a.assignment
    result 'decode prints bare numbers' test "$out" = '2 1 2'
    local file
    for file in cases/*.assignment cases/*.schedule; do
        result "$file says what it is" grep -q "^# ${file##*.} of $(basename "${file%.*}").case: " "$file"
    done
    # One record, an assert of 0, and one block.
    fields 2 0 0 0 1 0 0 0 0 0 0 0 0 0 0 0 0 5 0 0 0 16 0 0 >"$scratch/one.case"
    fake z3 "cat >/dev/null; echo sat; echo '((v0 #x0000) (v1 #x0000))'"
    run bash -c "$menduvo solve - --keep '$scratch/kept' <'$scratch/one.case'"
    run cat "$scratch/kept/case.assignment" "$scratch/kept/case.schedule"
    result 'singulars, and standard input' test "$out" = \
        "# assignment of standard input: 2 numbers, block number and value of 1 record, then the value of 0 items at the end of 0 blocks
0 0
# schedule of standard input: 1 block length, then 0 input values
1"
}

# needs NAME CASE NUMBERS TEXT: check says this of the constraint that the numbers fail, in its last line.
needs() {
    echo "$3" >"$scratch/numbers"
    run "$menduvo" check "$2" "$scratch/numbers"
    result "$1" test "$status, ${out##*$'\n'  }" = "1, $4"
}

# Case A: the first row that fails is each of 1, 2, 3, 4, 6, 7, 8.
rows_of_case_a() {
    local case=cases/case-a.case
    needs 'a 3' $case '1 0 0 1 2 5 2 0 1 5 1 5' \
        'needed: a block number that is 0 modulo 2, or 3 for a line that was not run; found: block number 1, which is 1 modulo 2'
    needs 'a 3, the largest number' $case '0 0 0 1 2 5 2 0 65534 5 1 5' \
        'needed: a block number that is 1 modulo 2, or 3 for a line that was not run; found: block number 65534, which is 0 modulo 2'
    needs 'a 1' $case '2 0 0 1 2 5 2 0 1 5 1 5' \
        'needed: record 2 in block 2 or later, as record 1 is in block 2; found: block number 0'
    needs 'a 2' $case '0 0 0 1 2 5 2 0 65535 5 1 5' \
        'needed: block number 0 to 2, or 3 for a line that was not run; found: block number 65535'
    needs 'a 2, past what says not run' $case '0 0 0 1 4 5 4 1 1 5 1 5' \
        'needed: block number 0 to 2, or 3 for a line that was not run; found: block number 4'
    needs 'an 8' $case '0 0 0 1 0 1 2 1 1 5 1 5' \
        'needed: block number 0, that of record 3, as record 4 touches no shared item, or 3 for a line that was not run; found: block number 2'
    needs 'an 8 after a line that was not run' $case '0 0 0 1 3 0 4 1 1 5 1 5' \
        'needed: record 4 not run, as record 3 was not (block number 3); found: block number 4'
    says 'an 8 of decode' 1 'the block number of record 4 (thread 0, line 4: assert L1 == 1) is that of record 3, the line before it,' \
        "$menduvo" decode $case <(echo 0 0 0 1 0 1 2 1 1 5 1 5)
    needs 'a 1 after a line that was not run' $case '3 0 0 1 2 5 2 0 1 5 1 5' \
        'needed: record 2 not run, as record 1 was not (block number 3); found: block number 0'
    needs 'a 4, a load that was not run' $case '0 0 0 1 3 5 3 1 1 5 1 5' \
        'needed: value 0 (a line that was not run has 0); found: 5'
    needs 'a 4, a store that was not run' $case '0 0 0 1 2 1 2 1 3 5 1 1' \
        'needed: value 0 (a line that was not run has 0); found: 5'
    needs 'a 4, an assert that was not run' $case '0 0 0 1 2 5 3 0 1 5 1 5' \
        'needed: value 1 (an assert that was not run has 1); found: 0'
    needs 'a 6, and its copy was not run' $case '0 0 3 0 3 0 3 1 1 5 1 5' \
        'needed: value 0 (G0 = 0 at the start, and no line in block 0 has target G0); found: 1'
    needs 'a 7, and the assert was not run' $case '0 0 0 1 2 5 3 1 1 5 1 5' \
        'needed: an assert with value 0; found: value 1 of record 4'
    needs 'a 4, a load at the start' $case '0 7 0 1 2 5 2 0 1 5 1 5' 'needed: value 0 (G0 = 0 at the start); found: 7'
    needs 'a 4, a store' $case '0 0 0 2 2 5 2 0 1 5 1 5' 'needed: value 1 (L0 + 1 with L0 = 0 by record 1); found: 2'
    needs 'a 4, a load in the same block' $case '0 0 0 1 0 5 0 0 1 5 1 5' \
        'needed: value 1 (G0 = 1 by record 2 in the same block); found: 5'
    needs 'a 4, a load in a later block' $case '0 0 0 1 2 1 2 0 1 5 1 5' \
        'needed: value 5 (G0 = 5 at the end of block 1); found: 1'
    needs 'a 4, an assert' $case '0 0 0 1 2 5 2 1 1 5 1 5' \
        'needed: value 0 (L1 == 1 is 0 with L1 = 5 by record 3); found: 1'
    needs 'a 4, a constant' $case '0 0 0 1 2 5 2 0 1 6 1 5' 'needed: value 5 (the constant 5); found: 6'
    needs 'a 6 with a copy' $case '0 0 0 1 2 5 2 0 1 5 0 5' \
        'needed: value 1 (by record 2, the last line in block 0 with target G0); found: 0'
    needs 'a 6 without a copy, block 0' $case '2 5 2 6 2 6 2 0 1 5 9 5' \
        'needed: value 0 (G0 = 0 at the start, and no line in block 0 has target G0); found: 9'
    needs 'a 7' $case '0 0 0 1 0 1 0 1 1 5 1 5' 'needed: an assert with value 0; found: value 1 of record 4'
    says 'a 15 of decode' 1 $'\n  needed: value 1 (L0 + 1 with L0 = 0 by record 1); found: 2' \
        "$menduvo" decode $case <(echo 0 0 0 2 2 5 2 0 1 5 1 5)
}

# A case with guards of both kinds and every kind of line. Thread 0:
# 1 L0 = input, 2 if L0 != 0: L1 = L0 - 1, 3 if L0 == 0: G0 = 7, 4 if L0 != 0: lock M0, 5 if L0 == 0: assert L1, 6 assume L0 < 2,
# 7 if L0 != 0: unlock M0, 8 assert L0 - 3. Thread 1: 9 lock M0, 10 L2 = G0 (if L2 != 0), 11 if L0 == 0: L3 = input.
rows_of_guards() {
    local case=$scratch/guards.case
    fields 2 2 1 1 1 9 0 0 4 0 0 0 0 0 0 0 \
        2 4 0 0 0 0 0 0  3 1 1 1 2 0 16 1  4 2 17 0 0 16 0 7  5 7 1 0 0 0 0 0  6 5 17 0 0 1 0 0  7 6 0 0 6 0 16 2 \
        8 8 1 0 0 0 0 0  0 5 0 0 2 0 16 3  10 7 0 0 0 0 0 0  11 3 3 2 0 0 0 0  0 4 18 3 0 0 0 0 >"$case"
    local yes='the guard L0 != 0 is true with L0 = 1 by record 1' no='the guard L0 != 0 is false with L0 = 0 by record 1'
    local is='the guard L0 == 0 is true with L0 = 0 by record 1' not='the guard L0 == 0 is false with L0 = 1 by record 1'
    local keeps='the target keeps its value,'
    local goal='needed: an assert with value 0 or an unlock by a stranger; found: value 1 of records 5 and 8'
    needs 'a compute, guard true' "$case" '0 1 0 9 0 4 0 1 0 1 0 1 2 0 2 1 1 2 1 0 1 0 4 1 4 2' \
        "needed: value 0 ($yes; L0 - 1 with L0 = 1 by record 1); found: 9"
    needs 'a compute, guard false' "$case" '0 0 0 9 0 7 0 0 0 0 0 1 2 1 2 1 1 2 1 0 1 0 7 0 7 2' \
        "needed: value 0 ($no; $keeps L1 = 0 at the start); found: 9"
    needs 'a store, guard true' "$case" '0 0 0 0 0 8 0 0 0 0 0 1 2 1 2 1 1 2 1 0 1 0 7 0 7 2' \
        "needed: value 7 ($is; the constant 7); found: 8"
    needs 'a store, guard false' "$case" '0 1 0 0 0 8 0 1 0 1 0 1 2 0 2 1 1 2 1 0 1 0 4 1 4 2' \
        "needed: value 4 ($not; $keeps G0 = 4 at the start); found: 8"
    needs 'a lock, guard true' "$case" '0 1 0 0 0 4 0 0 0 1 0 1 2 0 2 1 1 2 1 0 1 0 4 1 4 2' \
        "needed: value 1 ($yes; a lock by thread 0 gives 1); found: 0"
    needs 'a lock, guard false' "$case" '0 0 0 0 0 7 0 1 0 0 0 1 2 1 2 1 1 2 1 0 1 0 7 0 7 2' \
        "needed: value 0 ($no; $keeps M0 = 0 (free) at the start); found: 1"
    needs 'an assert, guard true' "$case" '0 0 0 0 0 7 0 0 0 1 0 1 2 1 2 1 1 2 1 0 1 0 7 0 7 2' \
        "needed: value 0 ($is; L1 = 0 by record 2); found: 1"
    needs 'an assert, guard false' "$case" '0 1 0 0 0 4 0 1 0 0 0 1 2 0 2 1 1 2 1 0 1 0 4 1 4 2' \
        "needed: value 1 ($not; an assert then has 1); found: 0"
    needs 'an assume' "$case" '0 1 0 0 0 4 0 1 0 1 0 0 2 0 2 1 1 2 1 0 1 0 4 1 4 2' \
        'needed: value 1 (L0 < 2 is 1 with L0 = 1 by record 1); found: 0'
    needs 'a 5, an assume' "$case" '0 2 0 1 0 4 0 1 0 1 0 0 2 0 2 1 1 2 1 0 1 0 4 1 4 2' \
        'needed: value 1, as the assume must hold; found: 0 (L0 < 2 is 0 with L0 = 2 by record 1)'
    needs 'an unlock, guard true' "$case" '0 1 0 0 0 4 0 1 0 1 0 1 2 1 2 1 1 2 1 0 1 0 4 1 4 2' \
        "needed: value 0 ($yes; an unlock gives 0); found: 1"
    needs 'an unlock, guard false' "$case" '0 0 0 0 0 7 0 0 0 0 0 1 2 0 2 1 1 2 1 0 1 0 7 0 7 2' \
        "needed: value 2 ($no; $keeps M0 = 2 (held by thread 1) at the end of block 1); found: 0"
    needs 'an assert, not 0' "$case" '0 1 0 0 0 4 0 1 0 1 0 1 0 0 0 2 1 2 1 0 1 0 4 0 4 2' \
        'needed: value 1 (L0 - 3 is 65534 with L0 = 1 by record 1, which is not 0); found: 2'
    needs 'a 5, a lock' "$case" '0 1 0 0 0 4 0 1 0 1 0 1 2 0 2 1 1 2 1 0 1 0 4 1 4 2' \
        'needed: M0 = 0; found: M0 = 1 (held by thread 0) at the end of block 0'
    needs 'a 5, a lock that was not run' "$case" '0 1 0 0 0 4 0 1 0 1 0 1 2 0 2 1 3 0 3 0 3 0 4 1 4 1' \
        "$goal; the unlock of record 7, by thread 0, finds M0 = 1 (held by thread 0) at the end of block 1"
    needs 'a 5, an assume that was not run' "$case" '0 2 0 1 0 4 0 1 0 1 3 1 3 0 3 1 3 0 3 0 3 0 4 1 4 1' \
        "$goal; the unlock of record 7 was not run"
    needs 'a 4, an assume that was not run' "$case" '0 2 0 1 0 4 0 1 0 1 3 0 3 0 3 1 3 0 3 0 3 0 4 1 4 1' \
        'needed: value 1 (an assume that was not run has 1); found: 0'
    needs 'a 4, an input that was not run' "$case" '0 1 0 0 0 4 0 1 0 1 0 1 0 0 0 1 1 2 1 0 3 9 4 0 4 2' \
        'needed: value 0 (a line that was not run has 0); found: 9'
    needs 'a 5, a lock with a guard' "$case" '2 1 2 0 2 4 2 1 2 1 2 1 2 0 2 1 1 2 1 0 1 0 4 0 4 2' \
        "needed: M0 = 0 ($yes); found: M0 = 2 (held by thread 1) at the end of block 1"
    needs 'a load, guard false' "$case" '0 1 0 0 0 4 0 1 0 1 0 1 0 0 0 1 1 2 1 4 1 0 4 0 4 2' \
        "needed: value 0 (the guard L2 != 0 is false with L2 = 0 at the start; $keeps L2 = 0 at the start); found: 4"
    needs 'an input, guard true' "$case" '0 1 0 0 0 4 0 1 0 1 0 1 0 0 0 1 1 2 1 0 1 9 4 0 4 2' \
        "$goal; the unlock of record 7, by thread 0, finds M0 = 1 (held by thread 0) by record 4 in the same block"
    needs 'a 6 of a mutex' "$case" '0 1 0 0 0 4 0 1 0 1 0 1 0 0 0 1 1 2 1 0 1 9 4 0 4 0' \
        'needed: value 2 (by record 9, the last line in block 1 with target M0); found: 0'
    needs 'a 6 without a copy, block 1' "$case" '0 1 0 0 0 4 0 1 0 1 0 1 0 0 0 1 1 2 1 0 1 9 4 0 5 2' \
        'needed: value 4 (G0 = 4 at the end of block 0, and no line in block 1 has target G0); found: 5'
    # An input whose guard, L0 != 0, is false; no line has an expression.
    fields 2 0 0 0 1 0 0 0 0 0 0 0 0 0 0 0  0 4 1 3 0 0 0 0 >"$case"
    needs 'an input, guard false' "$case" '0 9' \
        "needed: value 0 (the guard L0 != 0 is false with L0 = 0 at the start; $keeps L3 = 0 at the start); found: 9"
    fields 2 0 0 0 1 0 0 0 0 0 0 0 0 0 0 0  0 6 1 0 0 16 0 0 >"$scratch/assume.case"
    needs 'an assume, guard false' "$scratch/assume.case" '0 0' \
        'needed: value 1 (the guard L0 != 0 is false with L0 = 0 at the start; an assume then has 1); found: 0'
    fields 2 0 0 0 1 0 0 0 0 0 0 0 0 0 0 0  0 1 0 0 1 0 0 0 >"$scratch/double.case"
    needs 'a local twice' "$scratch/double.case" '0 5' 'needed: value 0 (L0 + L0 with L0 = 0 at the start); found: 5'
    needs 'a 7 without an assert' "$case" '0 0' 'needed: an assert with value 0 or an unlock by a stranger; found: no assert and no unlock'
}

# Unlocks alone, n = 2: thread 0: 1 lock M0, 2 unlock M0; thread 1: 3 L0 = 1, 4 if L0 == 0: unlock M0, 5 if L0 != 0: unlock M0.
rows_of_holders() {
    local case=$scratch/holders.case needed='needed: an unlock by a stranger; found: the unlock of record'
    local skipped='4 is skipped: the guard L0 == 0 is false with L0 = 1 by record 3'
    fields 2 2 0 1 1 3 0 0 0 0 0 0 0 0 0 0 \
        2 7 0 0 0 0 0 0  0 8 0 0 0 0 0 0  4 1 0 0 0 16 0 1  5 8 17 0 0 0 0 0  0 8 1 0 0 0 0 0 >"$case"
    needs 'a lock that gives what another thread would' "$case" '0 2 0 0 3 0 3 0 3 0 0 0' 'needed: value 1 (a lock by thread 0 gives 1); found: 2'
    needs 'a 7, and nothing was run' "$case" '3 0 3 0 3 0 3 0 3 0 0 0' \
        "$needed 2 was not run; the unlock of record 4 was not run; the unlock of record 5 was not run"
    needs 'a 7, by the holder' "$case" '0 1 2 0 1 1 1 1 3 0 1 1' \
        "$needed 2, by thread 0, finds M0 = 1 (held by thread 0) at the end of block 1; the unlock of record $skipped; the unlock of record 5 was not run"
    needs 'a 7, by the holder in the same block' "$case" '0 1 0 0 3 0 3 0 3 0 0 0' \
        "$needed 2, by thread 0, finds M0 = 1 (held by thread 0) by record 1 in the same block; the unlock of record 4 was not run; the unlock of record 5 was not run"
    # By a stranger it is met: of a mutex that thread 0 holds, of a free one, and of one that is free in the same block.
    local numbers
    for numbers in '0 1 3 0 1 1 1 1 1 0 1 0' '3 0 3 0 1 1 1 0 1 0 0 0' '0 1 2 0 1 1 1 1 1 0 1 0'; do
        says "an unlock by a stranger, $numbers" 0 'meets all' "$menduvo" check "$case" <(echo "$numbers")
        says "it replays to that, $numbers" 1 'record 5 (thread 1, line 3: when L0 != 0: unlock M0) is an unlock by a stranger: ' \
            "$menduvo" replay "$case" <("$menduvo" decode "$case" <(echo "$numbers"))
    done
    # A number that no lock puts into a mutex is told as it is, and so is that of a thread that the case does not have.
    needs 'a 6 of a mutex with a number of no thread' "$case" '0 1 0 0 3 0 3 0 3 0 9 0' \
        'needed: value 0 (by record 2, the last line in block 0 with target M0); found: 9'
    needs 'a 6 after it' "$case" '0 1 2 0 3 0 3 0 3 0 1 3' 'needed: value 1 (M0 = 1 (held by thread 0) at the end of block 0, and no line in block 1 has target M0); found: 3'
}

# checked CASE NUMBER..: check without the script, which takes most of the time. Sets status, out, and of what fails its kind of
# row, the row's next two numbers, what is needed and what is found.
checked() {
    out=$(printf '%s\n' "${@:2}" | target/menduvo/release/menduvo check "$1" - 2>&1)
    status=$?
    [[ $out =~ :\ ([0-9]+)\ ([0-9]+)\ ([0-9]+)\ .*needed:\ (.*)\;\ found:\ (.*)$ ]]
    kind=${BASH_REMATCH[1]:-} first=${BASH_REMATCH[2]:-} second=${BASH_REMATCH[3]:-}
    needed=${BASH_REMATCH[4]:-} found=${BASH_REMATCH[5]:-}
}

# The assignments that ship, with one number changed: what is needed is said, and is not what is found.
changed_numbers() {
    local name place value wrong=0 fails=0 numbers all kind first second needed found
    for name in case-a lost-update interlock-broken handshake release-broken; do
        read -r -d '' -a all < <(sed 1d "cases/$name.assignment")
        for place in "${!all[@]}"; do
            for value in 0 1 $((all[place] + 1)) 65535; do
                numbers=("${all[@]}") && numbers[place]=$value
                checked "cases/$name.case" "${numbers[@]}"
                [ "$status" != 0 ] || continue
                fails=$((fails + 1))
                if [ "$status" != 1 ] || [ -z "$needed" ] || [ "${needed%% (*}" = "value ${found%% (*}" ]; then
                    wrong=$((wrong + 1))
                    echo "    $name, number $place is $value: $out"
                fi
            done
        done
    done
    result 'a changed number is told' test "$((fails > 200)), $wrong" = '1, 0'
}

# Where values are 0 at first, and then what was needed, the assignment that ships comes out.
mended_numbers() {
    local name records items input place tries all numbers kind first second needed found
    # The case, its records and items, and the variable with the value of its input line.
    while read -r name records items input; do
        read -r -d '' -a all < <(sed 1d "cases/$name.assignment")
        numbers=("${all[@]}")
        for place in "${!all[@]}"; do
            ((place < 2 * records && place % 2 == 0 || place == input)) || numbers[place]=0
        done
        for ((tries = 0; tries < 200; tries++)); do
            checked "cases/$name.case" "${numbers[@]}"
            [[ $status = 1 && $kind = [46] && $needed =~ ^value\ ([0-9]+)\  ]] || break
            place=$((kind == 4 ? 2 * first - 1 : 2 * records + second * items + first))
            numbers[place]=${BASH_REMATCH[1]}
        done
        result "$name, mended" test "$status, $((tries > 3)), ${numbers[*]}" = "0, 1, ${all[*]}"
    done <<'CASES'
case-a 5 1 -1
lost-update 12 2 1
interlock-broken 18 3 -1
release-broken 15 3 -1
CASES
}

# Refusal 6: the links that lead to a record, and only those that count.
links() {
    local case=$scratch/links.case nothing='5 0 0 0 16 0 0'
    # link FIRST0 FIRST1 NEXT..: a case of asserts with these links.
    link() {
        local next records=()
        for next in "${@:3}"; do
            # shellcheck disable=SC2206 # seven numbers
            records+=("$next" $nothing)
        done
        fields 2 0 0 0 "$1" "$2" 0 0 0 0 0 0 0 0 0 0 "${records[@]}" >"$case"
    }
    link 1 0 2 3 4 1
    says 'a cycle' 2 $'reached twice\n  record 1 is reached twice: by the first record of thread 0, and by the next number of record 4 (thread 0, line 4)' \
        "$menduvo" list "$case"
    link 1 1 2 0
    says 'two threads' 2 $'\n  record 1 is reached twice: by the first record of thread 0, and by the first record of thread 1' \
        "$menduvo" list "$case"
    result 'the record after it is not told' eval '[[ $out != *"record 2"* ]]'
    # Records 4 and 5 are reached by nobody.
    link 1 3 2 3 0 2 4
    run "$menduvo" list "$case"
    result 'a stray link does not count' test "${out#*$'\n'*$'\n'}" = \
        '  record 3 is reached twice: by the first record of thread 1, and by the next number of record 2 (thread 0, line 2)'
    link 1 1 1
    says 'three links' 2 'record 1 is reached 3 times: by the first record of thread 0, by the first record of thread 1, and by the next number of record 1 (thread 0, line 1)' \
        "$menduvo" list "$case"
    link 2 3 1 2 2
    says 'two records' 2 'record 2 is reached 3 times: by the first record of thread 0, by the next number of record 2 (thread 0, line 1), and by the next number of record 3 (thread 1, line 1)' \
        "$menduvo" list "$case"
    link 9 0 8 0
    says 'over R' 2 $'\n  the first record of thread 0 is 9, but R is 2\n  the next number of record 1 (in no thread) is 8, but R is 2' \
        "$menduvo" list "$case"
    link 1 0 {20..35}
    run "$menduvo" list "$case"
    result 'ten lines' eval '[[ $out = *"  the next number of record 10 (in no thread) is 29, but R is 16
  and 6 more" ]]'
}

singulars() {
    fields 2 1 0 0 0 0 0 0 0 0 0 0 0 0 0 0 >"$scratch/empty.case"
    fake z3 'cat >/dev/null; echo unsat'
    says 'one constraint' 0 'nothing meets this one constraint.' "$menduvo" solve "$scratch/empty.case"
    result 'one switch' eval '[[ $out = *"within n = 1 switch, in"* ]]'
    says 'more constraints' 0 'nothing meets these 19 constraints.' "$menduvo" solve cases/case-a.case
    result 'more switches' eval '[[ $out = *"within n = 2 switches, in"* ]]'
    # One mutex and one switch: a single variable.
    fields 2 1 0 1 0 0 0 0 0 0 0 0 0 0 0 0 >"$scratch/mutex.case"
    run "$menduvo" check "$scratch/mutex.case" <(echo '((v1 #x0000))')
    result 'one variable' eval '[[ $out = *": line 1: v1 has a value, but the case has 1 variable" ]]'
    local things='thread|switche|global|mutexe|record|constraint|variable|line|block|number|value|item|case|byte'
    run grep -nE "(all|these) 1 |[^+] 1 ($things)s\b" tests/command/*.expected
    result 'no plural of one thing' test "$status" = 1
}

# shown NAME TEXT: a file of this name is shown so, in messages.
shown() {
    says "the name '$2'" 3 "menduvo: $2: No such file" "$menduvo" list "$scratch/$1"
}

names() {
    shown $'a\nb' 'a\nb'
    shown $'a\tb\rc' 'a\tb\rc'
    shown $'\x1b[2J\x07\x7f' '\x1b[2J\x07\x7f'
    shown $'\xff\xc3' '\xff\xc3'
    shown 'a\xff' 'a\\xff'
    shown $'\xc2\x9b\xc2\x85\xe2\x80\xae\xe2\x80\xaa\xe2\x81\xa6\xe2\x81\xa9\xe2\x80\xa8\xe2\x80\xa9' \
        '\u{9b}\u{85}\u{202e}\u{202a}\u{2066}\u{2069}\u{2028}\u{2029}'
    shown $'\xef\xbf\xbe\xef\xbb\xbf\xe2\x80\x8b' '\u{fffe}\u{feff}\u{200b}'
    shown $'Übung é 水 \xf0\x9f\x98\x80' $'Übung é 水 \xf0\x9f\x98\x80'
    says 'a command that is none' 3 "there is no command 'a\\x1b'" "$menduvo" $'a\x1b'
    says 'an option that is none' 3 "there is no option '-\\x1b'" "$menduvo" list $'-\x1b'
    says 'an operand too many' 3 "'\\x1b' is too much" "$menduvo" decode x y $'\x1b'
    says 'a solver that is none' 3 "'\\x1b' is not a solver" "$menduvo" solve x --solver $'\x1b'
    says 'a picture that cannot be written' 3 'menduvo: \x1b/x: ' \
        "$menduvo" picture cases/case-a.case cases/case-a.schedule -o "$scratch/"$'\x1b/x'
    says 'a folder that cannot be read' 3 'menduvo: \x1b: ' "$menduvo" list "$scratch/"$'\x1b'
    two_names
}

# Two cases whose names differ in a byte that is no UTF-8, and one with a line end: in a folder's table, and in what is kept.
two_names() {
    local folder=$scratch/folder file
    mkdir "$folder"
    for file in $'a\xff' $'a\xfe' $'a\nb'; do cp cases/case-a.case "$folder/$file.case"; done
    fake z3 "cat >/dev/null; echo sat; echo '$model'"
    says 'a folder' 1 '3 cases: 3 violated' "$menduvo" solve "$folder" --keep "$scratch/two"
    result 'three names in its table' test "$(grep -c -e '^folder/a\\nb.case ' -e '^folder/a\\xfe.case ' -e '^folder/a\\xff.case ' "$scratch/out")" = 3
    result 'nothing that a terminal acts on' eval '! LC_ALL=C grep -q "[^ -~]" "$scratch/out"'
    result 'six files of each' test "$(find "$scratch/two" -type f -printf x)" = xxxxxxxxxxxxxxxxxx
    for file in $'a\xff' $'a\xfe' $'a\nb'; do
        result 'a file has the name of its case' test -s "$scratch/two/$file.schedule"
    done
    result 'the name in a file' test "$(head -n 1 "$scratch/two/"$'a\nb.schedule')" = \
        '# schedule of a\nb.case: 3 block lengths, then 0 input values'
    says 'its file is read' 1 'violated' "$menduvo" replay cases/case-a.case "$scratch/two/"$'a\nb.schedule'
}

# picture NAME TITLE: the picture of a case with this name is XML, and has this title.
picture() {
    cp cases/case-a.case "$scratch/$1.case"
    run "$menduvo" picture "$scratch/$1.case" cases/case-a.schedule -o "$scratch/picture.svg" --force
    result "the picture of $2 is drawn" test "$status" = 0
    run xmllint --noout "$scratch/picture.svg"
    result "the picture of $2 is XML" test "$status, $out" = '0, '
    run xmllint --xpath 'string(//*[local-name()="text"][1])' "$scratch/picture.svg"
    result "the title of $2" test "$out" = "$2"
}

pictures() {
    local byte sign ascii='' high=''
    for ((byte = 1; byte < 256; byte++)); do
        printf -v sign '%b' "\\x$(printf %02x "$byte")"
        if ((byte < 128 && byte != 47)); then ascii+=$sign; elif ((byte >= 128)); then high+=$sign; fi
    done
    picture plain plain
    picture "$ascii" "$(for byte in {1..8}; do printf '\\x%02x' "$byte"; done)\\t\\n\\x0b\\x0c\\r$(
        for byte in {14..31}; do printf '\\x%02x' "$byte"; done
    ) !\"#\$%&'()*+,-.0123456789:;<=>?@ABCDEFGHIJKLMNOPQRSTUVWXYZ[\\\\]^_\`abcdefghijklmnopqrstuvwxyz{|}~\\x7f"
    picture "$high" "$(for byte in {128..255}; do printf '\\x%02x' "$byte"; done)"
    picture $'\xef\xbf\xbe\xef\xbf\xbf]]>&lt;' '\u{fffe}\u{ffff}]]>&lt;'
    run bash -c "$menduvo picture - cases/case-a.schedule -o '$scratch/picture.svg' --force <cases/case-a.case"
    result 'the title of standard input' grep -q '>case</text>' "$scratch/picture.svg"
}

# no_source NAME WORDS TEXT: what make says of this text, whose escapes are those of printf.
no_source() {
    printf '%b' "$3" >"$scratch/no.source"
    says "$1" 2 "$2" "$menduvo" make "$scratch/no.source" -o -
}

no_sources() {
    local told='it is no source either' head='switches 3\nthread\nthread\n' long
    printf -v long '#%02000d\\n' 0 0 0
    no_source 'a letter of another encoding' "$told: line 4, column 6: the byte fc is no UTF-8; save it as UTF-8" \
        "$head# Sch\xfctz"
    no_source 'two bytes for each letter' "$told: line 1, column 1: the byte ff is no UTF-8" '\xff\xfes\x00w\x00'
    no_source 'a letter that is cut off' "$told: line 4, column 2: the byte c3 is no UTF-8" "$head#\xc3"
    no_source 'a control character' "$told: line 1, column 11: the control character U+000C" 'switches 3\fthread'
    no_source 'a control character after a mark' "$told: line 1, column 2: the control character U+0000" '\xef\xbb\xbf#\x00'
    no_source 'one as long as a case' 'refusal 2, place 0' 'switches 3\nthread #\x01............'
    result 'one as long as a case: that it is none' grep -qF "$told: line 2, column 9: " <<<"$out"
    no_source 'one that is longer than a case' "$told: line 4, column 1: the byte ff" "$long\xff"
    no_source 'nothing' 'it is empty' ''
    result 'nothing: that alone' test "${out##*it is empty}" = ''
    says 'a case' 2 "cases/case-a.case: a case already; 'menduvo source' prints" "$menduvo" make cases/case-a.case -o -
    local filled='printf "switches 3\nthread\nthread\n#"; head -c "$1" /dev/zero | tr "\\0" "#"'
    says 'the longest source' 0 'switches 3' bash -c "{ $filled; } | $menduvo source -" - "$((262144 - 26))"
    says 'one that is longer' 2 'over 262144 bytes of text' bash -c "{ $filled; } | $menduvo source -" - "$((262144 - 25))"
    says 'a case that is refused' 2 'refusal 1' bash -c "head -c 40 cases/case-a.case | $menduvo show -"
    result 'a case that is refused: no word of sources' bash -c '! grep -q source <<<"$1"' - "$out"
}

# in_thread NAME WORDS LINES: what make says of these lines of a thread whose L0 is called old.
in_thread() {
    no_source "$1" "$2" "switches 3\nglobal up = 0\nthread\nlocal old = L0\n$3\nthread\n"
}

# What is advised must be right in the thread where it is advised.
advice_in_sources() {
    local alone="'up' is a global, and is loaded by a line of its own: L1 = up"
    in_thread 'a global in a sum' "line 5, column 8: $alone" 'L1=1 + up'
    in_thread 'a sum with a global' "line 5, column 7: $alone" 'L1=up + 1'
    in_thread 'a global and another' "line 5, column 6: $alone" 'up = up'
    in_thread 'a word after a global' "line 5, column 7: '1' cannot stand here" 'L1=up 1'
    in_thread 'if' "line 5, column 1: 'if' is a word that is kept for later; a guard is 'when old != 0:'" 'if L1: L1 = 1'
    in_thread 'record 0' 'line 5, column 1: this line would be record 0, but records go from 1 to 1, the number of lines' \
        'record 0: L1 = 1'
    in_thread 'a record over R' 'line 6, column 1: this line would be record 3, but records go from 1 to 2, the number of lines' \
        'L1 = 1\nrecord 3: L1 = 1'
    in_thread 'a record given twice' 'line 6, column 1: this line would be record 1, but line 5 is that already' \
        'L1 = 1\nrecord 1: L1 = 1'
}

run "$menduvo" --version
result 'the command is built' test "$status" = 0
no_sources
advice_in_sources
texts
files
rows_of_case_a
rows_of_guards
rows_of_holders
changed_numbers
mended_numbers
links
singulars
names
pictures
finish
