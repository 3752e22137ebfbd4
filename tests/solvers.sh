#!/usr/bin/env bash
# Tests what the command makes of solvers, with fakes and with z3 and cvc5: answers that say nothing are told from others, solvers
# that fail, hang, are killed or disagree give no answer, none outlives the command, and nothing that was kept is lost. With --store
# it writes the expected texts anew.
set -u
cd -- "$(dirname -- "${BASH_SOURCE[0]}")/.." || exit
. tests/helpers.sh || exit
seen=$scratch/fakes:$PATH
mkdir "$scratch/fakes"

# within SECONDS COMMAND..: the command comes true within so many seconds.
within() {
    local end=$((SECONDS + $1))
    shift
    until "$@"; do
        ((SECONDS < end)) || return 1
        sleep 0.02
    done
}

# gone FILE: the processes that are named in the file are no more. One that nobody waited for is no more either.
gone() {
    local process
    for process in $(<"$1"); do
        ! grep -q '^State:[[:space:]]*[^Z]' "/proc/$process/status" 2>/dev/null || return 1
    done
}

# without_times: takes the seconds out of a table that was printed.
without_times() {
    sed -i 's/  [0-9]\.[0-9][0-9]  /  -.--  /' "$scratch/out"
    out=$(<"$scratch/out")
}

# case_file FILE LINE..: a case with two threads, n = 3, two globals and a mutex; thread 0 has these lines, each of seven fields
# without the next number, and thread 1 writes 1 to G0 and then 2.
case_file() {
    local file=$1 record=1 all=()
    shift
    for line; do
        # shellcheck disable=SC2206 # seven words
        all+=($((record < $# ? record + 1 : 0)) $line)
        record=$((record + 1))
    done
    all+=($((record + 1)) 2 0 0 0 16 0 1  0 2 0 0 0 16 0 2)
    fields 2 3 2 1 1 "$record" 0 0 0 0 0 0 0 0 0 0 "${all[@]}" >"$file"
}

# The defaults take a minute to see, so they are looked at in the end.
begin_default_timeout() {
    mkdir "$scratch/hanging" "$scratch/slow"
    cp cases/case-a.case "$scratch/hanging"
    printf '#!%s\nexec sleep 600\n' "$BASH" >"$scratch/slow/z3" && chmod +x "$scratch/slow/z3"
    env PATH="$scratch/slow:$PATH" timeout 100 "$menduvo" solve "$scratch/hanging" >"$scratch/hanging.out" 2>&1 &
    env PATH="$scratch/slow:$PATH" timeout 100 "$menduvo" solve cases/case-a.case >"$scratch/single.out" 2>&1 &
}

default_timeout() {
    wait %1
    status=$? out=$(<"$scratch/hanging.out")
    result 'a folder has a limit of itself' eval '[ "$status" = 3 ] && [[ $out = *"1 timeout"* ]]'
    result 'one case has none' kill %2
}

answers() {
    fake z3 "cat >/dev/null; echo sat; echo '$model'"
    same solve-sat 1 "$menduvo" solve cases/case-a.case
    fake z3 'cat >/dev/null; echo unsat'
    same solve-unsat 0 "$menduvo" solve cases/interlock.case
    fake z3 "cat >/dev/null; echo sat; echo '${model/v3 #x0001/v3 #x0002}'"
    same solve-wrong-model 3 "$menduvo" solve cases/case-a.case
    local body words
    while IFS='|' read -r body words; do
        fake z3 "$body"
        says "a solver that does '$body'" 3 "$words" "$menduvo" solve cases/case-a.case --solver z3
    done <<'FAKES'
cat >/dev/null; echo hello world|z3 gave no answer that can be read: it printed 'hello world'
exit 0|z3 gave no answer that can be read: it printed nothing
kill -9 $$|z3 gave no answer that can be read: it printed nothing, and it was ended by signal 9
cat >/dev/null; echo unsat; kill -9 $$|z3 gave no answer that can be read: it printed 'unsat', but it was ended by signal 9
cat >/dev/null; echo unsat; exit 1|z3 gave no answer that can be read: it printed 'unsat', but it ended with exit status 1
echo unsat; echo '(error "no model")'|z3 gave no answer that can be read: it printed 'unsat', and then '(error "no model")'
echo sat|z3 gave no answer that can be read: it says sat, and gives no model
echo sat; echo '((v0 #x0000) (v3 #x0000))'|the model has no value for 10 of 12 variables (v1, v2, v4, v5, v6 and 5 more); 0 is taken for them
echo sat; echo '((v0 #x0000)'|z3 gave no answer that can be read: a parenthesis is not closed
echo sat; echo '(error "line 3: oops")'|z3 gave no answer that can be read: the solver reports an error
printf '\377\376\033[2J\n'|z3 gave no answer that can be read: it printed
trap '' PIPE; yes 2>/dev/null; exit 0|z3 gave no answer that can be read: it printed 'y'
trap '' PIPE; yes sat 2>/dev/null; exit 0|z3 gave no answer that can be read: no value of v0
echo unsat; exec >&-; sleep 60|z3 gave no answer that can be read: it printed 'unsat', but it did not end
echo unknown|menduvo: unknown: z3 gave up
echo timeout|menduvo: timeout: z3 gave no answer in time
FAKES
    fake z3 "cat >/dev/null; echo sat; sed 's/(v[0127] #x0000)//g' <<<'$model'"
    says 'a model that leaves zeros out' 1 '(the model has no value for 4 of 12 variables (v0, v1, v2 and v7); 0 is taken for them' \
        "$menduvo" solve cases/case-a.case
    fake z3 'cat >/dev/null; echo unsat; exit 20'
    says 'a solver that ends with 20 after unsat' 0 'z3 says unsat' "$menduvo" solve cases/interlock.case
    fake z3 "cat >/dev/null; echo sat; echo '$model'; exit 10"
    says 'a solver that ends with 10 after sat' 1 'violated' "$menduvo" solve cases/case-a.case
    bare
    local seen=$scratch/bare
    says 'no solver' 3 'no solver is installed' "$menduvo" solve cases/case-a.case
    says 'no z3' 3 'the solver z3 is not installed' "$menduvo" solve cases/case-a.case --solver z3
    says 'no cvc5' 3 'the solver cvc5 is not installed' "$menduvo" solve cases/case-a.case --solver cvc5
    says 'one of both is missing' 3 'the solver z3 is not installed' "$menduvo" solve cases/case-a.case --solver both
    says 'a command that is not there' 3 'the solver yices is not installed' \
        "$menduvo" solve cases/case-a.case --solver-command 'bin/yices --smt2'
    same demo 0 "$menduvo" demo
}

# What solvers are given: the case's text, byte for byte.
given() {
    "$menduvo" smt cases/case-a.case >"$scratch/text"
    fake z3 "cat >'$scratch/given-z3'; echo sat; echo '$model'"
    run "$menduvo" solve cases/case-a.case --keep "$scratch/given"
    result 'z3 is given the text' eval '[ "$status" = 1 ] && cmp -s "$scratch/given-z3" "$scratch/text"'
    result 'the text is kept' cmp -s "$scratch/given/case-a.smt2" "$scratch/text"
    run "$menduvo" solve cases/case-a.source --solver z3
    result 'so it is where the case is given as source' cmp -s "$scratch/given-z3" "$scratch/text"
    # One that gives a model the second time.
    : >"$scratch/runs"
    fake other "echo >>'$scratch/runs'; cat >'$scratch/given-'\$(wc -l <'$scratch/runs'); echo sat
        [ \"\$(wc -l <'$scratch/runs')\" = 1 ] || echo '$model'"
    says 'another solver is given the text twice' 1 'violated: record 4' \
        "$menduvo" solve cases/case-a.case --solver-command other --keep "$scratch/given-other"
    result 'first the text alone' cmp -s "$scratch/given-1" "$scratch/text"
    { echo '(set-option :produce-models true)' && cat "$scratch/text" && echo "(get-value ($(echo v{0..11})))"; } >"$scratch/asked-for"
    result 'then with what asks for a model' cmp -s "$scratch/given-2" "$scratch/asked-for"
    result 'and no more often' test "$(wc -l <"$scratch/runs")" = 2
    result 'the text alone is kept' cmp -s "$scratch/given-other/case-a.smt2" "$scratch/text"
    says 'cvc5 as any other, which has no models unless it is told' 1 'violated: record 9' \
        "$menduvo" solve cases/lost-update.case --solver-command "$cvc5 --lang=smt2 -"
    # One line alone: the case's text with the part of that line alone in its last assertion, as docs/SMT-TEXT.md spells it.
    local record part
    "$menduvo" smt cases/interlock-broken.case >"$scratch/text"
    fake z3 "cat >'$scratch/given-z3'; echo unsat"
    while IFS='|' read -r record part; do
        { head -n -2 "$scratch/text" && printf '(assert (or %s false))\n(check-sat)\n' "$part"; } >"$scratch/alone.smt2"
        run "$menduvo" solve cases/interlock-broken.case --assert "$record"
        result "record $record alone is asked about by its part of the text" eval \
            '[ "$status" = 0 ] && cmp -s "$scratch/given-z3" "$scratch/alone.smt2" && grep -qF "$part" "$scratch/text"'
    done <<'PARTS'
8|(= v15 #x0000)
17|(= v33 #x0000)
3|(not (or (= v4 #x0004) (ite (= v0 v4) (= #x0001 v1) (ite (= v4 #x0000) (= #x0001 #x0000) (ite (= v4 #x0002) (= #x0001 v41) true)))))
12|(not (or (= v22 #x0004) (ite (= v18 v22) (= #x0002 v19) (ite (= v22 #x0001) (= #x0002 v38) (ite (= v22 #x0003) (= #x0002 v44) true)))))
PARTS
    rm "$scratch/fakes/z3"
}

# A model is asked for only after sat, of any solver.
models() {
    fake other 'tee -a "${0%/*}/../heard" >"${0%/*}/../last"; echo unsat'
    says 'another solver says unsat' 0 'other says unsat' "$menduvo" solve cases/interlock.case --solver-command 'other -x'
    result 'of an unsat no model is asked' test "$(grep -c '^(check-sat)$' "$scratch/heard"), $(grep -c get-value "$scratch/heard")" = '1, 0'
    fake other "case \$(cat) in *get-value*) echo sat; echo '$model' ;; *) echo sat ;; esac"
    says 'another solver says sat' 1 'violated: record 4' \
        "$menduvo" solve cases/case-a.case --solver-command "$scratch/fakes/other" --keep "$scratch/other"
    result 'its model is kept' grep -q '(v11 #x0005)' "$scratch/other/case-a.reply"
    fake other 'case $(cat) in *get-value*) echo unsat ;; *) echo sat ;; esac'
    says 'another answer the second time' 3 'it says sat, and then unsat' "$menduvo" solve cases/case-a.case --solver-command other
    says 'z3 as any other' 1 'violated: record 9' "$menduvo" solve cases/lost-update.case --solver-command "$z3 -in -smt2"
    local solver
    for solver in z3 cvc5; do
        rm -f "$scratch/fakes/$solver"
        run "$menduvo" solve cases/interlock.case --solver "$solver" --keep "$scratch/unsat-$solver"
        result "$solver's unsat is kept without an error" test "$(<"$scratch/unsat-$solver/interlock.reply")" = unsat
    done
}

# Whether asserts are reached: the case's own text first, then what is asked of it.
vacuous() {
    local solver
    rm -f "$scratch/fakes/z3"
    # L0 = 1; G1 = L0.
    case_file "$scratch/none.case" '1 0 0 0 16 0 1' '2 0 1 0 0 0 0'
    fake z3 'cat >/dev/null; echo asked >>"${0%/*}/../asked"; echo unsat'
    says 'no assert' 0 'VACUOUS: this unsat says nothing: the case has no assert and no unlock.' "$menduvo" solve "$scratch/none.case"
    # L0 = 1 in thread 0; assert 1 in thread 2, which has no block.
    fields 3 1 0 0 1 0 2 0 0 0 0 0 0 0 0 0  0 1 0 0 0 16 0 1  0 5 0 0 0 16 0 1 >"$scratch/idle.case"
    says 'a thread without a block' 0 'VACUOUS: this unsat says nothing: thread 2 has the assert, and no block within n = 1' \
        "$menduvo" solve "$scratch/idle.case"
    result 'its assert' eval '[[ $out = *"line 1: assert 1): NEVER REACHED: its thread has no block within n = 1, and nothing was checked of it"* ]]'
    # Assert 1 in thread 0, and in thread 2.
    fields 3 1 0 0 1 0 2 0 0 0 0 0 0 0 0 0  0 5 0 0 0 16 0 1  0 5 0 0 0 16 0 1 >"$scratch/half.case"
    says 'an assert of a thread without a block' 0 'of 2 asserts, NEVER REACHED: record 2' "$menduvo" solve "$scratch/half.case"
    result 'the other is reached, and no solver is named for what is plain' eval \
        '[[ $out = *"line 1: assert 1): reached, e.g. schedule 1 0"* && $out != *VACUOUS* && $out != *"is the word of"* ]]'
    says 'one alone' 0 'thread 2 has the assert, and no block' "$menduvo" solve "$scratch/half.case" --assert 2
    # Assert 1 twice in thread 1, with one block, thread 0's.
    fields 2 0 0 0 0 1 0 0 0 0 0 0 0 0 0 0  2 5 0 0 0 16 0 1  0 5 0 0 0 16 0 1 >"$scratch/late.case"
    says 'several asserts, and no block' 0 'no thread with an assert has a block within n = 0' "$menduvo" solve "$scratch/late.case"
    result 'no solver is asked what is plain' test "$(wc -l <"$scratch/asked")" = 5
    run env PATH="$scratch/bare" "$menduvo" solve "$scratch/none.case"
    result 'it is said where there is no solver' eval '[[ $out = *"nothing is checked here, whatever a solver says: the case has no assert and no unlock"*"no solver is installed"* ]]'
    run env PATH="$scratch/bare" "$menduvo" solve cases/case-a.case "$scratch/none.case" "$scratch/idle.case"
    result 'of several cases, too' test "$status, $out" = "3, menduvo: no solver is installed, or none is in PATH; on Debian: apt-get install z3 (or cvc5)
  none.case: nothing is checked here, whatever a solver says: the case has no assert and no unlock
  idle.case: nothing is checked here, whatever a solver says: thread 2 has the assert, and no block within n = 1"
    says 'vacuous is strictly no success' 1 VACUOUS "$menduvo" solve "$scratch/none.case" --strict
    rm -f "$scratch/fakes/z3"
    # Assert 1; if L5: assert 1, which is never reached.
    case_file "$scratch/some.case" '5 0 0 0 16 0 1' '5 6 0 0 16 0 1'
    # Assume 0; assert 1: no run is legal.
    case_file "$scratch/illegal.case" '6 0 0 0 16 0 0' '5 0 0 0 16 0 1'
    # L0 = G0; L1 = (L0 == 1); if L1: assert 1: only where thread 1 has run one of its two lines.
    case_file "$scratch/between.case" '3 0 0 0 0 0 0' '1 0 1 5 0 16 1' '5 2 0 0 16 0 1'
    # L0 = input; L1 = (L0 == 54321); if L1: assert L0: only with that input.
    case_file "$scratch/input.case" '4 0 0 0 0 0 0' '1 0 1 5 0 16 54321' '5 2 0 0 0 0 0'
    # Assert 1, twice reached; a broken assertion, G1 == 1, and one that is not reached beside it.
    case_file "$scratch/broken.case" '3 0 0 0 1 0 0' '5 0 0 5 0 16 1' '5 6 0 0 16 0 1' '5 0 0 0 16 0 1'
    for solver in z3 cvc5; do
        says "$solver: some assert is not reached" 0 'of 2 asserts, NEVER REACHED: record 2' \
            "$menduvo" solve "$scratch/some.case" --solver "$solver"
        result "$solver: the other is" eval '[[ $out = *"line 1: assert 1): reached, e.g. schedule 2 2 0 0"* ]] && [[ $out != *VACUOUS* ]]'
        says "$solver: which is strictly no success" 1 'NEVER REACHED' "$menduvo" solve "$scratch/some.case" --solver "$solver" --strict
        result "$solver: by its word" eval '[[ $out = *"(NEVER REACHED is the word of '"$solver"'; a schedule is replayed by the proved library)"* ]]'
        says "$solver: no run is legal" 0 'VACUOUS: this unsat says nothing' "$menduvo" solve "$scratch/illegal.case" --solver "$solver"
        says "$solver: reached between two lines" 0 'assert 1): reached, e.g. schedule 0 1 3 ' \
            "$menduvo" solve "$scratch/between.case" --solver "$solver" --strict
        says "$solver: reached with an input" 0 'assert L0): reached, e.g. schedule' \
            "$menduvo" solve "$scratch/input.case" --solver "$solver" --strict
        result "$solver: and with that input alone" eval '[[ $out = *" 54321"* ]]'
        says "$solver: asserts beside a broken one" 1 'line 3: when L5 != 0: assert 1): NEVER REACHED' \
            "$menduvo" solve "$scratch/broken.case" --solver "$solver"
        result "$solver: the broken one is reached" eval '[[ $out = *"line 2: assert L0 == 1): reached"*"line 4: assert 1): reached"* ]]'
    done
    mkdir "$scratch/words" && cp "$scratch"/{none,idle,some,illegal,between,input,broken}.case "$scratch/words"
    cd "$scratch/words" || exit
    run "$menduvo" solve . --solver z3
    cd - >/dev/null || exit
    without_times
    matches solve-vacuous 1
    rm "$scratch/words/broken.case"
    says 'a folder with vacuous answers' 0 '3 unsat, 3 vacuous' "$menduvo" solve "$scratch/words" --solver z3 --keep "$scratch/strictly"
    says 'strictly' 1 '3 unsat, 3 vacuous' "$menduvo" solve "$scratch/words" --solver z3 --strict
    says 'strictly, resumed' 1 '3 unsat, 3 vacuous' "$menduvo" solve "$scratch/words" --resume "$scratch/strictly" --strict
    unlocks
}

# The same of unlocks, alone and beside asserts.
unlocks() {
    local solver
    # If L5: unlock M0, which is never reached; the same, and assert 1; lock M0, unlock M0.
    case_file "$scratch/skipped.case" '8 6 0 0 0 0 0'
    case_file "$scratch/beside.case" '8 6 0 0 0 0 0' '5 0 0 0 16 0 1'
    case_file "$scratch/held.case" '7 0 0 0 0 0 0' '8 0 0 0 0 0 0'
    # L0 = G0; L1 = (L0 == 1); lock M0; if L1: unlock M0; if L1: lock M0; if L1: unlock M0; if L1 == 0: unlock M0: the second unlock
    # is reached only where the first one frees.
    case_file "$scratch/twice.case" '3 0 0 0 0 0 0' '1 0 1 5 0 16 1' '7 0 0 0 0 0 0' '8 2 0 0 0 0 0' '7 2 0 0 0 0 0' '8 2 0 0 0 0 0' '8 18 0 0 0 0 0'
    # L0 = G0; L1 = (L0 == 1); if L1: unlock M0, which is free.
    case_file "$scratch/free.case" '3 0 0 0 0 0 0' '1 0 1 5 0 16 1' '8 2 0 0 0 0 0'
    # Unlock M0 in thread 2, which has no block; and in thread 0 as well.
    fields 3 1 0 1 1 0 2 0 0 0 0 0 0 0 0 0  0 1 0 0 0 16 0 1  0 8 0 0 0 0 0 0 >"$scratch/idle-unlock.case"
    for solver in z3 cvc5; do
        says "$solver: an unlock that is never reached" 0 'VACUOUS: this unsat says nothing: no legal run within the bound reaches the unlock with a true guard.' \
            "$menduvo" solve "$scratch/skipped.case" --solver "$solver"
        result "$solver: it has a head of its own" grep -qx 'unlocks:' "$scratch/out"
        says "$solver: beside an assert" 0 'This unsat does not say something about every assert or unlock: of 2 asserts and unlocks, NEVER REACHED: record 1.' \
            "$menduvo" solve "$scratch/beside.case" --solver "$solver"
        says "$solver: which is strictly no success" 1 'NEVER REACHED' "$menduvo" solve "$scratch/beside.case" --solver "$solver" --strict
        says "$solver: an unlock alone is something to check" 0 'line 2: unlock M0): reached, e.g. schedule 2 2 0 0' \
            "$menduvo" solve "$scratch/held.case" --solver "$solver" --strict
        says "$solver: an unlock behind another" 0 'line 6: when L1 != 0: unlock M0): reached, e.g. schedule ' \
            "$menduvo" solve "$scratch/twice.case" --solver "$solver" --strict
        result "$solver: and that one" eval '[[ $out = *"line 4: when L1 != 0: unlock M0): reached, e.g. schedule "* ]]'
        says "$solver: an unlock of a free mutex" 1 'line 3: when L1 != 0: unlock M0) is an unlock by a stranger: M0 was free' \
            "$menduvo" solve "$scratch/free.case" --solver "$solver"
        result "$solver: it is reached" eval '[[ $out = *"line 3: when L1 != 0: unlock M0): reached, e.g. schedule "* ]]'
        says "$solver: of a thread without a block" 0 'VACUOUS: this unsat says nothing: thread 2 has the unlock, and no block within n = 1.' \
            "$menduvo" solve "$scratch/idle-unlock.case" --solver "$solver"
    done
    # Whether they are reached is asked by one text: the case with these lines as asserts of 0, and nothing else in its last assertion.
    fake z3 "cat >'$scratch/question-'\$\$; echo unsat"
    run "$menduvo" solve "$scratch/twice.case"
    rm "$scratch/fakes/z3"
    result 'two questions' test "$(find "$scratch" -name 'question-*' | wc -l)" = 2
    cp "$scratch/twice.case" "$scratch/zeros.case"
    for record in 4 6; do
        fields 5 2 0 0 16 0 0 | dd of="$scratch/zeros.case" bs=2 seek=$((16 + 8 * (record - 1) + 1)) conv=notrunc status=none
    done
    { "$menduvo" smt "$scratch/zeros.case" | head -n -2 && printf '(assert (or (= v7 #x0000) (or (= v11 #x0000) false)))\n(check-sat)\n'; } \
        >"$scratch/zeros.smt2"
    result 'one is about what simple schedules do not reach' test "$(sha256sum "$scratch"/question-* | grep -c "^$(sha256sum <"$scratch/zeros.smt2" | cut -d ' ' -f 1)")" = 1
}

# Every schedule of a case, tried one by one: the asserts that a legal run reaches are those that are told.
by_trying() {
    local name lines a b c d reached told
    rm -f "$scratch/fakes/z3"
    # L0 = G0; L1 = (L0 == 1); if L1: assert 1; L1 = (L0 == 2); if L1: assert 1; L1 = (L0 == 3); if L1: assert 1.
    case_file "$scratch/try-1.case" '3 0 0 0 0 0 0' '1 0 1 5 0 16 1' '5 2 0 0 16 0 1' '1 0 1 5 0 16 2' '5 2 0 0 16 0 1' '1 0 1 5 0 16 3' '5 2 0 0 16 0 1'
    # L0 = G0; L1 = G0; assume L0 < L1; L2 = (L0 == 1); if L2: assert 1; if L2 == 0: assert 1.
    case_file "$scratch/try-2.case" '3 0 0 0 0 0 0' '3 0 1 0 0 0 0' '6 0 0 6 0 1 0' '1 0 2 5 0 16 1' '5 3 0 0 16 0 1' '5 19 0 0 16 0 1'
    # L0 = G0; L1 = (L0 == 1); if L1: assert 1; assume 0; assert 1: the first is reached where thread 0 stops behind it.
    case_file "$scratch/try-3.case" '3 0 0 0 0 0 0' '1 0 1 5 0 16 1' '5 2 0 0 16 0 1' '6 0 0 0 16 0 0' '5 0 0 0 16 0 1'
    # L0 = G0; L1 = (L0 == 1); lock M0; if L1: unlock M0; if L1: lock M0; if L1: unlock M0; unlock M0, which may be free.
    case_file "$scratch/try-4.case" '3 0 0 0 0 0 0' '1 0 1 5 0 16 1' '7 0 0 0 0 0 0' '8 2 0 0 0 0 0' '7 2 0 0 0 0 0' '8 2 0 0 0 0 0' '8 0 0 0 0 0 0'
    # lock M0; lock M0, which always fails; unlock M0. And L0 = G0; assume L0 == 2; if L1: unlock M0; unlock M0; assert 1.
    case_file "$scratch/try-5.case" '8 0 0 0 0 0 0' '7 0 0 0 0 0 0' '7 0 0 0 0 0 0' '8 0 0 0 0 0 0'
    case_file "$scratch/try-6.case" '3 0 0 0 0 0 0' '6 0 0 5 0 16 2' '8 2 0 0 0 0 0' '8 0 0 0 0 0 0' '5 0 0 0 16 0 1'
    for name in try-1 try-2 try-3 try-4 try-5 try-6; do
        reached=
        lines=$((($(stat -c %s "$scratch/$name.case") - 32) / 16 - 2))
        for ((a = 0; a <= lines; a++)); do
            for b in 0 1 2; do
                for ((c = 0; a + c <= lines; c++)); do
                    for ((d = 0; b + d <= 2; d++)); do
                        # Without the script, which takes most of the time.
                        out=$(echo $a $b $c $d | target/menduvo/release/menduvo replay "$scratch/$name.case" -)
                        [[ $out = *'cut off:'* ]] || reached+=$(sed -n '/skipped: /d; s/^[ >]*line .*record *\([0-9]*\) .*\(assert\|unlock\) .*/\1 /p' <<<"$out")
                    done
                done
            done
        done
        run "$menduvo" solve "$scratch/$name.case"
        told=$(sed -n 's/^  record \([0-9]*\) .*: reached, e.g.*/\1/p' "$scratch/out" | sort -n | tr '\n' ' ')
        reached=$(tr ' ' '\n' <<<"$reached" | grep . | sort -nu | tr '\n' ' ')
        result "$name: told are '$told', reached are '$reached'" test -n "$told" -a "$told" = "$reached"
        # What is told is a schedule whose run is legal, and runs the line with a true guard.
        sed -n 's/^  record \([0-9]*\) .*: reached, e.g. schedule \(.*\)/\1 \2/p' "$scratch/out" >"$scratch/told"
        while read -r a b; do
            out=$(echo "$b" | target/menduvo/release/menduvo replay "$scratch/$name.case" -) status=
            result "$name: schedule $b reaches record $a" eval \
                '[[ $out != *"cut off:"* ]] && sed "/skipped: /d" <<<"$out" | grep -qE "^[ >]*line +[0-9]+  record +$a "'
        done <"$scratch/told"
    done
}

both() {
    fake z3 'cat >/dev/null; echo unsat'
    fake cvc5 'cat >/dev/null; echo unsat'
    says 'both say unsat' 0 'z3 and cvc5 say unsat' "$menduvo" solve cases/interlock.case --solver both --keep "$scratch/both"
    result 'both replies are kept' test "$(cat "$scratch"/both/interlock.reply-{z3,cvc5})" = $'unsat\nunsat'
    fake z3 "cat >/dev/null; echo sat; echo '$model'"
    says 'they disagree' 3 'the solvers disagree: z3 says sat, and its assignment is checked and replayed; cvc5 says unsat, and is wrong' \
        "$menduvo" solve cases/case-a.case --solver both --keep "$scratch/disagree"
    fake z3 "cat >/dev/null; mkdir -p '$scratch/split/case-a.schedule'; echo sat; echo '$model'"
    says 'they disagree, and it cannot be kept' 3 'case-a.case      disagree    19 over 12' \
        "$menduvo" solve cases/case-a.case cases/lock-order.case --solver both --keep "$scratch/split"
    result 'that is told' eval '[[ $out = *"cvc5 says unsat, and is wrong; NOT KEPT: split/case-a.schedule"* ]]'
    fake z3 "cat >/dev/null; echo sat; echo '$model'"
    run "$menduvo" solve cases/case-a.case --solver both
    result 'the run is shown, and kept' eval '[[ $out = *"violated: record 4"* ]] && [ -s "$scratch/disagree/case-a.schedule" ]'
    fake cvc5 'cat >/dev/null; echo sat; echo "((v0 #x0001))"'
    says 'one is wrong, the other has a run' 1 'violated: record 4' "$menduvo" solve cases/case-a.case --solver both
    rm "$scratch/fakes/z3"
    fake cvc5 'cat >/dev/null; echo unsat'
    says 'they disagree whether an assert is reached' 3 'the solvers disagree: whether an assert is reached: z3 says sat' \
        "$menduvo" solve "$scratch/input.case" --solver both
    result 'which it is' eval '[[ $out = *"assert L0): reached, e.g. schedule"*" 54321"* ]]'
    fake z3 "cat >/dev/null; echo sat; echo '$model'"
    fake cvc5 'exec sleep 60'
    says 'one has no time, the other a run' 1 'violated: record 4' "$menduvo" solve cases/case-a.case --solver both --timeout 1.5
    fake z3 'cat >/dev/null; echo unsat'
    says 'one has no time, the other says unsat' 3 'cvc5 gave no answer in time; z3 says unsat' \
        "$menduvo" solve cases/case-a.case --solver both --timeout 1.5
    fake cvc5 'cat >/dev/null; echo unsat; kill -9 $$'
    says 'one is killed, the other says unsat' 3 'signal 9; z3 says unsat' "$menduvo" solve cases/case-a.case --solver both
    rm -f "$scratch"/fakes/{z3,cvc5}
    says 'z3 and cvc5 agree' 1 '8 cases: 5 violated, 3 unsat, 0 vacuous' "$menduvo" solve cases --solver both
}

dying() {
    fake z3 'echo $$ >"${0%/*}/../dying"; exec sleep 600'
    says 'a solver that takes too long' 3 'timeout: z3 gave no answer in time' "$menduvo" solve cases/case-a.case --timeout 1.5
    result 'it is gone' within 5 gone "$scratch/dying"
    local signal moment
    for signal in KILL TERM INT; do
        rm -f "$scratch/dying"
        fake z3 'sleep 600 & echo $! $$ >"${0%/*}/../dying"; wait'
        # Not in the background of this shell, where an interrupt would be ignored.
        run bash -c "timeout -s $signal 2 '$menduvo' solve cases/case-a.case; true"
        result "a solver dies with the command, and what it started too: $signal" within 5 gone "$scratch/dying"
        result "it was at work: $signal" test -s "$scratch/dying"
    done
    # At any moment, also while solvers are being started.
    : >"$scratch/dying"
    fake z3 'echo $$ >>"${0%/*}/../dying"; exec sleep 600'
    for moment in {005..150..4}; do
        run bash -c "timeout -s KILL 0.$moment '$menduvo' solve cases/case-a.case; true"
    done
    result 'at any moment' eval '[ -s "$scratch/dying" ] && within 5 gone "$scratch/dying"'
    fake z3 'cat >/dev/null; echo unsat; sleep 600 & echo $! >"${0%/*}/../dying"'
    says 'something holds the pipe' 0 'z3 says unsat' "$menduvo" solve cases/interlock.case
    result 'it is gone too' within 5 gone "$scratch/dying"
    fake z3 'cat >/dev/null; echo unsat; setsid sleep 20 & echo $! >"${0%/*}/../dying"'
    says 'something that left the group holds the pipe' 0 'z3 says unsat' "$menduvo" solve cases/interlock.case
    # shellcheck disable=SC2046 # one number
    kill $(<"$scratch/dying") 2>/dev/null
}

folders() {
    mkdir "$scratch/folder" && cp cases/case-a.case cases/interlock.case "$scratch/folder"
    fake z3 "if grep -qF '$of_case_a'; then echo sat; echo '$model'; else echo unsat; fi"
    cd "$scratch" || exit
    run "$menduvo" solve folder
    without_times
    head -c 40 folder/case-a.case >folder/damaged.case
    cp "$scratch/out" "$scratch/first"
    run "$menduvo" solve folder
    without_times
    cp "$scratch/out" "$scratch/second"
    cd - >/dev/null || exit
    status=1
    cp "$scratch/first" "$scratch/out" && matches solve-folder 1
    cp "$scratch/second" "$scratch/out" && matches solve-folder-damaged 1
    run "$menduvo" solve "$scratch/folder"
    result 'a violation wins over a refusal, and both are counted' eval '[ "$status" = 1 ] && [[ $out = *"1 violated"*"1 refused"* ]]'
    rm "$scratch/folder/case-a.case"
    says 'a refused case' 2 '1 refused' "$menduvo" solve "$scratch/folder"
    says 'cases and folders' 1 '4 cases: 1 violated' "$menduvo" solve cases/case-a.case "$scratch/folder" cases/lock-order.case
    mkdir "$scratch/hollow"
    says 'a folder without cases' 3 'no file in it ends in .source or .case' "$menduvo" solve "$scratch/hollow"
    # One that hangs among others.
    fake z3 "case \$(cat) in *'$of_case_a'*) exec sleep 600 ;; *) echo unsat ;; esac"
    mkdir "$scratch/busy" && cp cases/{case-a,interlock,lock-order}.case "$scratch/busy"
    says 'a case that keeps the solver busy stops no other' 3 '3 cases: 0 violated, 2 unsat, 0 vacuous, 1 timeout' \
        "$menduvo" solve "$scratch/busy" --timeout 1.5
    fake z3 "case \$(cat) in *'$of_case_a'*) echo sat; echo '$model' ;; *) sleep 600 ;; esac"
    says 'a violation wins over a timeout' 1 '1 violated, 0 unsat, 0 vacuous, 2 timeout' "$menduvo" solve "$scratch/busy" --timeout 1.5
    parallel_jobs
    as_known
}

# Two solvers that wait for each other, as two jobs let them; and the one that comes last in order ends first.
parallel_jobs() {
    fake z3 "text=\$(cat); here=\${0%/*}/..
        case \$text in
        *'$of_case_a'*) : >\$here/first; until [ -e \$here/second ]; do sleep 0.02; done; sleep 0.2; echo sat; echo '$model' ;;
        *) until [ -e \$here/first ]; do sleep 0.02; done; : >\$here/second; echo unsat ;;
        esac"
    rm "$scratch/busy/lock-order.case"
    cd "$scratch" || exit
    run "$menduvo" solve busy --jobs 2 --timeout 20
    cd - >/dev/null || exit
    without_times
    matches solve-jobs 1
}

# A line is there before the end, and stays where the command is interrupted; what was kept stays too, and is resumed.
as_known() {
    fake z3 "text=\$(cat); echo \$\$ >>\${0%/*}/../dying
        case \$text in *'$of_case_a'*) echo sat; echo '$model' ;; *) exec sleep 600 ;; esac"
    : >"$scratch/dying"
    run timeout -s INT 4 "$menduvo" solve "$scratch/busy" --keep "$scratch/partly"
    result 'an interrupt leaves the line that is known' eval '[[ $out = *"busy/case-a.case"*"violated"* ]] && [[ $out != *"2 cases"* ]]'
    result 'and the solvers are gone' within 5 gone "$scratch/dying"
    result 'and what was kept' test -s "$scratch/partly/case-a.answer" -a ! -e "$scratch/partly/interlock.answer"
    fake z3 'cat >/dev/null; echo asked >>"${0%/*}/../resumed"; echo unsat'
    says 'it is resumed' 1 'violated    19 over 12' "$menduvo" solve "$scratch/busy" --resume "$scratch/partly"
    result 'only the rest is asked' eval '[ "$(wc -l <"$scratch/resumed")" = 1 ] && [[ $out = *"filed already, by z3; record 4"*"1 violated, 1 unsat"* ]]'
    says 'all is filed' 1 '1 violated, 1 unsat' "$menduvo" solve "$scratch/busy" --resume "$scratch/partly"
    result 'nothing is asked' test "$(wc -l <"$scratch/resumed")" = 1
    says 'one case, filed already' 1 'filed in partly already, by z3: violated' \
        "$menduvo" solve "$scratch/busy/case-a.case" --resume "$scratch/partly"
}

keeping() {
    fake z3 "cat >/dev/null; echo sat; echo '$model'"
    says 'kept' 1 violated "$menduvo" solve cases/case-a.case --keep "$scratch/kept"
    result 'all that was kept' test "$(cd "$scratch/kept" && echo *)" = \
        'case-a.answer case-a.assignment case-a.reached case-a.reply case-a.schedule case-a.smt2'
    fake z3 'cat >/dev/null; echo asked >>"${0%/*}/../keeping"; echo unsat'
    cp -r "$scratch/kept" "$scratch/before"
    says 'nothing is replaced' 3 'kept/case-a.smt2 is there already; --force replaces it' \
        "$menduvo" solve cases/case-a.case --keep "$scratch/kept"
    says 'nothing is replaced, of several' 3 'kept/case-a.smt2 is there already' "$menduvo" solve cases --keep "$scratch/kept"
    result 'no solver was asked' test ! -e "$scratch/keeping"
    result 'nothing has changed' diff -r "$scratch/before" "$scratch/kept"
    says 'it is forced' 0 'says unsat' "$menduvo" solve cases/case-a.case --keep "$scratch/kept" --force
    result 'nothing of the earlier answer is left' test "$(cd "$scratch/kept" && echo *)" = \
        'case-a.answer case-a.reached case-a.reply case-a.smt2'
    fake z3 'cat >/dev/null; echo hello world; kill -9 $$'
    says 'a nonsense reply' 3 'hello world' "$menduvo" solve cases/case-a.case --keep "$scratch/kept" --force
    result 'is kept' test "$(<"$scratch/kept/case-a.reply")" = 'hello world'
    fake z3 'cat >/dev/null; echo unsat'
    says 'what failed is asked again' 0 'says unsat' "$menduvo" solve cases/case-a.case --resume "$scratch/kept"
    mkdir "$scratch/another" && cp cases/interlock.case "$scratch/another/case-a.case"
    says 'an answer of another case' 3 'is of another case of this name' "$menduvo" solve "$scratch/another/case-a.case" --resume "$scratch/kept"
    says 'is replaced by force' 0 'says unsat' "$menduvo" solve "$scratch/another/case-a.case" --resume "$scratch/kept" --force
    says 'two cases of one name' 3 'would be kept under the same name' \
        "$menduvo" solve cases/case-a.case "$scratch/another/case-a.case" --keep "$scratch/twice"
    says 'an empty name' 3 '--keep needs the name of a folder' "$menduvo" solve cases/case-a.case --keep ''
    says 'an empty name to resume' 3 '--resume needs the name of a folder' "$menduvo" solve cases/case-a.case --resume=
    says 'keep and resume' 3 'exclude each other' "$menduvo" solve cases --keep a --resume b
    says 'nothing to force' 3 '--force needs --keep or --resume' "$menduvo" solve cases --force
    : >"$scratch/file"
    says 'a file in the place of the folder' 3 'file: ' "$menduvo" solve cases/case-a.case --keep "$scratch/file"
    own_files
    resuming
}

# Files that are not this command's, and the case itself, stay; and a violation is told whatever happens to its files.
own_files() {
    fake z3 "cat >/dev/null; echo sat; echo '$model'"
    mkdir "$scratch/own" && cp cases/case-a.{case,schedule} "$scratch/own"
    says 'a schedule of the user' 3 'own/case-a.schedule is there already' "$menduvo" solve "$scratch/own" --resume "$scratch/own"
    result 'stays' cmp -s cases/case-a.schedule "$scratch/own/case-a.schedule"
    cp cases/case-a.case "$scratch/own/plant.schedule"
    says 'the case itself' 3 'own/plant.schedule is the case itself' \
        "$menduvo" solve "$scratch/own/plant.schedule" --keep "$scratch/own" --force
    result 'stays, too' cmp -s cases/case-a.case "$scratch/own/plant.schedule"
    # Something comes into the way while the solver is at work.
    fake z3 "cat >/dev/null; mkdir -p '$scratch/blocked/case-a.assignment'; echo sat; echo '$model'"
    says 'a violation that cannot be kept' 1 'violated: record 4' "$menduvo" solve cases/case-a.case --keep "$scratch/blocked"
    result 'that is told' eval '[[ $out = *"blocked/case-a.assignment is there already"* ]]'
    # Nobody reads on after the first line, which is there before the answer.
    fake z3 "cat >/dev/null; sleep 0.5; echo sat; echo '$model'"
    run bash -c "set -o pipefail; '$menduvo' solve cases/case-a.case --keep '$scratch/unheard' | head -n 1"
    result 'an answer that nobody reads' eval '[ "$status" = 3 ] && [[ $out = "cases/case-a.case: 19 constraints"* ]]'
    result 'it is kept all the same' test -s "$scratch/unheard/case-a.schedule" -a -s "$scratch/unheard/case-a.answer"
    fake z3 "cat >/dev/null; mkdir -p '$scratch/blocked/case-a.assignment'; echo sat; echo '$model'"
    rm -r "$scratch/blocked"
    says 'a violation that cannot be kept, of several' 1 '2 cases: 1 violated' \
        "$menduvo" solve cases/case-a.case "$scratch/none.case" --keep "$scratch/blocked"
    result 'that is told, too' eval '[[ $out = *"is broken; NOT KEPT: blocked/case-a.assignment"* ]]'
}

# What --resume takes for an answer, and what it does not.
resuming() {
    local answer=$scratch/again/case-a.answer sum
    resume() { run "$menduvo" solve cases/case-a.case --resume "$scratch/again" "$@"; }
    fake z3 'cat >/dev/null; echo unsat'
    fake cvc5 'cat >/dev/null; echo unsat'
    resume
    result 'nothing is there yet' eval '[ "$status" = 0 ] && [[ $out = *"z3 says unsat"* ]]'
    resume
    result 'it is taken, and named by its solver' eval '[ "$status" = 0 ] && [[ $out = *"filed in again already, by z3: unsat"* ]]'
    resume --solver cvc5
    result 'it is not the word of another solver' eval '[ "$status" = 3 ] && [[ $out = *"not by the solver that is chosen"* ]]'
    resume --solver cvc5 --force
    result 'that is asked by force' eval '[ "$status" = 0 ] && [[ $out = *"cvc5 says unsat"* ]]'
    cp "$answer" "$scratch/whole" && sed -i 's/^status 0/status 1/' "$answer"
    resume
    result 'a changed answer' eval '[ "$status" = 3 ] && [[ $out = *"not an answer that this command wrote; --force asks again"* ]]'
    head -c 300 "$scratch/whole" >"$answer"
    resume
    result 'half an answer' eval '[ "$status" = 3 ] && [[ $out = *"not an answer that this command wrote"* ]]'
    rm "$answer" && mkfifo "$answer"
    resume
    result 'a pipe' eval '[ "$status" = 3 ] && [[ $out = *"not an answer that this command wrote"* ]]'
    resume --force
    result 'they are replaced by force' eval '[ "$status" = 0 ] && [[ $out = *"z3 says unsat"* ]] && [ -f "$answer" ]'
    # An answer to another text, as an earlier version may have asked, with all its sums in order.
    cp -r "$scratch/again" "$scratch/asked-of-old"
    sed -i 's/^(assert (or (= v7 #x0000) false))$/(assert (or (= v7 #x0001) false))/' "$scratch/again/case-a.smt2"
    sum=$(sha256sum <"$scratch/again/case-a.smt2")
    sed -i "s/^file [0-9a-f]* smt2\$/file ${sum%% *} smt2/; \$d" "$answer"
    sum=$(sha256sum <"$answer") && echo "sum ${sum%% *}" >>"$answer"
    resume
    result 'an answer to another text' eval '[ "$status" = 3 ] && [[ $out = *"the answer that is filed is to another text than that of this case; --force asks again"* ]]'
    # One of before answers were about unlocks.
    rm -r "$scratch/again" && cp -r "$scratch/asked-of-old" "$scratch/again"
    sed -i "1s/.*/# an answer of 'menduvo solve', for --resume/; \$d" "$answer"
    sum=$(sha256sum <"$answer") && echo "sum ${sum%% *}" >>"$answer"
    resume
    result 'an answer of an earlier form' eval '[ "$status" = 3 ] && [[ $out = *"not an answer that this command wrote; --force asks again"* ]]'
    rm -r "$scratch/again" && mv "$scratch/asked-of-old" "$scratch/again"
    resume
    result 'it is taken again' eval '[ "$status" = 0 ] && [[ $out = *"filed in again already"* ]]'
    echo >>"$scratch/again/case-a.reply"
    resume
    result 'a reply that has changed' eval '[ "$status" = 3 ] && [[ $out = *"what was filed with this answer has changed"* ]]'
    # The case is unsat, and whether its assert is reached takes too long: there the assert's expression is 0.
    fake z3 'text=$(cat); case $text in *"(ite (= #x0000 #x0000) #x0000 #x0001)"*) exec sleep 600 ;; *) echo unsat ;; esac'
    run "$menduvo" solve "$scratch/between.case" --keep "$scratch/open" --timeout 1.5
    result 'a question is open' eval '[ "$status" = 0 ] && [[ $out = *"not known whether it is reached: z3 gave no answer in time"* ]]'
    run bash -c "'$menduvo' solve '$scratch/between.case' | head -n 1"
    result 'nobody reads on, and nobody waits' eval '[ "$status" = 0 ] && [[ $out = "between.case: "* ]]'
    rm "$scratch/fakes/z3"
    run "$menduvo" solve "$scratch/between.case" --resume "$scratch/open"
    result 'it is asked again' eval '[ "$status" = 0 ] && [[ $out = *"reached, e.g. schedule 0 1 3 "* ]]'
    head -c 40 "$scratch/between.case" >"$scratch/cut" && mv "$scratch/cut" "$scratch/between.case"
    says 'a case that is refused by now' 2 '1 refused' "$menduvo" solve "$scratch/between.case" "$scratch/idle.case" --keep "$scratch/open" --force
    result 'has no answer beside it' test ! -e "$scratch/open/between.answer" -a -e "$scratch/open/idle.answer"
    mkdir "$scratch/odd" "$scratch/odd/folder.case" && mkfifo "$scratch/odd/pipe.case" && cp cases/case-a.case "$scratch/odd/.case"
    says 'no folder and no pipe, and a name that is an ending' 1 '1 case: 1 violated' "$menduvo" solve "$scratch/odd" --timeout 20
}

# On a terminal of 40 columns no line of progress is wider.
progress() {
    local long=$scratch/a-folder-with-a-long-name-that-fits-no-terminal
    mkdir "$long" && cp cases/case-a.case cases/interlock.case "$long"
    fake z3 "sleep 0.1; if grep -qF '$of_case_a'; then echo sat; echo '$model'; else echo unsat; fi"
    env PATH="$seen" script -qec "stty cols 40; '$menduvo' solve '$long' --jobs 2 2>&1 >'$scratch/table' | cat" /dev/null >"$scratch/typed" </dev/null
    result 'no progress where standard error is no terminal' test ! -s "$scratch/typed"
    env PATH="$seen" script -qec "stty cols 40; '$menduvo' solve '$long' --jobs 2 >'$scratch/table'" /dev/null >"$scratch/typed" </dev/null
    tr '\r' '\n' <"$scratch/typed" | sed 's/\x1b\[K//g' >"$scratch/lines"
    result 'there is progress' grep -q 'of 2 cases done' "$scratch/lines"
    result 'it fits the terminal' test "$(awk '{ if (length > most) most = length } END { print most }' "$scratch/lines")" -lt 40
}

real_solvers() {
    local solver
    rm -f "$scratch"/fakes/{z3,cvc5}
    fields 2 0 0 0 0 0 0 0 0 0 0 0 0 0 0 0 >"$scratch/empty.case"
    for solver in z3 cvc5; do
        says "$solver, lost-update" 1 'violated: record 9' \
            "$menduvo" solve cases/lost-update.case --solver "$solver" --keep "$scratch/$solver"
        says "$solver, what was kept is checked" 0 'meets' \
            "$menduvo" check cases/lost-update.case "$scratch/$solver/lost-update.assignment"
        says "$solver, what was kept is replayed" 1 'violated: record 9' \
            "$menduvo" replay cases/lost-update.case "$scratch/$solver/lost-update.schedule"
        says "$solver, its own reply is replayed" 1 'violated: record 9' \
            "$menduvo" replay cases/lost-update.case "$scratch/$solver/lost-update.reply"
        { echo '(set-option :produce-models true)' && cat "$scratch/$solver/lost-update.smt2" && echo '(get-model)'; } >"$scratch/model.smt2"
        "$solver" "$scratch/model.smt2" >"$scratch/whole.model"
        says "$solver, its reply to get-model is replayed" 1 'violated: record 9' \
            "$menduvo" replay cases/lost-update.case "$scratch/whole.model"
        says "$solver, interlock" 0 "$solver says unsat" "$menduvo" solve cases/interlock.case --solver "$solver"
        says "$solver, a release by the wrong thread" 1 'is an unlock by a stranger: ' \
            "$menduvo" solve cases/release-broken.case --solver "$solver" --keep "$scratch/$solver"
        says "$solver, what was kept of it is checked" 0 'meets' \
            "$menduvo" check cases/release-broken.case "$scratch/$solver/release-broken.assignment"
        says "$solver, what was kept of it is replayed" 1 'is an unlock by a stranger: ' \
            "$menduvo" replay cases/release-broken.case "$scratch/$solver/release-broken.schedule"
        says "$solver, the right twin" 0 "$solver says unsat" "$menduvo" solve cases/release.case --solver "$solver" --strict
        says "$solver, all cases" 1 '8 cases: 5 violated, 3 unsat, 0 vacuous, 0 timeout' "$menduvo" solve cases --solver "$solver"
        says "$solver, one constraint that nothing meets" 0 'nothing meets this one constraint' \
            "$menduvo" solve "$scratch/empty.case" --solver "$solver"
    done
    says 'demo with a solver' 0 'z3 looks for itself' "$menduvo" demo
}

z3=$(type -P z3) cvc5=$(type -P cvc5)
says 'the command is built' 0 'menduvo 0.' "$menduvo" --version
begin_default_timeout
answers
given
models
vacuous
by_trying
both
dying
folders
keeping
progress
real_solvers
default_timeout
finish
