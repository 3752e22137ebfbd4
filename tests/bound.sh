#!/usr/bin/env bash
# Tests the bound as a question, with z3 and cvc5 and with fakes: a case with another n, the smallest n with a violation, one assert
# or unlock alone or each by itself, and runs that are made short. What a solver does not answer is told, and never taken for an answer.
set -u
cd -- "$(dirname -- "${BASH_SOURCE[0]}")/.." || exit
. tests/helpers.sh || exit
seen=$scratch/fakes:$PATH
mkdir "$scratch/fakes"
z3=$(type -P z3)
broken=cases/interlock-broken.case
json=$PWD/target/json/release/menduvo-json
schema=$PWD/docs/output.schema.json

# shows NAME COMMAND: the command is true; what was run last is printed where it is not.
shows() {
    result "$1" eval "$2"
}

# with_bound FILE N: a copy of the case with this n, as a file; its name.
with_bound() {
    cp "$1" "$scratch/bound.case"
    fields "$2" | dd of="$scratch/bound.case" bs=2 seek=1 conv=notrunc status=none
}

# asked_z3 TEXT BODY: a z3 that does this where the question has the text, and else what z3 does.
asked_z3() {
    fake z3 "question=\$(cat); case \$question in *'$1'*) $2 ;; *) $z3 \"\$@\" <<<\"\$question\" ;; esac"
}

# objects COUNT ARGUMENTS..: with --json the command prints so many objects, and all are as the schema says.
objects() {
    local count=$1
    shift
    env PATH="$seen" timeout 60 "$menduvo" "$@" --json >"$scratch/objects" 2>"$scratch/errors" </dev/null
    status=$?
    out=$(cat "$scratch/objects" "$scratch/errors")
    result "$* --json: $count objects" test "$("$json" validate "$schema" <"$scratch/objects" 2>&1)" = "$count lines, all valid"
}

# last FIELD..: a field of the last object.
last() {
    tail -n 1 "$scratch/objects" | "$json" get "$@" 2>&1
}

switches() {
    local n word
    for n in 0 1 2 15; do
        with_bound "$broken" "$n"
        run "$menduvo" list "$scratch/bound.case"
        cp "$scratch/out" "$scratch/wanted"
        run "$menduvo" list "$broken" --switches "$n"
        shows "list --switches $n" '[ "$status" = 0 ] && cmp -s "$scratch/out" "$scratch/wanted"'
        run "$menduvo" show "$scratch/bound.case"
        sed '1s/^bound.case/cases\/interlock-broken.case/' "$scratch/out" >"$scratch/wanted"
        run "$menduvo" show "$broken" "--switches=$n"
        shows "show --switches $n" '[ "$status" = 0 ] && cmp -s "$scratch/out" "$scratch/wanted"'
    done
    says 'n = 16 is refused' 2 'refusal 3, place 0' "$menduvo" show "$broken" --switches 16
    says 'n = 16 is refused by solve' 2 'refusal 3, place 0' "$menduvo" solve "$broken" --switches 16
    says 'n = 65535 is refused' 2 'n 65535' "$menduvo" list "$broken" --switches 65535
    local source=cases/interlock-broken.source
    says 'a source has its names at another n' 0 'when other == 0: upper = 1' "$menduvo" list "$source" --words --switches 2
    says 'a chosen n is not where a source is wrong' 2 "$source: refusal 3, place 0" "$menduvo" show "$source" --switches 16
    says 'list: its object has the n' 0 '"switches":2,' "$menduvo" list "$broken" --switches 2 --json
    says 'check: its object has the n' 0 '"switches":3,' "$menduvo" check "$broken" "${broken%.case}.assignment" --json
    says 'replay: its object has the n' 1 '"switches":3,' "$menduvo" replay "$broken" "${broken%.case}.schedule" --json
    with_bound "$broken" 16
    says 'a file with n = 16 is taken with n = 3' 0 '2 threads, 3 switches' "$menduvo" show "$scratch/bound.case" --switches 3
    with_bound "$broken" 300
    says 'a file with n = 300 too' 0 '2 threads, 3 switches' "$menduvo" show "$scratch/bound.case" --switches 3
    for word in -1 x 65536 '' 1.5 +1 ' 2' 0x2 2, 99999999999999999999; do
        says "--switches '$word'" 3 '--switches needs a number from 0 to 65535' "$menduvo" list "$broken" "--switches=$word"
    done
    says '--switches of a filed folder' 3 "there is no option '--switches'" "$menduvo" file "$broken" "$scratch/none" --switches 2
    for n in 0 1 2 3; do
        head -c "$n" "$broken" >"$scratch/stub.case"
        says "a file of $n bytes" 2 'refusal 1, place 0' "$menduvo" list "$scratch/stub.case" --switches 2
    done
    run bash -c "'$menduvo' list - --switches 2 <$broken"
    shows 'a case on standard input' '[ "$status" = 0 ] && [[ $out = "67 42"* ]]'
    says 'several to list' 0 '== cases/case-a.case with n = 2' "$menduvo" list "$broken" cases/case-a.case --switches 2
    says 'check' 0 'meets all 70 constraints with n = 3' "$menduvo" check "$broken" cases/interlock-broken.assignment --switches 3
    says 'check at another n' 2 'refusal 11' "$menduvo" check "$broken" cases/interlock-broken.assignment --switches 2
    run "$menduvo" decode cases/case-a.case cases/case-a.assignment --switches 2
    shows 'decode' '[ "$status" = 0 ] && [ "$out" = "2 1 2" ]'
    says 'decode at another n' 2 'refusal 11' "$menduvo" decode cases/case-a.case cases/case-a.assignment --switches 3
    echo 9 9 0 >"$scratch/short.schedule"
    says 'replay' 0 'clean' "$menduvo" replay "$broken" "$scratch/short.schedule" --switches 2
    says 'replay at another n' 2 'refusal 12' "$menduvo" replay "$broken" "$scratch/short.schedule"
    says 'picture' 0 'interlock-broken-n2' "$menduvo" picture "$broken" "$scratch/short.schedule" --switches 2 -o -
    local solver
    for solver in z3 cvc5; do
        says "$solver, n = 1" 0 'cases/interlock-broken.case with n = 1: 64 constraints over 39 variables' \
            "$menduvo" solve "$broken" --switches 1 --solver "$solver"
        says "$solver, n = 4" 1 'with n = 4: 73 constraints' "$menduvo" solve "$broken" --switches 4 --solver "$solver"
    done
    says 'several' 1 $'every case with n = 2\ncase ' "$menduvo" solve "$broken" cases/case-a.case --switches 2
    says 'a folder' 1 '8 cases: 1 violated, 6 unsat, 1 vacuous' "$menduvo" solve cases --switches 1
    objects 1 solve "$broken" --switches 2
    result 'the object has the n' test "$(last switches)" = 2
}

# The answers at several n stand beside each other.
kept() {
    local folder=$scratch/kept
    says 'kept at n = 1' 0 'says unsat' "$menduvo" solve "$broken" --switches 1 --keep "$folder"
    says 'kept at n = 3 beside it' 1 'violated' "$menduvo" solve "$broken" --switches 3 --keep "$folder"
    result 'both are there' test -s "$folder/interlock-broken-n1.answer" -a -s "$folder/interlock-broken-n3.schedule"
    says 'at n = 1 again' 3 'interlock-broken-n1.smt2 is there already' "$menduvo" solve "$broken" --switches 1 --keep "$folder"
    says 'resumed at n = 1' 0 'filed in kept already, by z3: unsat' "$menduvo" solve "$broken" --switches 1 --resume "$folder"
    says 'resumed at n = 3' 1 'filed in kept already, by z3: violated' "$menduvo" solve "$broken" --switches 3 --resume "$folder"
    says 'its own n is another name' 1 'violated' "$menduvo" solve "$broken" --resume "$folder"
    result 'it is there' test -s "$folder/interlock-broken.answer"
    says 'what was kept is replayed' 1 'violated' "$menduvo" replay "$broken" "$folder/interlock-broken-n3.schedule"
}

least() {
    local solver name words
    for solver in z3 cvc5; do
        while read -r name words; do
            says "$solver, $name" "${words%% *}" "${words#* }" "$menduvo" solve "cases/$name.case" --least --switches 6 --solver "$solver"
        done <<'CASES'
case-a 1 first at n = 2; unsat at 0, 1
handshake 1 first at n = 2; unsat at 0, 1
interlock-broken 1 first at n = 2; unsat at 0, 1
interlock 0 unsat at 0 to 6: no violation up to n = 6
lock-order 0 unsat at 0 to 6: no violation up to n = 6
lost-update 1 first at n = 2; unsat at 0, 1 (0, 1: nothing was checked)
release-broken 1 first at n = 1; unsat at 0
release 0 unsat at 0 to 6: no violation up to n = 6
CASES
    done
    says 'up to the largest' 0 'unsat at 0 to 15: no violation up to the largest n' \
        "$menduvo" solve cases/interlock.case --least
    result 'each n has its line' test "$(grep -cE '^[0-9]+ +(unsat|vacuous) ' "$scratch/out")" = 16
    run "$menduvo" solve "$broken" --least --solver z3
    sed -n '/^with n = 2:$/,/^first at /p' "$scratch/out" | sed '1d;$d' >"$scratch/shown"
    run "$menduvo" solve "$broken" --switches 2 --solver z3
    result 'the run is the one of solve' cmp -s "$scratch/shown" <(sed 1d "$scratch/out")
    says 'the n of the file is no matter' 1 'first at n = 2' "$menduvo" solve "$scratch/bound.case" --least
    run bash -c "'$menduvo' solve - --least <$broken"
    shows 'a case on standard input' '[ "$status" = 1 ] && [[ $out = *"first at n = 2; unsat at 0, 1"* ]]'
    says 'a bound over the largest' 3 '--least looks up to n = 15, the largest of a case, and not to 16' \
        "$menduvo" solve "$broken" --least --switches 16
    says 'a folder' 1 '8 cases: 5 violated, 3 unsat, 0 vacuous' "$menduvo" solve cases --least --switches 4 --jobs 2
    shows 'a line of it' '[[ $out = *"lost-update.source       violated    46 over 28"*"first at n = 2; unsat at 0, 1 (0, 1: nothing was checked); record 9"* ]]'
    damaged 0 5
    says 'a refused case' 2 'refusal 2' "$menduvo" solve "$scratch/damaged.case" --least
    # L0 = 1; G1 = L0: no assert.
    fields 2 3 0 0 1 0 0 0 0 0 0 0 0 0 0 0  0 1 0 0 0 16 0 1 >"$scratch/none.case"
    says 'nothing at any n' 0 'nothing was checked at 0 to 15: every unsat is vacuous' "$menduvo" solve "$scratch/none.case" --least
    says 'which is no success where it is strict' 1 'every unsat is vacuous' "$menduvo" solve "$scratch/none.case" --least --strict
    says 'a strict one goes by the largest n' 0 'unsat at 0 to 4' "$menduvo" solve cases/interlock.case --least --switches 4 --strict
}

# asked_to_finish CASE N LAST..: the text of the case with this n, and of these variables, the block numbers of last lines, that they
# are at most n, so that no thread stops.
asked_to_finish() {
    local last
    "$menduvo" smt "$1" --switches "$2" | sed '$d'
    for last in "${@:3}"; do printf '(assert (bvule v%d #x%04x))\n' "$last" "$2"; done
    echo '(check-sat)'
}

# Of the handshake no run finishes within its bound, and its fault is found. The last lines are records 11 and 23.
finishing() {
    local solver
    sed 's/assert moved == 0/assert 0/' cases/handshake.source >"$scratch/finishes.source"
    result 'its third line is the assert' eval '[ "$(grep -c "assert 0" "$scratch/finishes.source")" = 1 ]'
    for solver in z3 cvc5; do
        "$menduvo" smt cases/handshake.case >"$scratch/text.smt2"
        run "$solver" "$scratch/text.smt2"
        result "$solver, handshake" test "$out" = sat
        asked_to_finish cases/handshake.case 4 20 44 >"$scratch/finish.smt2"
        result 'each last line is asked about' test "$(grep -cxE '\(assert \(bvule v(20|44) #x0004\)\)' "$scratch/finish.smt2")" = 2
        run "$solver" "$scratch/finish.smt2"
        result "$solver, no run that finishes breaks it" test "$out" = unsat
        # Every run that passes the third line violates where that is an assert of 0.
        asked_to_finish "$scratch/finishes.source" 4 20 44 >"$scratch/finish.smt2"
        run "$solver" "$scratch/finish.smt2"
        result "$solver, no run finishes" test "$out" = unsat
        asked_to_finish cases/handshake.case 6 20 44 >"$scratch/finish.smt2"
        run "$solver" "$scratch/finish.smt2"
        result "$solver, with 6 switches one does" test "$out" = sat
    done
}

# An n without an answer is told, and nothing is called the first behind it. The text has n + 1 as the bound of thread 0's last
# line, record 9.
open() {
    local words='a violation at n = 3; unsat at 0, 1; not known at 2'
    asked_z3 '(bvule v16 #x0003)' 'exec sleep 60'
    says 'no time at n = 2' 1 "$words (timeout)" "$menduvo" solve "$broken" --least --timeout 3
    shows 'the message has the n' '[[ $out = *"menduvo: at n = 2: cases/interlock-broken.case: timeout"* && $out != *"first at"* ]]'
    asked_z3 '(bvule v16 #x0003)' 'echo unknown'
    says 'z3 gives up at n = 2' 1 "$words (unknown)" "$menduvo" solve "$broken" --least
    objects 5 solve "$broken" --least
    shows 'the object' '[ "$(last first), $(last violated), $(last notKnown 0 switches), $(last notKnown 0 answer)" = "null, 3, 2, unknown" ]'
    asked_z3 '(bvule v16 #x0003)' 'echo sat; echo "((v0 #x0001))"'
    says 'a wrong model at n = 2' 1 "$words (failed)" "$menduvo" solve "$broken" --least
    says 'a wrong model, up to n = 2' 3 'no violation found; unsat at 0, 1; not known at 2 (failed)' \
        "$menduvo" solve "$broken" --least --switches 2
    says 'a wrong model, among several' 3 'no violation found; unsat at 0, 1; not known at 2 (failed)' \
        "$menduvo" solve "$broken" cases/interlock.case --least --switches 2
    fake z3 'cat >/dev/null; echo unknown'
    says 'nothing is known' 3 'no violation found; not known at 0 (unknown), 1 (unknown)' "$menduvo" solve "$broken" --least --switches 1
    fake z3 'cat >/dev/null; echo unsat'
    says 'a solver that always denies' 0 'no violation up to n = 4' "$menduvo" solve "$broken" --least --switches 4
    rm "$scratch/fakes/z3"
    fake cvc5 'cat >/dev/null; echo unsat'
    says 'a solver that denies the run of another' 3 'a violation at n = 2, which a solver denies; unsat at 0, 1' \
        "$menduvo" solve "$broken" --least --solver both
    objects 4 solve "$broken" --least --solver both
    shows 'it is not called the first' '[ "$status, $(last first), $(last violated)" = "3, null, 2" ]'
    rm "$scratch/fakes/cvc5"
    fake z3 "echo asked >>'$scratch/asked'; exec $z3 \"\$@\""
    local folder=$scratch/steps
    says 'kept' 1 'first at n = 2' "$menduvo" solve "$broken" --least --keep "$folder"
    result 'each n is kept' test "$(cd "$folder" && echo *.answer)" = \
        'interlock-broken-n0.answer interlock-broken-n1.answer interlock-broken-n2.answer'
    : >"$scratch/asked"
    says 'resumed' 1 'first at n = 2; unsat at 0, 1' "$menduvo" solve "$broken" --least --resume "$folder"
    result 'no solver is asked' test ! -s "$scratch/asked"
    rm "$folder"/*-n1.*
    says 'resumed where one is missing' 1 'first at n = 2; unsat at 0, 1' "$menduvo" solve "$broken" --least --resume "$folder"
    : >"$scratch/asked"
    rm "$folder"/*-n[02].*
    says 'something is in the way' 3 'interlock-broken-n1.smt2 is there already' "$menduvo" solve "$broken" --least --keep "$folder"
    result 'no solver was asked before that' test ! -s "$scratch/asked"
    rm "$scratch/fakes/z3"
    bare
    local seen=$scratch/bare
    says 'no solver' 3 'no solver is installed' "$menduvo" solve "$broken" --least
    objects 1 solve "$broken" --least
}

# One case with two asserts that break in one run, one that is never reached and one that holds: assert 0; assert 0; if L0: assert 0;
# assert 1.
asserts() {
    fields 2 1 0 0 1 0 0 0 0 0 0 0 0 0 0 0 \
        2 5 0 0 0 16 0 0  3 5 0 0 0 16 0 0  4 5 1 0 0 16 0 0  0 5 0 0 0 16 0 1 >"$scratch/four.case"
    local solver
    for solver in z3 cvc5; do
        run "$menduvo" solve "$scratch/four.case" --each --solver "$solver"
        # Which lines run behind the assert is up to the solver.
        sed -i 's/  [0-9]\.[0-9][0-9]  /  -.--  /; s/schedule [1-4] 0/schedule - 0/' "$scratch/out"
        matches solve-each 1
        says "$solver, one is violated at n = 2" 1 '4 asserts and unlocks: 1 violated, 3 unsat' "$menduvo" solve "$broken" --each --switches 2 --solver "$solver"
        says "$solver, each by its first n" 1 'first at n = 3; unsat at 0, 1, 2 (0: nothing was checked); e.g. schedule' \
            "$menduvo" solve "$broken" --each --least --switches 5 --solver "$solver"
        says "$solver, one alone" 1 'record 2, which was asked about, is broken too, after record 1' \
            "$menduvo" solve "$scratch/four.case" --assert 2 --solver "$solver"
        shows 'the run is that of the case' '[[ $out = *"record   1  assert 0"*"BROKEN"*"record   2  assert 0"*"violated: record 1 "* ]]'
        says "$solver, one alone that is unsat" 0 'no legal run violates at record 17 within n = 2' \
            "$menduvo" solve "$broken" --assert 17 --switches 2 --solver "$solver"
        shows 'what nothing meets' '[[ $out = *"nothing meets the part of record 17 in the last constraint and the 66 constraints before it."* ]]'
        says "$solver, one alone with more switches" 1 'violated: record 17' "$menduvo" solve "$broken" --assert 17 --solver "$solver"
        says "$solver, one alone by its first n" 1 'first at n = 3; unsat at 0, 1, 2' "$menduvo" solve "$broken" --assert 17 --least --solver "$solver"
    done
    says 'one that is never reached' 0 'VACUOUS: this unsat says nothing' "$menduvo" solve "$scratch/four.case" --assert 3
    says 'which is no success where it is strict' 1 'VACUOUS' "$menduvo" solve "$scratch/four.case" --assert 3 --strict
    says 'one that holds' 0 'record 4 (thread 0, line 4: assert 1): reached' "$menduvo" solve "$scratch/four.case" --assert 4
    says 'no assert' 3 $'line 5: L1 = G0) is not an assert and not an unlock; these are:\n  record 3 (thread 0, line 3: unlock M0)\n  record 8 (thread 0, line 8: assert L3 == 0)\n  record 12' \
        "$menduvo" solve "$broken" --assert 5
    says 'no record' 3 'record 0, which this case does not have is not an assert and not an unlock' "$menduvo" solve "$broken" --assert 0
    says 'no record, of a large number' 3 'record 65535' "$menduvo" solve "$broken" --assert 65535
    says 'no number' 3 '--assert needs a number' "$menduvo" solve "$broken" --assert first
    says 'a case without asserts' 3 'is not an assert and not an unlock; the case has none' "$menduvo" solve "$scratch/none.case" --assert 1
    says 'a case without asserts, each' 0 '0 asserts and unlocks: 0 violated' "$menduvo" solve "$scratch/none.case" --each
    says 'a case without asserts, strict' 1 '0 asserts and unlocks' "$menduvo" solve "$scratch/none.case" --each --strict
    says 'both options' 3 '--assert and --each exclude each other' "$menduvo" solve "$broken" --each --assert 8
    says 'kept' 3 '--each and --keep exclude each other' "$menduvo" solve "$broken" --each --keep "$scratch/no"
    says 'resumed' 3 '--assert and --resume exclude each other' "$menduvo" solve "$broken" --assert 8 --resume "$scratch/no"
    says 'several cases' 3 '--assert and --each take one case' "$menduvo" solve "$broken" cases/case-a.case --each
    says 'a folder' 3 '--assert and --each take one case' "$menduvo" solve cases --assert 8
    damaged 0 5
    says 'a refused case' 2 'refusal 2' "$menduvo" solve "$scratch/damaged.case" --each
    objects 1 solve "$scratch/damaged.case" --each
    objects 5 solve "$scratch/four.case" --each
    shows 'the answers' '[ "$status, $(for i in 0 1 2 3; do last answers $i answer; done | tr "\n" " ")" = "1, violated violated vacuous unsat " ]'
    objects 20 solve "$broken" --each --least --switches 3
    objects 1 solve "$broken" --assert 8
    result 'the object names the assert' test "$(last assert), $(last answer)" = '8, violated'
    # The question about record 17 alone has its part alone in its last assertion.
    asked_z3 '(assert (or (= v33 #x0000) false))' 'exec sleep 60'
    says 'no time for one assert' 1 '4 asserts and unlocks: 1 violated, 2 unsat, 0 vacuous, 1 timeout' "$menduvo" solve "$broken" --each --timeout 3
    shows 'it is told' '[[ $out = *"menduvo: 1 assert or unlock was not done"* ]]'
    rm "$scratch/fakes/z3"
    unlocks
}

# Unlocks alone, and asserts beside them. The lower gate's way out is record 11, by a stranger; then it can take what thread 0 holds.
unlocks() {
    local solver release=cases/release-broken.source
    # unlock M0, and if L0: unlock M0, and lock M0, unlock M0, each in thread 1; thread 0 locks M1. And assert 0 behind.
    fields 2 1 0 2 1 2 0 0 0 0 0 0 0 0 0 0 \
        0 7 0 1 0 0 0 0  3 8 0 0 0 0 0 0  4 8 1 0 0 0 0 0  5 7 0 0 0 0 0 0  6 8 0 0 0 0 0 0  7 8 0 1 0 0 0 0  0 5 0 0 0 16 0 0 >"$scratch/strangers.case"
    for solver in z3 cvc5; do
        run "$menduvo" solve "$scratch/strangers.case" --each --solver "$solver"
        # Which lines run behind it, or beside it, is up to the solver.
        sed -i 's/  [0-9]\.[0-9][0-9]  /  -.--  /; s/schedule [01] [1-6]/schedule - -/; s/M1 was free\|thread 0 held M1/whose M1 was/' "$scratch/out"
        matches solve-each-unlock 1
        says "$solver, an unlock alone" 1 'is an unlock by a stranger: thread 0 held interlock' "$menduvo" solve $release --assert 11 --solver "$solver"
        shows 'what was asked' '[[ $out = *"asked about record 11 (thread 1, line 5: unlock interlock) alone"* && $out != *"which was asked about"* ]]'
        says "$solver, an assert behind it" 1 'record 4, which was asked about, is broken too, after record 11' \
            "$menduvo" solve $release --assert 4 --solver "$solver"
        shows 'its assignment meets all, and its run shows both' '[[ $out = *"checked: it meets all 56 constraints"*"STRANGER: thread 0 held interlock"*"BROKEN: 1 == 0"*"violated: record 11 "* ]]'
        says "$solver, an unlock behind it" 1 'record 6, which was asked about, is an unlock by a stranger too (' \
            "$menduvo" solve $release --assert 6 --solver "$solver"
        shows 'whose the mutex was' '[[ $out = *"stranger too (interlock was free), after record 11"* || $out = *"stranger too (thread 1 held interlock), after record 11"* ]]'
        says "$solver, an unlock with more switches" 1 'first at n = 3; unsat at 0, 1, 2' "$menduvo" solve $release --assert 15 --least --solver "$solver"
        says "$solver, an unlock that is unsat" 0 'no legal run violates at record 15 within n = 2' "$menduvo" solve $release --assert 15 --solver "$solver"
        says "$solver, an unlock, as short as can be" 1 'short: 1 of 9 switches used, 2 blocks with lines, 7 of 15 lines run' \
            "$menduvo" solve $release --assert 11 --short --switches 9 --solver "$solver"
        says "$solver, the right twin" 0 '4 asserts and unlocks: 0 violated, 4 unsat, 0 vacuous' "$menduvo" solve cases/release.case --each --solver "$solver" --strict
        says "$solver, a short run with an unlock" 1 $'decoded: schedule 2 5 0\n' "$menduvo" solve $release --short --solver "$solver"
    done
    says 'one that is never reached' 0 'VACUOUS: this unsat says nothing: no legal run within the bound reaches the unlock with a true guard' \
        "$menduvo" solve "$scratch/strangers.case" --assert 3
    objects 6 solve "$scratch/strangers.case" --each
    shows 'the answers' '[ "$status, $(for i in 0 1 2 3 4; do last answers $i answer; done | tr "\n" " ")" = "1, violated vacuous unsat violated violated " ]'
    objects 1 solve $release --assert 6
    shows 'the fault is the one that was asked about' '[ "$(last assert), $(last record), $(last fault record), $(last fault kind), $(last fault mutex)" = "6, 11, 6, unlock, interlock" ]'
    objects 1 solve $release --assert 4
    shows 'an assert that was asked about' '[ "$(last assert), $(last record), $(last fault record), $(last fault kind)" = "4, 11, 4, assert" ]'
    # An assignment that meets the constraints, and not the part that was asked about: the one that ships violates at record 11 alone.
    local model place=0 number
    model=$(for number in $(sed 1d cases/release-broken.assignment); do printf '(v%d #x%04x)' "$place" "$number"; place=$((place + 1)); done)
    fake z3 "cat >/dev/null; echo sat; echo '($model)'"
    says 'the model is right for the case' 1 'violated: record 11 ' "$menduvo" solve $release
    says 'and for record 11' 1 'violated: record 11 ' "$menduvo" solve $release --assert 11
    for number in 4 6 15; do
        says "but not for record $number" 3 'the assignment of z3 violates, but not where it was asked for, so z3 or the text that it was given is wrong' \
            "$menduvo" solve $release --assert "$number"
    done
    rm "$scratch/fakes/z3"
}

short() {
    local solver folder
    # L0 = input; L1 = L0 < 1234; L2 = input; assert L1.
    fields 2 3 0 0 1 0 0 0 0 0 0 0 0 0 0 0 \
        2 4 0 0 0 0 0 0  3 1 0 1 6 0 16 1234  4 4 0 2 0 0 0 0  0 5 0 0 0 1 0 0 >"$scratch/inputs.case"
    # L0 = input; if L0: L1 = input; assert L0 == 0: the second input has a true guard.
    fields 2 2 0 0 1 0 0 0 0 0 0 0 0 0 0 0 \
        2 4 0 0 0 0 0 0  3 4 1 1 0 0 0 0  0 5 0 0 5 0 16 0 >"$scratch/guarded.case"
    # L0 = 5; if L1: L0 = input; L2 = input; L3 = L2 < 1000; assert L3: the first input has a false guard, and its line the value 5.
    fields 2 2 0 0 1 0 0 0 0 0 0 0 0 0 0 0 \
        2 1 0 0 0 16 0 5  3 4 2 0 0 0 0 0  4 4 0 2 0 0 0 0  5 1 0 3 6 2 16 1000  0 5 0 0 0 3 0 0 >"$scratch/skipped.case"
    for solver in z3 cvc5; do
        folder=$scratch/short-$solver
        says "$solver, n = 15" 1 'short: 2 of 15 switches used, 3 blocks with lines, 12 of 18 lines run' \
            "$menduvo" solve "$broken" --switches 15 --short --solver "$solver" --keep "$folder"
        shows 'whose word it is' '[[ $out = *"that none is shorter is the word of $solver"* ]]'
        says 'its assignment meets the constraints' 0 'meets all 106 constraints with n = 15' \
            "$menduvo" check "$broken" "$folder/interlock-broken-n15.assignment" --switches 15
        says 'its schedule violates' 1 'violated' "$menduvo" replay "$broken" "$folder/interlock-broken-n15.schedule" --switches 15
        run "$menduvo" smt "$broken" --switches 15
        result 'no wish is kept with the constraints' cmp -s "$scratch/out" "$folder/interlock-broken-n15.smt2"
        says "$solver, inputs" 1 'short: 0 of 3 switches used, 1 block with lines, 4 of 4 lines run, inputs 1234 0' \
            "$menduvo" solve "$scratch/inputs.case" --short --solver "$solver"
        says "$solver, an input with a guard" 1 'short: 0 of 2 switches used, 1 block with lines, 3 of 3 lines run, inputs 1 0' \
            "$menduvo" solve "$scratch/guarded.case" --short --solver "$solver"
        says "$solver, an input that is skipped" 1 'short: 0 of 2 switches used, 1 block with lines, 5 of 5 lines run, inputs 0 1000' \
            "$menduvo" solve "$scratch/skipped.case" --short --solver "$solver"
        says "$solver, lost-update" 1 'short: 2 of 2 switches used, 3 blocks with lines, 12 of 12 lines run, input 0' \
            "$menduvo" solve cases/lost-update.case --short --solver "$solver"
        says "$solver, one assert" 1 'short: 3 of 9 switches used, 3 blocks with lines, 12 of 18 lines run' \
            "$menduvo" solve "$broken" --assert 17 --switches 9 --short --solver "$solver"
        says "$solver, lines that are not needed are not run" 1 $'decoded: schedule 1 3 2 0 0\n' \
            "$menduvo" solve cases/handshake.case --short --solver "$solver"
        shows 'and are counted' '[[ $out = *"short: 2 of 4 switches used, 3 blocks with lines, 6 of 23 lines run"* ]]'
        says "$solver, with the smallest n" 1 'short: 2 of 2 switches used' "$menduvo" solve "$broken" --least --short --solver "$solver"
    done
    says 'of several' 1 'is broken; 2 of 2 switches used, 3 blocks with lines, 12 of 12 lines run, input 0' "$menduvo" solve cases --short
    says 'of each' 1 '; 3 of 9 switches used, 3 blocks with lines, 12 of 18 lines run' "$menduvo" solve "$broken" --each --switches 9 --short
    says 'of an unsat' 0 'z3 says unsat' "$menduvo" solve cases/interlock.case --short
    says 'resumed' 3 '--short and --resume exclude each other' "$menduvo" solve "$broken" --short --resume "$scratch/no"
    objects 1 solve "$scratch/inputs.case" --short
    shows 'the object' '[ "$(last short switches) $(last short blocks) $(last short lines) $(last short inputs 0) $(last short inputs 1) $(last short shortest)" = "0 1 4 1234 0 true" ]'
    # Five times: L0 = input; L1 = L0 < 40000; assume L1 == 0. Then assert 0.
    local input lines=()
    for input in 1 4 7 10 13; do
        lines+=($((input + 1)) 4 0 0 0 0 0 0  $((input + 2)) 1 0 1 6 0 16 40000  $((input + 3)) 6 0 0 5 1 16 0)
    done
    fields 2 0 0 0 1 0 0 0 0 0 0 0 0 0 0 0 "${lines[@]}" 0 5 0 0 0 16 0 0 >"$scratch/many.case"
    says 'the questions have an end' 1 '64 more questions; a shorter one may be there: 64 questions are the most that are asked' \
        "$menduvo" solve "$scratch/many.case" --short
    shows 'what came so far' '[[ $out = *"inputs 40000 40000 "* ]]'
    # Wishes stand between the last assertion and the question; all else is the case's text.
    "$menduvo" smt "$scratch/inputs.case" >"$scratch/text"
    asked_z3 '; a wish' "cat >'$scratch/wished' <<<\"\$question\"; echo unknown"
    run "$menduvo" solve "$scratch/inputs.case" --short
    result 'a wish is beside the text' cmp -s <(sed '/^; a wish/,+1d' "$scratch/wished") "$scratch/text"
    result 'before the question' test "$(tail -n 3 "$scratch/wished" | cut -c 1-8 | tr '\n' ,)" = '; a wish,(assert ,(check-s,'
    # What a solver makes of a wish is measured, and what it does not answer is told.
    local word
    fake z3 "sed '/^; a wish/,+1d' | $z3 \"\$@\""
    says 'a solver that does not hear wishes' 1 'a shorter one may be there: the run of z3 is not as short as was asked' \
        "$menduvo" solve "$scratch/inputs.case" --short
    asked_z3 '; a wish' 'exec sleep 60'
    says 'no time for a wish' 1 'a shorter one may be there: timeout: z3 gave no answer in time' \
        "$menduvo" solve "$broken" --switches 9 --short --timeout 3
    shows 'the run is there' '[[ $out = *"violated: record"*"short: "*" of 9 switches used"* ]]'
    objects 1 solve "$broken" --switches 9 --short --timeout 3
    result 'the object says so' test "$status, $(last short shortest)" = '1, false'
    asked_z3 '; a wish' 'echo sat; echo "((v0 #x0001))"'
    says 'a wrong model for a wish' 1 'a shorter one may be there: the assignment of z3 fails' "$menduvo" solve "$broken" --switches 9 --short
    asked_z3 '; a wish' 'echo unsat'
    says 'a solver that denies every wish' 1 'that none is shorter is the word of z3' "$menduvo" solve "$scratch/inputs.case" --short
    asked_z3 '; a wish' 'echo unknown'
    says 'a solver that gives up' 1 'a shorter one may be there: unknown: z3 gave up' "$menduvo" solve "$broken" --switches 9 --short
    # The run that is found first is told at once.
    asked_z3 '; a wish' 'exec sleep 60'
    run bash -c "timeout 6 '$menduvo' solve $broken --switches 9 --short; true"
    shows 'the first run is told before a shorter one is asked for' '[[ $out = *"a run is found: record"*" is broken; schedule "* ]]'
    rm "$scratch/fakes/z3"
}

run cargo build --release --offline --locked --quiet --manifest-path tests/json/Cargo.toml --target-dir target/json
result 'the validator is built' test "$status" = 0
run "$menduvo" --version
result 'the command is built' test "$status" = 0
[ "$failed" = 0 ] || { finish; exit; }
switches
kept
least
finishing
open
asserts
short
finish
