#!/usr/bin/env bash
# Tests 'menduvo file' and 'menduvo verify': what is filed, also where there is no answer; that a folder is whole or not there; that
# every damage to it is told; and SHA-256 beside sha256sum.
set -u
cd -- "$(dirname -- "${BASH_SOURCE[0]}")/.." || exit
. tests/helpers.sh || exit

# solver NAME BODY: a solver that does this, and has a version.
solver() {
    fake "$1" "[ \"\$1\" = --version ] && { echo '$1 of the tests'; exit; }"$'\n'"$2"
}

# Set binary to the program that the script starts, for where there are many calls.
find_binary() {
    local process tries
    mkfifo "$scratch/pipe"
    "$menduvo" list - <"$scratch/pipe" >"$scratch/out" 2>&1 &
    process=$!
    exec 3>"$scratch/pipe"
    for tries in {1..500}; do
        binary=$(readlink "/proc/$process/exe")
        [[ $binary != */release/menduvo ]] || break
        sleep 0.01
    done
    exec 3>&-
    wait "$process"
    result 'the program is found' test "${binary##*/}" = menduvo
}

# sums FOLDER: sha256sum takes its list as it is, and every file is the same.
sums() {
    run env -C "$1" sha256sum --strict --quiet -c MANIFEST
    result "sha256sum takes $(basename "$1")" eval '[ "$status" = 0 ] && [ -z "$out" ]'
}

# whole FOLDER ANSWER NAME..: the folder has these files alone, and verify finds this answer and nothing else than the same.
whole() {
    local folder=$1 answer=$2
    shift 2
    run ls "$scratch/$folder"
    result "the files of $folder" test "$(sort <<<"$out")" = "$(printf '%s\n' MANIFEST README.txt case.case listing.txt show.txt \
        constraints.smt2 reached.txt verdict.txt "$@" | sort)"
    sums "$scratch/$folder"
    run "$binary" verify "$scratch/$folder"
    result "$folder is verified" eval '[ "$status" = 0 ] && [[ $out = "$folder: answer $answer"$'"'\\n'"'* ]] &&
        [ "$(grep -cE " (same|not recomputed \(it was given; its SHA-256 is the same\))$" "$scratch/out")" = '$((8 + $#))' ]'
}

# has FOLDER FILE TEXT: the file has this text.
has() {
    local text=$3
    # Not by run, which takes the scratch folder's name out.
    out=$(<"$scratch/$1/$2")
    result "$1/$2 has '$3'" eval '[[ $out = *"$text"* ]]'
}

# copied FOLDER: a copy to be damaged.
copied() {
    rm -rf "$scratch/copy" && cp -r "$scratch/$1" "$scratch/copy"
}

# flip FILE: another byte in its middle, or the first where there is none.
flip() {
    local place=$(($(stat -c %s "$1") / 2)) byte
    byte=$(od -An -tu1 -j "$place" -N 1 "$1")
    printf "\\x$(printf %02x $((${byte:-0} ^ 1)))" | dd of="$1" bs=1 seek="$place" conv=notrunc status=none
}

# mend NAME: the list of the copy has the hash that this file has now.
mend() {
    local sum
    sum=$(sha256sum <"$scratch/copy/$1")
    sed -i -E "s/^[0-9a-f]{64}  $1\$/${sum%% *}  $1/" "$scratch/copy/MANIFEST"
}

# tells NAME STATUSES TEXT: verify of the copy ends with one of these statuses, and says this among others, or matches it.
tells() {
    local text=$3
    run "$binary" verify "$scratch/copy"
    result "$1" eval '[[ " '"$2"' " = *" $status "* ]] && [[ $out =~ $text ]] && [[ $out != *panicked* ]]'
}

violated=(source.txt reply.txt assignment.txt schedule.txt run.txt picture.svg)

# The three asserts of this case are reached with an input of 5, with one of 7, and never.
three_asserts() {
    fields 2 1 0 0 1 7 0 0 0 0 0 0 0 0 0 0 \
        2 4 0 0 0 0 0 0 \
        3 1 0 1 5 0 16 5 \
        4 1 0 2 5 0 16 7 \
        5 5 2 0 0 16 0 1 \
        6 5 3 0 0 16 0 1 \
        0 5 4 0 0 16 0 1 \
        0 1 0 0 0 16 0 1 >"$scratch/three.case"
}

# asserts_made A B C: the text of this case with the asserts' expressions made these constants.
asserts_made() {
    local record=4 constant
    cp "$scratch/three.case" "$scratch/made.case"
    for constant; do
        fields 0 16 0 "$constant" | dd of="$scratch/made.case" bs=2 seek=$((16 + 8 * (record - 1) + 4)) conv=notrunc status=none
        record=$((record + 1))
    done
    "$binary" smt "$scratch/made.case" >"$scratch/made.smt2"
}

filing() {
    says 'the command is built' 0 'menduvo 0.' "$menduvo" --version
    find_binary
    says 'a violation is filed' 1 'interlock-broken.case: violated: record ' \
        "$menduvo" file cases/interlock-broken.case "$scratch/violated" --source cases/interlock-broken.md --solver z3
    sum=$(sha256sum <"$scratch/violated/MANIFEST")
    result 'the hash of the list is told' eval '[[ $out = *$'"'\\n'${sum%% *}"' ]]'
    whole violated violated "${violated[@]}"
    result 'the case is filed' cmp -s "$scratch/violated/case.case" cases/interlock-broken.case
    result 'its source is filed' cmp -s "$scratch/violated/source.txt" cases/interlock-broken.md
    as_printed
    list_of_violated
    says 'an unsat is filed' 0 'interlock.case: unsat' "$menduvo" file cases/interlock.case "$scratch/unsat" --solver cvc5
    whole unsat unsat reply.txt
    has unsat verdict.txt 'cvc5 says unsat: nothing meets these'
    has unsat verdict.txt 'It does not mean: that no run violates with more switches'
    has unsat verdict.txt 'where a thread unlocks a mutex that it does not hold'
    has unsat README.txt 'The answer: unsat.'
    three_asserts
    says 'asserts that only solvers reach' 0 'NEVER REACHED: record 6' \
        "$menduvo" file "$scratch/three.case" "$scratch/three" --solver both
    whole three unsat reply-z3.txt reply-cvc5.txt reached-{1,2,3}.smt2 reached-{1,2,3}-reply-{z3,cvc5}.txt
    has three reached.txt 'assert 1): reached, e.g. schedule '
    has three reached.txt 'record 6 (thread 0, line 6: when L3 != 0: assert 1): NEVER REACHED within n = 1'
    has three README.txt 'whether one of record 4, 5 and 6 is reached: there they are asserts of 0, and the 7 is about them alone'
    # The question about all three is the text of the case in which they are 0; in the last one the others are as they are, and have no
    # part in the last assertion.
    asserts_made 0 0 0
    result 'the first question is a text of the library' cmp -s "$scratch/made.smt2" "$scratch/three/reached-1.smt2"
    asserts_made 1 1 0
    sed -i -E 's/^\(assert \(or \(= v7 #x0000\) \(or \(= v9 #x0000\) (.*)\)\)\)$/(assert \1)/' "$scratch/made.smt2"
    result 'the last one has one part' grep -qxF '(assert (or (= v11 #x0000) false))' "$scratch/made.smt2"
    result 'so is the last one, but for that' cmp -s "$scratch/made.smt2" "$scratch/three/reached-3.smt2"
    strangers
}

# A stranger's unlock as the fault, and unlocks that only solvers reach.
strangers() {
    says 'an unlock by a stranger is filed' 1 'release-broken.source: violated: record 11 (thread 1, line 5: unlock interlock) is an unlock by a stranger: ' \
        "$menduvo" file cases/release-broken.source "$scratch/stranger" --solver z3
    whole stranger violated case.source reply.txt assignment.txt schedule.txt run.txt picture.svg
    has stranger verdict.txt 'It means: this run is legal, stays within the bound, and violates:
record 11 (thread 1, line 5: unlock interlock) is an unlock by a stranger: thread 0 held interlock.'
    has stranger verdict.txt 'It does not mean: that no other line violates'
    has stranger run.txt 'STRANGER: thread 0 held interlock'
    has stranger picture.svg '>STRANGER: thread 0 held interlock<'
    has stranger reached.txt 'asserts and unlocks:'
    has stranger README.txt 'is an assert whose expression is zero, or an unlock by a stranger: a thread t that finds its mutex at another'
    has stranger README.txt '7: some assert has value 0; or some unlock by a thread t that was run'
    has stranger show.txt '(a mutex has 0 while it is free, and t + 1 while thread t holds it)'
    # Each unlock is reached where thread 1 has run one of its two lines.
    printf '%s\n' 'switches 3' 'global G0 = 0' 'mutex M0' thread 'L0 = G0' 'L1 = L0 == 1' 'lock M0' 'when L1 != 0: unlock M0' \
        'when L1 != 0: lock M0' 'when L1 != 0: unlock M0' 'when L1 == 0: unlock M0' thread 'G0 = 1' 'G0 = 2' >"$scratch/twice.source"
    says 'unlocks that only solvers reach' 0 'twice.source: unsat: nothing within n = 3' \
        "$menduvo" file "$scratch/twice.source" "$scratch/unlocks" --solver z3
    has unlocks reached.txt 'line 6: when L1 != 0: unlock M0): reached, e.g. schedule '
    result 'their question has their parts alone' grep -qxF '(assert (or (= v7 #x0000) (or (= v11 #x0000) false)))' "$scratch/unlocks/reached-1.smt2"
    says 'it is verified without a solver' 0 'reached-1.smt2' "$binary" verify "$scratch/unlocks"
    result 'nothing differs' eval '[[ $out = *"the same: "* && $out != *differs* ]]'
    copied stranger && sed -i 's/STRANGER: thread 0 held/STRANGER: thread 1 held/' "$scratch/copy/run.txt" && mend run.txt
    tells 'another holder in the run' 1 'run.txt +differs: line [0-9]+ is .*thread 1 held interlock'
    copied stranger && sed -i 's/^thread 0 held/x/; s/: thread 0 held interlock\.$/: interlock was free./' "$scratch/copy/verdict.txt" && mend verdict.txt
    tells 'another holder in the verdict' 1 'verdict.txt +differs: line [0-9]+ is .*interlock was free'
}

# What is filed is what the other commands print.
as_printed() {
    local call
    while IFS='|' read -r file call; do
        run bash -c "cd '$scratch/violated' && '$binary' $call"
        result "$file is as printed" cmp -s "$scratch/out" "$scratch/violated/$file"
    done <<'CALLS'
listing.txt|list case.case
constraints.smt2|smt case.case
show.txt|show case.case
run.txt|replay case.case schedule.txt
picture.svg|picture case.case schedule.txt -o -
CALLS
    says 'the filed assignment meets' 0 meets "$binary" check "$scratch/violated/case.case" "$scratch/violated/assignment.txt"
    run "$binary" decode "$scratch/violated/case.case" "$scratch/violated/reply.txt"
    result 'the filed schedule is decoded from the reply' test "$(sed 1d "$scratch/violated/schedule.txt")" = "$out"
    has violated verdict.txt 'It means: this run is legal, stays within the bound, and violates:'
    has violated verdict.txt 'assert L3 == 0) is broken.'
    has violated verdict.txt 'BROKEN: 1 == 0 is false'
    has violated README.txt 'A listing alone does not determine the answer'
}

list_of_violated() {
    local commit library
    commit=$(git rev-parse --verify --quiet HEAD 2>/dev/null) && [ "$(git rev-parse --show-toplevel)" -ef . ] || commit=unknown
    library=$(sha256sum <"${MENDUVO_LIB_DIR:-target/staticlib}/libmenduvo.a")
    has violated MANIFEST "# commit: $commit"
    has violated MANIFEST "# library: ${library%% *}"
    has violated MANIFEST "# solver: z3"
    has violated MANIFEST "# solver version: $(z3 --version)"
    has violated MANIFEST "# solver command: z3 -in -smt2"
    has violated MANIFEST "# command: menduvo file cases/interlock-broken.case $scratch/violated --source"
    has violated MANIFEST "# asked: constraints.smt2 reply.txt sat"
    has violated MANIFEST "# answer: violated"
}

# Why the case is filed with its listing: case A with 'assert L1 < 7'.
# A schedule that was found by thought, filed as a solver's output: the reply is what 'fill' prints. Of a line that the same reply
# does not reach nothing is known.
by_thought() {
    local case=$scratch/thought.source
    printf '%s\n' 'switches 1' thread 'assert 0' thread 'L0 = 1' 'assume L0 == 2' 'assert L0' >"$case"
    echo 1 0 >"$scratch/thought.schedule"
    { echo sat && "$binary" fill "$case" "$scratch/thought.schedule" | tr ' ' '\n' | awk '{ printf "(v%d #x%04x)\n", NR - 1, $1 }'
    } >"$scratch/thought.reply"
    run "$menduvo" file "$case" "$scratch/thought" --solver-command "cat $scratch/thought.reply"
    result 'a schedule found by thought is filed' eval '[ "$status" = 1 ] && [[ $out = *"violated: record 1 "* ]]'
    whole thought violated case.source reply.txt assignment.txt schedule.txt run.txt picture.svg reached-1.smt2 reached-1-reply.txt
    has thought MANIFEST '# solver: cat'
    has thought schedule.txt $'\n1 0'
    has thought reached.txt 'assert L0): not known whether it is reached: the run that the solver gave for it does not reach it'
    result 'the assignment is what was filled' cmp -s <(sed 1d "$scratch/thought/assignment.txt") \
        <("$binary" fill "$case" "$scratch/thought.schedule")
}

listing_alone() {
    cp cases/case-a.case "$scratch/other.case"
    fields 6 1 16 7 | dd of="$scratch/other.case" bs=2 seek=44 conv=notrunc status=none
    says 'another case' 0 'assert L1 < 7' "$binary" show "$scratch/other.case"
    run "$binary" list "$scratch/other.case"
    result 'the same listing' cmp -s "$scratch/out" tests/command/list-case-a.expected
    says 'another answer' 0 'other.case: unsat' "$binary" file "$scratch/other.case" "$scratch/other" --solver z3
}

# The same inputs, the same files; and where the case was read makes no difference to them, but for the command line.
again() {
    local folder seen=$scratch/fakes:$seen
    solver z3 "cat >/dev/null; echo sat; echo '$model'"
    mkdir -p "$scratch/one/two"
    cp cases/case-a.case "$scratch/one/a.case" && cp cases/case-a.case "$scratch/one/two/a.case"
    for folder in one one/two; do
        run bash -c "cd '$scratch/$folder' && '$menduvo' file a.case out"
        result "filed in $folder" test "$status" = 1
    done
    run diff -r "$scratch/one/out" "$scratch/one/two/out"
    result 'the same inputs, the same files' test "$status" = 0
    run bash -c "'$menduvo' file - '$scratch/elsewhere' --source cases/case-a.md <cases/case-a.case"
    result 'from standard input' eval '[ "$status" = 1 ] && [[ $out = "standard input: violated"* ]]'
    run diff -rq -x MANIFEST -x README.txt -x source.txt "$scratch/one/out" "$scratch/elsewhere"
    result 'the same texts, wherever the case is' test "$status" = 0
    run bash -c "'$menduvo' file cases/case-a.case '$scratch/from' --source - <cases/case-a.md"
    result 'a source from standard input' cmp -s "$scratch/from/source.txt" cases/case-a.md
    says 'standard input twice' 3 'only one input' "$menduvo" file - "$scratch/none" --source -
    says 'a folder on standard input' 3 "DIR is a folder's name" "$menduvo" file cases/case-a.case -
}

# Where nothing is filed, nothing is left, and no solver was asked.
refusing() {
    local seen=$scratch/fakes:$seen there
    solver z3 "touch '$scratch/asked'; cat >/dev/null; echo unsat"
    mkdir -p "$scratch/place/folder" && touch "$scratch/place/file" && ln -s none "$scratch/place/link"
    for there in folder file link link/ folder/ . ..; do
        says "there is a $there" 3 'is there already' "$menduvo" file cases/case-a.case "$scratch/place/$there"
    done
    head -c 100 cases/case-a.case >"$scratch/cut.case"
    says 'a refused case' 2 'cut.case: refusal 1' "$menduvo" file "$scratch/cut.case" "$scratch/place/new"
    says 'no case' 3 'none.case: ' "$menduvo" file none.case "$scratch/place/new"
    says 'no source' 3 'none.md: ' "$menduvo" file cases/case-a.case "$scratch/place/new" --source none.md
    says 'no place' 3 'none/new' "$menduvo" file cases/case-a.case "$scratch/place/none/new"
    says 'no solver' 3 'none is not installed' \
        "$menduvo" file cases/case-a.case "$scratch/place/new" --solver-command "$scratch/none"
    says 'an empty name' 3 "DIR is a folder's name" "$menduvo" file cases/case-a.case ''
    run ls -A "$scratch/place" "$scratch/place/folder"
    result 'nothing is left' test "$(grep -cE '^(file|folder|link)$' <<<"$out") $(grep -c new <<<"$out")" = '3 0'
    result 'no solver was asked' test ! -e "$scratch/asked"
    solver z3 "cat >/dev/null; mkdir -p '$scratch/place/late'; echo unsat"
    says 'a folder that comes meanwhile' 3 'has come while' "$menduvo" file cases/case-a.case "$scratch/place/late"
    result 'the answer is told' eval '[[ $out = *"case-a.case: unsat: nothing within n = 2, in round robin; IT IS NOT FILED"* ]]'
    result 'it stays as it is' test -z "$(ls -A "$scratch/place/late")"
    result 'and nothing beside it' test "$(ls "$scratch/place" | wc -l)" = 4
}

# An answer that is none is filed too, with the reply as it came.
no_answers() {
    local seen=$scratch/fakes:$seen body answer words limit number=0
    while IFS='|' read -r answer body words; do
        number=$((number + 1)) limit=30
        [ "$answer" != timeout ] || limit=0.2
        solver z3 "$body"
        says "$answer: $body" 3 "case-a.case: $answer: $words" \
            "$menduvo" file cases/case-a.case "$scratch/none-$number" --solver z3 --timeout "$limit"
        whole "none-$number" "$answer" reply.txt
        has "none-$number" verdict.txt "There is no answer: "
        has "none-$number" verdict.txt "$words"
    done <<FAKES
timeout|sleep 30|z3 gave no answer in time
unknown|cat >/dev/null; echo unknown|z3 gave up
failed|cat >/dev/null; echo hello|the solver z3 gave no answer that can be read: it printed 'hello'
failed|printf '\\377\\033[2J\\r\\n\\tx\\n'|the solver z3 gave no answer that can be read: it printed
failed|cat >/dev/null|the solver z3 gave no answer that can be read: it printed nothing
failed|cat >/dev/null; echo unsat; exit 1|the solver z3 gave no answer that can be read: it printed 'unsat'
failed|cat >/dev/null; echo sat|the solver z3 gave no answer that can be read: it says sat
failed|kill -9 \$\$|the solver z3 gave no answer that can be read: it printed nothing
failed|cat >/dev/null; echo sat; echo '${model/v3 #x0001/v3 #x0002}'|the assignment of z3 fails
FAKES
    has none-3 reply.txt hello
    run cmp "$scratch/none-4/reply.txt" <(printf '\377\033[2J\r\n\tx\n')
    result 'a reply that is no text is filed as it came' test "$status" = 0
    solver z3 "cat >/dev/null; echo sat; echo '$model'"
    solver cvc5 'cat >/dev/null; echo unsat'
    says 'solvers that disagree' 3 'disagree: z3 says sat' "$menduvo" file cases/case-a.case "$scratch/disagree" --solver both
    whole disagree disagree reply-z3.txt reply-cvc5.txt assignment.txt schedule.txt run.txt picture.svg
    has disagree verdict.txt 'It means: the run above is legal'
    has disagree verdict.txt 'cvc5 says unsat, and is wrong'
}

# A command that is killed leaves a folder that says by its name what it is.
interrupted() {
    local seen=$scratch/fakes:$seen process tries
    solver z3 "touch '$scratch/begun'; sleep 30"
    mkdir "$scratch/killed"
    PATH=$seen "$binary" file cases/case-a.case "$scratch/killed/new" >"$scratch/out" 2>&1 </dev/null &
    process=$!
    for tries in {1..100}; do
        [ ! -e "$scratch/begun" ] || break
        sleep 0.02
    done
    # The solver is to die with the command, which has noted it by now.
    sleep 0.1
    kill -9 "$process"
    wait "$process" 2>/dev/null
    run ls -A "$scratch/killed"
    result 'an interrupted filing' test "$out" = "new.unfinished-$process"
}

# Names that a shell or a terminal would act on.
names() {
    local seen=$scratch/fakes:$seen name line words
    solver z3 'cat >/dev/null; echo unsat'
    for name in "a b'c" $'line\nend\t\e[2J' $'\xff\xfe' 'two  $(x) `y` "z" \' 'ü'; do
        mkdir -p "$scratch/names" && cp cases/interlock.case "$scratch/names/$name.case"
        says "a case named $(printf %q "$name")" 0 unsat \
            bash -c 'cd "$1" && "$2" file "$3.case" "$3"' - "$scratch/names" "$menduvo" "$name"
        sums "$scratch/names/$name"
        line=$(sed -n 's/^# command: //p' "$scratch/names/$name/MANIFEST")
        eval "words=($line)"
        result 'its command line can be pasted' test "${words[*]}" = "menduvo file $name.case $name"
        result 'it has no control character' test "$(tr -d '\n' <"$scratch/names/$name/MANIFEST" | tr -dc '[:cntrl:]' | wc -c)" = 0
        run "$binary" verify "$scratch/names/$name"
        result 'it is verified' test "$status" = 0
        rm -rf "$scratch/names"
    done
}

# damages FOLDER: every file of it in turn is changed, taken away, and changed with its hash mended.
damages() {
    local name given
    while read -r name; do
        given='differs'
        copied "$1" && flip "$scratch/copy/$name"
        tells "$1: $name with another byte" '1 2' "(^|"$'\n'")$name +differs: its SHA-256 is not that of MANIFEST"
        mend "$name"
        # What was given is found by what follows from it.
        case $name in
        case.case | source.txt | *reply*) given='(^|'$'\n'')(README.txt|verdict.txt|listing.txt) +(differs|not recomputed \(case.case: refusal)' ;;
        *) given='(^|'$'\n'")$name +differs: line" ;;
        esac
        tells "$1: $name with another byte and its hash" '1 2' "$given"
        copied "$1" && rm "$scratch/copy/$name"
        tells "$1: $name is not there" 1 "(^|"$'\n'")$name +missing: No such file"
        copied "$1" && sed -i "/  $name\$/d" "$scratch/copy/MANIFEST"
        tells "$1: $name is not listed" 1 "(^|"$'\n'")$name +not listed"
        rm "$scratch/copy/$name"
        tells "$1: $name is not listed and not there" 1 "(^|"$'\n'")$name +missing: it belongs to|(MANIFEST|README.txt) +differs"
        copied "$1" && sed -i -E "s/^.(.{63}  $name)\$/g\\1/; t; s/^(.{63}).  $name\$/\\10  $name/" "$scratch/copy/MANIFEST"
        tells "$1: the hash of $name is no hash" 3 'MANIFEST: line [0-9]+: expected are a SHA-256'
        copied "$1" && sed -i -E "s/^.*  $name\$/$(printf '%064d' 0)  $name/" "$scratch/copy/MANIFEST"
        tells "$1: another hash of $name" 1 "(^|"$'\n'")$name +differs: its SHA-256 is not"
    done < <(sed -nE 's/^[0-9a-f]{64}  //p' "$scratch/$1/MANIFEST")
}

# Every line of the list in turn is taken away, doubled, and changed.
list_damages() {
    local line lines edit
    lines=$(wc -l <"$scratch/violated/MANIFEST")
    for ((line = 1; line <= lines; line++)); do
        for edit in "${line}d" "${line}p" "${line}s/.\$/~/" "${line}s/\$/ /" "${line}s/^/ /" "${line}s/[:.]/\\x01/"; do
            copied violated && sed -i "$edit" "$scratch/copy/MANIFEST"
            tells "the list after '$edit'" '1 3' 'MANIFEST|NOT THE SAME'
        done
    done
    copied violated && printf %s "$(<"$scratch/violated/MANIFEST")" >"$scratch/copy/MANIFEST"
    tells 'a list whose last line does not end' 3 'the line does not end'
    copied violated && sed -i 's/^# commit: .*/# commit: 1234/' "$scratch/copy/MANIFEST"
    tells 'another commit' 1 'README.txt +differs: line [0-9]+ is .*note: the commit is 1234 in MANIFEST'
    copied violated && sed -i 's/^# library: ..../# library: 1234/' "$scratch/copy/MANIFEST"
    tells 'another library' 1 "note: the library's SHA-256 is 1234"
    copied violated && sed -i 's/^# menduvo: .*/# menduvo: 9.9/' "$scratch/copy/MANIFEST"
    tells 'another version' 1 'note: the version is 9.9 in MANIFEST'
    copied unsat && sed -i 's/^# answer: .*/# answer: violated/' "$scratch/copy/MANIFEST"
    tells 'another answer' 1 "MANIFEST +differs: line [0-9]+ is '# answer: violated', and recomputed '# answer: unsat'"
    copied unsat && sed -i 's/ unsat$/ timeout/' "$scratch/copy/MANIFEST"
    tells 'an answer that the reply does not have' 1 'verdict.txt +differs'
    copied unsat && sed -i '/^# answer/s/$/ /' "$scratch/copy/MANIFEST"
    tells 'a value that ends with a blank' 3 "line [0-9]+: expected is '# answer: ' and a value, without a blank at its end"
    copied unsat && sed -i '/  show.txt$/p' "$scratch/copy/MANIFEST"
    tells 'a file that is listed twice' 3 'line [0-9]+: show.txt is listed twice'
    copied unsat && sed -i '1s/1$/2/' "$scratch/copy/MANIFEST"
    tells 'another format' 3 "line 1: this command knows the format 'menduvo file 1', and not this one: 'menduvo file 2'"
    local name
    for name in ../violated/run.txt /etc/passwd .. . a/b .hidden -x MANIFEST 'a b'; do
        copied violated && printf '%064d  %s\n' 0 "$name" >>"$scratch/copy/MANIFEST"
        tells "the list names $name" 3 "line [0-9]+: this is no name of a file in the folder: '"
    done
}

# What else a folder may have come to.
other_damages() {
    local before
    copied violated && : >"$scratch/copy/more.txt"
    tells 'a file more' 1 'more.txt +not listed: it is in the folder'
    copied violated && mkdir "$scratch/copy/more"
    tells 'a folder more' 1 'more +not listed'
    copied violated && rm "$scratch/copy/run.txt" && ln -s ../violated/run.txt "$scratch/copy/run.txt"
    tells 'a link for a file' 1 'run.txt +missing: it is not a plain file'
    copied violated && rm "$scratch/copy/run.txt" && mkfifo "$scratch/copy/run.txt"
    tells 'a pipe for a file' 1 'run.txt +missing: it is not a plain file'
    copied violated && rm "$scratch/copy/MANIFEST"
    tells 'no list' 3 'MANIFEST: No such file'
    ln -s ../violated/MANIFEST "$scratch/copy/MANIFEST"
    tells 'a link for the list' 3 'MANIFEST: it is not a plain file'
    copied violated && head -c 5000 /dev/urandom >"$scratch/copy/MANIFEST"
    tells 'noise for the list' 3 'MANIFEST: '
    copied violated && : >"$scratch/copy/MANIFEST"
    tells 'an empty list' 3 'MANIFEST: line 1: '
    copied violated && head -c 40 cases/case-a.case >"$scratch/copy/case.case"
    tells 'a case that is refused' 2 'refusal 1, place 0'
    copied violated && cp cases/case-a.case "$scratch/copy/case.case" && mend case.case
    tells 'another case' 1 'listing.txt +differs: line 1 is '
    copied violated && echo sat >"$scratch/copy/reply.txt" && mend reply.txt
    tells 'a reply without numbers' 1 'assignment.txt +differs: this check has no such file'
    copied violated && echo unsat >"$scratch/copy/reply.txt" && mend reply.txt
    tells 'a reply that says otherwise' 1 "MANIFEST +differs: line [0-9]+ is .* sat', and recomputed .* unsat'"
    rm -rf "$scratch/copy"
    tells 'no folder' 3 'No such file'
    before=$(cd "$scratch/violated" && find . -printf '%p %T@ %C@ %s\n')
    run "$binary" verify "$scratch/violated" --solver z3
    result 'nothing is written' test "$(cd "$scratch/violated" && find . -printf '%p %T@ %C@ %s\n')" = "$before"
}

asking_again() {
    says 'another solver, the same answer' 0 'asked again, cvc5: violated: record ' \
        "$menduvo" verify "$scratch/violated" --solver cvc5
    result 'it is said to be the same' eval '[[ $out = *": the same answer"* ]]'
    says 'both, the same answer' 0 'asked again, z3 and cvc5: unsat' "$menduvo" verify "$scratch/three" --solver both
    local seen=$scratch/fakes:$seen
    solver z3 'cat >/dev/null; echo unsat'
    says 'another answer' 1 'asked again, z3: unsat: nothing within n = 3, in round robin: ANOTHER ANSWER' \
        "$binary" verify "$scratch/violated" --solver z3
    says 'asserts that are said to be not reached' 1 'has turned: record 4 and 5: ANOTHER ANSWER' \
        "$binary" verify "$scratch/three" --solver z3
    solver z3 'sleep 30'
    says 'no answer' 3 'asked again, z3: timeout: z3 gave no answer in time: no answer' \
        "$binary" verify "$scratch/violated" --solver z3 --timeout 0.2
    says 'any solver' 3 'asked again, sleepy: timeout' \
        "$binary" verify "$scratch/violated" --solver-command "$scratch/fakes/sleepy 30" --timeout 0.2
    solver sure 'cat >/dev/null; echo unsat'
    copied none-1
    says 'no filed answer' 3 'there is no filed answer to compare it with: no answer' "$binary" verify "$scratch/copy" --solver-command "$scratch/fakes/sure"
    says 'a solver that is not there' 3 'none is not installed' \
        "$binary" verify "$scratch/violated" --solver-command "$scratch/none"
    says 'a limit for nobody' 3 '--timeout needs --solver' "$binary" verify "$scratch/violated" --timeout 1
    says 'DIR is missing' 3 'DIR is missing' "$binary" verify
    says 'verify --help' 0 'usage: menduvo verify DIR' "$binary" verify --help
    says 'file --help' 0 'usage: menduvo file CASE DIR' "$binary" file --help
}

objects() {
    says 'json, the same' 0 '{"command":"verify","folder":"violated","status":0,"answer":"same","filed":"violated","manifest":"' \
        "$binary" verify "$scratch/violated" --json
    result 'json, each file' test "$(grep -o '"same":true' "$scratch/out" | wc -l)" = 14
    copied violated && echo >>"$scratch/copy/run.txt"
    says 'json, a difference' 1 '{"name":"run.txt","state":"differs","same":false,"note":"its SHA-256' \
        "$binary" verify "$scratch/copy" --json
    head -c 40 cases/case-a.case >"$scratch/copy/case.case"
    says 'json, a refused case' 2 '"again":null,"message":["case.case: refusal 1, place 0' "$binary" verify "$scratch/copy" --json
    says 'json, no folder' 3 '{"command":"verify","case":"nowhere","status":3,"answer":"failed","message":["' \
        "$binary" verify "$scratch/nowhere" --json
}

# SHA-256 at every length about the ends of blocks, beside sha256sum: files that are listed and that no check has.
hashes() {
    local length lengths=({0..200} 255 256 257 1000 65535 65536 1048576 1048577)
    copied violated
    head -c 1048577 /dev/urandom >"$scratch/noise"
    for length in "${lengths[@]}"; do head -c "$length" "$scratch/noise" >"$scratch/copy/n-$length"; done
    (cd "$scratch/copy" && sha256sum n-* >>MANIFEST)
    run "$binary" verify "$scratch/copy"
    result 'sha256sum and menduvo agree' test "$(grep -cE '^n-[0-9]+ +differs: this check has no such file$' "$scratch/out")" = \
        "${#lengths[@]}"
    for length in 0 55 64 1048576; do printf x >>"$scratch/copy/n-$length"; done
    run "$binary" verify "$scratch/copy"
    result 'and tell what is longer' test "$(grep -cE '^n-(0|55|64|1048576) +differs: its SHA-256 is not' "$scratch/out")" = 4
}

filing
by_thought
listing_alone
again
refusing
no_answers
interrupted
names
damages violated
damages three
list_damages
other_damages
solver sleepy 'sleep 30'
asking_again
objects
hashes
finish
