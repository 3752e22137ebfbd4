#!/usr/bin/env bash
# Tests the pictures of runs: those of a short and of a long run (compared with tests/command/picture-*.expected), that pages fit
# A4 and cut nothing, that every line and every value at a block's end is told, and which files are written. With --store it
# writes the expected pictures anew.
set -u
cd -- "$(dirname -- "${BASH_SOURCE[0]}")/.." || exit
. tests/helpers.sh || exit

# long NAME THREADS LINES SWITCHES LENGTH..: a case in the scratch folder whose threads have so many lines each, with 8 globals
# and 4 mutexes, and a schedule of blocks of these lengths. Each thread reads an input, works on its own and on shared items, and
# has lines that are skipped; the last line but one of thread 0 is a broken assertion.
long() {
    local name=$1 threads=$2 lines=$3 switches=$4 thread line next number=0 first=(0 0 0 0) records=() inputs=()
    shift 4
    for ((thread = 0; thread < threads; thread++)); do
        first[thread]=$((number + 1))
        inputs+=($((100 + thread)))
        for ((line = 1; line <= lines; line++)); do
            number=$((number + 1))
            next=$((line < lines ? number + 1 : 0))
            record "$thread" "$line" "$lines"
        done
    done
    fields "$threads" "$switches" 8 4 "${first[@]}" 1 2 3 4 5 6 7 8 "${records[@]}" >"$scratch/$name.case"
    echo "$* ${inputs[*]}" >"$scratch/$name.schedule"
}

# record THREAD LINE LINES: the next record of the case that is made.
record() {
    local global=$((($2 + $1) % 8)) local=$(($2 % 5 + 1))
    if (($1 == 0 && $2 == $3 - 1)); then
        records+=("$next" 5 0 0 0 16 0 0)
        return
    fi
    case $(($2 % 16)) in
        1) if (($2 == 1)); then records+=("$next" 4 0 0 0 0 0 0); else records+=("$next" 3 0 "$local" 0 "$global" 0 0); fi ;;
        2) records+=("$next" 7 0 "$1" 0 0 0 0) ;;
        3 | 9) records+=("$next" 3 0 "$local" 0 "$global" 0 0) ;;
        4 | 10) records+=("$next" 2 0 "$global" 1 "$local" 0 0) ;;
        5) records+=("$next" 8 0 "$1" 0 0 0 0) ;;
        6) records+=("$next" 2 16 "$global" 0 16 0 7) ;; # skipped: L15 stays 0
        7 | 12) records+=("$next" 1 0 "$local" 1 "$local" 16 "$2") ;;
        8) records+=("$next" 5 0 0 4 "$local" 16 1) ;;
        13) records+=("$next" 1 16 "$local" 0 16 0 9) ;; # skipped
        *) records+=("$next" 1 0 "$local" 2 0 "$local" 0) ;;
    esac
}

# loads NAME LENGTH LENGTH LENGTH LENGTH: a case in the scratch folder of two threads that load G0 in each line, and a schedule.
loads() {
    local number records=() half=$(($2 + $4)) all=$(($2 + $3 + $4 + $5))
    for ((number = 1; number <= all; number++)); do
        records+=("$((number == half || number == all ? 0 : number + 1))" 3 0 1 0 0 0 0)
    done
    fields 2 3 1 0 1 "$((half + 1))" 0 0 0 0 0 0 0 0 0 0 "${records[@]}" >"$scratch/$1.case"
    echo "${@:2}" >"$scratch/$1.schedule"
}

# text FILE: its texts, one a line.
text() {
    sed -n 's/<tspan[^>]*>//g; s|</tspan>||g; s|^<text[^>]*>\(.*\)</text>$|\1|p' "$1" | sed 's/&lt;/</g; s/&gt;/>/g; s/&amp;/\&/g'
}

# told: how many lines the texts on standard input tell. A cell begins with its record; one of folded lines has their count.
told() {
    sed -nE 's/^[0-9][0-9a-z, ]*: ([0-9]+) lines folded.*/\1/p; t; s/^[0-9]+: .*/1/p' | awk '{ sum += $1 } END { print sum + 0 }'
}

# at_ends: from a replay on standard input, the items at each block's end: what its lines set, after those at the start. A stranger's
# unlock sets its mutex too; what a mutex has is told again in words.
at_ends() {
    awk '
        function told(   i, words) {
            for (i = 1; i <= items; i++) words = words (i > 1 ? ", " : "") name[i] " = " value[name[i]] holder(name[i])
            return words
        }
        function holder(name) {
            if (name !~ /^M/) return ""
            return value[name] == 0 ? " (free)" : " (held by thread " value[name] - 1 ")"
        }
        /^start: / {
            items = split(substr($0, 8), each, ", ")
            for (i = 1; i <= items; i++) { split(each[i], two, " = "); name[i] = two[1]; value[two[1]] = two[2] + 0 }
        }
        /^(block|end)/ && begun { print told() }
        /^block/ { begun = 1 }
        /^>> line.* unlock .* STRANGER: / { match($0, / unlock M[0-9]/); value[substr($0, RSTART + 8, 2)] = 0 }
        { sub(/ \((free|held by thread [0-3])\)$/, "") }
        /^.. line/ && $(NF - 1) == "=" && ($(NF - 2) in value) { value[$(NF - 2)] = $NF }'
}

# drawn_ends: from the texts of a picture on standard input, the same. The items of a block that is drawn with others stand once.
drawn_ends() {
    awk '/^after block/ { if (words != "") print words; words = ""; on = 1; next }
        / = / && on && /^[GM][0-9] = [0-9]+( \([a-z0-3 ]*\))?$/ { words = words (words == "" ? "" : ", ") $0; next } { on = 0 } END { print words }'
}

# count FILE CONDITION: how many rectangles of a picture are so.
count() {
    xmllint --xpath "count(//*[local-name()='rect'][$2])" "$1"
}

# in_order NAME PAGES: the picture of the case in the scratch folder has so many pages, each in order by itself.
in_order() {
    local name=$1 pages=$2 page file threads
    run "$menduvo" picture "$scratch/$name.case" "$scratch/$name.schedule" -o "$scratch/$name.svg"
    result "$name is drawn" test "$status" = 0
    result "$name has $pages files" test "$(find "$scratch" -name "$name-*.svg" | wc -l)" = "$pages"
    result "$name has $pages pages" test "$(wc -l <"$scratch/out")" = "$pages"
    threads=$(od -An -tu2 -N2 "$scratch/$name.case" | tr -d ' ')
    : >"$scratch/texts"
    for ((page = 1; page <= pages; page++)); do
        file=$scratch/$name-$page.svg
        run xmllint --noout "$file"
        result "$name, page $page: XML" test "$status, $out" = '0, '
        result "$name, page $page: its size" grep -q '^<svg .* width="184.00mm" height="270.00mm" viewBox="0 0 736 1080"' "$file"
        result "$name, page $page: nothing leaves it" test "$(count "$file" '@x + @width > 736 or @y + @height > 1080')" = 0
        result "$name, page $page: the heads" test "$(text "$file" | grep -c '^thread [0-3]$')" = "$threads"
        result "$name, page $page: its number" grep -q ">page $page of $pages</text>" "$file"
        text "$file" >>"$scratch/texts"
    done
}

# whole NAME: every line of the run is told, and so are the items at the end of each block.
whole() {
    run "$menduvo" replay "$scratch/$1.case" "$scratch/$1.schedule"
    result "$1: every line is told" test "$(told <"$scratch/texts")" = "$(grep -c '^.. line' "$scratch/out")"
    at_ends <"$scratch/out" >"$scratch/ends"
    result "$1: some block changes an item" test "$(sort -u "$scratch/ends" | wc -l)" -gt 1
    result "$1: the items at each block's end" cmp -s "$scratch/ends" <(drawn_ends <"$scratch/texts")
    result "$1: the items at the end" test "$(tail -n 1 "$scratch/ends")" = "$(sed -n 's/^end: //p' "$scratch/out")"
}

short_runs() {
    local name lines
    same picture-interlock 0 "$menduvo" picture cases/interlock.case cases/interlock.schedule -o -
    result 'empty blocks at the end are not drawn' eval '[[ $out = *">block 3<"* && $out != *">block 4<"* ]]'
    result 'they are told' eval '[[ $out = *">blocks 4 to 7 run no line<"* ]]'
    result 'an empty block before is drawn' eval '[[ $out = *">no line<"*">block 1<"* ]]'
    for name in case-a handshake interlock interlock-broken lock-order lost-update release release-broken; do
        run "$menduvo" picture "cases/$name.case" "cases/$name.schedule" -o -
        result "$name stays in lanes" eval '[[ $out = *">at its end<"* && $out != *">page "* ]]'
        run "$menduvo" replay "cases/$name.case" "cases/$name.schedule"
        at_ends <"$scratch/out" >"$scratch/ends"
        lines=$(grep -c '^.. line' "$scratch/out")
        run "$menduvo" picture "cases/$name.case" "cases/$name.schedule" -o "$scratch/$name.svg"
        result "$name: every line is told" test "$(text "$scratch/$name.svg" | told)" = "$lines"
        lane_ends "$scratch/$name.svg" >"$scratch/drawn"
        # Those of the blocks at the end that are left out are the last ones.
        head -n "$(wc -l <"$scratch/drawn")" "$scratch/ends" >"$scratch/wanted"
        result "$name: the items at each block's end" cmp -s "$scratch/wanted" "$scratch/drawn"
        result "$name: the items at the end" test "$(tail -n 1 "$scratch/drawn")" = "$(tail -n 1 "$scratch/ends")"
        result "$name: it fits on a page" test "$(size "$scratch/$name.svg")" = yes
    done
    says 'lines that were not run' 0 '>not run: 8 lines of thread 0, from record 4 (thread 0, line 4: L1 = G1) on<' \
        "$menduvo" picture cases/handshake.case cases/handshake.schedule -o -
    result 'of each thread' eval '[[ $out = *">not run: 9 lines of thread 1, from record 15 (thread 1, line 4: G1 = 1) on<"* ]]'
    says 'lines and blocks after a cut-off' 0 '>blocks 2 and 3 are not run<' \
        "$menduvo" picture cases/lock-order.case cases/lock-order.schedule -o -
    result 'a cut-off is in the legend' eval '[[ $out = *">cut off: the run ends here<"* && $out != *">skipped: its guard"* ]]'
    # Assert 0, then assume 0.
    fields 2 0 0 0 1 0 0 0 0 0 0 0 0 0 0 0 2 5 0 0 0 16 0 0 0 6 0 0 0 16 0 0 >"$scratch/vain.case"
    says 'what is broken before a cut-off is no violation' 0 '>record 1 is broken too, but a run that is cut off is not legal' \
        "$menduvo" picture "$scratch/vain.case" <(echo 2) -o -
    # Unlock M0, which is free, then assume 0.
    fields 2 0 0 1 1 0 0 0 0 0 0 0 0 0 0 0 2 8 0 0 0 0 0 0 0 6 0 0 0 16 0 0 >"$scratch/vain.case"
    says 'nor is a stranger before it' 0 '>record 1 is an unlock by a stranger too, but a run that is cut off is not legal' \
        "$menduvo" picture "$scratch/vain.case" <(echo 2) -o -
    # No record, no switch.
    fields 2 0 0 0 0 0 0 0 0 0 0 0 0 0 0 0 >"$scratch/empty.case"
    says 'a run without a line' 0 '>block 0 runs no line<' "$menduvo" picture "$scratch/empty.case" <(echo 0) -o -
}

# A stranger's unlock, in lanes and in columns: it is red, with a frame and its bar, says whose the mutex was, and is in the legend.
strangers() {
    local name red='fill="#b00000" stroke="black" stroke-width="3"/>' legend='>an unlock by a stranger: its thread does not hold the mutex<'
    run "$menduvo" picture cases/release-broken.source cases/release-broken.schedule -o -
    result 'a stranger, in lanes' eval '[[ $out = *">at its end<"*">11: unlock interlock<"*">STRANGER: thread 0 held interlock<"* ]]'
    result 'its cell is red, and so is the sample' test "$(grep -cF "$red" "$scratch/out")" = 2
    result 'each with the bar of a shared one' test "$(grep -A 1 -F "$red" "$scratch/out" | grep -c 'width="5" .*fill="black"/>')" = 2
    result 'in the legend it is alone' eval '[[ $out = *"$legend"* && $out != *">a broken assertion<"* ]]'
    result 'who holds it after each block' eval '[[ $out = *">interlock = 1 (held by thread 0)<"*">interlock = 0 (free)<"* ]]'
    result 'what the run comes to' eval '[[ $out = *"<title>release-broken: violated: record 11 (thread 1, line 5: unlock interlock) is an unlock by a stranger: thread 0 held interlock</title>"* ]]'
    run "$menduvo" picture cases/release-broken.source <(echo 2 7 4) -o -
    result 'both sorts in one picture' eval '[[ $out = *">STRANGER: thread 0 held interlock<"*">BROKEN: 1 == 0 is false<"*">STRANGER: thread 1 held interlock<"* ]]'
    result 'both are in the legend' eval '[[ $out = *">a broken assertion<"*"$legend"* ]]'
    result 'three cells are red, and two samples' test "$(grep -cF "$red" "$scratch/out")" = 5
    says 'a lock that fails says who holds it' 0 '>CUT OFF: thread 0 holds first<' \
        "$menduvo" picture cases/lock-order.source cases/lock-order.schedule -o -
    # Long runs: thread 0 loads, and unlocks what it does not hold in its last line but one; it is on the second page.
    for name in free held; do
        stranger_behind "$name"
        run "$menduvo" picture "$scratch/$name.case" "$scratch/$name.schedule" -o "$scratch/$name.svg"
        result "$name: two pages" test "$status, $(wc -l <"$scratch/out")" = '0, 2'
        result "$name: the page of the stranger" grep -q '>see page 2</text>' "$scratch/$name-1.svg"
        result "$name: the legend is on the first" grep -qF "$legend" "$scratch/$name-1.svg"
    done
    result 'free: whose it was' grep -q '>STRANGER: M3 was free</text>' "$scratch/free-2.svg"
    result 'held: whose it was' grep -q '>STRANGER: thread 1 held M3</text>' "$scratch/held-2.svg"
    result 'held: it is red' grep -qF "$red" "$scratch/held-2.svg"
    result 'held: who held it before' grep -q '>M3 = 2 (held by thread 1)</text>' "$scratch/held-1.svg"
    result 'held: and after' grep -q '>M3 = 0 (free)</text>' "$scratch/held-2.svg"
}

# stranger_behind NAME: a case in the scratch folder in which thread 0 loads 42 times, unlocks mutex 3, and loads again, and thread 1
# locks it; and a schedule in which thread 1 locks it before that, where NAME is held.
stranger_behind() {
    local number records=()
    for number in {1..42}; do records+=("$((number + 1))" 3 0 1 0 0 0 0); done
    records+=(44 8 0 3 0 0 0 0  0 3 0 1 0 0 0 0  0 7 0 3 0 0 0 0)
    fields 2 2 1 4 1 45 0 0 0 0 0 0 0 0 0 0 "${records[@]}" >"$scratch/$1.case"
    if [ "$1" = held ]; then echo 30 1 14; else echo 30 0 14; fi >"$scratch/$1.schedule"
}

# lane_ends FILE: the items at each block's end, from a picture in lanes: they follow the name of their block.
lane_ends() {
    text "$1" | awk '/^block [0-9]+$/ { if (words != "") print words; words = ""; on = 1; next }
        on && /^[GM][0-9] = [0-9]+( \([a-z0-3 ]*\))?$/ { words = words (words == "" ? "" : ", ") $0; next } { on = 0 } END { print words }'
}

# size FILE: whether it fits on A4, upright or on its side, with margins.
size() {
    sed -nE 's/^<svg .* width="([0-9.]+)mm" height="([0-9.]+)mm".*/\1 \2/p' "$1" |
        awk '{ print ($1 <= 184 && $2 <= 270) || ($1 <= 270 && $2 <= 184) ? "yes" : "no" }'
}

long_runs() {
    long medium 3 20 5 9 20 11 11 0 9
    in_order medium 2
    whole medium
    result 'lines are folded' grep -qE '^[0-9]+ to [0-9]+: [3-9] lines folded, 1 skipped; then L[0-9] = ' "$scratch/texts"
    run "$menduvo" picture "$scratch/medium.case" "$scratch/medium.schedule" -o -
    matches picture-medium 0
    result 'all pages in one' eval '[[ $out = *">page 1 of 2<"*">page 2 of 2<"* && $out = *"height=\"540.00mm\""* ]]'
    result 'the page of the broken assertion' grep -q '>see page 2</text>' "$scratch/medium-1.svg"
    result 'it is there' grep -q '>19: assert 0</text>' "$scratch/medium-2.svg"
    long large 4 64 15 16 16 16 16 16 16 16 16 16 16 16 16 16 16 16 16
    in_order large 8
    whole large
    # The same lines in few blocks: the others are left out at the end, and drawn as one between.
    long few 4 64 15 60 64 64 60 0 0 0 0 4 0 0 4 0 0 0 0
    in_order few 7
    result 'empty blocks between are told' grep -q '^blocks 4 to 7: no line$' "$scratch/texts"
    result 'empty blocks at the end are told' grep -q '^blocks 12 to 15 run no line' "$scratch/texts"
    # Up to 40 lines that fit are drawn in lanes, which have no number of a page.
    local lengths pages
    while read -r lengths pages; do
        # shellcheck disable=SC2086 # several lengths
        loads loads ${lengths//,/ }
        run "$menduvo" picture "$scratch/loads.case" "$scratch/loads.schedule" -o -
        result "blocks of $lengths lines" test "$status, $(grep -c '>page . of ' "$scratch/out")" = "0, $pages"
    done <<'RUNS'
10,10,10,10 0
10,10,11,10 2
20,20,0,0 2
RUNS
}

files() {
    mkdir "$scratch/files"
    local picture=("$menduvo" picture "$scratch/medium.case" "$scratch/medium.schedule" -o "$scratch/files/a.svg")
    echo mine >"$scratch/files/a-2.svg"
    says 'a page is in the way' 3 'a-2.svg is there already; --force replaces it' "${picture[@]}"
    result 'no page is written' test "$(ls "$scratch/files"), $(<"$scratch/files/a-2.svg")" = 'a-2.svg, mine'
    says 'pages are replaced' 0 'files/a-2.svg: page 2 of 2: violated: record 19' "${picture[@]}" --force
    result 'both are there' cmp -s "$scratch/files/a-2.svg" "$scratch/medium-2.svg"
    echo old | tee "$scratch/files/a-3.svg" >"$scratch/files/a.svg"
    says 'a page of another picture is told' 0 'files/a-3.svg is there too, and is no page of this picture' \
        "${picture[@]}" --force
    result 'so is one without a number' eval '[[ $out = *"files/a.svg is there too"* ]]'
    says 'of one page too' 0 'files/a-1.svg is there too' \
        "$menduvo" picture cases/case-a.case cases/case-a.schedule -o "$scratch/files/a.svg" --force
    cp "$scratch/medium.schedule" "$scratch/files/b-2.svg"
    says 'a page replaces no input' 3 'files/b-2.svg is an input, and is not replaced' \
        "$menduvo" picture "$scratch/medium.case" "$scratch/files/b-2.svg" -o "$scratch/files/b.svg" --force
    result 'no page is left' test ! -e "$scratch/files/b-1.svg"
    mkdir "$scratch/files/c-2.svg"
    says 'a page cannot be written' 3 'c-2.svg' \
        "$menduvo" picture "$scratch/medium.case" "$scratch/medium.schedule" -o "$scratch/files/c.svg"
    result 'no other is left' test ! -e "$scratch/files/c-1.svg"
}

# Loads of G0, and then assert 0: no run that violates is short.
filing() {
    local line records=()
    for line in {1..63}; do records+=($((line + 1)) 3 0 1 0 0 0 0); done
    fields 2 0 1 0 1 0 0 0 0 0 0 0 0 0 0 0 "${records[@]}" 0 5 0 0 0 16 0 0 >"$scratch/slow.case"
    says 'a long run is filed' 1 'violated: record 64' "$menduvo" file "$scratch/slow.case" "$scratch/filed" --solver z3
    result 'its first page is filed' grep -q 'picture-1.svg$' "$scratch/filed/MANIFEST"
    result 'its second page is filed' test -s "$scratch/filed/picture-2.svg"
    says 'the pages are made again' 0 'picture-2.svg     same' "$menduvo" verify "$scratch/filed"
    sed -i 's/thread 0/thread 1/' "$scratch/filed/picture-2.svg"
    says 'a changed page is told' 1 'picture-2.svg' "$menduvo" verify "$scratch/filed"
}

# The unit tests of the command: the pictures of many runs, with names of any length; whose mutexes were, in many runs; which lines a
# run reaches; and the parts of a text.
many_runs() {
    # Not by run, since it may take longer where it must be built.
    out=$(cargo test --offline --manifest-path tool/Cargo.toml --target-dir target/picture 2>&1)
    status=$?
    local name
    for name in picture::tests::many_runs fault::tests::what_lines_find fault::tests::every_line_has_a_part \
        smt::tests::some_parts_stay smt::tests::another_last_assertion reach::tests::lines_of_a_legal_run reach::tests::no_lines_of_another; do
        result "$name" eval '[ "$status" = 0 ] && [[ $out = *"test $name ... ok"* ]]'
    done
}

says 'the command is built' 0 'menduvo 0.' "$menduvo" --version
short_runs
strangers
long_runs
files
filing
many_runs
finish
