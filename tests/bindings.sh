#!/usr/bin/env bash
# Tests the bindings: from C, every call that bindings/menduvo.h declares on the static library; what header and Rust package
# have without a library, and that both say the same; and over a library that lies, that the Rust package tells numbers that stand
# for no answer, in the command and in a builder, the command a reply, items or a failing constraint that its own display does not
# find, and the comparison with plain Rust other answers.
set -u
cd -- "$(dirname -- "${BASH_SOURCE[0]}")/.." || exit
. tests/counting.sh || exit
scratch=$(mktemp -d) || exit
trap 'rm -rf -- "$scratch"' EXIT

# compile FILE.c WORDS..: with every warning an error.
compile() {
    local file=$1
    shift
    run cc -std=c99 -pedantic -Wall -Wextra -Werror -Ibindings "tests/bindings/$file" "$@"
}

# C, over the static library, which the command's script builds where it is not there.
run bin/menduvo --version
result 'the library is built' test "$status" = 0
compile listing.c "${MENDUVO_LIB_DIR:-target/staticlib}/libmenduvo.a" -o "$scratch/listing"
result 'the header compiles, and the library links' test "$status" = 0
run bash -c "'$scratch/listing' <cases/case-a.case"
result "case A's list, from C" eval '[ "$status" = 0 ] && [ "$out" = "$(<tests/command/list-case-a.expected)" ]'
run bash -c "head -c 100 cases/case-a.case | '$scratch/listing'"
result 'a refusal, from C' eval '[ "$status" = 2 ] && [ "$out" = "1 0" ]'
run bash -c "'$scratch/listing' </dev/zero"
result 'a case that is too long, from C' eval '[ "$status" = 2 ] && [ "$out" = "1 0" ]'

compile calls.c "${MENDUVO_LIB_DIR:-target/staticlib}/libmenduvo.a" -o "$scratch/calls"
result 'every call links' test "$status" = 0
run bash -c "'$scratch/calls' $(sed 1d cases/case-a.assignment | tr '\n' ' ') <cases/case-a.case"
result 'every call, from C' eval '[ "$status" = 0 ] && [ "$out" = "$(<tests/bindings/calls.expected)" ]'

# Without a library: the header's texts in two files of one program, and the Rust package's types.
compile texts.c tests/bindings/unused.c -o "$scratch/texts"
result 'the header has its texts without a library' test "$status" = 0
"$scratch/texts" >"$scratch/texts.c.out"
if type -P c++ >/dev/null; then
    run c++ -x c++ -std=c++98 -Wall -Wextra -Werror -Ibindings tests/bindings/texts.c tests/bindings/unused.c \
        -o "$scratch/texts++"
    result 'the header compiles as C++' test "$status" = 0
    result 'it says the same in C++' cmp -s "$scratch/texts.c.out" <("$scratch/texts++")
else
    echo 'c++ is not installed; its tests are left out'
fi
mkdir "$scratch/empty"
run env MENDUVO_LIB_DIR="$scratch/empty" cargo build --offline --locked --quiet --manifest-path tests/bindings/types/Cargo.toml \
    --target-dir target/types
result 'types of Rust link where there is no library, and nothing is missed' test "$status, $out" = '0, '
run target/types/debug/menduvo-types
result 'every answer in words' cmp -s tests/bindings/types.expected <(sed 1,19d <<<"$out")
result "the refusals' texts are the same in C and in Rust" cmp -s <(sed 1,2d "$scratch/texts.c.out") <(head -n 19 <<<"$out")
result 'each refusal has a text, and 0 and 18 have none' test "$(sort -k 2 -u "$scratch/texts.c.out" | grep -c '^[0-9]* ')" = 18

# One version, in the header and in what is built.
version=$(sed -n 1p "$scratch/texts.c.out")
result 'the numbers of the version' test "$(sed -n 2p "$scratch/texts.c.out")" = "$version"
for manifest in tool/Cargo.toml bindings/rust/Cargo.toml; do
    run grep '^version = ' "$manifest"
    result "the version, $manifest" test "$out" = "version = \"$version\""
done

# The command, over a library that lies.
compile lying.c -c -o "$scratch/lying.o"
result 'the library that lies compiles' test "$status" = 0
run ar rcs "$scratch/libmenduvo.a" "$scratch/lying.o"
run env MENDUVO_LIB_DIR="$scratch" cargo build --offline --quiet --manifest-path tool/Cargo.toml --target-dir "$scratch/built"
result 'the command links with it' test "$status" = 0
lying=$scratch/built/debug/menduvo

# lies NAME TEXT COMMAND..: with this lie the command fails, and says this.
lies() {
    local lie=$1 text=$2
    shift 2
    out=$(env LIE="$lie" "$lying" "$@" 2>&1)
    status=$?
    result "the lie '$lie' is told" eval '[ "$status" = 3 ] && [[ $out = *"$text"* ]]'
}

run "$lying" replay cases/case-a.case cases/case-a.schedule
result 'no lie, no complaint' eval '[ "$status" = 1 ] && [[ $out = *"violated: record 4"* ]]'
lies clean 'disagrees with the proved library' replay cases/case-a.case cases/case-a.schedule
lies record 'disagrees with the proved library' replay cases/case-a.case cases/case-a.schedule
lies items 'disagrees with the proved library' picture cases/case-a.case cases/case-a.schedule -o "$scratch/none.svg"
result 'no picture is left' test ! -e "$scratch/none.svg"
# A run by hand is held to the library where it is over; then no schedule is given.
lies clean 'disagrees with the proved library' step cases/case-a.case -o "$scratch/none.schedule" < <(printf '%s\n' 0 0 1 'rest 0')
lies items 'disagrees with the proved library' step cases/case-a.case -o "$scratch/none.schedule" < <(printf '%s\n' 0 0 1 'rest 0')
result 'no schedule is left' eval '[ ! -e "$scratch/none.schedule" ] && [[ $out != *schedule:* ]]'
lies fails 'display of a constraint disagrees with the proved library' check cases/case-a.case cases/case-a.assignment
lies fails 'display of a constraint disagrees with the proved library' decode cases/case-a.case cases/case-a.assignment
lies stays 'display of a constraint disagrees with the proved library' check cases/case-a.case cases/case-a.assignment
lies row 'display of a constraint disagrees with the proved library' check cases/case-a.case cases/case-a.assignment
lies answer 'numbers that stand for no answer' replay cases/case-a.case cases/case-a.schedule
lies 'fails 0' 'numbers that stand for no answer' check cases/case-a.case cases/case-a.assignment
lies 'refusal 18' 'numbers that stand for no answer' decode cases/case-a.case cases/case-a.assignment
lies listing 'numbers that stand for no answer' list cases/case-a.case
for lie in 'fill answer' 'fill second' 'fill refused, with numbers'; do
    lies "$lie" 'numbers that stand for no answer' fill cases/case-a.case cases/case-a.schedule
done
# A schedule that is not filled: its run violates all the same, another line is late first, or none is, or the one that keeps the rule
# is not filled either. Then no schedule is named.
lies 'fill violates' 'the run does not violate, and replays it: violated: record 4' fill cases/case-a.case cases/case-a.schedule
lies 'fill place' 'the display: there is none' fill cases/case-a.case cases/case-a.schedule
echo 1 3 1 0 1 >"$scratch/late.schedule"
lies 'fill place' 'the display: the first is record 3' fill cases/handshake.case "$scratch/late.schedule"
lies 'fill moved' 'refuses the schedule that it would name in the place of this one' fill cases/handshake.case "$scratch/late.schedule"
result 'no other schedule is named' eval '[[ $out != *"1 3 2 0 0"* ]]'
run env LIE='fill late' "$lying" fill cases/handshake.case "$scratch/late.schedule"
result 'what is filled is named' eval '[ "$status" = 2 ] && [[ $out = *"the same inputs: 1 3 2 0 0"* ]]'
for lie in 'text refused' 'text place' 'text refused, with bytes' 'text longer'; do
    lies "$lie" 'numbers that stand for no answer' smt cases/case-a.case
done
lies 'text bytes' 'an SMT-LIB text that is no text' smt cases/case-a.case
lies none 'an SMT-LIB text with another last assertion' solve cases/case-a.case --assert 4 --solver-command 'echo unsat'
# Of an unlock by a stranger, what it found: the run does not get there, it is the thread's own, or the display finds another.
release=(cases/release-broken.case cases/release-broken.schedule)
lies stranger 'violates, and is no unlock by a stranger: this is not the proved library' replay "${release[@]}"
lies own 'violates, and is no unlock by a stranger: this is not the proved library' replay "${release[@]}"
lies whose 'disagrees with the proved library' replay "${release[@]}"
result 'both are told' eval '[[ $out = *"the library: "*": M0 was free"*"the display: "*": thread 0 held M0"* ]]'

# A builder in Rust, over the same library: numbers about one line.
run env MENDUVO_LIB_DIR="$scratch" cargo build --offline --quiet --manifest-path examples/rust/Cargo.toml --target-dir "$scratch/built"
result 'the builder links with it' test "$status" = 0
run "$scratch/built/debug/builder" "$scratch/built.case"
result 'no lie, no complaint of the builder' test "$status" = 0
for lie in 'line refused' 'line refused, with place' 'line refused, with copies' 'line refused elsewhere' 'line taken, with place'; do
    run env LIE="$lie" "$scratch/built/debug/builder" "$scratch/none.case"
    result "the lie '$lie' is told" eval '[ "$status" = 101 ] && [[ $out = *"numbers that stand for no answer"* ]]'
done
result 'no case is left' test ! -e "$scratch/none.case"

# What is filed names the library that is linked, and this one is another.
run bin/menduvo file cases/case-a.case "$scratch/filed" --solver-command 'echo unknown'
result 'a check is filed' test "$status" = 3
sum=$(sha256sum <"$scratch/libmenduvo.a")
run "$lying" verify "$scratch/filed"
result 'it was filed with another library' eval "[[ \$out = *\"MANIFEST, and ${sum%% *} of this command\"* ]]"

# The comparison with plain Rust, over the same library. These answers fit no sample.
run env MENDUVO_LIB_DIR="$scratch" cargo run --offline --quiet --manifest-path bench/Cargo.toml --target-dir "$scratch/built" \
    -- --answers
result 'plain Rust answers otherwise, on every sample' test "$status, ${out##*$'\n'}" = '1, 0 passed, 16 failed'

# Unsafe code stands in one place.
run grep -rnE --include='*.rs' '\bunsafe\b' tool bindings examples
rest=$(grep -vE '^bindings/rust/src/(lib|library)\.rs:|forbid\(unsafe_code\)' <<<"$out")
result 'unsafe code is in library.rs alone' test -z "$rest"

finish
