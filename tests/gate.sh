#!/usr/bin/env bash
# Tests .ci/run: that its verdict is green where every step is, and red wherever one is not.
# It runs a copy of the gate in a scratch repository, where all commands are fakes. So it takes a
# second, proves nothing, installs nothing, and does not call itself.
set -u
cd -- "$(dirname -- "${BASH_SOURCE[0]}")/.." || exit
. tests/counting.sh || exit
scratch=$(mktemp -d) || exit
trap 'rm -rf -- "$scratch"' EXIT
bin=$scratch/bin repo=$scratch/repo

# fake FILE BODY: an executable script.
fake() {
    printf '#!%s\n%s\n' "$BASH" "$2" >"$1" && chmod +x "$1"
}

# Make the scratch repository anew, with commands that all do well. A variable, where a case sets
# it, says what a command does instead.
fresh() {
    rm -rf -- "$bin" "$repo"
    mkdir -p "$bin" "$repo/.ci" "$repo/bin" "$repo/tests"
    cp .ci/run "$repo/.ci/run"
    # The gate sees these and the fakes, and nothing else of the machine.
    for tool in bash dirname env ln mktemp rm sed tail tee; do
        ln -s "$(type -P "$tool")" "$bin/$tool"
    done
    fake "$bin/rt" 'case $1 in
        version) echo a fake ;;
        ci) [ $# = 1 ] && eval "${PROVE:-echo 3 passed, 0 failed}" ;;
        lib) eval "${LIBRARY:-}" ;;
    esac'
    fake "$repo/bin/library" 'rt lib'
    fake "$bin/cargo" 'case $1 in
        --version) echo a fake ;;
        clippy) eval "${CLIPPY:-}" ;;
        run) eval "${CARGO:-echo 08 passed, 00 failed}" ;;
    esac'
    fake "$bin/rustc" 'echo a fake'
    fake "$bin/apt-get" 'echo "${!#}" >>"${0%/*}/apt.log"; eval "${APT:-exit 100}"'
    local program
    for program in z3 cvc5 cvc4 boolector parallel xmllint make; do fake "$bin/$program" ''; done
    fake "$repo/tests/a.sh" 'eval "${TEST:-echo 2 passed, 0 failed}"'
    fake "$repo/tests/b.sh" 'echo 1 passed, 0 failed'
    echo 'echo this is no test; exit 1' >"$repo/tests/helper.sh"
    : >"$repo/tests/Cargo.toml"
    : >"$repo/crates.txt"
}

# gate [VAR=VALUE..]: run the copy with these variables. Sets out and status.
from=$repo run=.ci/run
gate() {
    out=$(cd "$from" && env -i CI=true PATH="$bin" TMPDIR="$scratch" "$@" "$BASH" "$run" <<<input 2>&1)
    status=$?
}

# ends STATUS LINES: the gate had this exit status, and these were its last lines.
ends() {
    [ "$status" = "$1" ] && [[ $out = *$'\n'"$2" ]]
}

says() {
    [[ $out = *"$1"* ]]
}

# red NAME STEP VERDICT [VAR=VALUE..]: with these variables the gate is red, STEP is the last of
# the failed steps that it lists, and VERDICT its last line.
red() {
    local name=$1 lines="  $2"$'\n'"$3"
    shift 3
    gate "$@"
    result "$name" ends 1 "$lines"
}

green='17 passed, 0 failed'
no_count="its last line is not 'N passed, M failed'"
# What rt ci says of must-fail edits on the line before its count.
edits_good='rt: ok; handles allowed: none; must-fail edits: 15 refused; every proof and must-fail edit was done in this run'
edits_bad='rt: ok; handles allowed: none; must-fail edits: 3 refused, 12 bad; every proof and must-fail edit was done in this run'
edits_limit='rt: ok; handles allowed: none; must-fail edits: 3 refused, 2 of them only by a limit, 1 bad; done in this run: 1 of the 2 proofs'

fresh
gate
result 'all is well' ends 0 "$green"
result 'nothing is installed where nothing is missing' test ! -e "$bin/apt.log"
result 'nothing is left behind' test "$(ls "$scratch")" = $'bin\nrepo'
from=/ run=$repo/.ci/run gate
result 'it runs from any folder' ends 0 "$green"
gate PROVE='read -r || echo 3 passed, 0 failed'
result 'a step has no input' ends 0 "$green"

red 'rt ci fails' \
    'rt ci: 1 failed' '16 passed, 1 failed' PROVE='echo 2 passed, 1 failed; exit 1'
red 'rt ci fails, with exit status 0' \
    'rt ci: 1 failed' '16 passed, 1 failed' PROVE='echo 2 passed, 1 failed'
red 'rt ci prints garbage' \
    "rt ci: $no_count (exit status 0)" '14 passed, 1 failed' PROVE='echo all proved'
red 'rt ci prints nothing' \
    "rt ci: $no_count (exit status 0)" '14 passed, 1 failed' PROVE=true
red 'rt ci goes on after its count' \
    "rt ci: $no_count (exit status 0)" '14 passed, 1 failed' PROVE='echo 3 passed, 0 failed; echo >&2'
red 'rt ci has more before its count' \
    "rt ci: $no_count (exit status 0)" '14 passed, 1 failed' PROVE='echo 13 passed, 3 passed, 0 failed'
red 'rt ci has more after its count' \
    "rt ci: $no_count (exit status 0)" '14 passed, 1 failed' PROVE='echo 3 passed, 0 failed, 1 unknown'
red 'rt ci has a count that wraps to zero' \
    "rt ci: $no_count (exit status 0)" '14 passed, 1 failed' PROVE='echo 3 passed, 18446744073709551616 failed'
red 'rt ci runs nothing' \
    'rt ci: it ran nothing' '14 passed, 1 failed' PROVE='echo 0 passed, 0 failed'
red 'rt ci has a green line and exit status 1' \
    'rt ci: exit status 1' '14 passed, 1 failed' PROVE='echo 3 passed, 0 failed; exit 1'
red 'rt ci has bad edits' \
    'rt ci: bad must-fail edits: 12' '17 passed, 1 failed' PROVE="echo '$edits_bad'; echo 3 passed, 0 failed"
red 'rt ci has bad edits, and others that only a limit refused' \
    'rt ci: bad must-fail edits: 1' '17 passed, 1 failed' PROVE="echo '$edits_limit'; echo 3 passed, 0 failed"
red 'rt ci fails and has bad edits' \
    'rt ci: 1 failed' '16 passed, 1 failed' PROVE="echo '$edits_bad'; echo 2 passed, 1 failed; exit 1"
gate PROVE="echo '$edits_good'; echo 3 passed, 0 failed"
result 'rt ci has no bad edits' ends 0 "$green"
red 'bin/library fails' \
    'bin/library: exit status 1' '16 passed, 1 failed' LIBRARY='exit 1'
red 'a test fails' \
    'tests/a.sh: 1 failed' '16 passed, 1 failed' TEST='echo 1 passed, 1 failed; exit 1'
red 'a test prints no count' \
    "tests/a.sh: $no_count (exit status 0)" '15 passed, 1 failed' TEST='echo fine'
red 'the tests in Rust fail' \
    'tests/Cargo.toml: exit status 101' '9 passed, 1 failed' CARGO='echo 8 passed, 0 failed; exit 101'
red 'two steps fail' \
    $'bin/library: exit status 1\n  tests/a.sh: 2 failed' '14 passed, 3 failed' \
    LIBRARY='exit 1' TEST='echo 0 passed, 2 failed'

# Where the gate gets no further, a count that a step printed must not stand as its verdict.
red 'the gate is stopped' \
    'the gate stopped before its end' '2 passed, 1 failed' PROVE='kill -TERM $PPID; echo 3 passed, 0 failed'
gate PROVE='echo 3 passed, 0 failed; kill -KILL $PPID'
result 'the gate is killed' test "$status" = 137
result 'a killed gate gives no verdict' test "$(grep -c '^[0-9]' <<<"$out")" = 0

# What apt-get does where it installs what it is asked for. xmllint's package has another name.
installs='case ${!#} in update) ;; libxml2-utils) ln -s rustc "${0%/*}/xmllint" ;; *) ln -s rustc "${0%/*}/${!#}" ;; esac'
fresh && rm "$bin/z3" "$bin/cvc5"
red 'an install fails' \
    'programs: exit status 1' '16 passed, 1 failed' APT="[ \"\${!#}\" != cvc5 ] && $installs"
result 'the command and its package are named' says 'could not install: cvc5 (package cvc5)'
red 'an install brings no command' \
    'programs: exit status 1' '16 passed, 1 failed' APT=true
fresh && rm "$bin/z3" "$bin/cvc5" "$bin/cvc4" "$bin/boolector" "$bin/parallel" "$bin/xmllint"
gate APT="$installs"
result 'what is missing is installed' ends 0 "$green"
result 'the lists are updated once' test "$(<"$bin/apt.log")" = $'update\nz3\ncvc5\ncvc4\nboolector\nparallel\nlibxml2-utils'
fresh && rm "$bin/cvc4" "$bin/boolector"
gate
result 'the gate does without two of the solvers' ends 0 "$green"
result 'and says so' eval 'says "could not install: cvc4 (package cvc4)" && says "could not install: boolector (package boolector)"'
fresh && rm "$bin/xmllint"
red 'a package without the command' \
    'programs: exit status 1' '16 passed, 1 failed' APT='[ "${!#}" = update ] || ln -s rustc "${0%/*}/${!#}"'

fresh && rm "$bin/rt"
red 'rt is missing' 'bin/library: exit status 127' '12 passed, 3 failed'
result 'rt is named' says 'missing, or does not run: rt'
fresh && rm "$bin/cargo"
red 'cargo is missing' "tests/Cargo.toml: $no_count (exit status 127)" '8 passed, 2 failed'
fresh
red 'clippy is missing' 'toolchain: exit status 1' '16 passed, 1 failed' CLIPPY='exit 101'
result 'clippy is named' says 'missing, or does not run: cargo clippy'
fresh && rm "$repo/crates.txt"
red 'crates.txt is missing' 'toolchain: exit status 1' '16 passed, 1 failed'
fresh && chmod -x "$repo"/tests/*.sh
red 'no test is executable' 'tests/*.sh: no test script to run: exit status 1' '14 passed, 1 failed'

finish
