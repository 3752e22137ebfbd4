#!/usr/bin/env bash
# Tests 'make install' and 'make uninstall' in a scratch folder: which files there are, that the installed command works alone
# and names its commit, the manual page, the completion, and the examples with the lines of README.md; places with blanks, staged
# and relative ones, and those that cannot be written. When it builds is tested in a scratch tree with a fake cargo and bin/menduvo.
set -u
cd -- "$(dirname -- "${BASH_SOURCE[0]}")/.." || exit
. tests/helpers.sh || exit
unset PREFIX DESTDIR MAKEFLAGS MENDUVO_COMMIT MENDUVO_BUILD_COMMIT PKG_CONFIG_PATH
[ -z "${MENDUVO_LIB_DIR:-}" ] || MENDUVO_LIB_DIR=$(readlink -e -- "$MENDUVO_LIB_DIR")
library=${MENDUVO_LIB_DIR:-$PWD/target/staticlib}/libmenduvo.a
home=$scratch/home prefix=$scratch/home/.local installed=$scratch/home/.local/bin/menduvo
files='bin/menduvo include/menduvo.h lib/libmenduvo.a lib/pkgconfig/menduvo.pc'
files+=' share/bash-completion/completions/menduvo share/doc/menduvo/FILING.md share/doc/menduvo/SMT-TEXT.md'
files+=' share/doc/menduvo/SOURCE.md share/doc/menduvo/output.schema.json share/man/man1/menduvo.1'

# there FOLDER: the files in it, in one line.
there() {
    (cd -- "$1" && find . ! -type d -printf '%P\n' | LC_ALL=C sort | paste -sd ' ')
}

# block HEAD: the commands that stand first under this head of README.md.
block() {
    awk -v head="## $1" '$0 == head { on = 1 } on && /^```/ { if (fenced) exit; fenced = 1; next } on && fenced' README.md
}

# readme LINE: run a line of README.md in a folder beside what it names, with another home.
readme() {
    run env HOME="$home" CARGO_HOME="${CARGO_HOME:-$HOME/.cargo}" RUSTUP_HOME="${RUSTUP_HOME:-$HOME/.rustup}" \
        CARGO_TARGET_DIR="$PWD/target/examples" PKG_CONFIG_PATH="$prefix/lib/pkgconfig" \
        bash -c "cd -- '$place' && $1"
}

installing() {
    # Not by run, which ends what takes a minute.
    make >"$scratch/out" 2>&1
    status=$? out=$(<"$scratch/out")
    result 'make builds' test "$status" = 0
    [ "$status" = 0 ] || { finish; exit; }
    run bin/menduvo --version
    version=$out
    result 'the builds of bin/menduvo are as they were' eval '[ "$status" = 0 ] && [[ $out != *$'"'\n'"'* ]]'
    place=$PWD
    result 'README.md has one line that installs' test "$(block Install | wc -l)" = 1
    fake cargo 'exit 1'
    seen=$scratch/fakes:$PATH readme "$(block Install)"
    result 'it installs what is built, and builds nothing' test "$status" = 0
    result 'it installs these files' test "$(there "$home/.local")" = "$files"
    result 'with these rights' test "$(find "$prefix" -type f -printf '%m\n' | sort | paste -sd ' ')" = '644 644 644 644 644 644 644 644 644 755'
    result 'the library' cmp -s "$library" "$prefix/lib/libmenduvo.a"
    result 'the header' cmp -s bindings/menduvo.h "$prefix/include/menduvo.h"
    local document
    for document in $({ "$installed" help; for page in $("$installed" help | awk '/^  [a-z]/ { print $1 }'); do
        "$installed" help "$page"; done; } 2>/dev/null | grep -oE '\bdocs/[A-Za-z.]+[a-z]' | sort -u); do
        result "$document, which the help names" cmp -s "$document" "$prefix/share/doc/menduvo/${document#docs/}"
    done
}

# The command without its tree, and without what bin/menduvo tells.
alone() {
    local sum
    sum=$(sha256sum <"$prefix/lib/libmenduvo.a")
    cd "$scratch" || exit
    run env -i PATH="$PATH" "$installed" --version
    result 'its version is that of bin/menduvo' test "$status, $out" = "0, $version"
    result 'it names the installed library' eval "[[ \$out = *', library SHA-256 ${sum%% *})' ]]"
    run env MENDUVO_COMMIT=x "$installed" --version
    result 'whatever the caller was told' test "$out" = "$version"
    cd - >/dev/null || exit
    says 'the demo' 0 'violated: record' env -i PATH="$PATH" "$installed" demo
    run "$installed" list cases/case-a.case
    result 'a list' cmp -s "$scratch/out" tests/command/list-case-a.expected
    run env -i PATH="$PATH" "$installed" file cases/case-a.case "$scratch/filed" --solver-command 'echo unknown'
    commit=${version#*(commit } && commit=${commit%, library *}
    result 'a filed folder names the commit' grep -qxF "# commit: $commit" "$scratch/filed/MANIFEST"
    run "$installed" verify "$scratch/filed"
    result 'and is verified by it' eval '[ "$status" = 0 ] && [[ $out != *"of this command"* ]]'
}

package() {
    local pc=$prefix/lib/pkgconfig/menduvo.pc number=${version#menduvo } && number=${number%% *}
    result 'menduvo.pc: the prefix' grep -qxF "prefix=$prefix" "$pc"
    result 'menduvo.pc: the version' grep -qxF "Version: $number" "$pc"
    result 'menduvo.pc: nothing is left to be filled in' eval "! grep -q @ '$pc'"
    type -P pkg-config >/dev/null || { echo 'pkg-config is not installed; its tests are left out'; return; }
    run env PKG_CONFIG_PATH="$prefix/lib/pkgconfig" pkg-config --modversion menduvo
    result 'pkg-config: the version' test "$out" = "$number"
    run env PKG_CONFIG_PATH="$prefix/lib/pkgconfig" pkg-config --cflags --libs menduvo
    result 'pkg-config: the flags' test "${out% }" = '-Ihome/.local/include -Lhome/.local/lib -lmenduvo'
}

# Every command and option that the help has is in the manual page, as text that roff prints as it stands.
manual() {
    local page=$prefix/share/man/man1/menduvo.1 command option
    for command in $(commands); do
        result "the manual has $command" grep -q "^\\.SS \\\\fBmenduvo $command\\\\fR" "$page"
        for option in $(options "$command"); do
            option=${option//-/\\-}
            result "the manual has $command $option" eval \
                'sed -n "/^\.SS .fBmenduvo $command.fR/,/^\.S/p" "$page" | grep -qF "\\fB$option\\fR"'
        done
    done
    result 'the manual has files and statuses' test "$(grep -cE '^\.SH (NAME|SYNOPSIS|COMMANDS|FILES|EXIT STATUS)$' "$page")" = 5
    result 'no other request' eval "! grep '^[.'\\'']' '$page' | grep -qvE '^\\.(TH|SH|SS|TP|PP|nf|fi)\\b'"
    type -P groff >/dev/null || { echo 'groff is not installed; its test is left out'; return; }
    run groff -man -ww -Tascii -rLL=80n -z "$page"
    result 'groff has nothing to warn of' test "$status, $out" = '0, '
}

# The commands, and the options of one, as the help has them.
commands() {
    "$installed" help | sed -n '/^Commands:/,/^$/s/^  \([a-z]*\) .*/\1/p'
}
options() {
    "$installed" help "$1" | sed -n '/^Options:/,/^$/s/^  \(-[^ ]*\).*/\1/p'
}

# offers NAME WANTED WORD..: at the last of these words, the completion offers this.
offers() {
    local name=$1 wanted=$2
    shift 2
    # shellcheck disable=SC2016 # the inner shell expands it
    run bash -c '. "$1" && shift && COMP_WORDS=("$@") COMP_CWORD=$(($# - 1)) && _menduvo && echo "${COMPREPLY[*]}"' bash \
        "$prefix/share/bash-completion/completions/menduvo" "$@"
    result "the completion: $name" test "$status, $out" = "0, $wanted"
}

completion() {
    local command all
    all=$(commands | paste -sd ' ')
    offers 'commands' "$all --help --version" menduvo ''
    offers 'a command that was begun' 'solve' menduvo sol
    for command in $all; do
        offers "options of $command" "$(options "$command" | paste -sd ' ' | sed 's/..*/& /')--help" menduvo "$command" a -
    done
    offers 'an option that was begun' '--solver --solver-command' menduvo solve a.case --sol
    offers 'an option without a begin' '' menduvo show a.case ''
    offers 'solvers' 'z3 cvc5 both' menduvo solve --solver ''
    offers 'a solver that was begun' 'cvc5' menduvo verify filed --solver c
    offers 'solvers after =' 'z3 cvc5 both' menduvo file --solver =
    offers 'a solver after =' 'both' menduvo solve a.case --solver = b
    offers 'a value that is not known' '' menduvo solve a.case --keep ''
    offers 'after --' '' menduvo solve -- -
    offers 'commands to help with' 'replay' menduvo help r
    offers 'no such command' '' menduvo nothing -
    run bash -c '. "$1" && complete -p menduvo' bash "$prefix/share/bash-completion/completions/menduvo"
    result 'the completion: else files' test "$out" = 'complete -o default -F _menduvo menduvo'
}

# The lines of README.md, in a folder where nothing else is, and both examples on the same input.
examples() {
    local line lines=0 program arguments
    place=$scratch/used
    mkdir "$place" && ln -s "$PWD"/{examples,bindings,cases} "$place/"
    cp cases/case-a.case "$scratch/cut.case" && truncate -s -1 "$scratch/cut.case"
    while read -r line; do
        case $line in
            *pkg-config*) type -P pkg-config >/dev/null || continue ;;
        esac
        lines=$((lines + 1))
        : >"$scratch/before" && sleep 0.02
        readme "$line"
        case $line in
            cc*) result "README.md: $line" eval '[ "$status" = 0 ] && [ "$place/replay" -nt "$scratch/before" ]' ;;
            *' 2 1 2') result "README.md: $line" eval '[ "$status" = 1 ] && [[ $out = *"violated: record 4 is a zero assert" ]]' ;;
            *) result "README.md: $line" test "$status" = 0 ;;
        esac
    done < <(block 'From C and Rust')
    result 'README.md: some lines' test "$lines" -ge 3
    run cc -std=c99 -pedantic -Wall -Wextra -Werror -I"$prefix/include" examples/c/replay.c -L"$prefix/lib" -lmenduvo \
        -o "$place/c"
    result 'the example in C has nothing to warn of' test "$status" = 0
    while read -r status_wanted arguments; do
        for program in "$place/c" target/examples/debug/replay; do
            # Each of the two has its own order of what goes to the two outputs.
            # shellcheck disable=SC2016,SC2086 # the inner shell expands it; several arguments
            run bash -c '"$@" 2>"$0"; code=$?; cat "$0"; exit "$code"' "$scratch/errors" "$program" $arguments
            sed -i 's/ (os error [0-9]*)$//' "$scratch/out"
            result "${program##*/} $arguments: the status" test "$status" = "$status_wanted"
            mv "$scratch/out" "$scratch/out.${program##*/}"
        done
        result "replay $arguments: the same in C and in Rust" cmp -s "$scratch/out.c" "$scratch/out.replay"
        result "replay $arguments: it says something" test -s "$scratch/out.c"
    done <<CALLS
1 cases/case-a.case 2 1 2
0 cases/case-a.case 4 1 0
1 cases/release-broken.case 2 5 0
0 cases/release.case 2 5 4 4 0 0
0 cases/lock-order.case $(sed 1d cases/lock-order.schedule | tr '\n' ' ')
2 cases/case-a.case 2 1 3
2 cases/case-a.case
2 $scratch/cut.case 2 1 2
3 $scratch/none.case 2 1 2
3 cases/case-a.case 2 1 x
3 cases/case-a.case 2 1 65536
3
CALLS
}

places() {
    local stage=$scratch/stage relative
    echo old >"$prefix/bin/menduvo" && echo other >"$prefix/lib/other"
    says 'once more over it' 0 "installed " make install PREFIX="$prefix"
    run "$installed" --version
    result 'an old file is replaced' test "$out" = "$version"
    says 'a place with blanks' 0 'installed a  place/it'\''s here/bin/menduvo' make install PREFIX="$scratch/a  place/it's here/"
    result 'its files' test "$(there "$scratch/a  place/it's here")" = "$files"
    result 'its prefix' grep -qxF "prefix=$scratch/a  place/it's here" "$scratch/a  place/it's here/lib/pkgconfig/menduvo.pc"
    says 'it is removed' 0 'removed ' make uninstall PREFIX="$scratch/a  place/it's here"
    result 'nothing is left of it' test -z "$(there "$scratch/a  place/it's here")"
    # The place after the stage is in the scratch folder too: should the stage be forgotten, no other folder is touched.
    says 'a stage' 0 "installed stage" make install DESTDIR="$stage" PREFIX="$scratch/final"
    result 'its files are in the stage' test "$(there "$stage$scratch/final")" = "$files"
    result 'and nowhere else' test ! -e "$scratch/final"
    result 'they name the place after it' grep -qxF "prefix=$scratch/final" "$stage$scratch/final/lib/pkgconfig/menduvo.pc"
    says 'they are removed from the stage' 0 'removed ' make uninstall DESTDIR="$stage" PREFIX="$scratch/final"
    result 'nothing is left in the stage' test -z "$(there "$stage")"
    relative=$(realpath --relative-to=. "$scratch")/relative
    run make install PREFIX="$relative"
    result 'a relative place' eval '[ "$status" = 0 ] && [ "$(there "$scratch/relative")" = "$files" ]'
    result 'menduvo.pc has it from the root' grep -q '^prefix=/.*/relative$' "$scratch/relative/lib/pkgconfig/menduvo.pc"
    : >"$scratch/plain"
    says 'a place that cannot be written' 2 "plain" make install PREFIX="$scratch/plain/in"
    # With a stage, which holds what would be written all the same.
    says 'no place' 2 'PREFIX is empty' make install DESTDIR="$stage/none" PREFIX=
    # shellcheck disable=SC2088 # it is not to be expanded
    says 'a tilde' 2 'write $HOME' make install DESTDIR="$stage/none" PREFIX='~/x'
    says 'a quote' 2 'a sign that menduvo.pc cannot hold' make install DESTDIR="$stage/none" PREFIX='/a"b'
    says 'a number sign' 2 'a sign that menduvo.pc cannot hold' make install DESTDIR="$stage/none" PREFIX='/a#b'
    says 'a dollar' 2 'a sign that menduvo.pc cannot hold' make install DESTDIR="$stage/none" PREFIX='/a$$b'
    result 'nothing is written there' test ! -e "$stage/none"
}

removing() {
    says 'it is removed' 0 "removed home/.local/bin/menduvo" make uninstall PREFIX="$prefix"
    result 'and nothing else' test "$(there "$prefix")" = lib/other
    run make uninstall PREFIX="$prefix"
    result 'there is nothing to remove' test "$status, $out" = '0, '
    run make uninstall PREFIX="$scratch/never"
    result 'nothing was there' eval '[ "$status, $out" = "0, " ] && [ ! -e "$scratch/never" ]'
}

# builds NAME CALLS TEXT: in the scratch tree make starts these, and installs a command that says this.
builds() {
    local name=$1 calls=$2 text=$3
    : >"$scratch/calls"
    seen=$scratch/fakes:$PATH run make -C "$tree" install PREFIX="$tree/out"
    result "$name" test "$status, $(<"$scratch/calls"), $("$tree/out/bin/menduvo")" = "0, $calls, $text"
}

# When it builds. The fakes: bin/menduvo prints the version in a file, and cargo makes a command of what it was given.
building() {
    local tree="$scratch/a tree" name
    mkdir -p "$tree"/{bin,tool,cases,target/staticlib,by\ hand} && cp -r Makefile bindings docs "$tree/"
    echo one >"$tree/tool/main.rs" && echo tree >"$tree/target/staticlib/libmenduvo.a" && echo hand >"$tree/by hand/libmenduvo.a"
    echo 'menduvo 0.1.0 (commit abc with changes, library SHA-256 1)' >"$tree/version"
    fake menduvo 'cat version' && mv "$scratch/fakes/menduvo" "$tree/bin/"
    fake cargo 'echo cargo >>"${0%/fakes/*}/calls"; [ ! -e broken ] || exit 1
while [ "$1" != --target-dir ]; do shift; done; mkdir -p "$2/release"
echo "echo $(cat tool/main.rs) of $MENDUVO_BUILD_COMMIT with $(cat "$MENDUVO_LIB_DIR/libmenduvo.a")" >"$2/release/menduvo"
chmod +x "$2/release/menduvo"'
    local by_hand=${MENDUVO_LIB_DIR:-}
    unset MENDUVO_LIB_DIR
    builds 'it builds, with the commit' cargo 'one of abc with changes with tree'
    builds 'nothing changed' '' 'one of abc with changes with tree'
    sed -i 's/abc with changes/def/' "$tree/version"
    builds 'there is another commit' cargo 'one of def with tree'
    echo two >"$tree/tool/main.rs" && touch -d 2001-01-01 "$tree/tool/main.rs"
    builds 'a source changed, with an old date' cargo 'two of def with tree'
    mkdir "$tree/tool/target" && : >"$tree/tool/target/file"
    builds 'what cargo leaves beside the sources is no source' '' 'two of def with tree'
    sed -i 's/SHA-256 1/SHA-256 2/' "$tree/version"
    MENDUVO_LIB_DIR="by hand" builds 'a library by hand' cargo 'two of def with hand'
    result 'it is installed' cmp -s "$tree/by hand/libmenduvo.a" "$tree/out/lib/libmenduvo.a"
    echo three >"$tree/tool/main.rs" && : >"$tree/broken"
    : >"$scratch/calls"
    seen=$scratch/fakes:$PATH run make -C "$tree" install PREFIX="$tree/out"
    result 'a build fails, and nothing is installed' test "$status, $("$tree/out/bin/menduvo")" = '2, two of def with hand'
    rm "$tree/broken"
    builds 'it is not forgotten' cargo 'three of def with tree'
    for name in install uninstall; do
        says "$name in the tree itself" 2 'PREFIX is this tree' env PATH="$scratch/fakes:$PATH" make -C "$tree" "$name" PREFIX=.
        result "$name: bin/menduvo is as it was" grep -qx 'cat version' "$tree/bin/menduvo"
    done
    [ -z "$by_hand" ] || export MENDUVO_LIB_DIR=$by_hand
}

installing
alone
package
manual
completion
examples
places
removing
building
finish
