#!/usr/bin/env bash
# Runs every example in the documents, each document's in a folder of its own beside bin, cases and what else they name, from its
# first to its last. What a fenced block is, stands behind its fence:
#   console     commands after '$ ', and what they print; a line '..' stands for any lines, '..' in a line for anything
#   sh          a script that another test runs, of README.md (tests/install.sh) or docs/PARALLEL.md (tests/scripts.sh)
#   NAME.END    a file of this name
#   text        nothing that is run: a grammar, a list
# A command may end with exit status 0 or 1, which is a violation found; one before which the document says 'refused' with 2.
# Then the builders of examples/, in C and in Rust: both say the same, which is the 4s and 6s of the listing of what they build.
set -u
cd -- "$(dirname -- "${BASH_SOURCE[0]}")/.." || exit
. tests/counting.sh || exit
root=$PWD
scratch=$(mktemp -d) || exit
trap 'rm -rf -- "$scratch"' EXIT

# alike: whether the lines of $out are those of the array expected.
alike() {
    local lines=() line pattern gap=no next=0 found
    mapfile -t lines <<<"$out"
    [ "${#expected[@]}" -gt 0 ] || return 0
    for line in "${expected[@]}"; do
        [ "$line" != .. ] || { gap=yes; continue; }
        pattern=${line//\\/\\\\} pattern=${pattern//\*/\\*} pattern=${pattern//\?/\\?} pattern=${pattern//\[/\\[}
        pattern=${pattern//../*}
        found=no
        while [ "$next" -lt "${#lines[@]}" ] && [ "$found" = no ]; do
            # shellcheck disable=SC2053 # the right side is a pattern
            [[ ${lines[next]} == $pattern ]] && found=yes
            next=$((next + 1))
            [ "$gap" = yes ] || break
        done
        [ "$found" = yes ] || return
        gap=no
    done
    [ "$gap" = yes ] || [ "$next" = "${#lines[@]}" ]
}

# The command of a console that was read last, if there is one: it is run, and compared.
performed() {
    [ -n "$command" ] || return 0
    run bash -c "$command"
    result "$document: $command" eval '[ "$status" -le "$most" ] && alike'
    command=
}

# ended: the block that was read is done.
ended() {
    local line
    case $sort in
    console)
        command=
        for line in "${body[@]}"; do
            if [[ $command = *\\ ]]; then
                command+=$'\n'$line
            elif [[ $line = '$ '* ]]; then
                performed
                command=${line#'$ '} expected=()
            else
                expected+=("$line")
            fi
        done
        performed
        ;;
    sh) result "$document:$start: a script that another test runs" eval '[[ " README.md docs/PARALLEL.md " = *" $document "* ]]' ;;
    *.*)
        printf '%s\n' "${body[@]}" >"$sort"
        result "$document:$start: the file $sort" test -s "$sort"
        ;;
    *) result "$document:$start: of which sort is this block?" test "$sort" = text ;;
    esac
}

# examples DOCUMENT: all of them, in order.
examples() {
    local document=$1 line sort='' start=0 number=0 most=1 body=() expected=() command='' blocks=0
    mkdir -p "$scratch/$document" && cd "$scratch/$document" || exit
    ln -s "$root"/{bin,bench,bindings,examples,target,Makefile} . 2>/dev/null
    cp -r "$root/cases" .
    while IFS= read -r line; do
        number=$((number + 1))
        case $sort,$line in
        ,'```'*) sort=${line#'```'} sort=${sort:-nothing} start=$number body=() blocks=$((blocks + 1)) ;;
        ?*,'```') ended && sort='' most=1 ;;
        ,*refused*) most=2 ;;
        ,?*) most=1 ;;
        ?*,*) body+=("$line") ;;
        esac
    done <"$root/$document"
    cd "$root" || exit
    [ -z "$sort" ] || result "$document: its last block has an end" false
    all=$((all + blocks))
}

# builders: what they print, held to the listing of the case that they write.
builders() {
    local library=${MENDUVO_LIB_DIR:-target/staticlib} language wanted
    run cc -std=c99 -pedantic -Wall -Wextra -Werror -Ibindings examples/c/build.c "$library/libmenduvo.a" -o "$scratch/builder-c"
    result 'the builder in C compiles, with nothing to warn of' test "$status" = 0
    run cargo build --offline --locked --quiet --manifest-path examples/rust/Cargo.toml --target-dir target/examples
    result 'the builder in Rust compiles' test "$status" = 0
    cp target/examples/debug/builder "$scratch/builder-rust"
    for language in c rust; do
        run "$scratch/builder-$language" "$scratch/$language.case"
        result "the builder, $language: it builds a case" test "$status" = 0
        printf '%s\n' "$out" >"$scratch/$language.out"
        run bin/menduvo list "$scratch/$language.case"
        result "the builder, $language: the case is accepted" test "$status" = 0
        result "the builder, $language: its lines are the 4s" cmp -s <(grep '^4 ' <<<"$out") <(grep '^4 ' "$scratch/$language.out")
        # Thread t has block t, whose 6s have the last copies item by item.
        wanted=$(awk '$1 == 6 { last[$3] = last[$3] " " $4 } END { print last[0] "\n" last[1] }' <<<"$out")
        run sed -n 's/^held for the items://p' "$scratch/$language.out"
        result "the builder, $language: what is held are the last copies" test "$out" = "$wanted"
        run "$scratch/builder-$language"
        result "the builder, $language: without a file" test "$status, $out" = '3, builder: usage: builder CASE'
        run "$scratch/builder-$language" "$scratch/none/built.case"
        result "the builder, $language: a file that cannot be written" \
            eval '[ "$status" = 3 ] && [[ $out = *"builder: "*": No such file"* ]]'
    done
    result 'the builders print the same' cmp -s "$scratch/c.out" "$scratch/rust.out"
    result 'the builders build the same' cmp -s "$scratch/c.case" "$scratch/rust.case"
}

all=0
for document in README.md docs/*.md cases/*.md; do examples "$document"; done
result 'the documents have examples' test "$all" -gt 20
builders
finish
