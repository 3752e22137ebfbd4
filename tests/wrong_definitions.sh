#!/usr/bin/env bash
# Wrong definitions that the theorems must refuse. Each edit of tests/wrong-definitions changes what
# a definition of crates/model means, and demand 3 must refuse it; each edit of tests/wrong-walks
# one of the walk that finds copies, and what is proved of lines that are handed on must; each edit
# of tests/wrong-texts one of crates/smt or crates/script, and what is proved of the text must. With
# the edit the definitions must still be proved, and the theorem must not be. A must-fail edit would
# not do: it is tried on its own crate alone, and here definition and theorem stand in two. The form
# is the same: a comment, the file, a text that it has exactly once, and the new text.
# The edits in not-refused and bad test this script: it must not take one of them for refused.
set -u
cd -- "$(dirname -- "${BASH_SOURCE[0]}")/.." || exit
. tests/counting.sh || exit
scratch=$(mktemp -d) || exit
trap 'rm -rf -- "$scratch"' EXIT
unedited=$scratch/unedited # a repository of what a theorem rests on, in which its edits are tried

# copy FROM TO PATH..: copy these, without what rt has made of them.
copy() {
    mkdir -p -- "$2" && tar -c --exclude=out -C "$1" -- "${@:3}" | tar -x -C "$2"
}

# fresh CRATE..: begin it anew, with copies of these crates.
fresh() {
    rm -rf -- "$unedited" && copy . "$unedited" "${@/#/crates/}"
}

# without CRATE/MODULE..: leave these modules of proofs out of it.
without() {
    local module proofs
    for module; do
        proofs=$unedited/crates/${module%/*}/proofs
        module=${module#*/}
        rm -- "$proofs/$module.antt" && sed -i "/^pub mod $module\$/d" "$proofs/Lib.antt" || return
    done
}

# joined CRATE OTHER: put a crate's modules among those of another. A lemma of it that is refused
# then shows what of the theorem falls with it, which the check of a crate above would not come to.
joined() {
    local part from=$unedited/crates/$1 to=$unedited/crates/$2
    for part in specs proofs; do
        cat -- "$from/$part/Lib.antt" >>"$to/$part/Lib.antt" && rm -- "$from/$part/Lib.antt" &&
            mv -n -- "$from/$part"/*.antt "$to/$part" && rmdir -- "$from/$part" || return
        find "$to" -name '*.antt' -exec sed -i \
            "s/Rattle\.$1\./Rattle.$2./" {} + || return
    done
    rm -r -- "$from"
}

# change FOLDER EDIT: make the edit there, or say that it cannot be made.
change() {
    local file old new text rest
    file=$1/$(sed -n 's/^file: //p' "$2")
    old=$(sed -n 's/^old: //p' "$2")
    new=$(sed -n 's/^new: //p' "$2")
    text=$(<"$file")
    rest=${text#*"$old"}
    if [ -z "$old" ] || [ "$rest" = "$text" ] || [[ $rest = *"$old"* ]]; then
        echo 'BAD EDIT: the file does not have the old text exactly once'
        return 1
    fi
    printf '%s\n' "${text%%"$old"*}$new$rest" >"$file"
}

# concluded: add a module to the crate that ends in the theorem. Of what rests on a declaration that is
# refused rt names the first few alone; here it tells whether the theorem is among them.
concluded() {
    local proofs=$unedited/crates/$crate/proofs
    echo 'pub mod Concluded' >>"$proofs/Lib.antt" && cat >"$proofs/Concluded.antt" <<EOF
use Rattle.$crate.proofs.${theorem%.*}.{${theorem#*.}}
use Rattle.$crate.specs.${statement%.*}.{${statement#*.}}

pub concluded : ${statement#*.}
concluded = ${theorem#*.}
EOF
}

# check FOLDER: check the crate there, and those below it. The log ends in rt's exit status.
check() {
    (cd "$1/crates/$crate" && rt check; echo "exit status $?") >"$1/log" 2>&1
}

# judge LOG: what the check came to, with the first declaration that is refused. For the theorem to
# have refused the edit, each error must be of a declaration in a proof, or of those that rest on one,
# none may come of a name or a clause that does not fit any more, and the theorem must be among what
# is not proved.
judge() {
    local in_proof='^\./proofs/[^:]*:[0-9]+:[0-9]+: error: (`[^`]+`( is not admitted)?: |[0-9]+ declarations? that depends? on `)'
    local unfit=' in scope|clause|pattern|has no `[^`]*` that can be named' errors ends
    errors=$(grep -E '^\./[^ ]*: error: ' "$1")
    ends=$(tail -n 2 "$1")
    if [[ $ends = logic=proved\ *$'\nexit status 0' ]]; then
        echo 'NOT REFUSED: all is proved'
    elif grep -q '^rt: the library [a-z_]* did not build, so nothing above it was checked$' "$1"; then
        echo 'BAD EDIT: the definitions are not proved'
    elif [ "$ends" != $'logic=not-proved\nexit status 1' ] ||
        grep -qvE "$in_proof" <<<"$errors" || grep -qE "$unfit" <<<"$errors"; then
        echo 'BAD EDIT: it is not a proof that fails'
    elif ! grep -q '^\./proofs/Concluded.antt:' <<<"$errors"; then
        echo 'NOT REFUSED: the theorem is not among what is refused'
    else
        sed -nE "/error: \`[^\`]+\`: / { s/^\.\/([^:]*):[^\`]*\`([^\`]+)\`.*/refused: \`\2\` of \1/p; q }" <<<"$errors"
    fi
}

# unchanged: without an edit the crate is proved. The checks of edits begin with what this one keeps.
unchanged() {
    check "$unedited"
    [[ $(judge "$unedited/log") = 'NOT REFUSED: all is proved' ]] || { cat -- "$unedited/log"; return 1; }
}

# verdict EDIT FOLDER: what the theorem says to the edit.
verdict() {
    copy "$unedited" "$2" crates crates.txt && change "$2/$files" "$1" || return
    check "$2"
    judge "$2/log"
    rm -rf -- "$2/crates"
}

# try FOLDER: each edit of it, against the `theorem` of `crate`, a proof of `statement`. An edit names
# its file from `files` on. As many at a time as there are processors, since each takes seconds.
try() {
    local edit edits=("$1"/*.edit "$1"/not-refused/*.edit "$1"/bad/*.edit) at wanted found
    concluded && unchanged || exit
    for edit in "${edits[@]}"; do
        [ "$(jobs -rp | wc -l)" -lt "${RT_JOBS:-$(nproc)}" ] || wait -n
        at=$scratch/$edit
        mkdir -p "$at" && verdict "$edit" "$at" >"$at/verdict" 2>&1 </dev/null &
    done
    wait

    for edit in "${edits[@]}"; do
        case ${edit#"$1/"} in
        not-refused/*) wanted='NOT REFUSED: ' ;;
        bad/*) wanted='BAD EDIT: ' ;;
        *) wanted='refused: ' ;;
        esac
        found=$(<"$scratch/$edit/verdict")
        echo "$edit: $found"
        result "$edit" test "$found" != "${found#"$wanted"}"
    done
}

# Case A and the worked examples are left out, and in the first part the laws on sizes and on rows as
# numbers: they too refuse many of the edits, and it is the theorem that must.
examples=(correspondence/{NoLines,EverySchedule,CaseA,CaseBytes,Examples,StopExamples,HolderExamples,StayExamples,FillExamples,Refusals,Conventions,Computing})

# ---- Demand 3.
fresh model laws correspondence && without "${examples[@]}" laws/{Sizes,RowNumbers,ForwardWalk,HandedOn} &&
    joined laws correspondence || exit
printf '%s\n' model: 'correspondence: model' >"$unedited/crates.txt"
files=crates/model crate=correspondence theorem=Demand3.demand_3 statement=Demand3.ForEveryAcceptedCase
try tests/wrong-definitions

# ---- The walk that finds copies.
fresh model laws || exit
printf '%s\n' model: 'laws: model' >"$unedited/crates.txt"
files=crates/model crate=laws theorem=HandedOn.every_line_lem statement=HandedOn.ForEveryLine
try tests/wrong-walks

# ---- The text of a case. No edit touches the model or demand 3, so these are proved once.
fresh model laws correspondence smt script reading script_truth &&
    without "${examples[@]}" {reading,script_truth}/Examples && joined reading script_truth || exit
printf '%s\n' model: 'smt: model' 'script: smt model' 'laws: model' 'correspondence: laws model' \
    'script_truth: correspondence script smt laws model' >"$unedited/crates.txt"
files=crates crate=script_truth theorem=Filed.every_text statement=Filed.ForEveryText
try tests/wrong-texts
finish
