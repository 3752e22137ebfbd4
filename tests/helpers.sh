# shellcheck shell=bash
# The tests of the command source this, in the root of the tree. It counts (counting.sh), makes a scratch folder, and runs the command.
. tests/counting.sh || exit
scratch=$(mktemp -d) || exit
trap 'rm -rf -- "$scratch"' EXIT
menduvo=$PWD/bin/menduvo
seen=$PATH # the PATH that the command sees
store=no   # yes: expected texts are written anew
[ "${1:-}" != --store ] || store=yes

# A solver's model of case A, as get-value gives it.
model='((v0 #x0000) (v1 #x0000) (v2 #x0000) (v3 #x0001) (v4 #x0002) (v5 #x0005)'
# shellcheck disable=SC2034 # the tests read it
model+=' (v6 #x0002) (v7 #x0000) (v8 #x0001) (v9 #x0005) (v10 #x0001) (v11 #x0005))'

# An assertion that only the text of case A has: record 5 stores 5.
# shellcheck disable=SC2034 # the tests read it
of_case_a='(assert (ite (= v8 #x0003) (= v9 #x0000) (= v9 #x0005)))'

# run COMMAND..: as in counting.sh, with the PATH that the command sees. The output stays in a file too, without the scratch
# folder's name.
run() {
    env PATH="$seen" timeout 60 "$@" >"$scratch/out" 2>&1 </dev/null
    status=$?
    sed -i "s|$scratch/||g" "$scratch/out"
    out=$(<"$scratch/out")
}

# same NAME STATUS COMMAND..: it ends with this status and prints what is stored under NAME.
same() {
    local name=$1 wanted=$2
    shift 2
    run "$@"
    matches "$name" "$wanted"
}

# matches NAME STATUS: the same, of what was run last.
matches() {
    local file=tests/command/$1.expected
    [ "$store" = no ] || cp -- "$scratch/out" "$file"
    result "$1" eval '[ "$status" = '"$2"' ] && cmp -s "$scratch/out" '"$file"
}

# says NAME STATUS TEXT COMMAND..: it ends with this status, and prints this text among others.
says() {
    local name=$1 wanted=$2 text=$3
    shift 3
    run "$@"
    result "$name" eval '[ "$status" = '"$wanted"' ] && [[ $out = *"$text"* ]]'
}

# fake NAME BODY: a program in the scratch folder's fakes. The command sees it where $seen begins with $scratch/fakes.
fake() {
    mkdir -p "$scratch/fakes"
    printf '#!%s\n%s\n' "$BASH" "$2" >"$scratch/fakes/$1" && chmod +x "$scratch/fakes/$1"
}

# bare TOOL..: make a folder for PATH with these tools alone, and those that every run needs.
bare() {
    local tool
    rm -rf "$scratch/bare" && mkdir "$scratch/bare"
    for tool in bash timeout readlink find cat "$@"; do ln -s "$(type -P "$tool")" "$scratch/bare/$tool"; done
}

# fields NUMBER..: the numbers as fields of a case, 16 bits each, low byte first.
fields() {
    local number bytes all=
    for number; do
        printf -v bytes '\\x%02x\\x%02x' $((number % 256)) $((number / 256))
        all+=$bytes
    done
    printf "$all"
}

# damaged FIELD NUMBER: case A with another number in this field, counted from 0; its name.
damaged() {
    cp cases/case-a.case "$scratch/damaged.case"
    fields "$2" | dd of="$scratch/damaged.case" bs=2 seek="$1" conv=notrunc status=none
}
