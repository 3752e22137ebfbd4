#!/usr/bin/env bash
# Tests bin/menduvo, the script that builds the command and runs it: when it builds, and that it does not where a built tree was
# moved or copied; two calls at once; a library by hand; how it may be called, and from where. It runs a copy of the script in a
# scratch tree, where rt and cargo are fakes that note their calls, and at the end the real command in a copy of this tree.
set -u
cd -- "$(dirname -- "${BASH_SOURCE[0]}")/.." || exit
. tests/helpers.sh || exit
# What a test left waiting ends first.
trap 'touch "$scratch/go"; wait; chmod -R u+w "$scratch"; rm -rf -- "$scratch"' EXIT
by_hand=${MENDUVO_LIB_DIR:-} # for the real command
unset MENDUVO_LIB_DIR MENDUVO_COMMIT "${!GIT_@}"
tree="$scratch/a tree" menduvo="$scratch/a tree/bin/menduvo"

# Three PATHs: for a call where nothing changed; for one that looks at contents, too; and for one that builds.
quick=$scratch/quick
bare env && mv "$scratch/bare" "$quick"
bare chmod date dirname env flock mkdir mv rm sha256sum sleep sort
slow=$scratch/bare
whole=$slow:$scratch/fakes

# Each fake makes its product of the sources as they are when it starts. Where the file 'wait' names it, it has half of it until
# there is a file 'go'. As the real one may in a copy of a tree, cargo trusts what it finds of an earlier build. The command is a
# script that prints what it was made of. Time goes on after each step, as what changes in the moment of a build is looked at twice.
fake common 'scratch=${BASH_SOURCE[0]%/fakes/*}
begin() {
    echo "$1" >>"$scratch/calls"
    for fd in /proc/$$/fd/*; do [ ! "$fd" -ef target/menduvo/lock ] || echo "$1 has the lock" >>"$scratch/calls"; done
}
pause() {
    [ -e "$scratch/wait" ] && [ "$(<"$scratch/wait")" = "$1" ] || return 0
    : >"$scratch/half"
    while [ -e "$scratch/half" ] && [ ! -e "$scratch/go" ]; do sleep 0.01; done
}'
fake rt '. "${0%/*}/common"
[ "$* ${PWD##*/}" = "lib menduvo_c" ] && cd ../.. || exit
begin rt; text=$(cat crates/*.rt); made=crates/menduvo_c/out/libmenduvo_c.a; echo half >"$made"; pause rt
echo "$text" >"$made"; sleep 0.02; [ ! -e broken ]'
fake cp "$(type -P cp)"' "$@" && sleep 0.02'
fake cargo '. "${0%/*}/common"
begin cargo; while [ "$1" != --target-dir ]; do shift; done
mkdir -p "$2/release"; made=$2/release/menduvo; [ ! -e "$made" ] || exit 0
text="$(cat tool/main.rs) $(cat "$MENDUVO_LIB_DIR/libmenduvo.a")"
printf "#!%s\n" "$BASH" >"$made"; chmod +x "$made"; pause cargo
printf "%s\n" "echo \"it is $text$MENDUVO_BUILD_COMMIT\${MENDUVO_COMMIT+, \$MENDUVO_COMMIT}\"" \
    "for fd in /proc/\$\$/fd/*; do [ ! \"\$fd\" -ef \"$PWD/$2/lock\" ] || echo it has the lock; done" >>"$made"; sleep 0.02'

# Make the scratch tree anew. The folder out is there, as after an earlier build: where rt makes it, a folder of sources changes.
plant() {
    rm -rf "$tree" "$scratch"/{wait,half,go}
    mkdir -p "$tree"/{bin,crates/menduvo_c/out,tool,bindings,cases}
    cp bin/menduvo bin/library "$tree/bin/"
    touch "$tree"/{crates.txt,tool/Cargo.toml,bindings/lib.rs} "$tree"/cases/lost-update.{source,assignment}
    echo red >"$tree/tool/main.rs"
    echo round >"$tree/crates/lib.rt"
    : >"$scratch/calls"
    sleep 0.02
}

# The same, and build it.
plant_built() {
    plant
    seen=$whole run "$menduvo"
}

# runs NAME PATH CALLS TEXT COMMAND..: it ends well, the last line is this text, and it started these of rt and cargo. If none,
# nothing else is printed.
runs() {
    local name=$1 seen=$2 calls=$3 text=$4
    shift 4
    : >"$scratch/calls"
    run "$@"
    result "$name" ran "$calls" "$text"
}

ran() {
    [ "$status" = 0 ] && [ "$(paste -sd' ' "$scratch/calls")" = "$1" ] && [ "${out##*$'\n'}" = "$2" ] &&
        { [ -n "$1" ] || [ "$out" = "$2" ]; }
}

# await COMMAND..: until it does well, at most ten seconds.
await() {
    local i
    for ((i = 0; i < 1000; i++)); do
        "$@" 2>/dev/null && return
        sleep 0.01
    done
    return 1
}

building() {
    local seen=$slow
    plant
    says 'rt is missing' 3 'rt is not installed' "$menduvo"
    mkdir -p "$scratch/rt" && cp "$scratch"/fakes/{rt,common,cp} "$scratch/rt/"
    seen=$slow:$scratch/rt says 'cargo is missing' 3 'cargo is not installed' "$menduvo"
    plant
    runs 'it builds all, whatever a variable is called outside' "$whole" 'rt cargo' 'it is red round' \
        env lock=1 MENDUVO_BUILD_COMMIT=x "$menduvo"
    runs 'nothing to do, nothing said, and nothing started but readlink and find' "$quick" '' 'it is red round' "$menduvo"
    echo blue >"$tree/tool/main.rs"
    runs 'the command changed' "$whole" cargo 'it is blue round' "$menduvo"
    echo square >"$tree/crates/lib.rt"
    runs 'the library changed' "$whole" 'rt cargo' 'it is blue square' "$menduvo"
    : >"$tree/crates/new.rt"
    runs 'a file came, and the library is the same' "$whole" rt 'it is blue square' "$menduvo"
    echo 1 >"$tree/cases/lost-update.source"
    runs 'the case of the demo changed' "$whole" cargo 'it is blue square' "$menduvo"
    mkdir "$tree/bindings/target" && : >"$tree/bindings/target/file"
    runs 'what cargo leaves beside the sources is no source' "$slow" '' 'it is blue square' "$menduvo"
    sleep 0.02 && seen=$slow run "$menduvo"
    : >"$tree/bindings/target/new"
    runs 'what it leaves there later is not looked at' "$quick" '' 'it is blue square' "$menduvo"
    rm -r "$tree/target"
    runs 'target/ is gone' "$whole" 'rt cargo' 'it is blue square' "$menduvo"
    : >"$tree/broken" && : >"$tree/crates/newer.rt"
    seen=$whole
    says 'a proof fails' 3 'bin/library failed' "$menduvo"
    says 'it is not forgotten' 3 'bin/library failed' "$menduvo"
    fake cargo.none '' && mkdir -p "$scratch/none" && mv "$scratch/fakes/cargo.none" "$scratch/none/cargo"
    plant
    seen=$scratch/none:$whole says 'cargo makes nothing' 3 'there is no target/menduvo/release/menduvo' "$menduvo"
}

# What counts is what the files have in them, and not their dates.
contents() {
    plant_built
    touch "$tree"/tool/* "$tree"/crates/* "$tree/target/staticlib/libmenduvo.a"
    runs 'new dates, and nothing else' "$slow" '' 'it is red round' "$menduvo"
    sleep 0.02 && seen=$slow run "$menduvo"
    runs 'they are looked at once' "$quick" '' 'it is red round' "$menduvo"
    echo blue >"$tree/tool/main.rs" && touch -d 2001-01-01 "$tree/tool/main.rs"
    runs 'a source changed, with an old date' "$whole" cargo 'it is blue round' "$menduvo"
    mv "$tree/tool/main.rs" "$tree/tool/old.rs" && echo blue >"$tree/tool/main.rs" && rm "$tree/tool/old.rs"
    runs 'a source was replaced by its like' "$slow" '' 'it is blue round' "$menduvo"
    mv "$tree/tool/Cargo.toml" "$tree/tool/other" && : >"$tree/tool/Cargo.toml"
    runs 'a file of the same contents has another name' "$whole" cargo 'it is blue round' "$menduvo"
    echo other >"$tree/target/staticlib/libmenduvo.a"
    runs 'the library is not the one that was built' "$whole" rt 'it is blue round' "$menduvo"
    echo 'echo other' >>"$tree/target/menduvo/release/menduvo"
    runs 'the command is not the one that was built' "$whole" cargo 'it is blue round' "$menduvo"
    chmod -x "$tree/target/menduvo/release/menduvo"
    runs 'the command is not executable' "$whole" cargo 'it is blue round' "$menduvo"
    : >"$tree/target/menduvo/command.stamp"
    runs 'a stamp is empty' "$whole" cargo 'it is blue round' "$menduvo"
}

# A source that is a symbolic link gets other contents, which changed in the very moment of the stamp.
moments() {
    plant && mkdir -p "$scratch"/{before,after} && ln -sfn before "$scratch/now" && echo red >"$scratch/before/main.rs"
    ln -sf "$scratch/now/main.rs" "$tree/tool/main.rs" && sleep 0.02 && seen=$whole run "$menduvo"
    touch "$tree/tool/Cargo.toml" && sleep 0.02 && echo blue >"$scratch/after/main.rs"
    fake date "echo $(date -r "$scratch/after/main.rs" +%s%N)"
    runs 'the stamp is renewed' "$scratch/fakes:$slow" '' 'it is red round' "$menduvo"
    rm "$scratch/fakes/date"
    runs 'it is renewed for the moment' "$quick" '' 'it is red round' "$menduvo"
    ln -sfn after "$scratch/now"
    runs 'a change in the moment of the stamp' "$whole" cargo 'it is blue round' "$menduvo"
}

# copy WORD FOLDER NAME..: copy these of the tree, in this order.
copy() {
    local name
    rm -rf "$scratch/$2" && mkdir "$scratch/$2"
    for name in "${@:3}"; do cp "$1" "$tree/$name" "$scratch/$2/"; done
}

moving() {
    local sources=(bin crates crates.txt tool bindings cases)
    plant_built
    mv "$tree" "$scratch/moved" && mkdir "$tree" && rmdir "$tree"
    runs 'a built tree is moved' "$slow" '' 'it is red round' "$scratch/moved/bin/menduvo"
    mv "$scratch/moved" "$tree"
    copy -r late "${sources[@]}" target
    runs 'it is copied, target/ last' "$slow" '' 'it is red round' "$scratch/late/bin/menduvo"
    copy -r early target "${sources[@]}"
    runs 'it is copied, target/ first' "$slow" '' 'it is red round' "$scratch/early/bin/menduvo"
    copy -a exact "${sources[@]}" target
    runs 'it is copied with its dates' "$slow" '' 'it is red round' "$scratch/exact/bin/menduvo"
    sleep 0.02 && seen=$slow run "$scratch/late/bin/menduvo"
    runs 'and is looked at once' "$quick" '' 'it is red round' "$scratch/late/bin/menduvo"
    echo blue >"$tree/tool/main.rs"
    copy -r late "${sources[@]}" target
    runs 'it is copied with a source that changed since' "$whole" cargo 'it is blue round' "$scratch/late/bin/menduvo"
    echo red >"$tree/tool/main.rs"
    runs 'the first one knows nothing of that' "$slow" '' 'it is red round' "$menduvo"
}

# Where nothing can be written. Root must be kept from it, too.
read_only() {
    local as=()
    [ "$EUID" != 0 ] || as=(setpriv --bounding-set=-all)
    plant_built
    copy -r fixed bin crates crates.txt tool bindings cases target
    chmod -R a-w "$scratch/fixed"
    ln -sf "$(type -P setpriv)" "$slow/" && ln -sf "$slow/setpriv" "$quick/"
    run "${as[@]}" bash -c ": >'$scratch/fixed/target/menduvo/file'"
    result 'it is read-only' test "$status" != 0
    runs 'a copy that is read-only' "$slow" '' 'it is red round' "${as[@]}" "$scratch/fixed/bin/menduvo"
    chmod -R u+w "$scratch/fixed" && sleep 0.02 && seen=$slow run "$scratch/fixed/bin/menduvo"
    rm "$scratch/fixed/target/menduvo/lock" && chmod a-w "$scratch/fixed/target/menduvo"
    runs 'once it was looked at, that is not done again' "$quick" '' 'it is red round' "${as[@]}" "$scratch/fixed/bin/menduvo"
    echo blue >"$scratch/fixed/tool/main.rs"
    seen=$whole says 'a source changed, and nothing can be written' 3 'cannot write to' "${as[@]}" "$scratch/fixed/bin/menduvo"
    seen=$whole says 'bash --posix says so, too' 3 'cannot write to' "${as[@]}" bash --posix "$scratch/fixed/bin/menduvo"
    chmod -R u+w "$scratch/fixed"
}

# start NAME: call menduvo in the background, with all that a build needs. Sets pid.
start() {
    env PATH="$whole" "$menduvo" >"$scratch/$1" 2>&1 </dev/null 8>&- &
    pid=$!
}

together() {
    local first second pid
    plant && echo rt >"$scratch/wait"
    start one && first=$pid
    result 'the first call builds' await test -e "$scratch/half"
    start two && second=$pid
    result 'the second says that it waits' await grep -q 'another call is building' "$scratch/two"
    : >"$scratch/go"
    wait "$first" && wait "$second"
    status=$? out=$(tail "$scratch"/{one,two,calls})
    result 'both end well' test "$status" = 0
    result 'both run' test "$(grep -h '^it' "$scratch"/{one,two} | paste -sd' ')" = 'it is red round it is red round'
    result 'it is built once, and nothing else has the lock' test "$(paste -sd' ' "$scratch/calls")" = 'rt cargo'
    # The lock is on a file that goes while a call waits.
    plant && mkdir -p "$tree/target/menduvo"
    exec 8>"$tree/target/menduvo/lock" && flock 8
    start one && await grep -q 'another call is building' "$scratch/one"
    rm -r "$tree/target" && exec 8>&-
    wait "$pid"
    status=$? out=$(<"$scratch/one")
    result 'it takes the lock that others see' test -e "$tree/target/menduvo/lock"
}

# killed WORD: call menduvo, and kill it alone when that program has made half of its product. The program stays.
killed() {
    local pid
    echo "$1" >"$scratch/wait"
    start one && await test -e "$scratch/half"
    kill -KILL "$pid" && wait "$pid" 2>/dev/null
    rm "$scratch/wait"
}

# A build that was killed, when nothing was built before, and when something was. Then the source is as it was for that.
killing() {
    plant && killed rt
    runs 'the proof was killed' "$whole" 'rt cargo' 'it is red round' "$menduvo"
    plant && killed cargo
    runs 'the compilation was killed' "$whole" cargo 'it is red round' "$menduvo"
    plant_built && echo square >"$tree/crates/lib.rt" && killed rt && echo round >"$tree/crates/lib.rt"
    runs 'the proof of a change was killed, and the change undone' "$whole" rt 'it is red round' "$menduvo"
    plant_built && echo blue >"$tree/tool/main.rs" && killed cargo && echo red >"$tree/tool/main.rs"
    runs 'the compilation of a change was killed, and the change undone' "$whole" cargo 'it is red round' "$menduvo"
}

# changed WORD FILE TEXT: call menduvo, and write that into a source when that program has made half of its product.
changed() {
    local pid
    echo "$1" >"$scratch/wait"
    start one && await test -e "$scratch/half"
    echo "$3" >"$tree/$2" && : >"$scratch/go"
    wait "$pid"
    rm "$scratch"/{wait,half,go}
}

changing() {
    plant && changed rt crates/lib.rt square
    runs 'a source changed during the proof' "$whole" 'rt cargo' 'it is red square' "$menduvo"
    plant && changed cargo tool/main.rs blue
    runs 'a source changed during the compilation' "$whole" cargo 'it is blue round' "$menduvo"
}

by_hand() {
    local seen=$whole hand=$scratch/by/hand other=$scratch/by/other
    mkdir -p "$hand" "$other" "$scratch/by/empty" && echo flat >"$hand/libmenduvo.a" && echo thin >"$other/libmenduvo.a"
    plant
    runs 'a library by hand needs no rt' "$whole" cargo 'it is red flat' env MENDUVO_LIB_DIR="$hand" "$menduvo"
    runs 'another one' "$whole" cargo 'it is red thin' env MENDUVO_LIB_DIR="$other" "$menduvo"
    runs "the tree's own" "$whole" 'rt cargo' 'it is red round' "$menduvo"
    runs 'the first again' "$whole" '' 'it is red flat' env MENDUVO_LIB_DIR="$hand" "$menduvo"
    runs 'the second again' "$whole" '' 'it is red thin' env MENDUVO_LIB_DIR="$other" "$menduvo"
    runs "the tree's own again" "$whole" '' 'it is red round' "$menduvo"
    ln -s hand "$scratch/by/link" && cd "$scratch/by" || exit
    runs 'under another name' "$whole" '' 'it is red flat' env MENDUVO_LIB_DIR=link "$menduvo"
    cd - >/dev/null || exit
    sleep 0.02
    touch "$hand/libmenduvo.a"
    runs 'with a new date' "$slow" '' 'it is red flat' env MENDUVO_LIB_DIR="$hand" "$menduvo"
    sleep 0.02 && run env MENDUVO_LIB_DIR="$hand" "$menduvo"
    runs 'nothing changed' "$quick" '' 'it is red flat' env MENDUVO_LIB_DIR="$hand" "$menduvo"
    echo steep >"$hand/libmenduvo.a" && touch -d 2001-01-01 "$hand/libmenduvo.a"
    runs 'with other contents and an old date' "$whole" cargo 'it is red steep' env MENDUVO_LIB_DIR="$hand" "$menduvo"
    mv "$tree" "$scratch/moved"
    runs 'the tree is moved' "$slow" '' 'it is red steep' env MENDUVO_LIB_DIR="$hand" "$scratch/moved/bin/menduvo"
    mv "$scratch/moved" "$tree"
    says 'there is no such folder' 3 'MENDUVO_LIB_DIR: there is no folder' env MENDUVO_LIB_DIR="$scratch/by/none" "$menduvo"
    says 'no library is in it' 3 'MENDUVO_LIB_DIR: there is no libmenduvo.a in' env MENDUVO_LIB_DIR="$scratch/by/empty" "$menduvo"
}

calling() {
    local shell seen=$quick
    plant_built
    mkdir -p "$scratch"/{links,no_bash} && ln -s "$menduvo" "$scratch/links/absolute"
    ln -s '../a tree/bin/menduvo' "$scratch/links/relative" && ln -s links/relative "$scratch/chain"
    for shell in 'bash' 'bash --posix' sh dash; do
        ln -sf "$(type -P "${shell%% *}")" "$quick/"
        # shellcheck disable=SC2086 # a word may follow the shell's name
        runs "$shell bin/menduvo" "$quick" '' 'it is red round' $shell "$menduvo"
    done
    ln -s "$(type -P timeout)" "$(type -P dash)" "$scratch/no_bash/"
    seen=$scratch/no_bash says 'bash is missing' 3 'bash is not installed' dash "$menduvo"
    for shell in links/absolute links/relative chain; do
        runs "a symbolic link, $shell" "$quick" '' 'it is red round' "$scratch/$shell"
        runs "dash, and a symbolic link, $shell" "$quick" '' 'it is red round' dash "$scratch/$shell"
    done
    runs 'found in PATH' "$tree/bin:$quick" '' 'it is red round' menduvo
    runs 'bash finds it in PATH' "$tree/bin:$quick" '' 'it is red round' bash menduvo
    cd "$tree/bin" || exit
    runs 'dash, in its own folder' "$quick" '' 'it is red round' dash menduvo
    cd - >/dev/null || exit
    run bash -c "'$menduvo' >&-"
    result 'standard output is closed' eval '[ "$status" = 3 ] && [[ $out = *"standard output is closed"* ]]'
}

standing() {
    local seen=$whole name home=$scratch/home
    mkdir -p "$home/bin" && cp bin/menduvo "$home/bin/menduvo" && cp bin/menduvo "$home/other"
    says 'it is copied alone' 3 'is not in its own tree: there is no home/crates' "$home/bin/menduvo"
    says 'what to do then' 3 'Call bin/menduvo in its tree, or make a symbolic link' "$home/bin/menduvo"
    says 'under another name' 3 'is not bin/menduvo in its own tree' "$home/other"
    result 'it wrote nothing' test "$(find "$home" | wc -l)" = 4
    plant
    for name in crates crates.txt tool tool/Cargo.toml bindings cases/lost-update.source cases/lost-update.assignment; do
        mv "$tree/$name" "$scratch/away"
        says "there is no $name" 3 "is not in its own tree: there is no a tree/$name" "$menduvo"
        mv "$scratch/away" "$tree/$name"
    done
    result 'it wrote nothing there' test ! -e "$tree/target"
}

# The commit for what is filed, in a scratch tree that is a repository.
commits() {
    local seen=$slow hash name git=(git -c user.name=name -c user.email=mail -C "$tree") around=$scratch/around
    export GIT_CONFIG_GLOBAL=/dev/null GIT_CONFIG_SYSTEM=/dev/null
    plant_built
    runs 'there is no git' "$slow" '' 'it is red round, unknown' "$menduvo" file
    fake git 'echo "$0" >>"${0%/fakes/*}/calls"'
    runs 'only what tells the commit needs git' "$whole" '' 'it is red round' "$menduvo" list file
    rm "$scratch/fakes/git"
    type -P git >/dev/null || { echo 'git is not installed; its tests are left out'; return; }
    ln -s "$(type -P git)" "$slow/"
    runs 'there is no repository' "$slow" '' 'it is red round, unknown' "$menduvo" file
    "${git[@]}" init -q && runs 'there is no commit' "$slow" '' 'it is red round, unknown' "$menduvo" file
    "${git[@]}" add bin crates crates.txt tool bindings cases && "${git[@]}" commit -qm all && hash=$("${git[@]}" rev-parse HEAD)
    result 'there is a commit' test "${#hash}" -ge 40
    runs 'its commit' "$slow" '' "it is red round, $hash" "$menduvo" file
    for name in verify --version -V version; do
        runs "its commit, for $name" "$slow" '' "it is red round, $hash" "$menduvo" "$name"
    done
    runs 'whatever the caller was told' "$slow" '' "it is red round, $hash" \
        env MENDUVO_COMMIT=x GIT_DIR="$scratch" GIT_INDEX_FILE="$scratch/x" "$menduvo" file
    # Git takes no orders from a repository of somebody else, unless it is told to.
    if [ "$(id -u)" = 0 ]; then
        chown -R 65534 "$tree"
        runs 'the tree is of somebody else' "$slow" '' "it is red round, $hash" "$menduvo" file
        chown -R 0 "$tree"
    fi
    : >"$tree/cases/new.case" && mkdir "$tree/docs" && : >"$tree/docs/new.md"
    runs 'a file that is no part of it' "$slow" '' "it is red round, $hash" "$menduvo" file
    for name in crates/new.rt bindings/new tool/new.rs bin/new; do
        : >"$tree/$name"
        runs "there is a new $name" "$whole" "$(needs "$name")" "it is red round, $hash with changes" "$menduvo" file
        "${git[@]}" add "$name" && "${git[@]}" commit -qm "$name" && hash=$("${git[@]}" rev-parse HEAD)
    done
    runs 'all is in the commit again' "$slow" '' "it is red round, $hash" "$menduvo" file
    echo blue >"$tree/tool/main.rs"
    runs 'a file differs' "$whole" cargo "it is blue round, $hash with changes" "$menduvo" file
    "${git[@]}" add tool
    runs 'it is added' "$whole" '' "it is blue round, $hash with changes" "$menduvo" file
    mkdir "$around" && mv "$tree" "$around/tree" && mv "$around/tree/.git" "$around/"
    runs 'a repository around it' "$slow" '' 'it is blue round, unknown' "$around/tree/bin/menduvo" file
}

# needs NAME: which of rt and cargo a new file of this name, without contents, starts.
needs() {
    case $1 in
        crates/*) echo rt ;;
        bin/*) ;;
        *) echo cargo ;;
    esac
}

# This tree's own command, in a copy of the tree without rt and cargo.
real() {
    [ -z "$by_hand" ] || export MENDUVO_LIB_DIR=$by_hand
    says 'the command is built' 0 'menduvo 0.' bin/menduvo --version
    mkdir -p "$scratch/real/target" && tar -c --exclude=out bin crates crates.txt tool bindings cases | tar -x -C "$scratch/real"
    find target -maxdepth 1 \( -name 'menduvo*' -o -name staticlib \) -exec cp -r {} "$scratch/real/target/" \;
    # The copy is no repository.
    local version=${out##*$'\n'}
    version="${version%%(*}(commit unknown, ${version##*, }"
    runs 'the command runs in a copy of the tree' "$slow" '' "$version" "$scratch/real/bin/menduvo" --version
    cd "$scratch" || exit
    mv real 'moved again'
    runs 'and where that is moved' "$slow" '' "$version" 'moved again/bin/menduvo' --version
    cd - >/dev/null || exit
}

building
contents
moments
moving
read_only
together
killing
changing
by_hand
calling
standing
commits
real
finish
