#!/usr/bin/env bash
# Holds listings and texts to what they were. A page is the listing or the text of a shipped case, as the command prints it, or the
# listings or the texts of a batch of random cases, as the calls give them (tests/src/pages.rs). Each must have the SHA-256 that
# tests/unchanged.sha256 has for it; a page that the list lacks, or that it alone has, is a failure too. The random cases themselves
# have pages as well: where one of these is another, the tests make other cases, and the pages beside it say nothing of the library.
#
#   tests/unchanged.sh --store WORDS    makes the list anew; the words say of which library it is: 'the library before Three'
#
# This is only for a request that changes listings or texts on purpose, and for cases that are added; what else the list has must
# then stay as it was.
set -u
cd -- "$(dirname -- "${BASH_SOURCE[0]}")/.." || exit
. tests/helpers.sh || exit
list=tests/unchanged.sha256
pages=$scratch/pages
mkdir -- "$pages" || exit
[ "$store" = no ] || words=${2:?--store needs words that say of which library the list is}

# page NAME COMMAND..: the page is what the command prints. There is none where the command fails.
page() {
    local file=$pages/$1
    shift
    mkdir -p -- "${file%/*}"
    timeout 60 "$@" >"$file" </dev/null || { echo "$* failed (exit status $?)" && rm -- "$file" && false; }
}

# Make all pages, or say what cannot be made.
make_pages() {
    local file all=0
    # Where nothing is built yet, this takes minutes.
    version=$("$menduvo" --version) || return
    while read -r file; do
        page "${file%.case}.listing" "$menduvo" list "$file" || all=1
        page "${file%.case}.text" "$menduvo" smt "$file" || all=1
    done < <(find cases bench -name target -prune -o -name '*.case' -print)
    cargo build --release --offline --locked --quiet --features proved --manifest-path tests/Cargo.toml --target-dir target/tests &&
        timeout 60 target/tests/release/menduvo-tests write-pages "$pages/random" || all=1
    return "$all"
}

# digests FOLDER: of the pages in it, as sha256sum prints them, by name.
digests() {
    (cd -- "$1" && find . -type f -printf '%P\0' | xargs -0 -r sha256sum --) | LC_ALL=C sort -k 2b,2
}

# held LIST FOLDER: a line for each page that one of them has: its name, and what is to be said of it.
held() {
    local name wanted found
    while read -r name wanted found; do
        if [ "$found" = - ]; then
            echo "$name: was not made"
        elif [ "$wanted" = - ]; then
            echo "$name: is not in the list"
        elif [ "$wanted" != "$found" ]; then
            echo "$name: is another"
        else
            echo "$name: is the same"
        fi
    done < <(LC_ALL=C join -j 2 -a 1 -a 2 -e - -o 0,1.1,2.1 <(sed '/^#/d' "$1" | LC_ALL=C sort -k 2b,2) <(digests "$2"))
}

# told NAME DAMAGE LINE..: of two pages and their list, after this damage, held says these lines.
told() {
    local name=$1 small=$scratch/small
    rm -rf -- "$small" && mkdir -p "$small/pages/of"
    printf '1 0\n7 0 0 0 0 0\n' >"$small/pages/of/one"
    printf '1 0\n' >"$small/pages/two"
    digests "$small/pages" >"$small/list"
    (cd -- "$small" && eval "$2")
    shift 2
    out=$(held "$small/list" "$small/pages") status=
    result "$name" test "$out" = "$(printf '%s\n' "$@")"
}

make_pages >"$scratch/out" 2>&1
status=$? out=$(<"$scratch/out")
result 'all pages are made' test "$status" = 0
out=$(find "$pages" -empty) status=
result 'no page is empty' test -z "$out"
result 'shipped and random cases have pages' eval '[ -e "$pages/cases/case-a.listing" ] && [ -e "$pages/random/any-0.listings" ]'
out=

if [ "$store" = yes ] && [ "$failed" = 0 ]; then
    { echo "# Listings and texts of $words: $version." && digests "$pages"; } >"$list"
fi

while read -r line; do
    result "$line" test "${line##*: }" = 'is the same'
done < <(held "$list" "$pages")

# That it can say no.
told 'no damage' : 'of/one: is the same' 'two: is the same'
told 'a changed byte' 'printf 2 | dd of=pages/two conv=notrunc status=none' 'of/one: is the same' 'two: is another'
told 'a byte too few' 'truncate -s -1 pages/of/one' 'of/one: is another' 'two: is the same'
told 'a byte too many' 'echo >>pages/two' 'of/one: is the same' 'two: is another'
told 'two pages that changed places' 'mv pages/two two && mv pages/of/one pages/two && mv two pages/of/one' \
    'of/one: is another' 'two: is another'
told 'a page without a digest' 'sed -i /two/d list' 'of/one: is the same' 'two: is not in the list'
told 'another page' 'echo >pages/of/three' 'of/one: is the same' 'of/three: is not in the list' 'two: is the same'
told 'a digest without a page' 'rm pages/two' 'of/one: is the same' 'two: was not made'
told 'a digest that was cut off' 'sed -i "s/^.//" list' 'of/one: is another' 'two: is another'
told 'two digests of one page' 'sed -n "s/^./x/; /two/p" list >x && cat x >>list' \
    'of/one: is the same' 'two: is the same' 'two: is another'
told 'an empty line' 'echo >>list' '-: was not made' 'of/one: is the same' 'two: is the same'
told 'a comment' 'sed -i "1i # two" list' 'of/one: is the same' 'two: is the same'
told 'no pages' 'rm -r pages/*' 'of/one: was not made' 'two: was not made'
told 'no list' ': >list' 'of/one: is not in the list' 'two: is not in the list'
finish
