#!/usr/bin/env bash
# The documents, held to the tree: what they name in backticks must be there. A definition, a lemma or an example that is renamed,
# an edit or a file that goes, is found here. By its form a text in backticks is
#   a/b.c       a path, from the root or from crates/; or crates/a/must-fail/b.edit; or tests/a/b.edit
#   Module.x    what a file Module.antt of some crate's specs or proofs declares
#   a::b, T::b  what the sources of crate a declare, a method of T
#   group x     a group of tests/
#   x           in PROOF.md and DECISIONS.md, anything of these; in SPEC-MAP.md, of the module or crate named before it in the
#               same cell, or a module or a crate itself; in README.md, where it begins with a capital, a module of the
#               folder named before it in the same cell
# and anything else (commands, types, words of other programs) is not looked at. Nothing is left to be filled in.
# README.md names every module of definitions that the one statement rests on: those that it reaches by imports.
set -u
cd -- "$(dirname -- "${BASH_SOURCE[0]}")/.." || exit
. tests/counting.sh || exit
scratch=$(mktemp -d) || exit
trap 'rm -rf -- "$scratch"' EXIT

# imports FILE..: the modules of definitions that the files import, but for those of Rattle's own library.
imports() {
    sed -nE '/ Rattle\.std\./d; s/^(ghost )?use Rattle\.([a-z_]+)\.specs\.([A-Z][A-Za-z0-9]*)( |\.).*/crates\/\2\/specs\/\3.antt/p' -- "$@"
}

# From the one statement and the exported calls, until nothing more is reached.
all=$(imports crates/delivered/specs/Delivered.antt crates/menduvo/src/lib.rt crates/menduvo_c/src/lib.rt | sort -u)
rest=
while [ "$all" != "$rest" ]; do
    rest=$all
    # shellcheck disable=SC2086 # paths without blanks, one word each
    all=$({ echo "$rest"; imports $rest; } | sort -u)
done

# What there is, a line for each thing: its sort, then where it is, then its name.
{
    echo "$all" | sed 's/^/rests /'
    find . \( -name target -o -name out -o -name .git \) -prune -o -print | sed 's|^\./|path |'
    sed -n 's/^\([a-z_]*\):.*/crate \1/p' crates.txt
    sed -n 's/^ *\(\.*group(\)\{0,1\}"\([a-z0-9-]*\)",.*/group \2/p' tests/src/groups/mod.rs
    awk '
        { split(FILENAME, part, "/") }
        /^}/ { type = "" }
        /^impl / { type = $2 }
        /^ *\/\// { next }
        match($0, /(fn|struct|enum|const|mod) [A-Za-z0-9_]+/) {
            split(substr($0, RSTART, RLENGTH), word, " ")
            print "source", part[2], word[2]
            if (type != "") print "method", type, word[2]
        }' crates/*/src/*.rt
    # A declaration is its names, perhaps parameters, and a colon. Constructors of one type may share a line.
    awk '
        { split(FILENAME, part, "/"); module = part[4]; sub(/\.antt$/, "", module) }
        FNR == 1 { print "module", part[2], module }
        /^ *--/ { next }
        {
            line = $0
            sub(/^ */, "", line)
            while (sub(/^(abbrev|unfoldable|pub|record|data) +/, "", line)) { }
            if (!match(line, /^[^=:({][^=:]*:( |$)/)) next
            many = split(substr(line, 1, RLENGTH - 1), word, /[ :]+/)
            for (i = 1; i <= many && word[i] !~ /^[({]/; i++) print "name", part[2], module, word[i]
        }' crates/*/specs/*.antt crates/*/proofs/*.antt
} >"$scratch/there"

# What is found, a line for each check: true or false, then where and what.
awk '
    # ---- What there is.
    FILENAME != last { last = FILENAME; file++ }
    file == 1 {
        is[$0] = 1
        if ($1 == "rests") rests[$2] = 1
        if ($1 == "name") { is["in " $3 " " $4] = is["of " $2 " " $4] = is["any " $4] = 1 }
        if ($1 == "source") { is["of " $2 " " $3] = is["any " $3] = 1 }
        if ($1 == "module") { is["any " $3] = is["module " $3] = 1 }
        if ($1 == "crate" || $1 == "path") is["any " $2] = 1
        next
    }

    # ---- What the documents name.
    function result(holds, what) {
        print (holds ? "true " : "false ") FILENAME ":" FNR ": " what
    }
    function path(t,    part) {
        if (t ~ /\/$/) folder = t
        sub(/\/$/, "", t)
        split(t, part, "/")
        return ("path " t) in is || ("path crates/" t) in is || ("path tests/" t ".edit") in is \
            || ("path crates/" part[1] "/must-fail/" part[2] ".edit") in is
    }
    # from: what the bare names of this cell belong to
    function bare(t) {
        if (FILENAME == "README.md") {
            if (t ~ /^[A-Z]./) result(("path " folder t ".antt") in is, t)
            named_in_readme[folder t ".antt"] = 1
        }
        else if (FILENAME != "docs/SPEC-MAP.md" || from == "") result(("any " t) in is, t)
        else result((from " " t) in is || ("crate " t) in is || ("module " t) in is, t)
    }
    function named(t,    part, many) {
        if (t ~ /^group /) result(t in is, t)
        else if (t ~ /[ *{}<>=]|NAME/) return
        else if (t ~ /\// || t ~ /\.(antt|rt|md|sh|h|txt|edit)$/) result(path(t), t)
        else if (t ~ /^[A-Z][A-Za-z0-9]*\.[A-Za-z0-9_'"'"'-]+$/) {
            split(t, part, ".")
            from = "in " part[1]
            result((from " " part[2]) in is, t)
        } else if (t ~ /^[A-Za-z_]+(::[A-Za-z0-9_]+)+$/) {
            many = split(t, part, "::")
            from = "of " part[1]
            result(t ~ /^[A-Z]/ ? ("method " part[1] " " part[2]) in is : (from " " part[many]) in is, t)
        } else if (t ~ /^[A-Za-z][A-Za-z0-9_'"'"'-]*$/) bare(t)
    }
    FNR == 1 { fenced = 0 }
    /^```/ { fenced = !fenced }
    fenced { next }
    /TODO/ { result(0, "something is left to be filled in") }
    {
        cells = split($0, cell, "|")
        for (c = 1; c <= cells; c++) {
            from = folder = ""
            texts = split(cell[c], text, "`")
            for (i = 2; i <= texts; i += 2) named(text[i])
        }
    }
    END {
        FILENAME = "README.md"
        for (module in rests) result(module in named_in_readme, "does not name " module ", which the one statement rests on")
    }' "$scratch/there" README.md docs/PROOF.md docs/SPEC-MAP.md docs/DECISIONS.md >"$scratch/found" ||
    result 'the documents are read to their end' false

while read -r holds what; do
    result "$what" "$holds"
done <"$scratch/found"
finish
