#!/usr/bin/env bash
# Every Rust package of the tree: it is laid out as rustfmt.toml says, clippy has nothing to warn of, and it asks for the version of
# Rust that README.md names. Clippy also tells where something newer than that is used of the standard library.
set -u
cd -- "$(dirname -- "${BASH_SOURCE[0]}")/.." || exit
. tests/counting.sh || exit

# clippy MANIFEST WORDS..: a warning is an error, and Cargo.lock must be there and right, so that no file is written beside it.
clippy() {
    run cargo clippy --offline --locked --quiet --all-targets "${@:2}" --manifest-path "$1" --target-dir target/clippy -- -D warnings
    result "cargo clippy, $*" test "$status" = 0
}

version=$(sed -nE 's/.*`cargo` \(([0-9.]+) or later\).*/\1/p' README.md)
while read -r manifest; do
    run cargo fmt --check --manifest-path "$manifest" -- --color never
    result "cargo fmt --check, $manifest" test "$status" = 0
    clippy "$manifest"
    # What a feature puts in is looked at too, and what is there without it.
    ! grep -q '^\[features\]' "$manifest" || { clippy "$manifest" --all-features; clippy "$manifest" --no-default-features; }
    run grep '^rust-version' "$manifest"
    result "the version of Rust, $manifest" test "$out" = "rust-version = \"$version\""
done < <(find . \( -name target -o -name .git \) -prune -o -name Cargo.toml -print | sort)
finish
