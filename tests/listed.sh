#!/bin/sh
# Every folder of crates/ is a crate that crates.txt lists: a folder that nobody lists is one that nobody proves.
set -eu
cd "$(dirname "$0")/.."
lost=0
for folder in crates/*/; do
    name=$(basename "$folder")
    grep -qE "^$name( [a-z][a-z0-9_= ]*)?:" crates.txt || {
        echo "tests/listed.sh: crates.txt does not list crates/$name" >&2
        lost=1
    }
done
exit "$lost"
