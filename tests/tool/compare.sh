#!/bin/sh
# The tool against the independent witness, scenario by scenario. A difference is printed with its seed and the commands that repeat it.
#
#   sh tests/tool/compare.sh             100 scenarios, as at each gate: 80 that are the same each time and have all in them that the generator
#                                        knows, and 20 in a row whose seeds are taken from the commit; none fills a store to its limits
#   sh tests/tool/compare.sh FROM TO     those of these seeds, the limits (39, 79, 119, ..) too; 8,192 reports (39, 199, ..) take a minute or two
#
# Needs rustc (1.63 or newer) to build the witness. The proved program is run without its launcher, to save time: the other tests run that.
set -eu
cd "$(dirname "$0")/../.."
if ! command -v rustc >/dev/null 2>&1; then
    echo 'compare: SKIPPED: there is no rustc here (package rustc), so the tool was NOT compared with the witness'
    exit 0
fi
room=target/witness
rm -rf "$room"
mkdir -p "$room"

# What the witness and the generator share is compiled once; in one unit, which takes least processor time.
compile() { # WORD...
    rustc -O -C codegen-units=1 --edition 2021 "$@"
}
compile --crate-type rlib --crate-name witness witness/src/lib.rs -o "$room/libwitness.rlib"
compile --extern witness="$room/libwitness.rlib" witness/src/main.rs -o "$room/witness"
compile --extern witness="$room/libwitness.rlib" witness/src/generate.rs -o "$room/generate"
"$room/witness" selftest >"$room/selftest" || {
    cat "$room/selftest"
    exit 1
}
tail -n 1 "$room/selftest"

# The program that the launcher runs, built where there is none.
here=$PWD/tests/tool
. "$here/kit.inc"
DAGSKIMRA_PROGRAM=$program
export DAGSKIMRA_PROGRAM

# What is printed is compared, and not what a disk keeps: the stores may stand in memory.
if [ -z "${TMPDIR:-}" ] && [ -d /dev/shm ] && [ -w /dev/shm ]; then
    TMPDIR=/dev/shm
    export TMPDIR
fi

compare() { # FROM TO
    tests/compare --proved --seeds "$1" "$2" "$program" "$room/witness" "$room/generate"
}

if [ $# -eq 2 ]; then
    compare "$1" "$2"
    exit
fi

# The seeds that are the same each time: 80, none of which fills a store. All that the generator knows has to occur among them.
same='1 38 40 78 80 82'
# shellcheck disable=SC2086
"$room/generate" --coverage $same >"$room/coverage" || {
    echo "compare: what the generator knows and what occurs in no scenario of the seeds $same:"
    awk '$NF == 0' "$room/coverage"
    exit 1
}
echo "compare: $(awk 'NR > 1' "$room/coverage" | wc -l) things that the generator knows, each occurs in the scenarios of the seeds $same"

# Those that are taken from the commit, or without git from the sources of the program: a seed that leaves 39, divided by 40, fills a store.
if [ -e .git ] && commit=$(git rev-parse HEAD 2>/dev/null); then
    of="commit $commit"
    sum=$((0x$(printf %.7s "$commit")))
else
    sum=$(find crates.txt crates/*/src -type f | LC_ALL=C sort | xargs cat | cksum)
    sum=${sum%% *}
    of="the sum of the sources, $sum"
fi
first=$(((sum / 20 % 1000000 + 3) * 40 + sum % 20))
echo "compare: seeds $first to $((first + 19)) are taken from $of; 'sh tests/tool/compare.sh $first $((first + 19))' repeats them"

# Two lanes: each takes the next range, of ten seeds at most, that the other has not.
ranges=$(echo "$first $((first + 19)) $same" | awk '{ for (i = 1; i < NF; i += 2) for (s = $i; s <= $(i + 1); s += 10) print s "-" (s + 9 < $(i + 1) ? s + 9 : $(i + 1)) }')
lane() {
    for range in $ranges; do
        mkdir "$room/$range" 2>/dev/null || continue
        if compare "${range%-*}" "${range#*-}" >"$room/$range/said" 2>&1; then : >"$room/$range/passed"; fi
    done
}
lane &
lane
wait
failed=0
for range in $ranges; do
    cat "$room/$range/said"
    [ -f "$room/$range/passed" ] || failed=1
done
exit "$failed"
