#!/bin/sh
# The head of a store's file, worked out here once more: version, both sums, and the line of the holiday list, from the list's source. A store whose line
# is another list's wants rework; a head with a damaged byte, of this version or of the first, is refused with 44.
set -u
here=$(cd "$(dirname "$0")" && pwd -P)
tests=${here%/*}
tool=$tests/../bin/dagskimra
list=$tests/../crates/calendar/src/table.rt
room=$(mktemp -d) || exit 2
trap 'rm -rf "$room"' EXIT
trap 'exit 2' HUP INT TERM
cd "$room" || exit 2
bad=0 looked=0
fault() {
    echo "head: $*"
    bad=$((bad + 1))
}
expect() { # STATUS WORDS: the last status, and words of what was said or printed
    got=$?
    looked=$((looked + 1))
    if [ "$got" -ne "$1" ] || ! grep -q -- "$2" said out; then fault "expected status $1 and '$2', got $got and: $(cat said out)"; fi
}
same() { # FILE WHAT: the store is this file, and nothing is beside it
    cmp -s "$1" store/store || fault "$2: the store is not as it should be"
    [ "$(ls store)" = store ] || fault "$2: something is left in the folder: $(ls store | tr '\n' ' ')"
}

# Reads numbers; two running sums, of the numbers and of the sums so far, from 1 and 0 on. Both stay far below 2^53, so awk is exact.
sums='{ for (i = 1; i <= NF; i++) { a += $i; b += a } }
function hex(n,    d, s) { for (s = ""; length(s) < 16; n = (n - d) / 16) { d = n % 16; s = substr("0123456789abcdef", d + 1, 1) s } return s }'
# the line of the list whose day numbers are read
line_of() { awk "BEGIN { a = 1 } $sums END { printf \"holidays %04d %s\\n\", NR, hex(b) }"; }
# the file whose list's line is LINE and whose buffers are those of FILE
headed() { # LINE FILE
    { printf '%s\n' "$1" && tail -c +83 "$2"; } >summed
    printf 'dagskimra store 2\n'
    head -c "$(($(wc -c <summed) - 102400))" summed | od -An -v -tu1 | awk "BEGIN { a = 1 } $sums END { print hex(a) hex(b) }"
    cat summed
}

printf '3055501,,D001,02012024\n3055502,,D001,02012024\n' >table
printf '3055501,,04032024,D002,D001,P\rZeilenanzahl:2,\r' >1D240305.txt
"$tool" start store table >out 2>said && "$tool" file store D002 1D240305.txt >out 2>said
expect 0 filed
cp store/store good

sed -n '/^ *[0-9][0-9, ]*,$/p' "$list" | tr -s ' ,' '\n\n' | sed '/^$/d' >days
[ "$(sed -n 's/^pub const COUNT: usize = \([0-9]*\);/\1/p' "$list")" -eq "$(wc -l <days)" ] || fault 'the list is not read right here'
headed "$(line_of <days)" good >worked
same worked 'the head as it is worked out here'

# one day of the list moved, two that change places, one less: each is another list
awk 'NR == 240 { $1++ } { print }' days >moved
awk 'NR == 5 { held = $1; next } NR == 6 { print $1; print held; next } { print }' days >changed
sed '$d' days >less
for other in moved changed less; do
    [ "$(line_of <"$other")" != "$(line_of <days)" ] || fault "the list with $other has the same line"
    headed "$(line_of <"$other")" good >store/store
    cp store/store kept
    for command in files show verdicts figure 'file store D001 1D240305.txt' 'why store 3055501'; do
        # shellcheck disable=SC2086
        case $command in *' '*) set -- $command ;; *) set -- "$command" store ;; esac
        "$tool" "$@" >out 2>said
        expect 2 "'dagskimra rework store'"
        [ ! -s out ] || fault "$command prints: $(cat out)"
        same kept "$command, $other"
    done
    "$tool" rework store >out 2>said
    expect 0 '^changed	0	of	2$'
    same good "rework, $other"
done

# a damaged byte of the head: of name, version, sums and line; and each version called the other
refused() { # WHAT
    cp store/store kept
    for command in show rework; do
        "$tool" "$command" store >out 2>said
        expect 1 '^refused	44$'
        same kept "$command, $1"
    done
}
damaged() { # FILE PLACES
    for at in $2; do
        cp "$1" store/store
        was=$(dd if="$1" bs=1 skip="$at" count=1 2>/dev/null | od -An -tu1 | tr -d ' ')
        # shellcheck disable=SC2059
        printf "\\$(printf %03o "$(((was + 1) % 256))")" | dd of=store/store bs=1 seek="$at" conv=notrunc 2>/dev/null
        refused "$1 damaged at $at"
    done
}
"$tests/lay" "$tests/old-store.txt" first
damaged good '0 16 17 18 49 50 51 61 70 81'
damaged first '0 16 17 18 49 50'
sed '1s/2/1/' good >store/store
refused 'version 2 called 1'
sed '1s/1/2/' first >store/store
refused 'version 1 called 2'
for cut in 17 50 51 81 82; do
    head -c "$cut" good >store/store
    refused "cut at $cut"
done
echo "head: $looked looks at heads of both versions; $bad faults"
[ "$bad" -eq 0 ]
