#!/bin/sh
# 300 damaged files, made from good ones by a seeded choice of changes, are offered one by one. After each refusal the store's bytes must
# be as before; a change that leaves a good file is filed, and the store then put back. sh tests/tool/damage.sh [SEED [TIMES]]
set -u
seed=${1:-1} times=${2:-300}
here=$(cd "$(dirname "$0")" && pwd -P)
tool=$here/../../bin/dagskimra
room=$(mktemp -d) || exit 2
trap 'rm -rf "$room"' EXIT
trap 'exit 2' HUP INT TERM
cd "$room" || exit 2
mkdir good D001
printf '3055501,,D001,02012024\n30500,30599,D001,02012024\n' >table
printf '3055501,,04032024,D002,D001,P\rZeilenanzahl:2,\r' >D001/1D240305.txt
printf '3055501,,04032024,D002,D001,L\r30500,30599,05032024,,D001,Z\r7,,05032024,D002,D001,L\rZeilenanzahl:4,\r' >good/1D240306.txt
printf '2500U:3055501,,04032024,D002,D001,P,K:,,,,,\r6000U:,,,,,,K:30500,30599,,,,\rZeilenanzahl:3,\r' >good/1K240306.txt
"$tool" start store table >out && "$tool" file store D002 D001/1D240305.txt >out || exit 1
cp store/store before

# change a byte, take one away, put one in, cut, say a part twice: WHAT PLACE(in thousandths) BYTE KIND
awk -v seed="$seed" -v times="$times" 'BEGIN {
    x = seed * 7919 % 2147483646 + 1
    for (i = 0; i < times + 10; i++) {
        for (k = 0; k < 4; k++) { x = (x * 16807) % 2147483647; r[k] = x }
        if (i >= 10) printf "%d %d %03o %s\n", r[0] % 5, r[1] % 1000, r[2] % 4 ? (r[2] % 64 + 32) : r[2] % 256, r[3] % 2 ? "D" : "K"
    }
}' >plan

bad=0 refused=0 filed=0 turn=0
fault() {
    echo "damage: seed $seed, turn $turn ($line): $*"
    bad=$((bad + 1))
}
while read -r what place byte kind; do
    line="$what $place $byte $kind"
    turn=$((turn + 1))
    from=good/1${kind}240306.txt
    to=D001/1${kind}240306.txt
    size=$(wc -c <"$from")
    at=$((size * place / 1000))
    {
        head -c "$at" "$from"
        case $what in
        0) printf "\\$byte" && tail -c "+$((at + 2))" "$from" ;;
        1) tail -c "+$((at + 2))" "$from" ;;
        2) printf "\\$byte" && tail -c "+$((at + 1))" "$from" ;;
        3) ;;
        4) tail -c "+$((at / 2 + 1))" "$from" ;;
        esac
    } >"$to"
    "$tool" file store D001 "$to" >out 2>said </dev/null
    status=$?
    case $status in
    0)
        filed=$((filed + 1))
        cmp -s "$from" "$to" || "$tool" read "$to" >out 2>said || fault "filed, and it can't be read: $(cat out)"
        cp before store/store
        ;;
    1)
        refused=$((refused + 1))
        cmp -s store/store before || fault "refused, and the store has changed"
        grep -qE "^$to	refused	4	[0-9]+	[0-9]+	(character|length|date|code|value|closing|after)\$" out || fault "refused with: $(cat out)"
        # read tells the same fault, in the same words
        sed 's/^[^	]*	//' out >told
        "$tool" read "$to" >out 2>said-too
        cmp -s told out || fault "filing tells $(cat told), reading $(cat out)"
        cmp -s said said-too || fault "filing says $(cat said), reading $(cat said-too)"
        ;;
    *) fault "status $status: $(cat said)" ;;
    esac
    [ "$(ls store)" = store ] || fault "something is left in the folder"
done <plan
[ "$refused" -gt "$((times / 2))" ] || fault "only $refused of $times were refused"
echo "damage: seed $seed: $turn files, $refused refused and the store's bytes as before, $filed still good; $bad faults"
[ "$bad" -eq 0 ]
