#!/bin/sh
# Two processes at once, a lock that was left, a store that is damaged, a disk that is full, a folder that can't be written, closed
# descriptors, a closed pipe. Needs flock (util-linux), and says so where it is missing.
set -u
here=$(cd "$(dirname "$0")" && pwd -P)
tool=$here/../../bin/dagskimra
command -v flock >/dev/null 2>&1 || {
    echo 'lock: SKIPPED: there is no command flock here (package util-linux)'
    exit 0
}
room=$(mktemp -d) || exit 2
trap 'rm -rf "$room"' EXIT
trap 'exit 2' HUP INT TERM
cd "$room" || exit 2
bad=0 looked=0
fault() {
    echo "lock: $*"
    bad=$((bad + 1))
}
expect() { # STATUS WORDS: the last status, and words of what was said or printed
    got=$?
    looked=$((looked + 1))
    if [ "$got" -ne "$1" ] || ! grep -q -- "$2" said out; then fault "expected status $1 and '$2', got $got and: $(cat said out)"; fi
}
same() { # as the store was
    cmp -s good store/store || fault "$*: the store has changed"
    [ "$(ls store)" = store ] || fault "$*: something is left in the folder: $(ls store | tr '\n' ' ')"
}
printf '3055501,,D001,02012024\n' >table
day() { printf '1D2403%02d.txt' "$1"; }
mkdir f
i=0
while [ "$i" -lt 30 ]; do
    i=$((i + 1))
    printf 'Zeilenanzahl:1,\r' >"f/$(day "$i")"
done
"$tool" start store table >out 2>said
expect 0 started
"$tool" file store D001 f/1D240301.txt >out 2>said
expect 0 filed

# another launcher is at work
flock store sh -c '"$1" file store D001 f/1D240302.txt >out 2>said' sh "$tool"
expect 2 'another process'
flock store sh -c '"$1" rework store >out 2>said' sh "$tool"
expect 2 'another process'
# a program at work (it waits for a pipe), whose launcher is killed, and then the program too
mkfifo f/1D240331.txt
"$tool" file store D001 f/1D240331.txt >out.0 2>said.0 &
launcher=$!
tries=0
until [ -s store/lock ] || [ "$tries" -eq 200 ]; do
    sleep 0.05
    tries=$((tries + 1))
done
"$tool" file store D001 f/1D240302.txt >out 2>said
expect 2 'another process'
kill -9 "$launcher"
wait "$launcher" 2>/dev/null
"$tool" file store D001 f/1D240302.txt >out 2>said
expect 2 'another process'
"$tool" rework store >out 2>said
expect 2 'another process'
"$tool" files store >out 2>said
expect 0 '2024-03-01'
kill -9 "$(cat store/lock)"
flock store true
"$tool" file store D001 f/1D240302.txt >out 2>said
expect 0 'its file lock is removed'
rm -f out.0 said.0
# a file lock of a process that is no more, and one that was never written
echo 999999999 >store/lock
"$tool" file store D001 f/1D240303.txt >out 2>said
expect 0 'filed'
: >store/lock
"$tool" file store D001 f/1D240304.txt >out 2>said
expect 0 'filed'
echo 999999999 >store/lock
"$tool" rework store >out 2>said
expect 0 'its file lock is removed'
[ ! -e store/lock ] || fault 'the lock is still there'
# many at once: each is filed or told so, and the count is right
i=4
while [ "$i" -lt 24 ]; do
    i=$((i + 1))
    "$tool" file store D001 "f/$(day "$i")" >"out.$i" 2>"said.$i" &
done
wait
filed=$(cat out.* | grep -c filed)
told=$(cat said.* | grep -c 'another process')
"$tool" files store >out 2>said
expect 0 "^$((filed + 4))	"
[ "$((filed + told))" -eq 20 ] || fault "$filed filed and $told told, of 20: $(cat said.*)"
[ "$(wc -l <out)" -eq "$((filed + 4))" ] || fault 'files lists others'

# damage: each part of the file, cut short, longer, another version
cp store/store good
size=$(wc -c <good)
at=0
while [ "$at" -lt "$((size - 102400))" ]; do
    cp good store/store
    was=$(dd if=good bs=1 skip="$at" count=1 2>/dev/null | od -An -tu1 | tr -d ' ')
    # shellcheck disable=SC2059
    printf "\\$(printf %03o "$(((was + 1) % 256))")" | dd of=store/store bs=1 seek="$at" conv=notrunc 2>/dev/null
    cp store/store damaged
    "$tool" show store >out 2>said
    expect 1 'refused	44'
    cmp -s store/store damaged || fault "damaged at $at: the store was touched"
    at=$((at + 36001))
done
"$tool" file store D001 f/1D240325.txt f/1D240326.txt >out 2>said
expect 1 'f/1D240326.txt	refused	44'
cmp -s store/store damaged || fault 'filing touched a damaged store'
for cut in 0 1 82 83 14420 "$((size - 1))"; do
    head -c "$cut" good >store/store
    for command in files show verdicts figure; do
        "$tool" "$command" store >out 2>said
        expect 1 'refused	44'
    done
done
(cat good; echo) >store/store
"$tool" files store >out 2>said
expect 1 'refused	44'
sed '1s/2/3/' good >store/store
"$tool" files store >out 2>said
expect 1 'refused	44'
# an entry that is out of range does not read either: holder 65535
cp good store/store
printf '\377\377' | dd of=store/store bs=1 seek="$((size - 102400))" conv=notrunc 2>/dev/null
"$tool" files store >out 2>said
expect 1 'refused	44'
cp good store/store

# a disk that is full at several places: by a limit on the size of a file, in blocks of 512 bytes
for blocks in 0 1 2 48 700 1000 1356; do
    # by a pipe, since the limit holds for what is said as well
    words=$( (ulimit -f "$blocks" && exec "$tool" file store D001 f/1D240325.txt) 2>&1 >/dev/null)
    ended=$?
    printf '%s\n' "$words" >said
    : >out
    (exit "$ended")
    expect 2 dagskimra
    same "at $blocks blocks"
done
(ulimit -f 1357 && exec "$tool" file store D001 f/1D240325.txt) >out 2>said
expect 0 filed
cp good store/store

# a folder that can't be written: as another user, since root may write anywhere
if [ "$(id -u)" -eq 0 ] && command -v setpriv >/dev/null 2>&1; then
    chmod 755 "$room" store f
    drop='setpriv --reuid=65534 --regid=65534 --clear-groups'
    if $drop test -x "$tool"; then
        $drop "$tool" file "$room/store" D001 "$room/f/1D240325.txt" >out 2>said
        expect 2 'Permission denied'
        $drop "$tool" rework "$room/store" >out 2>said
        expect 2 'Permission denied'
        same 'a folder that can not be written'
        $drop "$tool" start "$room/new" "$room/table" >out 2>said
        expect 2 'Permission denied'
        [ ! -e new ] || fault 'a store was made'
        $drop "$tool" show "$room/store" >out 2>said
        expect 0 3055501
    else
        echo 'lock: SKIPPED: a folder that can not be written: nobody can not reach the tool here'
    fi
else
    echo 'lock: SKIPPED: a folder that can not be written: this needs root and setpriv'
fi

# closed descriptors and a closed pipe
"$tool" files store >out 2>said <&-
expect 0 2024-03-01
: >out
"$tool" files store 2>said >&-
expect 2 'standard output'
same 'a closed descriptor'
"$tool" files store 2>said | true
# through a link, from another folder
ln -s "$tool" link
(cd f && ../link show ../store) >out 2>said
expect 0 '3055501	D001	-	-'
# where the kit is not there
mkdir bare
for command in sh readlink find head uname tr grep rm cat; do ln -s "$(command -v "$command")" bare/; done
PATH=$room/bare "$tool" help files >out 2>said
expect 0 'usage: dagskimra files STORE'
echo "lock: $looked looks; of 20 at once $filed were filed and $told told so; $bad faults"
[ "$bad" -eq 0 ]
