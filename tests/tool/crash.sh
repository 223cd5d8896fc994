#!/bin/sh
# Kills the program, or has a call of it fail, at each call that writes, one after the other (nth.c). Afterwards the store
# must read as before or as after the command, never between; what was answered as filed must be there; the next command must work.
set -u
here=$(cd "$(dirname "$0")" && pwd -P)
tool=$here/../../bin/dagskimra
. "$here/kit.inc"
room=$(mktemp -d) || exit 2
trap 'rm -rf "$room"' EXIT
trap 'exit 2' HUP INT TERM
cd "$room" || exit 2
"$tool" help >/dev/null || exit 2
bad=0 turns=0

make_library "$here/nth.c" "$room/nth.so" || {
    echo 'crash: the library that counts calls could not be made'
    exit 1
}

fault() {
    echo "crash: $what, $how at call $n: $*"
    bad=$((bad + 1))
}

# what the store says, in one text; `none` where there is none yet. An old store says only that it wants rework.
state() {
    [ -e store/store ] || {
        echo none
        return
    }
    "$tool" files store && "$tool" show store && "$tool" verdicts store && "$tool" figure store || grep -q 'worked out with another holiday list' said
}

# what `show` prints of the store, and its status
shown() {
    "$tool" show store
    echo "status $?"
}

# how the store is: as before, as after, or neither. Its bytes tell it.
tell() {
    is=neither
    if [ ! -e store/store ]; then
        [ -e before.bytes ] || is=before
    elif cmp -s store/store after.bytes; then
        is=after
    elif cmp -s store/store before.bytes; then
        is=before
    fi
}

# keeps what the store is, as WHICH: its bytes, and what `show` prints
keep() { # WHICH
    rm -f "$1.bytes" "$1.shown"
    [ ! -e store/store ] || { cp store/store "$1.bytes" && shown >"$1.shown" 2>say; }
}

reset() {
    rm -rf store
    [ ! -d saved ] || cp -R saved store
}

# one command, at each call: WHAT WORDS...
every_call() {
    what=$1
    shift
    n=0 how=''
    reset
    state >before 2>said || fault "the store can't be read at first"
    keep before
    with_library "$room/nth.so" "$@" >out 2>said || fault 'it failed with nothing in its way'
    total=$(cat calls)
    state >after 2>said || fault 'the store can not be read afterwards'
    keep after
    cmp -s before after && fault 'it changes nothing'
    for how in before after torn full once; do
        n=0
        while [ "$n" -lt "$total" ]; do
            n=$((n + 1))
            turns=$((turns + 1))
            reset
            NTH=$n HOW=$how with_library "$room/nth.so" "$@" >out 2>said
            look "$@"
        done
    done
    echo "crash: $what: $total calls that write, each in five ways"
}

# after one run
look() {
    digit=$(cat status)
    tell
    if [ "$is" = neither ]; then
        fault 'the store is neither as before nor as after'
        return
    fi
    # `show` says the same of it, whatever lies beside it
    if [ -e store/store ]; then
        shown >now 2>say
        cmp -s now "$is.shown" || fault "the store is as $is, and it is shown otherwise: $(cat now say)"
    fi
    # of rework the last line is the answer; what changes is listed before the store is changed
    cp out answer
    if [ "$1" = rework ]; then
        grep '^changed' out >answer
        [ "$is" = before ] || grep -q '^3055501' out || fault 'the store has changed, and what changed is listed nowhere'
    fi
    if [ -s answer ] && [ "$is" != after ]; then fault "it answered '$(cat answer)', and the store is as before"; fi
    case $how in
    full | once)
        # the program has ended by itself: it tells, and leaves nothing lying about
        case $digit in
        0) [ "$is" = after ] || fault 'status 0, and the store is as before' ;;
        2) [ -s said ] || fault 'status 2 without a word' ;;
        *) [ "$n" -eq "$total" ] || [ "$how" = once ] || fault "its status is '$digit'" ;;
        esac
        if [ "$how" = full ]; then
            [ "$digit" != 2 ] || [ "$is" = before ] || grep -q 'has changed' said || [ -s out ] || fault 'status 2, and the store has changed'
            [ ! -e store/store.new ] || fault 'store.new is left'
        fi
        ;;
    esac
    # the next one works, and then the store is as after
    "$tool" "$@" >next 2>said.next
    tell
    [ "$is" = after ] && [ "$(ls store)" = store ] || fault "the next command did not lead on: $(cat next said.next)"
}

printf '3055501,,D001,02012024\n3055502,,D001,02012024\n' >table
mkdir D001 D002
printf '3055501,,04032024,D002,D001,P\rZeilenanzahl:2,\r' >D002/1D240305.txt
printf '3055501,,04032024,D002,D001,L\r3055502,,05032024,D002,D001,L\rZeilenanzahl:3,\r' >D001/1D240306.txt
every_call 'start' start store table
"$tool" start saved table >out || exit 1
"$tool" file saved D002 D002/1D240305.txt >out || exit 1
every_call 'file' file store D001 D001/1D240306.txt
rm -rf saved
mkdir saved && "$here/../lay" "$here/../old-store.txt" saved/store || exit 1
every_call 'rework of an old store' rework store
echo "crash: $turns turns, $bad faults"
[ "$bad" -eq 0 ]
