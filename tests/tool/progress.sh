#!/bin/sh
# Who files many files at a terminal sees how far it has come: from 20 files on, on standard error, and nowhere else.
# Needs script (Debian: bsdutils), which lends a terminal, and says so where it is missing.
set -u
here=$(cd "$(dirname "$0")" && pwd -P)
tool=$here/../../bin/dagskimra
if ! command -v script >/dev/null 2>&1; then
    echo 'progress: SKIPPED: there is no command script here (package bsdutils), so progress was NOT looked at'
    exit 0
fi
if ! script -qec true /dev/null </dev/null >/dev/null 2>&1; then
    echo 'progress: SKIPPED: the command script lends no terminal here, so progress was NOT looked at'
    exit 0
fi
room=$(mktemp -d) || exit 2
trap 'rm -rf "$room"' EXIT
trap 'exit 2' HUP INT TERM
cd "$room" || exit 2
bad=0
fault() {
    echo "progress: $*"
    bad=$((bad + 1))
}
printf '3055501,,D001,02012024\n' >table
mkdir nineteen twenty damaged
i=0
while [ "$i" -lt 20 ]; do
    i=$((i + 1))
    name=$(printf '1D2403%02d.txt' "$i")
    printf 'Zeilenanzahl:1,\r' >"twenty/$name"
    cp "twenty/$name" damaged/
    [ "$i" -eq 20 ] || cp "twenty/$name" nineteen/
    echo "file $i of 20" >>expected
done

# files the folder FOLDER into a new store with a terminal as standard error; the status has to be STATUS. What was shown there goes to
# `lines`, and how far it had come to `shown`, a line for each state.
at_a_terminal() { # FOLDER STATUS
    rm -rf store
    "$tool" start store table >out || fault 'no store was started'
    script -qec "'$tool' file store D001 $1/*.txt >out" said </dev/null >/dev/null
    status=$?
    [ "$status" -eq "$2" ] || fault "filing $1 files ends with $status: $(cat said)"
    tr '\r' '\n' <said >lines
    grep '^file ' lines >shown
}
at_a_terminal twenty 0
cmp -s shown expected || fault "of 20 files it shows: $(cat shown)"
[ "$(grep -c '	filed	0$' out)" -eq 20 ] || fault "of 20 files it prints: $(cat out)"
at_a_terminal nineteen 0
[ ! -s shown ] || fault "of 19 files it shows: $(cat shown)"
# why a file is refused with 4 is said in between, in lines of its own
printf '3055501,,30022024,D002,D001,P\r' >damaged/1D240307.txt
at_a_terminal damaged 1
cmp -s shown expected || fault "of 20 files, one of them damaged, it shows: $(cat shown)"
sed -n '/^$/d; s/^\(dagskimra: .*: refused (4)\): .*/\1/; /^file 6 of 20$/,/^file 7 of 20$/p' lines >between
cat >right <<'END'
file 6 of 20
dagskimra: damaged/1D240307.txt: refused (4)
    3055501,,30022024,D002,D001,P
             ^^^^^^^^
file 7 of 20
END
cmp -s between right || fault "about a damaged file it says: $(cat between)"
# where standard error is no terminal
rm -rf store
"$tool" start store table >out && "$tool" file store D001 twenty/*.txt >out 2>said
[ ! -s said ] || fault "to a file it says: $(cat said)"
echo "progress: 20 files at a terminal, 19, 20 with a damaged one, and 20 without a terminal; $bad faults"
[ "$bad" -eq 0 ]
