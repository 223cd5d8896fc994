# The demo of bin/dagskimra, which reads this file: a small day at the bureau, each command with what it prints. It stops at the first thing
# that fails.
demo() { # DAGSKIMRA
    tool=$1
    room=$(mktemp -d) || exit 2
    trap 'rm -rf "$room"' EXIT
    trap 'exit 2' HUP INT TERM
    cd "$room" || exit 2
    moved
    damaged
    late
    compared
    printf '\n'
}

tell() { printf '\n# %s\n' "$*"; }

failed() { # WHAT
    say "the demo stops here: $*"
    exit 2
}

# runs a command, shows it and what it prints, words for people too; it has to end with the status
run() { # STATUS WORDS...
    right=$1
    shift
    printf '$ dagskimra %s\n' "$*"
    "$tool" "$@" 2>said
    got=$?
    sed 's/^/  /' said
    [ "$got" -eq "$right" ] || failed "the status of this command is $got, and should be $right"
}

# a file of records, each ended by CR, with its closing record
published() { # PATH RECORD...
    path=$1 lines=$#
    shift
    mkdir -p "${path%/*}" && {
        for record; do printf '%s\r' "$record"; done
        printf 'Zeilenanzahl:%s,\r' "$lines"
    } >out && mv out "$path" || failed "$room/$path can't be written"
}

moved() {
    tell 'A number table: two numbers of network D001, one of D004.'
    printf '3055501,,D001,02012024\n3055502,,D001,02012024\n40600,40699,D004,02012024\n' >table.txt || failed "$room/table.txt can't be written"
    run 0 start books table.txt

    tell 'On 5 March D002 reports that it gained 3055501; D001 confirms on the 6th.'
    published D002/1D240305.txt '3055501,,04032024,D002,D001,P'
    published D001/1D240306.txt '3055501,,04032024,D002,D001,L' '3055502,,05032024,D003,D001,L'
    run 0 file books D002 D002/1D240305.txt
    run 0 file books D001 D001/1D240306.txt
    run 0 show books

    tell 'Under which two reports did the number move, and when were they published?'
    run 0 why books 3055501
}

damaged() {
    tell 'A damaged file (an O in a date) is refused with record, field and cause of its first fault, and changes nothing.'
    published D003/1D240307.txt '3055502,,05032024,D003,D001,P' '40600,40699,06O32024,D003,D004,P'
    run 1 file books D003 D003/1D240307.txt

    tell 'D003 publishes it again, whole.'
    published D003/1D240307.txt '3055502,,05032024,D003,D001,P' '40600,40699,06032024,D003,D004,P'
    run 0 file books D003 D003/1D240307.txt
    run 0 show books
}

late() {
    tell 'A late file: on 6 March D001 had objected to the report on 3055501. Corrections of a day come before its reports, so the pair is stopped.'
    published D001/1K240306.txt '2500U:3055501,,04032024,D002,D001,P,K:,,,,,'
    run 0 file books D001 D001/1K240306.txt
    run 0 files books
    run 0 show books 3055501
    run 0 why books 3055501
    run 0 verdicts books

    tell 'What did the table say before the late file?'
    run 0 show books --before 4 3055501
}

compared() {
    tell 'The weekly figure compares the table with what the journals say.'
    run 0 figure books

    tell 'Had the table been wrong, it would have shown it: a byte is changed behind its back.'
    # the entries stand at the end of the file, 100 bytes each; the first two bytes of one are its holder
    printf '\011' | dd of=books/store bs=1 seek="$(($(wc -c <books/store) - 102400 + 100))" conv=notrunc 2>/dev/null ||
        failed "$room/books/store can't be changed"
    run 1 figure books

    tell 'Reworking mends the table and lists what it changed.'
    run 0 rework books
    run 0 figure books
}
