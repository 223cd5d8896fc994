# The help of bin/dagskimra, which reads this file.
help() { # [COMMAND]
    case $1 in
    '')
        cat <<'END'
Dagskimra keeps the books of a telephone number exchange in a folder, STORE.

  dagskimra start STORE TABLE               start a store from a number table
  dagskimra file STORE PUBLISHER FILE...    file porting files of one publisher
  dagskimra file STORE --list LIST          file those that a list names
  dagskimra files STORE                     what was filed, in order of arrival
  dagskimra show STORE [NUMBER...]          who holds which number, and what is open
  dagskimra show STORE --before N [NUMBER...]   the same before file N arrived
  dagskimra why STORE NUMBER...             the two reports under which a number moved
  dagskimra verdicts STORE                  every filed record and its verdict
  dagskimra figure STORE                    compare the table with what the journals say
  dagskimra rework STORE                    work the table out again, list changes
  dagskimra read FILE                       the records of a file, without a store
  dagskimra demo                            a small day at the bureau
  dagskimra help COMMAND                    one command with an example
  dagskimra --version                       version, kit, sum of the sources, program

Output is tab separated, a line each; words for people go to standard error.
Exit status: 0 all is well; 1 something was refused, or the figure is not 0;
2 the command line is wrong, a file can't be read or written, or the store wants
rework.
END
        ;;
    start)
        cat <<'END'
usage: dagskimra start STORE TABLE

Makes the folder STORE and starts a store in it. TABLE is text: for each number
a line num1,num2,OWNER,ddmmyyyy (its digits; for a block the last number; the
network that owns it; its set-up day), ended by LF.
Prints `started` and the count of lines, or `refused` 6. A store that is there
already is left alone (status 2).

  printf '3055501,,D001,02012024\n' >table.txt
  dagskimra start books table.txt
END
        ;;
    file)
        cat <<'END'
usage: dagskimra file STORE PUBLISHER FILE...
       dagskimra file STORE --list LIST

Files default (1Dyymmdd.txt) and correction files (1Kyymmdd.txt); the name tells
kind and publication day. A line of LIST is PUBLISHER, a tab and PATH.
Prints for each file PATH `filed` COUNT (journal records whose number the file
names), or PATH `refused` NO:
  1   the publisher is no network code       4   it breaks its layout
  2   the name tells no kind and day         5   there is no room
  3   it is filed already                    44  the store is damaged
Behind a 4 stand PLACE, FIELD and CAUSE of the first fault: the record, counted
from 0; the field, by its "Pos." in the specification's table, or 0; and one of
  character   a character outside 4.4.1
  length      a field of the wrong length, or missing
  date        a date that does not exist
  code        a network code that is none
  value       a value that the table does not allow
  closing     a closing record that is missing, or whose count disagrees
  after       bytes after the end
Standard error shows the record with a mark under the field.
A refused file changes nothing. What is answered as filed is on the disk.

  dagskimra file books D001 D001/1D240305.txt D001/1K240306.txt
END
        ;;
    files)
        cat <<'END'
usage: dagskimra files STORE

Prints for each filed file in order of arrival: N (from 1), `default` or
`correction`, PUBLISHER, DAY, RECORDS.

  dagskimra files books
END
        ;;
    show)
        cat <<'END'
usage: dagskimra show STORE [--before N] [NUMBER...]

Prints for each number of the table, or each that is named, NUMBER, HOLDER, LAST
(the last confirmed porting date, or -) and OPEN: - or the open reports joined by
semicolons, each PLACE:KIND:DATE:LOSING>GAINING:PUBLISHED. With --before N: as the
table stood before file N of `files` arrived. NUMBER is num1 or num1-num2; one
that the table does not have is `refused` 12; no file N is `refused` 7.

  dagskimra show books 3055501
  dagskimra show books --before 2 3055501
END
        ;;
    why)
        cat <<'END'
usage: dagskimra why STORE NUMBER...

Prints for each number `pair` and the two reports under which it moved last, as
they were published, each with its publication day, the one processed first
coming first; or `none`; or `refused` 12 for a number that the table does not have.

  dagskimra why books 3055501
END
        ;;
    verdicts)
        cat <<'END'
usage: dagskimra verdicts STORE

Prints every filed record, the regular journal (R) first, then the corrections
(C): journal, PLACE, PUBLISHER, DAY, PLACE IN FILE, VERDICT, RECORD.
  10 kept open                           20 an equal report is open
  11 confirmed                           21 too soon after its Z
  12 number not in the table             22 all eight places are taken
  13 not from the network that reports   30 the named report lapses
  14 losing and gaining are the same     31 code not permitted
  15 not before its publication          32 the objector's own report
  16 before the set-up day               33 no such report is open
  17 before the last confirmed date      34 code not 25XX
  18 on the last confirmed date
  19 Z not to the owner

  dagskimra verdicts books
END
        ;;
    figure)
        cat <<'END'
usage: dagskimra figure STORE

Works every entry out afresh from the journals and compares it with the stored
one. Prints `differ` D `of` M, and for each that differs NUMBER, then HOLDER LAST
OPEN as stored, then as worked out. The status is 1 where D is not 0; `rework`
mends the table.

  dagskimra figure books
END
        ;;
    rework)
        cat <<'END'
usage: dagskimra rework STORE

Works every entry out again from the journals: for a store whose entries were
worked out with another holiday list, which no other command takes, and for one
whose table is wrong. Prints for each entry that changes NUMBER, HOLDER LAST OPEN
as stored, HOLDER LAST OPEN as worked out; then all is put on the disk, and then
`changed` N `of` M is printed. With that line all is done; without it, call it
again. What changes is listed once: a second call then lists none. Or `refused`
44 where the store is damaged.

  dagskimra rework books >changed.txt
END
        ;;
    read)
        cat <<'END'
usage: dagskimra read FILE

Prints `record` PLACE RECORD for each record of a default (1D), correction (1K),
request (1Q) or response file (1R); or `refused` 4 PLACE FIELD CAUSE where the
file breaks its layout (see `help file`), with the record and a mark under the
field on standard error; or `refused` 2 for another name.

  dagskimra read D001/1D240305.txt
END
        ;;
    demo)
        cat <<'END'
usage: dagskimra demo

A small day at the bureau in a temporary folder: a number moves, a late file
arrives, an objection stops a pair, a damaged file is refused. Each command is
shown with what it prints. It stops at the first that ends otherwise than it
should, with status 2.
END
        ;;
    --version)
        cat <<'END'
usage: dagskimra --version

Prints `dagskimra` and its version; `kit` and the version of the Rattle kit, or
of the one that dist/ was made with where there is none; `sources` and the sum of
all that the program is made from; `program` and the one that is run, which is of
these sources, or `to be built`. It never builds.
END
        ;;
    help)
        cat <<'END'
usage: dagskimra help [COMMAND]
END
        ;;
    *)
        printf "dagskimra: there is no command '%s'; 'dagskimra help' lists them\n" "$1" >&2
        return 2
        ;;
    esac
}
