#!/bin/sh
# The C interface. Nothing checks a header against the source, so this does: its constants are those of the source, it declares exactly the functions
# that crate capi_c exports, the example calls each of them, and, compiled and linked with the archive, all that it compares is as expected.
#
# A C compiler for x86-64 is needed.
set -eu
cd "$(dirname "$0")/../.."
header=include/dagskimra.h
work=$(mktemp -d)
trap 'rm -rf "$work"' EXIT
fail() {
    echo "tests/tool/capi.sh: $1" >&2
    exit 1
}

# ---- constants: NAME in the header, VALUE of the source
constant() {
    is=$(sed -n "s/^#define DAGSKIMRA_$1 //p" $header)
    [ "$is" = "$2" ] || fail "DAGSKIMRA_$1 is $is in the header and $2 in the source"
}
number() { # FILE NAME
    sed -n "s/^pub const $2: [a-z0-9]* = \([0-9]*\);.*/\1/p" "crates/$1"
}
numbers=$(number store/src/numbers/lines.rt NUMBERS)
files=$(number store/src/journals/files.rt FILES)
reports=$(number store/src/journals/records.rt REPORTS)
corrections=$(number store/src/journals/records.rt CORRECTIONS)
report_slot=$((1 + $(number store/src/journals/records.rt LONGEST_REPORT)))
correction_slot=$((1 + $(number store/src/journals/records.rt LONGEST_CORRECTION)))
line=$(number store/src/numbers/lines.rt LINE)
line_head=$(number store/src/numbers/lines.rt HEAD)
file=$(number store/src/journals/files.rt SLOT)
file_head=$(number store/src/journals/files.rt HEAD)
entry=$(($(number store/src/entry_slots/entry.rt HEAD) + $(number entries/src/entry.rt PLACES) * $(number store/src/entry_slots/place.rt WIDTH)))
constant NUMBERS "$numbers"
constant FILES "$files"
constant REPORTS "$reports"
constant CORRECTIONS "$corrections"
constant REPORT_SLOT "$report_slot"
constant CORRECTION_SLOT "$correction_slot"
constant TABLE_LENGTH $((line_head + numbers * line))
constant FILES_LENGTH $((file_head + files * file))
constant REGULAR_LENGTH $((reports * report_slot))
constant CORRECTIONS_LENGTH $((corrections * correction_slot))
constant ENTRIES_LENGTH $((numbers * entry))
constant ENTRY_LENGTH "$entry"
constant NOWHERE "$reports"
constant NO_DAY "$(number capi/src/days.rt NO_DAY)"
constant LAST_DAY "$(number calendar/src/dates.rt LAST_DAY)"
constant HOLIDAYS "$(number calendar/src/table.rt COUNT)"
# the mark of the holiday list, which the example compares: worked out here once more from the list's source
mark=$(sed -n '/^ *[0-9][0-9, ]*,$/p' crates/calendar/src/table.rt | tr -d ',' | awk 'BEGIN { a = 1 } { for (i = 1; i <= NF; i++) { a += $i; b += a } } END { printf "%d", b }')
grep -q "^#define MARK $mark\$" include/example.c || fail "the mark of the holiday list is $mark, and the example has another"

# ---- causes: those of the source, each with its number, and no other
sed -n '/^pub enum Cause {/,/^}/s/^ *\([A-Za-z]*\) = \([0-9]*\),$/\1 \2/p' crates/faults/src/cause.rt | tr a-z A-Z >"$work/causes"
[ -s "$work/causes" ] || fail "no cause has a number in the source"
sed -n 's/^#define DAGSKIMRA_CAUSE_//p' $header >"$work/named"
cmp -s "$work/causes" "$work/named" || fail "the causes of the header are not those of the source"

# ---- functions
sed -n 's/^pub extern "C" fn \([a-z_]*\).*/\1/p' crates/capi_c/src/*.rt | sort >"$work/exported"
grep -o 'dagskimra_[a-z_]*(' $header | tr -d '(' | sort >"$work/declared"
grep -o 'dagskimra_[a-z_]*(' include/example.c | tr -d '(' | sort -u >"$work/called"
cmp -s "$work/exported" "$work/declared" || fail "the header declares other functions than crate capi_c exports"
cmp -s "$work/exported" "$work/called" || fail "the example does not call each function"

# ---- the example
cc=${CC:-cc}
if [ "$(uname -m)" != x86_64 ] || ! command -v "$cc" >/dev/null; then
    echo 'capi: the header is held to the source'
    echo "capi: SKIPPED: there is no C compiler for x86-64 here, $cc (package gcc), so the example was NOT run"
    exit 0
fi
bin/archive capi >"$work/log" 2>&1 || {
    cat "$work/log"
    fail "the archive was not built"
}
"$cc" -std=c11 -Wall -Wextra -Werror -O2 -static include/example.c target/staticlib/libcapi.a -o "$work/example"
echo "tests/tool/capi.sh: $("$work/example")"
