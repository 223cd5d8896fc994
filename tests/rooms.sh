#!/bin/sh
# The map: docs/rooms.svg is what docs/rooms.sh draws now; the table of rooms in docs/ARCHITECTURE.md has the rooms of the picture in its order, and in
# each row the modules that the room has, no fewer and no others.
set -eu
cd "$(dirname "$0")/.."
page=docs/ARCHITECTURE.md
fail() {
    echo "rooms: $*" >&2
    failed=1
}
failed=0
new=$(mktemp)
trap 'rm -f "$new" "$new.rooms" "$new.rows" "$new.modules" "$new.named"' EXIT

sh docs/rooms.sh >"$new"
cmp -s "$new" docs/rooms.svg || fail 'docs/rooms.svg is not up to date: sh docs/rooms.sh >docs/rooms.svg'

# the rooms of the picture, and the table's rows: each is a room, a bar, and the words in its last column
sed -n 's/.*font-weight="bold">\([a-z_0-9]*\)<.*/\1/p' "$new" >"$new.rooms"
awk '/^\| Room \|/ { on = 1; getline; next } on && !/^\|/ { exit } on { split($0, cell, / *[|] */); gsub(/`/, "", cell[2]); print cell[2] "|" cell[4] }' "$page" >"$new.rows"
[ -s "$new.rooms" ] || fail 'the picture has no rooms'
cut -d '|' -f 1 "$new.rows" | diff "$new.rooms" - >&2 || fail "$page: its table has not the rooms of the picture (<) in their order"

# the modules of a room, and those that its row names
while IFS='|' read -r room text; do
    cat "crates/$room/src/lib.rt" "crates/$room/src/main.rt" 2>/dev/null | sed -n 's/^\(pub \)\{0,1\}mod \([a-z_0-9]*\);.*/\2/p' | sort >"$new.modules"
    echo "$text" | grep -o '`[a-z_0-9]*`' | tr -d '`' | sort >"$new.named" || :
    diff "$new.modules" "$new.named" >&2 || fail "$page: the row of $room does not name its modules (<)"
done <"$new.rows"

[ "$failed" -eq 0 ] || exit 1
echo "rooms: $(wc -l <"$new.rooms" | tr -d ' ') rooms, in the picture and in the table"
