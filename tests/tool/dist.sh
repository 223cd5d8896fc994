#!/bin/sh
# The program of dist/ and the one that was just built from the sources have the same bytes. On another processor than the one that dist/ was
# made on this is told, and need not be.
set -u
cd "$(dirname "$0")/../.."
root=$(pwd -P)
. bin/program.sh
built=target/bin/$name
made_on=$(told processor dist/BUILT)
if cmp -s "$built" "dist/$name"; then
    echo "dist: the program of dist/, made on $made_on, and the one built here, on $(uname -m), are the same $(($(wc -c <"$built"))) bytes"
    exit
fi
echo "dist: the program of dist/, made on $made_on, is not the one built here, on $(uname -m):"
cmp "$built" "dist/$name" 2>&1 | sed 's/^/  /'
echo "  $(cmp -l "$built" "dist/$name" 2>/dev/null | wc -l) bytes differ where both have one"
if [ -f "$built" ] && [ -f "dist/$name" ] && [ "$made_on" != "$(uname -m)" ]; then exit 0; fi
echo "'sh dist/make' makes dist/ anew; commit what it makes"
exit 1
