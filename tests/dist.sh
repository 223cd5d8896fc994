#!/bin/sh
# The program of dist/ is said to be of the sources that stand here, and is the one of which that is said. Whether it is, byte for byte, what
# they build is asked when the gate has built it (tests/tool/dist.sh).
set -u
cd "$(dirname "$0")/.."
root=$(pwd -P)
. bin/program.sh
find_kit
sum=$(sources)
if made "dist/$name" dist/BUILT; then
    echo "dist: the program of dist/ is of these sources, $sum"
    exit
fi
echo 'dist: the program of dist/ is not of these sources:'
printf '  these sources %s, with kit %s\n' "$sum" "$kit_id"
if [ -f dist/BUILT ]; then sed 's/^/  dist\/BUILT: /' dist/BUILT; else echo '  there is no dist/BUILT'; fi
if [ -f "dist/$name" ]; then echo "  dist/$name: $(sum_of "dist/$name")"; else echo "  there is no dist/$name"; fi
echo "'sh dist/make' makes dist/ anew; commit what it makes"
exit 1
