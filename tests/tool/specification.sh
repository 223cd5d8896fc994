#!/bin/sh
# The specification's examples of chapter 11, run through the tool. tests/specification/SECTIONS lists its sections: each that is run has its file there, and
# each file its section; the comments of a file that begin with `# SECTION, lines ..:` name all lines that are listed, and no others. A section that is not
# run, or in which something is refused, gets 34 (not built) or is marked as a difference, has a row in docs/DIFFERENCES.md.
set -eu
cd "$(dirname "$0")/../.."
room=$(mktemp -d)
trap 'rm -rf "$room"' EXIT
trap 'exit 2' HUP INT TERM
failed=0
tab=$(printf '\t')
fail() {
    echo "specification: $*" >&2
    failed=1
}

# the first column of the differences, a word a line
sed -n 's/^| \([0-9][^|]*\) |.*/\1/p' docs/DIFFERENCES.md | tr -s ' ,' '\n\n' >"$room/different"
differs() { # SECTION
    grep -qxF -- "$1" "$room/different" || fail "docs/DIFFERENCES.md has no row for section $1"
}

# the words of standard input, each once
words() { tr -s ' ' '\n' | sed '/^$/d' | sort -u; }

sections=0 lines=0 left=0
: >"$room/listed"
while read -r section how rest; do
    case $section in '#'* | '') continue ;; esac
    file=tests/specification/$section.txt
    echo "$section" >>"$room/listed"
    case "$how $rest" in
    'run '*)
        sections=$((sections + 1)) lines=$((lines + $(echo "$rest" | wc -w)))
        if [ ! -f "$file" ]; then
            fail "section $section is to be run, and $file is not there"
            continue
        fi
        grep -q '^\$ verdicts ' "$file" || fail "$file asks for no verdicts"
        echo "$rest" | words >"$room/wanted"
        awk -v own="# $section, line" 'index($0, own) == 1 { sub(/^[^,]*, lines? /, ""); sub(/:.*/, ""); print }' "$file" | words >"$room/named"
        diff "$room/wanted" "$room/named" >&2 || fail "$file: its comments do not name just the lines (<) that SECTIONS has"
        if grep -q -e DIFFERENCES -e "${tab}refused$tab" -e "^> C.*${tab}34$tab" "$file"; then differs "$section"; fi
        ;;
    'not run: '?*)
        left=$((left + 1))
        differs "$section"
        [ ! -f "$file" ] || fail "section $section is not to be run, and $file is there"
        ;;
    *) fail "SECTIONS says neither that $section is run nor why it is not" ;;
    esac
done <tests/specification/SECTIONS
[ -z "$(sort "$room/listed" | uniq -d)" ] || fail "SECTIONS has twice: $(sort "$room/listed" | uniq -d)"
for file in tests/specification/*.txt; do
    section=$(basename "$file" .txt)
    grep -qxF -- "$section" "$room/listed" || fail "$file is there, and SECTIONS does not have its section"
done
echo "specification: of chapter 11 $sections sections are run, with $lines numbered lines; $left are not"

tests/play tests/specification/*.txt || failed=1
exit "$failed"
