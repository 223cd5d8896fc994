#!/bin/sh
# docs/PROMISES.md and the pages of docs/promises against the tree: each function, definition, wrong program and theorem that a page names is there; each
# room but `laws` and the `_run` programs has one page, which says so in its first line (`# ROOM, ROOM: words`).
set -eu
export LC_ALL=C
cd "$(dirname "$0")/.."
room=$(mktemp -d)
trap 'rm -rf "$room"' EXIT

# all files but what the kit makes of them
find crates include tests bench witness -name out -prune -o -type f -print >"$room/files"
# words with an underscore, by themselves and behind the name of their crate; names of files and folders count too
{
    xargs grep -oE '[A-Za-z0-9_]*_[A-Za-z0-9_]*' /dev/null <"$room/files"
    find crates include tests bench witness -name out -prune -o -name '*_*' -print | sed 's/\(.*\)\/\([^/.]*\).*/\1\/:\2/'
} | awk -F: '
    function tell(name) { if (!seen[name]++) print "name " name }
    { tell($NF); if (split($1, part, "/") > 1 && part[1] == "crates") tell(part[2] "/" $NF) }' >"$room/there"
# types, and definitions that are called as one: words with a capital inside
grep -e '^crates/.*\.antt$' -e '^crates/.*\.rt$' "$room/files" | xargs grep -ohE '[A-Za-z]*[a-z][A-Z][A-Za-z]*' | awk '!seen[$0]++ { print "definition " $0 }' >>"$room/there"
# theorems: what is stated in a file of definitions or lemmas, by itself where its name has a hyphen, and behind the name of its file
grep -E '^crates/[^/]*/(specs|proofs)/.*\.antt$' "$room/files" | grep -v -e '/Answers\.antt$' -e '/Invariants\.antt$' -e '/Proof\.antt$' | sort | xargs awk '
    FNR == 1 { file = FILENAME; sub(/.*\//, "", file); sub(/\.antt$/, "", file) }
    # what is said or declared begins a line; a field of a record is indented
    { line = $0; sub(/^ *(pub )?(abbrev |unfoldable |record )?/, "", line); sub(/[ :].*/, "", line) }
    line ~ /[-_]/ && line !~ /^--/ { if (line ~ /-/) print "theorem " line; print "theorem " file "." line }' >>"$room/there"
# functions by each end of their path, and modules: the path below src is that of its functions; lib.rt is the crate itself
find crates/*/src -name '*.rt' | sort | xargs awk '
    function tell(path) { while (path ~ /::/) { print "function " path; sub(/^[^:]*::/, "", path) } }
    FNR == 1 { file = FILENAME; sub(/^crates\//, "", file); sub(/\/src\//, "/", file); sub(/(\/lib)?\.rt$/, "", file); gsub("/", "::", file); type = ""; tell(file) }
    /^impl[ <]/ { type = $0; sub(/^impl(<[^>]*>)? */, "", type); sub(/[^A-Za-z0-9_].*/, "", type); type = type "::" }
    /^}/ { type = "" }
    /^ *(pub(\([a-z]*\))? )?(extern "C" )?fn / { name = $0; sub(/^.*fn /, "", name); sub(/[^a-z_0-9A-Z].*/, "", name); tell(file "::" type name) }' >>"$room/there"
sed -n 's/^\([a-z_0-9]*\)\( staticlib\)\{0,1\}:.*/room \1/p' crates.txt | grep -v -e '_run$' -e ' laws$' >>"$room/there"

awk '
    function fail(why) { printf "promises: %s\n", why; failed = 1 }
    # a name on this page, of one of the four sorts: it is there
    function look(sort, name) {
        if (seen[FILENAME, name]++) return
        count[sort]++
        if (!((sort " " name) in there)) fail(FILENAME " names " (sort == "name" ? "" : "the " sort " ") name ", which is not there")
    }
    # x_of, x_text and so on, x-trip and x-back stand for one of each field and record; the functions of include/dagskimra.h may stand without their first word
    function judge(name) {
        if (name ~ /^x[_-]/ || name == "must-fail") return
        if (name ~ /^([a-z_0-9]*\/)?[a-z0-9]*_[a-z_0-9]*$/) { sub(/^_/, "dagskimra_", name); look("name", name) }
        else if (name ~ /^[A-Za-z]*[a-z][A-Z][A-Za-z]*$/) look("definition", name)
        else if (name ~ /^[A-Za-z0-9.]*-[A-Za-z0-9.-]*$/ || name ~ /^[A-Z][A-Za-z]*\.[a-z0-9]*[-_][a-z0-9_-]*$/) look("theorem", name)
        else if (name ~ /^[a-z_0-9]*(::[A-Za-z_0-9]*)+(\(.*\))?$/) { sub(/\(.*/, "", name); look("function", name) }
    }
    NR == FNR { there[$0] = 1; if ($1 == "room") rooms[$2] = 0; next }
    FNR == 1 && FILENAME ~ /^docs\/promises\// && /^# [a-z_0-9, ]*: / {
        head = $0; sub(/^# /, "", head); sub(/: .*/, "", head)
        n = split(head, on, ", ")
        for (i = 1; i <= n; i++) if (on[i] in rooms) rooms[on[i]]++; else fail(FILENAME " is of " on[i] ", which is no room")
    }
    { n = split($0, part, "`"); for (i = 2; i < n; i += 2) judge(part[i]) }
    END {
        for (name in rooms) { all++; if (rooms[name] != 1) fail("the room " name " has " (rooms[name] ? "two pages" : "no page")) }
        if (failed) exit 1
        printf "promises: on the pages of %d rooms %d names, %d definitions, %d theorems", all, count["name"], count["definition"], count["theorem"]
        printf " and %d functions, each there\n", count["function"]
    }' "$room/there" docs/PROMISES.md docs/promises/*.md
