#!/bin/sh
# Each public function of the program's crates, also one that is public within its crate alone, has a contract on its result, or stands in
# tests/without-contract with its reason. So does the function of each `impl Display`, by the name of its proof: `shown::entry::ShownPlaceDisplay::fmt`.
# (Those of the libraries are asked for more: tests/outcomes.sh.)
set -eu
cd "$(dirname "$0")/.."
program='desk words disk shown commands offers questions reasons'

for crate in $program; do
    find "crates/$crate/src" -name '*.rt'
done | sort | xargs awk -v list=tests/without-contract '
    function fail(why) { printf "contracts: %s\n", why; failed++ }
    BEGIN {
        while ((getline line <list) > 0) {
            if (line ~ /^(#|$)/) continue
            if (split(line, word, " ") != 2 || word[1] !~ /^(prints|system|status|mark)$/) fail("tests/without-contract: not a reason and a function: " line)
            if (word[2] in reason) fail(word[2] " is listed twice")
            reason[word[2]] = word[1]
        }
    }
    function judge() {
        publics++
        if (here in reason) {
            met[here] = 1; listed++
            if (contract) fail(here " is listed, and has a contract")
        } else if (!contract) fail(here " has no contract on its result, and is not listed")
    }
    # an equation whose two sides are the same says nothing, and a clause that does not name the answer says nothing of it
    function says(line,    sides) {
        sub(/^ *ensures [a-z_0-9]* *\{ /, "", line); sub(/ \}$/, "", line)
        if (split(line, sides, " ≡ ") == 2 && sides[1] == sides[2]) return 0
        return !gives || line ~ /(^|[ (])result([ ).]|$)/
    }
    # the words of a type, joined
    function joined(type,    words, n, i, name) {
        gsub(/[a-z_0-9]+::|\047[a-z_]+/, "", type)
        n = split(type, words, /[^A-Za-z0-9_]+/)
        for (i = 1; i <= n; i++) name = name toupper(substr(words[i], 1, 1)) substr(words[i], 2)
        return name
    }
    # the path below src is the path of its functions; lib.rt is the crate itself
    FNR == 1 {
        inside = 0; printed = ""; file = FILENAME
        sub(/^crates\//, "", file); sub(/\/src\//, "/", file); sub(/(\/lib)?\.rt$/, "", file); gsub("/", "::", file)
    }
    /^ *pub(\(crate\))? fn / {
        inside = 1; contract = 0; gives = 0
        name = $0; sub(/^ *pub(\(crate\))? fn /, "", name); sub(/[^a-z_0-9A-Z].*/, "", name)
        here = file "::" name
    }
    /^impl.* (fmt::)?Display for / { printed = $0; sub(/.*Display for /, "", printed); printed = joined(printed) "Display::" }
    /^}/ { printed = "" }
    printed != "" && /^ *fn / {
        inside = 1; contract = 0; gives = 0
        name = $2; sub(/[^a-z_0-9A-Z].*/, "", name)
        here = file "::" printed name
    }
    inside && index($0, "->") && !/^ *(ensures|requires) / { gives = 1 }
    inside && /^ *ensures / { if (says($0)) contract = 1; next }
    inside && /^ *requires / { next }
    # a head ends where the body begins, which may stand on its line
    inside && (/\{$/ || /\{.*\}$/) { judge(); inside = 0 }
    END {
        for (name in reason) if (!(name in met)) fail(name " is listed and is not there")
        printf "contracts: %d public functions and printed values of the program, %d with a contract on their result; %d listed without\n", publics, publics - listed, listed
        exit failed > 0
    }'
