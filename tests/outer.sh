#!/bin/sh
# Each function that tests/outer lists is there, is public, and asks for nothing. Each function that is exported to other languages is listed there, unless
# its crate stands there as inner; or its crate is called as the crate of a listed one, with `_c` behind: then it is that function once more, under the same
# name, with the same parameters and clauses, and does nothing but call it.
set -eu
cd "$(dirname "$0")/.."
find crates/*/src -name '*.rt' | sort | xargs awk '
    FNR == 1 { head = "" }
    function fail(why) { printf "outer: %s\n", why; failed = 1 }
    FILENAME == "tests/outer" {
        if (/^inner /) inner[$2] = 1
        else if (/^[a-z]/) { if ($1 in listed) fail($1 " is listed twice"); listed[$1] = 1; count++ }
        next
    }
    # the path below src is the path of its functions; lib.rt is the crate itself
    FNR == 1 { file = FILENAME; sub(/^crates\//, "", file); sub(/\/src\//, "/", file); sub(/(\/lib)?\.rt$/, "", file); gsub("/", "::", file); type = "" }
    /^impl[ <]/ { type = $0; sub(/^impl(<[^>]*>)? */, "", type); sub(/[^A-Za-z0-9_].*/, "", type); type = type "::" }
    /^}/ { type = "" }
    /^ *(pub(\([a-z]*\))? )?(extern "C" )?fn / {
        head = $0; sub(/^.*fn /, "", head); sub(/[^a-z_0-9A-Z].*/, "", head); head = file "::" type head
        crate = file; sub(/::.*/, "", crate)
        if (/extern "C"/) {
            twin = head
            if (crate in inner) used[crate] = 1
            else { exported++; if (sub(/_c::/, "::", twin)) offers[head] = twin; if (!(twin in listed)) fail(head " is exported, and tests/outer does not list " (twin == head ? "it" : twin)) }
        }
        function_of = head
        if (head in listed) { if (/^ *pub (extern "C" )?fn /) there[head] = 1; else fail(head " is not public") }
    }
    # what a function takes, gives and promises, and what it does, each in one line
    function_of != "" {
        line = $0; sub(/^ */, "", line); sub(/^pub (extern "C" )?fn /, "", line)
        if (/^ *}$/) function_of = ""
        else if (head != "" && !/^ *{$/) says[function_of] = says[function_of] line " "
        else if (!/^ *{$/) does[function_of] = does[function_of] line
    }
    head in listed && /^ *requires/ { fail(head " asks for something: " $0) }
    # a head ends where the body begins
    head != "" && (/\{$/ || /\{.*\}$/ && !/^ *(requires|ensures) /) { head = "" }
    END {
        for (name in listed) if (!(name in there)) fail(name " is listed, and is no public function")
        for (name in inner) if (!(name in used)) fail(name " is listed as inner, and exports nothing")
        for (name in offers) {
            twin = offers[name]; call = twin; sub(/[<(].*/, "", call)
            if (says[name] != says[twin]) fail(name " has other parameters or clauses than " twin)
            # the parameters in their order, as they are
            given = says[twin]; sub(/^[^(]*\(/, "", given); sub(/\).*/, "", given)
            gsub(/: [^,]*(,|$)/, ",", given); gsub(/[ ]/, "", given); sub(/,+$/, "", given)
            made = does[name]; gsub(/[ ]/, "", made); sub(/,\)$/, ")", made)
            if (made != call "(" given ")") fail(name " does not just call " twin ": " does[name])
        }
        if (!exported) fail("nothing is exported")
        if (!failed) printf "outer: %d functions that ask for nothing, among them all %d that are exported\n", count, exported
        exit failed
    }' tests/outer
