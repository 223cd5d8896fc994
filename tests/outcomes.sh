#!/bin/sh
# Each public function of a library, also one that is public within its crate alone, settles its outcome: its contract is an equation for its answer
# (or for the part that it lends back) and for each thing that it is lent to change, or a record that crates/promises shows to allow one outcome only.
# Where the answer is a struct, an equation for each of its fields, but ghost ones, is one for it (none of them by another field). An equation of a thing
# with itself is none. What is left out is named here with its reason, and with what is counted it makes all such functions. A method is named with its type.
set -eu
cd "$(dirname "$0")/.."
theorems=crates/promises/proofs/outcomes/Outcomes.antt

# rooms of a caller's own, that no user lends: what stands behind the keys and places laid, and what a table that is refused left. `gather` is the pass
# that `gather_all` and `index` make of the rooms that they are lent, and says of these what they say: the keys laid in front, not what stands behind
exceptions='working::gather::gather working::gather::gather_all working::indexing::index::index working::indexing::find::gather_indexed filing::renewing::named::tag_file starting::tables::scratch::judge'
# rooms of a caller's own too, each named behind its function: only what becomes of that room is left out, all else is asked. `room` is lent down so that
# it isn't cleared for each number; those of an index are lent back in its fields of their names, and what they hold is what its ghost field says
rooms='working::indexing::find::work_indexed:room working::overview::lines::line_standing:room filing::renewing::turn::renew_record:room working::indexing::find::Index::new:keys working::indexing::find::Index::new:places'
# the program's crates: what they print and keep has no contract, and is tested
program='desk words disk shown commands offers questions reasons'

for root in crates/*/src/lib.rt; do
    crate=${root#crates/} crate=${crate%%/*}
    case " $program " in *" $crate "*) continue ;; esac
    find "crates/$crate/src" -name '*.rt'
done | sort | xargs awk -v theorems="$theorems" -v exceptions="$exceptions" -v rooms="$rooms" '
    BEGIN {
        while ((getline line <theorems) > 0)
            if (match(line, /Settles \(λ \(o : [^.]*\. /)) {
                name = substr(line, RSTART + RLENGTH)
                sub(/ .*/, "", name)
                settled[name] = 1
            }
        count = split(exceptions, listed, " ")
        for (i = 1; i <= count; i++)
            excepted[listed[i]] = 1
        rooms_count = split(rooms, with_room, " ")
        for (i = 1; i <= rooms_count; i++) {
            room = with_room[i]; sub(/.*:/, "", room)
            name = substr(with_room[i], 1, length(with_room[i]) - length(room) - 1)
            with_room[i] = name " " room
            excepted[with_room[i]] = 1
            if (!(name in roomy)) { roomy[name] = 1; rooms_functions++ }
        }
    }
    function fail(why) { printf "outcomes: %s: %s\n", here, why; failed++ }
    # without the brackets around it
    function bare(text) { while (text ~ /^[( ]/) text = substr(text, 2); while (text ~ /[) ]$/) text = substr(text, 1, length(text) - 1); return text }
    # an equation among those of a clause whose two sides are the same
    function idle(line,    parts, sides, i, n) {
        n = split(line, parts, " × ")
        for (i = 1; i <= n; i++) if (split(parts[i], sides, " ≡ ") == 2 && bare(sides[1]) == bare(sides[2])) return bare(parts[i])
        return ""
    }
    # whether there is an equation for each field of the struct that is answered
    function answered_by_fields(    i, n, names) {
        if (said == "") return 0
        if (!((file "::" answer) in fields)) { fail("the fields of its answer are not known"); return 1 }
        n = split(fields[file "::" answer], names, " ")
        for (i = 1; i <= n; i++)
            if ((here " " names[i]) in excepted) met[here " " names[i]] = 1
            else if (index(said " ", " " names[i] " ") == 0) fail("no equation for " names[i] " of the answer")
        return 1
    }
    # the contract of the function whose head has ended
    function judge(    i, n, names) {
        if (here in excepted) { met[here] = 1; return }
        if (contract == "") { fail("no ensures"); return }
        n = split(lent, names, " ")
        for (i = 1; i <= n; i++)
            if ((here " " names[i]) in excepted) met[here " " names[i]] = 1
            else if (index(contract, " " names[i] ".new ") == 0 && index(contract, "(" names[i] ".new ") == 0)
                fail("what becomes of " names[i] " is not said")
        if (form != "" && !(form in settled)) fail("no theorem says that " form " settles its outcome")
        if (gives && form == "" && !answered && !answered_by_fields()) fail("no equation for the answer")
        functions++
    }
    # the path below src is the path of its functions; lib.rt is the crate itself
    FNR == 1 {
        inside = 0; type = ""; struct = ""; file = FILENAME
        sub(/^crates\//, "", file); sub(/\/src\//, "/", file); sub(/(\/lib)?\.rt$/, "", file); gsub("/", "::", file)
    }
    # the types of the file: the fields of its structs, and whose methods stand here
    /^(pub(\(crate\))? )?struct .* \{$/ {
        struct = $0; sub(/^.*struct /, "", struct); sub(/[^a-z_0-9A-Z].*/, "", struct); struct = file "::" struct
        fields[struct] = ""
    }
    struct != "" && /^    (pub(\(crate\))? )?[a-z_0-9]+: / {
        name = $0; sub(/: .*/, "", name); sub(/.* /, "", name)
        fields[struct] = fields[struct] " " name
    }
    /^impl/ { type = $0; sub(/^.* for /, "", type); sub(/^impl(<[^>]*>)? /, "", type); sub(/[^a-z_0-9A-Z].*/, "", type); type = type "::" }
    /^}/ { type = ""; struct = "" }
    /^ *pub(\(crate\))? (extern "C" )?fn / {
        if (inside) fail("its head has no end that can be told")
        inside = 1; lent = ""; contract = ""; form = ""; answered = 0; said = ""; gives = 0; answer = ""; publics++
        name = $0; sub(/^ *pub(\(crate\))? (extern "C" )?fn /, "", name); sub(/[^a-z_0-9A-Z].*/, "", name)
        here = file "::" type name
    }
    inside && /^ *ensures / {
        line = $0; sub(/^ *ensures [a-z_0-9]* *\{ /, "", line); sub(/ \}$/, "", line)
        # names for parts of the arguments, in front of the fact
        while (line ~ /^let [a-z]+ = / && (at = index(line, " in "))) line = substr(line, at + 4)
        gsub(/\)/, " )", line)
        contract = contract " " line " "
        if (idle(line) != "") fail("says nothing: " idle(line))
        if (line ~ /^\(?result(\.now)? ≡ /) answered = 1
        else if (line ~ /^result\.[a-z_0-9]+(\.now)? ≡ / && line !~ / ≡ .*result/) { name = substr(line, 8); sub(/[. ].*/, "", name); said = said " " name }
        else if (line !~ /^\(?[a-z_]+\.new ≡ /) { form = line; sub(/ .*/, "", form) }
        next
    }
    # What other crates call of a trait: a public trait gives each impl its contract, and `from_gives` is that of a From.
    /^pub trait / { trait = $3; sub(/[^A-Za-z0-9_].*/, "", trait) }
    trait != "" && /^ *fn / { method = $2; sub(/[^a-z_0-9A-Z].*/, "", method); here = file "::" trait "::" method; heard = 0 }
    method != "" && /^ *ensures / { heard = 1 }
    method != "" && /[;{}]$/ && !/^ *requires / { if (!heard) fail("no ensures"); method = "" }
    /^impl.* From<.* for / { from = file ": " $0; sub(/ \{.*/, "", from) }
    from != "" && /ghost from_gives = / && $7 == $8 "." && $9 == "≡" { from = "" }
    /^}/ { if (from != "") { here = from; fail("no equation in from_gives") } trait = from = method = "" }
    inside && /^ *requires / { next }
    inside {
        line = $0
        while (match(line, /[a-z_]+: &(.[a-z]+ )?mut /)) {
            name = substr(line, RSTART, RLENGTH); sub(/:.*/, "", name)
            lent = lent " " name
            line = substr(line, RSTART + RLENGTH)
        }
        if (at = index($0, "-> ")) { gives = 1; answer = substr($0, at + 3); sub(/[^a-z_0-9A-Z].*/, "", answer); if (answer == "Self") answer = substr(type, 1, length(type) - 2) }
        # a head ends where the body begins, which may stand on its line
        if ($0 ~ /\{$/ || $0 ~ /\{.*\}$/) { judge(); inside = 0 }
    }
    END {
        for (i = 1; i <= count; i++)
            if (!(listed[i] in met)) { printf "outcomes: %s is left out and is not there\n", listed[i]; failed++ }
        for (i = 1; i <= rooms_count; i++)
            if (!(with_room[i] in met)) { sub(/ /, " has no ", with_room[i]); printf "outcomes: %s that is left out\n", with_room[i]; failed++ }
        if (!failed && functions + count != publics) { printf "outcomes: there are %d public functions, and %d were looked at\n", publics, functions + count; failed++ }
        printf "outcomes: %d public functions, each with one outcome, %d of them but for a room; %d left out\n", functions, rooms_functions, count
        exit failed > 0
    }'
