#!/bin/sh
# The wrong programs: those in crates/NAME/must-fail are tried at each gate, those in crates/NAME/wrong whenever their crate changed (tests/again). Each can
# be made, and each public function of a library has two at least, of which one is tried at each gate, unless no user meets the crate's functions (`inner` in
# tests/outer). So has each function of an `impl` of a public trait of these crates, or of `From`, which other crates call too: its name is that of its proof,
# the type's and the trait's words joined (`field::OptionField::len`, `reading::NumbersFromResultUnitNoRecord::from`); one that only hands on to the function
# of its type that has its name has those of that one. Above each change stands what is refused (tests/refused has the three forms): of code `wrong: NAME
# FUNCTION` or `FUNCTION.NEED`, and an edit may make several functions wrong at once; of a definition `wrong: NAME FILE.THEOREM`, the theorem that does not
# hold with it, or the function that does not follow it. A crate has one edit of code in must-fail, since each costs a check of the whole crate; its file is
# named by its strongest wrong program. A wrong program whose tests or calls have other names may bring these along in the answers of its proof (`file:
# proofs/FUNCTION/Answers.antt`). An edit with a line `of: definitions` changes definitions alone.
# With the name of a crate: of that crate alone.
set -eu
cd "$(dirname "$0")/.."
# the program's crates: what they print and keep has no contract, and is tested
program='desk words disk shown commands offers questions reasons'
# the programs that the scope paper shuts out by name: each is tried at each gate, and names the need that is its promise
paper='filing/refuses_all_files filing/stores_nothing verdict/10_answered_to_every_report verdict/holder_never_moves filing/later_files_only_journaled
filing/count_invented'
# tried at each gate beside a crate's one edit of code: their functions had an edit each before they became one with another
beside='order/many_taken_for_few order/single_key_halved verdict/equal_report_kept_again layout/date_measured_with_six_digits layout/kind_of_two_bytes
working/journals_exchanged_in_the_fold store/high_bit_lost'
public=$(mktemp)
trap 'rm -f "$public" "$public.sum"' EXIT

# the public traits of these crates
traits=$(find crates/*/src -name '*.rt' | xargs awk '/^ *pub trait / { name = $3; sub(/[^A-Za-z0-9_].*/, "", name); print name }')

# the public functions of a library, and those of its impls of these traits and of `From`, by their paths below the crate
public_of() {
    find "crates/$1/src" -name '*.rt' | sort | xargs awk -v traits="$(echo From $traits)" '
        BEGIN { n = split(traits, names, " "); for (i = 1; i <= n; i++) public[names[i]] = 1 }
        # the words of a type or a trait, joined; without the parameters of its impl, and without the modules of a path
        function joined(text,    words, n, i, name) {
            gsub(/\(\)/, "Unit", text); gsub(/[a-z_0-9]+::/, "", text); gsub(/\047[a-z_]+/, "", text)
            n = split(text, words, /[^A-Za-z0-9_]+/); name = ""
            for (i = 1; i <= n; i++) if (!(words[i] in parameter)) name = name toupper(substr(words[i], 1, 1)) substr(words[i], 2)
            return name
        }
        # in an impl of one of these traits: what stands before the name of a function
        function begin(head,    part, n, i, trait) {
            split("", parameter)
            if (match(head, /^<[^>]*>/)) {
                n = split(substr(head, 2, RLENGTH - 2), part, ",")
                for (i = 1; i <= n; i++) { gsub(/ |:.*/, "", part[i]); parameter[part[i]] = 1 }
                head = substr(head, RLENGTH + 1)
            }
            sub(/^ */, "", head); sub(/ *(where .*)?\{.*/, "", head)
            i = index(head, " for "); trait = substr(head, 1, i - 1)
            name = trait; sub(/<.*/, "", name); sub(/.*::/, "", name)
            return name in public ? joined(substr(head, i + 5)) joined(trait) "::" : ""
        }
        FNR == 1 { file = FILENAME; sub(/^crates\/[^\/]*\/src\//, "", file); sub(/\.rt$/, "", file); gsub("/", "::", file); of = file == "lib" ? "" : file "::"; type = met = "" }
        /^impl[ <]/ { type = $0; sub(/^impl(<[^>]*>)? */, "", type); sub(/[^A-Za-z0-9_].*/, "", type); type = type "::" }
        /^impl[ <].* for / { met = begin(substr($0, 5)) }
        /^}/ { type = met = "" }
        # one that only hands on to the function of its type that has the same name is that one, which has its own wrong programs
        own != "" { if ($0 !~ "^ *self[.]" own "[(].*[)]$") print of met own; own = "" }
        met != "" && /^ *fn / { own = $2; sub(/[^a-z_0-9A-Z].*/, "", own) }
        /^ *pub (extern "C" )?fn / { name = $0; sub(/^ *pub (extern "C" )?fn /, "", name); sub(/[^a-z_0-9A-Z].*/, "", name); print of type name }'
}

failed=0
all=0
functions=0
for folder in crates/${1:-*}/; do
    crate=$(basename "$folder")
    : >"$public"
    case " $program " in
    *" $crate "*) ;;
    *) if [ -f "crates/$crate/src/lib.rt" ]; then public_of "$crate" >"$public"; fi ;;
    esac
    find "crates/$crate/must-fail" "crates/$crate/wrong" -name '*.edit' 2>/dev/null | sort | xargs awk -v crate="$crate" -v public="$public" -v paper="$(echo $paper)" -v unmet="$(grep -cx "inner $crate" tests/outer)" -v beside="$(echo $beside)" '
        BEGIN { for (i = split(beside, besides_list, " "); i > 0; i--) besides[besides_list[i]] = 1 }
        function fail(why) { printf "wrong: %s: %s\n", crate, why; failed = 1 }
        function name_it(name) { if (name in named) fail(name " is there twice"); named[name] = 1; all++; called = called || name == label }
        # the file of proofs that a theorem stands in has a name of its own, with a capital; a function has none
        function is_law(of,    last) { last = of; sub(/.*::/, "", last); return last ~ /^[A-Z]/ }
        # a theorem has its line in its file
        function is_proved(of, name,    text) {
            gsub("::", "/", of); text = read("crates/" crate "/proofs/" of ".antt")
            return name != "" && (index(text, "\n" name " :") || index(text, " " name " :"))
        }
        # each function has the need `returns`; any other that is named stands among its answers
        function is_need(of, name,    text) {
            gsub("::", "/", of); text = read("crates/" crate "/proofs/" of "/Answers.antt")
            return name == "returns" || index(text, "\npub " name " :")
        }
        # the edit that ends here is called by one of its wrong programs
        function finish() { if (label != "" && !called) fail(folder "/" label ".edit has no wrong program of its name"); label = "" }
        function read(file,    line, text) { text = ""; while ((getline line <file) > 0) text = text line "\n"; close(file); return text }
        # the function in whose text a place lies
        function inside(text, at,    lines, i, head) {
            for (i = split(substr(text, 1, at), lines, "\n"); i > 0; i--)
                if (match(lines[i], /^ *(pub |pub\(crate\) )?(extern "C" )?fn [a-zA-Z_0-9]+/)) {
                    head = substr(lines[i], RSTART, RLENGTH)
                    sub(/.* /, "", head)
                    return head
                }
            return ""
        }
        FNR == 1 {
            finish()
            split("", texts); split("", here); of = ""; label = FILENAME; sub(/.*\//, "", label); sub(/\.edit$/, "", label)
            called = 0; split(FILENAME, path, "/"); folder = path[3]; joined = 0; told = 0; defines = 0
        }
        /^wrong: / {
            if (NF != 3) fail("not a name and what is refused: " $0)
            told = 1; name_it($2); of = what = $3; sub(/\..*/, "", of); inner = substr(what, length(of) + 2)
            if (what in here) fail(FILENAME ": " what " is wrong twice at once, so neither can be told from the other")
            here[what] = 1
            if (is_law(of)) { if (!is_proved(of, inner)) fail("no theorem " inner " in the proofs of " of); of = ""; next }
            if (of in here && what != of) fail(FILENAME ": " of " is wrong twice at once, so neither can be told from the other")
            here[of] = 1; fresh = 1
            if (inner != "" && !is_need(of, inner)) fail("no need " inner " in the proof of " of)
            if (inner != "" && folder == "must-fail") promise[$2] = inner
        }
        # a wrong program of a function is an edit of code; a definition that its code does not follow is none of its own
        /^file: src\// && of != "" && fresh {
            count[of]++; fresh = 0
            if (folder == "must-fail") { always[of]++; if (!joined++ && !(crate "/" label in besides) && edits++) fail("two edits of functions are tried at each gate: " FILENAME " is one too many") }
        }
        /^of: definitions$/ { defines = 1 }
        /^file: / && defines && !/^file: specs\// { fail(FILENAME " is of definitions, and changes " $2) }
        /^file: proofs\// && $2 !~ ("/[+]?" last "/Answers[.]antt$") { fail(FILENAME ": the answers that it changes are not those of " last ": " $2) }
        /^file: / { file = "crates/" crate "/" substr($0, 7); if (!(file in texts)) texts[file] = read(file); text = texts[file] }
        /^old: / {
            if (!told) fail(FILENAME ": above a change nothing says what is refused")
            old = substr($0, 6); at = index(text, old)
            if (!at || index(substr(text, at + length(old)), old)) fail("does not stand once in " file ": " old)
            last = of; sub(/.*::/, "", last); where = inside(text, at + length(old) - 1)
            if (of != "" && where != "" && where != last) fail("the change for " of " is in " where)
        }
        # the next change is made in what this one leaves
        /^new:/ { new = substr($0, 5); sub(/^ /, "", new); if (at) texts[file] = text = substr(text, 1, at - 1) new substr(text, at + length(old)) }
        END {
            finish()
            while ((getline line <public) > 0) {
                functions++
                if (count[line] < 2) fail(line " has " count[line] + 0 " of two wrong programs")
                if (!always[line] && !unmet) fail(line " has no wrong program that is tried at each gate")
            }
            for (i = split(paper, shut, " "); i > 0; i--)
                if (index(shut[i], crate "/") == 1 && !(substr(shut[i], length(crate) + 2) in promise)) fail(shut[i] ", which the paper shuts out, is not tried at each gate by a need")
            print functions + 0, all + 0 >(public ".sum")
            exit failed
        }' || failed=1
    read -r f a <"$public.sum"
    functions=$((functions + f)) all=$((all + a))
done
[ "$failed" -eq 0 ] || exit 1
echo "wrong: $all wrong programs, two at least for each of $functions public functions, one of them tried at each gate"
