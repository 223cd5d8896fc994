#!/bin/sh
# The checking scripts can fail. Each is shown, in a copy of what it reads, a small bad case for each thing that it claims to find, and has to end with
# another status than 0 and say so; and it passes the copy as it is. Those that read what the prover said are shown it in small repositories of their own.
set -u
cd "$(dirname "$0")/.."
root=$PWD
room=$(mktemp -d) || exit 2
trap 'rm -rf "$room"' EXIT
trap 'exit 2' HUP INT TERM
bad=0 shown=0 changed=''

fault() {
    echo "checks: $*"
    sed 's/^/    /' "$room/said" | head -n 5
    bad=$((bad + 1))
}
passes() { # SCRIPT WORDS..
    shown=$((shown + 1))
    sh "$@" >"$room/said" 2>&1 || fault "$* does not pass what is right"
}
fails() { # WORDS SCRIPT WORDS..: the script ends otherwise and says the words; then the copy is as it was
    words=$1
    shift
    shown=$((shown + 1))
    if sh "$@" >"$room/said" 2>&1; then
        fault "$* passes, and should say '$words'"
    elif ! grep -qF -- "$words" "$room/said"; then
        fault "$* should say '$words', and says:"
    fi
    restore
}
restore() {
    for path in $changed; do
        rm -rf "$path"
        [ ! -e "$root/$path" ] || cp -R "$root/$path" "$path"
    done
    changed=''
}
change() { # PATH SED: a file of the copy
    changed="$changed $1"
    sed "$2" "$1" >"$room/new" && cmp -s "$room/new" "$1" && fault "'$2' changes nothing in $1"
    cp "$room/new" "$1"
}
add() { # PATH LINE..: lines behind a file of the copy
    path=$1
    shift
    changed="$changed $path"
    mkdir -p "${path%/*}"
    printf '%s\n' "$@" >>"$path"
}

mkdir "$room/copy"
cp -R crates.txt docs tests .ci bin dist include bench witness "$room/copy/"
# all but what the kit makes
for folder in crates/*/; do
    mkdir -p "$room/copy/$folder"
    for part in "$folder"*; do [ "$part" = "${folder}out" ] || cp -R "$part" "$room/copy/$folder"; done
done
cd "$room/copy" || exit 2

# ---- listed.sh
passes tests/listed.sh
changed=crates/forgotten
mkdir crates/forgotten
fails 'crates.txt does not list crates/forgotten' tests/listed.sh

# ---- outcomes.sh
of=crates/text/src/lib.rt
passes tests/outcomes.sh
change crates/filing/src/file.rt '/ensures {/d'
fails 'filing::file::file: no ensures' tests/outcomes.sh
add $of 'pub trait Loose {' '    fn loose(self) -> u8;' '}'
fails 'text::Loose::loose: no ensures' tests/outcomes.sh
add $of 'pub trait Loose {' '    fn loose(self, at: u8) -> u8' '        requires { at ≤ 9 };' '}'
fails 'text::Loose::loose: no ensures' tests/outcomes.sh
change crates/asking/src/looks.rt '/from_gives = { λ l a. a ≡ answer_by l }/d'
fails 'asking::looks: impl From<NotSeen> for NotShown: no equation in from_gives' tests/outcomes.sh
change crates/asking/src/looks.rt 's/λ l a. a ≡ answer_by l/λ l a. l ≡ l/'
fails 'asking::looks: impl From<NotSeen> for NotShown: no equation in from_gives' tests/outcomes.sh
add $of 'pub fn loose(x: u8) -> u8 {' '    x' '}'
fails 'text::loose: no ensures' tests/outcomes.sh
add $of 'pub(crate) fn loose(x: u8) -> u8 { x }'
fails 'text::loose: no ensures' tests/outcomes.sh
add $of 'pub fn loose(x: u8) -> u8' '    ensures { result ≡ result }' '{' '    x' '}'
fails 'text::loose: says nothing: result ≡ result' tests/outcomes.sh
add $of 'pub fn loose(out: &mut [u8]) -> u8' '    ensures { (result ≡ 1) × (out.new ≡ out.new) }' '{' '    1' '}'
fails 'text::loose: says nothing: out.new ≡ out.new' tests/outcomes.sh
add $of 'pub fn loose(out: &mut [u8]) -> u8' '    ensures { result ≡ 1 }' '{' '    1' '}'
fails 'text::loose: what becomes of out is not said' tests/outcomes.sh
add $of 'pub fn loose(out: &mut [u8]) -> u8' '    ensures { out.new ≡ out.old }' '{' '    1' '}'
fails 'text::loose: no equation for the answer' tests/outcomes.sh
add $of 'pub fn loose(x: u8) -> u8' '    ensures heard { Unheard x result }' '{' '    x' '}'
fails 'no theorem says that Unheard settles its outcome' tests/outcomes.sh
# an answer by its fields: each of them, but rooms that are left out by name
of_filed=crates/working/src/filed.rt of_index=crates/working/src/indexing/find.rt
change $of_filed '/pub fn records(/,/^    }/{/ensures file {/d;}'
fails 'working::filed::Filed::records: no equation for file of the answer' tests/outcomes.sh
change $of_filed '/pub fn records(/,/^    }/{/ensures start {/d;}'
fails 'working::filed::Filed::records: no equation for start of the answer' tests/outcomes.sh
change $of_filed '/fn records_from(/,/^    }/{/ensures journals {/d;}'
fails 'working::filed::Filed::records_from: no equation for journals of the answer' tests/outcomes.sh
change $of_filed '/pub fn records(/,/^    }/{/ensures/d;}'
fails 'working::filed::Filed::records: no ensures' tests/outcomes.sh
change $of_index '/ensures wanted {/d'
fails 'working::indexing::find::Index::new: no equation for wanted of the answer' tests/outcomes.sh
change $of_index 's/^        keys: &/        room: \&/'
fails 'working::indexing::find::Index::new: what becomes of room is not said' tests/outcomes.sh
add $of_index 'pub fn new(x: u8) -> u8 {' '    x' '}'
fails 'working::indexing::find::new: no ensures' tests/outcomes.sh
add $of 'pub struct Two {' '    pub one: u8,' '    pub other: u8,' '}' 'pub fn loose(x: u8) -> Two' '    ensures one { result.one ≡ x }' '{' '    Two { one: x, other: x }' '}'
fails 'text::loose: no equation for other of the answer' tests/outcomes.sh
add $of 'pub struct Two {' '    pub one: u8,' '    pub other: u8,' '}' 'pub fn loose(x: u8) -> Two' '    ensures one { result.one ≡ result.other }' '    ensures other { result.other ≡ result.one }' '{' '    Two { one: x, other: x }' '}'
fails 'text::loose: no theorem says that result.other settles its outcome' tests/outcomes.sh
add $of 'pub fn loose(x: u8) -> Elsewhere' '    ensures one { result.one ≡ x }' '{' '    elsewhere(x)' '}'
fails 'text::loose: the fields of its answer are not known' tests/outcomes.sh
change crates/working/src/gather.rt 's/fn gather_all/fn gather_some/'
fails 'working::gather::gather_all is left out and is not there' tests/outcomes.sh
change crates/working/src/indexing/find.rt 's/fn work_indexed/fn worked_indexed/'
fails 'working::indexing::find::work_indexed has no room that is left out' tests/outcomes.sh

# ---- contracts.sh
pf=crates/desk/src/run.rt
passes tests/contracts.sh
add $pf 'pub fn loose(x: u8) -> u8 {' '    x' '}'
fails 'desk::run::loose has no contract on its result, and is not listed' tests/contracts.sh
add $pf 'pub(crate) fn loose(x: u8) -> u8' '    ensures { result ≡ result }' '{' '    x' '}'
fails 'desk::run::loose has no contract on its result, and is not listed' tests/contracts.sh
add $pf 'pub fn loose(out: &mut [u8]) -> u8' '    ensures { out.new ≡ out.old }' '{' '    1' '}'
fails 'desk::run::loose has no contract on its result, and is not listed' tests/contracts.sh
change crates/disk/src/saved.rt '/Loads result/d'
fails 'disk::saved::load has no contract on its result, and is not listed' tests/contracts.sh
add tests/without-contract 'system disk::saved::load'
fails 'disk::saved::load is listed, and has a contract' tests/contracts.sh
add tests/without-contract 'prints desk::page::torn'
fails 'desk::page::torn is listed and is not there' tests/contracts.sh
add tests/without-contract 'prints desk::page::print'
fails 'desk::page::print is listed twice' tests/contracts.sh
add tests/without-contract 'because desk::page::torn'
fails 'not a reason and a function: because desk::page::torn' tests/contracts.sh
add $pf "impl Display for Loose<'_, Word> {" '    fn fmt<W: Write>(&self, f: &mut Formatter<W>) -> fmt::Result {' '        Ok(())' '    }' '}'
fails 'desk::run::LooseWordDisplay::fmt has no contract on its result, and is not listed' tests/contracts.sh
change crates/shown/src/entry.rt 's/^impl Display for Shown<Place> {/impl Show for Shown<Place> {/'
fails 'shown::entry::ShownPlaceDisplay::fmt is listed and is not there' tests/contracts.sh

# ---- outer.sh
passes tests/outer.sh
change crates/capi/src/offer.rt '/^pub fn dagskimra_file/,/ensures/s/^    ensures/    requires { length text.now ≤ 100 }\n&/'
fails 'capi::offer::dagskimra_file asks for something' tests/outer.sh
add crates/filing/src/file.rt 'pub extern "C" fn dagskimra_loose(x: u8) -> u8 {' '    x' '}'
fails 'filing::file::dagskimra_loose is exported, and tests/outer does not list it' tests/outer.sh
change crates/capi_c/src/again.rt 's/ ReworksAs (lent/ ReworksAs (other/'
fails 'capi_c::again::dagskimra_rework has other parameters or clauses than capi::again::dagskimra_rework' tests/outer.sh
change crates/capi_c/src/again.rt 's/^    list: &mut/    list: \&/'
fails 'capi_c::again::dagskimra_rework has other parameters or clauses than capi::again::dagskimra_rework' tests/outer.sh
change crates/capi_c/src/again.rt 's/entries, list, more)/list, entries, more)/'
fails 'capi_c::again::dagskimra_rework does not just call capi::again::dagskimra_rework' tests/outer.sh
change crates/starting/src/start.rt 's/^pub fn start(/fn start(/'
fails 'starting::start::start is not public' tests/outer.sh
change crates/filing/src/file.rt 's/^pub fn file(/pub fn filed(/'
fails 'filing::file::file is listed, and is no public function' tests/outer.sh
add tests/outer 'filing::file::file'
fails 'filing::file::file is listed twice' tests/outer.sh
add tests/outer 'inner filing'
fails 'filing is listed as inner, and exports nothing' tests/outer.sh

# ---- promises.sh, of a page of a few words
page() { # NAME: a page that names it
    changed=docs/PROMISES.md
    echo "Named: \`$1\`." >docs/PROMISES.md
}
page day_of_day_zero
passes tests/promises.sh
# in two parts, since the page may name what stands in tests/ too
no=no_such
page ${no}_thing
fails "names ${no}_thing, which is not there" tests/promises.sh
page text/day_of_day_zero
fails 'names text/day_of_day_zero, which is not there' tests/promises.sh
page holiday-list
passes tests/promises.sh
page no-such-theorem
fails 'names the theorem no-such-theorem, which is not there' tests/promises.sh
page Promises.holiday-list
fails 'names the theorem Promises.holiday-list, which is not there' tests/promises.sh
page dates::day_of
passes tests/promises.sh
page dates::$no
fails "names the function dates::$no, which is not there" tests/promises.sh
page noSuchDefinition
fails 'names the definition noSuchDefinition, which is not there' tests/promises.sh
# the same on the page of a room
of_room=docs/promises/calendar.md
add $of_room "Named: \`${no}_thing\`."
fails "$of_room names ${no}_thing, which is not there" tests/promises.sh
add $of_room 'Named: `no-such-theorem`.'
fails "$of_room names the theorem no-such-theorem, which is not there" tests/promises.sh
# and each room has one
change $of_room '1s/calendar/almanac/'
fails 'the room calendar has no page' tests/promises.sh
change $of_room '1s/calendar/calendar, almanac/'
fails "$of_room is of almanac, which is no room" tests/promises.sh
change docs/promises/text.md '1s/text/text, calendar/'
fails 'the room calendar has two pages' tests/promises.sh

# ---- rooms.sh
passes tests/rooms.sh
change docs/rooms.svg '$d'
fails 'docs/rooms.svg is not up to date' tests/rooms.sh
change docs/ARCHITECTURE.md '/^| `calendar` |/d'
fails 'its table has not the rooms of the picture' tests/rooms.sh
change docs/ARCHITECTURE.md '/^| `calendar` |/s/`holidays`/`feasts`/'
fails 'the row of calendar does not name its modules' tests/rooms.sh

# ---- wrong.sh, of one crate
edit=crates/text/must-fail/letter_is_a_digit.edit
passes tests/wrong.sh text
add $of 'pub fn loose(x: u8) -> u8' '    ensures { result ≡ x }' '{' '    x' '}'
fails 'text: loose has 0 of two wrong programs' tests/wrong.sh text
# and of functions of an impl, where its trait is public or `From`
add $of 'impl From<Result<(), Loose>> for Digit {' '    fn from(x: Result<(), Loose>) -> Digit {' '        Digit' '    }' '}'
fails 'text: DigitFromResultUnitLoose::from has 0 of two wrong programs' tests/wrong.sh text
add $of 'pub trait Loose {' '    fn loose(self) -> Self;' '}' 'impl<T: Loose> Loose for Option<T> {' '    fn loose(self) -> Self {' '        self' '    }' '}'
fails 'text: OptionLoose::loose has no wrong program that is tried at each gate' tests/wrong.sh text
add $of 'pub(crate) trait Loose {' '    fn loose(self) -> Self;' '}' 'impl Loose for Digit {' '    fn loose(self) -> Self {' '        self' '    }' '}'
passes tests/wrong.sh text
restore
# one that hands on to the function of its type that has its name is that one; to another, it is not
add $of 'pub trait Loose {' '    fn loose(self) -> Self;' '}' 'impl Loose for Digit {' '    fn loose(self) -> Self {' '        self.loose()' '    }' '}'
passes tests/wrong.sh text
restore
add $of 'pub trait Loose {' '    fn loose(self) -> Self;' '}' 'impl Loose for Digit {' '    fn loose(self) -> Self {' '        self.tight()' '    }' '}'
fails 'text: DigitLoose::loose has 0 of two wrong programs' tests/wrong.sh text
add $of 'impl Display for Digit {' '    fn fmt(self) -> Self {' '        self' '    }' '}'
passes tests/wrong.sh text
restore
change $edit '/^wrong: byte_at_the_front/,/^$/d'
fails 'text: put_byte has no wrong program that is tried at each gate' tests/wrong.sh text
change $edit '/^wrong: byte_at_the_front/,/^$/s/^old: ./old: no such code /'
fails 'text: does not stand once in crates/text/src/lib.rt: no such code' tests/wrong.sh text
change $edit 's/^wrong: byte_at_the_front put_byte/wrong: byte_at_the_front spell/'
fails 'text: the change for spell is in put_byte' tests/wrong.sh text
change $edit 's/^wrong: byte_at_the_front put_byte/wrong: byte_at_the_front/'
fails 'text: not a name and what is refused: wrong: byte_at_the_front' tests/wrong.sh text
change $edit 's/^wrong: letter_is_a_digit spell/&.no-such-need/'
fails 'text: no need no-such-need in the proof of spell' tests/wrong.sh text
change crates/model/must-fail/journals_only.edit 's/Stores.entries-worked/Stores.no-such-theorem/'
fails 'model: no theorem no-such-theorem in the proofs of Stores' tests/wrong.sh model
change crates/model/must-fail/journals_only.edit '/^wrong: /d'
fails 'must-fail/journals_only.edit has no wrong program of its name' tests/wrong.sh model
change crates/verdict/must-fail/holder_never_moves.edit '/^wrong: holder_never_moves/s/\.returns//'
fails 'verdict/holder_never_moves, which the paper shuts out, is not tried at each gate by a need' tests/wrong.sh verdict
change $edit '1{/^wrong: /d;}'
fails 'above a change nothing says what is refused' tests/wrong.sh text
change $edit 's/^wrong: byte_at_the_front/wrong: nine_is_no_digit/'
fails 'text: nine_is_no_digit is there twice' tests/wrong.sh text
add $edit '' 'wrong: once_more put_byte' 'file: src/lib.rt'
fails 'put_byte is wrong twice at once' tests/wrong.sh text
add $edit 'file: proofs/spell/Answers.antt'
fails 'the answers that it changes are not those of put_digits: proofs/spell/Answers.antt' tests/wrong.sh text
change crates/order/wrong/front_too_low.edit 's/^file: .*/file: src\/lib.rt/'
fails 'is of definitions, and changes src/lib.rt' tests/wrong.sh order
changed="$edit crates/text/must-fail/another.edit"
mv $edit crates/text/must-fail/another.edit
fails 'must-fail/another.edit has no wrong program of its name' tests/wrong.sh text
changed='crates/text/must-fail/nine_is_no_digit.edit crates/text/wrong'
mv crates/text/wrong/nine_is_no_digit.edit crates/text/must-fail/
fails 'is one too many' tests/wrong.sh text
add $edit '' 'wrong: second spell_again' 'file: src/lib.rt' "$(sed -n 's/^old: /old: /p' $edit | head -n 1)"
fails 'does not stand once' tests/wrong.sh text

# ---- dist.sh
passes tests/dist.sh
change dist/BUILT 's/^sources ./sources x/'
fails 'the program of dist/ is not of these sources' tests/dist.sh
add dist/dagskimra more
fails 'the program of dist/ is not of these sources' tests/dist.sh

# ---- specification.sh and play, of two sections and a tool that answers what it is told to
part=tests/specification
rm -r $part && mkdir $part
TOOL=$room/tool
export TOOL
printf '#!/bin/sh\necho "$1 of $2"\n' >"$TOOL" && chmod 755 "$TOOL"
printf '| Section | Otherwise |\n|---|---|\n| 1.3 | not run |\n' >docs/DIFFERENCES.md
lay() { # SECTIONS COMMENT ANSWER: the list, and how the one file begins and ends
    printf '%s\n' "$1" >$part/SECTIONS
    printf '%s\n' "$2" '$ verdicts store' "> $3" '= 0' >$part/1.2.txt
}
tell() { # WORDS: those of a failure; then nothing is changed
    shown=$((shown + 1))
    if sh tests/tool/specification.sh >"$room/said" 2>&1; then
        fault "tests/tool/specification.sh passes, and should say '$1'"
    elif ! grep -qF -- "$1" "$room/said"; then
        fault "tests/tool/specification.sh should say '$1', and says:"
    fi
}
listed='1.2 run 1 2
1.3 not run: for a reason'
lay "$listed" '# 1.2, lines 1 2: as it is' 'verdicts of store'
passes tests/tool/specification.sh
lay "$listed" '# 1.2, lines 1 2: as it is' 'verdicts of another store'
tell "'verdicts store' prints (-) what it should not"
lay "$listed" '# 1.2, lines 1 2 3: as it is' 'verdicts of store'
tell 'its comments do not name just the lines'
lay "$listed" '# 1.2, line 1: as it is' 'verdicts of store'
tell 'its comments do not name just the lines'
lay "$listed
1.4 run 1" '# 1.2, lines 1 2: as it is' 'verdicts of store'
tell 'section 1.4 is to be run, and tests/specification/1.4.txt is not there'
lay '1.3 not run: for a reason' '# 1.2, lines 1 2: as it is' 'verdicts of store'
tell '1.2.txt is there, and SECTIONS does not have its section'
lay '1.2 not run: for a reason' '# 1.2, lines 1 2: as it is' 'verdicts of store'
tell 'section 1.2 is not to be run, and tests/specification/1.2.txt is there'
tell 'docs/DIFFERENCES.md has no row for section 1.2'
lay "$listed
1.3 not run: again" '# 1.2, lines 1 2: as it is' 'verdicts of store'
tell 'SECTIONS has twice: 1.3'
lay '1.2 run 1 2
1.3 not run:' '# 1.2, lines 1 2: as it is' 'verdicts of store'
tell 'SECTIONS says neither that 1.3 is run nor why it is not'
lay "$listed" '# 1.2, lines 1 2: see DIFFERENCES' 'verdicts of store'
tell 'docs/DIFFERENCES.md has no row for section 1.2'
lay "$listed" '# 1.2, lines 1 2: as it is' 'verdicts of store'
sed 's/verdicts/show/' $part/1.2.txt >"$room/new" && cp "$room/new" $part/1.2.txt
tell '1.2.txt asks for no verdicts'
unset TOOL
changed="$part docs/DIFFERENCES.md"
restore

# ---- skipped, and what fetches packages for the gate
unset CI NOT_FETCHED
: >none
passes tests/skipped none
echo 'compare: SKIPPED: there is no rustc here (package rustc), so nothing was compared' >lacks
passes tests/skipped lacks
CI=true
export CI
fails 'this fails' tests/skipped lacks
NOT_FETCHED='gcc rustc'
export NOT_FETCHED
passes tests/skipped lacks
NOT_FETCHED=rust
fails 'this fails' tests/skipped lacks
echo 'launcher: SKIPPED: the real program by the loader of the system: no such processor' >listed
passes tests/skipped listed
echo 'launcher: SKIPPED: whatever it likes' >listed
fails 'this fails' tests/skipped listed none
unset CI NOT_FETCHED
# on a machine with just these commands
few=$room/few
mkdir "$few"
for command in sh cat timeout chmod; do ln -s "$(command -v $command)" "$few/$command"; done
machine() { # COMMAND LINE..: a command of it
    printf '%s\n' '#!/bin/sh' "$2" >"$few/$1"
    chmod 755 "$few/$1"
}
lacks() { # WHEN PACKAGES: what is missing in the end
    shown=$((shown + 1))
    PATH=$few sh .ci/packages >"$room/said" 2>&1 || fault ".ci/packages fails, $1"
    [ "$(cat "$room/said")" = "$2" ] || fault "$1 '$2' should be missing, and it says:"
}
machine id 'echo 0'
lacks 'without a package manager' 'util-linux bsdutils rustc gcc libc6-dev'
machine flock : && machine script : && machine cc :
machine apt-get 'exit 100'
lacks 'where nothing can be fetched' rustc
machine apt-get "case \"\$*\" in *--no-download*' rustc') cp='#!/bin/sh'; echo \"\$cp\" >$few/rustc; chmod 755 $few/rustc ;; esac"
lacks 'where it can be' ''
machine apt-get "echo fetched >$room/again"
lacks 'where nothing is missing' ''
[ ! -e "$room/again" ] || fault '.ci/packages fetches what is there'

# ---- tried, by what rt says of one edit
mkdir -p "$room/small/crates/digits/must-fail"
cp -R "$root/tests" "$room/small/"
cd "$room/small" || exit 2
of_edit() { printf '%s\n' "$1" 'file: src/lib.rt' 'old: 9' 'new: 8' >crates/digits/must-fail/wrong_digit.edit; }
of_edit 'wrong: wrong_digit spell'
of=digits/wrong_digit.edit ok='rt: ok; handles allowed: none; must-fail edits: 1 refused'
says() { printf '%s\n' "$@" >said; }
says "rt: must-fail $of: refused, as it must be: ./proofs/spell/Answers.antt:3:7: error: \`returns\`: .." "$ok; every proof and must-fail edit was done in this run" '2 passed, 0 failed'
passes tests/tried said
says "$ok; every proof and must-fail edit was done in this run"
fails "$of was not tried" tests/tried said
while IFS= read -r other; do
    says "rt: must-fail $of: $other" "$ok; and so on"
    fails "tried: $of: $other" tests/tried said
done <<'END'
refused, as it must be
refused, as it must be (only because a proof file names what the edit took away, so this says little of the contract: ..): ./proofs/spell/Answers.antt:3:7: ..
refused, as it must be (only by a limit of the prover, which gave no verdict, so this says less of the contract: ..): antt ran out of stack
BAD EDIT: an 'old:' text is in src/lib.rt 0 times, and not once
NOT TRIED: its check was killed, most likely for memory, so nothing is known of it: run this again
NOT REFUSED: the crate is still proved with this edit (one that means the same as before cannot be refused: remove it)
END
right="rt: must-fail $of: refused, as it must be: ./proofs/spell/Answers.antt:3:7: .."
says "$right" "$ok, 1 of them only by a limit; and so on"
fails 'of the edits rt says: 1 refused, 1 of them only by a limit' tests/tried said
says "$right" "$ok, 1 bad; and so on"
fails 'of the edits rt says: 1 refused, 1 bad' tests/tried said
says "$right" 'rt: ok; handles allowed: none; every proof was done in this run'
fails 'rt ci says that 0 edits were refused, and there are 1' tests/tried said
says "$right" 'rt: FAILED: digits' '1 passed, 1 failed'
fails 'rt ci does not say that all is well' tests/tried said
says "$right" 'rt: crates/digits/must-fail/notes.txt: BAD EDIT: an edit stands right in must-fail/, ..' "$ok; and so on"
fails 'notes.txt: BAD EDIT' tests/tried said
says "$right" "rt: must-fail digits/another.edit: refused, as it must be: .." "$ok; and so on"
fails 'digits/another.edit was tried, and is not there' tests/tried said

# ---- refused, by what the prover says of that edit
edit=crates/digits/must-fail/wrong_digit.edit
says() { printf '%s\n' "$@" 'fn digits::spell: not proved' 'logic=not-proved' >said; }
refused() { passes tests/refused $edit said; }
stays() { fails "$1" tests/refused $edit said; }
proof=./proofs/spell/Answers.antt:3:7:
unproved="$proof error: \`returns\`: expected type \`r ≡ 9\`, but this has type \`r ≡ 8\`"
# what the prover says of a fact that is not proved, in each of its forms
for form in 'computed as far as they go, the two types are `Path ℕ 9 8` (expected) and `Path ℕ 8 8` (found)
  expected type `value ≡ 9`
  but this has type `value ≡ value`' \
    'expected type `Laid before at text`, but this has type `Laid before at other`' \
    '`omega`: the goal does not follow from what it read. All of that holds, and the goal fails, at `x` = 9' \
    '`omega`: the part `.1` of the goal does not follow from what it read' \
    '`search`: no proof of `x ≡ 9`
  was found' \
    'list the missing equation with its arguments
  `cc`: the equations do not join `x` to `9`' \
    'list the missing equation with its arguments
  `cc` met a bound of its own before the equations had joined `x` to `9`' \
    'give a proof of that as the last argument
  `rw` has no last argument, so what it leaves must be a path whose two ends are equal, and `Path ℕ 9 8` is none' \
    '`simp`: no equation of the list has an instance in the goal `x ≡ 9`' \
    "\`rw\`: no occurrence of the path's left endpoint in the goal" \
    '`rw`: no part of the goal `x ≡ 9`
  is an instance of `y`' \
    'as printed, the two sides differ only where one has `x` (left), at the start, and the other has `9` (right)
  `x` ≟ `9`: does not hold (this comparison, made at this position, had to wait for a metavariable)' \
    'expected type `spell.Reads.Post c`, but this has type `Laid before at text`'; do
    says "$proof error: \`returns\`: $form"
    refused
done
says './proofs/spell/Invariants.antt:3:7: error: `loop-i`: expected type `x ≡ 9`, but this has type `x ≡ 8`'
refused
says './proofs/+spell/Answers.antt:3:7: error: `returns`: expected type `x ≡ 9`, but this has type `x ≡ 8`'
refused
says 'note: src/lib.rt:3:9: it is not proved that what the function ensures holds when it returns (`returns-then-b`); the facts known there allow values at which this goal is false'
refused
# and what is said else
says
stays 'wrong_digit: nothing is said against spell'
says './proofs/read/Answers.antt:3:7: error: `returns`: expected type `r ≡ 9`, but this has type `r ≡ 8`'
stays 'wrong_digit: nothing is said against spell'
says './proofs/spell/Answers.antt:3:7: note: the two sides may simply be different'
stays 'wrong_digit: nothing is said against spell'
says 'note: src/lib.rt:3:9: it is not proved that what the function ensures holds when it returns (`returns`)' 'fn digits::read: not proved'
stays 'wrong_digit: nothing is said against spell'
says 'note: `search` has not tried the goals of `digits::spell`, which wait for a callee'"'"'s proof: some may be open after it'
stays 'wrong_digit: nothing is said against spell'
while IFS= read -r other; do
    says "$proof error: \`returns\`: $other"
    stays 'wrong_digit: no fact of spell is unproved'
done <<'END'
`value` was not admitted (it has holes or undetermined implicits, or was rejected), so this cannot be checked
1 declaration that depends on `value`, which was rejected, was not checked: returns
`value` cannot be unfolded because it was not admitted: it has an error, a hole, or an implicit argument that could not be determined
this line starts at column 3, but the `(` opened at 2:19 is still open
`valeu` is not in scope; did you mean `value`?
expected type `Bool`, but this has type `ℕ`
expected type `List ℕ`, but this has type `List Bool`
expected type `x ≡ 9`, but this has type `ℕ`
expected type `Laid before at text`, but this has type `List ℕ → List ℕ`
this is applied to an argument but has type `ℕ`, which is not a function or extension (path) type
record `Rattle.digits.proofs.spell.Lts.After-value` has no field `if-b-gt57` (nearest: .if-b-gt65)
`goal.returns-then-b-gt57`: module `Rattle.digits.proofs.spell.Goals` has no `returns-then-b-gt57` that can be named from here
`omega` stopped at a bound of its own, having met more than 6 case splits
END
# a definition or code that can't be read is no program, whatever is said else
for other in '`valeu` is not in scope' 'expected type `Bool`, but this has type `ℕ`' 'the `(` opened at 2:19 is still open'; do
    says "./specs/Digits.antt:2:19: error: \`value\`: $other" "$unproved"
    stays 'digits/wrong_digit: is no program: specs/Digits.antt'
done
says 'error[mismatched-types]: src/lib.rt:2:19: expected `u8`, found `bool`' "$unproved"
stays 'digits/wrong_digit: is no program: error[mismatched-types]'
printf '%s\n' "$unproved" >said
stays 'digits/wrong_digit: is no program: no proof was tried'
printf '%s\n' "$unproved" 'logic=proved functions=1' >said
stays 'digits/wrong_digit: is proved'
# a need of a function, and a theorem, by name; and nothing by name
of_edit 'wrong: wrong_digit spell.returns'
says "$unproved"
refused
says './proofs/spell/Answers.antt:3:7: error: `returns-then-b`: expected type `r ≡ 9`, but this has type `r ≡ 8`'
refused
says 'note: src/lib.rt:3:9: it is not proved that what the function ensures holds when it returns (`returns-then-b`)'
refused
of_edit 'wrong: wrong_digit spell.loop-i-init'
stays 'nothing is said against spell.loop-i-init'
says "$unproved"
stays 'nothing is said against spell.loop-i-init'
of_edit 'wrong: wrong_digit reading::Digits.spelt-back'
says './proofs/reading/Digits.antt:3:7: error: `spelt-back`: expected type `r ≡ 9`, but this has type `r ≡ 8`'
refused
says './proofs/reading/Digits.antt:3:7: error: `another`: expected type `r ≡ 9`, but this has type `r ≡ 8`'
stays 'nothing is said against reading::Digits.spelt-back'
of_edit '# no such line'
says "$unproved"
stays 'digits/wrong_digit: names nothing that is refused'
of_edit 'wrong: wrong_digit spell'

# ---- apply.awk, in the crate's folder
mkdir -p crates/laws/src crates/laws/specs crates/laws/proofs crates/digits/src crates/digits/specs crates/digits/proofs
applies() { # TEXT [NAMES]: how the code is then
    shown=$((shown + 1))
    cp crates/digits/src/lib.rt "$room/was"
    (cd crates/digits && awk -v only="${2:+ $2 }" -f ../../tests/apply.awk ../../$edit) >"$room/said" 2>&1 || fault 'apply.awk fails'
    [ "$(tr '\n' ' ' <crates/digits/src/lib.rt)" = "$1" ] || fault "apply.awk should make '$1', and makes '$(cat crates/digits/src/lib.rt)'"
    cp "$room/was" crates/digits/src/lib.rt
}
cannot() { # WORDS
    shown=$((shown + 1))
    if (cd crates/digits && awk -f ../../tests/apply.awk ../../$edit) >"$room/said" 2>&1; then fault "apply.awk passes, and should say '$1'"; fi
    grep -qF -- "$1" "$room/said" || fault "apply.awk should say '$1', and says:"
}
printf '%s\n' 'a 9' 'b & 7' >crates/digits/src/lib.rt
printf '%s\n' 'wrong: one spell' 'file: src/lib.rt' 'old: 9' 'new: 8' '' 'wrong: two read' 'file: src/lib.rt' 'old: b & 7' 'new: b \\ &' >$edit
applies 'a 8 b \\ & '
applies 'a 8 b & 7 ' one
applies 'a 9 b \\ & ' two
printf '%s\n' 'file: src/lib.rt' 'old: 6' 'new: 8' >$edit
cannot 'does not stand once in src/lib.rt: 6'
printf '%s\n' 'file: src/lib.rt' 'old:  ' 'new: 8' >$edit
cannot 'does not stand once in src/lib.rt:  '
of_edit 'wrong: wrong_digit spell'

# ---- again, with a command rt that says what it is told to
mkdir -p bin
mv crates/digits/must-fail crates/digits/wrong
printf 'laws:\ndigits: laws\n' >crates.txt
for crate in laws digits; do echo "$crate 9" | tee crates/$crate/src/lib.rt crates/$crate/specs/Lib.antt >crates/$crate/proofs/Lib.antt; done
echo 'kit 1' >kit
# of code that is not wrong it says that it is proved; of other code the next of its answers
cat >bin/rt <<END
#!/bin/sh
case \$1 in
version) cat "$room/small/kit" ;;
check)
    grep -qx 'digits 9' src/lib.rt && exit
    echo "\$(cat src/lib.rt)" >>"$room/small/asked"
    if [ -e "$room/small/survives" ]; then echo logic=proved && exit; fi
    turn=\$(wc -l <"$room/small/asked")
    cat "$room/small/answer-\$turn" 2>/dev/null || cat "$room/small/answer-1"
    exit 1
    ;;
esac
END
chmod 755 bin/rt
PATH=$room/small/bin:$PATH
answer() { # NUMBER LINE..
    number=$1
    shift
    printf '%s\n' "$@" 'logic=not-proved' >"answer-$number"
    : >asked
}
answer 1 "$unproved"
: >tests/seen
lists() { # CRATES WHAT: these would be tried
    shown=$((shown + 1))
    sh tests/again --list >"$room/said" 2>&1
    [ "$(tr '\n' ' ' <"$room/said")" = "$1" ] || fault "after $2 tests/again should try '$1', and tries:"
}
lists 'digits ' 'nothing was seen'
: >survives
fails 'digits/wrong_digit: the crate is still proved' tests/again --keep
rm survives
lists 'digits ' 'a wrong program that was not refused'
answer 1 'fn digits::spell: not proved'
fails 'nothing is said against spell' tests/again --keep
lists 'digits ' 'a wrong program that nothing is said against'
answer 1 "$unproved"
passes tests/again --keep
lists '' 'all were seen refused'
passes tests/again
turn() { # CRATES WHAT PATH: a line more in a file
    cp "$3" "$room/was"
    echo more >>"$3"
    lists "$1" "$2"
    cp "$room/was" "$3"
}
turn 'digits ' 'a change of its code' crates/digits/src/lib.rt
turn 'digits ' 'a change of its definitions' crates/digits/specs/Lib.antt
turn 'digits ' 'a change of its proofs' crates/digits/proofs/Lib.antt
turn 'digits ' 'a change of its edit' crates/digits/wrong/wrong_digit.edit
turn 'digits ' 'a change of code below it' crates/laws/src/lib.rt
turn 'digits ' 'a change of a definition below it' crates/laws/specs/Lib.antt
turn '' 'a change of a proof below it' crates/laws/proofs/Lib.antt
turn 'digits ' 'another kit' kit
turn 'digits ' 'another judge' tests/refused
mv crates/digits/wrong crates/digits/must-fail
lists 'digits ' 'another folder of its edit'
mv crates/digits/must-fail crates/digits/wrong
# of an edit with two that wait for one another the one that is left is tried by itself
printf '%s\n' 'wrong: wrong_digit spell' 'file: src/lib.rt' 'old: 9' 'new: 8' '' 'wrong: another read' 'file: src/lib.rt' 'old: digits' 'new: letters' >crates/digits/wrong/wrong_digit.edit
answer 1 "$unproved" 'fn digits::read: not proved; it calls `digits::spell`, which is not proved'
answer 2 './proofs/read/Answers.antt:3:7: error: `returns`: expected type `r ≡ 9`, but this has type `r ≡ 8`'
passes tests/again
shown=$((shown + 1))
[ "$(tr '\n' ' ' <asked)" = 'letters 8 letters 9 ' ] || fault "tests/again should have tried both and then the other, and tried: $(cat asked)"
answer 2 'fn digits::read: not proved'
fails 'another: nothing is said against read' tests/again
of_edit() { printf '%s\n' "$1" 'file: src/lib.rt' 'old: 9' 'new: 8' >crates/digits/wrong/wrong_digit.edit; }
of_edit 'wrong: wrong_digit spell'
lists '' 'all is as it was'

echo "checks: $shown looks at the checking scripts; $bad faults"
[ "$bad" -eq 0 ]
