#!/bin/sh
# The launcher: when it builds, when it runs what is there, and what it says. It has a kit of its own here, whose rt only notes that it is called
# and whose programs are shell scripts, and a repository of four small crates, so that nothing is proved. Of the real program one thing is
# asked: that it says of a wrong command what the launcher says.
set -u
here=$(cd "$(dirname "$0")" && pwd -P)
. "$here/kit.inc"
unset DAGSKIMRA_PROGRAM
room=$(mktemp -d) || exit 2
trap 'rm -rf "$room"' EXIT
trap 'exit 2' HUP INT TERM
cd "$room" || exit 2
machine=$(uname -m) path=$PATH books="$room/the books"
bad=0 looked=0 turn='' drop=''
fault() {
    echo "launcher: $turn: $*"
    bad=$((bad + 1))
}
expect() { # STATUS WORDS: the last status, and words of what was said or printed
    got=$?
    looked=$((looked + 1))
    if [ "$got" -ne "$1" ] || ! grep -q -- "$2" said out; then fault "expected status $1 and '$2', got $got and: $(cat said out)"; fi
}
also() { # WORDS: other words of the same
    looked=$((looked + 1))
    grep -q -- "$1" said out || fault "expected '$1', got: $(cat said out)"
}
says() { # COUNT: how many lines it says
    [ "$(wc -l <said)" -eq "$1" ] || fault "it should say $1 lines, and says: $(cat said)"
}
builds() { # COUNT: how often rt was asked to build since the last look
    count=$(grep -c '^run' kit/calls)
    : >kit/calls
    [ "$count" -eq "$1" ] || fault "rt was asked $count times to build, and should be $1 times"
}
sums() { # HOW: whether sums were worked out since the last look: anew, or not
    how=anew
    [ -s kit/sums ] || how=not
    : >kit/sums
    [ "$how" = "$1" ] || fault "sums were worked out: $how, and should be: $1"
}
launch() { # WORDS...
    # shellcheck disable=SC2086
    PATH=$room/kit/bin:$path $drop "$books/bin/dagskimra" "$@" >out 2>said
}

# ---- the kit: a program prints its source and its words, and fails to file what D001 publishes
mkdir -p kit/bin
echo 'small kit 1' >kit/KIT-ID
: >kit/calls
cat >kit/bin/rt <<'END'
#!/bin/sh
kit=$(cd "$(dirname "$0")/.." && pwd -P)
crate=$(basename "$PWD")
echo "$* $crate" >>"$kit/calls"
case "$* $crate" in
'run dagskimra') ;;
'lib '*)
    if [ -s "$kit/fault" ]; then
        echo 'rt: chose --jobs 2 for laws'
        cat "$kit/fault"
        printf 'fn laws::f: not proved\nlogic=not-proved\n'
        exit 1
    fi
    echo 'logic=proved functions=1'
    exit
    ;;
*) exit 2 ;;
esac
mkdir -p out
sed "s/SOURCE/$(cat src/main.rt)/" "$kit/program" >out/dagskimra
chmod 755 out/dagskimra
echo 'rt: running out/dagskimra'
END
cat >kit/program <<'END'
#!/bin/sh
echo "SOURCE runs $*"
case "$*" in 'file books D001'*) printf 2 >&3 ;; *) printf 0 >&3 ;; esac
END
cat >kit/bin/sha256sum <<END
#!/bin/sh
echo sum >>"$room/kit/sums"
exec "$(command -v sha256sum)" "\$@"
END
: >kit/sums
chmod 755 kit/bin/*

# ---- the repository
mkdir -p "$books/dist"
cp -R "$here/../../bin" "$books/"
cp "$here/../../dist/make" "$books/dist/"
printf '# crates\nlaws:\ndesk: laws io\nother: laws\ndagskimra: desk laws io # the program\n' >"$books/crates.txt"
for crate in laws desk other dagskimra; do
    mkdir -p "$books/crates/$crate/src" "$books/crates/$crate/specs" "$books/crates/$crate/proofs/f"
    echo "$crate" | tee "$books/crates/$crate/src/lib.rt" "$books/crates/$crate/specs/S.antt" >"$books/crates/$crate/proofs/f/Answers.antt"
done
echo first >"$books/crates/dagskimra/src/main.rt"

turn='a wrong command'
own() { # WORDS..: the same of the program itself
    : >status
    "$program" "$@" 3>status >out 2>own
    cmp -s own said && [ "$(cat status)" = 2 ] || fault "the launcher says $(cat said), and the program $(cat own)"
}
launch nonsense books
expect 2 '^dagskimra: there is no such command$'
own nonsense books
launch ''
expect 2 '^dagskimra: there is no such command$'
own ''
launch
expect 2 '^dagskimra: no command is given$'
own
launch --version again
expect 2 '^usage: dagskimra --version$'
[ ! -e "$books/target" ] || fault 'target/ is made'
# the words that the launcher takes are those that the program takes, and those that help explains
sed -n 's/.*Ok(b"\([a-z]*\)") => .*/\1/p' "$here/../../crates/dagskimra/src/main.rt" | sort >takes
sed -n 's/^\(start |.*\)) ;;$/\1/p' "$here/../../bin/dagskimra" | tr -d ' ' | tr '|' '\n' | sort >passed
diff takes passed || fault 'the launcher passes on other commands than the program has'
sed -n 's/^    \([a-z]*\))$/\1/p' "$here/../../bin/help.sh" | grep -v -x -e demo -e help | sort | diff - takes || fault 'help explains other commands'
builds 0

turn='the version'
launch --version
expect 0 "^dagskimra	[0-9][0-9]*\.[0-9][0-9]*$"
also '^kit	small kit 1$'
also '^sources	[0-9a-f]\{64\}$'
also '^program	to be built$'
says 0
builds 0

turn='a first build'
launch show books
expect 0 '^first runs show books$'
also 'no program here is of these sources.* minutes .* memory .* disk'
grep -v 'no program here' said >progress
printf 'dagskimra: proving %s\n' '1 of 3: laws' '2 of 3: desk' '3 of 3: dagskimra' | cmp -s - progress || fault "progress: $(cat progress)"
builds 1
sums anew
launch show books
expect 0 '^first runs show books$'
says 0
builds 0
sums not
launch --version
expect 0 '^program	target/bin/dagskimra$'
sums not

turn='dist/'
PATH=$room/kit/bin:$path sh "$books/dist/make" >out 2>said
expect 0 "^processor $machine$"
builds 0
rm -rf "$books/target"
sums anew
launch show books
expect 0 '^first runs show books$'
says 0
sums anew
launch --version
expect 0 '^program	dist/dagskimra$'
builds 0
sums not

# each change of what the program is made from has it built, and taken back has dist/ run again
changes() { # BUILDS WHAT COMMAND: the command is run in the repository
    turn=$2
    rm -rf was && cp -Rp "$books" was
    (cd "$books" && eval "$3") || fault 'it could not be made'
    launch show books
    expect 0 'runs show books$'
    builds "$1"
    : >kit/sums
    launch show books
    expect 0 'runs show books$'
    says 0
    builds 0
    sums not
    rm -rf "$books" && cp -Rp was "$books"
    launch show books
    expect 0 '^first runs show books$'
    says 0
    builds 0
    : >kit/sums
}
changes 1 'an edited source' 'echo second >crates/dagskimra/src/main.rt'
changes 1 'an edited definition' 'echo more >>crates/laws/specs/S.antt'
changes 1 'an edited proof whose time is set back' 'echo more >>crates/desk/proofs/f/Answers.antt && touch -r crates.txt crates/desk/proofs/f/Answers.antt'
changes 1 'a new file' 'echo more >crates/laws/proofs/f/More.antt'
changes 1 'a file that is gone' 'rm crates/laws/specs/S.antt'
changes 1 'a file of another name' 'mv crates/laws/specs/S.antt crates/laws/specs/T.antt'
changes 1 'another line of crates.txt' 'sed "s/^desk: laws io/desk: laws/" crates.txt >new && mv new crates.txt'
changes 1 'a damaged program' 'echo "# more" >>dist/dagskimra'
changes 1 'another sum in dist/' 'sed "s/^sources ./sources x/" dist/BUILT >new && mv new dist/BUILT'
changes 0 'a crate that the program does not stand on' 'echo more >>crates/other/src/lib.rt'
changes 0 'a line of crates.txt on such a crate' 'echo "another: other" >>crates.txt'
turn='another kit'
echo 'small kit 2' >kit/KIT-ID
launch show books
expect 0 '^first runs show books$'
builds 1
turn='a program that was built otherwise'
echo '# more' >>"$books/target/bin/dagskimra"
launch show books
expect 0 '^first runs show books$'
builds 1
echo 'small kit 1' >kit/KIT-ID

turn='a program that is named'
sed 's/SOURCE/named/' kit/program >named
chmod 755 named
DAGSKIMRA_PROGRAM=$room/named launch show books
expect 0 '^named runs show books$'

turn='a failed build'
echo second >"$books/crates/dagskimra/src/main.rt"
for error in 'lib.rt:1: error: this one' 'lib.rt:2: error: another one'; do
    echo "$error" >kit/fault
    launch show books
    expect 2 "^$error$"
    also '^fn laws::f: not proved'
    also 'proving 1 of 3: laws'
    ! grep -q 'runs' out || fault 'a program was run'
    builds 0
done
! grep -q 'this one' said || fault 'it shows the log of an older build'
launch demo
expect 2 'another one'
! grep -q '^\$' out || fault 'the demo goes on'
builds 0

turn='a checkout that can not be written'
if [ "$(id -u)" -eq 0 ] && command -v setpriv >/dev/null 2>&1; then
    chmod 755 "$room"
    chmod 666 kit/calls kit/sums
    : >out
    : >said
    drop='setpriv --reuid=65534 --regid=65534 --clear-groups'
    launch show books
    expect 2 "it can't be built: .*/target can't be written$"
    says 1
    echo first >"$books/crates/dagskimra/src/main.rt"
    rm -rf "$books/target"
    launch show books
    expect 0 '^first runs show books$'
    says 0
    launch --version
    expect 0 '^program	dist/dagskimra$'
    says 1
    sums anew
    launch demo
    [ "$(grep -c "can't be written" said)" -eq 1 ] || fault "it should say once that it can't be written, and says: $(cat said)"
    [ ! -e "$books/target" ] || fault 'target/ is made'
    builds 0
    drop=''
else
    echo 'launcher: SKIPPED: a checkout that can not be written: this needs root and setpriv'
fi
echo first >"$books/crates/dagskimra/src/main.rt"

turn='the demo'
launch demo
expect 2 'the demo stops here: the status of this command is 2, and should be 0$'
[ "$(grep -c '^\$' out)" -eq 3 ] || fault "it should stop at its third command: $(cat out)"
builds 0

turn='without the kit'
mkdir bare
for command in sh readlink find sha256sum awk sed sort touch mkdir mv rm cat tr grep; do ln -s "$(command -v "$command")" bare/; done
bare() { # MACHINE WORDS...
    printf '#!/bin/sh\necho %s\n' "$1" >bare/uname
    chmod 755 bare/uname
    shift
    PATH=$room/bare "$books/bin/dagskimra" "$@" >out 2>said
}
bare x86_64 show books
expect 0 '^first runs show books$'
says 0
bare aarch64 show books
expect 2 'for x86-64, and this processor is another one (aarch64)$'
bare aarch64 --version
expect 0 '^kit	small kit 1 (not here)$'
echo more >>"$books/crates/laws/specs/S.antt"
bare x86_64 show books
expect 2 'the Rattle kit, which builds it, is not here'
says 1
if [ "$machine" = x86_64 ] && [ -x "$here/../../dist/dagskimra" ]; then
    turn='the real program without the kit'
    bare x86_64 help
    DAGSKIMRA_PROGRAM=$here/../../dist/dagskimra bare x86_64 read none.txt
    expect 1 '^refused	2$'
else
    echo 'launcher: SKIPPED: the real program by the loader of the system: this needs an x86-64 processor and dist/'
fi
echo "launcher: $looked looks; $bad faults"
[ "$bad" -eq 0 ]
