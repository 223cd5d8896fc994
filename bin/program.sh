# Read by bin/dagskimra, dist/make and the tests, which say in $root where the repository is: the program that is of these very sources, from dist/
# or from target/, and how it is built where there is none. POSIX sh; needs awk, sed, sort, find and sha256sum.
name=dagskimra
# the one place that says it; docs/DECISIONS.md says how it is counted
version=0.4
# What a build takes where nothing is proved yet.
takes='about 60 minutes on two processors, up to 4 GB of memory at a time, and 4 GB of disk'

say() { printf '%s: %s\n' "$name" "$*" >&2; }

# Sets kit, the path of the kit's command, and kit_id, the kit's version: the line of its file KIT-ID, which stands above rt, or what rt says. Without a
# kit the version counts that dist/ was made with.
find_kit() {
    kit='' kit_id=''
    if rt=$(command -v rt 2>/dev/null); then
        kit=$rt
        while [ -L "$rt" ]; do
            link=$(readlink "$rt")
            case $link in /*) rt=$link ;; *) rt=${rt%/*}/$link ;; esac
        done
        if [ -r "${rt%/bin/rt}/KIT-ID" ]; then
            read -r kit_id <"${rt%/bin/rt}/KIT-ID" || :
        else
            kit_id=$(rt version 2>/dev/null) || kit=''
        fi
    fi
    [ -n "$kit" ] || kit_id=$(told kit dist/BUILT)
}

# what a text as dist/BUILT says of WORD
told() { # WORD FILE
    sed -n "s/^$1 //p" "$root/$2" 2>/dev/null
}

sum_of() { # FILE
    sum_line=$(sha256sum <"$root/$1") && echo "${sum_line%% *}"
}

# The crates that the program stands on, itself the last, each behind those that it stands on: a line NAME DEP DEP.. each.
crates_of() {
    NAME=$name awk '
        function visit(n,    a, k, m, l) {
            if (n in level) return
            level[n] = 0
            m = split(deps[n], a, " ")
            for (k = 1; k <= m; k++) if (a[k] in deps) { visit(a[k]); if (level[a[k]] >= l) l = level[a[k]] + 1 }
            level[n] = l + 0
            print level[n] ":" n " " deps[n]
        }
        { sub(/#.*/, ""); i = index($0, ":") }
        i { n = substr($0, 1, i - 1); gsub(/[ \t]/, "", n); d = substr($0, i + 1); $0 = d; $1 = $1; deps[n] = $0 }
        END { visit(ENVIRON["NAME"]) }' "$root/crates.txt" | sort -s -t: -n -k1,1 | sed 's/^[0-9]*://; s/ *$//'
}

# the folders whose files a program is made from, of the crates that are read
folders() { sed 's|^\([^ ]*\).*|crates/\1/src crates/\1/specs crates/\1/proofs|'; }

# The sum of all that the program is made from: the kit's version, the lines of its crates, and each file of their src, specs and proofs.
sources() {
    (
        cd "$root" || exit
        lines=$(crates_of)
        {
            printf 'kit %s\n%s\n' "$kit_id" "$lines"
            # shellcheck disable=SC2046
            find $(printf '%s\n' "$lines" | folders) ! -type d -exec sha256sum {} + 2>/dev/null | LC_ALL=C sort
        } | sha256sum | sed 's/ .*//'
    )
}

# What was seen is kept in target/seen: the program, the kit's version, the sum of the sources, and each file and folder that was looked at.
# It holds as long as none of these has changed since. Sets program and sum.
remembered() {
    [ -r "$root/target/seen" ] || return 1
    { read -r program && read -r seen_kit && read -r sum; } <"$root/target/seen" || return 1
    [ "$seen_kit" = "$kit_id" ] || return 1
    # one that is gone is said on standard error; the time of a change of state tells what a time that was set back hides
    changed=$(
        cd "$root" || exit
        IFS='
'
        set -f
        # shellcheck disable=SC2046
        find $(sed 1,3d target/seen) -prune -cnewer target/seen 2>&1
    )
    [ -z "$changed" ]
}

# Keeps what was seen, as of the time of the file MARK: all of it or, where it can't be written, nothing.
remember() { # MARK
    (
        cd "$root" || exit
        looked=$(
            crates_of | sed 's|^\([^ ]*\).*|crates/\1|'
            # shellcheck disable=SC2046
            find $(crates_of | folders) dist "$program" "$program.built"
        )
        printf '%s\n' "$program" "$kit_id" "$sum" crates.txt crates "$looked" >"$1.new" && touch -r "$1" "$1.new" && mv "$1.new" target/seen
    ) 2>/dev/null
}

# whether PROGRAM is the one that the text BUILT tells of, and is made from these sources
made() { # PROGRAM BUILT
    [ -x "$root/$1" ] && [ "$(told sources "$2")" = "$sum" ] && [ "$(told program "$2")" = "$(sum_of "$1")" ]
}

# Sets program, from the repository, to the one that is of these sources, or to nothing; sum to that of the sources; and kept to no where
# target/ can't keep what was seen.
kept=yes
choose() {
    if remembered; then return; fi
    mark=$root/target/seen.$$
    { mkdir -p "$root/target" && true >"$mark"; } 2>/dev/null || kept=no
    sum=$(sources)
    program=''
    if [ "${#sum}" -ne 64 ]; then
        say "whether the program is of these sources can't be told: this needs sha256sum, awk, sed, sort and find"
        return 2
    fi
    if made dist/$name dist/BUILT; then
        program=dist/$name
    elif made target/bin/$name target/bin/$name.built; then
        program=target/bin/$name
    fi
    if [ "$kept" = yes ]; then
        if [ -n "$program" ]; then remember "$mark"; fi
        rm -f "$mark" "$mark.new"
    fi
}

# what a program is, as a text beside it
built() { # PROGRAM
    printf 'kit %s\nprocessor %s\nsources %s\nprogram %s\n' "$kit_id" "$(uname -m)" "$sum" "$(sum_of "$1")"
}

step() { # NAME NUMBER: the crate that is to be proved now, of $all
    if [ -t 2 ]; then
        printf '\r%-70s' "$name: proving $2 of $all: $1" >&2
    else
        say "proving $2 of $all: $1"
    fi
}

# Proves a crate and builds it, once those below it are built: a library, or the program, which rt runs then. It is given nothing to do, and says so.
prove_crate() { # NAME
    cd "$root/crates/$1" || return
    if [ "$1" = "$name" ]; then rt run; else rt lib; fi </dev/null 3>/dev/null 9>&-
}

# Has rt prove and build the program, under the lock of target/; what it printed is in target/build.log. Where it fails its first fault is shown.
prove() {
    log=$root/target/build.log
    : >"$log"
    crates=$(crates_of | sed 's/ .*//')
    # shellcheck disable=SC2086
    all=$(set -- $crates && echo $#) number=0 proved=yes
    for crate in $crates; do
        number=$((number + 1))
        step "$crate" "$number"
        if (prove_crate "$crate") >>"$log" 2>&1; then continue; fi
        proved=''
        break
    done
    if [ -t 2 ]; then printf '\r%70s\r' '' >&2; fi
    if [ -z "$proved" ]; then
        say "the program could not be built; the first fault, of what target/build.log in $root has:"
        awk '/error|not proved|no proof/ { on = 1 } on { print; if (++n == 8) exit }' "$log" >&2
        return 2
    fi
    if [ "$(sources)" != "$sum" ]; then
        say 'the sources were changed while the program was built: try again'
        return 2
    fi
    mkdir -p "$root/target/bin" &&
        cp "$root/crates/$name/out/$name" "$root/target/bin/$name" &&
        built target/bin/$name >"$root/target/bin/$name.built"
}

# Builds the program, one build at a time: whoever waited finds it done. Then sets program.
build() {
    if [ -z "$kit" ]; then
        say "no program here is of these sources, and the Rattle kit, which builds it, is not here: no command 'rt' on PATH"
        return 2
    fi
    if [ "$kept" = no ]; then
        say "no program here is of these sources, and it can't be built: $root/target can't be written"
        return 2
    fi
    say "no program here is of these sources: proving and building it, which takes $takes, and is done once"
    (
        exec 9>"$root/target/build.lock" || exit
        if command -v flock >/dev/null 2>&1; then flock 9; fi
        choose
        [ -n "$program" ] || prove
    ) && choose && [ -n "$program" ]
}

# Sets program to a path that can be run: the one that DAGSKIMRA_PROGRAM names, else that of these sources, which is built where there is none.
need_program() {
    if [ -n "${DAGSKIMRA_PROGRAM-}" ]; then
        program=$DAGSKIMRA_PROGRAM
        return
    fi
    choose || return 2
    if [ -z "$program" ]; then build || return 2; fi
    program=$root/$program
}
