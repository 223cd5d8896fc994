# Makes the changes of an edit in the crate's folder where it is called: `awk -f tests/apply.awk EDIT`. Each `old:` text has to stand once in its file, as the
# changes before it left it. With -v only=" NAME NAME " it makes those of these wrong programs alone: what stands below their lines `wrong: NAME ..`.
function stop(why) { printf "apply: %s: %s\n", FILENAME, why; stopped = 1; exit 1 }
function read(file,    line, text) { text = ""; while ((getline line <file) > 0) text = text line "\n"; close(file); return text }
BEGIN { wanted = 1 }
/^wrong: / { wanted = only == "" || index(only, " " $2 " ") }
/^file: / { file = substr($0, 7) }
!wanted { next }
/^old: / { old = substr($0, 6) }
/^new:/ {
    new = substr($0, 5); sub(/^ /, "", new)
    if (!(file in texts)) texts[file] = read(file)
    at = index(texts[file], old)
    if (old == "" || !at || index(substr(texts[file], at + length(old)), old)) stop("does not stand once in " file ": " old)
    texts[file] = substr(texts[file], 1, at - 1) new substr(texts[file], at + length(old))
    old = ""; changes++
}
END {
    if (stopped) exit 1
    if (!changes) stop("changes nothing")
    for (file in texts) { printf "%s", texts[file] >file; close(file) }
}
