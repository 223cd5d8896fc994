# Where the time of `rt ci` went. Reads what tests/run noted when each of rt's own lines came: hundredths of a second that rt's children had taken by then,
# the time, and the line. Writes a line for each part: its name, seconds of processor, 0, seconds on the clock, 0.
#
# rt proves crates side by side and tries wrong programs beside them, so what is taken between the first and the last proof is of both; what comes behind
# is the rest of the wrong programs, which it tells of when all were tried, and then the programs that it runs.
function put(name, seconds, clock) { printf "%s %.1f 0 %d 0\n", name, seconds, clock }
{ now = $1 / 100; time = $2 }
NR == 1 { start = time }
$5 == "proved" || $7 == "proved" || ($5 == "is" && $6 == "kept:") { proving = now; proved = time }
!tried && ($4 == "must-fail" || $5 == "ran" || $5 == "ran,") { edits = now; tried = time }
END {
    if (!proved) { proving = now; proved = time }
    if (!tried) { edits = proving; tried = proved }
    put("proving", proving, proved - start)
    put("wrong_programs", edits - proving, tried - proved)
    put("running_examples", now - edits, time - tried)
}
