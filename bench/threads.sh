#!/usr/bin/env bash
# Whether phases in threads keep every processor's order, run after run, and what the threads cost:
#
#     bench/threads.sh [RUNS [WORD..]]        runs the script RUNS times, 1000 if left out
#
# The script has 5,000 events of 8 processors of the root in one phase. Each processor reads and writes
# registers of its own alone, so that its lines of the audit are the same in whatever order the processors
# come. A run passes where its status is 0, nothing is told on standard error, the numbers of its audit rise
# from 1 by one to `events 5000`, and each processor's lines are, but for their numbers, those of a run with
# --serial, in that order. The WORDs go to each run that is counted: with --serial no threads run, and what
# passes is this script. HVPM, where it is set, is the program that is run, which is not built then. The last
# line is 'N passed, M failed', and the status is 1 where a run failed. It is 1, too, where a run before these
# starts no thread for each processor but one, which the main thread may run, or with --serial any.
set -eu
[[ ${1:-} != --help ]] || { sed -n '2,/^[^#]/s/^# \{0,1\}//p' -- "${BASH_SOURCE[0]}"; exit; }

root=$(cd -- "$(dirname -- "${BASH_SOURCE[0]}")/.." && pwd)
runs=${1:-1000}
shift $(($# > 0 ? 1 : 0))
[[ $runs =~ ^[1-9][0-9]*$ ]] || {
    echo "usage: bench/threads.sh [RUNS [WORD..]]" >&2
    exit 2
}
source "$root/bench/measure.sh"

processors=8
turns=25
events=5000

"$root/bench/script" threads "$processors" "$turns" >"$folder/threads.hv"

# Runs the script, with further words, for 20 seconds at most. The audit, what was told and the status are
# files, and the processor time is a line more of the file $1.
run() {
    local times=$1 status=0 TIMEFORMAT='%U %S'
    shift
    { time timeout --kill-after=1 20 "$program" run "$folder/threads.hv" "$@" \
        >"$folder/audit" 2>"$folder/err" </dev/null || status=$?; } 2>>"$times"
    echo "$status" >"$folder/status"
}

# Whether the run ended well, and its audit is a merge of the serial run's lines of each processor.
# Says what is wrong first.
passes() {
    local status
    status=$(<"$folder/status")
    [[ $status == 0 ]] || { echo "status $status"; return 1; }
    [[ ! -s $folder/err ]] || { head -n 1 -- "$folder/err"; return 1; }
    awk -v events="$events" '
        function fail(why) { print "line " FNR ": " why; failed = 1; exit 1 }
        { text = substr($0, length($1) + 2) }
        FNR == NR { if ($1 != "events") wanted[$2, ++count[$2]] = text; next }
        ended { fail("a line behind the last one") }
        $1 == "events" { if ($0 != "events " events) fail($0); ended = 1; next }
        $1 "" != FNR "" { fail("not the number " FNR) }
        wanted[$2, ++done[$2]] != text { fail("not the line " done[$2] " of " $2) }
        END {
            if (failed) exit 1
            if (!ended || FNR != events + 1) { print "not " events " events"; exit 1 }
        }' "$folder/serial" "$folder/audit"
}

# The processor time of an average run of the file $1.
average() {
    awk '{ all += $1 + $2 } END { printf "%.1f ms", all * 1000 / NR }' "$1"
}

# Whether a run with the words starts a thread for each processor but one, or with --serial none.
starts_threads() {
    local started
    : >"$folder/started"
    STARTED="$folder/started" LD_PRELOAD="$folder/threads.so" run "$folder/counted_times" "$@"
    started=$(wc -c <"$folder/started")
    echo "threads that a run starts: $started"
    if [[ " $* " == *" --serial "* ]]; then ((started == 0)); else ((started >= processors - 1)); fi
}

# The serial runs. Each event is served, so that none of the lines is there for a mistake of the script.
for ((i = 0; i < runs && i < 100; i++)); do run "$folder/serial_times" --serial; done
cp -- "$folder/audit" "$folder/serial"
if [[ $(<"$folder/status") != 0 || $(tail -n 1 -- "$folder/serial") != "events $events" ]] ||
    grep -qE ' (denied|fault) ' "$folder/serial"; then
    echo "the serial run is not $events events that are served"
    exit 1
fi

"${CC:-cc}" -std=c11 -Wall -Wextra -Werror -O2 -fPIC -shared "$root/bench/threads.c" \
    -o "$folder/threads.so" -ldl
starts_threads "$@" || { echo "these are not the threads of $processors processors"; exit 1; }

failed=0
others=0
for ((i = 1; i <= runs; i++)); do
    run "$folder/times" "$@"
    cmp -s -- "$folder/serial" "$folder/audit" || others=$((others + 1))
    passes >"$folder/report" && continue
    failed=$((failed + 1))
    echo "FAILED run $i: $(<"$folder/report")"
done
echo "runs whose order is not the script's: $others"
echo "processor time of a run: $(average "$folder/times"), with --serial $(average "$folder/serial_times")"
echo "$((runs - failed)) passed, $failed failed"
((failed == 0))
