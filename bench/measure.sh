# Sourced by the benchmarks: the program that they measure, and one measured run.

root=$(cd -- "$(dirname -- "${BASH_SOURCE[0]}")/.." && pwd)
folder=$(mktemp -d)
trap 'rm -rf -- "$folder"' EXIT

# HVPM where it is set, and else the repository's own program, which is proved and
# built first where that isn't done.
program=${HVPM:-$root/crates/hvpm/out/hvpm}
[[ -n ${HVPM:-} ]] || "$root/bin/hvpm" --prove

# The instructions of a run of the script $2 with the program $1, as valgrind counts them.
# The status is 1 without valgrind.
instructions() {
    command -v valgrind >/dev/null || return 1
    valgrind --tool=callgrind --callgrind-out-file=/dev/null "$1" run "$2" --serial 2>&1 >/dev/null |
        sed -n 's/.*Collected : //p'
}

# Runs the script $2 with the program $1, and prints its time, its peak memory, the last line of its audit,
# how many events were refused, and with valgrind the instructions of an event: those of the script less those
# of its first line. The folder of the script takes the audit.
measure() {
    local folder events whole
    folder=$(dirname -- "$2")
    if [[ -x /usr/bin/time ]]; then
        /usr/bin/time -v "$1" run "$2" --serial 2>"$folder/time" >"$folder/audit"
        grep -E 'Elapsed|User time|System time|Maximum resident' "$folder/time"
    else
        time "$1" run "$2" --serial >"$folder/audit"
    fi
    tail -n 1 -- "$folder/audit"
    echo "refused: $(grep -cE ' (denied|fault) ' "$folder/audit" || true)"
    events=$(sed -n 's/^events //p' "$folder/audit")
    if ((events > 0)) && whole=$(instructions "$1" "$2"); then
        head -n 1 -- "$2" >"$folder/first_line.hv"
        echo "instructions an event: $(((whole - $(instructions "$1" "$folder/first_line.hv")) / events))"
    fi
}

# Measures the script that bench/script prints at the words from $2 on, under a title.
measure_script() {
    "$root/bench/script" "${@:2}" >"$folder/script.hv"
    echo "== ${1:+$1, }$(stat -c %s "$folder/script.hv") bytes"
    measure "$program" "$folder/script.hv"
}
